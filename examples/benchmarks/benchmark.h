// What the benchmarks share: numbers that look random and are the same in each run, and the line that a program ends with.
#ifndef BENCHMARK_H
#define BENCHMARK_H

#include <stdint.h>
#include <stdio.h>

// The state of a linear congruential generator, with the constants of Knuth's MMIX.
static uint64_t generator = 1;

// A number below a bound, which is at most 2^32.
static inline uint64_t random_below(uint64_t bound) {
    generator = generator * 6364136223846793005 + 1442695040888963407;
    return (generator >> 32) * bound >> 32;
}

// A checksum of all that was added to it, in its order, with the constants of the hash function FNV-1a.
static uint64_t checksum = 14695981039346656037u;

static inline void add(uint64_t value) {
    checksum = (checksum ^ value) * 1099511628211;
}

static inline void print_checksum(void) {
    printf("checksum %016llx\n", (unsigned long long)checksum);
}

#endif
