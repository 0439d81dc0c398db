// The array that `random`, `streaming` and `sliding` read and write, and one access of each: a word is read, and written
// with another value.
#ifndef ARRAY_H
#define ARRAY_H

#include "benchmark.h"

// The bytes of the array, and how many words are read and written.
#ifndef BYTES
#define BYTES 524288
#endif
#ifndef ACCESSES
#define ACCESSES 200000
#endif

enum { WORDS = BYTES / sizeof(uint64_t) };

static uint64_t array[WORDS];

static inline void change(uint64_t index) {
    add(array[index]);
    array[index] = checksum;
}

#endif
