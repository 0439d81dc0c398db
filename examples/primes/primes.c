// Two harts look for primes, with picolibc. Each takes the next number that nobody has taken, by an atomic addition, until
// none is left. Hart 0 waits for the other and prints: so what is printed does not depend on the order in which they take
// turns, nor on when power fails. Only hart 0 calls the library's functions, which know of one hart.
#include <stdbool.h>
#include <stdio.h>

enum { MOST = 1000 };

// Both harts write these two. Each has a block of 64 bytes of its own.
static _Alignas(64) unsigned long next = 2;
static _Alignas(64) unsigned long finished;

static bool found[MOST + 1];

static bool is_prime(unsigned long number) {
    for (unsigned long d = 2; d * d <= number; d++) {
        if (number % d == 0) {
            return false;
        }
    }
    return true;
}

static void work(void) {
    unsigned long number;
    while ((number = __atomic_fetch_add(&next, 1, __ATOMIC_RELAXED)) <= MOST) {
        found[number] = is_prime(number);
    }
    __atomic_fetch_add(&finished, 1, __ATOMIC_RELEASE);
}

// What hart 1 does.
void second(void) {
    work();
}

int main(void) {
    work();
    while (__atomic_load_n(&finished, __ATOMIC_ACQUIRE) < 2) {
    }
    unsigned long count = 0, sum = 0, last = 0;
    for (unsigned long number = 2; number <= MOST; number++) {
        if (found[number]) {
            count += 1;
            sum += number;
            last = number;
        }
    }
    printf("%lu primes up to %d, the last of them %lu\n", count, MOST, last);
    printf("their sum is %lu\n", sum);
}
