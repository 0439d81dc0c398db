// Two harts over one memory: hart 1 sends the squares of 1 to 100 through a queue of 16 places, and hart 0 adds them up. For
// each number both harts count one under a lock, and one by an atomic addition. So what is printed does not depend on
// the order in which they take turns, nor on when power fails.
#include "../runtime/calls.h"

enum { NUMBERS = 100, PLACES = 16 };

// Each variable that both harts write has a block of 64 bytes of its own: a write of one hart takes the other's
// reservation of the whole block.
#define APART _Alignas(64)

// Whether a hart is in the part of the program that the lock guards, and what it guards.
static APART unsigned long taken_by_one;
static APART unsigned long guarded;

static APART unsigned long added;

static APART unsigned long places[PLACES];
static APART unsigned long sent;
static APART unsigned long received;

static APART unsigned long finished;

// By LR and SC: the lock is taken as soon as it is found free and is still so at the store.
static void lock(void) {
    unsigned long found, failed;
    do {
        asm volatile("0: lr.d.aq %0, (%2)\n"
                     "bnez %0, 0b\n"
                     "sc.d %1, %3, (%2)"
                     : "=&r"(found), "=&r"(failed)
                     : "r"(&taken_by_one), "r"(1UL)
                     : "memory");
    } while (failed);
}

static void unlock(void) {
    __atomic_store_n(&taken_by_one, 0, __ATOMIC_RELEASE);
}

static void count(void) {
    lock();
    guarded += 1;
    unlock();
    // This is an AMOADD.
    __atomic_fetch_add(&added, 1, __ATOMIC_RELAXED);
}

static void send(unsigned long number) {
    unsigned long at = sent;
    while (at - __atomic_load_n(&received, __ATOMIC_ACQUIRE) == PLACES) {
    }
    places[at % PLACES] = number;
    __atomic_store_n(&sent, at + 1, __ATOMIC_RELEASE);
}

static unsigned long receive(void) {
    unsigned long at = received;
    while (__atomic_load_n(&sent, __ATOMIC_ACQUIRE) == at) {
    }
    unsigned long number = places[at % PLACES];
    __atomic_store_n(&received, at + 1, __ATOMIC_RELEASE);
    return number;
}

// What hart 1 does.
void second(void) {
    for (unsigned long i = 1; i <= NUMBERS; i++) {
        send(i * i);
        count();
    }
    __atomic_store_n(&finished, 1, __ATOMIC_RELEASE);
}

// Prints a word, a number and a line feed.
static void print(const char *word, unsigned long length, unsigned long number) {
    char digits[20];
    unsigned long first = sizeof digits;
    digits[--first] = '\n';
    do {
        digits[--first] = (char)('0' + number % 10);
        number /= 10;
    } while (number > 0);
    write_some(1, word, length);
    write_some(1, digits + first, sizeof digits - first);
}

// What hart 0 does.
int main(void) {
    unsigned long sum = 0;
    for (int i = 0; i < NUMBERS; i++) {
        sum += receive();
        count();
    }
    while (__atomic_load_n(&finished, __ATOMIC_ACQUIRE) == 0) {
    }
    print("sum ", 4, sum);
    print("counted under the lock ", 23, guarded);
    print("counted by additions ", 21, added);
    return guarded == added ? 0 : 1;
}
