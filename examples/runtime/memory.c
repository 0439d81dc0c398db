// Functions on memory that the compiler calls by itself, also in a program without a C library; with one they stand in
// place of the library's. `memcpy` and `memset` go by words of eight bytes where that is possible.
#include <stddef.h>

// Else the compiler would make of a loop that copies a call of the function that the loop is in.
#pragma GCC optimize("no-tree-loop-distribute-patterns")

typedef unsigned long __attribute__((may_alias)) word;

enum { BYTES = sizeof(word) };

// Copies from the front to the back.
static void copy(char *at, const char *source, size_t length) {
    // Both are at the beginning of a word after as many bytes.
    if ((((size_t)at ^ (size_t)source) & (BYTES - 1)) == 0) {
        while (length > 0 && ((size_t)at & (BYTES - 1)) != 0) {
            *at++ = *source++;
            length--;
        }
        for (; length >= BYTES; length -= BYTES) {
            *(word *)at = *(const word *)source;
            at += BYTES;
            source += BYTES;
        }
    }
    for (; length > 0; length--) {
        *at++ = *source++;
    }
}

void *memcpy(void *restrict to, const void *restrict from, size_t length) {
    copy(to, from, length);
    return to;
}

void *memmove(void *to, const void *from, size_t length) {
    char *at = to;
    const char *source = from;
    if ((size_t)at - (size_t)source >= length) {
        // What is overwritten was copied before.
        copy(at, source, length);
        return to;
    }
    while (length > 0) {
        length--;
        at[length] = source[length];
    }
    return to;
}

void *memset(void *to, int value, size_t length) {
    char *at = to;
    while (length > 0 && ((size_t)at & (BYTES - 1)) != 0) {
        *at++ = (char)value;
        length--;
    }
    // The byte in each place of a word.
    for (word all = (unsigned char)value * (~0UL / 255); length >= BYTES; length -= BYTES) {
        *(word *)at = all;
        at += BYTES;
    }
    for (; length > 0; length--) {
        *at++ = (char)value;
    }
    return to;
}

int memcmp(const void *one, const void *other, size_t length) {
    const unsigned char *a = one, *b = other;
    for (; length > 0; length--, a++, b++) {
        if (*a != *b) {
            return *a - *b;
        }
    }
    return 0;
}
