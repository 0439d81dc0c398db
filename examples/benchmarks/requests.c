// Requests to a key-value store, a third of each kind: a value is read, written or taken away. All stores answer the same, so
// the programs print the same checksum.
#include <string.h>
#include "benchmark.h"
#include "store.h"

#ifndef REQUESTS
#define REQUESTS 10000
#endif

static uint64_t request[VALUE_WORDS];

static void read_value(uint64_t key) {
    const uint64_t *value = find(key);
    if (value == NULL) {
        add(0);
        return;
    }
    memcpy(request, value, VALUE);
    for (int k = 0; k < VALUE_WORDS; k++) {
        add(request[k]);
    }
}

static void write_value(uint64_t key, uint64_t number) {
    for (int k = 0; k < VALUE_WORDS; k++) {
        request[k] = key + number * (k + 1);
    }
    memcpy(insert(key), request, VALUE);
}

int main(void) {
    for (uint64_t number = 1; number <= REQUESTS; number++) {
        uint64_t key = random_below(KEYS);
        switch (random_below(3)) {
        case 0:
            read_value(key);
            break;
        case 1:
            write_value(key, number);
            break;
        default:
            add(take_away(key));
        }
    }
    print_checksum();
}
