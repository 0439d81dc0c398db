// A key-value store as a hash table: each bucket is a list of its entries.
#include <stdlib.h>
#include "store.h"

struct entry {
    struct entry *next;
    uint64_t key;
    uint64_t value[VALUE_WORDS];
};

enum { BUCKETS = 1024 };

static struct entry *buckets[BUCKETS];

// The pointer to a key's entry, or the null pointer at the end of its list.
static struct entry **link_to(uint64_t key) {
    struct entry **link = &buckets[(key * 0x9e3779b97f4a7c15 >> 32) % BUCKETS];
    while (*link != NULL && (*link)->key != key) {
        link = &(*link)->next;
    }
    return link;
}

uint64_t *find(uint64_t key) {
    struct entry *entry = *link_to(key);
    return entry == NULL ? NULL : entry->value;
}

uint64_t *insert(uint64_t key) {
    struct entry **link = link_to(key);
    if (*link == NULL) {
        struct entry *entry = malloc(sizeof *entry);
        if (entry == NULL) {
            abort();
        }
        entry->next = NULL;
        entry->key = key;
        *link = entry;
    }
    return (*link)->value;
}

bool take_away(uint64_t key) {
    struct entry **link = link_to(key), *entry = *link;
    if (entry == NULL) {
        return false;
    }
    *link = entry->next;
    free(entry);
    return true;
}
