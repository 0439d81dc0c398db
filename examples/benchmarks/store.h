// A key-value store, as hash_table.c and red_black_tree.c are one. A value has VALUE bytes, a multiple of 8.
#ifndef STORE_H
#define STORE_H

#include <stdbool.h>
#include <stdint.h>

#ifndef VALUE
#define VALUE 256
#endif

// How many keys there are: all of them with their values are about half a megabyte.
#ifndef KEYS
#define KEYS (524288 / (VALUE + 64))
#endif

enum { VALUE_WORDS = VALUE / sizeof(uint64_t) };

// Where the value of a key is, or a null pointer if the key is not there.
uint64_t *find(uint64_t key);

// The same of a key that is put there if it was not. Its value is then whatever its memory held. There is memory for all keys.
uint64_t *insert(uint64_t key);

// Takes a key away; whether it was there.
bool take_away(uint64_t key);

#endif
