// Reads and writes words anywhere in a region of an array, and then in the region behind it. The last is followed by the first.
#include "array.h"

// The bytes of a region, and how many of its words are read and written before the next one.
#ifndef REGION
#define REGION 16384
#endif
#ifndef STAY
#define STAY 2000
#endif

enum { REGION_WORDS = REGION / sizeof(uint64_t), REGIONS = BYTES / REGION };

int main(void) {
    for (int k = 0; k < ACCESSES; k++) {
        int region = k / STAY % REGIONS;
        change(region * REGION_WORDS + random_below(REGION_WORDS));
    }
    print_checksum();
}
