// Reads and writes all words of an array, one after the other, and begins again at the end.
#include "array.h"

int main(void) {
    for (int k = 0; k < ACCESSES; k++) {
        change(k % WORDS);
    }
    print_checksum();
}
