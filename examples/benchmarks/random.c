// Reads and writes words anywhere in an array.
#include "array.h"

int main(void) {
    for (int k = 0; k < ACCESSES; k++) {
        change(random_below(WORDS));
    }
    print_checksum();
}
