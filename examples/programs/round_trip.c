// Compresses the input by zlib, expands it again and compares. It prints how many bytes there were, how many when
// compressed, and the CRC-32 of the input. The exit code is 1 where what comes back differs.
#include <stdio.h>
#include <stdlib.h>
#include <string.h>
#include "zlib.h"

enum { ROOM = 160000 };

static unsigned char input[ROOM], packed[ROOM], output[ROOM];

int main(void) {
    size_t length = fread(input, 1, sizeof input, stdin);
    uLongf packed_length = sizeof packed, output_length = sizeof output;
    if (getchar() != EOF) {
        fprintf(stderr, "the input has more than %d bytes\n", ROOM);
        return 1;
    }
    if (compress2(packed, &packed_length, input, length, 9) != Z_OK ||
        uncompress(output, &output_length, packed, packed_length) != Z_OK) {
        fprintf(stderr, "zlib failed\n");
        return 1;
    }
    printf("%lu bytes, %lu compressed, CRC-32 %08lx\n", (unsigned long)length, (unsigned long)packed_length,
        (unsigned long)crc32(0, input, (uInt)length));
    if (output_length != length || memcmp(input, output, length) != 0) {
        fprintf(stderr, "what came back differs\n");
        return 1;
    }
    return 0;
}
