// Adds up the numbers of its input, one a line, and prints the sum after each. Where the input ends it waits for more: it
// reads again and again, until the line `end` comes. A run has all of its input from the beginning, so more can only come
// when the run was stopped and saved: the call that goes on from the image may have a longer input.
#include <stdio.h>
#include <stdlib.h>
#include <string.h>
#include "../runtime/calls.h"

static char next(void) {
    static char bytes[64];
    static long count, at;
    while (at >= count) {
        at = 0;
        count = read_some(0, bytes, sizeof bytes);
    }
    return bytes[at++];
}

// The next line, without its line feed, and cut off to its place.
static void read_line(char *line, size_t room) {
    size_t length = 0;
    for (char c = next(); c != '\n'; c = next()) {
        if (length + 1 < room) {
            line[length++] = c;
        }
    }
    line[length] = '\0';
}

int main(void) {
    char line[32];
    long sum = 0;
    for (read_line(line, sizeof line); strcmp(line, "end") != 0; read_line(line, sizeof line)) {
        sum += strtol(line, NULL, 10);
        printf("%ld\n", sum);
    }
    puts("that is all");
}
