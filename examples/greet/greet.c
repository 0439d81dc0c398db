// Reads a name and greets it, ten times over, so that the output spans several epochs of a run with short ones.
// The exit code is how many bytes the name has.
#include "../runtime/calls.h"

static char name[256];

static void print(const char *text, unsigned long length) {
    while (length > 0) {
        long taken = write_some(1, text, length);
        if (taken < 0) {
            exit(1);
        }
        text += taken;
        length -= (unsigned long)taken;
    }
}

static unsigned long read_name(void) {
    unsigned long length = 0;
    while (length < sizeof name) {
        long got = read_some(0, name + length, sizeof name - length);
        if (got <= 0) {
            break;
        }
        length += (unsigned long)got;
    }
    while (length > 0 && name[length - 1] == '\n') {
        length--;
    }
    return length;
}

int main(void) {
    unsigned long length = read_name();
    for (int i = 0; i < 10; i++) {
        char number[3] = {(char)('0' + i), ' ', 0};
        print(number, 2);
        print("Hello, ", 7);
        print(name, length);
        print("!\n", 2);
    }
    return (int)length;
}
