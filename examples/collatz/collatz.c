// The exit code is how many steps 27 takes to reach 1 when an even number is halved and an odd one
// becomes three times itself and one: 111.

static unsigned long steps(unsigned long n) {
    unsigned long count = 0;
    while (n != 1) {
        n = n % 2 == 0 ? n / 2 : 3 * n + 1;
        count++;
    }
    return count;
}

static void exit_with(unsigned long code) {
    register unsigned long a0 asm("a0") = code;
    register unsigned long a7 asm("a7") = 93;
    asm volatile("ecall" : : "r"(a0), "r"(a7));
    __builtin_unreachable();
}

// In memory, so that the program has data and zeroed data to load.
volatile unsigned long first = 27;
volatile unsigned long result;

void _start(void) {
    result = steps(first);
    exit_with(result);
}
