"""What a program can rely on that examples/runtime was linked to (its README): small programs, compiled and run."""

import subprocess

from lib import report, repository
from lib.repository import PROGRAM
from tests.support import ToolTest, needs, needs_program

CC = repository.path("examples", "runtime", "cc")

# Takes so many bytes of stack as the input says, 64 more for each call.
DEEP = """#include <stdio.h>
#include <stdlib.h>
#include <string.h>
static int data = 5;
__attribute__((noinline)) int use(int bytes) {
    volatile char here[64];
    here[0] = 1;
    return bytes <= 0 ? 0 : use(bytes - 64) + here[0];
}
int main(void) {
    char line[20];
    fgets(line, sizeof line, stdin);
    int calls = use(atoi(line));
    return calls > 0 && data == 5 ? 9 : 1;
}
"""

# Writes 4000 bytes, which the console has room for, and 200, of which 96 have; then it prints.
FULL = """#include <errno.h>
#include <stdio.h>
#include <string.h>
#include <unistd.h>
int main(void) {
    char text[4000];
    memset(text, 'x', sizeof text);
    int good = write(1, text, 4000) == 4000;
    errno = 0;
    good += 2 * (write(1, text, 200) == -1 && errno == ENOSPC);
    errno = 0;
    good += 4 * (printf("one more line\\n") < 0 && errno == ENOSPC);
    good += 8 * (ferror(stdout) != 0);
    clearerr(stdout);
    good += 16 * (puts("and one") == EOF);
    return good;
}
"""

# Has room for 96 bytes, and prints a line of 100.
PARTLY = """#include <errno.h>
#include <stdio.h>
#include <string.h>
#include <unistd.h>
int main(void) {
    char text[4001];
    memset(text, 'x', 4000);
    text[4000] = 0;
    write(1, text, 4000);
    int said = printf("%.100s\\n", text);
    return said < 0 && errno == ENOSPC && ferror(stdout) ? 3 : 4;
}
"""

# Compares the functions on memory with loops over bytes, at each offset within a word, and each length up to 40.
MEMORY = """#include <string.h>
static unsigned char from[64], to[64], wanted[64];
static void *(*volatile copy)(void *, const void *, size_t) = memcpy;
static void *(*volatile move)(void *, const void *, size_t) = memmove;
static void *(*volatile set)(void *, int, size_t) = memset;
static int (*volatile compare)(const void *, const void *, size_t) = memcmp;
static int differ(void) {
    for (int k = 0; k < 64; k++) {
        if (to[k] != wanted[k]) return 1;
    }
    return 0;
}
static void reset(void) {
    for (int k = 0; k < 64; k++) {
        from[k] = 100 + k;
        to[k] = wanted[k] = k;
    }
}
int main(void) {
    for (int a = 0; a < 12; a++) {
        for (int b = 0; b < 12; b++) {
            for (int n = 0; n <= 40; n++) {
                reset();
                for (int k = 0; k < n; k++) wanted[b + k] = from[a + k];
                if (copy(to + b, from + a, n) != to + b || differ()) return 1;
                reset();
                for (int k = 0; k < n; k++) wanted[b + k] = a + k;
                if (move(to + b, to + a, n) != to + b || differ()) return 2;
                reset();
                for (int k = 0; k < n; k++) wanted[b + k] = 200 + a;
                if (set(to + b, 256 + 200 + a, n) != to + b || differ()) return 3;
                if (compare(from + a, from + a, n) != 0) return 4;
                if (n > 0) {
                    from[n - 1] = 255;
                    to[n - 1] = 1;
                    for (int k = 0; k < n - 1; k++) to[k] = from[k];
                    if (compare(from, to, n) <= 0 || compare(to, from, n) >= 0 || compare(from, to, n - 1) != 0) return 5;
                }
            }
        }
    }
    return 0;
}
"""

# Copies 16,384 bytes as far apart as the compiler's option says.
COPY = """#include <string.h>
static _Alignas(8) char from[16384 + 8], to[16384 + 8];
static void *(*volatile copy)(void *, const void *, size_t) = memcpy;
int main(void) {
    copy(to + APART, from, 16384);
    return 0;
}
"""

# Takes blocks of 1000 bytes until there are none, and says how many there were.
HEAP = """#include <stdio.h>
#include <stdlib.h>
int main(void) {
    int count = 0;
    while (malloc(1000) != NULL) count++;
    printf("%d\\n", count);
}
"""

# Without a C library.
BARE = """#include "calls.h"
struct large { char bytes[100]; };
int main(void) {
    struct large one = {{7}}, other = one;
    write_some(1, "bare\\n", 5);
    return other.bytes[0];
}
"""

PLUS = """#include <stdio.h>
struct Base { virtual ~Base() {} virtual int number() const = 0; };
struct Derived : Base { int number() const override { return 6; } };
struct Said { Said() { puts("before"); } ~Said() { puts("after"); } } said;
int main() {
    Base *made = new Derived;
    int number = made->number();
    delete made;
    return number;
}
"""


@needs("riscv64-unknown-elf-gcc")
class Runtime(ToolTest):
    def compiled(self, source, *words, name="program.c"):
        """Compiles a source; the path of the program. Nothing is to be said by the compiler."""
        program = self.path("program.elf")
        done = subprocess.run([CC, "-Wall", "-Wextra", "-o", program, self.file(name, source), *words], capture_output=True, text=True)
        self.assertEqual((done.stdout, done.stderr, done.returncode), ("", "", 0))
        return program

    def ran(self, program, *words, command="plain", source=""):
        """Runs a program: what it printed, and how it ended."""
        call = [PROGRAM, command, program, "--input", self.file("input", source), *words]
        done = subprocess.run(call, capture_output=True, text=True)
        end = report.events(done.stderr.splitlines(), report.Ended)
        self.assertEqual(len(end), 1, done.stderr)
        return done.stdout, end[0]

    def ends(self, program, word, number, *words, **more):
        out, end = self.ran(program, *words, **more)
        self.assertEqual((end.word, end.number), (word, number))
        return out

    def sections(self, program):
        done = subprocess.run(["riscv64-unknown-elf-objdump", "-h", program], capture_output=True, text=True, check=True)
        return done.stdout

    def test_debug_sections(self):
        for words, kept in ((["-g"], True), (["-ggdb3"], True), ([], False), (["-g", "-g0"], False)):
            program = self.compiled(FULL, *words)
            self.assertEqual(".debug_info" in self.sections(program), kept)

    @needs_program()
    def test_a_stack_that_overflows(self):
        program = self.compiled(DEEP)
        self.ends(program, "exit", 9, source="20000\n")
        # A frame has more than its 64 bytes: so many are sure to be too many for 65536.
        self.ends(program, "trap", 7, source="65536\n")
        self.ends(program, "trap", 7, command="run", source="65536\n")
        self.ends(program, "trap", 7, source="1000000000\n")

    @needs_program()
    def test_a_stack_of_another_size(self):
        large = self.compiled(DEEP, "-Wl,--defsym=__stack_size=0x40000")
        self.ends(large, "exit", 9, source="65536\n")
        self.ends(large, "trap", 7, source="300000\n")
        # At the end of memory, it takes what is free: more than 65536 bytes.
        none = self.compiled(DEEP, "-Wl,--defsym=__stack_size=0")
        self.ends(none, "exit", 9, source="65536\n")

    @needs_program()
    def test_a_full_console(self):
        program = self.compiled(FULL)
        self.assertEqual(self.ends(program, "exit", 31), "x" * 4096)
        self.assertEqual(self.ends(self.compiled(PARTLY), "exit", 3), "x" * 4096)

    @needs_program()
    def test_memory(self):
        self.ends(self.compiled(MEMORY, "-Wno-sign-compare"), "exit", 0)

    @needs_program()
    def test_words_are_copied(self):
        # 2048 words, or 16,384 bytes, each by three instructions at least and eight at most.
        for apart, low, high in ((0, 3 * 2048, 8 * 2048 + 1000), (4, 3 * 16384, 8 * 16384 + 1000)):
            _, end = self.ran(self.compiled(COPY, f"-DAPART={apart}"))
            self.assertTrue(low < end.count < high, end.count)

    @needs_program()
    def test_the_heap(self):
        # Of 128 pages, 127 are memory: 520,192 bytes. The stack has 65,536, and what is linked less than 16,384.
        out = self.ends(self.compiled(HEAP), "exit", 0, "--pages", "128")
        self.assertTrue(520_192 - 65_536 - 16_384 < 1024 * int(out) < 520_192 - 65_536, out)
        # With the stack at the end of memory, 65,792 bytes of it are left for that.
        other = self.ends(self.compiled(HEAP, "-Wl,--defsym=__stack_size=0"), "exit", 0, "--pages", "128")
        self.assertTrue(abs(int(out) - int(other)) < 8, other)

    @needs_program()
    def test_one_that_is_for_one_hart(self):
        # The second hart does nothing.
        program = self.compiled(PLUS, repository.path("examples/runtime/new.cc"), name="program.cc")
        out = self.ends(program, "exit", 6, "--harts", "2", command="run")
        self.assertEqual(out, "before\nafter\n")

    @needs_program()
    def test_one_without_a_library(self):
        runtime = repository.path("examples", "runtime")
        program, source = self.path("bare.elf"), self.file("bare.c", BARE)
        words = "-march=rv64im -mabi=lp64 -ffreestanding -static -nostdlib -nostartfiles -O2 -s -Wl,--defsym=__stack_size=4096".split()
        files = [f"{runtime}/{name}" for name in ("crt0.s", "calls.c", "memory.c")]
        gcc = ["riscv64-unknown-elf-gcc", *words, f"-I{runtime}", "-T", f"{runtime}/thynvm.ld", "-o", program, *files, source]
        done = subprocess.run(gcc, capture_output=True, text=True)
        self.assertEqual((done.stderr, done.returncode), ("", 0))
        self.assertEqual(self.ends(program, "exit", 7, "--pages", "8"), "bare\n")
