"""tools/image, on images that are made by hand."""

import os
import struct
import subprocess
import sys

from tests.support import ToolTest, needs
from tests.made_images import Made, words

REGISTERS = "zero ra sp gp tp t0 t1 t2 s0 s1 a0 a1 a2 a3 a4 a5 a6 a7 s2 s3 s4 s5 s6 s7 s8 s9 s10 s11 t3 t4 t5 t6".split()


def registers(first=100, more=""):
    """Register k with first + k, as names and numbers in hexadecimal."""
    return [f"{name + more:>4} {first + k if k else 0:016x}" for k, name in enumerate(REGISTERS)]


def rows(cells):
    return ["  ".join(cells[k : k + 4]) for k in range(0, len(cells), 4)]


HEAD = [
    "options     --base 65536 --pages 8 --console 1 --btt 8 --ptt 8",
    "epoch       5",
    "count       60 instructions",
]

REST = [
    "input read  2 bytes",
    "break       0x10040, not below 0x10010",
    "pc          0x10004",
]

CONSOLE = ["console     3 bytes of 4096", "  | Hi"]


def text(lines):
    return "\n".join(lines) + "\n"


class Image(ToolTest):
    tool = "image"

    def image(self, made, name="image"):
        return self.file(name, made.bytes)

    def test_help(self):
        self.has_help()

    def test_both_tables(self):
        # Entry 2 of the block table lists block 5, entry 1 of the page table the console's page; page 3 had nine stores.
        made = Made().entry(2, 6).entry(9, 8).count(3, 9).count(7, 1)
        made.put(536 + 64, b"Hi\n")
        wanted = ["version     2", "scheme      thynvm", *HEAD, "status      running", *REST, *rows(registers()), *CONSOLE]
        wanted += ["block table 1 of 8 entries", "  entry 2 lists block 5, at 0x10140"]
        wanted += ["page table  1 of 8 entries", "  entry 1 lists page 7, of the console"]
        wanted += ["counts      2 of 8 pages", "  page 3 had 9 stores, at 0x13000", "  page 7 had 1 store, of the console"]
        self.prints(text(wanted), self.image(made))

    def test_version_one(self):
        made = Made(version=1, status=1, number=7)
        wanted = ["version     1", "scheme      thynvm", *HEAD, "status      exited with 7", *REST, *rows(registers()), *CONSOLE]
        wanted += ["block table 0 of 8 entries", "page table  0 of 8 entries"]
        self.prints(text(wanted), self.image(made))

    def test_version_two_behind_a_header_of_version_one(self):
        done = self.call(self.image(Made(header_version=1)))
        self.assertEqual((done.out.splitlines()[0], done.status), ("version     2", 0))

    def test_two_harts(self):
        made = Made(harts=2, status=2, number=5)
        lines = ["version     2", "scheme      thynvm", *HEAD, "status      trapped with 5", *REST]
        lines += ["pc 1        0x10008", "reserved 0  none", "reserved 1  8 bytes at 0x10080"]
        lines += rows([*registers(), *registers(200, " 1")])
        done = self.call(self.image(made))
        self.assertEqual((done.out.splitlines()[: len(lines)], done.status), (lines, 0))

    def test_the_journal(self):
        # Epoch 5 is in slot 1, whose journal begins at block 534; entry 0 lists block 448, the console's first.
        made = Made(scheme=1).entry(0, 449).put(534, b"Ho\n")
        wanted = ["version     2", "scheme      journal", *HEAD, "status      running", *REST, *rows(registers())]
        wanted += ["console     3 bytes of 4096", "  | Ho", "table       1 of 8 entries", "  entry 0 lists block 448, of the console"]
        self.prints(text(wanted), self.image(made))

    def test_shadow_paging(self):
        # Page 0 of memory stands in page 8 of the pool.
        made = Made(scheme=2).entry(0, 9).put(14 + 64 * 8, b"\1\2\3\4")
        wanted = ["version     2", "scheme      shadow", *HEAD, "status      running", *REST, *rows(registers()), *CONSOLE]
        wanted += ["map         8 of 8 entries", "  page 0, at 0x10000, stands in page 8 of the pool"]
        wanted += [f"  page {k}, at 0x1{k}000, stands in page {k} of the pool" for k in range(1, 7)]
        wanted += ["  page 7, of the console, stands in page 7 of the pool", "memory"]
        wanted += ["00010000  01 02 03 04 00 00 00 00  00 00 00 00 00 00 00 00  |................|"]
        self.prints(text(wanted), self.image(made), "--memory", "65536-0x10010")

    def test_memory(self):
        made = Made().put(16, b"ABCDEFGHIJKLMNOP")
        done = self.call(self.image(made), "--memory")
        dumped = done.out.split("memory\n")[1]
        first = "00010000  41 42 43 44 45 46 47 48  49 4a 4b 4c 4d 4e 4f 50  |ABCDEFGHIJKLMNOP|"
        zeros = "00010010  00 00 00 00 00 00 00 00  00 00 00 00 00 00 00 00  |................|"
        self.assertEqual(dumped, text([first, zeros, "*"]))

    def test_two_that_are_the_same(self):
        self.prints("the two are the same\n", self.image(Made()), self.image(Made(), "other"))

    def test_two_that_differ(self):
        other = Made(epoch=6, count=61, console=2, status=1, number=3).entry(2, 6).count(3, 9)
        other.word(other.slot, 10, 5).put(16, b"\1" * 9).put(528 + 2, b"\0" * 8)
        wanted = ["epoch: 5 / 6", "count: 60 instructions / 61 instructions", "status: running / exited with 3"]
        wanted += ["a0: 0x6e / 0x5", "console: 3 / 2 bytes, of which the first 2 are the same"]
        wanted += ["block table: the second alone lists blocks 5", "count of page 3: 0 / 9"]
        wanted += [f"memory 0x10000, 16 bytes: {' '.join(['00'] * 16)} / {' '.join(['01'] * 9 + ['00'] * 7)}"]
        self.prints(text(wanted), self.image(Made()), self.image(other, "other"), status=1)

    def test_two_schemes_and_two_maps(self):
        done = self.call(self.image(Made(scheme=1)), self.image(Made(scheme=2), "other"))
        self.assertEqual((done.out, done.status), ("scheme: journal / shadow\n", 1))
        done = self.call(self.image(Made(scheme=2)), self.image(Made(scheme=2).entry(2, 9), "other"))
        self.assertEqual((done.out, done.status), ("map: page 2 stands in page 2 / 8 of the pool\n", 1))

    def test_refusals_of_images(self):
        none = words(*[0] * 8)
        for made, said in (
            (Made().put(0, b"X"), "it does not begin with the header of an image"),
            (Made().word(0, 1, 3), "it has version 3 of scheme 0, and this script knows 1 of scheme 0, 2 of scheme 0"),
            (Made().word(0, 7, 3), "it has version 2 of scheme 3"),
            (Made().word(0, 7, 512), "it is of 3 harts, and this script knows one and two"),
            (Made(harts=2).word(0, 1, 1), "it has version 1, which knows one hart only, and is of two"),
            (Made().word(0, 3, 9), "it has 68096 bytes, and with its options has to have 72192"),
            (Made(version=1).word(0, 3, 9), "it has 67072 bytes, and with its options has to have 71168 or 72192"),
            (Made().put(1, none), "it holds no checkpoint (--base 65536 --pages 8 --console 1 --btt 8 --ptt 8)"),
            (Made().put(0, none).put(1, none), "it holds no checkpoint, and no header"),
            (Made().put(1, b"X"), "its commit block is not one"),
            (Made().word(1, 7, 1), "its commit block is not one"),
            (Made(scheme=1).put(1, b"THYNCMT1"), "its commit block is not one"),
            (Made(version=1, header_version=2), "its header is of version 2, and its commit block of version 1"),
            (Made().word(1, 1, 7), "its commit block names epoch 7, and the record there is of epoch 5"),
            (Made(harts=2).word(1048 + 13 + 9, 0, 5), "the words of its second hart have no meaning"),
            (Made(scheme=2).entry(3, 0), "its map has no page of the pool for page 3 of memory"),
        ):
            with self.subTest(said=said):
                self.refuses(said, self.image(made))
        self.refuses("it has 100 bytes, and not the 128", self.file("image", bytes(100)))
        self.refuses("No such file", self.path("none"))

    def test_refusals_of_words(self):
        name = self.image(Made())
        self.refuses("the following arguments are required: IMAGE")
        self.refuses("--memory shows the memory of one image", name, name, "--memory")
        self.refuses("unrecognized arguments: --pages", name, "--pages")
        self.refuses("these are not addresses: x", name, "--memory", "x")
        self.refuses("program memory is 0x10000 to 0x17000, and 0-65536 is not in it", name, "--memory", "0-65536")

    def test_a_reader_that_has_enough(self):
        other = self.image(Made(epoch=6), "other")
        for more in ([], [other]):
            reading, writing = os.pipe()
            os.close(reading)
            command = [sys.executable, f"{self.tools}/image", self.image(Made()), *more]
            done = subprocess.run(command, stdout=writing, stderr=subprocess.PIPE)
            os.close(writing)
            self.assertEqual((done.stderr, done.returncode), (b"", 0))


# A core of one hart over seven pages, up to its note: the file's header, the headers of note and memory, and the note's own.
CORE_HEAD = (
    "7f454c46 02010100 00000000 00000000 0400f300 01000000 00000000 00000000"
    "40000000 00000000 00000000 00000000 00000000 40003800 02000000 00000000"
    "04000000 00000000 b0000000 00000000 00000000 00000000 00000000 00000000"
    "8c010000 00000000 00000000 00000000 04000000 00000000"
    "01000000 07000000 00100000 00000000 00000100 00000000 00000000 00000000"
    "00700000 00000000 00700000 00000000 00100000 00000000"
    "05000000 78010000 01000000 434f5245 00000000"
)

# Where the first note's content is, and how many bytes a note has.
CONTENT, NOTE = 0xC4, 396

# Functions that are called: _start calls outer, and outer inner. Each instruction has four bytes.
FRAMES = """    .text
    .globl _start
_start:
    jal outer
    .type outer, @function
outer:
    .cfi_startproc
    addi sp, sp, -16
    .cfi_def_cfa_offset 16
    sd ra, 8(sp)
    .cfi_offset ra, -8
    jal inner
    j .
    .cfi_endproc
    .type inner, @function
inner:
    .cfi_startproc
    nop
    ret
    .cfi_endproc
"""


class Core(ToolTest):
    tool = "image"

    def core(self, made):
        """The bytes of the core of an image."""
        image, name = self.file("image", made.bytes), self.path("core")
        self.prints("", "--core", image, name)
        with open(name, "rb") as file:
            return file.read()

    def test_bytes(self):
        core = self.core(Made().put(16, b"ABC"))
        self.assertEqual(len(core), 4096 + 7 * 4096)
        self.assertEqual(core[:CONTENT].hex(), CORE_HEAD.replace(" ", ""))
        # Signal 0, process 1, pc and x1 to x31, and eight bytes that say nothing.
        note = bytes(32) + struct.pack("<I", 1) + bytes(76) + words(65540, *range(101, 132)) + bytes(8)
        self.assertEqual(core[CONTENT : CONTENT + 376], note)
        self.assertEqual(core[CONTENT + 376 :], bytes(4096 - CONTENT - 376) + b"ABC" + bytes(7 * 4096 - 3))

    def test_memory_of_each_layout(self):
        # Block 5 of memory, at byte 320, stands in an alternate block, in the journal of slot 1, or in a page of the pool.
        for made in (
            Made().entry(2, 6).put(530, b"here").put(16 + 5, b"home"),
            Made(version=1).entry(2, 6).put(530, b"here").put(16 + 5, b"home"),
            Made(scheme=1).entry(2, 6).put(536, b"here").put(14 + 5, b"home"),
            Made(scheme=2).entry(0, 9).put(14 + 64 * 8 + 5, b"here").put(14 + 5, b"home"),
        ):
            core = self.core(made)
            self.assertEqual((core[4096:4416], core[4416:4424]), (bytes(320), b"here\0\0\0\0"))
            self.assertEqual(core[:CONTENT].hex(), CORE_HEAD.replace(" ", ""))

    def test_two_harts(self):
        core = self.core(Made(harts=2, status=2, number=7))
        # The notes have 792 bytes; a store outside memory is SIGSEGV.
        self.assertEqual(struct.unpack_from("<Q", core, 64 + 32), (792,))
        for hart, pc, first in ((0, 65540, 100), (1, 65544, 200)):
            content = core[CONTENT + NOTE * hart :]
            self.assertEqual(struct.unpack_from("<H18xI", content, 12), (11, hart + 1))
            self.assertEqual(content[112:368], words(pc, *(first + k for k in range(1, 32))))

    def test_signals(self):
        # As Linux has them: SIGBUS 7, SIGSEGV 11, SIGILL 4, SIGTRAP 5. A program that runs or has exited has none.
        for status, number, signal in (
            *((2, trap, signal) for trap, signal in enumerate((7, 11, 4, 5, 7, 11, 7, 11))),
            (0, 0, 0),
            (1, 5, 0),
        ):
            core = self.core(Made(status=status, number=number))
            self.assertEqual(core[CONTENT + 12], signal)

    @needs("gdb-multiarch", "riscv64-unknown-elf-gcc")
    def test_in_gdb(self):
        source, program, name = self.file("frames.s", FRAMES), self.path("frames.elf"), self.path("core")
        gcc = ["riscv64-unknown-elf-gcc", "-march=rv64im", "-mabi=lp64", "-nostdlib", "-static", "-g", "-Wl,-Ttext=0x10000"]
        subprocess.run([*gcc, "-o", program, source], check=True)
        # pc is at the return of inner, ra behind the call in outer, and on the stack is what is behind the call in _start.
        made = Made(harts=2)
        for k, number in ((0, 0x10018), (1, 0x10010), (2, 0x16FF0), (40, 0x10014), (41, 0x10010), (42, 0x16FF0)):
            made.word(made.slot, k, number)
        made.word(16 + 447, 7, 0x10004)
        self.prints("", "--core", self.file("image", made.bytes), name)
        asked = ["bt", "print $x31", "x/gx $sp + 8", "thread 2", "bt 1", "print $a0"]
        gdb = ["gdb-multiarch", "-q", "-nx", "-batch", *(word for command in asked for word in ("-ex", command)), program, name]
        out = subprocess.run(gdb, capture_output=True, text=True, check=True).stdout
        for line in (
            r"#0  inner \(\) at .*frames\.s:19",
            r"#1  0x0*10010 in outer \(\) at .*frames\.s:12",
            r"#2  0x0*10004 in _start \(\) at .*frames\.s:4",
            r"\$1 = 131",
            r"0x16ff8:\s+0x0*10004",
            r"#0  inner \(\) at .*frames\.s:18",
            r"\$2 = 210",
        ):
            self.assertRegex(out, rf"(?m)^{line}$")

    def test_refusals(self):
        name = self.file("image", Made().bytes)
        self.refuses("--core needs two names, IMAGE and CORE", "--core", name)
        self.refuses("the following arguments are required: IMAGE", "--core")
        self.refuses("--core shows no memory: the core has all of it", "--core", name, self.path("core"), "--memory")
        self.refuses(f"{name} is the image itself", "--core", name, name)
        self.refuses("No such file", "--core", self.path("none"), self.path("core"))
        self.refuses("No such file", "--core", name, self.path("none", "core"))
        bad = self.file("bad", Made().put(1, words(*[0] * 8)).bytes)
        self.refuses("it holds no checkpoint", "--core", bad, self.path("core"))
        with open(name, "rb") as file:
            self.assertEqual(file.read(), Made().bytes)
