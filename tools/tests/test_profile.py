"""tools/profile, on program files that are made here and texts that are written by hand."""

import struct

from lib import repository, written
from tests.support import CopyTest

# What `observe` writes of a run that retired 230 instructions, and how often each program counter did.
COUNTED = f"{written.CUTS}pcs\n10000 30\n10004 100\n10010 60\n10014 20\n10020 15\n2000c 5\n"

# The last seven instructions of such a run, as a trace has them: those of sum_of load and store.
TRACED = f"""{written.CUTS}trace
1500 0 10004 fff30313
1502 0 10000 5d00893
1505 0 10010 52a223 11004 4 11000
1508 0 10014 52c303 11005 1 10
1511 0 10010 52a223 11004 4 11001
1513 0 10020 73
1515 0 2000c -
"""

# The kinds of a symbol: a label and a function, a global one as that has 16 more.
LABEL, OBJECT, FUNCTION, GLOBAL = 0, 1, 2, 16

# Two functions, a label within the first and one behind both, and names that are none of a function.
SYMBOLS = (
    ("main", GLOBAL + FUNCTION, 1, 0x10000, 0x10),
    ("loop", LABEL, 1, 0x10004, 0),
    ("sum_of", FUNCTION, 1, 0x10010, 8),
    ("_start", GLOBAL + LABEL, 1, 0x10020, 0),
    ("$x", LABEL, 1, 0x10014, 0),
    (".L1", LABEL, 1, 0x10014, 0),
    ("table", OBJECT, 1, 0x10014, 8),
    ("data", LABEL, 2, 0x10014, 0),
    ("elsewhere", FUNCTION, 0, 0x10014, 8),
)

HEADINGS = "     retired   share  function\n"


def program(symbols=SYMBOLS):
    """A program file with sections of instructions, of data, of symbols and of their names."""
    names, entries = b"\0", bytes(24)
    for name, kind, section, address, size in symbols:
        entries += struct.pack("<IBBHQQ", len(names), kind, 0, section, address, size)
        names += name.encode() + b"\0"
    sections = [(0, 0, 0, 0, 0, 0)]
    sections += [(1, 6, 0x10000, 0, 0, 0), (1, 3, 0x20000, 0, 0, 0)]
    sections += [(2, 0, 0, 64, len(entries), 4), (3, 0, 0, 64 + len(entries), len(names), 0)]
    start = b"\x7fELF\2\1\1" + bytes(9) + struct.pack("<HHIQQQ", 2, 243, 1, 0x10000, 0, 64 + len(entries) + len(names))
    start += struct.pack("<IHHHHHH", 0, 64, 56, 0, 64, len(sections), 0)
    tables = b"".join(
        struct.pack("<IIQQQQIIQQ", 0, kind, flags, address, place, size, link, 0, 1, 24 if kind == 2 else 0)
        for kind, flags, address, place, size, link in sections
    )
    return start + entries + names + tables


class Profile(CopyTest):
    tool = "profile"

    def setUp(self):
        super().setUp()
        self.elf, self.out = self.file("a.elf", program()), self.file("a.out", COUNTED)

    def test_help(self):
        self.has_help()

    def test_by_function(self):
        # 30 + 100 of main, 60 + 20 of sum_of. How far _start reaches no symbol says, so the last two are its.
        rows = "         130   56.5%  main\n          80   34.8%  sum_of\n          20    8.7%  _start\n"
        self.prints(f"{HEADINGS}{rows}         230  100.0%  in all\n", self.elf, self.out)
        self.prints(f"{HEADINGS}{rows}         230  100.0%  in all\n", self.elf, "-", source=COUNTED)

    def test_folded(self):
        self.prints("main 130\nsum_of 80\n_start 20\n", "--folded", self.elf, self.out)

    def test_of_a_trace(self):
        out = self.file("b.out", TRACED)
        self.prints("sum_of 3\n_start 2\nmain 2\n", "--folded", self.elf, out)
        # With both sections, what was counted of the whole run stands.
        both = self.file("c.out", COUNTED + TRACED.removeprefix(written.CUTS))
        self.prints("main 130\nsum_of 80\n_start 20\n", "--folded", self.elf, both)
        none = self.file("d.out", f"{written.CUTS}trace\nnone\n")
        self.prints(f"{HEADINGS}           0    0.0%  in all\n", self.elf, none)

    def test_past_a_function(self):
        elf = self.file("b.elf", program(SYMBOLS[:3]))
        self.prints("main 130\nsum_of 80\n0x10020 15\n0x2000c 5\n", "--folded", elf, self.out)

    def test_without_symbols(self):
        for elf in (self.file("b.elf", program(())), repository.path("examples/greet/greet.elf")):
            wanted = "0x10004 100\n0x10010 60\n0x10000 30\n0x10014 20\n0x10020 15\n0x2000c 5\n"
            self.prints(wanted, "--folded", elf, self.out)

    def test_no_instruction(self):
        text = written.CUTS.replace("hart moved 460 retired 230", "hart moved 690 retired 0")
        out = self.file("b.out", f"{text}pcs\nnone\n")
        self.prints(f"{HEADINGS}           0    0.0%  in all\n", self.elf, out)
        self.prints("", "--folded", "--lines", self.elf, out)

    def test_by_line(self):
        # In the place of addr2line, one that has a line for four of the six addresses.
        said = "a.c:3\\na.c:4 (discriminator 2)\\na.c:9\\na.c:9\\n??:0\\n??:?\\n"
        env = self.beside(riscv64_unknown_elf_addr2line=f"cat >{self.path('asked')}; echo \"$@\" >{self.path('words')}; printf '{said}'")
        wanted = "main;a.c:4 100\nsum_of;a.c:9 80\nmain;a.c:3 30\n_start;? 20\n"
        self.prints(wanted, "--folded", "--lines", self.elf, self.out, env=env)
        self.assertEqual(self.read("asked").split(), ["0x10000", "0x10004", "0x10010", "0x10014", "0x10020", "0x2000c"])
        self.assertEqual(self.read("words"), f"-s -e {self.elf}\n")
        done = self.call("--lines", self.elf, self.out, env=env)
        self.assertIn("         100   43.5%  main a.c:4\n", done.out)

    def test_without_addr2line(self):
        self.refuses("riscv64-unknown-elf-addr2line is not installed", "--lines", self.elf, self.out, env=self.without())

    def test_addr2line_that_fails(self):
        env = self.beside(riscv64_unknown_elf_addr2line="echo no debug sections >&2; exit 1")
        self.refuses("riscv64-unknown-elf-addr2line failed: no debug sections", "--lines", self.elf, self.out, env=env)
        env = self.beside(riscv64_unknown_elf_addr2line="echo a.c:1")
        self.refuses("it did not answer for each address", "--lines", self.elf, self.out, env=env)

    def test_refusals(self):
        self.refuses("the following arguments are required: PROGRAM, OUT")
        self.refuses("PROGRAM cannot be read", self.path("none"), self.out)
        self.refuses("is not a program file", self.out, self.out)
        self.refuses("the symbols of", self.file("c.elf", program()[:-70]), self.out)
        self.refuses("OUT cannot be read", self.elf, self.path("none"))
        self.refuses("has no program counters", self.elf, self.file("c.out", written.CUTS))
        self.refuses("is not what `observe` writes of a run", self.elf, self.file("d.out", "none\n"))
        self.refuses("retired 229 times", self.elf, self.file("e.out", COUNTED.replace("10000 30", "10000 29")))
