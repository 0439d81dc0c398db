"""The lines of help of ./thynvm after calls of the built program: each line with a call that has it, and calls that have none."""

import os
import struct

from lib.guest import A0, A1, A2, A7, ECALL, EXIT, LINKED, PROGRAM_HEADER, S1, WRITE, ZERO, Code, addi, bne, code_of, elf, lui
from lib.images import PAGE
from lib.repository import PROGRAM, example
from tests.script import SMALL, ScriptTest, Terminal
from tests.support import needs_program

EXIT_SEVEN = example("exit_seven")

ENDS = [addi(A7, ZERO, EXIT), ECALL]


def program(words, **changed):
    """A program file with one segment, and with some fields of its headers changed."""
    data = bytearray(elf(LINKED, [(LINKED, code_of(words), 0)], align=PAGE))
    # Where a field stands, and its format (ELF-64).
    places = {"version": (20, "<I"), "phoff": (32, "<Q"), "ehsize": (52, "<H"), "phnum": (56, "<H"), "memsz": (64 + 40, "<Q")}
    for name, number in changed.items():
        place, form = places[name]
        struct.pack_into(form, data, place, number)
    return bytes(data)


def printing(times):
    """A program that prints 64 bytes so many times, and exits with 0."""
    code = Code(LINKED)
    code.put(addi(S1, ZERO, times))
    first = code.here
    code.put(addi(A0, ZERO, 1), lui(A1, LINKED // PAGE), addi(A2, ZERO, 64))
    code.call(WRITE)
    code.put(addi(S1, S1, -1))
    code.put(bne(S1, ZERO, first - code.here), addi(A0, ZERO, 0), *ENDS)
    return program(code.words)


@needs_program()
class Help(ScriptTest):
    def setUp(self):
        super().setUp()
        self.install(PROGRAM)

    def helps(self, words, status, line=None, closing=None):
        """The call ends with this status and closing line, and has this one line of help, or none."""
        got, report, own = self.helped(*words)
        self.assertEqual(got, status, (words, report, own))
        if closing:
            self.assertEqual(report[-1], closing, words)
        self.assertEqual(len(own), 1 if line else 0, (words, own))
        if line:
            self.assertRegex(own[0], line, words)


class NoHelp(Help):
    def test_none(self):
        self.helps(["run", EXIT_SEVEN, *SMALL, "--cuts", "710", "--tears", "1"], 0)
        self.helps(["run", EXIT_SEVEN, *SMALL, "--save", self.path("i"), "--tears", "1"], 0)
        self.helps(["run", EXIT_SEVEN, *SMALL, "--limit", "710"], 8)
        self.helps(["plain", EXIT_SEVEN, "--limit", "1"], 8)
        self.helps(["bench", "7"], 0)
        self.helps(["make", "7", self.path("made")], 0)

    def test_without_tools(self):
        self.remove_tools()
        self.helps(["run", EXIT_SEVEN, *SMALL, "--cuts", "710,90000", "--tears", "1"], 0)
        self.helps(["run", self.file("f", "short"), "--pages", "8"], 4, None, "file 1 TooShort")


class AfterRuns(Help):
    def test_cuts(self):
        words = ["run", EXIT_SEVEN, *SMALL]
        self.helps([*words, "--cuts", "710,90000,90001"], 0, r"^2 of 3 cuts did not fall: the run had ended by cycle 90000$")
        self.helps([*words, "--cuts", "710,90000", "--limit", "715"], 8, r"^1 of 2 cuts did not fall: the limit came before cycle 90000$")

    def test_tears(self):
        words = ["run", EXIT_SEVEN, *SMALL]
        self.helps([*words, "--tears", "5"], 0, r"^--tears changed nothing: .* --cuts CYCLE cuts power$")
        self.helps([*words, "--tears=5"], 0, r"^--tears changed nothing")

    def test_limit(self):
        words = ["run", EXIT_SEVEN, *SMALL]
        more = "more than 512 cycles; give a greater --limit, or fewer --pages$"
        self.helps([*words, "--limit", "600"], 8, rf"^at its limit the program was not loaded yet: 8 pages take {more}")
        self.helps(["compare", *words[1:], "--limit", "300"], 8, rf"^the limit is below what loading takes: 8 pages take {more}")
        image = self.path("image")
        self.helps([*words, "--limit", "710", "--save", image], 8)
        self.helps(["resume", image, *SMALL, "--limit", "3"], 8, r"^at its limit the machine had not read the checkpoint yet; ")

    def test_console(self):
        full = r"^the console is full, with 4096 bytes: if the program wrote more, that is cut off; "
        more = full + "--console 2 --pages {} makes room for 4096 more$"
        for times in (64, 65):
            file = self.file("prints", printing(times))
            self.helps(["run", file], 0, more.format(257))
            self.helps(["plain", file, "--pages", "9"], 0, more.format(10))
            self.helps(["compare", file], 0, more.format(257))
            self.helps(["run", file, "--save", self.path("image")], 0, more.format(257))
        self.helps(["run", self.file("prints", printing(63))], 0)
        self.helps(["run", file, "--console", "2", "--pages", "257"], 0)
        self.helps(["resume", self.path("image")], 0, full + "it is that of the image; in a run from the beginning --console 2 ")
        most = self.file("prints", printing(1030))
        self.helps(["run", most, "--console", "16"], 0, r"65536 bytes.*; no --console makes more room$")

    def test_console_on_a_terminal(self):
        file = self.file("prints", printing(65))
        self.assertIn("thynvm: the console is full, with 4096 bytes", Terminal(self, "run", file).end()[1])
        with open(self.path("output"), "wb") as output:
            self.assertIn("thynvm: the console is full, with 4096 bytes", Terminal(self, "run", file, output=output).end()[1])
        self.assertEqual(os.path.getsize(self.path("output")), 4096)
        most = self.file("prints", printing(1030))
        self.assertIn("thynvm: the console is full, with 65536 bytes", Terminal(self, "run", most, "--console", "16").end()[1])

    def test_made_program(self):
        made = self.path("made")
        self.assertEqual(self.made("make", "7", made)[0], 0)
        needs = r"^a made program stores to the 192 pages from 65536 on: with --base 65536 it needs --pages {} or more$"
        self.helps(["bench", "7", "--pages", "100"], 1, needs.format(193))
        self.helps(["bench", "7", "--base", "4096"], 0)
        self.helps(["bench", "7", "--base", "4096", "--pages", "207"], 1, needs.format(193))
        self.helps(["bench", "7", "--base", "69632"], 4, needs.format(193), "file 17 SegmentOutsideMemory 0")
        self.helps(["run", made, "--pages", "100", "--console", "2"], 1, needs.format(194))
        self.helps(["plain", made, "--pages", "192"], 1, needs.format(193))
        self.helps(["compare", made, "--pages", "192"], 1, needs.format(193))
        self.helps(["run", made, "--pages", "193"], 0)
        # Another file of that size, whose first instruction is illegal.
        traps = r"^\./thynvm observe OUT run --pages=8 -- .*/other says in OUT where it trapped$"
        self.helps(["run", self.file("other", program([0] * 6007)), "--pages", "8"], 1, traps)


class AfterRefusals(Help):
    def test_bound(self):
        words = ["run", EXIT_SEVEN]
        line = r"^{0} is {1} pages times {2}, one more than there are cuts, .* at most {3} pages, and so many pages with at most {4} cuts$"
        cuts = ",".join(str(k) for k in range(1, 65))
        self.helps([*words, "--pages", "2048", "--cuts", cuts], 2, line.format(133120, 2048, 65, 1008, 31), "value cuts 133120")
        self.helps([*words, "--pages", "65536", "--cuts", "5"], 2, line.format(131072, 65536, 2, 32768, 0), "value cuts 131072")
        # These numbers are words of the call, or how many there are of them.
        for cuts, number in (("5,5", 5), (f"{cuts},65", 65), ("9,262144,262144", 262144)):
            other = [*words, "--pages", "65536" if number != 65 else "8", "--cuts", cuts]
            self.helps(other, 2, r"^the range of --cuts: ", f"value cuts {number}")

    def test_files(self):
        code = [addi(A0, ZERO, 7), *ENDS]
        image = self.path("image")
        self.assertEqual(self.made("run", EXIT_SEVEN, *SMALL, "--save", image)[0], 0)
        whole = 64 + PROGRAM_HEADER + 12
        for data, closing, line in (
            (b"short", "file 1 TooShort", r"f is too short for a program: its header alone has 64 bytes, and this is a file of 5 bytes$"),
            (b"#!" + bytes(100), "file 2 NotElf", r"f is no ELF file, .*examples/runtime/cc makes one"),
            (program(code, version=2), "file 5 BadVersion", r"f has another version of ELF than 1"),
            (program(code, ehsize=65), "file 11 BadHeaderSize", r"^the headers of .*f have not the sizes of ELF-64"),
            (program(code, phnum=65535), "file 12 TooManyHeaders", r"f has 65535 program headers or more"),
            (program(code, phoff=120), "file 13 HeadersOutside", rf"^the file of {whole} bytes ends before its program headers do: "),
            (program(code, memsz=5), "file 15 FileOverMemory 0", r"^segment 0 of .*f has more bytes there than in memory"),
            (program(code)[:-1], "file 16 SegmentOutsideFile 0", rf"^the file of {whole - 1} bytes ends before its segment 0 does: "),
        ):
            self.helps(["run", self.file("f", data), "--pages", "8"], 4, line, closing)
        for command in ("plain", "compare"):
            self.helps([command, self.path("f"), "--pages", "8"], 4, line, closing)
        self.helps(["run", image], 4, r"image is an image that --save has written: \./thynvm resume goes on from it$", "file 2 NotElf")
        self.helps(["run", self.file("f", program(code, memsz=99999999))], 4, r"--pages", "file 17 SegmentOutsideMemory 0")

    def test_names_outside_of_ascii(self):
        self.helps(["run", self.file("grüße f", b"short")], 4, r"grüße f is too short", "file 1 TooShort")


class AfterImages(Help):
    def image(self, *more):
        """An image of examples/exit_seven with a checkpoint of epoch 1: its path, its bytes, and the number of its slot's first
        word."""
        path = self.path("image")
        self.assertEqual(self.made("run", EXIT_SEVEN, *SMALL, "--save", path, *more)[0], 0)
        with open(path, "rb") as file:
            return path, file.read(), 8 * (1048 + (13 if "--harts" in more else 8))

    def refused(self, path, image, word, number, closing, line, more=()):
        """With another number at one word the image is refused."""
        changed = bytearray(image)
        struct.pack_into("<Q", changed, 8 * word, number)
        with open(path, "wb") as file:
            file.write(changed)
        self.helps(["resume", path, *SMALL, *more], 5, line, closing)

    def test_images(self):
        path, image, slot = self.image()
        since = r" saves: .*image has changed since; save it again$"
        # Words of the tables and of the counts stand after the forty of the record.
        self.refused(path, image, 0, 5, "image 2 Header", r"image does not begin with THYNHDR1: ")
        self.refused(path, image, 10, 5, "image 5 Commit", rf"^the commit block is such as no run of fewer than 2\^62 epochs{since}")
        self.refused(path, image, slot + 43, 999, "image 6 TableIndex 3", rf"^entry 3 of the tables is such as no run{since}")
        self.refused(path, image, slot + 36, 3, "image 9 Status", rf"^the processor's status or count .* 2\^62 instructions{since}")
        self.refused(path, image, slot + 34, 4097, "image 10 ConsoleLength", rf"^the console's length .*{since}")
        self.refused(path, image, slot + 57, 1, "image 11 Count 8", rf"^the count of page 8 .*{since}")
        twice = bytearray(image)
        struct.pack_into("<Q", twice, 8 * (slot + 41), 5)
        self.refused(path, twice, slot + 43, 5, "image 7 TableTwice 1 3", rf"^entries 1 and 3 of the tables .*{since}")
        self.refused(path, twice, slot + 48, 1, "image 8 BlockUnderPage 1 0", rf"^entries 1 and 0 of the tables .*{since}")
        path, image, slot = self.image("--harts", "2")
        self.refused(path, image, slot + 76, 1, "image 12 Second", rf"^what the record has of the second hart .*{since}", ["--harts", "2"])
        self.helps(["resume", example("greet"), *SMALL], 5, r"greet.elf is a program: \./thynvm run begins it$", "image 2 Header")

    def test_lengths(self):
        for more in ([], ["--harts", "2"], ["--scheme", "journal"], ["--scheme", "shadow", "--harts", "2"], ["--pages", "9"]):
            small = SMALL if "--pages" not in more else SMALL[2:]
            path = self.path("image")
            self.assertEqual(self.made("run", EXIT_SEVEN, *small, *more, "--save", path)[0], 0)
            whole = os.path.getsize(path)
            os.truncate(path, whole - 64)
            only = rf"^\S*image has the options of the call, but only {whole - 64} bytes of {whole}: it is not whole; "
            self.helps(["resume", path, *small, *more], 5, only, "image 4 Geometry")
            os.truncate(path, whole + 1)
            other = rf"^\S*image has the options of the call, but {whole + 1} bytes and not {whole}: "
            self.helps(["resume", path, *small, *more], 5, other, "image 4 Geometry")
            os.truncate(path, 100)
            self.helps(["resume", path, *small, *more], 5, r"image has 100 bytes, and an image 128 at least: ", "image 1 Empty")

    def test_other_options(self):
        """If the options differ, the help names those of the image."""
        path, image, _ = self.image()
        with open(path, "wb") as file:
            file.write(image[:-64])
        self.helps(["resume", path, *SMALL[2:]], 5, r"^the image belongs to --base 65536 --pages 8 ", "image 4 Geometry")
        self.remove_tools()
        self.helps(["resume", path, *SMALL[2:]], 5, None, "image 4 Geometry")
