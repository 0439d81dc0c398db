"""tools/explain, on calls and what the program said of them, by docs/FORMATS.md and the help page."""

import os

from lib.guest import LINKED, addi, code_of, elf
from tests.made_images import BLOCK, Made
from tests.support import CopyTest, ToolTest
from tests.test_profile import program

USAGE = "; ./thynvm --help says what there is"

# The options of the images that are made by hand.
SMALL = ["--pages", "8", "--btt", "8", "--ptt", "8"]


class Explain(ToolTest):
    tool = "explain"

    def explains(self, said, status, *words, line="", **known):
        """Of a call with this status and last line of its report this is said, or nothing."""
        more = [word for name, value in known.items() for word in ([f"--{name}"] if value is True else [f"--{name}", value])]
        self.says(said, "--status", status, "--line", line, *more, "--", *words)

    def says_before(self, said, *words):
        self.says(said, "--before", "--", *words)

    def says(self, said, *words):
        done = self.call(*words, cwd=self.folder)
        self.assertEqual((done.out, done.err, done.status), ("", f"thynvm: {said}\n" if said else "", 0))

    def test_help(self):
        self.has_help()

    def test_words_that_have_no_place(self):
        for words, said in (
            ([], "a command is missing: run, plain, resume, bench, compare or make"),
            (["build", "now"], "build takes no other word"),
            (["--quiet", "build"], "build is a command only as the first word"),
            (["--quiet", "run"], "run needs FILE"),
            (["observe", "a", "observe", "b", "run"], "observe is a command only as the first word"),
            (["--pages", "8"], "--pages stands before the command"),
            (["rum", "a"], "there is no command rum; the nearest is run"),
            (["xyz"], "there is no command xyz"),
            (["run", "a", "--pagess", "8"], "there is no option --pagess; the nearest is --pages"),
            (["plain", "a", "--cuts", "8"], "plain does not take --cuts"),
            (["compare", "a", "--save", "x"], "compare does not take --save"),
            (["run", "a", "--pages", "8", "--pages=9"], "--pages stands twice"),
            (["run", "a", "--digest=1"], "--digest takes no value"),
            (["run", "a", "--pages"], "--pages needs a value"),
            (["run", "a", "--save", "-x"], "--save needs a value; one that begins with a dash is given as --save=-x"),
            (["run", "a", "-p"], "-p is not an option: each has two dashes, as --pages"),
            (["run", "a", "b"], "'b' is one word too many: run takes FILE"),
            (["make", "7"], "make needs OUT"),
            (["run", "--", "--pages"], ""),
        ):
            with self.subTest(words=words):
                self.explains(f"{said}{USAGE}" if said else USAGE[2:], "2", *words, line="usage")

    def test_texts_and_values(self):
        for line, said in (
            ("word pages", "--pages takes 1 to 19 decimal digits"),
            ("word n", "N takes 1 to 19 decimal digits"),
            ("word cuts", "--cuts takes numbers of 1 to 19 decimal digits, with commas between them"),
            ("word scheme", "--scheme takes thynvm, journal or shadow"),
            ("value pages 7", "the range of --pages: 8 to 65536"),
            ("value btt 9", "the range of --btt: 8 to 4096, multiple of 8"),
            ("value tears 3", "the range of --tears: at most one number more than cuts"),
            ("value n 4294967296", "N is 0 to 4294967295"),
        ):
            with self.subTest(line=line):
                self.explains(said, "2", "run", "a", line=line)

    def test_program_files(self):
        for line, said in (
            ("file 3 NotClass64", "compile and link it with -march=rv64im -mabi=lp64"),
            ("file 8 NeedsCompressed", "compile it, and all that is linked to it, with -march=rv64im"),
            ("file 14 NeedsLoader", "link it with -static -no-pie"),
            ("file 6 NotExec", "link it with -static -no-pie, and with none of -c, -r and -shared"),
            ("file 18 Unknown", ""),
            ("file 17 SegmentOutsideMemory 0", "link it with -Wl,-Ttext-segment=ADDRESS, the address of --base, or give more --pages"),
        ):
            with self.subTest(line=line):
                self.explains(said, "4", "run", self.file("a"), line=line)

    def test_program_files_that_are_damaged(self):
        self.file("a", "short")
        no_linker = "it is damaged, or no linker wrote it"
        not_whole = "it is not whole; copy it or link it again"
        for line, said in (
            ("file 1 TooShort", "a is too short for a program: its header alone has 64 bytes, and this is a file of 5 bytes"),
            ("file 2 NotElf", "a is no ELF file, as compilers for RISC-V write them; examples/runtime/cc makes one of a program in C"),
            ("file 5 BadVersion", f"a has another version of ELF than 1, and there is no other: {no_linker}"),
            ("file 11 BadHeaderSize", f"the headers of a have not the sizes of ELF-64, 64 and 56 bytes: {no_linker}"),
            ("file 12 TooManyHeaders", "a has 65535 program headers or more: link it into fewer segments"),
            ("file 13 HeadersOutside", f"the file of 5 bytes ends before its program headers do: {not_whole}"),
            ("file 15 FileOverMemory 2", "segment 2 of a has more bytes there than in memory: the file is damaged, or no linker wrote it"),
            ("file 16 SegmentOutsideFile 1", f"the file of 5 bytes ends before its segment 1 does: {not_whole}"),
        ):
            with self.subTest(line=line):
                self.explains(said, "4", "run", "a", line=line)
        self.file("image", Made().bytes)
        self.explains("image is an image that --save has written: ./thynvm resume goes on from it", "4", "run", "image", line="file 2 NotElf")

    def test_made_programs(self):
        needs = "a made program stores to the 192 pages from 65536 on: with --base 65536 it needs --pages {} or more".format
        self.explains(needs(193), "4", "bench", "7", "--base", "69632", line="file 17 SegmentOutsideMemory 0")
        self.explains(needs(193), "1", "bench", "7", "--pages", "192")
        self.explains(needs(194), "1", "bench", "7", "--pages", "192", "--console=2")
        # From 4096 on these are 15 pages more.
        self.explains(needs(193), "1", "bench", "7", "--base", "4096", "--pages", "207")
        self.explains("", "1", "bench", "7", "--base", "4096", "--pages", "208")
        self.explains("", "0", "bench", "7", "--pages", "192")

    def test_images(self):
        name = self.file("image", Made(scheme=1).bytes)
        self.explains("the image holds no checkpoint: its run had committed none", "5", "resume", name, line="image 1 Empty")
        self.explains("the image has another version of the format than this program reads", "5", "resume", name, line="image 3 Version")
        said = "the image belongs to --base 65536 --pages 8 --console 1 --btt 8 --ptt 8 --scheme journal --harts 1"
        self.explains(said, "5", "resume", name, line="image 4 Geometry")
        two = self.file("two", Made(harts=2).bytes)
        self.explains(said.replace("journal --harts 1", "thynvm --harts 2"), "5", "resume", two, line="image 4 Geometry")
        self.explains("", "5", "resume", self.file("short", "x"), line="image 4 Geometry")
        said = "before its checkpoint the program had read 14 bytes: --input has to name the same file as before"
        self.explains(said, "10", "resume", name, line="input 14 2")

    def test_images_that_no_run_saves(self):
        self.file("i", Made().bytes)
        self.file("program", b"\x7fELF")
        since = "such as no run{} saves: i has changed since; save it again"
        always, epochs, instructions = map(since.format, ("", " of fewer than 2^62 epochs", " of fewer than 2^62 instructions"))
        for line, said in (
            ("image 5 Commit", f"the commit block is {epochs}"),
            ("image 6 TableIndex 3", f"entry 3 of the tables is {always}"),
            ("image 7 TableTwice 1 3", f"entries 1 and 3 of the tables are {always}"),
            ("image 8 BlockUnderPage 1 0", f"entries 1 and 0 of the tables are {always}"),
            ("image 9 Status", f"the processor's status or count is {instructions}"),
            ("image 10 ConsoleLength", f"the console's length is {always}"),
            ("image 11 Count 8", f"the count of page 8 is {always}"),
            ("image 12 Second", f"what the record has of the second hart is {always}"),
            ("image 2 Header", "i does not begin with THYNHDR1: it is no image that --save has written"),
        ):
            with self.subTest(line=line):
                self.explains(said, "5", "resume", "i", line=line)
        self.explains("program is a program: ./thynvm run begins it", "5", "resume", "program", line="image 2 Header")

    def test_images_of_another_length(self):
        again = "; copy it or save it again"
        # The blocks of an image of eight pages, by docs/FORMATS.md.
        for made, blocks, more in (
            (Made(), 1064, []),
            (Made(harts=2), 1074, ["--harts", "2"]),
            (Made(scheme=1), 542, ["--scheme", "journal"]),
            (Made(scheme=2), 1038, ["--scheme=shadow"]),
        ):
            size, has = BLOCK * blocks, "i has the options of the call, but"
            short, long = f"only {size - 1} bytes of {size}: it is not whole", f"{size + 1} bytes and not {size}: it is not as --save writes it"
            for length, what in ((size - 1, short), (size + 1, long)):
                os.truncate(self.file("i", made.bytes), length)
                self.explains(f"{has} {what}{again}", "5", "resume", "i", *SMALL, *more, line="image 4 Geometry")
        os.truncate(self.file("i", Made(version=1).bytes), 1000)
        said = f"i has the options of the call, but only 1000 bytes of {BLOCK * 1048} or {BLOCK * 1064}: it is not whole{again}"
        self.explains(said, "5", "resume", "i", *SMALL, line="image 4 Geometry")
        os.truncate(self.path("i"), 100)
        self.explains(f"i has 100 bytes, and an image 128 at least: it is not whole{again}", "5", "resume", "i", line="image 1 Empty")

    def test_the_bound_of_cuts(self):
        said = "131072 is 65536 pages times 2, one more than there are cuts, and may be at most 65536: "
        said += "so many cuts go with at most 32768 pages, and so many pages with at most 0 cuts"
        self.explains(said, "2", "run", "a", "--pages", "65536", "--cuts", "5", line="value cuts 131072")
        # A number that is in the call: the second cut is not above the first.
        said = "the range of --cuts: at most 64 numbers, rising, above 0, and pages * (cuts + 1) <= 65536"
        self.explains(said, "2", "run", "a", "--cuts", "7,7", line="value cuts 7")
        self.explains(said, "2", "run", "a", "--pages", "65536", "--cuts", "9,262144,262144", line="value cuts 262144")

    def test_cuts(self):
        cuts = ["run", "a", "--cuts", "710,90000,90001"]
        self.explains("2 of 3 cuts did not fall: the run had ended by cycle 90000", "0", *cuts, line="exit 7 at 3", cuts="1", began=True)
        self.explains("1 of 3 cuts did not fall: the limit came before cycle 90001", "8", *cuts, line="limit 90000", cuts="2", began=True)
        self.explains("", "0", *cuts, line="exit 7 at 3", cuts="3", began=True)
        self.explains("", "7", *cuts, line="nvm failed")

    def test_tears(self):
        said = "--tears changed nothing: it says what a cut leaves, and this call has none; --cuts CYCLE cuts power"
        self.explains(said, "0", "run", "a", "--tears", "5", began=True)
        self.explains("", "0", "run", "a", "--tears", "5", "--save", "i", began=True)
        self.explains("", "0", "run", "a", "--tears", "5", "--cuts", "1", began=True, cuts="1")

    def test_limit(self):
        loading = "8 pages take more than 512 cycles; give a greater --limit, or fewer --pages"
        for command in ("run", "bench"):
            said = f"at its limit the program was not loaded yet: {loading}"
            self.explains(said, "8", command, "7", "--pages", "8", "--limit", "600", line="limit 600")
            self.explains("", "8", command, "7", "--pages", "8", "--limit", "710", line="limit 710", began=True)
        self.explains("at its limit the machine had not read the checkpoint yet; give a greater --limit", "8", "resume", "i", line="limit 3")
        self.explains(f"the limit is below what loading takes: {loading}", "8", "compare", "a", "--pages", "8", "--limit", "511", line="limit 511")
        self.explains("", "8", "compare", "a", "--pages", "8", "--limit", "512", line="limit 512")
        self.explains("", "8", "plain", "a", "--limit", "1", line="limit 1")

    def test_console(self):
        full = "the console is full, with {} bytes: if the program wrote more, that is cut off; {}".format
        more = "--console 2 --pages 257 makes room for 4096 more"
        self.explains(full(4096, more), "0", "run", "a", console="4096")
        self.explains(full(4096, more.replace("257", "10")), "8", "plain", "a", "--pages", "9", console="4096")
        self.explains(full(65536, "no --console makes more room"), "0", "run", "a", "--console", "16", console="65536")
        self.explains(full(4096, f"it is that of the image; in a run from the beginning {more}"), "0", "resume", "i", console="4096")
        self.explains("", "0", "run", "a", console="4095")
        self.explains("", "0", "run", "a", "--console", "2", console="4096")

    def test_files_that_are_not_read(self):
        self.explains(f"there is no none in {os.path.realpath(self.folder)}", "3", "run", "none")
        self.explains(f"there is no folder {self.path('none')}", "3", "run", self.path("none", "a"))
        self.explains(f"{self.folder} is a folder", "3", "run", self.folder)
        self.explains("the name is empty", "3", "run", "")
        os.symlink("nowhere", self.path("link"))
        self.explains("link is a link to nowhere, which is not there", "3", "run", "link")
        self.explains("there is no text in " + os.path.realpath(self.folder), "3", "run", self.file("a"), "--input", "text")
        os.truncate(self.file("long"), 67108865)
        self.explains("long has 67108865 bytes, and at most 67108864 are read", "3", "run", "long")

    def test_files_that_are_not_written(self):
        self.explains("there is no folder none", "3", "run", self.file("a"), "--save", "none/image")
        self.says_before("none/image cannot be written: there is no folder none", "run", self.file("a"), "--save", "none/image")
        self.says_before(". cannot be written: . is a folder", "make", "7", ".")
        self.says_before("", "run", "a", "--save", "image")
        self.says_before("", "run", "a", "--unknown", "none/image")

    def test_observed(self):
        self.says_before("none/out cannot be written: there is no folder none", "observe", "none/out", "run", "a")
        self.explains("there is no folder none", "3", "observe", "none/out", "run", self.file("a"), line="put none/out failed")
        no_out = f"observe needs OUT, the name under which text is put, and then a call{USAGE}"
        for words in (["observe"], ["observe", "out"], ["observe", "run", "a"], ["--quiet", "observe"]):
            self.explains(no_out, "2", *words, line="usage")
        for option in ("--pcs", "--trace", "--torn"):
            self.explains(f"{option} goes with run, resume or bench{USAGE}", "2", "observe", "out", option, "plain", "a", line="usage")
            self.explains(f"{option} stands twice{USAGE}", "2", "observe", "out", option, option, "run", "a", line="usage")
            self.explains(no_out, "2", "observe", "out", option, line="usage")
        self.explains(f"--state needs a number{USAGE}", "2", "observe", "out", "--pcs", "--state", line="usage")
        self.explains(f"--state goes with run, resume or bench{USAGE}", "2", "observe", "out", "--state", "7", "plain", "a", line="usage")
        twice = ("observe", "out", "--state-at", "7", "--torn", "--state-at", "8", "run", "a")
        self.explains(f"--state-at stands twice{USAGE}", "2", *twice, line="usage")
        self.explains("--state takes 1 to 19 decimal digits", "2", "observe", "out", "--state", "x", "run", "a", line="word state")
        bound = ("observe", "out", "--trace-from", "7", "run", "a")
        self.explains(f"--trace-from goes with --trace{USAGE}", "2", *bound, line="usage")
        self.explains(f"--trace-to needs a number{USAGE}", "2", "observe", "out", "--trace", "--trace-to", line="usage")
        bound = ("observe", "out", "--trace", "--trace-from", "0", "--trace-to", "x", "run", "a")
        self.explains("--trace-to takes 1 to 19 decimal digits", "2", *bound, line="word trace-to")
        bound = ("observe", "out", "--trace-from", "0", "--trace", "run", "a")
        said = "--trace-from has to be above 0: the first instruction that retires has the count 1"
        self.explains(said, "2", *bound, line="value trace-from 0")
        bound = ("observe", "out", "--trace-from", "8", "--trace", "--trace-to", "7", "run", "a")
        said = "--trace-to may not be below --trace-from, and has to be above 0"
        self.explains(said, "2", *bound, line="value trace-to 7")
        for bound in ("--accesses-from", "--accesses-to"):
            said = f"{bound} goes with --accesses{USAGE}"
            self.explains(said, "2", "observe", "out", bound, "7", "run", "a", line="usage")
        table = ("observe", "out", "--accesses", "table")
        self.explains(f"--accesses needs a name{USAGE}", "2", "observe", "out", "--accesses", line="usage")
        self.explains(f"--accesses stands twice{USAGE}", "2", *table, "--accesses", "other", "run", "a", line="usage")
        late = ("observe", "out", "--pcs", "--accesses", "table", "run", "a")
        self.explains(f"--accesses stands directly after OUT{USAGE}", "2", *late, line="usage")
        self.explains(f"--accesses goes with run, resume or bench{USAGE}", "2", *table, "plain", "a", line="usage")
        said = "TRACE is to be another name than table, which the call reads or writes itself"
        self.explains(said, "2", *table, "run", "a", "--save", "table", line="usage")
        self.explains(said, "2", "observe", "table", "--accesses", "table", "run", "a", line="usage")
        said = "with --accesses no power may be cut: --cuts has to be left out"
        self.explains(said, "2", *table, "run", "a", "--cuts", "7", line="usage")
        self.explains("with --accesses no line may wander: --gap has to be 0", "2", *table, "bench", "7", "--gap", "3", line="usage")
        said = "--accesses-to takes 1 to 19 decimal digits"
        self.explains(said, "2", *table, "--accesses-to", "x", "run", "a", line="word accesses-to")
        self.explains("make has no run to observe", "2", "observe", "out", "make", "7", "x", line="usage")
        self.explains("make has no run to observe", "2", "observe", "out", "--pcs", "make", "7", "x", line="usage")
        said = "compare has three runs: observe run, once with each --scheme"
        self.explains(said, "2", "observe", "out", "compare", "a", line="usage")
        said = "with --torn no line may wander: --gap has to be 0"
        self.explains(said, "2", "observe", "out", "--torn", "run", "a", "--gap", "3", line="usage")
        self.explains(f"--torn stands before the command{USAGE}", "2", "--torn", "run", "a", line="usage")
        self.explains(f"--torn stands twice{USAGE}", "2", "observe", "out", "--torn", "--pcs", "--torn", "run", "a", line="usage")
        said = "OUT is to be another name than out, which the call reads or writes itself"
        self.explains(said, "2", "observe", "out", "run", "a", "--save", "out", line="usage")

    def test_refusals(self):
        for words in ([], ["--before"], ["--status", 2], ["--", "run"], ["--before", "--status", 2, "--", "run"], ["--before", "run"]):
            self.refuses("--before or --status is wanted, and after -- the words of the call", *words)
        self.refuses("argument --status: invalid int value: 'x'", "--status", "x", "--", "run")


class ExplainTraps(CopyTest):
    """Of a copy of the repository, in which no program is built."""

    tool = "explain"
    says, explains = Explain.says, Explain.explains

    def test_files_like_made_ones(self):
        # Files of its length, of which one begins as it does: 6007 words behind two headers of 120 bytes.
        needs = "a made program stores to the 192 pages from 65536 on: with --base 65536 it needs --pages 193 or more"
        observe = "./thynvm observe OUT plain --pages=192 -- made says in OUT where it trapped"
        for first, said in ((addi(7, 0, 8), needs), (addi(7, 0, 9), observe)):
            self.file("made", elf(LINKED, [(LINKED, code_of([first] + [0] * 6006), 0)], align=4))
            self.explains(said, "1", "plain", "made", "--pages", "192")

    def explains_trap(self, trap, place, word="", *words):
        """Of an observed run that trapped these lines are said."""
        out = self.file("out", f"{trap}\n")
        done = self.call("--status", 1, "--", "observe", out, *(words or ("run", "a")), cwd=self.folder)
        lines = "".join(f"thynvm: {line}\n" for line in (place, word) if line)
        self.assertEqual((done.out, done.err, done.status), ("", lines, 0))

    def test_traps_that_were_observed(self):
        linked = "compile the program, and all that is linked to it, with -march=rv64im"
        for trap, place, word in (
            ("10000 4501", "10000: the word 4501", "4501 at 10000 is an instruction of the extension C: compile it, and all that is linked to it, with -march=rv64im"),
            ("10004 100522af", "10004: lr.w t0,(a0)", f"100522af at 10004 is an instruction of the extension A, which is there with --harts 2; for one hart {linked}"),
            ("10004 53", "10004: the word 53", f"53 at 10004 is an instruction of the extension F or D: {linked} -mabi=lp64"),
            ("10004 503823 10", "10004: sd t0,16(zero), address 10", ""),
            ("10008 100073", "10008: ebreak", ""),
            ("10001", "10001", ""),
        ):
            with self.subTest(trap=trap):
                self.explains_trap(f"trap {trap}", f"the program trapped at {place}", word and f"the word {word}")
        self.explains_trap("trap 10004 100522af 5 hart 1", "hart 1 trapped at 10004: lr.w t0,(a0), address 5")
        self.explains_trap("trap 10008 503823 10", "the program trapped at 10008: sd t0,16(zero), address 10", "", "resume", "image")
        self.explains("", "1", "observe", "/dev/null", "run", "a")

    def test_a_trap_has_its_function_and_line(self):
        # Of this program's functions the symbols say where they are; it has no debug sections.
        self.file("a", program())
        self.explains_trap("trap 10014 52783", "the program trapped at 10014 in sum_of: lw a5,0(a0)")
        self.explains_trap("trap 1000c 53783", "the program trapped at 1000c in main: ld a5,0(a0)")
        self.explains_trap("trap 9000 53783", "the program trapped at 9000: ld a5,0(a0)")

    def test_a_trap_that_was_not_observed(self):
        # The program is not there, so the call is not made again.
        said = "./thynvm observe OUT run --pages=8 --digest -- a says in OUT where it trapped"
        self.explains(said, "1", "run", "--pages", "8", "a", "--save", "x", "--digest")
        self.explains("./thynvm observe OUT plain -- 'a b' says in OUT where it trapped", "1", "plain", "a b")
        self.explains("", "1", "resume", "a")
