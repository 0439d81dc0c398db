"""tools/hostile: its rules, by docs/FORMATS.md and docs/USING.md; its judgements of answers; and some cases."""

import random
import struct
import unittest

from lib import repository
from lib.calls import Wrong
from lib.hostile_calls import rules
from lib.hostile_calls.answers import Answer, Plan, Report, compare, judge_comparison, judge_refusal, judge_run
from lib.hostile_calls.rules import RESUMED, Due, Image, read_image, settings
from tests.support import CopyTest, ToolTest, needs_program
from tests.made_images import Made, words


def due(call):
    """The refusal of a call, or nothing."""
    try:
        call()
    except Due as refusal:
        return refusal.status, refusal.line
    return None


class Arguments(unittest.TestCase):
    def test_usage(self):
        for line in ("", "rum a", "run", "run a b", "run a --pages", "run a --pages 8 --pages=8", "run a --unknown 8", "run a -p", "run a --digest=1", "plain a --cuts 5", "compare a --save x", "make 7", "make 7 a --pages 8", "run a --pages --digest", "--pages 8 run a", "run --help a"):
            with self.subTest(line=line):
                self.assertEqual(due(lambda: settings(line.split())), (2, "usage"))

    def test_texts(self):
        for text, line in (
            ("--pages x", "word pages"),
            ("--pages=", "word pages"),
            ("--pages 12345678901234567890", "word pages"),
            ("--pages +8", "word pages"),
            ("--cuts 1,,2", "word cuts"),
            ("--cuts 1,", "word cuts"),
            ("--scheme Journal", "word scheme"),
            # All are read before any is tested, in the order of the page.
            ("--pages 7 --limit x", "word limit"),
            ("--limit x --btt y", "word btt"),
        ):
            with self.subTest(text=text):
                self.assertEqual(due(lambda: settings(["run", "a", *text.split()])), (2, line))

    def test_ranges(self):
        for text, line in (
            ("--base 4095", "value base 4095"),
            ("--base 4611686018427387904", "value base 4611686018427387904"),
            ("--pages 7", "value pages 7"),
            ("--pages 8 --console 8", "value console 8"),
            ("--btt 12", "value btt 12"),
            ("--sets 48", "value sets 48"),
            ("--low 23", "value low 23"),
            ("--high 64", "value high 64"),
            ("--cuts 0", "value cuts 0"),
            ("--cuts 5,5", "value cuts 5"),
            ("--cuts 1 --pages 65536", "value cuts 131072"),
            (f"--cuts {','.join(map(str, range(1, 66)))} --pages 8", "value cuts 65"),
            ("--tears 1,2", "value tears 2"),
            ("--limit 0", "value limit 0"),
            ("--harts 3", "value harts 3"),
            ("--gap 1000001 --limit 0", "value limit 0"),
        ):
            with self.subTest(text=text):
                self.assertEqual(due(lambda: settings(["run", "a", *text.split()])), (2, line))
        self.assertEqual(due(lambda: settings(["bench", "4294967296", "--pages", "7"])), (2, "value n 4294967296"))

    def test_calls_that_are_taken(self):
        verb, values = settings(["run", "a", "--pages=0008", "--cuts", "5,6", "--digest", "--"])
        self.assertEqual((verb, values["pages"], values["cuts"], values["digest"], values["file"]), ("run", 8, [5, 6], True, "a"))
        verb, values = settings(["make", "7", "--", "-out"])
        self.assertEqual((verb, values["n"], values["out"]), ("make", 7, "-out"))
        self.assertEqual(settings(["run", "-"])[1]["file"], "-")


def header(**changes):
    """A program file of 64 bytes, with one program header behind it, and fields that are changed by their place and size."""
    data = bytearray(bytes.fromhex("7f454c46020101") + bytes(9))
    data += struct.pack("<HHIQQQIHHHHHH", 2, 243, 1, 65536, 64, 0, 0, 64, 56, 1, 0, 0, 0)
    data += struct.pack("<IIQQQQQQ", 1, 7, 120, 65536, 65536, 4, 4, 1) + b"code"
    for place, (size, number) in changes.items():
        at = int(place[1:])
        data[at : at + size] = number.to_bytes(size, "little")
    return bytes(data)


class ProgramFiles(unittest.TestCase):
    def refusal(self, data, **options):
        values = {**settings(["run", "a", "--pages", "8"])[1], **options}
        return due(lambda: rules.test_file(data, values))

    def test_one_that_is_taken(self):
        self.assertIsNone(self.refusal(header()))
        with open(repository.SMALLEST, "rb") as file:
            self.assertIsNone(self.refusal(file.read()))

    def test_the_seventeen_refusals(self):
        for changes, line in (
            ({"_3": (1, 0)}, "file 2 NotElf"),
            ({"_4": (1, 1)}, "file 3 NotClass64"),
            ({"_5": (1, 2)}, "file 4 NotLittle"),
            ({"_6": (1, 0)}, "file 5 BadVersion"),
            ({"_20": (4, 2)}, "file 5 BadVersion"),
            ({"_16": (2, 3)}, "file 6 NotExec"),
            ({"_18": (2, 62)}, "file 7 NotRiscv"),
            ({"_48": (4, 1)}, "file 8 NeedsCompressed"),
            ({"_48": (4, 4)}, "file 9 NeedsFloat"),
            ({"_48": (4, 8)}, "file 10 IsRve"),
            ({"_48": (4, 9)}, "file 8 NeedsCompressed"),
            ({"_52": (2, 63)}, "file 11 BadHeaderSize"),
            ({"_54": (2, 55)}, "file 11 BadHeaderSize"),
            ({"_56": (2, 65535)}, "file 12 TooManyHeaders"),
            ({"_56": (2, 2)}, "file 13 HeadersOutside"),
            ({"_64": (4, 2)}, "file 14 NeedsLoader"),
            ({"_64": (4, 3)}, "file 14 NeedsLoader"),
            ({"_96": (8, 5)}, "file 15 FileOverMemory 0"),
            ({"_72": (8, 121)}, "file 16 SegmentOutsideFile 0"),
            ({"_80": (8, 65535)}, "file 17 SegmentOutsideMemory 0"),
            ({"_104": (8, 28673)}, "file 17 SegmentOutsideMemory 0"),
        ):
            with self.subTest(changes=changes):
                self.assertEqual(self.refusal(header(**changes)), (4, line))
        self.assertEqual(self.refusal(header()[:63]), (4, "file 1 TooShort"))

    def test_what_is_ignored(self):
        for changes in ({"_48": (4, 16)}, {"_7": (1, 3)}, {"_64": (4, 4)}, {"_56": (2, 0)}, {"_104": (8, 28672)}):
            self.assertIsNone(self.refusal(header(**changes)), changes)


class Images(unittest.TestCase):
    def meaning(self, made, scheme="thynvm", harts=1, data=None):
        values = {**settings("resume a --pages 8 --btt 8 --ptt 8".split())[1], "scheme": scheme, "harts": harts}
        return read_image(made.bytes if data is None else data, values, RESUMED)

    def refusal(self, made, **more):
        return due(lambda: self.meaning(made, **more))

    def test_what_an_image_means(self):
        for scheme, kind in enumerate(("thynvm", "journal", "shadow")):
            made = Made(scheme=scheme, status=1, number=7)
            found = self.meaning(made, kind)
            self.assertEqual((found.epoch, found.count, found.cursor, found.status, found.number), (5, 60, 2, 1, 7))
            self.assertEqual((found.console, len(found.memory), any(found.memory)), (b"Hi\n", 7 * 4096, False))
        old = self.meaning(Made(version=1).entry(0, 2).put(528, b"\1" * 64))
        self.assertEqual(old.memory[64:128], b"\1" * 64)

    def test_refusals(self):
        for made, more, line in (
            (Made().put(1, words(*[0] * 8)), {}, "image 1 Empty"),
            (Made().put(0, b"X"), {}, "image 2 Header"),
            (Made().word(0, 1, 3), {}, "image 3 Version"),
            (Made(harts=2).word(0, 1, 1), {"harts": 2}, "image 3 Version"),
            (Made(scheme=1).word(0, 1, 1), {"scheme": "journal"}, "image 3 Version"),
            (Made().word(0, 2, 4096), {}, "image 4 Geometry"),
            (Made(scheme=1), {}, "image 4 Geometry"),
            (Made(), {"harts": 2}, "image 4 Geometry"),
            (Made().put(1, b"X"), {}, "image 5 Commit"),
            (Made().word(1, 1, 2**62), {}, "image 5 Commit"),
            (Made().word(1, 7, 1), {}, "image 5 Commit"),
            (Made().word(1, 1, 7), {}, "image 5 Commit"),
            (Made(version=1, header_version=2), {}, "image 5 Commit"),
            (Made().entry(3, 513), {}, "image 6 TableIndex 3"),
            (Made().entry(9, 9), {}, "image 6 TableIndex 9"),
            (Made().entry(1, 5).entry(4, 5), {}, "image 7 TableTwice 1 4"),
            (Made().entry(9, 5).entry(12, 5), {}, "image 7 TableTwice 9 12"),
            (Made().entry(2, 65).entry(11, 2), {}, "image 8 BlockUnderPage 2 3"),
            (Made(status=3), {}, "image 9 Status"),
            (Made(number=1), {}, "image 9 Status"),
            (Made(status=1, number=256), {}, "image 9 Status"),
            (Made(status=2, number=8), {}, "image 9 Status"),
            (Made(count=2**62), {}, "image 9 Status"),
            (Made(console=4097), {}, "image 10 ConsoleLength"),
            (Made().count(3, 64), {}, "image 11 Count 3"),
            (Made().count(8, 1), {}, "image 11 Count 8"),
            (Made(harts=2).word(1048 + 13 + 9, 0, 5), {"harts": 2}, "image 12 Second"),
            (Made(harts=2).word(1048 + 13 + 9, 7, 1), {"harts": 2}, "image 12 Second"),
            (Made(scheme=2).entry(3, 0), {"scheme": "shadow"}, "image 6 TableIndex 3"),
            (Made(scheme=2).entry(3, 17), {"scheme": "shadow"}, "image 6 TableIndex 3"),
            (Made(scheme=2).entry(3, 2), {"scheme": "shadow"}, "image 7 TableTwice 1 3"),
        ):
            with self.subTest(line=line):
                self.assertEqual(self.refusal(made, **more), (5, line))
        self.assertEqual(self.refusal(None, data=Made().bytes[:127]), (5, "image 1 Empty"))
        self.assertEqual(self.refusal(None, data=Made().bytes[:-1]), (5, "image 4 Geometry"))
        # One of version 1 may have the length of either version.
        self.assertIsNone(self.refusal(None, data=Made(version=1).bytes + bytes(16 * 64)))

    def test_places(self):
        values = {**settings("resume a --pages 8 --btt 8 --ptt 8".split())[1]}
        self.assertEqual(Image(Made().bytes, values).layout.slot(5), 1056)
        self.assertEqual(Image(Made(version=1).bytes, values).layout.slot(5), 9)
        self.assertEqual(Image(Made(version=1).bytes, values).versions, (1, 2))


class Answers(unittest.TestCase):
    def plan(self, line):
        return Plan(*settings(line.split()))

    def judge(self, line, status, report, printed=b""):
        answer = Answer(status, printed, report.encode())
        judge_run(self.plan(line), answer, ".")
        return answer

    def test_reports_that_are_possible(self):
        self.judge("plain a", 0, "exit 7 at 3\n", b"hi")
        self.judge("run a", 0, "commit 0 overlapped 0\nepoch 1 ends at 3 by end\ncommit 1 overlapped 0\nexit 7 at 3\n", b"hi")
        self.judge("run a --cuts 5", 8, "cut 1 at cycle 5\nreload\ncommit 0 overlapped 0\nlimit 1000000000\n")
        self.judge("run a --epoch 5 --harts 2", 8, "commit 0 overlapped 0\nepoch 1 ends at 5 by length harts 3 2\nlimit 1000000000\n")
        self.judge("bench 7", 0, "commit 0 overlapped 0\nepoch 1 ends at 3 by end\ncommit 1 overlapped 0\nexit 7 at 3\nsummary epochs 1 early 0 overlapped 0\n")

    def test_reports_that_are_not(self):
        start = "commit 0 overlapped 0\n"
        sealed = f"{start}epoch 1 ends at 3 by end\n"
        end = f"{sealed}commit 1 overlapped 0\nexit 7 at 3\n"
        for line, status, report, said in (
            ("run a", 0, f"{start}usage\n", "not a line of an event: 'usage'"),
            ("run a", 0, f"{start}epoch 1 ends at 3 by exhausted 0 1 3\n", "not a line of an event"),
            ("run a", 1, f"{sealed}commit 1 overlapped 0\ntrap 8 at 3\n", "not a line of an event"),
            ("run a", 0, end.replace("epoch 1", "epoch 2"), "not possible here"),
            ("run a --epoch 2", 0, end, "not possible here"),
            ("run a", 0, end.replace("by end", "by length"), "not possible here"),
            ("run a", 0, end.replace("by end", "by exhausted 3 2 1"), "not possible here"),
            ("run a", 0, end.replace("by end", "by end harts 1 2"), "not possible here"),
            ("run a", 0, end.replace("exit 7 at 3", "exit 7 at 4"), "not possible here"),
            ("run a", 0, end.replace("exit 7 at 3", "exit 256 at 3"), "not possible here"),
            ("run a", 0, f"{end}commit 2 overlapped 0\n", "after the end"),
            ("run a", 1, end, "status 1"),
            ("run a", 8, f"{start}limit 5\n", "status 8, 'limit 5', and no end"),
            ("run a --cuts 5", 8, "cut 1 at cycle 6\nlimit 1000000000\n", "not possible here"),
            ("run a --cuts 5", 8, f"{start}cut 1 at cycle 5\nreload\nlimit 1000000000\n", "not possible here"),
            ("run a --cuts 5", 8, f"{start}cut 1 at cycle 5\nrestart 1 at 0\nlimit 1000000000\n", "not possible here"),
            ("run a --digest", 0, end, "the last digest is missing"),
            ("run a", 0, f"{end}memory {'0' * 64}\n", "a line `memory` is missing or not due"),
            ("plain a", 0, f"{start}exit 7 at 3\n", "not of `plain`"),
            ("bench 7", 0, end, "the line of sums is missing or not due"),
            ("run a", 0, end[:-1], "the report ends within a line"),
        ):
            with self.subTest(report=report):
                with self.assertRaises(Wrong) as wrong:
                    self.judge(line, status, report)
                self.assertIn(said, str(wrong.exception))

    def test_a_terminal_before_a_checkpoint(self):
        with self.assertRaises(Wrong):
            self.judge("run a", 8, "limit 1000000000\n", b"hi")

    def test_refusals(self):
        judge_refusal(Due(2, "usage"), Answer(2, b"", b"usage\n"))
        for answer in (Answer(3, b"", b"usage\n"), Answer(2, b"x", b"usage\n"), Answer(2, b"", b"word pages\n")):
            with self.assertRaises(Wrong):
                judge_refusal(Due(2, "usage"), answer)

    def test_comparisons(self):
        plan = self.plan("compare a --pages 8")
        lines = [f"scheme {name} epochs 1 early 0 overlapped {n} writes 512" for n, name in ((5, "thynvm"), (0, "journal"), (0, "shadow"))]
        judge_comparison(plan, Answer(0, b"", ("\n".join(lines) + "\n").encode()))
        judge_comparison(plan, Answer(8, b"", f"{lines[0]}\nlimit 1000000000\n".encode()))
        for wrong in (lines[:2], [lines[1], lines[0], lines[2]], [lines[0].replace("512", "511"), *lines[1:]], [*lines[:2], lines[2].replace("overlapped 0", "overlapped 1")]):
            with self.assertRaises(Wrong):
                judge_comparison(plan, Answer(0, b"", ("\n".join(wrong) + "\n").encode()))

    def test_two_answers_of_a_program(self):
        one, other = (self.judge("plain a", 0, "exit 7 at 3\n", text) for text in (b"hi", b"ho"))
        compare(one, one)
        with self.assertRaises(Wrong):
            compare(one, other)

    def test_events_one_after_another(self):
        report = Report(self.plan("run a --cuts 9"))
        for line in ("commit 0 overlapped 0", "epoch 1 ends at 4 by exhausted 0 1 1", "cut 1 at cycle 9", "restart 1 at 4"):
            report.take(line)
        self.assertEqual((report.early, report.committed, report.shown), (1, 1, True))


class Words(unittest.TestCase):
    def test_what_is_read_from_the_page(self):
        self.assertEqual(len(rules.refusals("### The seventeen refusals")), 17)
        self.assertEqual(len(rules.refusals("### What an image means")), 12)
        forms = rules.closings()
        self.assertTrue(any(form.fullmatch("limit 5") for form in forms[8]))
        self.assertTrue(any(form.fullmatch("fetch a b missing") for form in forms[3]))
        self.assertFalse(any(form.fullmatch("limit x") for form in forms[8]))


class Hostile(CopyTest):
    tool = "hostile"

    def test_help(self):
        self.has_help()

    def test_refusals(self):
        self.refuses("there is no program /none: a call of ./thynvm builds it", "--program", "/none")
        self.refuses("argument --only: invalid choice: 'x'", "--only", "x")
        self.refuses("argument --seed: invalid int value: 'x'", "--seed", "x")
        for name in ("--count", "--jobs", "--memory"):
            self.refuses(f"argument {name}: invalid positive value: '0'", name, 0)
        self.refuses("argument --seconds: invalid seconds value: '-1'", "--seconds=-1")
        self.refuses("--allocs makes no case of another kind", "--allocs", "--only", "elf")
        self.refuses("--allocs has the cases 0 to 12", "--allocs", "--case", 13)
        self.refuses("unrecognized arguments: x", "x")

    def test_a_program_that_is_wrong(self):
        program = self.program("exit 0")
        self.file("docs/FORMATS.md", repository.text_of("docs/FORMATS.md"))
        self.examples()
        done = self.call("--program", program, "--only", "input", "--case", 3, "--keep", self.path("kept"))
        lines = done.out.splitlines()
        self.assertRegex(lines[0], r"\Ainput 3: status 0, '', and no end \(thynvm plain program .*\); kept in .*/kept/input-1-3\Z")
        self.assertEqual((lines[-1], done.status), ("1 cases of seed 1, 1 wrong", 1))
        self.assertIn("; echo \"status $?\" >&2", self.read("kept/input-1-3/repeat"))


@needs_program()
class WithTheProgram(ToolTest):
    tool = "hostile"

    def test_some_cases(self):
        done = self.call("--seed", random.randrange(10**6), "--count", 10, "--jobs", 2)
        self.assertEqual((done.err, done.status), ("", 0), done.out)
        self.assertRegex(done.out, r"\n40 cases of seed \d+, 0 wrong\n\Z")

    def test_one_call_whose_memory_is_refused(self):
        done = self.call("--allocs", "--case", 9)
        self.assertRegex(done.out, r"\n1 cases of seed 1, 0 wrong\n\Z")

    def test_one_case(self):
        done = self.call("--only", "input", "--case", 5)
        self.assertRegex(done.out, r"\n1 cases of seed 1, 0 wrong\n\Z")
