"""tools/random: what it draws, its judgement of reports, and some cases."""

import hashlib
import unittest

from lib.calls import Wrong
from lib.drawing import Draw
from lib.random_runs.cases import Piece, is_starved, other_geometry, outside
from lib.random_runs.drawn import Geometry, Memory, Pace, drawn_geometry, drawn_memory, drawn_pace, promised, said
from lib.random_runs.pairs import Cell, pair_program
from lib.random_runs.programs import drawn_program, memory_for, with_second_hart
from lib.random_runs.reports import Answer, Guest, Known, Mark, read_report
from tests.support import CopyTest, ToolTest, needs_program


class Options:
    scheme = harts = None


class Drawn(unittest.TestCase):
    def test_options_are_in_their_ranges(self):
        for seed in range(200):
            rng = Draw(seed)
            memory, geometry = drawn_memory(rng), drawn_geometry(rng, Options)
            pace = drawn_pace(rng, memory, geometry, 1000)
            self.assertTrue(8 <= memory.pages <= 65536 and 1 <= memory.console < memory.pages - 1 and memory.base % 4096 == 0)
            self.assertTrue(8 <= geometry.btt <= 4096 and 8 <= geometry.ptt <= 512 and geometry.btt % 8 == geometry.ptt % 8 == 0)
            self.assertTrue(pace.values.get("low", 0) <= pace.values.get("high", 22))
            self.assertEqual(pace.cuts, sorted(set(pace.cuts)))
            self.assertTrue(memory.pages * (len(pace.cuts) + 1) <= 65536 and len(pace.tears) <= len(pace.cuts) + 1)

    def test_slots(self):
        # The numbers of docs/FORMATS.md for eight pages and eight entries.
        memory = Memory(65536, 8, 1)
        for scheme, harts, blocks in (("thynvm", 1, 8), ("thynvm", 2, 13), ("journal", 1, 6), ("shadow", 1, 6), ("shadow", 2, 11)):
            self.assertEqual(Geometry(scheme, harts, 8, 8).slot(memory), blocks)

    def test_words_that_are_left_out(self):
        words = ["run", "a", "--pages", 256, "--harts", 1, "--btt", 8]
        self.assertEqual(said(words, ("harts",)), ["run", "a", "--pages", 256, "--btt", 8])
        self.assertEqual(said(words, ("harts", "pages", "btt")), ["run", "a", "--btt", 8])

    def test_the_bound_of_a_run(self):
        # By hand for shadow paging: boot 64 * 8 + 2 * 6 + 8 = 532, and 17 * 5 + 129 * 8 + 6 + 4 = 1127 for each of 3 steps and one
        # more, four times; a cut in cycle 9.
        pace = Pace({"epoch": 5}, [9], [])
        self.assertEqual(promised(Memory(65536, 8, 1), Geometry("shadow", 1, 8, 8), pace, 3), 10 + 2 * 532 + 4 * 1127 * 4)

    def test_another_geometry(self):
        memory, geometry = Memory(65536, 8, 1), Geometry("thynvm", 1, 8, 8)
        for seed in range(50):
            self.assertNotEqual(other_geometry(Draw(seed), memory, geometry, True), (memory, geometry))
        self.assertEqual((memory, geometry), (Memory(65536, 8, 1), Geometry("thynvm", 1, 8, 8)))


class Programs(unittest.TestCase):
    def test_programs_fit_into_memory(self):
        for seed in range(50):
            rng, memory = Draw(seed), Memory(65536, 8, 1)
            for data in (drawn_program(rng, memory, 1), drawn_program(rng, memory, 2)):
                self.assertIsNone(outside(Guest(data), memory))

    def test_one_outside_of_it(self):
        data = drawn_program(Draw(1), Memory(65536, 8, 1), 1)
        self.assertEqual(outside(Guest(data), Memory(69632, 8, 1)), [(4, "file 17 SegmentOutsideMemory 0")])

    def test_a_second_hart(self):
        rng, guest = Draw(1), Guest(drawn_program(Draw(1), Memory(65536, 8, 1), 1))
        memory, before = memory_for(rng, 7, 2), len(guest.data)
        with_second_hart(rng, memory, guest)
        # One header more, and the entry in the lowest page.
        self.assertGreater(len(guest.data), before + 56)
        entry = int.from_bytes(guest.data[24:32], "little")
        self.assertTrue(memory.base <= entry < memory.base + 4096)
        self.assertIsNone(outside(guest, memory))

    def test_cells(self):
        for name, wide, value, number, wanted in (
            ("add", 2, 2**32 - 1, 3, 2),
            ("add", 3, 2**64 - 1, 3, 2),
            ("xor", 2, 6, 2**32 + 5, 3),
            ("and", 3, 6, 5, 4),
            ("or", 3, 6, 1, 7),
            ("min", 2, 2**31, 1, 2**31),
            ("max", 2, 2**31, 1, 1),
            ("minu", 2, 2**31, 1, 1),
            ("maxu", 3, 2**63, 1, 2**63),
        ):
            cell = Cell(0, name, wide, False, value)
            cell.take(number)
            with self.subTest(name=name):
                self.assertEqual(cell.value, wanted)

    def test_pairs(self):
        guest = pair_program(Draw(1), Memory(65536, 16, 1))
        self.assertEqual(guest.known.end[0], "exit")
        self.assertEqual(len(guest.known.digest), len(hashlib.sha256().hexdigest()))


class Oracle:
    """A program that exits with 7 after three instructions and prints `hi`."""

    count, end, printed, digests = 3, ("exit", 7), b"hi", {}


class Reports(unittest.TestCase):
    def piece(self, values=None, verb="run", cuts=(), harts=1, scheme="thynvm", found=(None, Mark(0, 0, 0))):
        pace = Pace({"epoch": 5, **(values or {})}, list(cuts), [])
        return Piece(verb, "program", Memory(65536, 8, 1), Geometry(scheme, harts, 8, 8), pace, [], found)

    def read(self, text, status=0, **how):
        return read_report(self.piece(**how), Answer(status, b"", text.splitlines()), Oracle)

    END = "commit 0 overlapped 0\nepoch 1 ends at 3 by end\ncommit 1 overlapped 0\nexit 7 at 3\n"

    def test_an_end(self):
        report = self.read(self.END)
        self.assertEqual((report.end, report.kept, report.ended, report.shown), (("exit", 7), Mark(1, 3, 3), 1, True))

    def test_a_cut_while_a_checkpoint_is_written(self):
        text = "commit 0 overlapped 0\nepoch 1 ends at 2 by exhausted 0 1 1\ncut 1 at cycle 9\nrestart {}\nlimit 1000000000\n"
        for mark, doubtful in (("0 at 0", 0), ("1 at 2", 1)):
            report = self.read(text.format(mark), 8, cuts=[9])
            self.assertEqual((report.restarts, report.doubtful, report.early), (1, doubtful, 1))

    def test_a_resumed_run(self):
        found = Mark(4, 2, 2), Mark(5, 3, 3)
        text = "restart {}\nlimit 1000000000\n"
        for mark in ("4 at 2", "5 at 3"):
            self.assertEqual(self.read(text.format(mark), 8, verb="resume", found=found).restarts, 1)
        with self.assertRaises(Wrong):
            self.read(text.format("4 at 3"), 8, verb="resume", found=found)

    def test_reports_that_are_wrong(self):
        for text, status, how, said in (
            ("usage\n", 0, {}, "not a line of an event"),
            (f"{self.END}cut 1 at cycle 5\n", 0, {}, "after the end"),
            (self.END.replace("by end", "by length"), 0, {}, "not possible here"),
            (self.END.replace("at 3 by end", "at 2 by end"), 0, {}, "not possible here"),
            (self.END.replace("by end", "by end harts 1 2"), 0, {}, "not possible here"),
            ("commit 0 overlapped 0\nepoch 1 ends at 2 by exhausted 3 1 2\nlimit 1000000000\n", 8, {}, "not possible here"),
            ("commit 0 overlapped 0\nepoch 1 ends at 2 by exhausted 1 1 3\nlimit 1000000000\n", 8, {}, "not possible here"),
            ("commit 0 overlapped 0\nepoch 1 ends at 3 by exhausted 1 1 1\nlimit 1000000000\n", 8, {}, "not possible here"),
            (self.END.replace("commit 1 overlapped 0", "commit 1 overlapped 1"), 0, {"scheme": "journal"}, "not possible here"),
            (self.END.replace("exit 7 at 3", "exit 7 at 2"), 0, {}, "not possible here"),
            (self.END, 1, {}, "status 1 after exit 7"),
            ("commit 0 overlapped 0\n", 0, {}, "status 0, 'commit 0 overlapped 0', and no end"),
            ("commit 0 overlapped 0\nlimit 5\n", 8, {}, "status 8, 'limit 5', and no end"),
            ("commit 0 overlapped 0\nlimit 50\n", 8, {"values": {"limit": 50}, "cuts": [9]}, "0 cuts fell up to the limit, and not 1"),
        ):
            with self.subTest(text=text):
                with self.assertRaises(Wrong) as wrong:
                    self.read(text, status, **how)
                self.assertIn(said, str(wrong.exception))

    def test_two_harts(self):
        known = Known(b"", 7, None, 3)
        text = "commit 0 overlapped 0\nepoch 1 ends at 3 by end harts 2 1\ncommit 1 overlapped 0\nexit 7 at 3\n"
        report = read_report(self.piece(harts=2), Answer(0, b"", text.splitlines()), known)
        self.assertEqual((report.kept, report.turns), (Mark(1, 3, 2), [(2, 1)]))
        with self.assertRaises(Wrong):
            read_report(self.piece(harts=2), Answer(0, b"", text.replace(" 2 1", " 2 2").splitlines()), known)

    def test_starved(self):
        class Told:
            turns = [(5, 5), (600, 0), (600, 0)]

        self.assertTrue(is_starved(self.piece(), Told))
        self.assertFalse(is_starved(self.piece({"mix": 3}), Told))
        Told.turns = [(600, 1), (600, 0)]
        self.assertFalse(is_starved(self.piece(), Told))


class Random(CopyTest):
    tool = "random"

    def test_help(self):
        self.has_help()

    def test_refusals(self):
        program = self.program("exit 0")
        self.refuses("there is no program /none: a call of ./thynvm builds it", "--program", "/none")
        self.refuses("unknown: --pages 8", "--program", program, "--pages", 8)
        self.refuses("argument --runs: invalid positive value: '0'", "--runs", 0)
        self.refuses("argument --memory: invalid positive value: '0'", "--memory", 0)
        self.refuses("argument --seconds: invalid seconds value: '0'", "--seconds", 0)
        self.refuses("argument --harts: invalid choice: '3'", "--harts", 3)
        self.refuses("argument --scheme: invalid choice: 'x'", "--scheme", "x")
        refusing = self.script("refusing", "#!/bin/sh\necho 'fetch a missing' >&2\nexit 3\n")
        self.refuses("status 3, ['fetch a missing']", "--program", refusing, "--cuts", "a")

    def test_a_program_that_is_wrong(self):
        program = self.program("exit 0")
        self.examples()
        done = self.call("--program", program, "--case", 3, "--keep", self.path("kept"))
        lines = done.out.splitlines()
        self.assertRegex(lines[0], r"\Athynvm .*: status 0\Z")
        self.assertRegex(lines[-2], r"\Acase 3: .* tools/random --seed 1 --case 3; kept in .*/kept/1-3\Z")
        self.assertRegex(lines[-1], r"\Aseed 1: 1 runs, 1 wrong; ")
        self.assertEqual(done.status, 1)
        self.assertIn("; echo \"status $?\" >&2", self.read("kept/1-3/repeat"))


@needs_program()
class WithTheProgram(ToolTest):
    tool = "random"

    def test_some_cases(self):
        done = self.call("--seed", 20261130, "--runs", 12, "--jobs", 2)
        self.assertEqual((done.err, done.status), ("", 0), done.out)
        self.assertRegex(done.out, r"\Aseed 20261130: 12 runs, 0 wrong; ")

    def test_one_case(self):
        done = self.call("--harts", 1, "--scheme", "journal", "--case", 2)
        self.assertEqual((done.err, done.status), ("", 0), done.out)
        self.assertIn("1 runs, 0 wrong; thynvm 0, journal 1, shadow 0; one hart 1, two 0", done.out)
