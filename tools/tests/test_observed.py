"""What `observe` writes, by docs/OBSERVING.md."""

import unittest

from lib import observed, written
from lib.observed import Fault, looks_observed, read
from lib.report import Committed, Cut, Reloaded, Sealed


def lines(text, *changes):
    """The lines of a text, with some parts of it changed."""
    for old, new in changes:
        assert text.count(old) == 1, old
        text = text.replace(old, new)
    return text.splitlines()


class Observed(unittest.TestCase):
    def test_events_and_totals(self):
        seen = read(lines(written.CUTS))
        self.assertEqual(len(seen.events), 15)
        first, second, third, fourth = seen.events[:4]
        self.assertEqual((first.cycle, first.count, first.word, first.told), (100, None, "cut", Cut(1, 100)))
        self.assertEqual((second.cycle, second.count, second.told), (101, 0, Reloaded()))
        self.assertEqual(third.told, Committed(0, 0))
        self.assertEqual((fourth.count, fourth.told), (60, Sealed(1, 60, "length", None, None)))
        self.assertEqual(seen.trap, None)
        self.assertEqual((seen.number("cycles"), seen.number("cycles", "boot"), seen.number("lost")), (1850, 610, 70))
        self.assertEqual(seen.totals["epochs"], {"": 5, "early": 1, "overlapped": 40})

    def test_a_trap_of_two_harts(self):
        seen = read(lines(written.TWO_HARTS))
        self.assertEqual(seen.trap, "trap 10004 503823 10 hart 1")
        self.assertEqual(seen.totals["hart1"], {"moved": 2, "retired": 2})

    def test_program_counters(self):
        self.assertIsNone(read(lines(written.CUTS)).pcs)
        # The run retired 230 instructions, lost ones included.
        seen = read([*lines(written.CUTS), "pcs", "10000 200", "1000c 29", "abcdef0 1"])
        self.assertEqual(seen.pcs, {0x10000: 200, 0x1000C: 29, 0xABCDEF0: 1})
        self.assertEqual(seen.number("epochs"), 5)
        none = lines(written.CUTS, ("hart moved 460 retired 230", "hart moved 690 retired 0"))
        self.assertEqual(read([*none, "pcs", "none"]).pcs, {})

    def test_refusals_of_program_counters(self):
        for more, said in (
            (["pcs"], "behind its line 'pcs' it has no line"),
            (["pcs", "none"], "retired 0 times, and have to have 230 times"),
            (["pcs", "10000 241"], "retired 241 times"),
            (["pcs", "none", "10000 230"], "not a line of a program counter: none"),
            (["pcs", "10000 200", "10000 30"], "do not rise at 10000"),
            (["pcs", "10004 200", "10000 30"], "do not rise at 10000"),
            (["pcs", "010000 230"], "not a line of a program counter: 010000 230"),
            (["pcs", "10000 0230"], "not a line of a program counter: 10000 0230"),
            (["pcs", "10000 230", "10004 0"], "10004 has the count 0"),
            (["pcs", "10000 230 1"], "not a line of a program counter"),
        ):
            self.refuses(said, [*lines(written.CUTS), *more])

    def test_causes_and_epochs_and_wear(self):
        seen = read(lines(written.STORED))
        self.assertEqual((seen.causes["instructions"], seen.causes["meanwhile"], seen.causes["barriers"]), (8, 4, 4))
        self.assertEqual([(it.epoch, it.first, it.last, it.end) for it in seen.epochs][1:3], [(1, 701, 710, "seal"), (2, 711, 731, "seal")])
        self.assertEqual([it.counts["waiting"] for it in seen.epochs], [0, 0, 6, 8])
        self.assertEqual(seen.wear, {0: 3, 1: 538})
        plain = read(lines(written.CUTS))
        self.assertEqual((plain.causes, plain.epochs, plain.wear), (None, None, None))

    def test_refusals_of_what_is_counted(self):
        for old, new, said in (
            ("merges 0\n", "", "in place of its line 'merges ..' it has: seals 2"),
            ("meanwhile 4", "meanwhile 5", "its numbers of instructions and meanwhile make 13, and not 12"),
            ("nothing 0", "nothing 1", "make 745 cycles, and have to make 744"),
            ("waiting 14\nepochs", "waiting 14\nmore 1\nepochs", "it has another line: more 1"),
            ("epoch\tfrom", "epoch\tbegin", "in place of the names of its columns"),
            ("1\t701\t710\tseal", "1\t702\t710\tseal", "a row begins with cycle 702, and has to begin with 701"),
            ("1\t701\t710\tseal", "1\t701\t710\tend", "this is not a row of a stretch"),
            ("1\t701\t710\tseal", "one\t701\t710\tseal", "this is not a row of a stretch"),
            ("wear\n0 3", "wear\n0 0", "this is not a line of a place: 0 0"),
            ("0 3\n1 538", "1 538\n0 3", "its places do not rise at 0"),
            ("1 538", "1 537", "its places took 540 writes, and there are 541"),
        ):
            self.refuses(said, lines(written.STORED, (old, new)))

    def test_states(self):
        self.assertEqual(read(lines(written.CUTS)).states, {})
        text = f"{written.CUTS}pcs\n10000 230\nstate 1340\n{written.STATE}state-at 999\nnone\n"
        seen = read(lines(text))
        self.assertEqual((list(seen.states), seen.states["state-at 999"]), (["state 1340", "state-at 999"], None))
        state = seen.states["state 1340"]
        self.assertEqual((state.ending, state.count, state.console, state.cursor, state.end), (None, 125, 12, 3, 0x12A40))
        self.assertEqual((state.base, state.memory[:24].hex()), (0x10000, "9308d00500000000" + 16 * "00"))
        self.assertEqual((state.memory[24:].hex()), "00000000000000ff" + 8 * "00")
        [hart] = state.harts
        self.assertEqual((hart.pc, hart.reserved, len(hart.registers)), (0x10078, None, 32))
        self.assertEqual((hart.registers[:4], hart.registers[31]), ([0, 0x10074, 0x17FF0, 0], 2**64 - 1))

    def test_a_state_of_two_harts(self):
        state = read(lines(f"{written.TWO_HARTS}state-at 5\n{written.STATE_OF_TWO}")).states["state-at 5"]
        self.assertEqual((state.ending, state.memory), (("trap", 7), bytes(16)))
        self.assertEqual([(hart.pc, hart.reserved) for hart in state.harts], [(0x10000, None), (0x10004, (8, 0x10010))])
        self.assertEqual((state.harts[0].registers[5], state.harts[1].registers[10]), (1, 16))

    def test_refusals_of_states(self):
        text = f"{written.CUTS}state 1340\n{written.STATE}"
        for old, new, said in (
            ("running\n", "walking\n", "behind its line 'state 1340': this is not how the program stands: walking"),
            ("count 125\n", "", "this is not the line of count: console 12"),
            ("break 12a40\n", "break 012a40\n", "this is not the line of break: break 012a40"),
            ("hart 0 10078\n", "hart 1 10078\n", "this is not the line of hart 0: hart 1 10078"),
            ("x7 0\n", "", "this is not the line of x7: x8 0"),
            ("10018 ff", "10019 ff", "this is not a line of eight bytes of memory: 10019 ff"),
            ("10018 ff", "10028 ff", "this is not a line of eight bytes of memory: 10028 ff"),
            ("10018 ff00000000000000\n", "10000 1\n", "this is not a line of eight bytes of memory: 10000 1"),
            ("10018 ff00000000000000\n", "10018 0\n", "this is not a line of eight bytes of memory: 10018 0"),
            ("memory 10000 40\n10000 5d00893\n10018 ff00000000000000\n", "", "this is not the line of memory: nothing"),
            ("10018 ff", "state 1340\nnone\n10018 ff", "its line 'state 1340' stands twice"),
        ):
            self.refuses(said, lines(text, (old, new)))

    def test_a_trace(self):
        self.assertIsNone(read(lines(written.CUTS)).trace)
        text = f"{written.CUTS}pcs\n10000 230\nstate-at 999\nnone\n{written.TRACE}"
        seen = read(lines(text))
        first, second, third, last = seen.trace
        self.assertEqual((first.cycle, first.hart, first.pc, first.word, first.access), (703, 0, 0x10000, 0x1297, None))
        self.assertEqual((second.access.at, second.access.width, second.access.value), (0x11004, 4, 0x11000))
        self.assertEqual((third.access.at, third.access.width, third.access.value), (0x11005, 1, 0x10))
        self.assertEqual((last.hart, last.pc, last.word, last.access), (1, 0x10012, None, None))
        self.assertEqual(read([*lines(written.CUTS), "trace", "none"]).trace, [])

    def test_refusals_of_a_trace(self):
        text = f"{written.CUTS}{written.TRACE}"
        for old, new, said in (
            (written.TRACE, "trace\n", "behind its line 'trace': it has no line"),
            ("703 0 10000", "703 2 10000", "this is not a line of an instruction: 703 2 10000 1297"),
            ("703 0 10000", "703 0 010000", "this is not a line of an instruction: 703 0 010000 1297"),
            ("11004 4 11000", "11004 3 11000", "this is not a line of an instruction: 708 0 10004 52a223 11004 3 11000"),
            (" 11005 1 10", " 11005 1", "this is not a line of an instruction: 711 0 10008 52c303 11005 1"),
            ("711 0", "708 0", "its cycles do not rise at 708"),
            ("1850 1 10012", "1851 1 10012", "it has cycle 1851, and the run 1850 cycles"),
            ("703 0 10000 1297\n", "none\n", "this is not a line of an instruction: none"),
        ):
            self.refuses(said, lines(text, (old, new)))
        few = lines(text, ("hart moved 460 retired 230", "hart moved 687 retired 3"))
        self.refuses("it has 4 instructions, and 3 retired", few)

    def test_what_is_no_event_of_a_report(self):
        for line in ("limit 5", "epochs 5", "memory"):
            self.assertIsNone(observed.Event(1, 1, line).told)

    def test_how_it_looks(self):
        self.assertTrue(looks_observed(lines(written.CUTS)))
        self.assertTrue(looks_observed(["cycles 5 boot 5 hart 0"]))
        self.assertFalse(looks_observed(lines(written.REPORT)))
        self.assertFalse(looks_observed([]))

    def refuses(self, said, text):
        with self.assertRaises(Fault) as fault:
            read(text)
        self.assertIn(said, str(fault.exception))

    def test_refusals(self):
        self.refuses("none of a run on the plain machine", [])
        self.refuses("none of a run on the plain machine", ["trap 10000 ffffffff"])
        for change, said in (
            (("cycles 1850 boot 610", "cycles 1850 boot 611"), "'cycles ..' is 1851, and has to be 1850"),
            (("hart moved 460", "hart moved 461"), "'hart ..' is 701, and has to be 700"),
            (("table 11", "table 12"), "'engine ..' is 51, and has to be 50"),
            (("lost 70\n", ""), "6 lines, and not the 7"),
            (("waiting 20", "waiting 020"), "this is not the line 'waiting ..'"),
            (("1700 150 epoch", "1500 150 epoch"), "do not rise"),
            (("1850 160 exit", "1852 160 exit"), "go past the last one"),
        ):
            with self.subTest(change=change):
                self.refuses(said, lines(written.CUTS, change))
        two = written.TWO_HARTS
        self.refuses("retired 6 instructions", lines(two, ("hart0 moved 4 retired 3", "hart0 moved 4 retired 4")))
        self.refuses("have 7 moves", lines(two, ("hart0 moved 4", "hart0 moved 5")))
        self.refuses("not of as many harts", lines(two, (" hart 1\n", "\n")))
