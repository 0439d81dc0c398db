"""The lines of a report, by docs/FORMATS.md, "The report"."""

import unittest

from lib.report import Closing, Committed, Compared, Cut, Digest, Ended, Reloaded, Restored, Sealed, Summary, event_of, events

HEX = "0123456789abcdef" * 4

LINES = {
    "epoch 1 ends at 240 by length": Sealed(1, 240, "length", None, None),
    "epoch 3 ends at 9 by end harts 5 4": Sealed(3, 9, "end", None, (5, 4)),
    "epoch 12 ends at 0 by exhausted 1 2 1": Sealed(12, 0, "exhausted", (1, 2, 1), None),
    "epoch 12 ends at 7 by exhausted 0 0 1 harts 0 2": Sealed(12, 7, "exhausted", (0, 0, 1), (0, 2)),
    "commit 0 overlapped 0": Committed(0, 0),
    "commit 7 overlapped 81": Committed(7, 81),
    "cut 1 at cycle 2200": Cut(1, 2200),
    "restart 1 at 240": Restored(1, 240),
    "reload": Reloaded(),
    "exit 7 at 3": Ended("exit", 7, 3),
    "trap 5 at 60": Ended("trap", 5, 60),
    f"memory {HEX}": Digest(HEX),
    "summary epochs 12 early 3 overlapped 456": Summary(12, 3, 456),
    "scheme journal epochs 1 early 2 overlapped 3 writes 4": Compared("journal", 1, 2, 3, 4),
    "limit 1000": Closing("limit 1000"),
    "memory": Closing("memory"),
    "nvm failed": Closing("nvm failed"),
    "terminal failed": Closing("terminal failed"),
    "input 14 2": Closing("input 14 2"),
    "put a name failed": Closing("put a name failed"),
}

# Numbers have no leading zeros, and no line has more or less than its parts.
NONE = (
    "",
    "usage",
    "epoch 01 ends at 240 by length",
    "epoch 1 ends at 240 by lengths",
    "epoch 1 ends at 240 by exhausted 1 2",
    "epoch 1 ends at 240 by length harts 3",
    "commit 1 overlapped",
    "commit 1 overlapped -1",
    "cut 1 at cycle",
    "cut 1 at cycle 5 ",
    "restart 1 at 240 again",
    "reload 1",
    "exit 7",
    f"memory {HEX.upper()}",
    f"memory {HEX}0",
    "summary epochs 12 early 3",
    "scheme 1 epochs 1 early 2 overlapped 3 writes 4",
    "limit",
    "put failed",
)


class Report(unittest.TestCase):
    def test_lines(self):
        for line, event in LINES.items():
            with self.subTest(line=line):
                self.assertEqual(event_of(line), event)

    def test_first_words(self):
        for line in LINES:
            event = event_of(line)
            if not isinstance(event, Closing):
                self.assertEqual(event.word, line.split(" ")[0])

    def test_no_lines(self):
        for line in NONE:
            with self.subTest(line=line):
                self.assertIsNone(event_of(line))

    def test_several(self):
        lines = ["cut 1 at cycle 5", "x", "reload", "cut 2 at cycle 9"]
        self.assertEqual(events(lines), [Cut(1, 5), Reloaded(), Cut(2, 9)])
        self.assertEqual(events(lines, Cut), [Cut(1, 5), Cut(2, 9)])
