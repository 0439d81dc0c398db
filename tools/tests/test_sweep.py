"""tools/sweep, with a program in place of thynvm."""

from tests.support import ToolTest

# What the program writes of a piece: it is called as `sweep OUT --from A --to B ..`.
PIECE = """#!/bin/sh
out=$2 from=$4 to=$6
echo "$@" >>"$(dirname "$0")/calls"
[ "$from" -le 31 ] || { echo "value from $from" >&2; exit 2; }
end="to $to" more=
[ "$to" -lt 35 ] || end="exit 7 at 30"
[ "$from" != 21 ] || more=", none times 1 boot 699 699"
{
    echo "cycles $from $to counts $from $to queued 1 images 2 tried 2, epoch 1 at 5 times 1 boot 10 12$more"
    echo "states 0 rows 0"
    echo "$end"
} >"$out"
"""


class Sweep(ToolTest):
    tool = "sweep"

    def setUp(self):
        super().setUp()
        self.fake = self.script("fake", PIECE)

    def sweep(self, *words):
        return ("--thynvm", self.fake, "--keep", self.path("kept"), "--piece", 10, "--jobs", 1, *words)

    def test_help(self):
        self.has_help()

    def test_the_sums_of_pieces(self):
        # The rows end at 20, 30 and 40. The second has two leads, and the run ends in the third.
        said = "states 4 rows 3\nrestarts 1 3\nreloads 1\ndecided 1\nlongest boot 699\nlost most 35 sum 105\nexit 7 at 30\n"
        self.prints(said, *self.sweep("--from", 11, "--to", 60, "--tears", "0,1", "--compare", "registers", "run", "F", "--pages", 8))
        calls = self.read("calls").splitlines()
        self.assertEqual(len(calls), 5)
        self.assertEqual(calls[0], f"sweep {self.path('kept')}/11-20 --from 11 --to 20 --tears 0,1 --compare registers run F --pages 8")

    def test_pieces_that_are_kept(self):
        self.call(*self.sweep("--from", 11, "--to", 30, "run", "F"))
        self.call(*self.sweep("--from", 11, "--to", 40, "--resume", "run", "F"))
        self.assertEqual([line.split()[3] for line in self.read("calls").splitlines()], ["11", "21", "31"])

    def test_refusals(self):
        self.refuses("the range is empty", *self.sweep("--from", 5, "--to", 4, "run", "F"))
        self.refuses("run, resume or bench is wanted after the options", *self.sweep("--from", 1, "--to", 2, "plain", "F"))
