"""tools/readers."""

from lib import pictures
from tests.support import ToolTest, needs_observer, needs_sweeper

# Four tables of texts and one of a report, and a refusal of tools/epochs; a table and the refusals of tools/cost: eight and six of
# texts, and one for each of seven options. With matplotlib there are as many pictures of tools/epochs as tables, and one of
# tools/cost.
CALLS = 5 + 1 + 1 + 14 + 7 + (5 + 1 if pictures.has_matplotlib() else 0)

# What a program that reports nothing comes to, and one that writes another text.
WRONG = "observe\nstatus 0\nsomething else\ncuts "

NOT_BUILT = "thynvm or observe is not built: tools/cuts and what observe writes are left out\n"
NOT_SWEPT = "thynvm, observe or sweep is not built: what sweep writes is left out\n"

# The runs that are swept, if that program is built.
SWEPT = 6


class Readers(ToolTest):
    tool = "readers"

    def test_help(self):
        self.has_help()

    def test_without_the_programs(self):
        words = ("--program", "/none", "--observe", "/none", "--sweep", "/none")
        self.prints(f"{NOT_BUILT}{NOT_SWEPT}{CALLS} calls of scripts are as they have to be\n", *words)

    @needs_observer
    def test_with_the_programs(self):
        self.prints(f"{NOT_SWEPT}{CALLS + 3} calls of scripts are as they have to be\n", "--sweep", "/none")

    @needs_sweeper
    def test_with_sweep(self):
        self.prints(f"{CALLS + 3 + SWEPT} calls of scripts are as they have to be\n")

    def test_a_sweep_that_is_wrong(self):
        other = self.script("other", "#!/bin/sh\nexit 0\n")
        done = self.call("--program", other, "--observe", other, "--sweep", other)
        self.assertEqual((done.out.count("status 0, 0 rows"), done.status), (SWEPT, 1))

    def test_programs_that_are_wrong(self):
        program = self.script("program", "#!/bin/sh\nexit 3\n")
        observer = self.script("observer", "#!/bin/sh\necho something else >$1\n")
        done = self.call("--program", program, "--observe", observer, "--sweep", "/none")
        wrong = NOT_SWEPT + WRONG
        self.assertEqual((done.out[: len(wrong)], done.err, done.status), (wrong, "", 1))

    def test_refusals(self):
        self.refuses("unrecognized arguments: x", "x")
