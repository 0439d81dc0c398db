"""tools/epochs, on reports and on texts of `observe` that were written by hand."""

import os
import subprocess
import sys
from types import SimpleNamespace

from lib import written
from tests.support import CopyTest, loaded, needs_matplotlib

# A run with a cut in its second epoch, by the rules of docs/FORMATS.md.
CUT = """commit 0 overlapped 0
epoch 1 ends at 60 by length
commit 1 overlapped 25
cut 1 at cycle 900
restart 1 at 60
memory 0123456789abcdef0123456789abcdef0123456789abcdef0123456789abcdef
epoch 2 ends at 110 by exhausted 1 1 1
commit 2 overlapped 0
epoch 3 ends at 130 by end
commit 3 overlapped 0
exit 0 at 130
"""

# Epoch 2 began at 60, was told of up to 85, and ended at 110 when it was executed again.
BARS_OF_CUT = """epoch begin end most why committed cut
1 0 60 - length 85 -
2 60 85 110 - - 1
2 60 110 - exhausted 110 -
3 110 130 - end 130 -
"""

RELOADED = """cut 1 at cycle 100
reload
commit 0 overlapped 0
epoch 1 ends at 7 by end
commit 1 overlapped 0
trap 2 at 7
"""

BARS_OF_RELOADED = """epoch begin end most why committed cut
1 0 0 7 - - 1
1 0 7 - end 7 -
"""

TEXTS = {
    CUT: BARS_OF_CUT,
    RELOADED: BARS_OF_RELOADED,
    written.REPORT: written.BARS_OF_REPORT,
    written.CUTS: written.BARS_OF_CUTS,
    written.RESUMED: written.BARS_OF_RESUMED,
    written.TWO_HARTS: written.BARS_OF_TWO_HARTS,
    written.EXAMPLE: written.BARS_OF_EXAMPLE,
}


class Epochs(CopyTest):
    tool = "epochs"

    def test_help(self):
        self.has_help()

    def test_tables(self):
        for text, table in TEXTS.items():
            with self.subTest(text=text):
                self.prints(table, "--table", self.file("text", text))

    def test_standard_input(self):
        self.prints(BARS_OF_CUT, "--table", "-", source=CUT)

    def test_a_reader_that_has_enough(self):
        reading, writing = os.pipe()
        os.close(reading)
        command = [sys.executable, f"{self.tools}/epochs", "--table", self.file("text", CUT)]
        done = subprocess.run(command, stdout=writing, stderr=subprocess.PIPE)
        os.close(writing)
        self.assertEqual((done.stderr, done.returncode), (b"", 0))

    def test_windows(self):
        name = self.file("text", written.CUTS)
        heading, *bars = written.BARS_OF_CUTS.splitlines(keepends=True)
        # Epoch 2 ended at 1300, and its checkpoint was under way until the cut at 1350. Epoch 1 was committed at 1100.
        for words, rows in (
            (["--from", 1350, "--to", 1560], bars[1:5]),
            (["--from", 1351], bars[3:]),
            (["--to", 1000], bars[:2]),
            (["--from", 1101, "--to", 1101], bars[1:2]),
            (["--from", 0], bars),
        ):
            with self.subTest(words=words):
                self.prints(heading + "".join(rows), *words, "--table", name)
        self.prints(
            "".join(BARS_OF_CUT.splitlines(keepends=True)[index] for index in (0, 2, 3, 4)),
            "--from",
            86,
            "--table",
            self.file("text", CUT),
        )
        self.refuses("no epoch lies in this window", "--from", 1851, "--table", name, status=1)

    def test_what_a_window_keeps(self):
        epochs = loaded("epochs")
        part = epochs.window(epochs.read_any(written.CUTS.splitlines()), 1350, 1560)
        # Rows begin with 0 again: the second time that epoch 2 was executed is the third one.
        self.assertEqual((part.commits, part.cuts, part.starts), ([(2, 1660, 2), (3, 1750, 3)], [(1, 1350, 2)], [(2, 1360)]))
        self.assertEqual((part.boots, part.unfinished), ([(2, 1350, 1360)], [(0, 1300, 1350)]))
        self.assertEqual(part.checkpoints, [(2, 1560, 1660), (3, 1700, 1750)])

    def test_which_form(self):
        epochs = loaded("epochs")
        for count, form in ((60, "rows"), (61, "lengths")):
            lines = [f"epoch {n} ends at {n} by {'end' if n == count else 'length'}" for n in range(1, count + 1)]
            run = epochs.read_any(lines)
            self.assertEqual(epochs.form_of(SimpleNamespace(form=None), run), form)
            self.assertEqual(epochs.form_of(SimpleNamespace(form="rows"), run), "rows")

    @needs_matplotlib
    def test_pictures(self):
        for k, text in enumerate(TEXTS):
            self.prints("", "--title", "it's $1", self.file("text", text), self.path(f"{k}.svg"))
            self.is_picture(f"{k}.svg")
            self.prints("", "--form", "lengths", "--size", "page", self.file("text", text), self.path("a.pdf"))
        self.prints("", "--from", 1000, "--to", 1500, self.file("text", written.CUTS), self.path("a.png"))

    def test_without_matplotlib(self):
        name, env = self.file("text", CUT), self.without_matplotlib()
        said = "matplotlib is not installed (on Debian it is in the package python3-matplotlib); --table needs none"
        self.refuses(said, name, "a.svg", env=env)
        self.prints(BARS_OF_CUT, "--table", name, env=env)

    def test_refusals_of_texts(self):
        for text, said in (
            ("", "the report is empty"),
            ("commit 0 overlapped 0\nepoch 1 ended\n", "line 2 is no line of a run's report: epoch 1 ended"),
            ("epoch 2 ends at 5 by length\n", "line 1 cannot stand there, epoch 1 was under execution"),
            ("epoch 1 ends at 5 by end\nepoch 2 ends at 6 by end\n", "line 2 cannot stand there, no epoch was under execution"),
            ("restart 1 at 60\nepoch 2 ends at 9 by end\n", "line 2 cannot stand there, the epoch began at 60"),
            ("commit 1 overlapped 0\n", "line 1 cannot stand there, the end of this epoch was not told"),
            ("commit 0 overlapped 0\nrestart 0 at 0\n", "line 2 cannot stand there, power was not cut"),
            ("exit 0 at 5\n", "line 1 cannot stand there, no epoch has ended there"),
            (
                written.CUTS.replace("commit 2 ", "commit 3 "),
                "line 10 cannot stand there, the checkpoint of this epoch was not under way",
            ),
            (
                written.CUTS.replace("1000 60 epoch 1 ", "1000 60 epoch 7 "),
                "line 4 cannot stand there, this epoch was not under execution",
            ),
            (
                written.CUTS.replace("1100 80 commit 1 overlapped 20", "1100 80 limit 20"),
                "line 5 is no line of an event: limit 20",
            ),
            (
                written.CUTS.replace("lost 70\n", ""),
                "this is not what `observe` writes of a run: behind its events it has 6 lines",
            ),
        ):
            with self.subTest(said=said):
                self.refuses(said, "--table", self.file("text", text), status=1)
        self.refuses("the report cannot be read", "--table", self.path("none"), status=1)
        self.refuses("the report cannot be read", "--table", self.file("text", b"\xff"), status=1)

    def test_a_run_that_began_no_epoch(self):
        self.prints("epoch begin end most why committed cut\n1 0 0 - - - -\n", "--table", self.file("text", "limit 5\n"))

    def test_refusals_of_words(self):
        name = self.file("text", CUT)
        self.refuses("the following arguments are required: REPORT")
        self.refuses("either PICTURE or --table is wanted", name)
        self.refuses("either PICTURE or --table is wanted", "--table", name, "a.svg")
        self.refuses("unrecognized arguments: --pages", "--table", name, "--pages")
        self.refuses("the picture's name ends in none of .svg, .pdf, .png: a.gif", name, "a.gif")
        self.refuses("argument --from: invalid place value: '-1'", "--from", -1, "--table", name)
        self.refuses("--to is below --from", "--from", 5, "--to", 4, "--table", name)
        self.refuses("argument --form: invalid choice: 'bars'", "--form", "bars", name, "a.svg")
