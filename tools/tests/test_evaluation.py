"""tools/evaluation, with programs that are scripts of known answers."""

import os
import unittest

from lib import observed
from lib.evaluations import pages, tables
from lib.evaluations.results import Result, Run
from tests.support import CopyTest, needs_matplotlib

OBSERVER = "crates/observe/out/observe"

# What `observe` answers: a run of an epoch. Its loading has 64 writes for each page, a slot of 7 and two more. The checkpoint has
# a slot of 7, a commit block, and 2 copies of blocks or, of shadow paging, 64 blocks of a page. thynvm has 70 stores too.
OBSERVE = """
out=$1; shift; pages=256; engine='copied 2 page 0'; acts=12; writes=80; passed=0
while [ $# -gt 0 ]; do
    case $1 in --pages) pages=$2 ;; --scheme) scheme=$2 ;; esac
    shift
done
[ $scheme != shadow ] || { engine='copied 0 page 64'; acts=74; writes=72; }
[ $scheme != journal ] || writes=10
[ $scheme != thynvm ] || passed=8
loading=$((64 * pages + 9))
cat >$out <<END
7 0 commit 0 overlapped 0
9 5 epoch 1 ends at 5 by exhausted 3 4 1
9 7 epoch 2 ends at 7 by exhausted 1 1 1
9 80 epoch 3 ends at 80 by end
9 80 commit 1 overlapped $passed
9 80 exit 0 at 80
cycles $((loading + 3 + 90 + acts)) boot $((loading + 3)) hart 90 engine $acts nvmdrain 0 dramdrain 0
hart moved 4 retired 80 flushed 5 merged 0 promoted 0 sealed 1
engine $engine state 5 table 2 barrier 1 commit 1 committed 1
waiting 3
nvm reads $((64 * pages)) writes $((loading + writes)) barriers 4
lost 0
epochs 3000 early 2 overlapped $passed
END
echo 'checksum 7'; echo 'exit 0 at 80' >&2
"""

PLAIN = "echo 'checksum 7'; echo 'exit 0 at 80' >&2"

PAGE = "# Evaluation\n\nA text.\n\n" + "".join(f"<!-- table {table.name} -->\n\nMore.\n\n" for table in tables.TABLES)


class Evaluation(CopyTest):
    tool = "evaluation"

    def setUp(self):
        super().setUp()
        self.program(OBSERVE, OBSERVER)
        self.program(PLAIN)
        self.file("docs/EVALUATION.md", PAGE)
        self.plainly = self.without_matplotlib()

    def table(self, name):
        return pages.tables_in(self.read("docs/EVALUATION.md"), [table.name for table in tables.TABLES])[name]

    def test_help(self):
        self.has_help()

    def test_tables_and_checks(self):
        done = self.call("--study", self.path("study"), env=self.plainly)
        said = "evaluation: matplotlib is not installed: docs/evaluation.svg stays as it is\n"
        self.assertEqual((done.out, done.err, done.status), ("", said, 0))
        text = self.read("docs/EVALUATION.md")
        self.assertTrue(text.startswith("# Evaluation\n\nA text.\n\n<!-- table schemes -->\n| program | instructions |"))
        self.assertEqual(text.count("\n\nMore.\n\n"), len(tables.TABLES))
        head, ruler, first, *_ = rows = self.table("schemes")
        self.assertEqual((len(rows), head.count("|"), ruler.count("|")), (2 + 9, 11, 11))
        # Of thynvm 80 writes, of the journal 10: 8 instructions of 80 were executed meanwhile.
        self.assertEqual(
            first, "| random | 80 | 3,000 (2) | 3,000 (2) | 3,000 (2) | 80 | 10 | 72 | 8.00 | 10.0 % |"
        )
        # Of 80 writes 2 are copies, 7 of the slot, and a commit block.
        self.assertEqual(self.table("causes")[2], "| random | 70 | 2 | 0 | 7 | 2 | 7 | 64 | 7 |")
        self.assertEqual(self.table("promotion")[2], "| random | 0 | 0 | 72 | 0 | 80 | 72 | 80 | 10 |")
        self.assertEqual(self.table("cache")[2], "| random | 2 | 70 | 70 | 2 | 2 | 80 | 80 | 10 | 10 |")
        # The second epoch has 2 instructions, fewer than half of 5; 3 and 1 entries were free.
        self.assertEqual(
            self.table("entries")[2], "| random | 64 | 64 | 3,000 | 2 | 1 | 2 | 0 | 70 | 2 | 7 | 80 | 3,000 | 2 | 10 |"
        )
        self.assertEqual(
            self.table("slots")[-1], "| 65,536 | 7 | 7 | 80 | 8.8 % | 7 | 10 | 70.0 % | 7 | 72 | 9.7 % |"
        )
        self.assertEqual(self.table("copying")[3], "| the runtime, by words | 80 | 3,000 | 80 | 3,000 | 10 | 3,000 | 72 |")
        # The table of a study has the runs with default options.
        rows = [line.split("\t") for line in self.read("study").splitlines()]
        self.assertEqual(len(rows), 1 + 27)
        self.assertEqual(rows[2][:5], ["random", "", "journal", "0", "exit 0 at 80"])
        self.assertEqual(rows[-1][:3], ["red black tree 4096", "", "shadow"])
        self.refuses(f"{self.path('study')} is there already", "--study", self.path("study"), env=self.plainly)
        # What was written passes the check, and another number, heading or row does not.
        some = sum(row.is_checked for table in tables.TABLES for row in table.rows)
        self.prints(f"{some} rows of 7 tables are those of docs/EVALUATION.md\n", "--check")
        line = self.table("schemes")[3]
        self.assertTrue(line.startswith("| streaming | 80 | 3,000 (2) |"))
        self.file("docs/EVALUATION.md", text.replace(line, line.replace("3,000", "3,001", 1)))
        said = f"table schemes: it is\n  {line}\nand in docs/EVALUATION.md stands\n  {line.replace('3,000', '3,001', 1)}\n"
        self.prints(said, "--check", status=1)
        for changed in (text.replace("| pages promoted |", "| promoted |", 1), text.replace(f"{self.table('promotion')[5]}\n", "", 1)):
            self.file("docs/EVALUATION.md", changed)
            said = "table promotion: headings or the number of rows are others\n"
            self.prints(said, "--check", status=1)

    def test_print(self):
        done = self.call("--print")
        self.assertEqual((done.err, done.status, self.read("docs/EVALUATION.md")), ("", 0, PAGE))
        self.assertEqual(done.out.count("<!-- table "), len(tables.TABLES))
        self.assertIn("\n| random | 70 | 2 | 0 | 7 | 2 | 7 | 64 | 7 |\n", done.out)

    @needs_matplotlib
    def test_picture(self):
        done = self.call()
        self.assertEqual((done.out, done.err, done.status), ("", "", 0))
        self.is_picture("docs/evaluation.svg")

    def test_runs_that_differ(self):
        for plain, observe, said in (
            (PLAIN.replace("checksum 7", "checksum 8"), OBSERVE, "exit 0 at 80 checksum 7, and on the plain machine exit 0 at 80 checksum 8"),
            (PLAIN.replace("at 80", "at 81"), OBSERVE, "exit 0 at 80 checksum 7, and on the plain machine exit 0 at 81 checksum 7"),
            (PLAIN, OBSERVE + "exit 3", "exit 0 at 80 checksum 7, and on the plain machine exit 0 at 80 checksum 7"),
            (PLAIN, OBSERVE.replace("waiting 3", ""), "observe has not written all numbers"),
        ):
            self.program(plain)
            self.program(observe, OBSERVER)
            with self.subTest(said=said):
                self.refuses(said, "--check", status=1)

    def test_refusals(self):
        self.refuses("argument --print: not allowed with argument --check", "--check", "--print")
        self.refuses("--study is not allowed with --check", "--check", "--study", self.path("study"))
        self.refuses("argument --jobs: invalid positive value: '0'", "--jobs", 0)
        self.refuses("unrecognized arguments: x", "x")
        for words in ([], ["--check"]):
            self.file("docs/EVALUATION.md", PAGE.replace("<!-- table slots -->", ""))
            self.refuses("the page has the tables schemes, causes, promotion, cache, entries, copying, and not", *words)
            self.file("docs/EVALUATION.md", PAGE)
            os.rename(self.path(OBSERVER), self.path("observe"))
            self.refuses("a call of ./thynvm observe builds it", *words)
            os.rename(self.path("observe"), self.path(OBSERVER))
            os.remove(self.path("docs/EVALUATION.md"))
            self.refuses("the page cannot be read", *words)


class Numbers(unittest.TestCase):
    def test_ends_of_epochs(self):
        # Lengths 10, 4, 1, 30, 14 and 6: of those that ended early, 4 and 1 are fewer than half of the one before, and 14.
        lines = ["exhausted 9 9 1", "exhausted 4 5 1", "exhausted 0 0 1", "length", "exhausted 5 5 2", "end"]
        events = [
            observed.Event(9, 9, f"epoch {k + 1} ends at {at} by {cause}")
            for k, (at, cause) in enumerate(zip((10, 14, 15, 45, 59, 65), lines))
        ]
        result = Result({}, [observed.Event(1, 0, "commit 0 overlapped 0"), *events])
        self.assertEqual((result.short, result.free), (3, 4.5))
        self.assertEqual((Result({}, events[-1:]).short, Result({}, events[-1:]).free), (0, None))

    def test_runs(self):
        plan = Run("random", "--sets 64 --high 63", "journal").plan
        self.assertEqual(plan.key, ("random", "--sets 64 --high 63", "journal"))
        self.assertEqual(plan.call[2:], ["--sets", "64", "--high", "63", "--scheme", "journal"])
        self.assertEqual(plan.settings, {"pages": 256, "console": 1, "scheme": "journal"})

    def test_cells(self):
        self.assertEqual(tables.line_of(("a", 1234, 1.5, None)), "| a | 1,234 | 1.50 | - |")

    def test_tables_of_a_page(self):
        text = "a\n\n<!-- table one -->\n| x |\n\nb\n<!-- table two -->\n"
        self.assertEqual(pages.tables_in(text, ["two", "one"]), {"one": ["| x |"], "two": []})
        made = pages.with_tables(text, {"one": ["| y |", "| z |"], "two": ["| w |"]})
        self.assertEqual(made, "a\n\n<!-- table one -->\n| y |\n| z |\n\nb\n<!-- table two -->\n| w |\n\n")
