"""tools/study, with programs and a parallel that are scripts of known answers, and with the programs themselves."""

import os
import signal
import subprocess
import sys
import time

from lib import repository, written
from lib.studies import tables
from tests.support import CopyTest, ToolTest, needs, needs_matplotlib, needs_observer

OBSERVER = "crates/observe/out/observe"

# What `observe` answers: the text of CONTROLLER.md's example with all schemes, but with an epoch of 5 a limit, and with one of 0
# a refusal. It notes its calls.
OBSERVE = """
out=$1; shift; echo "$@" >>{calls}
case "$*" in
*'--epoch 0 '*) echo value epoch 0 >&2; exit 2 ;;
*'--epoch 5 '*) cp {resumed} $out; echo limit 500 >&2; exit 8 ;;
esac
cp {example} $out; echo 'commit 1 overlapped 0' >&2; echo 'exit 7 at 3' >&2
"""

# What the program answers: the plain machine, which has 80 instructions, and the made program.
PROGRAM = """
echo "$@" >>{plains}
case $1 in make) : >"$3" ;; plain) echo 'exit 7 at 80' >&2 ;; esac
"""

# Makes the jobs of its input one after the other.
GNU = "[ $1 != --version ] || { echo GNU parallel; exit; }\n"
PARALLEL = GNU + 'echo "$@" >>{words}; while read -r line; do sh -c "$line"; done'


class Studies(CopyTest):
    """A repository in which programs and parallel are scripts of known answers."""

    tool = "study"

    def setUp(self):
        super().setUp()
        names = {name: self.path(name) for name in ("calls", "plains", "words")}
        names.update(example=self.file("example", written.EXAMPLE), resumed=self.file("resumed", written.RESUMED))
        self.program(OBSERVE.format(**names), OBSERVER)
        self.program(PROGRAM.format(**names))
        self.names, self.with_parallel = names, self.beside(parallel=PARALLEL.replace("{words}", names["words"]))

    def study(self, *words, **more):
        self.prints("", *words, self.path("table"), env=self.with_parallel, **more)

    def rows(self):
        heading, *lines = [line.split("\t") for line in self.read("table").splitlines()]
        return [dict(zip(heading, line)) for line in lines]

    def keys(self, *names):
        return [tuple(row[name] for name in names) for row in self.rows()]


class Study(Studies):
    def test_help(self):
        self.has_help()
        for words in (["--help"], ["draw", "--help"]):
            self.assertIn("boot_reads, boot_writes, boot_barriers, hart, fills_nvm~, ", self.call(*words).out)

    def test_a_row_for_each_run(self):
        self.study(
            "--program", "a.elf --input b", "--made", 3, "--btt", "8,16", "--epoch=3", "--scheme", "thynvm,journal", "--pages", 8
        )
        self.assertEqual(
            self.keys("program", "options", "btt", "epoch", "pages", "scheme")[:5],
            [
                ("a.elf --input b", "", "8", "3", "8", "thynvm"),
                ("a.elf --input b", "", "8", "3", "8", "journal"),
                ("a.elf --input b", "", "16", "3", "8", "thynvm"),
                ("a.elf --input b", "", "16", "3", "8", "journal"),
                ("made 3", "", "8", "3", "8", "thynvm"),
            ],
        )
        row = self.rows()[0]
        for name, value in (("status", "0"), ("end", "exit 7 at 3"), ("instructions", "80"), ("cycles", "722"), ("boot", "525")):
            self.assertEqual(row[name], value)
        for name, value in (
            ("moved", "4"),
            ("state", "5"),
            ("table", "3"),
            ("reads", "449"),
            ("writes", "531"),
            ("waiting", "7"),
            ("epochs", "1"),
        ):
            self.assertEqual(row[name], value)
        # By cause: 522 writes are of the boot, and 8 of the slot.
        self.assertEqual((row["cause:boot_writes"], row["cause:slot"], row["cause:fills_nvm~"]), ("522", "8", "0"))
        self.assertEqual(
            self.read("calls").splitlines()[0],
            f"run {os.path.abspath('a.elf')} --input {os.path.abspath('b')} --btt 8 --epoch 3 --pages 8 --scheme thynvm",
        )
        self.assertEqual(self.read("calls").splitlines()[4], "bench 3 --btt 8 --epoch 3 --pages 8 --scheme thynvm")
        # The plain machine is called once for each program.
        plains = self.read("plains").splitlines()
        self.assertEqual(plains[0], f"plain {os.path.abspath('a.elf')} --pages 8 --input {os.path.abspath('b')}")
        self.assertEqual([line.split()[0] for line in plains], ["plain", "make", "plain"])

    def test_rows_whatever_the_status(self):
        self.study("--program", "a.elf", "--epoch", "0,5,7", "--scheme", "thynvm", "--pages", 8)
        self.assertEqual(
            self.keys("epoch", "status", "end"), [("0", "2", "value epoch 0"), ("5", "8", "limit 500"), ("7", "0", "exit 7 at 3")]
        )
        self.assertEqual(self.keys("cycles", "writes"), [("-", "-"), ("500", "9"), ("722", "531")])
        # The text of the limit begins with a restart: its boot read 10 blocks, and wrote none.
        self.assertEqual(self.keys("cause:boot_reads", "cause:boot_writes"), [("-", "-"), ("10", "0"), ("1", "522")])

    def test_what_runs_if_nothing_is_named(self):
        self.study()
        self.assertEqual(len(self.rows()), 9 * 3)
        self.assertEqual(self.keys("scheme")[:3], [("thynvm",), ("journal",), ("shadow",)])
        self.assertEqual(
            list(dict.fromkeys(self.keys("program"))),
            [
                (name,)
                for name in ("exit_seven.elf", "hello.elf", "sum_loop.elf", "collatz.elf", *(f"made {n}" for n in range(5)))
            ],
        )

    def test_configurations(self):
        self.study("--made", 3, "--configuration", "", "--configuration", "--btt 64 --gap 7", "--scheme", "shadow", "--pages", 8)
        self.assertEqual(self.keys("options"), [("",), ("--btt 64 --gap 7",)])

    def test_names(self):
        words = ["--program", "one=a.elf --input b", "--program", "two=a.elf --input=c", "--program", "a.elf --gap 7"]
        self.study(*words, "--scheme", "thynvm", "--configuration", "--pages 8")
        self.assertEqual(self.keys("program", "options"), [(name, "--pages 8") for name in ("one", "two", "a.elf --gap 7")])
        self.assertIn(f" --input={os.path.abspath('c')} ", self.read("calls").splitlines()[1])

    def test_two_harts_have_no_plain_machine(self):
        self.study("--program", "a.elf", "--harts", "1,2", "--scheme", "thynvm", "--pages", 8)
        self.assertEqual(self.keys("harts", "instructions"), [("1", "80"), ("2", "-")])

    def test_resume(self):
        words = ["--program", "a.elf", "--scheme", "thynvm", "--pages", 8]
        self.study(*words, "--epoch", "3,5")
        whole = self.read("table")
        self.refuses(
            f"{self.path('table')} is there already: --resume goes on with it",
            *words,
            "--epoch",
            "3,5",
            self.path("table"),
            env=self.with_parallel,
        )
        # A row is missing, and another one was broken off.
        heading, first, second = whole.splitlines(keepends=True)
        for text, made in (
            (heading + first, 1),
            (heading + second, 1),
            (heading + first + second[:-2], 1),
            (heading, 2),
            (whole, 0),
        ):
            self.file("table", text)
            self.file("calls")
            self.study(*words, "--epoch", "3,5", "--resume")
            self.assertEqual((self.read("table"), len(self.read("calls").splitlines())), (whole, made))
        # More values: the rows stand in the order of the design.
        self.file("calls")
        self.study(*words, "--epoch", "7,3,5", "--resume")
        self.assertEqual((self.keys("epoch"), len(self.read("calls").splitlines())), ([("7",), ("3",), ("5",)], 1))
        # And fewer: a row that this study does not have stays behind the others.
        self.study(*words, "--epoch", "5", "--resume")
        self.assertEqual(self.keys("epoch")[0], ("5",))
        self.assertEqual(len(self.rows()), 3)
        self.refuses(
            "is the table of another study: its headings differ",
            *words,
            "--btt",
            "8",
            "--resume",
            self.path("table"),
            env=self.with_parallel,
        )

    def test_the_log_of_parallel(self):
        self.study("--made", 3, "--jobs", 2)
        plain, observe = self.read("words").splitlines()
        self.assertEqual(plain, "--will-cite --jobs 2")
        self.assertEqual(observe, f"--will-cite --joblog {self.path('table')}.log --jobs 2")
        self.prints(
            "",
            "--made",
            3,
            "--made",
            4,
            "--jobs",
            1,
            "--resume",
            self.path("table"),
            "--",
            "--sshlogin",
            "a,b",
            env=self.with_parallel,
        )
        self.assertEqual(
            self.read("words").splitlines()[-1], f"--will-cite --joblog +{self.path('table')}.log --jobs 1 --sshlogin a,b"
        )

    def test_what_is_kept(self):
        self.study("--program", "a.elf --cuts 5,6", "--epoch", "5,0", "--scheme", "thynvm", "--keep", self.path("outs"))
        self.assertEqual(
            sorted(os.listdir(self.path("outs"))), ["a.elf_--cuts_5,6-0-thynvm.out", "a.elf_--cuts_5,6-5-thynvm.out"]
        )
        self.assertEqual(self.read("outs/a.elf_--cuts_5,6-5-thynvm.out"), written.RESUMED)

    def test_a_parallel_that_fails(self):
        words = ["--made", 3, self.path("table")]
        failing = self.beside(parallel=f"{GNU}exit 3")
        self.refuses("parallel has ended with 3", *words, env=failing, status=1)
        os.remove(self.path("table"))
        other = self.beside(parallel=f"{GNU}echo 'welcome to a'")
        self.refuses("parallel prints a line that is not of a run: welcome to a", *words, env=other, status=1)
        os.remove(self.path("table"))
        # One that makes the calls of the plain machine, and of the runs the first alone.
        first = self.beside(parallel=f'{GNU}read -r line; sh -c "$line"')
        self.refuses("parallel has ended without 2 of 3 runs; --resume makes them", *words, env=first, status=1)
        self.assertEqual(len(self.rows()), 1)

    def test_an_interrupt(self):
        # The second run does not end by itself.
        self.program(
            f"{OBSERVE.format(**self.names)}\ncase \"$*\" in *journal*) : >{self.path('began')}; exec sleep 60 ;; esac", OBSERVER
        )
        command = [sys.executable, os.path.join(self.tools, "study"), "--made", "3", self.path("table")]
        call = subprocess.Popen(
            command, env=self.with_parallel, stdout=subprocess.PIPE, stderr=subprocess.PIPE, text=True, start_new_session=True
        )
        try:
            for _ in range(300):
                if os.path.exists(self.path("began")):
                    break
                time.sleep(0.1)
            os.killpg(call.pid, signal.SIGINT)
            out, _ = call.communicate(timeout=30)
        finally:
            call.kill()
        self.assertEqual((out, call.returncode), ("interrupted with 1 of 3 rows; --resume goes on\n", 130))
        self.assertEqual(self.keys("scheme"), [("thynvm",)])

    def test_refusals_of_words(self):
        table = self.path("table")
        self.refuses("the following arguments are required: TABLE")
        for words, said in (
            (["--bbt", "8"], "there is no option --bbt; the nearest is --btt"),
            (["--btt", "8", "--btt", "16"], "--btt stands twice"),
            (["--btt", "8,,16"], "--btt has an empty value or one twice: 8,,16"),
            (["--btt", "8,8"], "--btt has an empty value or one twice: 8,8"),
            (["--scheme", "thynvm,paper"], "the schemes are thynvm, journal, shadow: thynvm,paper"),
            (["--cuts", "5"], "--cuts has no list of values"),
            (["--save", "x"], "--save has no list of values"),
            (["--program", "a.elf --save x"], "--save is refused"),
            (["--program", "a.elf --btt 8", "--btt", "16"], "--btt has a list, and stands in the options of a program"),
            (["--made", 4, "--made", 4], "two runs would have the same row"),
            (["--made", 4294967296], "argument --made: invalid number value: '4294967296'"),
            (["--jobs", 0], "argument --jobs: invalid positive value: '0'"),
            (["--program", "'"], "argument --program: invalid file_of value"),
            (["--program", ""], "argument --program: invalid file_of value: ''"),
            (["--program", "=a.elf"], "argument --program: invalid file_of value: '=a.elf'"),
        ):
            with self.subTest(said=said):
                self.refuses(said, *words, table, env=self.with_parallel)
        self.refuses("--btt needs a list of values", table, "--btt", env=self.with_parallel)

    def test_refusals_of_the_place(self):
        words = ["--made", 3, self.path("table")]
        self.refuses("parallel is not in PATH", *words, env=self.without())
        self.refuses("No such file or directory", "--made", 3, self.path("none", "table"), env=self.with_parallel)
        os.remove(self.path(OBSERVER))
        self.refuses("a call of ./thynvm observe builds it", *words, env=self.with_parallel)


# What rt answers for each case: the text of CONTROLLER.md's example, but with an epoch of 5 a fault, and with one of 7 another
# output than that of the plain machine.
TRIES = """
for cases; do :; done
for args in "$cases"/*.args; do
    name=$(basename "$args" .args)
    case $(tr '\\n' ' ' <"$args") in
    *'--epoch 5 '*) printf 'checked: fault here\\ncase=%s run=fault proved=no\\n' "$name" >&2; continue ;;
    *'--epoch 7 '*) printf '== %s\\nHello' "$name" ;;
    *) printf '== %s\\n' "$name" ;;
    esac
    printf 'exit 7 at 80\\ncase=%s run=ended status=0 runners=1 proved=no\\n' "$name" >&2
    printf '\\nobserved\\n'
    cat {example}
done
"""

PATCH = """--- a/crates.txt
+++ b/crates.txt
@@ -1,2 +1,3 @@
+# Draft.
 observe:
 sweep:
"""


class Drafts(Studies):
    """Studies of a draft."""

    def setUp(self):
        super().setUp()
        self.crates()
        self.draft = os.path.dirname(self.file("mine/0.patch", PATCH))
        self.tried = self.beside(parallel=PARALLEL.replace("{words}", self.names["words"]), rt=TRIES.format(**self.names))

    def test_rows_of_a_draft(self):
        words = ["--program", "a.elf", "--epoch", "3,5", "--pages", 8, "--keep", self.path("outs"), "--draft", self.draft]
        self.prints("", *words, self.path("table"), env=self.tried)
        self.assertEqual(
            self.keys("epoch", "scheme", "status", "end", "instructions", "writes"),
            [("3", "mine", "0", "exit 7 at 80", "80", "531"), ("5", "mine", "-", "checked: fault here", "80", "-")],
        )
        # Of the causes the scheme is thynvm's.
        self.assertEqual(self.rows()[0]["cause:boot_writes"], "522")
        self.assertEqual(self.read("outs/a.elf-3-8-mine.out"), written.EXAMPLE)
        self.assertEqual(self.read("outs/a.elf-5-8-mine.out"), "")
        # The rows of the program stand in the same table.
        self.prints("", *words[:4], "--pages", 8, "--scheme", "journal", "--resume", self.path("table"), env=self.with_parallel)
        self.assertEqual([keys[0] for keys in self.keys("scheme")], ["journal", "journal", "mine", "mine"])

    def test_the_crates_as_they_are(self):
        words = ["--made", 3, "--scheme", "shadow", "--pages", 8, "--draft", "-"]
        self.prints("", *words, self.path("table"), env=self.tried)
        self.assertEqual(self.keys("program", "scheme", "instructions"), [("made 3", "unproved", "80")])
        os.remove(self.path("crates/thynvm/out/thynvm"))
        done = self.call(*words, self.path("other"), env=self.tried)
        self.assertEqual(done.err, "study: the program is not built: no run is compared with the plain machine\n")
        self.assertEqual((done.out, done.status), ("", 0))

    def test_another_end(self):
        words = ["--program", "a.elf", "--epoch", "3,7", "--pages", 8, "--draft", self.draft, self.path("table")]
        self.refuses("these end or print otherwise than on the plain machine: a.elf 7 8 mine", *words, status=1, env=self.tried)
        self.assertEqual(self.keys("status"), [("0",), ("0",)])

    def test_refusals(self):
        words, table = ["--made", 3, "--draft"], self.path("table")
        self.refuses("with --draft one scheme runs", *words, self.draft, "--scheme", "thynvm,shadow", table, env=self.tried)
        self.refuses("there is no patch in the folder none", *words, "none", table, env=self.tried)
        self.refuses("rt, the command of the Rattle kit, is not in PATH", *words, self.draft, table, env=self.without())
        self.assertFalse(os.path.exists(table))
        wrong = self.beside(rt="echo 'error: wrong' >&2; exit 2")
        self.refuses("rt try has made 0 of 1 runs: error: wrong", *words, self.draft, table, env=wrong)
        self.file("mine/0.patch", PATCH.replace(" observe", " other"))
        self.refuses("mine/0.patch does not fit the crates: ", *words, self.draft, "--resume", table, env=self.tried)


# A table of two programs with two epochs and two schemes. A run came to no end.
TABLE = """program	options	epoch	scheme	status	end	instructions	writes	overlapped	copied	cause:evictions_nvm~
a.elf		10	thynvm	0	exit 0 at 50	50	200	5	40	60
a.elf		10	journal	0	exit 0 at 50	50	100	0	80	0
a.elf		1000	thynvm	0	exit 0 at 50	50	80	25	30	20
a.elf		1000	journal	0	exit 0 at 50	50	160	0	60	40
b.elf		10	thynvm	8	limit 5	-	300	1	3	3
b.elf		10	journal	2	usage	-	-	-	-	-
"""


class Drawing(CopyTest):
    tool = "study"

    def setUp(self):
        super().setUp()
        self.table = self.file("table", TABLE)

    def test_bars(self):
        wanted = "place\tline\twrites\na.elf\tthynvm\t200\na.elf\tjournal\t100\n"
        self.prints(
            wanted, "draw", self.table, "--table", "--column", "writes", "--where", "epoch=10", "--where", "program=a.elf"
        )
        wanted = "place\tline\twrites\na.elf epoch 10\tthynvm\t2\na.elf epoch 10\tjournal\t1\n"
        wanted += "a.elf epoch 1000\tthynvm\t0.5\na.elf epoch 1000\tjournal\t1\n"
        done = self.call("draw", self.table, "--table", "--column", "writes", "--baseline", "journal")
        # Of b.elf one row has no number, and the other nothing to be divided by.
        self.assertEqual((done.out, done.err, done.status), (wanted, "study: 2 of 6 rows lack a number, and are left out\n", 0))

    def test_stacks_and_quotients(self):
        where = ["--where", "epoch=1000"]
        # Of 60 + 40, the sum of what the baseline has.
        wanted = "place\tline\tcopied\tcause:evictions_nvm~\na.elf\tthynvm\t0.3\t0.2\na.elf\tjournal\t0.6\t0.4\n"
        self.prints(
            wanted, "draw", "--table", self.table, "--column", "copied+cause:evictions_nvm", "--baseline", "journal", *where
        )
        wanted = "place\tline\toverlapped/instructions\na.elf\tthynvm\t0.5\na.elf\tjournal\t0\n"
        self.prints(wanted, "draw", self.table, "--table", "--column", "overlapped/instructions", *where)

    def test_lines(self):
        wanted = "place\tline\twrites\n10\tthynvm\t200\n10\tjournal\t100\n1000\tthynvm\t80\n1000\tjournal\t160\n"
        words = ["draw", self.table, "--table", "--column", "writes", "--over", "epoch"]
        self.prints(wanted, *words, "--where", "program=a.elf")
        # Where programs differ they are in the names of the lines.
        self.assertIn("10\tb.elf thynvm\t300\n", self.call(*words).out)

    def test_several_columns(self):
        done = self.call(
            "draw", self.table, "--table", "--column", "writes,copied", "--where", "program=a.elf", "--where", "epoch=10"
        )
        self.assertEqual(
            done.out,
            "place\tline\twrites\na.elf\tthynvm\t200\na.elf\tjournal\t100\n"
            "place\tline\tcopied\na.elf\tthynvm\t40\na.elf\tjournal\t80\n",
        )

    @needs_matplotlib
    def test_pictures(self):
        for k, words in enumerate(
            (
                ["--column", "writes,overlapped/instructions", "--size", "page"],
                ["--column", "copied+cause:evictions_nvm", "--axis", "writes", "--most", "50"],
                ["--column", "writes", "--over", "epoch", "--title", "a $"],
            )
        ):
            done = self.call("draw", self.table, *words, self.path(f"{k}.svg"))
            self.assertEqual(
                (done.out, done.err, done.status), ("", f"study: {1 if k else 2} of 6 rows lack a number, and are left out\n", 0)
            )
            self.is_picture(f"{k}.svg")

    def test_refusals(self):
        self.refuses("the following arguments are required: TABLE", "draw", "--table", "--column", "writes")
        for words, said, status in (
            (["--column", "writes"], "either PICTURE or --table is wanted", 2),
            (["--column", "writes", "a.gif"], "the picture's name ends in none of .svg, .pdf, .png: a.gif", 2),
            (["--column", "writes", "--size", "poster", "a.svg"], "argument --size: invalid choice: 'poster'", 2),
            (["--table"], "the following arguments are required: --column", 2),
            (["--table", "--column", "writes", "--where", "epoch"], "argument --where: invalid condition value: 'epoch'", 2),
            (["--table", "--column", "writes", "--most", "0"], "argument --most: invalid height value: '0'", 2),
            (["--table", "--column", "written"], "the table has no column written", 1),
            (["--table", "--column", "a/b/c"], "this is no column, sum of columns or column / column: a/b/c", 1),
            (["--table", "--column", "writes", "--where", "btt=5"], "the table has no column btt", 1),
            (["--table", "--column", "writes", "--where", "epoch=5"], "the table has no such row", 1),
            (["--table", "--column", "writes", "--over", "btt"], "--over is an option with a list in the table: epoch", 1),
            (["--table", "--column", "writes", "--baseline", "shadow"], "there is no shadow among journal, thynvm", 1),
            (["--table", "--column", "writes", "--where", "end=usage"], "no row has a number for writes", 1),
        ):
            with self.subTest(said=said):
                self.refuses(said, "draw", self.table, *words, status=status)
        self.refuses("is not the table of a study", "draw", "--table", "--column", "a", self.file("other", "a\tb\n"), status=1)
        self.refuses("the table cannot be read", "draw", "--table", "--column", "a", self.path("none"), status=1)

    def test_without_matplotlib(self):
        env = self.without_matplotlib()
        self.refuses("matplotlib is not installed", "draw", self.table, "--column", "writes", self.path("a.svg"), env=env)
        self.assertEqual(self.call("draw", self.table, "--column", "writes", "--table", env=env).status, 0)


@needs("parallel")
@needs_observer
class WithThePrograms(ToolTest):
    tool = "study"

    def test_the_smallest_example(self):
        words = [
            "--program",
            repository.SMALLEST,
            "--pages",
            8,
            "--btt",
            8,
            "--ptt",
            8,
            "--limit",
            "300,1000000000",
            "--scheme",
            "thynvm",
        ]
        self.prints("", *words, self.path("table"))
        _, _, rows = tables.read(self.path("table"))
        # docs/CONTROLLER.md has the run of 722 cycles; a limit of 300 comes within the loading.
        self.assertEqual(
            [(row["status"], row["end"], row["cycles"], row["instructions"]) for row in rows],
            [("8", "limit 300", "300", "3"), ("0", "exit 7 at 3", "722", "3")],
        )
        with open(self.path("table.log"), encoding="utf-8") as file:
            self.assertEqual(len(file.read().splitlines()), 1 + 2)
        self.prints("", *words, "--resume", self.path("table"))
