"""tools/cuts, with programs that are scripts of known answers, and with the program itself."""

import json
import os
import re
import signal
import subprocess
import sys
import time
import unittest

from lib import repository, written
from lib.cut_runs.windows import first_with
from lib.repository import OBSERVER, PROGRAM
from tests.support import CopyTest, ToolTest, needs_observer, needs_program

ZEROS = "0" * 64

# A program that ends in cycle 6. A cut in cycle 1 or 2 makes it load again. One in 3 to 6 makes it restart with epoch 1 if all
# queued writes land, which is the tear 1, else with epoch 0. With a cut in cycle 5 and the tear 0 it exits with another code.
# Of several cuts it knows the first.
PROGRAM_OF_SIX = f"""
verb=$1 cuts='' tears=''
while [ $# -gt 0 ]; do
    case $1 in --cuts) cuts=${{2%%,*}} ;; --tears) tears=${{2%%,*}} ;; esac
    shift
done
echo hi
exec >&2
code=7
if [ "$verb" != plain ] && [ -n "$cuts" ] && [ "$cuts" -le 6 ]; then
    echo "cut 1 at cycle $cuts"
    if [ "$cuts" -lt 3 ]; then echo reload
    elif [ "$tears" = 1 ]; then echo 'restart 1 at 3'
    else echo 'restart 0 at 0'; fi
    [ "$cuts,$tears" != 5,0 ] || code=8
fi
echo "exit $code at 3"
echo memory {ZEROS}
"""

# Two tears at each of seven cuts: 1 and 2 load again, 3 to 6 restart, 7 falls after the end.
SUMS = f"""cut 5 tear 0 differs in end: exit 8 at 3; memory {ZEROS}
runs 14, 1 differ, 2 ended before the cut
restarts of epoch 0: 4
restarts of epoch 1: 4
reloads: 4
the tears decided at 4 of 6 cuts
"""

# A program with the events of CONTROLLER.md's example, but that its first epoch has two of three instructions. The commit block
# of epoch 0 is written in cycle 698 and lands in 699, as there; that of epoch 1 is written in 712, some cycles before the commit
# in 722, and lands in 719. The tear 0 leaves what has landed, another what was written. After a restart the program goes on for
# a minute, but not after a cut in cycle 5. Its first instruction prints a letter, and its third another one.
MACHINE = """#!/usr/bin/env python3
import struct, sys, time
words = sys.argv[1:]
def value(name, default):
    return words[words.index(name) + 1] if name in words else default
def say(*lines):
    print(*lines, sep="\\n", file=sys.stderr, flush=True)
def show(text):
    print(text, end="", flush=True)
limit = int(value("--limit", "1000000000"))
cuts, tears = ([int(it) for it in value(name, "").split(",") if it] for name in ("--cuts", "--tears"))
end = "exit 7 at 3", "memory " + "3" * 64
if words[0] == "plain":
    show("hi" if limit > 2 else "h")
    say(*(end if limit > 2 else [f"limit {{limit}}"]))
    sys.exit(0 if limit > 2 else 8)
def left(cycle, tear):
    first, second = (698, 712) if tear else (699, 719)
    return -1 if cycle < first else 0 if cycle < second else 1
if "--save" in words:
    epoch = left(limit, tears[-1])
    with open(value("--save", ""), "wb") as file:
        file.write(bytes(64) + (b"THYNCMT2" + struct.pack("<7Q", epoch, *[0] * 6) if epoch >= 0 else bytes(64)) + bytes(64))
    say(f"limit {{limit}}")
    sys.exit(8)
cut = cuts[0] if cuts else 722
say(*(line for cycle, line in ((700, "commit 0 overlapped 0"), (708, "epoch 1 ends at 2 by length")) if cycle <= cut))
if cut >= 722:
    show("hi")
else:
    epoch = left(cut, tears[0] if tears else 0)
    digest = str(2 * max(epoch, 0)) * 64
    say(f"cut 1 at cycle {{cut}}")
    {wrong}
    show("h" if epoch == 1 else "")
    say(*(["reload"] if epoch < 0 else [f"restart {{epoch}} at {{2 * epoch}}", f"memory {{digest}}"]))
    time.sleep(0 if cut == 5 else 60)
    show("i" if epoch == 1 else "hi")
say(*end)
"""


# A script in place of ./thynvm. Its sweep is of the run of PROGRAM_OF_SIX, which ends in cycle 7, and of one tear.
SWEEPER_OF_SIX = """#!/usr/bin/env python3
import sys
words = sys.argv[1:]
if words == ["build"]:
    sys.exit()
with open("{calls}", "a") as file:
    print(*words, file=file)
first, last, step, tear = (int(words[words.index(name) + 1]) for name in ("--from", "--to", "--step", "--tears"))
cuts = [cut for cut in range(first, last + 1, step) if cut < 7]
if not cuts:
    print(f"value from {{first}}", file=sys.stderr)
    sys.exit(2)
rows = []
for low, high, lead in ((1, 2, "none"), (3, 6, "epoch 1 at 3" if tear == 1 else "epoch 0 at 0")):
    row = [cut for cut in cuts if low <= cut <= high]
    if row:
        rows += ["differs 3 by pick 0"] if row[0] == 3 and tear == 0 and {wrong} else []
        rows.append(f"cycles {{row[0]}} {{row[-1]}} counts 0 3 queued 1 images 2 tried 1, {{lead}} times 1 boot 10 12")
with open(words[1], "w") as file:
    print(*rows, "states 1 rows 1", f"to {{last}}" if last < 7 else "exit 7 at 3", sep="\\n", file=file)
sys.exit({wrong})
"""


class Cuts(CopyTest):
    tool = "cuts"

    def setUp(self):
        super().setUp()
        self.stub = self.program(f'echo "$*" >>{self.path("called")}\n{PROGRAM_OF_SIX}')
        self.guest = self.file("guest.elf", "guest")

    def words(self, *more):
        return [self.guest, "--thynvm", self.stub, "--tears", "0,1", *more]

    def another(self, text):
        """The same for another program, without tears."""
        return [self.guest, "--thynvm", self.script("another", f"#!/bin/sh\n{text}\n")]

    def machine(self, *more, wrong="pass"):
        """The same for the program with the events of the example."""
        return [self.guest, "--thynvm", self.script("machine", MACHINE.format(wrong=wrong)), *more]

    def observer(self, text):
        """A program in place of `observe`, which writes this."""
        return self.script("observe", f"#!/bin/sh\ncat >\"$1\" <<'EOD'\n{text}EOD\n")

    def called(self):
        """The words of the calls of the program, without those of the file and of the greatest limit."""
        text = self.read("called").replace(f" {self.guest}", "").replace(" --limit 1000000000000", "")
        return text.splitlines()

    def logged(self):
        """What the log has, by cut and tear."""
        return {(line["cut"], line["tear"]): line for line in map(json.loads, self.read("log").splitlines())}

    def test_help(self):
        self.has_help()

    def test_a_range(self):
        self.prints(SUMS, *self.words("--from", 1, "--to", 7), status=1)

    def test_steps(self):
        wanted = "runs 4, 0 differ, 0 ended before the cut\nrestarts of epoch 0: 1\nrestarts of epoch 1: 1\nreloads: 2\n"
        self.prints(f"{wanted}the tears decided at 1 of 2 cuts\n", *self.words("--from", 1, "--to", 4, "--step", 2))

    def test_a_log(self):
        self.call(*self.words("--from", 5, "--to", 6, "--log", self.path("log")))
        logged = self.logged()
        self.assertEqual(set(logged), {(5, 0), (5, 1), (6, 0), (6, 1)})
        end = ["exit 8 at 3", f"memory {ZEROS}"]
        about = {"cut": 5, "tear": 0, "differs": ["end"], "end": end, "status": 0, "was_cut": True, "restarts": [0], "reloads": 0}
        self.assertEqual(logged[5, 0], about)

    def test_how_runs_are_called(self):
        # Of a cut that each run has, none of the queued writes is left. A cut in cycle 4 is not tried a second time.
        wanted = "runs 2, 0 differ, 0 ended before the cut\nrestarts of epoch 0: 1\nrestarts of epoch 1: 1\nreloads: 0\n"
        more = ["--from", 3, "--to", 4, "--cuts", "4", "--jobs", 1, "--epoch", 9, "--pages=8"]
        self.prints(f"{wanted}the tears decided at 1 of 1 cuts\n", *self.words(*more))
        first = ["plain --pages 8 --digest", "run --digest --epoch 9 --pages 8 --cuts 4"]
        self.assertEqual(self.called()[:2], first)
        wanted = [f"run --digest --epoch 9 --pages 8 --cuts 3,4 --tears {tears}" for tears in ("0,0", "1,0")]
        self.assertEqual(self.called()[2:], wanted)

    def test_blocks_that_are_torn(self):
        # The program observe is called for all but the plain machine.
        torn = self.program(f'echo "$*" >>{self.path("called")}\nshift 2\n{PROGRAM_OF_SIX}', "torn")
        self.prints(SUMS, *self.words("--torn", "--observe", torn, "--from", 1, "--to", 7), status=1)
        plain, *runs = self.called()
        self.assertEqual((plain, runs[0]), ("plain --digest", "/dev/null --torn run --digest"))
        self.assertEqual({line.split(" --digest")[0] for line in runs}, {"/dev/null --torn run"})
        self.refuses("--gap is refused with --torn", *self.words("--torn", "--observe", torn, "--from", 1, "--to", 2, "--gap", 3))

    def test_no_cut_falls(self):
        done = self.call(*self.words("--from", 7, "--to", 9))
        sums = "runs 6, 0 differ, 6 ended before the cut\nreloads: 0\nthe tears decided at 0 of 0 cuts\n"
        self.assertEqual((done.out, done.err, done.status), (sums, "cuts: nothing was tested: no cut fell in the run\n", 2))

    def test_a_difference_where_no_cut_falls(self):
        text = PROGRAM_OF_SIX.replace("code=7", 'code=7; [ "$cuts" != 8 ] || code=9')
        done = self.call(*self.another(text), "--tears", "0", "--from", 7, "--to", 8)
        self.assertEqual((done.out.splitlines()[0], done.err), (f"cut 8 tear 0 differs in end: exit 9 at 3; memory {ZEROS}", ""))
        self.assertEqual(done.status, 1)

    def test_a_trap(self):
        text = PROGRAM_OF_SIX.replace('"exit $code at 3"', '"trap 5 at 3"') + "exit 1\n"
        done = self.call(*self.another(text), "--from", 3, "--to", 6)
        wanted = "the program traps: trap 5 at 3\nruns 16, 0 differ, 0 ended before the cut\n"
        self.assertEqual((done.out[: len(wanted)], done.err, done.status), (wanted, "", 0))

    def test_a_run_that_differs_without_a_cut(self):
        text = PROGRAM_OF_SIX.replace("code=7", '[ "$verb" = plain ] && code=7 || code=6')
        done = self.call(*self.another(text), "--tears", "0", "--from", 7, "--to", 7)
        self.assertEqual(done.out.splitlines()[0], f"without a cut the run differs: exit 6 at 3; memory {ZEROS}")
        self.assertEqual((done.err, done.status), ("", 1))

    def test_a_saved_image(self):
        # What the runs are compared with is one without any cut: the plain machine is not called.
        image = ["resume", self.guest, "--thynvm", self.stub, "--tears", "0,1"]
        self.prints(SUMS, *image, "--from", 1, "--to", 7, status=1)
        self.assertEqual(self.called()[0], "resume --digest")
        self.assertEqual({line.split()[0] for line in self.called()}, {"resume"})
        os.remove(self.path("called"))
        wanted = "runs 4, 0 differ, 0 ended before the cut\nrestarts of epoch 0: 2\nrestarts of epoch 1: 2\nreloads: 0\n"
        more = ["--from", 3, "--to", 4, "--cuts", "6", "--input", "x"]
        self.prints(f"{wanted}the tears decided at 2 of 2 cuts\n", *image, *more)
        self.assertEqual(self.called()[:2], ["resume --digest --input x", "resume --digest --input x --cuts 6"])

    def test_what_the_program_refuses(self):
        done = self.call("resume", *self.another("echo image 4 Geometry >&2; exit 5"), "--from", 1, "--to", 2)
        self.assertEqual((done.out, done.err, done.status), ("", "cuts: the program refuses this: image 4 Geometry\n", 2))
        for line, status in (("usage", 2), ("fetch guest.elf missing", 3), ("file 2 NotElf", 4), ("input 5 2", 10)):
            words = self.another(f"echo {line} >&2; exit {status}")
            self.refuses(f"the program refuses this: {line}", *words, "--from", 1, "--to", 2)
        # Options that the run without the cut has not, and so cannot show to be wrong.
        text = f"case $* in *--tears*) echo value cuts 80000 >&2; exit 2 ;; esac\n{PROGRAM_OF_SIX}"
        self.refuses("the program refuses this: value cuts 80000", *self.another(text), "--from", 1, "--to", 2)

    def test_around_commits(self):
        seen = self.observer(written.EXAMPLE)
        words = self.machine("--observe", seen, "--around", "commit", "--until-restart", "--log", self.path("log"))
        # After cycle 698, and after 712 to 718, the commit block is queued: of the tears 0 leaves what was there before.
        wanted = "commit in cycle 700, 722: 8 cuts\nruns 32, 0 differ, 0 ended before the cut\nrestarts of epoch 0: 10\n"
        self.prints(f"{wanted}restarts of epoch 1: 21\nreloads: 1\nthe tears decided at 8 of 8 cuts\n", *words)
        self.assertEqual({cut for cut, _ in self.logged()}, {698, *range(712, 719)})
        done = self.call(*words, "--step", 4)
        self.assertEqual((done.out.splitlines()[0], done.status), ("commit in cycle 700, 722: 2 cuts", 0))
        self.assertEqual({cut for cut, _ in self.logged()}, {698, 715})

    def test_other_windows(self):
        seen = self.observer(written.EXAMPLE)
        words = self.machine("--observe", seen, "--around", "end", "--width", 3, "--until-restart")
        done = self.call(*words, "--log", self.path("log"))
        self.assertEqual((done.out.splitlines()[0], done.err, done.status), ("end in cycle 722: 3 cuts", "", 0))
        self.assertEqual({cut for cut, _ in self.logged()}, {719, 720, 721})
        said = "the run has no restart; --cuts gives the run one"
        self.refuses(said, *self.words("--observe", seen, "--around", "restart"))
        broken = self.observer(written.EXAMPLE.replace("waiting 7\n", ""))
        said = "what `observe` has written cannot be read: behind its events it has 6 lines"
        self.refuses(said, *self.words("--observe", broken, "--around", "commit"))

    def test_a_window_around_a_restart(self):
        # In cycle 1360; of six cycles three are before it.
        seen = self.observer(written.CUTS)
        words = self.words("--observe", seen, "--around", "restart", "--width", 6, "--cuts", "6")
        done = self.call(*words, "--log", self.path("log"))
        self.assertEqual(done.out.splitlines()[0], "restart in cycle 1360: 6 cuts")
        self.assertEqual({cut for cut, _ in self.logged()}, set(range(1357, 1363)))

    def test_until_the_restart(self):
        # The program would go on for a minute. Before the commit of epoch 0 it loads again.
        began = time.monotonic()
        words = self.machine("--from", 690, "--to", 720, "--step", 10, "--tears", "0,1", "--until-restart")
        wanted = "runs 8, 0 differ, 0 ended before the cut\nrestarts of epoch 0: 4\nrestarts of epoch 1: 2\nreloads: 2\n"
        self.prints(f"{wanted}the tears decided at 0 of 4 cuts\n", *words, "--log", self.path("log"))
        self.assertLess(time.monotonic() - began, 30)
        end = ["restart 0 at 0", f"memory {ZEROS}"]
        about = {"cut": 710, "tear": 0, "differs": [], "end": end, "status": None, "was_cut": True, "restarts": [0], "reloads": 0}
        self.assertEqual(self.logged()[710, 0], about)
        self.assertEqual(self.logged()[690, 1]["end"], ["reload"])

    def test_sweeps_in_place_of_runs(self):
        # One sweep a tear, of rows of two and of four cycles; the run ends in cycle 7.
        for wrong in (1, 0):
            self.script("thynvm", SWEEPER_OF_SIX.format(calls=self.path("swept"), wrong=wrong))
            words = [self.guest, "--from", 1, "--to", 7, "--tears", "0,1", "--until-restart", "--pages", 8]
            differ = "cuts 3 to 6 tear 0 differs in the state\n" if wrong else ""
            sums = f"{differ}runs 14, {4 * wrong} differ, 2 ended before the cut\n{SUMS.split(chr(10), 2)[2]}"
            self.prints(sums, *words, status=wrong)
        kept, *call = self.read("swept").splitlines()[1].split()[1:]
        self.assertTrue(kept.endswith("/1-7"))
        run = f"run {self.guest} --pages 8 --limit 1000000000000"
        self.assertEqual(call, f"--from 1 --to 7 --step 1 --tears 1 {run}".split())
        done = self.call(self.guest, "--from", 2, "--to", 6, "--step", 4, "--tears", "1", "--until-restart")
        sums = "runs 2, 0 differ, 0 ended before the cut\nrestarts of epoch 1: 1\nreloads: 1\nthe tears decided at 0 of 2 cuts\n"
        self.assertEqual((done.out, done.err, done.status), (sums, "", 0))
        done = self.call(self.guest, "--from", 7, "--to", 9, "--tears", "0,1", "--until-restart")
        sums = "runs 6, 0 differ, 6 ended before the cut\nreloads: 0\nthe tears decided at 0 of 0 cuts\n"
        said = "cuts: nothing was tested: no cut fell in the run\n"
        self.assertEqual((done.out, done.err, done.status), (sums, said, 2))

    def test_an_image_until_the_restart(self):
        # It has the checkpoint of epoch 4, with which the run begins in cycle 2. A cut before leaves just that, too.
        memory = {count: f"memory {str(count) * 64}" for count in (2, 3, 5)}
        text = f"""
cut=0
while [ $# -gt 0 ]; do [ $1 != --cuts ] || cut=$2; shift; done
exec >&2
[ $cut = 1 ] || printf 'restart 4 at 2\\n{memory[2]}\\n'
[ $cut = 0 ] || printf "cut 1 at cycle $cut\\nRESTART\\n"
printf 'epoch 5 ends at 3 by end\\ncommit 5 overlapped 0\\nexit 7 at 3\\n{memory[3]}\\n'
"""
        more = ["--from", 1, "--to", 3, "--step", 2, "--tears", "0", "--until-restart"]
        wanted = "runs 2, 0 differ, 0 ended before the cut\nrestarts of epoch 4: 3\nreloads: 0\n"
        self.prints(f"{wanted}the tears decided at 0 of 2 cuts\n", "resume", *self.another(text.replace("RESTART", f"restart 4 at 2\\n{memory[2]}")), *more)
        for restart, digest, part in (("0 at 0", 2, "restart"), ("5 at 2", 2, "restart"), ("4 at 2", 5, "memory")):
            wrong = f"restart {restart}", memory[digest]
            done = self.call("resume", *self.another(text.replace("RESTART", "\\n".join(wrong))), *more)
            said = [f"cut {cut} tear 0 differs in {part}: {'; '.join(wrong)}" for cut in (1, 3)]
            self.assertEqual((done.out.splitlines()[:2], done.err, done.status), (said, "", 1))

    def test_runs_that_end_before_their_cut(self):
        # They are compared as a whole.
        done = self.call(*self.machine("--from", 721, "--to", 722, "--tears", "0", "--until-restart"))
        self.assertEqual(done.out.splitlines()[0], "runs 2, 0 differ, 1 ended before the cut")
        self.assertEqual((done.err, done.status), ("", 0))

    def test_restarts_that_are_wrong(self):
        one = f"restart 1 at 2; memory {'2' * 64}"
        for cut, wrong, said in (
            # The checkpoint of epoch 1 was not sealed yet; that of epoch 0 is committed.
            (705, "epoch, digest = 1, '2' * 64", f"0 differs in restart: {one}"),
            (705, "epoch = -1", "0 differs in restart: reload"),
            # With the checkpoint of epoch 1 its letter has to be there, and no other before it.
            (720, "show = lambda text: None", f"0 differs in terminal: {one}"),
            (720, "show('x')", f"0 differs in terminal: {one}"),
            # All runs have to have the same memory at a count, also that without a cut.
            (720, "digest = str(2 + tears[0]) * 64", f"1 differs in memory: restart 1 at 2; memory {'3' * 64}"),
        ):
            words = self.machine("--from", cut, "--to", cut, "--tears", "0,1", "--jobs", 1, "--until-restart", wrong=wrong)
            done = self.call(*words)
            with self.subTest(wrong=wrong):
                self.assertEqual((done.out.splitlines()[0], done.err, done.status), (f"cut {cut} tear {said}", "", 1))

    def test_an_interrupt(self):
        # The first cut's run has ended when the interrupt comes, the second one's goes on.
        words = self.machine("--from", 5, "--to", 6, "--tears", "0", "--jobs", 1, "--log", self.path("log"))
        command = [sys.executable, f"{self.tools}/cuts", *map(str, words)]
        with subprocess.Popen(command, stdout=subprocess.PIPE, stderr=subprocess.PIPE, text=True) as call:
            while not os.path.exists(self.path("log")) or not self.read("log"):
                time.sleep(0.05)
            call.send_signal(signal.SIGINT)
            out, err = call.communicate(timeout=30)
        wanted = "interrupted after 1 of 2 runs\nruns 1, 0 differ, 0 ended before the cut\nreloads: 1\n"
        self.assertEqual((out, err, call.returncode), (f"{wanted}the tears decided at 0 of 1 cuts\n", "", 130))

    def test_refusals_of_words(self):
        self.refuses("the following arguments are required: FILE")
        self.refuses("the following arguments are required: IMAGE", "resume")
        self.refuses("argument --around: invalid choice: 'x'", *self.words("--around", "x"))
        for more, said in (
            ([], "either --from and --to are wanted, or --around"),
            (["--from", 1], "either --from and --to are wanted, or --around"),
            (["--from", 5, "--to", 3], "the range is empty or begins below 1"),
            (["--from", 0, "--to", 3], "the range is empty or begins below 1"),
            (["--from", 1, "--to", 3, "--width", 3], "--width goes with --around restart and --around end"),
            (["--around", "commit", "--width", 3], "--width goes with --around restart and --around end"),
            (["--around", "end", "--from", 1], "--around stands in place of --from and --to"),
            (["--from", 1, "--to", 3, "--step", 0], "the step, the width or the jobs are below 1"),
            (["--from", 1, "--to", 3, "--digest"], "--digest is given to each run by this script"),
            (["--from", 1, "--to", 3, "--save", "x"], "--save is refused: all runs would write the same file"),
            (["--from", 1, "--to", 3, "--harts", 2], "--harts is refused"),
            (["--from", 1, "--to", 3, "--epoch"], "--epoch needs a value"),
            (["--from", 1, "--to", 3, "--epoch", 5, "--epoch=6"], "--epoch stands twice"),
            (["--from", 1, "--to", 3, "x"], "this is not an option: x"),
            (["--from", 1, "--to", 3, "--tears", "a"], "the tears are not a list of numbers: a"),
            (["--from", 1, "--to", 3, "--cuts", "1;2"], "the cuts are not a list of numbers: 1;2"),
            (["--from", 4, "--to", 4, "--cuts", "4"], "there is no cut to try"),
        ):
            with self.subTest(more=more):
                self.refuses(said, *self.words(*more))

    def test_programs_that_have_no_end(self):
        cuts = ["--from", 1, "--to", 2]
        plain, without = "the plain machine does not come", "without a cut the machine does not come"
        endless = "echo limit 5 >&2; exit 8"
        self.refuses(f"{plain} to the program's end: limit 5", *self.another(endless), *cuts)
        self.refuses(f"{without} to the program's end: limit 5", "resume", *self.another(endless), *cuts)
        stuck = f"[ $1 != plain ] || exec {self.stub} \"$@\"\n{endless}"
        self.refuses(f"{without} to the program's end: limit 5", *self.another(stuck), *cuts)
        self.refuses(f"{plain} to the program's end: nothing reported", *self.another(""), *cuts)
        self.refuses("No such file", self.guest, "--thynvm", self.path("none"), *cuts)

    def test_a_program_that_is_not_built(self):
        self.script("thynvm", "#!/bin/sh\nexit 125\n")
        self.refuses("the program was not built", self.guest, "--from", 1, "--to", 2)

    def test_an_observer_that_stops(self):
        stopping = self.script("observe", "#!/bin/sh\necho nvm failed >&2\nexit 7\n")
        said = "`observe` does not come to the program's end: nvm failed"
        self.refuses(said, *self.words("--observe", stopping, "--around", "end"))

    def test_with_parallel(self):
        # A parallel that makes the calls of its last word, one for each line of its input.
        text = """[ "$1" != --version ] || { echo GNU parallel; exit; }
for command; do :; done
while read -r cut tear; do sh -c "${command% \\{1\\} \\{2\\}} $cut $tear"; done"""
        env = self.beside(parallel=text)
        self.prints(SUMS, *self.words("--from", 1, "--to", 7, "--"), status=1, env=env)
        wanted = "runs 4, 0 differ, 0 ended before the cut\nrestarts of epoch 0: 3\nreloads: 1\n"
        words = self.machine("--from", 698, "--to", 699, "--tears", "0,1", "--until-restart", "--")
        self.prints(f"{wanted}the tears decided at 1 of 2 cuts\n", *words, env=env)
        text = "[ $1 = --version ] && echo GNU parallel || exit 5"
        done = self.call(*self.words("--from", 1, "--to", 2, "--"), env=self.beside(parallel=text))
        self.assertEqual((done.out, done.err, done.status), ("", "cuts: parallel made 0 of 4 runs, and ended with 5\n", 2))

    def test_without_parallel(self):
        said = "parallel is not in PATH (on Debian it is in the package parallel)"
        self.refuses(said, *self.words("--from", 1, "--to", 2, "--"), env=self.without())
        other = self.beside(parallel="echo another")
        self.refuses("the parallel in PATH is not that of GNU", *self.words("--from", 1, "--to", 2, "--"), env=other)


class Search(unittest.TestCase):
    def test_the_first_cycle(self):
        near = (0, 1, 1), (0, 1, 9), (3, 9, 9), (3, 8, 9), (3, 7, 9), (3, 4, 9)
        for low, first, high in (*near, (0, 500, 1000), (499, 500, 1000), (0, 999, 1000)):
            asked = []
            found = first_with(lambda at: asked.append(at) or at >= first, low, high)
            with self.subTest(low=low, first=first, high=high):
                self.assertEqual(found, first)
                self.assertTrue(all(low < at < high for at in asked))
                self.assertLessEqual(len(asked), 20)


GREET = "examples/greet/greet.elf --input examples/greet/name --pages 8 --epoch 240"

# The programs that are called.
BUILT = ["--thynvm", PROGRAM, "--observe", OBSERVER]


def shown_below(command):
    """What docs/USING.md shows below a command."""
    page = repository.text_of("docs/USING.md")
    found = re.search(rf"^    {re.escape(command)}\n\n((?:    .*\n)+)", page, re.M)
    return "".join(line[4:] + "\n" for line in found[1].splitlines())


class OfThePage(ToolTest):
    """A test by examples; `tools/readers` tries the commits of CONTROLLER.md's."""

    tool = "cuts"

    def shows_as_the_page(self, line):
        words = [repository.path(word) if word.startswith("examples/") else word for word in line.split()]
        self.prints(shown_below(f"tools/cuts {line}"), *words, *BUILT)

    def saved(self):
        """Words by which README's run goes on that was saved at its limit, with the checkpoint of epoch 1."""
        words = ["--input", repository.example("greet", "name"), "--pages", "8", "--epoch", "240"]
        run = [PROGRAM, "run", repository.example("greet"), *words, "--limit", "2200", "--save", self.path("image")]
        self.assertEqual(subprocess.run(run, capture_output=True).returncode, 8)
        return ["resume", self.path("image"), *words, *BUILT]


@needs_program()
class WithTheProgram(OfThePage):
    def test_a_range(self):
        self.shows_as_the_page(f"{GREET} --from 100 --to 3000 --step 145")

    def test_an_image_until_the_restart(self):
        # Its slot has 5 + 64 + 8 + 1 blocks, so it is restored in cycle 80: two of the eight cuts fall in that boot, and each
        # other run has a restart before its cut. The checkpoint of epoch 2 is not sealed yet after 400 cycles.
        words = [*self.saved(), "--from", 1, "--to", 400, "--step", 57, "--tears", "0", "--until-restart"]
        wanted = "runs 8, 0 differ, 0 ended before the cut\nrestarts of epoch 1: 14\nreloads: 0\n"
        self.prints(f"{wanted}the tears decided at 0 of 8 cuts\n", *words)

    def test_images_that_are_refused(self):
        self.refuses("the program refuses this: image 4 Geometry", *self.saved(), "--btt", 8, "--from", 1, "--to", 2)
        empty = ["resume", self.file("empty", bytes(128)), *BUILT, "--from", 1, "--to", 2]
        self.refuses("the program refuses this: image 1 Empty", *empty)
        self.refuses("missing", "resume", self.path("none"), *BUILT, "--from", 1, "--to", 2)


@needs_observer
class WithBothPrograms(OfThePage):
    def outcomes(self, example, *words):
        """Where runs that are ended at their restart led to: of each cut the restarts, by the tears."""
        self.call(repository.example(example), *words, *BUILT, "--until-restart", "--log", self.path("log"))
        led = {}
        for line in map(json.loads, self.read("log").splitlines()):
            self.assertEqual(line["differs"], [])
            led.setdefault(line["cut"], set()).add((tuple(line["restarts"]), line["reloads"]))
        return led

    def test_around_commits(self):
        self.shows_as_the_page(f"{GREET} --around commit --tears 0,1")

    def test_the_tears_decide_in_these_cycles_alone(self):
        # By CONTROLLER.md; and with other schemes and schedules by what cuts beside the windows lead to.
        small = ["--pages", 8, "--btt", 8, "--ptt", 8]
        led = self.outcomes("exit_seven", *small, "--around", "commit")
        self.assertEqual(led, {698: {((), 1), ((0,), 0)}, 721: {((0,), 0), ((1,), 0)}})
        input = ["--input", repository.example("greet", "name"), "--pages", 8, "--btt", 64, "--epoch", 240]
        for line in ("", "--mix 5", "--scheme journal", "--scheme shadow --ptt 8", "--nvmq 1 --mix 3", "--gap 7"):
            more = line.split()
            inside = self.outcomes("greet", *input, *more, "--around", "commit", "--tears", "0,1")
            with self.subTest(more=more):
                self.assertEqual({len(ways) for ways in inside.values()}, {2})
                for first in sorted(cut for cut in inside if cut - 1 not in inside):
                    last = next(cut for cut in range(first, max(inside) + 1) if cut + 1 not in inside)
                    around = self.outcomes("greet", *input, *more, "--from", first - 1, "--to", last + 1, "--tears", "0,1,2,3,4")
                    wanted = {cut: 2 if cut in inside else 1 for cut in range(first - 1, last + 2)}
                    self.assertEqual({cut: len(ways) for cut, ways in around.items()}, wanted)

    def test_a_saved_image(self):
        # There are three epochs, of which two are to come.
        done = self.call(*self.saved(), "--around", "commit", "--tears", "0,1")
        lines = done.out.splitlines()
        self.assertRegex(lines[0], r"\Acommit in cycle \d+, \d+: \d+ cuts\Z")
        restarts = [f"restarts of epoch {epoch}" for epoch in (1, 2, 3)]
        self.assertEqual([line.split(":")[0] for line in lines[2:6]], [*restarts, "reloads"])
        self.assertEqual((lines[5], done.err, done.status), ("reloads: 0", "", 0))
