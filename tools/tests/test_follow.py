"""tools/follow, as ./thynvm calls it: what --quiet leaves, the order of both outputs, the line of progress, and interrupts."""

import os
import re
import signal
import subprocess
import time

from lib.repository import PROGRAM, example
from tests.script import ENDLESS, EVENTS, QUICK, SLOW, SMALL, ZEROS, ScriptTest, Terminal, report_of
from tests.support import needs_program

# The line of progress, as it is drawn and wiped.
DRAWN = re.compile(r"\r\x1b\[K(thynvm: [^\r\n]*)?")

GREET = ["run", example("greet"), "--input", example("greet", "name"), "--pages", "8"]


class Follow(ScriptTest):
    tool = "follow"

    def test_help(self):
        self.has_help()

    def test_refusals(self):
        self.refuses("a program and the words of its call are wanted, as `follow --help` says")
        self.refuses("a program and the words of its call are wanted, as `follow --help` says", "--quiet", "--observe")
        self.refuses("there is no program /none", "/none", "run", "file")


class Quiet(ScriptTest):
    def test_events(self):
        self.install(EVENTS)
        self.assertEqual(self.made("--quiet", "run", "file"), (1, "out\n", f"trap 2 at 9\nmemory {'b' * 64}\n"))
        self.assertEqual(self.made("run", "file"), (1, "out\n", report_of(EVENTS)))

    def test_memory(self):
        """The closing line of a run without enough memory is no digest."""
        self.install("#!/bin/sh\nprintf 'restart 1 at 5\\nmemory\\n' >&2\nexit 9\n")
        self.assertEqual(self.made("--quiet", "run", "file"), (9, "", "memory\n"))

    def test_lines_that_are_no_events(self):
        lines = "scheme thynvm epochs 1 early 0 overlapped 0 writes 9\nmade 7 24148\nlimit 5\n"
        self.install(f"#!/bin/sh\ncat >&2 <<'END'\n{lines}END\nexit 8\n")
        self.assertEqual(self.made("--quiet", "compare", "file"), (8, "", lines))

    @needs_program()
    def test_of_the_program(self):
        self.install(PROGRAM)
        words = ["run", example("exit_seven"), *SMALL, "--cuts", "710", "--digest"]
        status, output, report = self.made(*words)
        self.assertEqual(self.made("--quiet", *words), (status, output, "".join(report.splitlines(True)[-2:])))
        status, output, report = self.made("--quiet", "bench", "7")
        self.assertRegex(report, r"^exit \d+ at \d+\nsummary epochs .*\n$")
        status, output, report = self.made("--quiet", *words, "--limit", "3")
        self.assertEqual((status, report), (8, "limit 3\n"))
        status, output, report = self.made("--quiet", "run", "none")
        self.assertEqual((status, report), (3, "fetch none missing\n"))

    @needs_program()
    def test_output(self):
        """Standard output is the program's own, whatever becomes of it."""
        self.install(PROGRAM)
        with open("/dev/full", "w") as full:
            for quiet in ([], ["--quiet"]):
                call = self.command(*quiet, *GREET)
                done = subprocess.run(call, env=self.variables(), stdout=full, stderr=subprocess.PIPE)
                self.assertEqual((done.returncode, done.stderr.splitlines()[-1]), (6, b"terminal failed"))
                done = subprocess.run(call, env=self.variables(), stdout=subprocess.PIPE, stderr=full)
                self.assertEqual(done.returncode, 6)
        self.assertEqual(self.made("--quiet", *GREET)[1], self.made(*GREET)[1])

    @needs_program()
    def test_report_that_fails(self):
        """The status is that of the program which writes there by itself."""
        self.install(PROGRAM)
        words = ["run", example("exit_seven"), *SMALL]
        calls = [[*words, "--digest"], [*words, "--limit", "710"], [*words, "--limit", "600"], [*words, "--limit", "x"]]
        calls += [["compare", *words[1:]], ["make", "7", self.path("made")], ["plain", *words[1:2]]]
        for call in calls:
            self.fails_alike(call, subprocess.DEVNULL)
        with open("/dev/full", "w") as full:
            self.fails_alike(words, full)
            self.fails_alike(["plain", example("hello")], full)

    def fails_alike(self, words, output):
        with open("/dev/full", "w") as full:
            own = subprocess.run([PROGRAM, *words], stdout=output, stderr=full).returncode
            got = subprocess.run(self.command(*words), env=self.variables(THYNVM_HELP="1"), stdout=output, stderr=full)
            self.assertEqual(got.returncode, own, words)

    def test_report_that_fails_at_an_event(self):
        """The run ends there."""
        self.install("#!/bin/sh\necho commit 0 overlapped 0 >&2\nsleep 20\necho limit 5 >&2\nexit 8\n")
        began = time.monotonic()
        with open("/dev/full", "w") as full:
            done = subprocess.run(self.command("run", "file"), env=self.variables(THYNVM_HELP="1"), stderr=full)
        self.assertEqual((done.returncode, time.monotonic() - began < 15), (6, True))

    def test_streams_that_are_closed(self):
        """The program has them closed too."""
        self.install("#!/bin/sh\n[ ! -e /dev/fd/0 ] && echo none >&2\necho a || exit 4\n")
        call = 'exec "$0" --quiet run file <&- >&-'
        done = subprocess.run(["sh", "-c", call, self.path("thynvm")], env=self.variables(), stderr=subprocess.PIPE, text=True)
        self.begins(done.stderr, "none\n")
        self.assertEqual(done.returncode, 4)

    def test_without_python(self):
        self.install(EVENTS)
        bare = self.without_commands("python3")
        status, _, report = self.made("--quiet", "run", "file", PATH=bare)
        self.assertEqual((status, report), (125, "thynvm: --quiet needs python3, which is not in PATH\n"))
        self.assertEqual(self.made("run", "file", PATH=bare, THYNVM_HELP="1")[0], 1)


class OnTerminal(ScriptTest):
    def test_order(self):
        """Both outputs are shown in the order in which they were written."""
        self.install(QUICK)
        lines = "".join(f"out {k}\nepoch {k} ends at {k * 10} by length\n" for k in range(1, 51))
        for _ in range(5):
            self.assertEqual(Terminal(self, "run", "file").end(), (0, f"{lines}exit 3 at 500\nmemory {ZEROS}\n"))

    def test_order_in_one_pipe(self):
        self.install(QUICK)
        for more in ({}, {"THYNVM_HELP": "1"}):
            how = {"stdout": subprocess.PIPE, "stderr": subprocess.STDOUT, "text": True}
            done = subprocess.run(self.command("run", "file"), env=self.variables(**more), **how)
            self.begins(done.stdout, "out 1\nepoch 1 ends at 10 by length\nout 2\nepoch 2 ")
            self.assertEqual((done.returncode, done.stdout.count("\n")), (0, 102))

    def test_progress(self):
        self.install(SLOW)
        call = Terminal(self, "run", "file")
        status, shown = call.end()
        lines = [line for line in DRAWN.findall(shown) if line]
        self.assertEqual(status, 0)
        self.assertRegex(lines[-1], r"^thynvm: epoch [67] ended at [67]000 instructions, [12]\d\d\d a second, \d s$")
        first = next(at for at, data in call.times if b"\x1b[K" in data)
        self.assertGreaterEqual(first, 2)
        self.assertEqual(DRAWN.sub("", shown), report_of(SLOW).replace("epoch 4", "from the program\nepoch 4"))
        self.assertRegex(shown, r"exit 0 at 7000\n$")

    def test_a_bar(self):
        """Of an observed and of a swept run: 512 blocks are loaded, and two cycles are counted for each instruction."""
        for words, bar in (
            (["observe", "out", "--pcs", "run", "file", "--pages", "8", "--limit", "20000"], r"\[#{12,14} {6,8}\] at least 1[24]512 of 20000"),
            (["sweep", "out", "--to", "50000", "--torn", "run", "file", "--pages", "8"], r"\[#{5} {15}\] at least 1[24]512 of 50000"),
        ):
            self.install(SLOW, words[0])
            status, shown = Terminal(self, *words).end()
            lines = [line for line in DRAWN.findall(shown) if line]
            self.assertEqual((status, DRAWN.sub("", shown).count("epoch")), (0, 7))
            self.assertRegex(lines[-1], rf"^thynvm: {bar} cycles, epoch [67] ended, \d s$")
            done = subprocess.run(self.command(*words), env=self.variables(), capture_output=True, text=True)
            self.assertEqual((done.stdout, done.stderr), ("from the program\n", report_of(SLOW)))

    def test_quiet_progress(self):
        self.install(SLOW)
        status, shown = Terminal(self, "--quiet", "run", "file").end()
        self.assertRegex(shown, r"thynvm: epoch \d ended at \d000 instructions")
        self.assertEqual((status, DRAWN.sub("", shown)), (0, "from the program\nexit 0 at 7000\n"))

    def test_no_progress_elsewhere(self):
        self.install(SLOW)
        for more in ({}, {"THYNVM_HELP": "1"}):
            status, output, report = self.made("run", "file", **more)
            self.assertEqual((status, output, report), (0, "from the program\n", report_of(SLOW)))
        with open(self.path("file"), "w+") as file:
            status, shown = Terminal(self, "run", "file", output=file).end()
            file.seek(0)
            self.assertEqual(file.read(), "from the program\n")
        self.assertEqual(DRAWN.sub("", shown), report_of(SLOW))

    @needs_program()
    def test_typed_input(self):
        """Nothing is drawn while the program waits for what is typed."""
        self.install(PROGRAM)
        call = Terminal(self, "run", example("sorted_words"), "--input", "/dev/stdin")
        call.read(b"nothing", seconds=2.5)
        call.press(b"pear\napple\n\x04")
        status, shown = call.end()
        self.begins(shown, "pear\napple\ncommit 0 overlapped 0\n")
        self.assertIn("   1 apple\n   1 pear\n2 words\ncommit 1 overlapped 0\n", DRAWN.sub("", shown))
        self.assertEqual(status, 0)

    @needs_program()
    def test_program(self):
        """The built program on a terminal: the example of README.md."""
        self.install(PROGRAM)
        status, shown = Terminal(self, *GREET, "--epoch", "240", "--cuts", "2200", "--tears", "0").end()
        lines = ["commit 0 overlapped 0", "epoch 1 ends at 240 by length"]
        lines += [*(f"{k} Hello, World!" for k in range(3)), "commit 1 overlapped 70"]
        lines += ["epoch 2 ends at 480 by length", "cut 1 at cycle 2200", "restart 1 at 240", "epoch 2 ends at 480 by length"]
        lines += [*(f"{k} Hello, World!" for k in range(3, 7)), "commit 2 overlapped 70", "epoch 3 ends at 666 by end"]
        lines += [*(f"{k} Hello, World!" for k in range(7, 10)), "commit 3 overlapped 0", "exit 5 at 666"]
        self.assertEqual((status, shown), (0, "".join(f"{line}\n" for line in lines)))


class Interrupt(ScriptTest):
    def on_terminal(self, *words):
        self.install(ENDLESS)
        call = Terminal(self, *words)
        call.read(b"epoch 3" if "--quiet" not in words else b"thynvm: epoch 3")
        call.press(b"\x03")
        status, shown = call.end()
        self.assertEqual(status, -signal.SIGINT)
        return shown.splitlines()[-1]

    def test_key(self):
        self.assertRegex(self.on_terminal("run", "file"), r"thynvm: interrupted after \d s: epoch 3 had ended, at 3000 instructions$")

    def test_quiet(self):
        self.assertRegex(self.on_terminal("--quiet", "run", "file"), r"thynvm: interrupted after \d s: epoch 3 had ended, at 3000 ")

    def test_save(self):
        """The limit is the cycle of the cut, and two for each of 2000 instructions since."""
        line = self.on_terminal("run", "file", "--save", "image")
        self.assertRegex(line, r"instructions; nothing is saved, but with --limit 24000 the same call ends before that, and saves$")

    def test_signal_in_a_pipe(self):
        self.install(ENDLESS)
        for number in (signal.SIGINT, signal.SIGTERM, signal.SIGHUP):
            call = self.start("run", "file", THYNVM_HELP="1")
            for _ in range(6):
                call.stderr.readline()
            call.send_signal(number)
            self.assertRegex(call.communicate(timeout=30)[1], r"^thynvm: interrupted after \d s: epoch 3 had ended, ")
            self.assertEqual(call.returncode, -number)

    def test_ignored_signals(self):
        """As under nohup."""
        self.install(ENDLESS.replace("sleep 20", "sleep 2"))
        signals = (signal.SIGHUP, signal.SIGINT)
        ignore = lambda: [signal.signal(number, signal.SIG_IGN) for number in signals]
        how = {"env": self.variables(), "stderr": subprocess.PIPE, "preexec_fn": ignore, "start_new_session": True}
        done = subprocess.Popen(self.command("--quiet", "run", "file"), **how)
        time.sleep(1)
        for number in signals:
            os.killpg(done.pid, number)
        self.assertEqual((done.communicate(timeout=30)[1], done.returncode), (b"", 0))

    @needs_program()
    def test_limit_is_below_the_interrupt(self):
        """A run of the built program up to the limit that is named comes to no later epoch."""
        self.install(PROGRAM)
        words = ["run", example("sum_loop"), "--save", self.path("image"), "--pages", "16"]
        call = self.start(*words, THYNVM_HELP="1")
        for _ in range(40):
            last = call.stderr.readline()
        call.send_signal(signal.SIGINT)
        line = call.communicate(timeout=30)[1].splitlines()[-1]
        epoch, limit = re.search(r"epoch (\d+) had ended.* --limit (\d+) ", line).groups()
        status, _, report = self.made(*words, "--limit", limit)
        ended = [int(number) for number in re.findall(r"^epoch (\d+) ", report, re.M)]
        self.assertEqual((status, os.path.exists(self.path("image"))), (8, True), last)
        self.assertTrue(int(epoch) / 4 < max(ended) <= int(epoch), (epoch, ended[-1]))
