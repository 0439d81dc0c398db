"""The script ./thynvm: what it answers without the program, and how it builds, with a command in place of rt."""

import fcntl
import os
import re
import signal
import subprocess
import time

from lib.repository import PROGRAM
from tests.script import QUICK_OUTPUT, RT, ScriptTest, Terminal, until
from tests.support import needs, needs_program

PAGE = "usage: thynvm run FILE"


class AtOnce(ScriptTest):
    """What is answered without the program. The command in place of rt fails."""

    def answers(self, words, status, output, report, **more):
        got = self.made(*words, **more)
        self.assertEqual(got[0], status, (words, got))
        self.begins(got[1], output)
        self.assertEqual((got[1] == "", got[2]), (output == "", report), words)
        self.assertEqual(self.text("calls"), "", words)

    def test_help(self):
        for words in (["--help"], ["-h"], ["--help", "run"]):
            self.answers(words, 0, PAGE, "")

    def test_help_after_a_command(self):
        calls = (["run", "--help"], ["bench", "7", "--pages", "8", "-h"], ["observe", "out", "plain", "--help"], ["help"])
        for words in (*calls, ["observe", "out", "--torn", "run", "--help"]):
            self.answers(words, 2, "", "usage\n")
            self.answers(words, 0, PAGE, "", THYNVM_HELP="1")

    def test_usage(self):
        calls = ([], [""], ["rum", "file"], ["--pages", "8", "run", "file"], ["--"], ["observe"], ["observe", "out"])
        calls += (["observe", "out", "rum"], ["observe", "run", "file"], ["observe", "out", "observe", "out", "run"])
        calls += (["--quiet"], ["--quiet", "build"], ["--quiet", "--version"], ["--quiet", "--quiet", "run"])
        calls += (["build", "now"], ["observe", "out", "--quiet", "run"])
        for option in ("--pcs", "--trace", "--torn", "--causes", "--epochs", "--wear"):
            calls += (["observe", "out", option], ["observe", "out", option, option, "run"], [option, "run", "file"])
        calls += (["observe", "out", "--pcs", "--torn", "--pcs", "run"], ["observe", "out", "--trace", "--trace-from"])
        calls += (["observe", "out", "--trace-to", "7", "--trace", "--trace-to", "8", "run"], ["--trace-to", "7", "run", "file"])
        calls += (["observe", "out", "--accesses"], ["observe", "out", "--accesses", "table"], ["--accesses", "table", "run", "file"])
        calls += (["observe", "out", "--pcs", "--accesses", "table", "run"], ["observe", "out", "--accesses-from", "7"])
        calls += (["observe", "out", "--state"], ["observe", "out", "--state", "7"], ["observe", "out", "--state", "run", "file"])
        calls += (["observe", "out", "--state-at", "7", "--pcs", "--state-at", "8", "run"], ["--state", "7", "run", "file"])
        for words in calls:
            self.answers(words, 2, "", "usage\n")

    @needs_program()
    def test_the_program_refuses_the_same(self):
        calls = ([], [""], ["rum", "file"], ["--pages", "8", "run", "file"], ["--", "run", "file"], ["build"], ["observe", "out", "run"])
        calls += (["run", "--help"], ["bench", "7", "--pages", "-h"], ["plain", "file", "--input", "--help"], ["help"], ["--version"])
        for words in calls:
            done = subprocess.run([PROGRAM, *words], stdin=subprocess.DEVNULL, capture_output=True, text=True)
            self.assertEqual((done.returncode, done.stdout, done.stderr), (2, "", "usage\n"), words)

    def test_why(self):
        for words, why in (
            ([], "a command is missing"),
            (["rum"], "there is no command rum"),
            (["--pages", "8", "run"], "--pages stands before the command"),
            (["observe"], "observe needs OUT"),
            (["observe", "run", "file"], "observe needs OUT"),
            (["build", "now"], "build takes no other word"),
            (["--quiet", "build"], "build is a command only as the first word"),
        ):
            status, report, own = self.helped(*words)
            self.assertEqual((status, report, len(own)), (2, ["usage"], 1), words)
            self.begins(own[0], why)

    def test_why_without_tools(self):
        self.remove_tools()
        self.assertEqual(self.helped("rum"), (2, ["usage"], []))

    def test_version(self):
        status, output, report = self.made("--version")
        lines = output.splitlines()
        newest = re.search(r"^## (.*)$", self.text("CHANGELOG.md"), re.M)[1]
        self.assertEqual((status, report, lines[0], lines[-1]), (0, "", f"thynvm of {newest}", "kit some-kit logic 1"))
        self.assertEqual((len(lines), self.text("calls")), (2, "version\n"))

    @needs("git")
    def test_version_of_a_commit(self):
        git = ["git", "-C", self.folder, "-c", "user.name=a", "-c", "user.email=a@example"]
        for words in (["init", "-q"], ["add", "thynvm"], ["commit", "-q", "-m", "One"]):
            subprocess.run([*git, *words], check=True, stdin=subprocess.DEVNULL)
        os.remove(self.path("CHANGELOG.md"))
        lines = self.made("--version")[1].splitlines()
        self.assertRegex("\n".join(lines[:2]), r"^thynvm\ncommit [0-9a-f]{12}$")
        with open(self.path("thynvm"), "a") as file:
            file.write("\n")
        self.assertRegex(self.made("--version")[1], r"commit [0-9a-f]{12}, and changes that are not committed\n")

    def test_without_rt(self):
        os.remove(self.path("bin/rt"))
        bare = self.without_commands("rt")
        self.answers(["run", "--help"], 2, "", "usage\n", PATH=bare)
        self.assertEqual(self.made("--version", PATH=bare)[1].count("\n"), 1)
        status, _, report = self.made("run", "file", PATH=bare)
        self.assertEqual((status, "rt, the command of the Rattle kit, is not in PATH" in report), (125, True), report)

    def test_other_calls_are_the_programs(self):
        self.install("#!/bin/sh\necho \"$@\"\nexit 5\n")
        for words in (["run", "--version"], ["run", "build"], ["plain", "observe", "--quiet"], ["run", "--", "--help"]):
            self.assertEqual(self.made(*words), (5, " ".join(words) + "\n", ""))

    def test_without_tools(self):
        """The program is called plainly, and nothing more is said."""
        self.remove_tools()
        self.install("#!/bin/sh\necho \"$@\"\necho commit 0 overlapped 0 >&2\nexit 5\n")
        for words in (["run", "a", "--tears", "1"], ["--quiet", "run", "a"]):
            for more in ({}, {"THYNVM_HELP": "1"}):
                plain = " ".join(word for word in words if word != "--quiet")
                self.assertEqual(self.made(*words, **more), (5, f"{plain}\n", "commit 0 overlapped 0\n"))
        status, shown = Terminal(self, "run", "a").end()
        self.assertEqual((status, shown), (5, "run a\ncommit 0 overlapped 0\n"))


class Package(ScriptTest):
    """In a package, which has a file that says what it is, and the programs in a folder. The command in place of rt fails."""

    def setUp(self):
        super().setUp()
        self.file("VERSION", "one\ntwo\n")
        for name in ("thynvm", "observe"):
            self.script(f"bin/{name}", f'#!/bin/sh\necho {name} "$@"\nexit 5\n')
            os.utime(self.path("bin", name), (0, 0))

    def test_calls(self):
        """They are made with these programs, whatever is beside them, and however old they are."""
        self.install("#!/bin/sh\necho other\n")
        self.assertEqual(self.made("run", "a"), (5, "thynvm run a\n", ""))
        self.assertEqual(self.made("observe", "out", "plain", "a"), (5, "observe out plain a\n", ""))
        self.assertEqual(self.made("observe", "out", "--torn", "run", "a"), (5, "observe out --torn run a\n", ""))
        self.assertEqual(self.made("build"), (0, "", ""))
        self.assertEqual(self.made("rum"), (2, "", "usage\n"))
        self.assertEqual(self.text("calls"), "")

    def test_version(self):
        self.assertEqual(self.made("--version"), (0, "one\ntwo\n", ""))
        self.assertEqual(self.text("calls"), "")

    def test_a_program_that_is_missing(self):
        os.remove(self.path("bin/observe"))
        said = f"thynvm: this package lacks its program {self.path('bin/observe')}\n"
        for more in ({}, {"THYNVM_HELP": "1"}):
            self.assertEqual(self.made("observe", "out", "run", "a", **more), (125, "", said))
        self.assertEqual(self.text("calls"), "")

    def test_without_tools(self):
        self.remove_tools()
        self.assertEqual(self.made("--quiet", "run", "a", THYNVM_HELP="1"), (5, "thynvm run a\n", ""))


class Build(ScriptTest):
    """What is said of a build, and that one waits for another. The command in place of rt builds."""

    mode = "build"

    def test_messages(self):
        self.file("file")
        status, output, report = self.made("run", "file")
        self.assertEqual((status, output), (0, QUICK_OUTPUT))
        for line in (
            r"thynvm: the program thynvm is missing; first the call is made without proof\n",
            r"not proved yet: exit 7 at 3\nnot proved yet: terminal\n",
            r"thynvm: that was the report, and then the terminal, without proof, after \d s; the status was 0\n",
            r"thynvm: proving and building the program thynvm, 3 crates, which takes some 20 minutes ",
            r"thynvm: all 3 crates are proved, and the program thynvm is built, after \d s\n",
        ):
            self.assertRegex(report, line)
        os.utime(self.path("crates/thynvm/src/main.rt"))
        self.assertRegex(self.made("build")[2], r"the program thynvm, 3 crates, which took \d s the last time \(")
        os.utime(self.path("crates/thynvm/src/main.rt"))
        self.assertIn("the program thynvm is out of date; first the call is made", self.made("run", "file")[2])

    def test_observe(self):
        report = self.made("observe", "out", "run", "file")[2]
        self.assertIn("the program observe is missing; no answer comes before the proof: observe writes a file", report)
        self.assertRegex(report, r"and the program observe is built, after \d s\n")

    def test_beside_tools(self):
        """tools/quick-rt knows this rt not, and calls it as it is."""
        status, _, report = self.made("build")
        self.assertEqual((status, "is built, after" in report), (0, True), report)
        self.assertRegex(self.text("calls"), r"(?m)^all check --jobs \d+\nrun -- run /")

    def test_without_tools(self):
        self.remove_tools()
        status, output, report = self.made("run", "file")
        self.assertEqual((status, output), (0, QUICK_OUTPUT))
        self.begins(report, "thynvm: proving and building the program thynvm, 3 crates, which takes some 20 minutes ")
        self.assertRegex(self.text("calls"), r"\Aall check\nrun -- run /")

    def test_quiet_answer(self):
        self.file("file")
        report = self.made("--quiet", "run", "file")[2]
        self.assertIn("not proved yet: exit 7 at 3\n", report)
        self.assertNotIn("not proved yet: commit", report)

    def test_failure(self):
        self.script("bin/rt", RT.replace("build,run) ", "build,run) echo wrong; exit 1; "))
        status, _, report = self.made("build")
        self.assertEqual(status, 125)
        self.assertRegex(report, r"wrong\nthynvm: the program thynvm was not built; that took \d s\n$")

    def waits(self, **variables):
        first = self.start("build", **variables)
        until(lambda: "== one" in self.text("crates/thynvm/out/thynvm.log"))
        second = self.start("run", "file", **variables)
        time.sleep(0.5)
        log = self.text("crates/thynvm/out/thynvm.log")
        report = first.communicate(timeout=30)[1]
        output, other = second.communicate(timeout=30)
        self.assertEqual((first.returncode, second.returncode), (0, 0), report + other)
        self.assertIn("== one", log)
        self.assertEqual(self.text("calls").count("all check"), 1)
        self.begins(other, "thynvm: another call builds here; this one waits until that has ended\n")
        self.begins(output, "out 1\n")
        self.assertFalse(os.path.exists(self.path("crates/thynvm/out/thynvm.lock")))

    @needs("flock")
    def test_two_calls(self):
        self.waits()

    def test_two_calls_without_flock(self):
        self.waits(PATH=self.without_commands("flock"))

    def test_lock_of_a_call_that_was_killed(self):
        gone = subprocess.Popen(["true"])
        gone.wait()
        self.file("crates/thynvm/out/thynvm.lock/holder", f"{gone.pid}\n")
        status, _, report = self.made("build", PATH=self.without_commands("flock"))
        self.assertEqual((status, "is built" in report), (0, True), report)

    @needs("flock")
    def test_interrupt_of_a_call_that_waits(self):
        holder = os.open(self.path("crates"), os.O_RDONLY)
        fcntl.flock(holder, fcntl.LOCK_EX)
        call = self.start("build")
        self.begins(call.stderr.readline(), "thynvm: another call builds here")
        call.send_signal(signal.SIGTERM)
        report = call.communicate(timeout=30)[1]
        os.close(holder)
        self.assertEqual(call.returncode, 143)
        self.assertRegex(report, r"thynvm: interrupted; what is proved is kept")

    def interrupted(self, part, *words):
        """An interrupt while rt does some part of the work, which sleeps for longer than the test, ends the script and that."""
        self.script("bin/rt", RT.replace(f"build,{part})", f'build,{part}) echo $$ >"$FAKE/sleeps"; exec sleep 70 ;;\nnever)'))
        call = self.start(*words)
        until(lambda: self.text("sleeps").strip())
        began = time.monotonic()
        call.send_signal(signal.SIGTERM)
        report = call.communicate(timeout=30)[1]
        self.assertEqual(call.returncode, 143, report)
        self.assertRegex(report, r"thynvm: interrupted; what is proved is kept, and the next call goes on from there\n$")
        self.assertFalse(os.path.exists(f"/proc/{self.text('sleeps').strip()}"))
        self.assertLess(time.monotonic() - began, 10)

    def test_interrupt_of_a_build(self):
        self.interrupted("all", "build")

    def test_interrupt_of_an_answer_without_proof(self):
        self.file("file")
        self.interrupted("try", "run", "file")

    def test_progress_on_a_terminal(self):
        self.script("bin/rt", RT.replace("sleep 0.7", "sleep 1.2"))
        status, shown = Terminal(self, "build").end()
        self.assertEqual(status, 0)
        self.assertRegex(shown, r"\r\x1b\[Kthynvm: [12] of 3 crates are proved after [12] s")
        self.assertRegex(shown, r"\r\x1b\[Kthynvm: all 3 crates are proved, and the program thynvm is built, after \d s\n\Z")
