"""tools/debug, with a script in place of `observe`, and with the program itself and gdb."""

import os

from lib import cores, repository, written
from tests.support import CopyTest, ToolTest, needs, needs_observer

# Notes its words, and puts under OUT what is in the file that has the name of its option, or `plain`.
OBSERVER = """
echo "$*" >>calls
out=$1
shift
case $1 in
--state*) cat "asked$1" >"$out" ;;
*) cat asked >"$out" ;;
esac
echo 'trap 5 at 160' >&2
exit 1
"""

# A debugger that says what it was called with, and whether its core is there.
GDB = """
for core; do :; done
[ -s "$core" ] && echo "gdb $# $1 $2 $3"
"""

TRAPPED = written.CUTS.replace("1850 160 exit 0 at 160", "1850 160 trap 5 at 160")


class Debug(CopyTest):
    tool = "debug"

    def setUp(self):
        super().setUp()
        self.observer = self.program(OBSERVER, "observer")
        self.gdb = self.script("gdb", f"#!/bin/sh\n{GDB}")
        self.file("asked", TRAPPED)

    def debugs(self, text, *words, calls, **more):
        """The script prints this, and calls `observe` with these words behind OUT."""
        if os.path.exists(self.path("calls")):
            os.remove(self.path("calls"))
        self.prints(text, "FILE", *words, "--observer", self.observer, "--gdb", self.gdb, cwd=self.folder, **more)
        self.assertEqual([line.partition(" ")[2] for line in self.read("calls").splitlines()], calls)

    def refused(self, said, *words, **more):
        self.refuses(said, "FILE", *words, "--observer", self.observer, "--gdb", self.gdb, cwd=self.folder, **more)

    def asked(self, head, text=written.STATE):
        """What `observe` puts if it is asked for a state."""
        self.file(f"asked--{head.split()[0]}", f"{TRAPPED}{head}\n{text}")

    SAID = "count 125, running, console 12, input read 3, break 0x12a40\n"

    def test_help(self):
        self.has_help()

    def test_at_a_count(self):
        self.asked("state-at 125")
        said = f"{self.SAID}gdb 9 -q -nx -batch\n"
        self.debugs(said, "--at", 125, calls=["--state-at 125 run -- FILE"])
        calls = ["--state-at 125 run --pages=8 --digest -- FILE"]
        self.debugs(said, "--at", 125, "--pages", 8, "--digest", calls=calls)

    def test_in_a_cycle(self):
        self.asked("state 1340")
        calls = ["--state 1340 resume --cuts=100,1350 -- image"]
        self.debugs(f"{self.SAID}gdb 9 -q -nx -batch\n", "--at-cycle", 1340, "--cuts=100,1350", "--resume", "image", calls=calls)

    def test_at_the_trap(self):
        self.asked("state-at 160")
        self.debugs(f"{self.SAID}gdb 9 -q -nx -batch\n", "--at-trap", calls=["run -- FILE", "--state-at 160 run -- FILE"])
        self.asked("state-at 157")
        self.debugs(f"{self.SAID}gdb 9 -q -nx -batch\n", "--at-trap", "--back", 3, calls=["run -- FILE", "--state-at 157 run -- FILE"])

    def test_after_a_cut(self):
        # The second cut leads to a restart in cycle 1360, the first to a reload, with the commit of the loading in cycle 800.
        self.asked("state 1360")
        cut = "run --cuts=100,1350 --tears=0,7 -- FILE"
        said = f"{self.SAID}gdb 9 -q -nx -batch\n"
        self.debugs(said, "--cut", 1350, "--tear", 7, "--cuts=100", calls=[cut, f"--state 1360 {cut}"])
        self.asked("state 800")
        cut = "run --cuts=100 --tears=0 -- FILE"
        self.debugs(said, "--cut", 100, calls=[cut, f"--state 800 {cut}"])
        self.debugs(said, "--cut", 100, "--torn", calls=[f"--torn {cut}", f"--state 800 --torn {cut}"])

    def test_the_core(self):
        self.asked("state-at 5", written.STATE_OF_TWO)
        said = "count 5, trap 7, console 0, input read 0, break 0x11000\n"
        self.debugs(said, "--at", 5, "--core", "core", calls=["--state-at 5 run -- FILE"])
        one, two = [0] * 32, [0] * 32
        one[5], two[10] = 1, 16
        with open(self.path("core"), "rb") as file:
            # A store outside memory is SIGSEGV, 11.
            self.assertEqual(file.read(), cores.core(0x10000, bytes(16), [(0x10000, one), (0x10004, two)], 11))

    def test_refusals(self):
        self.asked("state-at 9", "none\n")
        self.refused("the run has no state at count 9", "--at", 9)
        self.asked("state 9", "none\n")
        self.refused("the run has no state after cycle 9: it has fewer cycles, or is in a boot then", "--at-cycle", 9)
        self.refused("the run trapped at 160, which is less than 161 instructions back", "--at-trap", "--back", 161)
        self.refused("no power was cut after cycle 99: the run ends before", "--cut", 99)
        self.refused("one of the arguments --at --at-cycle --at-trap --cut is required")
        self.refused("not allowed with argument", "--at", 5, "--at-trap")
        self.refused("--back goes with --at-trap", "--at", 5, "--back", 2)
        self.refused("--tear goes with --cut", "--at", 5, "--tear", 2)
        self.refused("invalid number value: '-5'", "--at", "-5")
        self.file("FILE", "x")
        self.refused("FILE is read, and is not written over", "--at", 125, "--core", "FILE")
        self.file("asked", written.CUTS)
        self.refused("the run does not trap: its last event is 'exit 0 at 160'", "--at-trap")
        self.file("asked", "what is this\n")
        self.refused("what `observe` has written cannot be read", "--at-trap")
        self.program("echo 'file 3 NotElf' >&2; exit 4", "observer")
        self.refused("`observe` ended with status 4: file 3 NotElf", "--at-trap")
        self.refuses("there is no program", "FILE", "--at", 5, "--observer", self.path("none"))

    def test_without_a_debugger(self):
        self.asked("state-at 125")
        done = self.call("FILE", "--at", 125, "--observer", self.observer, "--gdb", self.path("none"), cwd=self.folder)
        self.assertIn("is not installed; with --core CORE a core is written", done.err)
        self.assertEqual((done.out, done.status), (self.SAID, 2))


class DebugOfTheProgram(ToolTest):
    tool = "debug"

    @needs_observer
    @needs("gdb-multiarch")
    def test_three_instructions(self):
        # addi a7,zero,93; addi a0,zero,7; ecall: a7 is set after the first, and a0 after the second.
        elf = repository.example("exit_seven")
        done = self.call(elf, "--at", 1, "--pages", 8)
        self.assertEqual((done.err, done.status), ("", 0))
        self.assertRegex(done.out, r"(?m)^a7 +0x5d\b")
        self.assertRegex(done.out, r"(?m)^a0 +0x0\b")
        done = self.call(elf, "--at", 2, "--pages", 8)
        self.assertRegex(done.out, r"(?m)^a0 +0x7\b")
        self.assertRegex(done.out, r"(?m)^pc +0x10008\b")
