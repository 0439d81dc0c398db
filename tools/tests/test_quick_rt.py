"""tools/quick-rt, with an rt that is a script, and with a kit of three crates."""

import os
import subprocess

from tests.support import CopyTest, loaded

# A kit as tools/quick-rt knows it: crates by folder, of which each sum reads those below again.
RTLIB = '''
import sys
READ = []
class Crate:
    def __init__(self, folder, deps=()):
        self.folder, self.deps = folder, deps
    def stamp(self):
        READ.append(self.folder)
        return [dep.stamp() for dep in self.deps], self.folder
    def front_end(self):
        return 5
    def below(self):
        return self.deps
def help_of(word):
    return ""
'''

RT = '''#!/usr/bin/env python3
import os, sys
sys.path.insert(0, os.path.dirname(os.path.realpath(__file__)))
import rtlib
def main(words):
    low = rtlib.Crate("low")
    top = rtlib.Crate("top", [rtlib.Crate("left", [low]), rtlib.Crate("right", [low])])
    print(words, top.stamp(), rtlib.READ, top.front_end())
    return 3
if __name__ == "__main__":
    sys.exit(main(sys.argv[1:]))
'''

STAMP = "([([([], 'low')], 'left'), ([([], 'low')], 'right')], 'top')"


class Crate:
    """A crate as the kit has it."""

    def __init__(self, folder, deps):
        self.folder, self.deps = folder, deps

    def below(self):
        return {crate for dep in self.deps for crate in (dep, *dep.below())}


class QuickRt(CopyTest):
    tool = "quick-rt"

    def kit(self):
        self.script("bin/rt", RT)
        self.file("bin/rtlib.py", RTLIB)
        return {**os.environ, "PATH": f"{self.path('bin')}:{os.environ['PATH']}"}

    def test_help(self):
        done = self.call("--help")
        self.assertEqual((done.err, done.status), ("", 0))
        self.assertIn("Exit status: that of rt; 2 if", done.out)

    def test_each_crate_is_read_once(self):
        self.prints(f"['check', '--x'] {STAMP} ['top', 'left', 'low', 'right'] 5\n", "check", "--x", status=3, env=self.kit())

    def test_the_kit_by_itself(self):
        # What the same call reads without the script: low twice.
        done = subprocess.run([self.path("bin/rt"), "check"], env=self.kit(), capture_output=True, text=True)
        self.assertEqual(done.stdout, f"['check'] {STAMP} ['top', 'left', 'low', 'right', 'low'] 5\n")

    def test_flags(self):
        flags = ["--no-first-look", "--statements"]
        self.prints(f"['check'] {STAMP} ['top', 'left', 'low', 'right'] 0\n", *flags, "check", status=3, env=self.kit())

    def test_another_kit_is_called_as_it_is(self):
        self.prints("another: check -x\n", "--longest-way", "check", "-x", status=4, env=self.beside(rt='echo "another: $*"; exit 4'))

    def test_several_crates(self):
        # Three for each processor, and none without 2,500 MB that are free; but at least one.
        script = loaded("quick-rt")
        for processors, free, number in ((4, 30000, 12), (4, 29999, 11), (4, 100000, 12), (1, 2500, 1), (2, 0, 1)):
            self.assertEqual(script.workers(processors, free), number)
        env = self.beside(rt='case $1 in help) echo "rt all check --jobs N" ;; *) echo "another: $*" ;; esac')
        self.assertRegex(self.call("--several-crates", "all", "check", env=env).out, r"\Aanother: all check --jobs [1-9]\d*\n\Z")
        self.prints("another: all check\n", "--several-crates", "all", "check", env=self.beside(rt='echo "another: $*"'))

    def test_free_memory(self):
        script = loaded("quick-rt")
        proc = self.file("meminfo", "MemTotal: 9000000 kB\nMemAvailable:    8192000 kB\n")
        groups = self.path("groups")
        self.assertEqual(script.free_memory(proc, groups), 8000)
        self.file("groups/memory.max", "max\n")
        self.file("groups/memory.stat", f"file 5\nanon {1000 << 20}\nanon_thp 7\n")
        self.assertEqual(script.free_memory(proc, groups), 8000)
        self.file("groups/memory.max", f"{5000 << 20}\n")
        self.assertEqual(script.free_memory(proc, groups), 4000)
        self.file("groups/memory/memory.limit_in_bytes", f"{3000 << 20}\n")
        self.file("groups/memory/memory.stat", f"total_rss {500 << 20}\n")
        self.assertEqual(script.free_memory(proc, groups), 2500)
        self.assertEqual(script.free_memory(self.path("none"), self.path("none")), 0)

    def test_longest_ways(self):
        # A crate without code counts 8,000; right has 8,000 bytes of it. So the way through right is 32,000, that through left 24,000.
        script = loaded("quick-rt")
        crates = {}
        for name, deps in (("low", []), ("left", ["low"]), ("right", ["low"]), ("top", ["left", "right"])):
            crates[name] = Crate(self.path(name), [crates[dep] for dep in deps])
        self.file("right/src/lib.rt", "x" * 8000)
        self.file("right/src/notes.txt", "x" * 8000)
        ways = script.longest_ways(list(crates.values()))
        wanted = {"low": 1, "left": 0.75, "right": 1, "top": 1}
        self.assertEqual(ways, {self.path(name): way for name, way in wanted.items()})

    def test_refusals(self):
        self.refuses("the words of a call of rt are wanted, as `quick-rt --help` says")
        self.refuses("rt is not in PATH", "check", env=self.without())
