"""tools/first-run, in a repository whose first command takes two seconds."""

import os
import subprocess
import sys

from tests.support import CopyTest, needs

# What the first command writes, by the two lines that the script looks for.
THYNVM = """#!/bin/sh
echo "not proved yet: exit 7 at 3" >&2
echo "thynvm: that was the report, and then the terminal, without proof, after 1 s; the status was 0" >&2
sleep 1.1
echo "thynvm: proving and building the program" >&2
sleep 1.1
exit {status}
"""


@needs("git")
class FirstRun(CopyTest):
    tool = "first-run"

    def repository(self, status=0, page="Call it:\n\n    ./thynvm run a.elf\n"):
        self.script("thynvm", THYNVM.format(status=status))
        self.file("README.md", page)
        quiet = {**os.environ, "GIT_CONFIG_NOSYSTEM": "1", "HOME": self.folder}
        about = ["-c", "user.name=a", "-c", "user.email=a@example.org"]
        for words in (["init", "-q"], ["add", "README.md", "thynvm"], [*about, "commit", "-q", "-m", "a"]):
            subprocess.run(["git", *words], cwd=self.folder, env=quiet, check=True)
        return self.beside(rt="echo a-kit")

    def test_help(self):
        self.has_help()

    def test_what_is_measured(self):
        done = self.call(env=self.repository())
        lines = dict(line.split(": ", 1) for line in done.out.splitlines() if ": " in line)
        self.assertEqual(done.status, 0)
        self.assertEqual(lines["kit"], "a-kit")
        self.assertEqual(lines["answer without proof"], "0.0 minutes")
        self.assertEqual(lines["proving and building"], "0.0 minutes")
        self.assertIn("processors, ", lines["machine"])
        self.assertIn("thynvm: that was the report", done.err)

    def test_a_command_that_fails(self):
        done = self.call("--keep", env=self.repository(status=3))
        self.assertEqual(done.status, 1)
        self.assertIn("\nthe command ended with 3\n", done.out)
        clone = done.out.splitlines()[-1].split("the clone is ")[1]
        self.assertTrue(os.path.exists(os.path.join(clone, "README.md")))
        subprocess.run(["rm", "-r", os.path.dirname(clone)], check=True)

    def test_a_signal(self):
        os.mkdir(self.path("temporary"))
        env = {**self.repository(), "TMPDIR": self.path("temporary")}
        command = [sys.executable, f"{self.tools}/first-run"]
        with subprocess.Popen(command, env=env, stdout=subprocess.PIPE, stderr=subprocess.PIPE, text=True) as call:
            self.assertEqual(call.stderr.readline(), "not proved yet: exit 7 at 3\n")
            call.terminate()
            call.communicate(timeout=60)
        # The clone is removed.
        self.assertEqual((call.returncode, os.listdir(self.path("temporary"))), (143, []))

    def test_refusals(self):
        self.refuses("unrecognized arguments: x", "x")
        self.refuses("rt is not in PATH", env=self.without("git"))
        self.refuses("cannot be cloned", env=self.beside(rt="echo a-kit"))
        self.refuses("README.md has no command ./thynvm", env=self.repository(page="Call it.\n"))
