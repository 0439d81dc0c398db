"""tools/progress, beside a process that only waits, and with logs that are written for it."""

import subprocess
import sys
import time

from tests.support import ToolTest, loaded

LOG = "== one\nproved\n== two\n"


class Progress(ToolTest):
    tool = "progress"

    def test_help(self):
        self.has_help()

    def test_what_is_told(self):
        told = loaded("progress").told
        log = self.file("log", LOG)
        # Nothing works in the session of no process.
        self.assertEqual(told("thynvm", 3, -1, log, 59.9), "2 of 3 crates are proved after 59 s")
        self.file("log", f"{LOG}== three\n== summary\n")
        self.assertEqual(told("thynvm", 4, -1, log, 60), "3 of 4 crates are proved after 1 min 0 s")
        self.assertEqual(told("thynvm", 3, -1, log, 125), "all 3 crates are proved after 2 min 5 s; the program thynvm is being built")

    def test_what_is_under_way(self):
        told, log = loaded("progress").told, self.file("log", LOG)
        self.says(told, log, "b_crate", "2 of 9 crates are proved after 5 s; under way: b_crate")
        self.file("log")
        self.says(told, log, "b_crate", "0 of 9 crates are proved after 5 s; under way: b_crate")
        self.says(told, log, "thynvm", "0 of 9 crates are proved after 5 s; under way: a first look at all sources")

    def says(self, told, log, crate, wanted):
        """While a process of a session works on a crate, this is told."""
        command = [sys.executable, "-c", "import sys; print(flush=True); sys.stdin.read()", "--crate-name", crate]
        with subprocess.Popen(command, stdin=subprocess.PIPE, stdout=subprocess.PIPE, start_new_session=True) as work:
            work.stdout.readline()
            self.assertEqual(told("thynvm", 9, work.pid, log, 5), wanted)

    def test_its_end(self):
        began = time.monotonic()
        with subprocess.Popen(["sleep", "0.5"]) as work:
            # It is no child of this call, which sees its end all the same.
            call = subprocess.Popen([sys.executable, f"{self.tools}/progress", "thynvm", "3", str(work.pid), self.file("log")])
            work.wait()
            self.assertEqual(call.wait(20), 0)
        self.assertGreaterEqual(time.monotonic() - began, 0.5)

    def test_refusals(self):
        self.refuses("the following arguments are required: NAME, TOTAL, PROCESS, LOG")
        self.refuses("argument TOTAL: invalid positive value: '0'", "thynvm", 0, 1, "log")
