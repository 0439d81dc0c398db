"""Quick calls of a program, and the files of cases."""

import os
import signal

from lib import calls
from tests.support import ToolTest


class Calls(ToolTest):
    def setUp(self):
        super().setUp()
        # A call goes to the folder of its case, and one that does not end is given up at an alarm.
        self.addCleanup(os.chdir, os.getcwd())
        self.addCleanup(signal.signal, signal.SIGALRM, signal.signal(signal.SIGALRM, calls.give_up))

    def made(self, text, seconds=5, **more):
        return calls.call([self.script("program", f"#!/bin/sh\n{text}\n"), "a", "b c"], self.folder, seconds, **more)

    def test_an_answer(self):
        status, printed, report, used = self.made('cat; echo "$#: $2"; pwd >&2; exit 7')
        self.assertEqual((status, printed, report), (7, b"2: b c\n", f"{os.path.realpath(self.folder)}\n".encode()))
        self.assertTrue(0 <= used < 5)

    def test_nothing_is_left_of_the_call_before(self):
        self.made("echo a long line; echo another >&2")
        self.assertEqual(self.made("echo b")[:3], (0, b"b\n", b""))

    def test_other_outputs(self):
        with open("/dev/null", "wb") as sink:
            self.assertEqual(self.made("echo a; echo b >&2", printed=sink.fileno())[:3], (0, b"", b"b\n"))
            self.assertEqual(self.made("echo a; echo b >&2", report=sink.fileno())[:3], (0, b"a\n", b""))

    def test_signals(self):
        status = self.made("kill -s SEGV $$")[0]
        self.assertEqual((status, calls.fault_of(status, 5)), (-signal.SIGSEGV, "ended by signal 11"))
        self.assertEqual(calls.fault_of(3, 5), "")

    def test_too_much_processor_time(self):
        status = self.made("while :; do :; done", seconds=1)[0]
        self.assertEqual(calls.fault_of(status, 1), "no answer within 1 seconds of processor time")

    def test_what_is_wrong(self):
        calls.wants(True, "never said")
        for line, said in ((None, "it is not so"), ("reload", "it is not so: 'reload'")):
            with self.assertRaises(calls.Wrong) as wrong:
                calls.wants(False, "it is not so", line)
            self.assertEqual(str(wrong.exception), said)

    def test_files_of_a_case(self):
        self.file("case/program", "x")
        place = calls.kept(self.path("kept"), self.path("case"), "it is wrong", ["true", "sh -c 'exit 3'"])
        self.assertEqual(self.read("kept/repeat").splitlines()[:2], ["#!/bin/sh", "# it is wrong"])
        status, _, report, _ = calls.call([os.path.join(place, "repeat")], self.folder, 5)
        self.assertEqual((status, report), (0, b"status 0\nstatus 3\n"))
        os.mkdir(self.path("case/folder"))
        calls.empty(self.path("case"))
        self.assertEqual(os.listdir(self.path("case")), [])
