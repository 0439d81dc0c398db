"""tools/test itself, in a copy with tests of its own."""

import os
import shutil

from lib import repository
from tests.support import CopyTest

TESTS = '''import unittest
class Some(unittest.TestCase):
    def test_good(self):
        pass
    def test_bad(self):
        self.assertEqual(1, {number})
    @unittest.skip("a tool not installed")
    def test_left(self):
        pass
'''


class Test(CopyTest):
    tool = "test"

    def made(self, number):
        self.file("tools/tests/__init__.py")
        self.file("tools/tests/test_one.py", TESTS.format(number=number))
        self.file("tools/tests/test_two.py", TESTS.format(number=1))

    def test_help(self):
        self.has_help()

    def test_what_passes(self):
        self.made(1)
        left = "tests.test_{}.Some.test_left is left out: a tool not installed\n"
        self.prints(left.format("one") + left.format("two") + "4 passed, 0 failed\n")
        self.prints(left.format("two") + "2 passed, 0 failed\n", "two")

    def test_what_fails(self):
        self.made(2)
        done = self.call("one")
        self.assertIn("tests.test_one.Some.test_bad\nTraceback", done.out)
        self.assertEqual((done.out.splitlines()[-1], done.err, done.status), ("1 passed, 1 failed", "", 1))

    def test_parts_that_fail(self):
        self.file("tools/tests/__init__.py")
        parts = "    def test_bad(self):\n        for k in range(3):\n            with self.subTest(k=k):\n                self.assertEqual(k, 3)\n"
        good = "import unittest\nclass Some(unittest.TestCase):\n    def test_good(self):\n        pass\n"
        self.file("tools/tests/test_one.py", good + parts)
        done = self.call("one")
        self.assertEqual((done.out.splitlines()[-1], done.err, done.status), ("1 passed, 3 failed", "", 1))

    def test_a_class_that_cannot_begin(self):
        self.file("tools/tests/__init__.py")
        before = "    @classmethod\n    def setUpClass(cls):\n        raise OSError\n"
        self.file("tools/tests/test_one.py", f"import unittest\nclass Some(unittest.TestCase):\n{before}    def test_good(self):\n        pass\n")
        done = self.call("one")
        self.assertEqual((done.out.splitlines()[-1], done.err, done.status), ("0 passed, 1 failed", "", 1))

    def test_a_process_that_ends(self):
        self.file("tools/tests/__init__.py")
        self.file("tools/tests/test_one.py", "import os\n" + TESTS.format(number="os.kill(os.getpid(), 9)"))
        done = self.call("one")
        self.assertEqual(done.out, "tests.test_one: its process has ended, or that of other tests\n0 passed, 1 failed\n")
        self.assertEqual(done.status, 1)

    def test_refusals(self):
        self.made(1)
        self.refuses("there are no tests three", "three")
        self.refuses("argument --jobs: invalid positive value: '0'", "--jobs", 0)

    def test_every_script_has_tests(self):
        scripts = {name for name in os.listdir(repository.path("tools")) if shutil.which(repository.path("tools", name))}
        for name in scripts:
            self.assertTrue(os.path.exists(repository.path(f"tools/tests/test_{name.replace('-', '_')}.py")), name)
