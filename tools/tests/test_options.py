"""Options, refusals, and how a script ends."""

import io
import tempfile
import unittest
from contextlib import redirect_stderr, redirect_stdout

from lib import options
from lib.options import Parser, Refused, finish, positive, seconds


def call(work):
    """What some work writes on both outputs, and its status or the one that it exits with."""
    out, err = io.StringIO(), io.StringIO()
    with redirect_stdout(out), redirect_stderr(err):
        try:
            status = work()
        except SystemExit as end:
            status = end.code
    return out.getvalue(), err.getvalue(), status


def refuse(text="it is not so"):
    raise Refused(text)


class Options(unittest.TestCase):
    def parser(self):
        parser = Parser("tool", "Does a thing.\n\nExit status: 0.")
        parser.add_argument("--many", type=positive)
        parser.add_argument("file")
        return parser

    def test_refusals_have_a_line(self):
        for words, said in (
            ([], "the following arguments are required: file"),
            (["a", "b"], "unrecognized arguments: b"),
            (["a", "--many", "0"], "argument --many: invalid positive value: '0'"),
            (["a", "--many", "x\ny"], "argument --many: invalid positive value: 'x\\ny'"),
            (["a", "--many"], "argument --many: expected one argument"),
        ):
            with self.subTest(words=words):
                self.assertEqual(call(lambda: self.parser().parse_args(words)), ("", f"tool: {said}\n", 2))

    def test_help_keeps_its_lines(self):
        out, err, status = call(lambda: self.parser().parse_args(["--help"]))
        self.assertEqual((err, status), ("", 0))
        self.assertIn("\nDoes a thing.\n\nExit status: 0.\n", out)

    def test_a_program_that_is_not_there(self):
        said = "tool: there is no program /none/thynvm: a call of ./thynvm builds it\n"
        self.assertEqual(call(lambda: self.parser().check_program("/none/thynvm")), ("", said, 2))

    def test_positive(self):
        self.assertEqual(positive("12"), 12)
        for text in ("0", "-3", "x", ""):
            with self.assertRaises(ValueError):
                positive(text)

    def test_seconds(self):
        self.assertEqual(seconds("0.5"), 0.5)
        for text in ("0", "-1", "nan", "inf", "x"):
            with self.assertRaises(ValueError):
                seconds(text)

    def test_what_has_several_lines_is_said_in_one(self):
        said = "\nline 0: it is not so\n\n  and ends\n"
        self.assertEqual(call(lambda: finish("tool", lambda: refuse(said), 1)), ("", "tool: line 0: it is not so and ends\n", 1))
        self.assertEqual(call(lambda: self.parser().error("a\nb")), ("", "tool: a b\n", 2))

    def test_how_a_script_ends(self):
        self.assertEqual(call(lambda: finish("tool", lambda: 5, 2)), ("", "", 5))
        self.assertEqual(call(lambda: finish("tool", refuse, 2)), ("", "tool: it is not so\n", 2))
        self.assertEqual(call(lambda: finish("tool", refuse, 1)), ("", "tool: it is not so\n", 1))

    def test_files_that_cannot_be_read(self):
        with tempfile.NamedTemporaryFile() as file:
            file.write(b"\xff")
            file.flush()
            for name, why in (("/none/file", ".*/none/file.*"), (file.name, ".*can't decode byte 0xff.*")):
                out, err, status = call(lambda: finish("tool", lambda: options.lines_of(name, "the list"), 1))
                self.assertEqual((out, status), ("", 1))
                self.assertRegex(err, rf"\Atool: the list cannot be read: {why}\n\Z")

    def test_lines(self):
        with tempfile.NamedTemporaryFile() as file:
            file.write(b"a b\n\nc")
            file.flush()
            self.assertEqual(options.lines_of(file.name, "the list"), ["a b", "", "c"])
