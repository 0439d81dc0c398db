"""tools/unproved, with an rt that is a script: it prints its words, and the lines that `rt try` has at the end."""

import os
import time

from tests.support import CopyTest

# `rt help` has the words that are looked for; `rt try` says with which words it was called, and where.
RT = """case $1 in
help) echo 'rt try [--data NAME=FILE].. -- WORD..' ;;
*) {work} ;;
esac"""

ANSWERS = """printf 'epoch 1 ends at 3 by end\\rexit 7 at 3\\nchecked: ended status=0\\nrun=ended status=0 seconds=1\\n' >&2; echo "$@"; pwd"""


class Unproved(CopyTest):
    tool = "unproved"

    def setUp(self):
        super().setUp()
        for name in ("thynvm", "observe"):
            os.makedirs(self.path("crates", name, "out"))
        self.file("a.elf")
        self.file("in put")

    def answers(self, *words, work=ANSWERS, **more):
        """Calls it in the folder, and returns what it said. It prints nothing on standard output, and ends with 0."""
        done = self.call(*words, cwd=self.folder, env={**self.beside(rt=RT.format(work=work)), **more})
        self.assertEqual((done.out, done.status), ("", 0), done.err)
        return done.err

    def tried(self, words, *given):
        """The call is made, by these words of `rt try`."""
        said = self.answers("thynvm", *given).splitlines()
        crate = os.path.join(os.path.realpath(self.folder), "crates/thynvm")
        wanted = ["epoch 1 ends at 3 by end", "exit 7 at 3", f"try {words}", crate]
        self.assertEqual(said[1:-1], [f"not proved yet: {line}" for line in wanted])
        last = r"thynvm: that was the report, and then the terminal, without proof, after \d s; the status was 0"
        self.assertRegex(said[-1], last)
        return said[0]

    def test_help(self):
        self.has_help()

    def test_calls(self):
        first = "thynvm: the program thynvm is missing; first the call is made without proof"
        here = os.path.realpath(self.folder)
        for words, given in (
            ("-- bench 7 --pages 8", ["bench", "7", "--pages", "8"]),
            (f"--data a.elf={here}/a.elf -- run a.elf --digest", ["run", "a.elf", "--digest"]),
            (f"--data a.elf={here}/a.elf -- run --pages 8 a.elf b", ["run", "--pages", "8", "a.elf", "b"]),
            (f"--data a.elf={here}/a.elf -- plain -- a.elf --save", ["plain", "--", "a.elf", "--save"]),
            (f"--data a.elf={here}/a.elf --data in put={here}/in put -- run a.elf --input in put", ["run", "a.elf", "--input", "in put"]),
            (f"--data ./a.elf={here}/./a.elf -- compare ./a.elf", ["compare", "./a.elf"]),
            (f"-- run {here}/a.elf", ["run", f"{here}/a.elf"]),
        ):
            with self.subTest(given=given):
                self.assertEqual(self.tried(words, *given), first)
        self.file("crates/thynvm/out/thynvm")
        self.assertIn("the program thynvm is out of date; ", self.tried("-- bench 7", "bench", "7"))

    def test_names_that_are_changed(self):
        here = os.path.realpath(self.folder)
        for name in ("-a", "a=b", "program/a", "stdin", "crates/../a.elf"):
            with self.subTest(name=name):
                self.file(name)
                whole = f"{here}/{name}"
                said = self.tried(f"-- run --input={whole} -- {whole}", "run", f"--input={name}", "--", name)
                self.assertIn(f"without proof, with {whole} for {name}, with {whole} for {name}", said)

    def test_quiet(self):
        said = self.answers("--quiet", "thynvm", "bench", "7", work="printf 'cut 1 at cycle 9\\nlimit 5\\nrun=ended status=8 seconds=1\\n' >&2")
        self.assertNotIn("cut 1", said)
        self.assertIn("\nnot proved yet: limit 5\n", said)
        self.assertIn("; the status was 8\n", said)

    def test_obstacles(self):
        os.mkfifo(self.path("pipe"))
        only = "only run, plain, bench and compare are tried without it"
        for words, why in (
            ([], only),
            (["make", "7", "x"], only),
            (["resume", "i"], only),
            (["run", "a.elf", "--save", "i"], "--save writes a file"),
            (["run", "a.elf", "--save=i"], "--save writes a file"),
            (["run", "none"], "there is no file 'none'"),
            (["run", "."], "'.' is not a plain file"),
            (["run", "pipe"], "'pipe' is not a plain file"),
            (["run", "a.elf", "--input=none"], "there is no file 'none'"),
            (["run", "/proc/version"], "'/proc/version' may be there only once"),
        ):
            with self.subTest(words=words):
                wanted = f"thynvm: the program thynvm is missing; no answer comes before the proof: {why}\n"
                self.assertEqual(self.answers("thynvm", *words), wanted)
        wanted = "thynvm: the program observe is missing; no answer comes before the proof: observe writes a file\n"
        self.assertEqual(self.answers("observe", "out", "run", "a.elf"), wanted)
        said = self.call("thynvm", "bench", "7", env=self.beside(rt="echo rt check")).err
        self.assertIn("no answer comes before the proof: this kit's rt has no try --data\n", said)

    def test_no_answer(self):
        said = self.answers("thynvm", "bench", "7", work="echo 'error: wrong' >&2; echo run=refused >&2; exit 3")
        self.assertIn("\nthynvm: no answer without proof: rt try ended with status 3 (error: wrong)\n", said)
        began = time.monotonic()
        said = self.answers("thynvm", "bench", "7", work="sleep 60", THYNVM_ANSWER_SECONDS="1")
        self.assertIn("\nthynvm: no answer without proof: it was not there after 1 s\n", said)
        self.assertLess(time.monotonic() - began, 20)

    def test_refusals(self):
        said = "the program and the words of a call are wanted, as `unproved --help` says"
        self.refuses(said)
        self.refuses(said, "none", "run")
        wrong = {**os.environ, "THYNVM_ANSWER_SECONDS": "x"}
        self.refuses("THYNVM_ANSWER_SECONDS is not a number of seconds: x", "thynvm", "bench", "7", env=wrong)
