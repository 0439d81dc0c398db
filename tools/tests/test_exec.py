"""tools/exec, with a program that is a script, and with the program itself."""

import signal

from lib import repository
from tests.support import CopyTest, ToolTest, needs_program

# Prints its words, each in brackets, and in place of the input's name what is in it; then exits with 7.
PROGRAM = """
for word; do
    case $word in
    --input=*) cat "${word#--input=}" ;;
    *) echo "[$word]" ;;
    esac
done
echo 'commit 0 overlapped 0
exit 7 at 3' >&2
"""


class Exec(CopyTest):
    tool = "exec"

    def setUp(self):
        super().setUp()
        self.program(PROGRAM)

    def test_help(self):
        self.has_help()

    def test_words_are_the_input(self):
        out = "[run]\none\ntwo three\n\n-x\n--pages\n[--]\n[FILE]\n"
        self.prints(out, "FILE", "one", "two three", "", "-x", "--pages", status=7)
        self.prints("[run]\n[--]\n[FILE]\n", "FILE", status=7)
        self.prints("[run]\nä\n[--]\n[FILE]\n", "FILE", "ä", status=7)

    def test_options(self):
        out = "[plain]\n[--pages=512]\n[--digest]\nFILE\n--report\n[--]\n[-f]\n"
        self.prints(out, "--digest", "--plain", "--pages", "512", "--", "-f", "FILE", "--report", status=7)
        self.prints("[run]\n[--cuts=5,9]\n[--save=x]\n[--]\n[FILE]\n", "--cuts=5,9", "--save", "x", "FILE", status=7)

    def test_the_report(self):
        done = self.call("--report", "FILE")
        self.assertEqual((done.err, done.status), ("commit 0 overlapped 0\nexit 7 at 3\n", 7))

    def test_exit_values(self):
        for value in (0, 1, 2, 125, 255):
            self.program(f"echo 'exit {value} at 9\nmemory {'0' * 64}' >&2")
            self.prints("", "FILE", status=value)

    def test_traps(self):
        # By docs/MACHINE.md: of jumps, fetches, instructions, EBREAK, loads, stores and their alignments.
        for trap, status in enumerate((135, 139, 132, 133, 135, 139, 135, 139)):
            self.program(f"echo out; echo 'trap {trap} at 30' >&2; exit 1")
            done = self.call("FILE")
            self.assertEqual((done.out, done.err), ("out\n", f"exec: the program trapped: trap {trap} at 30\n"))
            self.assertEqual(done.status, status)

    def test_no_end(self):
        for text, said in (
            ("echo 'epoch 1 ends at 5 by length\nlimit 9' >&2; exit 8", "the call ended with status 8: limit 9"),
            ("echo 'value pages 3' >&2; exit 2", "the call ended with status 2: value pages 3"),
            ("echo 'exit 0 at 5\nput x failed' >&2; exit 3", "the call ended with status 3: put x failed"),
            ("exit 6", "the call ended with status 6"),
            ("kill -KILL $$", f"the call was ended by signal {int(signal.SIGKILL)}"),
        ):
            self.program(text)
            self.refuses(said, "FILE", status=125)

    def test_refusals(self):
        self.refuses("the following arguments are required: FILE")
        self.refuses("this has a line feed, and is to be one line of the input: 'a\\nb'", "FILE", "a\nb")
        self.refuses("unrecognized arguments: --input", "--input", "FILE")
        self.refuses("unrecognized arguments: --page", "--page=3", "FILE")
        self.refuses("--pages: expected one argument", "--pages")
        self.refuses("there is no program /none: a call of ./thynvm builds it", "--program", "/none", "FILE")


@needs_program()
class WithTheProgram(ToolTest):
    tool = "exec"

    def test_examples(self):
        self.prints("", repository.SMALLEST, status=7)
        greeted = "".join(f"{k} Hello, Bo!\n" for k in range(10))
        for words in (["--plain"], ["--epoch", "120", "--cuts", "1500,2200", "--tears", "0,1"]):
            self.prints(greeted, *words, "--pages", "8", repository.example("greet"), "Bo", status=2)

    def test_refusals(self):
        self.refuses("the call ended with status 3: fetch", self.path("none"), status=125)
        self.refuses("the call ended with status 8: limit 1", "--limit", "1", repository.SMALLEST, status=125)
