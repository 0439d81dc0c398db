"""tools/kills, with a program that is a script, and with the program itself."""

import os

from tests.support import CopyTest, ToolTest, needs_program

# A program in one process, as a kill ends just that. With the limit 1000 the image has another content, and the status is 8.
PROGRAM = """exec python3 - "$@" <<'END'
import os, sys, time
old = sys.argv[sys.argv.index("--limit") + 1] == "1000"
text, name = "old" if old else "new", sys.argv[-1]
def write(path, text):
    with open(path, "w") as file:
        file.write(text)
{save}
sys.exit(8 if old else 0)
END
"""

# Saves by a file beside the name, which then gets it.
WHOLE = PROGRAM.format(save="""
write(name + ".thynvm-new", text)
time.sleep(0.05)
os.replace(name + ".thynvm-new", name)
""")

# Has such a file too, but writes over the image: first a part, then the whole.
IN_PLACE = PROGRAM.format(save="""
write(name + ".thynvm-new", "")
write(name, "half")
time.sleep(0.05)
write(name, text)
os.remove(name + ".thynvm-new")
""")


class Kills(CopyTest):
    tool = "kills"

    def test_help(self):
        self.has_help()

    def test_whole_images(self):
        self.program(WHOLE)
        done = self.call("--count", 8)
        self.assertRegex(done.out, r"\A8 saves of 3 bytes, \d of them killed: the old image stood there after \d, the new one after \d; ")
        self.assertEqual((done.err, done.status), ("", 0))

    def test_a_program_that_writes_in_place(self):
        self.program(IN_PLACE)
        done = self.call("--count", 20, env={**os.environ, "TMPDIR": self.folder})
        self.assertRegex(done.err, r"\Akills: after kill \d+ .* has \d+ bytes that are neither image\n\Z")
        self.assertEqual((done.out, done.status), ("", 1))

    def test_programs_that_end_otherwise(self):
        self.program("exit 3")
        os.mkdir(self.path("temporary"))
        done = self.call(env={**os.environ, "TMPDIR": self.path("temporary")})
        self.assertRegex(done.err, r"\Akills: .*/thynvm run .* --limit 1000000 --save .*: status 3\n\Z")
        self.assertEqual((done.out, done.status), ("", 2))
        # No case is kept, as none was wrong.
        self.assertEqual(os.listdir(self.path("temporary")), [])

    def test_refusals(self):
        self.refuses("unrecognized arguments: x", "x")
        self.refuses("argument --count: invalid positive value: 'x'", "--count", "x")
        self.refuses("argument --count: invalid positive value: '0'", "--count", 0)
        self.refuses("argument --pages: invalid positive value: '-8'", "--pages", -8)
        self.refuses("the program is not built; ./thynvm builds it")


@needs_program()
class WithTheProgram(ToolTest):
    tool = "kills"

    def test_some(self):
        done = self.call("--count", 10, "--pages", 64)
        self.assertRegex(done.out, r"\A10 saves of \d+ bytes, \d+ of them killed: ")
        self.assertEqual((done.err, done.status), ("", 0))
