"""tools/examples, with a program that is a script, and with the program itself."""

import subprocess

from lib import report, repository
from tests.support import CopyTest, ToolTest, loaded, needs_program

ZEROS = "0" * 64

# A program that exits with 7, also through the two cuts of exit_seven in the table of the script.
PROGRAM = f"""
[ "$1" != run ] || echo 'cut 1 at cycle 721
restart 0 at 0
cut 2 at cycle 726
restart 0 at 0' >&2
echo 'exit 7 at 3
memory {ZEROS}' >&2
"""

LEFT = """exit_seven: build is left out: riscv64-unknown-elf-gcc is not installed
exit_seven: qemu is left out: qemu-riscv64 does not load it
"""


class Examples(CopyTest):
    tool = "examples"

    def setUp(self):
        super().setUp()
        self.stub = self.program(PROGRAM)
        self.examples()

    def try_out(self, *names, text=PROGRAM):
        self.program(text)
        return self.call(*names, env=self.without("cat"))

    def test_help(self):
        self.has_help()

    def test_one_that_agrees(self):
        done = self.try_out("exit_seven")
        self.assertEqual((done.out, done.err, done.status), (f"{LEFT}exit_seven: plain, cuts agree\n", "", 0))

    def test_others_that_do_not(self):
        plain = "exit_seven: plain: it does not exit with 7: status 0, exit 8 at 3; memory 0"
        cuts = "exit_seven: cuts: --btt 8 --ptt 8 --cuts 721,726 --tears 0,0: "
        for text, said in (
            (PROGRAM.replace("exit 7", "exit 8"), plain),
            (f"echo x\n{PROGRAM}", "exit_seven: plain: it prints something else"),
            (PROGRAM.replace("cut 2 at cycle 726\n", ""), f"{cuts}the run ended before its last cut"),
            (f"{PROGRAM}\n[ $1 = plain ] || exit 3", f"{cuts}status 3, exit 7 at 3; memory {ZEROS}, and not exit 7 at 3; memory {ZEROS}"),
            (PROGRAM.replace("restart 0 at 0", "reload"), "exit_seven: cuts: no run went on from a checkpoint"),
        ):
            done = self.try_out("exit_seven", text=text)
            with self.subTest(said=said):
                self.assertIn(said, done.out)
                self.assertEqual((done.err, done.status), ("", 1))

    def test_one_of_several_in_a_folder(self):
        cuts = "".join(f"cut {k} at cycle {c}\n" for k, c in ((1, 100000), (2, 500000), (3, 1000000)))
        text = f"""echo 'checksum 4ce11d305b122e51'
[ "$1" != run ] || echo '{cuts}restart 1 at 5' >&2
echo 'exit 0 at 9
memory {ZEROS}' >&2
"""
        done = self.try_out("random", text=text)
        self.assertIn("random: plain, cuts agree\n", done.out)
        self.assertEqual(done.status, 0)
        # This is the line of another program in the folder.
        done = self.try_out("streaming", text=text)
        self.assertIn("streaming: plain: it prints something else\n", done.out)
        self.assertEqual(done.status, 1)

    def test_what_builds_a_program(self):
        tool = loaded("examples")
        commands = {example.name: tool.command_of(example) for example in tool.TABLE}
        self.assertEqual(commands["hello"], "    ../runtime/cc -o hello.elf hello.c\n")
        self.assertEqual(commands["random"], "    ../runtime/cc -o random.elf random.c\n")
        self.assertEqual(commands["hash_table_16"], "    ../runtime/cc -DVALUE=16 -o hash_table_16.elf requests.c hash_table.c\n")
        # It has several lines, and the runtime without its memory.c.
        lines = commands["red_black_tree_4096_bytes"].splitlines()
        self.assertEqual((len(lines), lines[-1]), (3, "        requests.c red_black_tree.c"))
        self.assertNotIn("memory.c", commands["red_black_tree_4096_bytes"])

    def test_a_pair(self):
        # With two harts there is no `plain`; what it prints is its file `output`.
        output = repository.example("two_harts", "output")
        text = f"cat {output}\ncase \"$*\" in *--cuts*) echo 'cut 1 at cycle 5000\ncut 2 at cycle 9000' >&2 ;; esac\necho 'exit 0 at 3\nmemory {ZEROS}' >&2\n"
        done = self.try_out("two_harts", text=text)
        self.assertIn("two_harts: pair agree\n", done.out)
        self.assertEqual(done.status, 0)

    def test_what_rust_needs(self):
        tool = loaded("examples")
        made = tool.rustc
        tool.RUST = "0.1.2"
        self.assertEqual(made(), "")
        self.assertEqual(tool.missing_rust(), "rustc 0.1.2 is not installed")
        tool.rustc = lambda: "rustc"
        tool.RUST_SOURCE = self.path("none")
        self.assertEqual(tool.missing_rust(), "rust-src is not installed")
        tool.RUST_SOURCE = self.folder
        self.assertEqual(tool.missing_rust(), "")

    def test_refusals(self):
        self.refuses("there is no example none, other", "other", "none", "hello")
        self.refuses("there is no program /none: a call of ./thynvm builds it", "--program", "/none")
        self.refuses("unrecognized arguments: -x", "-x")


@needs_program()
class WithTheProgram(ToolTest):
    tool = "examples"

    def test_some(self):
        done = self.call("exit_seven", "greet")
        self.assertRegex(done.out, r"(?m)^exit_seven: .*plain, cuts agree$")
        self.assertRegex(done.out, r"(?m)^greet: .*plain, cuts agree$")
        self.assertEqual((done.err, done.status), ("", 0))

    def test_those_of_other_kinds(self):
        # For two harts with a library, in C++, in Rust, over an input that grows, and the one of docs/DEBUGGING.md.
        names = ("accounts", "checksums", "tally", "sums")
        done = self.call("primes", *names)
        for line in ("primes: .*pair", *(f"{name}: .*plain, cuts" for name in names)):
            self.assertRegex(done.out, rf"(?m)^{line} agree$")
        self.assertEqual((done.err, done.status), ("", 0))

    def test_an_input_that_grows(self):
        # Each call has one part more of the input, and goes on from what the one before has saved, the last through a cut.
        program, image, source = repository.example("tally"), self.path("image"), self.path("input")
        printed = []
        for command, part, words, status in (
            (["run", program], "first", ["--limit", "60000", "--save", image], 8),
            (["resume", image], "second", ["--limit", "40000", "--save", image], 8),
            (["resume", image], "third", ["--cuts", "3000"], 0),
        ):
            with open(repository.example("tally", part), "rb") as more, open(source, "ab") as file:
                file.write(more.read())
            call = [repository.PROGRAM, *command, "--pages", "32", "--input", source, *words]
            done = subprocess.run(call, capture_output=True, text=True)
            self.assertEqual(done.returncode, status, done.stderr)
            printed.append(done.stdout)
        self.assertEqual(printed, ["5\n12\n", "5\n12\n10\n110\n", "5\n12\n10\n110\n111\nthat is all\n"])
        self.assertEqual(report.events(done.stderr.splitlines(), report.Cut), [report.Cut(1, 3000)])
        plain = [repository.PROGRAM, "plain", program, "--input", repository.example("tally", "whole")]
        self.assertEqual(printed[-1], subprocess.run(plain, capture_output=True, text=True).stdout)
