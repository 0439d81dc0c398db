"""tools/instructions. What it prints is compared where its tools are installed: with the file that was made of it."""

import re

from lib import repository
from tests.support import CopyTest, ToolTest, needs

TOOLS = ("riscv64_linux_gnu_as", "riscv64_linux_gnu_ld", "riscv64_linux_gnu_objcopy", "riscv64_linux_gnu_objdump", "qemu_riscv64")

FILE = "crates/thy_format_tests/src/isa_rows.rt"


def without_layout(text):
    """The text with one blank between its words, none inside brackets, and no comma before what closes; rt fmt changes no more
    than that."""
    return re.sub(r",? (?=[\])])|(?<=[\[(]) |,(?=[\])])", "", " ".join(text.split()))


class Instructions(CopyTest):
    tool = "instructions"

    def test_help(self):
        self.has_help()

    def test_refusals(self):
        self.refuses("unrecognized arguments: x", "x")
        said = "riscv64-linux-gnu-as, riscv64-linux-gnu-ld, riscv64-linux-gnu-objcopy, riscv64-linux-gnu-objdump, qemu-riscv64 not in PATH"
        self.refuses(said, env=self.without())

    def test_a_tool_that_fails(self):
        env = self.beside(**{tool: "echo one line >&2; echo it is not so >&2; exit 3" for tool in TOOLS})
        self.refuses("riscv64-linux-gnu-as has failed: one line it is not so", status=1, env=env)


@needs("riscv64-linux-gnu-as", "riscv64-linux-gnu-ld", "riscv64-linux-gnu-objcopy", "riscv64-linux-gnu-objdump", "qemu-riscv64")
class WithTheTools(ToolTest):
    tool = "instructions"

    def test_the_tables(self):
        done = self.call()
        self.assertEqual((done.err, done.status), ("", 0))
        self.assertEqual(without_layout(done.out), without_layout(repository.text_of(FILE)))
