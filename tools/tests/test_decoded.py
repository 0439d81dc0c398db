"""Instruction words as an assembler writes them: by the encoders of lib/guest.py, and by objdump where it is installed."""

import re
import subprocess

from lib import decoded
from lib.guest import A0, A1, EBREAK, LR, RA, SC, SP, SWAP, T0, ZERO, addi, atomic, bne, branch, code_of, jal, jalr, load, store
from tests.support import ToolTest, needs

OBJDUMP = "riscv64-unknown-elf-objdump"

# Words at the address 65536, with what they are.
WORDS = (
    (load(3, A0, SP, 8), "ld a0,8(sp)"),
    (load(0, A1, T0, -1), "lb a1,-1(t0)"),
    (load(6, A1, A0), "lwu a1,0(a0)"),
    (store(3, RA, SP, 40), "sd ra,40(sp)"),
    (store(0, A1, A0, -2048), "sb a1,-2048(a0)"),
    (jalr(RA, T0, 4), "jalr ra,4(t0)"),
    (jal(ZERO, -28), "jal zero,ffe4"),
    (jal(RA, 2048), "jal ra,10800"),
    (bne(A0, A1, 16), "bne a0,a1,10010"),
    (branch(7, A0, ZERO, -4096), "bgeu a0,zero,f000"),
    (atomic(LR, 2, T0, ZERO, A0), "lr.w t0,(a0)"),
    (atomic(SC, 3, T0, A1, A0), "sc.d t0,a1,(a0)"),
    (atomic(SWAP, 3, ZERO, A1, A0), "amoswap.d zero,a1,(a0)"),
    (EBREAK, "ebreak"),
)


class Decoded(ToolTest):
    def test_words(self):
        for word, text in WORDS:
            self.assertEqual(decoded.shown(word, 65536), text)

    def test_other_words(self):
        # Neither of them traps: an addition, a word of no instruction, atomic words of no width or no kind, a load of no width.
        for word in (addi(A0, A0, 1), 0, atomic(LR, 1, T0, ZERO, A0), atomic(5, 2, T0, A1, A0), load(7, A0, A0), store(4, A0, A0)):
            self.assertIsNone(decoded.shown(word, 65536))

    @needs(OBJDUMP)
    def test_as_an_assembler(self):
        name = self.file("words", code_of([word for word, _ in WORDS]))
        command = [OBJDUMP, "-D", "-b", "binary", "-m", "riscv:rv64", "-M", "no-aliases", "--adjust-vma=65536", name]
        done = subprocess.run(command, capture_output=True, text=True, check=True)
        rows = re.findall(r"^ *([0-9a-f]+):\t([0-9a-f]{8}) +\t(\S+)(?:\t(\S+))?", done.stdout, re.MULTILINE)
        self.assertEqual(len(rows), len(WORDS))
        for at, word, name, operands in rows:
            # A target stands there as 0x10010.
            said = f"{name} {operands}".strip().replace(",0x", ",")
            self.assertEqual(decoded.shown(int(word, 16), int(at, 16)), said)
