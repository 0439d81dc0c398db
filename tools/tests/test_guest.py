"""Instruction words, program files and the made program."""

import re
import struct
import unittest

from lib import guest, repository
from lib.guest import T0, T1, T2, T6, ZERO, Code, elf, made_file, made_places


def by_assembler():
    """The words that riscv64-linux-gnu-as made, by their instructions: the comments of isa_rows.rt."""
    rows = re.findall(r"^ *\(0x([0-9a-f]{8}), .*\), // (.*)$", repository.text_of("crates/thy_format_tests/src/isa_rows.rt"), re.M)
    return {text: int(word, 16) for word, text in rows}


# Instructions of isa_rows.rt, and calls that have to give the same words. x7 is t2, x5 is t0, x6 is t1.
WORDS = {
    "add x7, x5, x6": guest.add(T2, T0, T1),
    "xor x7, x5, x6": guest.xor(T2, T0, T1),
    "mul x7, x5, x6": guest.mul(T2, T0, T1),
    "remu x7, x5, x6": guest.remu(T2, T0, T1),
    "subw x7, x5, x6": guest.op((0x3B, 0, 32), T2, T0, T1),
    "add x31, x31, x0": guest.add(T6, T6, ZERO),
    "addi x7, x5, -2048": guest.addi(T2, T0, -2048),
    "addi x7, x5, 2047": guest.addi(T2, T0, 2047),
    "andi x7, x5, -2048": guest.andi(T2, T0, -2048),
    "ori x7, x5, 2047": guest.ori(T2, T0, 2047),
    "slli x7, x5, 63": guest.slli(T2, T0, 63),
    "srli x7, x5, 1": guest.srli(T2, T0, 1),
    "addiw x7, x5, 2047": guest.op_imm(0x1B, 0, T2, T0, 2047),
    "lui x7, 0xfffff": guest.lui(T2, 0xFFFFF),
    "lui x7, 0x7ffff": guest.lui(T2, 0x7FFFF),
    "auipc x7, 0x12345": guest.auipc(T2, 0x12345),
    "beq x5, x6, .-4096": guest.beq(T0, T1, -4096),
    "bne x5, x6, .+4092": guest.bne(T0, T1, 4092),
    "bgeu x5, x6, .+2048": guest.branch(7, T0, T1, 2048),
    "jal x7, .-1048576": guest.jal(T2, -1048576),
    "jal x7, .+1048572": guest.jal(T2, 1048572),
    "jal x7, .+2048": guest.jal(T2, 2048),
    "jalr x7, -2048(x5)": guest.jalr(T2, T0, -2048),
    "jalr x7, 2044(x5)": guest.jalr(T2, T0, 2044),
    "lb x7, 0(x5)": guest.load(0, T2, T0),
    "ld x7, 0(x5)": guest.load(3, T2, T0),
    "lwu x7, 0(x5)": guest.load(6, T2, T0),
    "sb x6, 0(x5)": guest.store(0, T1, T0),
    "sd x6, 0(x5)": guest.store(3, T1, T0),
    "lr.w.rl x7, (x5)": guest.atomic(guest.LR, 2, T2, 0, T0, 1),
    "sc.d.aq x7, x6, (x5)": guest.atomic(guest.SC, 3, T2, T1, T0, 2),
    "amoswap.w x7, x6, (x5)": guest.atomic(guest.SWAP, 2, T2, T1, T0),
    "amoadd.d.aqrl x7, x6, (x5)": guest.atomic(guest.AMOS["add"], 3, T2, T1, T0, 3),
    "amomaxu.d x7, x6, (x5)": guest.atomic(guest.AMOS["maxu"], 3, T2, T1, T0),
    "fence.i": guest.FENCE_I,
}


class Instructions(unittest.TestCase):
    def test_words_of_an_assembler(self):
        known = by_assembler()
        for text, word in WORDS.items():
            with self.subTest(text=text):
                self.assertEqual(word, known[text])

    def test_opcodes(self):
        # Those of all words of the assembler but the atomic ones, and that of ecall, which has no comment there.
        self.assertEqual({word & 0x7F for word in by_assembler().values()} - {0x2F} | {0x73}, set(guest.OPCODES))

    def test_offsets_of_stores(self):
        # sd t0,-8(sp); sw t1,2047(t0); sb zero,-2048(a0)
        stores = guest.store(3, T0, guest.SP, -8), guest.store(2, T1, T0, 2047), guest.store(0, ZERO, guest.A0, -2048)
        self.assertEqual(stores, (0xFE513C23, 0x7E62AFA3, 0x80050023))

    def test_numbers(self):
        # addi t0,zero,-1; and lui t0,1 with addiw t0,t0,-2048.
        for value, wanted in ((-1, [0xFFF00293]), (2**64 - 1, [0xFFF00293]), (2048, [0x000012B7, 0x8002829B])):
            code = Code(65536)
            code.number(T0, value)
            self.assertEqual(code.words, wanted)

    def test_any_numbers(self):
        for value in (0, 5, 2047, 2048, -2049, 2**31 - 1, -(2**31), 2**31, 2**32, 0x123456789ABCDEF0, 2**63, 2**63 - 1):
            code = Code(65536)
            code.number(T0, value)
            with self.subTest(value=value):
                self.assertEqual(computed(code.words), value % 2**64)

    def test_a_branch_over_what_follows(self):
        code = Code(65536)
        hole = code.hole()
        code.put(guest.ECALL, guest.ECALL)
        code.fill(hole, 1, T0, ZERO)
        self.assertEqual(code.words[0], guest.bne(T0, ZERO, 12))
        code.go(ZERO, 65536)
        self.assertEqual(code.words[3], guest.jal(ZERO, -12))
        self.assertEqual(code.here, 65536 + 16)


def computed(words):
    """What x5 has after addi, lui, addiw and slli of x5, by the manual."""
    number = 0
    for word in words:
        immediate = (word >> 20) - (4096 if word >> 31 else 0)
        opcode, three, source = word & 0x7F, word >> 12 & 7, word >> 15 & 31
        old = number if source == T0 else 0
        assert word >> 7 & 31 == T0
        if opcode == 0x37:
            number = (word & 0xFFFFF000) - (2**32 if word >> 31 else 0)
        elif opcode == 0x13 and three == 1:
            number = number << (word >> 20 & 63)
        elif opcode == 0x13:
            number = old + immediate
        else:
            assert opcode == 0x1B
            number = (old + immediate) % 2**32
            number -= 2**32 if number >> 31 else 0
        number %= 2**64
    return number


class Files(unittest.TestCase):
    def test_a_file_of_two_segments(self):
        data = elf(65540, [(65536, b"abcd", 0), (69632, b"xy", 4096)])
        self.assertEqual(data[:16], bytes.fromhex("7f454c46020101") + bytes(9))
        self.assertEqual(struct.unpack_from("<HHIQQ", data, 16), (2, 243, 1, 65540, 64))
        self.assertEqual(struct.unpack_from("<HHH", data, 52), (64, 56, 2))
        # p_type, p_flags, p_offset, p_vaddr, p_paddr, p_filesz, p_memsz
        self.assertEqual(struct.unpack_from("<IIQQQQQ", data, 64), (1, 7, 176, 65536, 65536, 4, 4))
        self.assertEqual(struct.unpack_from("<IIQQQQQ", data, 120), (1, 7, 180, 69632, 69632, 2, 4096))
        self.assertEqual(data[176:], b"abcdxy")
        self.assertEqual(list(guest.segments_of(data)), [(0, 65536, 65540), (1, 69632, 73728)])

    def test_the_example(self):
        with open(repository.SMALLEST, "rb") as file:
            segments = list(guest.segments_of(file.read()))
        self.assertEqual(segments, [(0, 65536, 65548)])


class Made(unittest.TestCase):
    def test_the_file(self):
        data = made_file(0)
        self.assertEqual(len(data), 24148)
        # p_offset, p_vaddr, p_paddr, p_filesz, p_memsz, p_align
        self.assertEqual(struct.unpack_from("<6Q", data, 72), (120, 65536, 65536, 24028, 24028, 4))
        words = struct.unpack_from("<6007I", data, 120)
        self.assertEqual(words[0], 0x00800393)
        self.assertEqual(words[3::3][:2000], (0x00128293,) * 2000)
        self.assertEqual(words[6001:], (0xFFF38393, 0x00038463, 0xA38FA06F, 0x00028513, 0x05D00893, 0x00000073))

    def test_the_first_store(self):
        # For N = 0 the first r is 167951807, so p is 79 and f is 1512: lui x6,79 and sd x5,1512(x6).
        self.assertEqual(next(made_places(0)), (79, 1512))
        words = struct.unpack_from("<2I", made_file(0), 124)
        self.assertEqual(words, (79 << 12 | 6 << 7 | 0x37, (1512 >> 5) << 25 | 5 << 20 | 6 << 15 | 3 << 12 | (1512 & 31) << 7 | 0x23))

    def test_all_stores(self):
        # After the code, which has pages 16 to 21, and within 192 pages from 65536 on.
        pages = [page - 16 for page, _ in made_places(7)]
        self.assertTrue(len(pages) == 2000 and all(48 <= page < 192 for page in pages))
