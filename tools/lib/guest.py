"""Guest programs: instruction words (the RISC-V manual, "Instruction Set Listings"), program files, and the made program."""

import struct
from functools import lru_cache

from lib.images import PAGE

ZERO, RA, SP, T0, T1, T2, S0, S1 = 0, 1, 2, 5, 6, 7, 8, 9
A0, A1, A2, A7, S2, S3, S4, S5, S6, S7 = 10, 11, 12, 17, 18, 19, 20, 21, 22, 23
T3, T4, T5, T6 = 28, 29, 30, 31

# The opcodes of the instructions that a machine with one hart has.
OPCODES = (0x03, 0x0F, 0x13, 0x17, 0x1B, 0x23, 0x33, 0x37, 0x3B, 0x63, 0x67, 0x6F, 0x73)

ECALL, EBREAK, FENCE, FENCE_I = 0x00000073, 0x00100073, 0x0FF0000F, 0x0000100F

# The numbers of the calls.
READ, WRITE, EXIT, EXIT_GROUP, BRK = 63, 64, 93, 94, 214

# Where programs are linked to, if nobody says.
LINKED = 65536


def op(kind, rd, a, b):
    """An instruction of two registers; its kind is opcode, funct3 and funct7."""
    opcode, f3, f7 = kind
    return f7 << 25 | b << 20 | a << 15 | f3 << 12 | rd << 7 | opcode


def op_imm(opcode, f3, rd, a, number):
    return (number & 0xFFF) << 20 | a << 15 | f3 << 12 | rd << 7 | opcode


def add(rd, a, b):
    return op((0x33, 0, 0), rd, a, b)


def xor(rd, a, b):
    return op((0x33, 4, 0), rd, a, b)


def mul(rd, a, b):
    return op((0x33, 0, 1), rd, a, b)


def remu(rd, a, b):
    return op((0x33, 7, 1), rd, a, b)


def addi(rd, a, number):
    return op_imm(0x13, 0, rd, a, number)


def andi(rd, a, number):
    return op_imm(0x13, 7, rd, a, number)


def ori(rd, a, number):
    return op_imm(0x13, 6, rd, a, number)


def slli(rd, a, number):
    return op_imm(0x13, 1, rd, a, number)


def srli(rd, a, number):
    return op_imm(0x13, 5, rd, a, number)


def lui(rd, page):
    """The register takes the address of a page."""
    return (page & 0xFFFFF) << 12 | rd << 7 | 0x37


def auipc(rd, page):
    return (page & 0xFFFFF) << 12 | rd << 7 | 0x17


def load(f3, rd, a, number=0):
    """A load; the width is 8 << f3 bits, and f3 is 4 more without a sign."""
    return op_imm(0x03, f3, rd, a, number)


def store(f3, b, a, number=0):
    return (number >> 5 & 0x7F) << 25 | b << 20 | a << 15 | f3 << 12 | (number & 31) << 7 | 0x23


def branch(f3, a, b, ahead):
    parts = (ahead >> 12 & 1) << 31 | (ahead >> 5 & 63) << 25 | (ahead >> 1 & 15) << 8 | (ahead >> 11 & 1) << 7
    return parts | b << 20 | a << 15 | f3 << 12 | 0x63


def beq(a, b, ahead):
    return branch(0, a, b, ahead)


def bne(a, b, ahead):
    return branch(1, a, b, ahead)


def jal(rd, ahead):
    parts = (ahead >> 20 & 1) << 31 | (ahead >> 1 & 1023) << 21 | (ahead >> 11 & 1) << 20 | (ahead >> 12 & 255) << 12
    return parts | rd << 7 | 0x6F


def jalr(rd, a, number=0):
    return op_imm(0x67, 0, rd, a, number)


# Atomic instructions by their number; each but those of LR and SC makes a number of two, in any order of several.
LR, SC, SWAP = 2, 3, 1
AMOS = {"add": 0, "xor": 4, "or": 8, "and": 12, "min": 16, "max": 20, "minu": 24, "maxu": 28}


def atomic(number, f3, rd, b, a, order=0):
    return number << 27 | order << 25 | b << 20 | a << 15 | f3 << 12 | rd << 7 | 0x2F


def code_of(words):
    """Instruction words as bytes."""
    return struct.pack(f"<{len(words)}I", *words)


class Code:
    """Instruction words from an address on."""

    def __init__(self, first):
        self.first, self.words = first, []

    @property
    def here(self):
        return self.first + 4 * len(self.words)

    @property
    def data(self):
        return code_of(self.words)

    def put(self, *words):
        self.words += words

    def number(self, rd, value):
        """A register takes a number."""
        value = (value + 2**63) % 2**64 - 2**63
        if -2048 <= value < 2048:
            self.put(addi(rd, ZERO, value))
        elif -(2**31) <= value < 2**31:
            self.put(lui(rd, value + 2048 >> 12), op_imm(0x1B, 0, rd, rd, value))
        else:
            low = (value + 2048) % 4096 - 2048
            self.number(rd, value - low >> 12)
            self.put(slli(rd, rd, 12), addi(rd, rd, low))

    def call(self, number):
        self.put(addi(A7, ZERO, number), ECALL)

    def go(self, rd, address):
        self.put(jal(rd, address - self.here))

    def hole(self):
        """A place for a branch over what follows."""
        self.put(0)
        return len(self.words) - 1

    def fill(self, hole, f3, a, b):
        self.words[hole] = branch(f3, a, b, 4 * (len(self.words) - hole))


# Program files.

# The bytes of header and program header.
FILE_HEADER, PROGRAM_HEADER = 64, 56


def elf(entry, segments, align=1):
    """A program file of segments: each an address, bytes, and how much memory it takes at least."""
    place = FILE_HEADER + PROGRAM_HEADER * len(segments)
    ident = b"\x7fELF" + bytes([2, 1, 1]) + bytes(9)
    table, rest = b"", b""
    for address, data, room in segments:
        size = max(len(data), room)
        table += struct.pack("<IIQQQQQQ", 1, 7, place + len(rest), address, address, len(data), size, align)
        rest += data
    sizes = FILE_HEADER, PROGRAM_HEADER, len(segments), 0, 0, 0
    return ident + struct.pack("<HHIQQQIHHHHHH", 2, 243, 1, entry, FILE_HEADER, 0, 0, *sizes) + table + rest


def segments_of(data):
    """Where the segments of a program file are to be: of each its number among the headers, and its first and last end."""
    first, count = struct.unpack_from("<Q", data, 32)[0], struct.unpack_from("<H", data, 56)[0]
    for k in range(count):
        kind, _, _, address, _, _, size, _ = struct.unpack_from("<IIQQQQQQ", data, first + PROGRAM_HEADER * k)
        if kind == 1 and size:
            yield k, address, address + size


# The made program (docs/FORMATS.md). How often it goes over its stores, and how many pages they need from 65536 on.
ROUNDS, MADE_PAGES = 8, 192


def made_places(number):
    """To what page, and to which of its bytes, each store of a round goes."""
    state = number
    for _ in range(2000):
        state = (state * 6364136223846793005 + 1442695040888963407) % 2**64
        draw = state >> 33
        page = 64 + draw // 2 % 16 if draw % 2 else 80 + draw // 2 % 128
        yield page, 8 * (draw // 256 % 256)


@lru_cache(maxsize=None)
def made_file(number):
    """The file of the made program of a number."""
    words = [addi(T2, ZERO, ROUNDS)]
    for page, at in made_places(number):
        words += [lui(T1, page), store(3, T0, T1, at), addi(T0, T0, 1)]
    words += [addi(T2, T2, -1), beq(T2, ZERO, 8), jal(ZERO, -24008), addi(A0, T0, 0), addi(A7, ZERO, EXIT), ECALL]
    return elf(LINKED, [(LINKED, code_of(words), 0)], align=4)
