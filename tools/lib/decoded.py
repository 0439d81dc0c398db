"""Instruction words as an assembler writes them: those that can trap, and else the word alone."""

# The registers by their names, as the ABI has them.
NAMES = (
    *("zero", "ra", "sp", "gp", "tp", "t0", "t1", "t2", "s0", "s1"),
    *(f"a{k}" for k in range(8)),
    *(f"s{k}" for k in range(2, 12)),
    *(f"t{k}" for k in range(3, 7)),
)

# By funct3.
LOADS = ("lb", "lh", "lw", "ld", "lbu", "lhu", "lwu")
STORES = ("sb", "sh", "sw", "sd")
BRANCHES = {0: "beq", 1: "bne", 4: "blt", 5: "bge", 6: "bltu", 7: "bgeu"}
WIDTHS = {2: "w", 3: "d"}

# Atomic instructions by their number.
ATOMICS = {1: "amoswap", 0: "amoadd", 4: "amoxor", 8: "amoor", 12: "amoand", 16: "amomin", 20: "amomax", 24: "amominu", 28: "amomaxu"}
LOAD_RESERVED, STORE_CONDITIONAL = 2, 3

EBREAK = 0x00100073


def signed(number, bits):
    """A number of so many bits with its sign."""
    return number - (1 << bits) if number >> (bits - 1) & 1 else number


def atomic(word, rd, a, b):
    """An atomic instruction; None if it is none. In what order it stands to others is left out."""
    kind, width = word >> 27, WIDTHS.get(word >> 12 & 7)
    if width is None:
        return None
    if kind == LOAD_RESERVED:
        return f"lr.{width} {rd},({a})"
    if kind == STORE_CONDITIONAL:
        return f"sc.{width} {rd},{b},({a})"
    return f"{ATOMICS[kind]}.{width} {rd},{b},({a})" if kind in ATOMICS else None


def shown(word, pc):
    """What a word at this address is, if it is one that can trap; else None."""
    opcode, kind = word & 127, word >> 12 & 7
    rd, a, b = (NAMES[word >> at & 31] for at in (7, 15, 20))
    immediate = signed(word >> 20, 12)
    if word == EBREAK:
        return "ebreak"
    if opcode == 0x03 and kind < len(LOADS):
        return f"{LOADS[kind]} {rd},{immediate}({a})"
    if opcode == 0x23 and kind < len(STORES):
        return f"{STORES[kind]} {b},{signed(word >> 25 << 5 | word >> 7 & 31, 12)}({a})"
    if opcode == 0x2F:
        return atomic(word, rd, a, b)
    if opcode == 0x67 and kind == 0:
        return f"jalr {rd},{immediate}({a})"
    if opcode == 0x6F:
        ahead = (word >> 31) << 20 | (word >> 12 & 255) << 12 | (word >> 20 & 1) << 11 | (word >> 21 & 1023) << 1
        return f"jal {rd},{pc + signed(ahead, 21):x}"
    if opcode == 0x63 and kind in BRANCHES:
        ahead = (word >> 31) << 12 | (word >> 7 & 1) << 11 | (word >> 25 & 63) << 5 | (word >> 8 & 15) << 1
        return f"{BRANCHES[kind]} {a},{b},{pc + signed(ahead, 13):x}"
    return None
