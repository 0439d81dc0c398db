"""Guest programs that are drawn: instruction by instruction, as random words, made ones, and out of the examples."""

import struct
from dataclasses import dataclass, field

from lib import guest, repository
from lib.calls import wants
from lib.guest import A0, A1, A2, A7, RA, S0, S1, S2, S3, S5, SP, T0, T1, T2, T3, T4, T5, T6, ZERO
from lib.guest import AMOS, BRK, EBREAK, ECALL, EXIT, EXIT_GROUP, FENCE_I, LINKED, LR, OPCODES, READ, SC, WRITE, Code
from lib.guest import add, addi, andi, atomic, auipc, beq, bne, jal, jalr, load, mul, op, ori, remu, slli, srli, store, xor
from lib.images import PAGE
from lib.random_runs.drawn import Memory, drawn_memory, drawn_pages, size_in
from lib.random_runs.pairs import pair_program
from lib.random_runs.reports import Guest, Known

TEMPORARY = (T0, T1, T2, T3, T4, T5, T6)

# Opcode, funct3 and funct7 of what is drawn among arithmetic instructions: without and with W, M's too.
ARITHMETIC = [(0x33, k, 0) for k in range(8)] + [(0x33, 0, 32), (0x33, 5, 32)] + [(0x33, k, 1) for k in range(8)]
ARITHMETIC += [(0x3B, 0, 0), (0x3B, 0, 32), (0x3B, 1, 0), (0x3B, 5, 0), (0x3B, 5, 32)] + [(0x3B, k, 1) for k in (0, 4, 5, 6, 7)]

# With this as its operand each atomic instruction leaves the number that it finds.
NEUTRAL = {"add": 0, "xor": 0, "or": 0, "and": -1, "min": 2**63 - 1, "max": -(2**63), "minu": -1, "maxu": 0}


@dataclass
class Area:
    """Where a drawn program stores, and the places in its code that it may change."""

    start: int
    size: int
    end: int
    slots: list = field(default_factory=list)


def address(rng, code, area):
    """T1 has an address in the area, by the numbers that S0 goes through."""
    code.put(mul(S0, S0, S5), addi(S0, S0, rng.randrange(1, 2048)), srli(T0, S0, rng.randrange(4, 40)))
    if rng.random() < 0.5:
        code.put(andi(T0, T0, rng.choice((63, 255, 2047))))
    else:
        code.put(remu(T0, T0, S3))
    code.put(add(T1, T0, S1))
    kind = rng.randrange(4)
    if kind == 0:
        code.put(andi(T1, T1, -8))
    elif kind == 1:
        # Before the end of a block, and often over it.
        code.put(ori(T1, T1, 63), addi(T1, T1, -rng.randrange(8)))


def piece_of_arithmetic(rng, code, _area):
    for _ in range(rng.randrange(1, 8)):
        code.put(op(rng.choice(ARITHMETIC), rng.choice(TEMPORARY), rng.choice((S0, *TEMPORARY)), rng.choice(TEMPORARY)))
    code.put(rng.choice((add, xor))(S0, S0, rng.choice(TEMPORARY)))


def piece_of_store(rng, code, area):
    address(rng, code, area)
    code.put(store(rng.randrange(4), rng.choice((S0, S0, T0, T2, T3)), T1))


def piece_of_load(rng, code, area):
    address(rng, code, area)
    code.put(load(rng.randrange(7), T2, T1), rng.choice((add, xor))(S0, S0, T2))


def piece_of_stack(rng, code, _area):
    """Above and below sp, to the last bytes of memory."""
    place = rng.choice((248, 252, -8, -rng.randrange(8, 2049)))
    width = rng.choice((2, 3)) if place != 252 else 2
    code.put(store(width, S0, SP, place), load(width, T3, SP, place))


def piece_of_print(rng, code, area):
    address(rng, code, area)
    code.put(addi(A0, ZERO, rng.choice((1, 1, 1, 2, 3))), addi(A1, T1, 0), addi(A2, ZERO, rng.choice((0, 1, 8, 64, 100))))
    code.call(WRITE)
    code.put(add(S0, S0, A0))


def piece_of_read(rng, code, area):
    address(rng, code, area)
    code.put(addi(A0, ZERO, rng.choice((0, 0, 0, 1))), addi(A1, T1, 0), addi(A2, ZERO, rng.choice((0, 1, 7, 64, 65, 200))))
    code.call(READ)
    code.put(add(S0, S0, A0))


def piece_of_calls(rng, code, area):
    """A call that is not there, the break, or a span that ends outside memory."""
    kind = rng.randrange(3)
    if kind == 0:
        code.call(rng.choice((0, 2, 56, 80, 1023)))
    elif kind == 1:
        code.number(A0, rng.choice((0, area.start, area.end, rng.getrandbits(64))))
        code.call(BRK)
    else:
        code.number(A1, area.end - rng.randrange(64))
        code.put(addi(A0, ZERO, rng.randrange(2)), addi(A2, ZERO, 64))
        code.call(rng.choice((READ, WRITE)))
    code.put(xor(S0, S0, A0))


def piece_of_new_code(rng, code, area):
    """A word of the program is changed: the next one, or one that was executed before; or a routine is written and called."""
    kind = rng.randrange(3) if area.slots else rng.choice((0, 2))
    word = addi(S0, S0, rng.randrange(-2048, 2048))
    if kind == 0:
        flush = [FENCE_I] * rng.randrange(2)
        code.number(T2, word)
        code.put(auipc(T1, 0), store(2, T2, T1, 8 + 4 * len(flush)), *flush)
        area.slots.append(code.here)
        code.put(addi(S0, S0, 1))
    elif kind == 1:
        code.number(T1, rng.choice(area.slots))
        code.number(T2, word)
        code.put(rng.choice((store(2, T2, T1), store(0, S0, T1, 3))))
    else:
        address(rng, code, area)
        code.put(andi(T1, T1, -8))
        code.number(T2, word | xor(S0, S0, T4) << 32)
        code.put(store(3, T2, T1))
        code.number(T2, jalr(ZERO, RA))
        code.put(store(2, T2, T1, 8), *[FENCE_I] * rng.randrange(2), jalr(RA, T1))


def piece_of_many_stores(rng, code, area):
    """A store into each block of a stretch, or into each page of it."""
    step = rng.choice((64, 64, 64, 256, 2040))
    most = (area.size - 80) // step
    many = min(most, rng.choice((4, 20, 64, 64, 70)))
    code.number(T1, area.start + step * rng.randrange(most - many + 1))
    code.number(T3, many)
    code.put(store(3, S0, T1), addi(T1, T1, step), addi(T3, T3, -1), bne(T3, ZERO, -12))


PIECES = (
    *(piece_of_arithmetic, piece_of_arithmetic, piece_of_store, piece_of_store, piece_of_store, piece_of_load, piece_of_load),
    *(piece_of_stack, piece_of_print, piece_of_print, piece_of_read, piece_of_calls, piece_of_new_code, piece_of_many_stores),
)


def ending(rng, code, area):
    """How a drawn program ends: mostly it exits; else by a trap, or not at all."""
    kind = rng.choice(("exit",) * 12 + ("ebreak", "illegal", "load", "store", "odd", "away", "endless"))
    code.number(T1, area.end - rng.randrange(8))
    if kind == "exit":
        code.put(addi(A0, S0, 0))
        code.call(rng.choice((EXIT, EXIT_GROUP)))
    elif kind == "away":
        code.put(ori(T1, T1, 7), jalr(ZERO, T1, 1))
    words = {"ebreak": EBREAK, "illegal": rng.choice((0, 0xFFFFFFFF, 0x30200073)), "odd": jalr(ZERO, S1, 2)}
    words.update(load=load(3, T0, T1), store=store(3, S0, T1), endless=jal(ZERO, 0))
    code.put(words.get(kind, EBREAK))


def harmless(rng, code, memory):
    """What hart 1 does if hart 0 does the work: it leaves memory as it is."""
    if rng.random() < 0.15:
        code.put(jal(ZERO, 0))
        return
    code.number(S5, rng.getrandbits(64) | 1)
    code.number(S3, (memory.end - memory.base) // 8)
    code.number(S1, memory.base + 8 * rng.randrange((memory.end - memory.base) // 16))
    code.number(S2, memory.base)
    again = code.here
    for _ in range(rng.randrange(1, 6)):
        code.put(mul(S0, S0, S5), addi(S0, S0, rng.randrange(1, 2048)), srli(T0, S0, rng.randrange(4, 40)))
        if rng.random() < 0.5:
            code.put(andi(T0, T0, rng.choice((0, 63, 2047))), add(T1, T0, S1))
        else:
            code.put(remu(T0, T0, S3), slli(T0, T0, 3), add(T1, T0, S2))
        code.put(andi(T1, T1, -8))
        wide, order = rng.choice((2, 3)), rng.randrange(4)
        kind = rng.randrange(3)
        if kind == 0:
            code.put(load(wide, T2, T1))
        elif kind == 1:
            code.put(atomic(LR, wide, T2, 0, T1, order), atomic(SC, wide, T3, T2, T1, order))
        else:
            name = rng.choice(tuple(AMOS))
            code.number(T2, NEUTRAL[name] >> 32 if wide == 2 and name in ("min", "max") else NEUTRAL[name])
            code.put(atomic(AMOS[name], wide, rng.choice((ZERO, T3)), T2, T1, order))
    code.go(ZERO, again)


def drawn_program(rng, memory, harts):
    """A program of drawn pieces, which it goes through again and again."""
    many = rng.choice((1, size_in(rng, 1, 36), size_in(rng, 1, 36)))
    room = (4 * (200 + 34 * many) + 63) // 64 * 64
    start = memory.base + room
    area, code = Area(start, memory.end - start, memory.end), Code(memory.base)
    if harts == 2:
        code.put(beq(A0, ZERO, 8), 0)
    for register, value in ((S0, rng.getrandbits(64)), (S1, start), (S3, area.size - 80), (S5, rng.getrandbits(64) | 1)):
        code.number(register, value)
    steps = rng.choice((size_in(rng, 1, 200), size_in(rng, 10, 3000), size_in(rng, 10, 20000)))
    code.number(S2, max(1, steps // (14 * many)))
    again = code.here
    for _ in range(many):
        skipped = rng.random() < 0.2
        if skipped:
            code.put(andi(T0, S0, rng.choice((1, 2, 3, 64))))
            hole = code.hole()
        rng.choice(PIECES)(rng, code, area)
        if skipped:
            code.fill(hole, rng.randrange(2), T0, ZERO)
    code.put(addi(S2, S2, -1), beq(S2, ZERO, 8))
    code.go(ZERO, again)
    ending(rng, code, area)
    if harts == 2:
        code.words[1] = jal(ZERO, code.here - memory.base - 4)
        harmless(rng, code, memory)
    # In one segment, or in two, with bytes or zeros behind the first.
    rest = rng.choice((0, rng.randrange(area.size), area.size))
    data = [(start, rng.randbytes(min(rest, 3000)), rest)] if rng.random() < 0.3 else []
    return guest.elf(memory.base, [(memory.base, code.data, rng.choice((0, room))), *data])


def random_words(rng, memory):
    """A program of random words, most of which are instructions, many of them near sp."""
    words = []
    for _ in range(rng.randrange(1, 300)):
        kind = rng.randrange(6)
        near = rng.getrandbits(12) << 20 | SP << 15
        if kind == 0:
            words.append(rng.getrandbits(32))
        elif kind < 3:
            words.append(rng.getrandbits(25) << 7 | rng.choice(OPCODES))
        elif kind == 3:
            words.append(near | rng.getrandbits(8) << 7 | rng.choice((0x03, 0x13)))
        elif kind == 4:
            words.append(near | rng.randrange(4) << 12 | rng.getrandbits(5) << 7 | 0x23)
        else:
            words += [addi(A7, ZERO, rng.choice((READ, WRITE, WRITE, EXIT, BRK))), addi(A0, ZERO, 1), addi(A1, SP, 0)]
            words += [addi(A2, ZERO, 64), ECALL]
    return guest.elf(memory.base, [(memory.base, guest.code_of(words), 0)])


# Program files.

# Of each example its input, how many pages it needs of program memory from 65536 on, and how often it is drawn.
EXAMPLES = {
    "exit_seven": ("", 1, 3),
    "greet": ("name", 7, 6),
    "collatz": ("", 7, 4),
    "sum_loop": ("", 7, 2),
    "hello": ("", 31, 3),
    "sorted_words": ("words", 31, 3),
    "interpreter": ("script", 63, 1),
    "two_harts": ("", 7, 1),
}


def example_file(name, file=None):
    with open(repository.example(name, file), "rb") as opened:
        return opened.read()


def drawn_example(rng):
    """A file of the examples, an input for it, and the pages that it needs."""
    name = rng.choices(tuple(EXAMPLES), [weight for _, _, weight in EXAMPLES.values()])[0]
    given, pages, _ = EXAMPLES[name]
    source = example_file(name, given) if given else b""
    if rng.random() < 0.3:
        source = rng.choice((rng.randbytes(rng.randrange(200)), source[: rng.randrange(len(source) + 1)] * rng.randrange(4)))
    return Guest(example_file(name), source), pages


def memory_for(rng, pages, harts):
    """Memory for a file that was linked to 65536 on; below it there is room if hart 1 is to be given code."""
    below = rng.choice((0, 0, 0, 1, 16)) if harts == 1 else rng.randrange(1, 17)
    console = rng.choice((1, 1, 2, rng.randrange(1, 17)))
    return Memory(LINKED - PAGE * below, max(pages + below + console, drawn_pages(rng)), console)


def with_second_hart(rng, memory, made):
    """The file with one segment more, in the lowest page, from which hart 0 goes on to its entry, and hart 1 does no harm."""
    first = memory.base + 4 * rng.randrange(256)
    code = Code(first)
    code.put(bne(A0, ZERO, 8))
    code.go(ZERO, struct.unpack_from("<Q", made.data, 24)[0])
    harmless(rng, code, memory)
    place, count = struct.unpack_from("<Q", made.data, 32)[0], struct.unpack_from("<H", made.data, 56)[0]
    table = made.data[place : place + 56 * count]
    at, size = len(made.data) + len(table) + 56, len(code.data)
    table += struct.pack("<IIQQQQQQ", 1, 7, at, first, first, size, size, 1)
    header = struct.pack("<QQ", first, len(made.data)) + made.data[40:56] + struct.pack("<H", count + 1)
    made.data = made.data[:24] + header + made.data[58:] + table + code.data


def made_guest(rng, caller):
    """A made program, in memory in which it exits, or in too little of it, and the pages that it needs."""
    number = rng.choice((rng.randrange(16), rng.randrange(2**32)))
    answer = caller.call("make", number, "made")
    data = caller.read("made") if answer.status == 0 else b""
    wants((answer.status, answer.lines) == (0, [f"made {number} {len(data)}"]), f"`make` answered {answer.last!r}")
    return Guest(data, number=number), rng.choice((192, 192, rng.randrange(7, 192)))


def two_harts(rng, caller):
    """The example for two harts: its digest is that of a run by itself, without cuts."""
    memory = memory_for(rng, EXAMPLES["two_harts"][1], 1)
    caller.write("program", example_file("two_harts"))
    values = {"--harts": 2, "--epoch": rng.choice((500, 10000)), "--mix": rng.randrange(100), "--limit": 10_000_000}
    words = [*memory.words, *(word for pair in values.items() for word in pair), "--digest"]
    answer = caller.call("run", "program", *words)
    wants(answer.status == 0 and answer.last.startswith("memory "), f"examples/two_harts answered {answer.last!r}")
    known = Known(example_file("two_harts", "output"), 0, answer.last.split(" ")[1], 8000)
    return memory, Guest(example_file("two_harts"), known=known)


def drawn_guest(rng, caller, harts):
    """A program, and memory for it."""
    chance = rng.random()
    if harts == 2 and chance < 0.04:
        return two_harts(rng, caller)
    if chance < 0.2:
        made, pages = made_guest(rng, caller) if chance < 0.06 else drawn_example(rng)
        memory = memory_for(rng, pages, harts)
        if harts == 2:
            with_second_hart(rng, memory, made)
        return memory, made
    memory = drawn_memory(rng)
    if harts == 2 and chance < 0.6:
        return memory, pair_program(rng, memory)
    source = rng.randbytes(rng.choice((0, 0, 1, 64, 65, 300, 2000)))
    if harts == 1 and chance < 0.3:
        return memory, Guest(random_words(rng, memory), source)
    return memory, Guest(drawn_program(rng, memory, harts), source)
