"""Programs of which both harts work, in any order of their turns to the same end, which is worked out here."""

import hashlib
from dataclasses import dataclass

from lib import guest
from lib.guest import A0, A1, A2, AMOS, EXIT, LR, S1, S2, S3, S4, S5, S6, S7, SC, T0, T1, T2, T3, T4, T5, WRITE, ZERO
from lib.guest import Code, add, addi, atomic, beq, bne, jal, load, mul, remu, store
from lib.images import PAGE
from lib.random_runs.drawn import size_in
from lib.random_runs.reports import Guest, Known

MASK = 2**64 - 1


@dataclass
class Cell:
    """A number in memory to which both harts do the same, in any order."""

    address: int
    name: str  # of the atomic instruction; `add` also by LR and SC
    wide: int
    locked: bool
    value: int

    def take(self, number):
        """What the number becomes with another one."""
        size = 8 << self.wide
        old, new = self.value, number % 2**size
        signed = [(it + 2 ** (size - 1)) % 2**size - 2 ** (size - 1) for it in (old, new)]
        made = {"add": old + new, "xor": old ^ new, "or": old | new, "and": old & new}
        made.update(min=min(signed), max=max(signed), minu=min(old, new), maxu=max(old, new))
        self.value = made[self.name] % 2**size

    @property
    def data(self):
        return self.value.to_bytes(4 if self.wide == 2 else 8, "little")


@dataclass
class Worker:
    """What a hart of such a program does in each of its turns, with a number that goes on from turn to turn."""

    start: int  # of the area to which it alone stores
    size: int
    turns: int
    actions: list
    number: int
    factor: int
    step: int
    stride: int
    place: int = 0


@dataclass
class Pair:
    """Where such a program has what both harts use."""

    lock: int
    finished: int
    buffer: int
    cells: list


def drawn_actions(rng, pair, prints):
    """Each a name and a cell, or the width of a store."""
    actions = []
    for _ in range(rng.randrange(1, 8)):
        kind, cell = rng.choice(("cell", "cell", "own", "print")), rng.choice(pair.cells)
        if kind == "own":
            actions.append((kind, rng.randrange(4)))
        elif kind == "print" and prints:
            actions.append((kind, None))
        elif kind == "cell":
            how = "locked" if cell.locked else rng.choice(("atomic", "reserved")) if cell.name == "add" else "atomic"
            actions.append((how, cell))
    return actions


def action_code(rng, code, pair, kind, what):
    """The code of an action; S6 has the number, S4 the place, S7 the stride and T5 a one."""
    order = rng.randrange(4)
    if kind == "own":
        code.put(add(S4, S4, S7), remu(T0, S4, S3), add(T1, T0, S1), store(what, S6, T1))
    elif kind == "print":
        code.number(A1, pair.buffer)
        code.put(store(3, S6, A1), addi(A0, ZERO, 1), addi(A2, ZERO, 8))
        code.call(WRITE)
    else:
        code.number(T1, what.address)
    if kind == "atomic":
        code.put(atomic(AMOS[what.name], what.wide, rng.choice((ZERO, T2)), S6, T1, order))
    elif kind == "reserved":
        code.put(atomic(LR, what.wide, T2, 0, T1, order), add(T2, T2, S6), atomic(SC, what.wide, T3, T2, T1, order))
        code.put(bne(T3, ZERO, -12))
    elif kind == "locked":
        code.number(T4, pair.lock)
        code.put(atomic(LR, 3, T2, 0, T4, order), bne(T2, ZERO, -4), atomic(SC, 3, T3, T5, T4, order), bne(T3, ZERO, -12))
        code.put(load(what.wide, T2, T1), add(T2, T2, S6), store(what.wide, T2, T1), store(3, ZERO, T4))


def worker_code(rng, code, pair, worker):
    """What a hart does up to its last turn."""
    registers = {S1: worker.start, S2: worker.turns, S3: worker.size - 8, S4: 0, S5: worker.factor, S6: worker.number}
    for register, value in {**registers, S7: worker.stride, T5: 1}.items():
        code.number(register, value)
    again = code.here
    code.put(mul(S6, S6, S5), addi(S6, S6, worker.step))
    for kind, what in worker.actions:
        action_code(rng, code, pair, kind, what)
    code.put(addi(S2, S2, -1), beq(S2, ZERO, 8))
    code.go(ZERO, again)


def worked(worker, memory, content):
    """Does the same to the cells and to the content of memory. What it prints."""
    printed = b""
    for _ in range(worker.turns):
        worker.number = (worker.number * worker.factor + worker.step) & MASK
        data = worker.number.to_bytes(8, "little")
        for kind, what in worker.actions:
            if kind == "own":
                worker.place = (worker.place + worker.stride) & MASK
                at = worker.start + worker.place % (worker.size - 8) - memory.base
                content[at : at + (1 << what)] = data[: 1 << what]
            elif kind == "print":
                printed += data
            else:
                what.take(worker.number)
    return printed


def drawn_pair(rng, memory):
    """Where both harts count, and what each does."""
    first = memory.base + PAGE
    blocks = rng.randrange(1, 9)
    places = [first + 8 * k for k in rng.sample(range(8 * blocks), rng.randrange(4, 9))]
    cells = []
    for place in places[3:]:
        name, locked, wide = rng.choice((*AMOS, "add", "add")), rng.random() < 0.3, rng.choice((2, 3))
        cells.append(Cell(place, "add" if locked else name, wide, locked, rng.getrandbits(8 << wide)))
    pair = Pair(*places[:3], cells)
    size = (memory.end - first - 64 * blocks) // 128 * 64
    workers = []
    for hart in range(2):
        numbers = rng.getrandbits(64), rng.getrandbits(64) | 1, rng.randrange(2048), rng.choice((8, 64, rng.getrandbits(20)))
        start = first + 64 * blocks + hart * size
        workers.append(Worker(start, size, size_in(rng, 1, 150), drawn_actions(rng, pair, hart == 0), *numbers))
    return pair, workers


def pair_program(rng, memory):
    """A program of which both harts work, in any order of their turns to the same end. Hart 0 waits for hart 1, prints the
    cells, and exits with the lowest byte of one."""
    pair, workers = drawn_pair(rng, memory)
    code = Code(memory.base)
    code.put(beq(A0, ZERO, 8), 0)
    worker_code(rng, code, pair, workers[0])
    code.number(T1, pair.finished)
    code.put(load(3, T2, T1), beq(T2, ZERO, -4))
    for cell in pair.cells:
        code.number(A1, cell.address)
        code.put(addi(A0, ZERO, 1), addi(A2, ZERO, len(cell.data)))
        code.call(WRITE)
    code.number(T1, pair.cells[0].address)
    code.put(load(4, A0, T1))
    code.call(EXIT)
    code.words[1] = jal(ZERO, code.here - memory.base - 4)
    worker_code(rng, code, pair, workers[1])
    code.number(T1, pair.finished)
    code.put(store(3, T5, T1), jal(ZERO, 0))
    content = bytearray(memory.end - memory.base)
    store_at(memory, content, memory.base, code.data)
    for cell in pair.cells:
        store_at(memory, content, cell.address, cell.data)
    file = guest.elf(memory.base, [(memory.base, bytes(content[: 2 * PAGE]), 0)])
    printed = [worked(worker, memory, content) for worker in workers][0]
    if any(kind == "print" for kind, _ in workers[0].actions):
        store_at(memory, content, pair.buffer, printed[-8:])
    store_at(memory, content, pair.finished, b"\1")
    for cell in pair.cells:
        store_at(memory, content, cell.address, cell.data)
        printed += cell.data
    steps = 200 + sum(worker.turns * (4 + 12 * len(worker.actions)) for worker in workers)
    known = Known(printed[: PAGE * memory.console], pair.cells[0].value % 256, hashlib.sha256(content).hexdigest(), steps)
    return Guest(file, known=known)


def store_at(memory, content, address, data):
    content[address - memory.base : address - memory.base + len(data)] = data
