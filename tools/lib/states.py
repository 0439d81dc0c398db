"""Reads the state of a machine in what `./thynvm observe OUT --state C ..` or `--state-at K` has written (docs/OBSERVING.md)."""

import re
from dataclasses import dataclass
from typing import Optional

from lib.report import NUMBER

HEX = r"(0|[1-9a-f][0-9a-f]*)"

# The head line of a section, and the line in place of a state.
HEAD, NONE = re.compile(rf"(state|state-at) {NUMBER}"), "none"

# The lines of a state, in order: how the program stands, numbers, and then each hart with its 31 registers.
STATUS = re.compile(rf"(running)|(exit|trap) {NUMBER}")
COUNTS = ("count", "console", "cursor")
BREAK, HART, RESERVED = re.compile(f"break {HEX}"), re.compile(f"hart ([01]) {HEX}"), re.compile(f"reserved (?:none|([48]) {HEX})")
MEMORY, DOUBLE = re.compile(f"memory {HEX} {NUMBER}"), re.compile(f"{HEX} {HEX}")

REGISTERS, WORD = 32, 8


class Fault(Exception):
    """Why lines are not those of a state, in words for the one who called."""


@dataclass
class Hart:
    """A hart: its program counter, its 32 registers, and with two harts what it has reserved, as bytes and address; None if nothing."""

    pc: int
    registers: list
    reserved: Optional[tuple] = None


@dataclass
class State:
    """A state of the machine. `ending` is None while the program runs, else `exit` or `trap` with its number."""

    ending: Optional[tuple]
    count: int
    console: int
    cursor: int
    end: int
    harts: list
    base: int
    memory: bytes


class Lines:
    """Lines that are taken one after the other."""

    def __init__(self, lines):
        self.lines, self.at = lines, 0

    def next(self):
        return self.lines[self.at] if self.at < len(self.lines) else ""

    def take(self, pattern, what):
        """The next line by a pattern; what it should be is said if it is not there."""
        found = re.fullmatch(pattern, self.next())
        if not found:
            raise Fault(f"this is not {what}: {self.next() or 'nothing'}")
        self.at += 1
        return found


def hart_of(lines, number):
    """The hart of this number."""
    found = lines.take(HART, f"the line of hart {number}")
    if int(found[1]) != number:
        raise Fault(f"this is not the line of hart {number}: {found[0]}")
    registers = [int(lines.take(f"x{k} {HEX}", f"the line of x{k}")[1], 16) for k in range(1, REGISTERS)]
    return Hart(int(found[2], 16), [0, *registers])


def reserved_of(lines):
    """What a hart has reserved."""
    found = lines.take(RESERVED, "the line of a reservation")
    return (int(found[1]), int(found[2], 16)) if found[1] else None


def harts_of(lines):
    """The harts; reservations are there if there are two."""
    harts = [hart_of(lines, 0)]
    if lines.next().startswith("reserved"):
        harts[0].reserved = reserved_of(lines)
        harts.append(hart_of(lines, 1))
        harts[1].reserved = reserved_of(lines)
    return harts


def memory_of(lines):
    """The address of memory, and its bytes."""
    found = lines.take(MEMORY, "the line of memory")
    base, size = int(found[1], 16), int(found[2])
    memory, last = bytearray(size), base - WORD
    while lines.at < len(lines.lines):
        found = lines.take(DOUBLE, "a line of eight bytes")
        at, value = int(found[1], 16), int(found[2], 16)
        if at <= last or at - base > size - WORD or (at - base) % WORD or not 0 < value < 1 << 64:
            raise Fault(f"this is not a line of eight bytes of memory: {found[0]}")
        memory[at - base : at - base + WORD] = value.to_bytes(WORD, "little")
        last = at
    return base, bytes(memory)


def state_of(lines):
    """The state of a section, by the lines after its head line; None if the run had none there."""
    if lines == [NONE]:
        return None
    lines = Lines(lines)
    status = lines.take(STATUS, "how the program stands")
    count, console, cursor = (int(lines.take(f"{name} {NUMBER}", f"the line of {name}")[1]) for name in COUNTS)
    end = int(lines.take(BREAK, "the line of break")[1], 16)
    harts = harts_of(lines)
    base, memory = memory_of(lines)
    ending = None if status[1] else (status[2], int(status[3]))
    return State(ending, count, console, cursor, end, harts, base, memory)
