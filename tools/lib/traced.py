"""Reads the instructions of a run in what `./thynvm observe OUT --trace ..` has written (docs/OBSERVING.md)."""

import re
from dataclasses import dataclass
from typing import Optional

from lib.report import NUMBER
from lib.states import HEX

# The head line of the section, the line in place of all others if there is none, and a line of an instruction.
HEAD, NONE = "trace", "none"
ROW = re.compile(f"{NUMBER} ([01]) {HEX} ({HEX}|-)(?: {HEX} ([1248]) {HEX})?")


class Fault(Exception):
    """Why lines are not those of a trace, in words for the one who called."""


@dataclass(frozen=True)
class Access:
    """The bytes that an instruction loaded or stored: the address, how many, and their number after it."""

    at: int
    width: int
    value: int


@dataclass(frozen=True)
class Traced:
    """An instruction that retired: the cycle, its hart, address and word (None if it could not be fetched), and what it loaded or
    stored, or None."""

    cycle: int
    hart: int
    pc: int
    word: Optional[int]
    access: Optional[Access] = None


def row_of(line):
    """The instruction of a line."""
    found = ROW.fullmatch(line)
    if not found:
        raise Fault(f"this is not a line of an instruction: {line}")
    cycle, hart, pc, word, _, at, width, value = found.groups()
    access = Access(int(at, 16), int(width), int(value, 16)) if at else None
    return Traced(int(cycle), int(hart), int(pc, 16), None if word == "-" else int(word, 16), access)


def rows_of(lines, totals):
    """The instructions of some lines, whose cycles rise, as in each at most one retires."""
    if lines == [NONE]:
        return []
    if not lines:
        raise Fault("it has no line")
    rows = [row_of(line) for line in lines]
    for before, row in zip([None, *rows], rows):
        if before and row.cycle <= before.cycle:
            raise Fault(f"its cycles do not rise at {row.cycle}")
    if rows[-1].cycle > totals["cycles"][""]:
        raise Fault(f"it has cycle {rows[-1].cycle}, and the run {totals['cycles']['']} cycles")
    if len(rows) > totals["hart"]["retired"]:
        raise Fault(f"it has {len(rows)} instructions, and {totals['hart']['retired']} retired")
    return rows


def read(sections, totals):
    """The instructions among sections, or None if there is no section of them."""
    if HEAD not in sections:
        return None
    try:
        return rows_of(sections[HEAD], totals)
    except Fault as fault:
        raise Fault(f"behind its line '{HEAD}': {fault}") from None
