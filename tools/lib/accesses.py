"""Reads the table of `./thynvm observe OUT --accesses TRACE ..` (docs/FORMATS.md, "The table of accesses").

It is outside of what is proved: it reads the text by itself, and refuses one that is not whole."""

import re
from dataclasses import dataclass

from lib.counted import CYCLES
from lib.report import NUMBER

COLUMNS = ["cycle", "device", "access", "place", "cause"]

# The devices whose accesses are listed, each with a trace of its own.
DEVICES, READ, WRITE = ("nvm",), "read", "write"

# The line in place of all rows if there is no access.
NONE = "none"


class Fault(Exception):
    """Why a text is not such a table, in words for the one who called."""


@dataclass(frozen=True)
class Access:
    """A row: the cycle, the device, whether a block is written there or read, its place, and the cause of the cycle."""

    cycle: int
    device: str
    writes: bool
    place: int
    cause: str


def access_of(line):
    """The access of a row."""
    cells = line.split("\t")
    if len(cells) != len(COLUMNS):
        raise Fault(f"this is not a row of an access: {line}")
    cycle, device, access, place, cause = cells
    numbers = re.fullmatch(NUMBER, cycle) and re.fullmatch(NUMBER, place)
    if not numbers or device not in DEVICES or access not in (READ, WRITE) or cause not in CYCLES:
        raise Fault(f"this is not a row of an access: {line}")
    return Access(int(cycle), device, access == WRITE, int(place), cause)


def follows(before, after):
    """Whether a row may stand behind another: in a later cycle, or in the same one, which has one cause."""
    return after.cycle > before.cycle or (after.cycle, after.cause) == (before.cycle, before.cause)


def read(lines):
    """The accesses, in the order of the rows."""
    if not lines or lines[0].split("\t") != COLUMNS:
        raise Fault(f"in place of the names of its columns it has: {lines[0] if lines else ''}")
    if lines[1:] == [NONE]:
        return []
    if not lines[1:]:
        raise Fault(f"it has neither a row nor the line {NONE}")
    found = []
    for line in lines[1:]:
        found.append(access_of(line))
        if len(found) > 1 and not follows(found[-2], found[-1]):
            raise Fault(f"this row stands behind one that it cannot follow: {line}")
    return found
