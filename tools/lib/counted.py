"""Reads the sections of `./thynvm observe OUT --causes --epochs --wear ..` (docs/OBSERVING.md): how many
cycles there were of each cause, the same of each stretch of cycles, and how many writes each place of the NVM took."""

import re
from dataclasses import dataclass
from typing import Optional

from lib.report import NUMBER

# The head lines of the sections.
CAUSES, EPOCHS, WEAR = "causes", "epochs", "wear"
HEADS = (CAUSES, EPOCHS, WEAR)

# The causes of cycles, of which each cycle has one; and what is counted beside them.
CYCLES = (
    "boot instructions meanwhile flushes merges seals promotions copies homes pages processor tables commits barriers nvmdrains "
    "dramdrains nothing"
).split()
WAITING = "waiting"
NAMES = [*CYCLES, WAITING]

# The numbers of the totals that causes agree with: first word and names, and the causes that make the same.
AGREEING = (
    ("cycles", ("boot",), ("boot",)),
    ("cycles", ("nvmdrain",), ("nvmdrains",)),
    ("cycles", ("dramdrain",), ("dramdrains",)),
    ("hart", ("moved", "retired"), ("instructions", "meanwhile")),
    ("hart", ("flushed",), ("flushes",)),
    ("hart", ("merged",), ("merges",)),
    ("hart", ("promoted",), ("promotions",)),
    ("hart", ("sealed",), ("seals",)),
    ("engine", ("copied",), ("copies", "homes")),
    ("engine", ("page",), ("pages",)),
    ("engine", ("state",), ("processor",)),
    ("engine", ("table",), ("tables",)),
    ("engine", ("barrier", "committed"), ("barriers",)),
    ("engine", ("commit",), ("commits",)),
    ("waiting", ("",), (WAITING,)),
)

# The columns of a stretch before its numbers, and how one ends.
COLUMNS, ENDS = ["epoch", "from", "to", "end"], ("boot", "seal", "cut", "run")

PLACE = re.compile(f"{NUMBER} {NUMBER}")


class Fault(Exception):
    """Why lines are not those of a section, in words for the one who called."""


@dataclass
class Stretch:
    """A stretch of cycles: the epoch that executes in it (None in a boot), its first and last cycle, how it ended, and its
    numbers by name."""

    epoch: Optional[int]
    first: int
    last: int
    end: str
    counts: dict


def checked(counts, cycles, what):
    """The numbers, whose causes have to make so many cycles."""
    found = sum(counts[name] for name in CYCLES)
    if found != cycles:
        raise Fault(f"the causes of {what} make {found} cycles, and have to make {cycles}")
    return counts


def causes_of(lines, totals):
    """How many cycles there were of each cause, which agree with the totals."""
    counts = {}
    for name, line in zip(NAMES, [*lines, *[""] * len(NAMES)]):
        found = re.fullmatch(f"{name} {NUMBER}", line)
        if not found:
            raise Fault(f"in place of its line '{name} ..' it has: {line}")
        counts[name] = int(found[1])
    if len(lines) > len(NAMES):
        raise Fault(f"it has another line: {lines[len(NAMES)]}")
    for word, names, causes in AGREEING:
        whole = sum(totals[word][name] for name in names)
        if sum(counts[name] for name in causes) != whole:
            raise Fault(f"its numbers of {' and '.join(causes)} make {sum(counts[name] for name in causes)}, and not {whole}")
    return checked(counts, totals["cycles"][""], "the run")


def stretch_of(line, before):
    """A stretch of cycles, which begins after these."""
    cells = line.split("\t")
    if len(cells) != len(COLUMNS) + len(NAMES) or cells[3] not in ENDS:
        raise Fault(f"this is not a row of a stretch of cycles: {line}")
    numbers = [cells[1], cells[2], *cells[len(COLUMNS) :], *([] if cells[0] == "-" else [cells[0]])]
    if not all(re.fullmatch(NUMBER, cell) for cell in numbers):
        raise Fault(f"this is not a row of a stretch of cycles: {line}")
    counts = dict(zip(NAMES, map(int, cells[len(COLUMNS) :])))
    stretch = Stretch(None if cells[0] == "-" else int(cells[0]), int(cells[1]), int(cells[2]), cells[3], counts)
    if stretch.first != before + 1:
        raise Fault(f"a row begins with cycle {stretch.first}, and has to begin with {before + 1}")
    checked(counts, stretch.last - before, f"the row from cycle {stretch.first} on")
    return stretch


def epochs_of(lines, totals):
    """The stretches of all cycles."""
    if not lines or lines[0].split("\t") != [*COLUMNS, *NAMES]:
        raise Fault(f"in place of the names of its columns it has: {lines[0] if lines else ''}")
    found, before = [], 0
    for line in lines[1:]:
        found.append(stretch_of(line, before))
        before = found[-1].last
    if before != totals["cycles"][""]:
        raise Fault(f"its rows end with cycle {before}, and have to end with {totals['cycles']['']}")
    return found


def wear_of(lines, totals):
    """How many writes each place took that took one."""
    wear = {}
    for line in lines:
        found = PLACE.fullmatch(line)
        if not found or found[2] == "0":
            raise Fault(f"this is not a line of a place: {line}")
        place = int(found[1])
        if wear and place <= next(reversed(wear)):
            raise Fault(f"its places do not rise at {place}")
        wear[place] = int(found[2])
    if sum(wear.values()) != totals["nvm"]["writes"]:
        raise Fault(f"its places took {sum(wear.values())} writes, and there are {totals['nvm']['writes']}")
    return wear


READERS = {CAUSES: causes_of, EPOCHS: epochs_of, WEAR: wear_of}


def read(sections, totals):
    """What each section has that is one of these, by its head line."""
    found = {}
    for head in HEADS:
        if head in sections:
            try:
                found[head] = READERS[head](sections[head], totals)
            except Fault as fault:
                raise Fault(f"behind its line '{head}': {fault}") from None
    return found
