"""The report's grammar (docs/FORMATS.md, "The report"): a line is an event with its numbers, or a closing line."""

import re
from dataclasses import dataclass
from typing import Optional, Tuple

NUMBER = "(0|[1-9][0-9]*)"


@dataclass(frozen=True)
class Sealed:
    """`epoch E ends at K by CAUSE`: an epoch has ended. The cause is `length`, `end` or `exhausted`."""

    epoch: int
    count: int
    cause: str
    room: Optional[Tuple[int, int, int]]  # of `exhausted`: free entries, dirty lines, and blocks to be written
    turns: Optional[Tuple[int, int]]  # with two harts: how many instructions each of them retired

    word = "epoch"


@dataclass(frozen=True)
class Committed:
    """`commit E overlapped N`: a checkpoint was committed."""

    epoch: int
    overlapped: int

    word = "commit"


@dataclass(frozen=True)
class Cut:
    """`cut I at cycle C`: power was cut."""

    number: int
    cycle: int

    word = "cut"


@dataclass(frozen=True)
class Restored:
    """`restart E at K`: the machine goes on from a checkpoint."""

    epoch: int
    count: int

    word = "restart"


@dataclass(frozen=True)
class Reloaded:
    """`reload`: there was no checkpoint."""

    word = "reload"


@dataclass(frozen=True)
class Ended:
    """`exit V at K` or `trap C at K`: the run has ended."""

    word: str
    number: int
    count: int


@dataclass(frozen=True)
class Digest:
    """`memory HEX`: the SHA-256 of program memory."""

    digest: str

    word = "memory"


@dataclass(frozen=True)
class Summary:
    """`summary epochs E early X overlapped O`: the sums of `bench`."""

    epochs: int
    early: int
    overlapped: int

    word = "summary"


@dataclass(frozen=True)
class Compared:
    """`scheme NAME epochs E early X overlapped O writes W`: the sums of a run of `compare`."""

    scheme: str
    epochs: int
    early: int
    overlapped: int
    writes: int

    word = "scheme"


@dataclass(frozen=True)
class Closing:
    """A line with which the report of a run that had begun may close."""

    line: str

    word = "closing"


def numbers(*texts):
    return tuple(map(int, texts))


def sealed(epoch, count, cause, free, dirty, needed, one, other):
    room = None if free is None else numbers(free, dirty, needed)
    return Sealed(int(epoch), int(count), cause.split(" ")[0], room, None if one is None else numbers(one, other))


SUMS = f"epochs {NUMBER} early {NUMBER} overlapped {NUMBER}"

# Of each first word the form of its line, and what the parts of the line make.
FORMS = {
    "epoch": (
        f"epoch {NUMBER} ends at {NUMBER} by (length|end|exhausted {NUMBER} {NUMBER} {NUMBER})(?: harts {NUMBER} {NUMBER})?",
        sealed,
    ),
    "commit": (f"commit {NUMBER} overlapped {NUMBER}", lambda *parts: Committed(*numbers(*parts))),
    "cut": (f"cut {NUMBER} at cycle {NUMBER}", lambda *parts: Cut(*numbers(*parts))),
    "restart": (f"restart {NUMBER} at {NUMBER}", lambda *parts: Restored(*numbers(*parts))),
    "reload": ("reload", Reloaded),
    "exit": (f"exit {NUMBER} at {NUMBER}", lambda *parts: Ended("exit", *numbers(*parts))),
    "trap": (f"trap {NUMBER} at {NUMBER}", lambda *parts: Ended("trap", *numbers(*parts))),
    "memory": ("memory ([0-9a-f]{64})", Digest),
    "summary": (f"summary {SUMS}", lambda *parts: Summary(*numbers(*parts))),
    "scheme": (f"scheme ([a-z]+) {SUMS} writes {NUMBER}", lambda name, *parts: Compared(name, *numbers(*parts))),
}

FORMS = {word: (re.compile(form), make) for word, (form, make) in FORMS.items()}

CLOSINGS = re.compile(rf"limit {NUMBER}|nvm failed|terminal failed|memory|input {NUMBER} {NUMBER}|put .+ failed")


def event_of(line):
    """What a line of a report says, or None if it is no line of a run's report."""
    form, make = FORMS.get(line.partition(" ")[0], (None, None))
    found = form.fullmatch(line) if form else None
    if found:
        return make(*found.groups())
    return Closing(line) if CLOSINGS.fullmatch(line) else None


def events(lines, kind=None):
    """The events of some lines; only those of a kind, if one is given."""
    found = [event_of(line) for line in lines]
    return [event for event in found if event is not None and (kind is None or isinstance(event, kind))]
