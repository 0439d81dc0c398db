"""Reads what `./thynvm observe OUT ..` has written (docs/OBSERVING.md).

It is outside of what is proved: it reads the text by itself, and refuses one that is not whole or whose sums are wrong."""

import re
from dataclasses import dataclass
from typing import Optional

from lib import counted, report, states, traced
from lib.report import NUMBER

EVENT = re.compile(rf"{NUMBER} (0|[1-9][0-9]*|-) ([a-z].*)")

TRAP = re.compile(r"trap [0-9a-f]+(?: [0-9a-f]+){0,2}( hart [01])?")

# The head line of the program counters, a line of one of them, and the line in place of all if none retired.
PCS, PC, NONE = "pcs", re.compile(rf"(0|[1-9a-f][0-9a-f]*) {NUMBER}"), "none"

# The totals in their order: the first word of each line, and the names of its numbers. A name of None is a number that
# stands directly behind the first word.
TOTALS = (
    ("cycles", (None, "boot", "hart", "engine", "nvmdrain", "dramdrain")),
    ("hart", ("moved", "retired", "flushed", "merged", "promoted", "sealed")),
    ("engine", ("copied", "page", "state", "table", "barrier", "commit", "committed")),
    ("waiting", (None,)),
    ("nvm", ("reads", "writes", "barriers")),
    ("lost", (None,)),
    ("epochs", (None, "early", "overlapped")),
)

# The same with two harts: what each of them did stands behind the line of both.
TOTALS_OF_TWO = (*TOTALS[:2], ("hart0", ("moved", "retired")), ("hart1", ("moved", "retired")), *TOTALS[2:])


class Fault(Exception):
    """Why a text is not what `observe` writes, in words for the one who called."""


@dataclass
class Event:
    """A line of an event: its cycle, how many instructions were retired then (None for a cut in a boot), and the report's line."""

    cycle: int
    count: Optional[int]
    line: str

    @property
    def word(self):
        """The first word of the report's line."""
        return self.line.partition(" ")[0]

    @property
    def told(self):
        """What the report's line says, or None if it is none of an event."""
        found = report.event_of(self.line)
        return None if isinstance(found, report.Closing) else found


@dataclass
class Observed:
    """What a run came to."""

    events: list
    trap: Optional[str]
    totals: dict  # first word: name: number; what stands directly behind the first word has the name ""
    pcs: Optional[dict] = None  # program counter: how often it retired; None if this was not asked for
    states: Optional[dict] = None  # head line of a state that was asked for: the state, or None if there was none
    trace: Optional[list] = None  # the instructions that retired, in order; None if they were not asked for
    causes: Optional[dict] = None  # cause: how many cycles it has; None if this was not asked for
    epochs: Optional[list] = None  # the stretches of cycles; None if they were not asked for
    wear: Optional[dict] = None  # place: how many writes it took; None if this was not asked for

    def number(self, word, name=""):
        return self.totals[word][name]


def looks_observed(lines):
    """Whether lines are those of `observe` and not of a report, by the first of them."""
    return bool(lines) and bool(EVENT.fullmatch(lines[0]) or re.match(r"cycles [0-9]+ boot ", lines[0]))


def totals_of(line, word, names):
    """The numbers of a line of totals, by their names."""
    parts = "".join(f" {NUMBER}" if name is None else f" {name} {NUMBER}" for name in names)
    found = re.fullmatch(word + parts, line)
    if not found:
        raise Fault(f"this is not the line '{word} ..' of the totals: {line}")
    return {name or "": int(number) for name, number in zip(names, found.groups())}


def pcs_of(lines):
    """How often each program counter retired, by the lines after the head line."""
    if lines == [NONE]:
        return {}
    counts = {}
    for line in lines:
        found = PC.fullmatch(line)
        if not found:
            raise Fault(f"this is not a line of a program counter: {line}")
        pc, count = int(found[1], 16), int(found[2])
        if counts and pc <= next(reversed(counts)):
            raise Fault(f"its program counters do not rise at {found[1]}")
        if not count:
            raise Fault(f"the program counter {found[1]} has the count 0")
        counts[pc] = count
    if not counts:
        raise Fault(f"behind its line '{PCS}' it has no line")
    return counts


def is_head(line):
    """Whether a line is the head line of what was asked for in addition."""
    return line in (PCS, traced.HEAD, *counted.HEADS) or bool(states.HEAD.fullmatch(line))


def sections_of(lines):
    """The lines before the first head line; and of each head line the lines after it."""
    first, sections = [], {}
    for line in lines:
        if not is_head(line):
            (sections[head] if sections else first).append(line)
        elif line in sections:
            raise Fault(f"its line '{line}' stands twice")
        else:
            head = line
            sections[head] = []
    return first, sections


def states_of(sections):
    """The states among sections, by their head lines."""
    found = {}
    for head, lines in sections.items():
        if states.HEAD.fullmatch(head):
            try:
                found[head] = states.state_of(lines)
            except states.Fault as fault:
                raise Fault(f"behind its line '{head}': {fault}") from None
    return found


def read(lines):
    """What lines say that `observe` has written of a run, a resumed run or one of a made program."""
    events, k = [], 0
    while k < len(lines) and (found := EVENT.fullmatch(lines[k])):
        cycle, count, line = found.groups()
        events.append(Event(int(cycle), None if count == "-" else int(count), line))
        k += 1
    trap = TRAP.fullmatch(lines[k]) if k < len(lines) else None
    rest = lines[k + 1 :] if trap else lines[k:]
    rest, sections = sections_of(rest)
    retired = sections.get(PCS)
    if not events and not rest:
        raise Fault("it has no cycles: `observe` writes none of a run on the plain machine")
    two = len(rest) == len(TOTALS_OF_TWO)
    if len(rest) != len(TOTALS) and not two:
        wanted = f"the {len(TOTALS)} of the totals, or {len(TOTALS_OF_TWO)} with two harts"
        raise Fault(f"behind its events it has {len(rest)} lines, and not {wanted}")
    totals = {word: totals_of(line, word, names) for line, (word, names) in zip(rest, TOTALS_OF_TWO if two else TOTALS)}
    if trap and two != bool(trap[1]):
        raise Fault("its trap and its totals are not of as many harts")
    for word, whole, parts in (
        ("cycles", totals["cycles"][""], [number for name, number in totals["cycles"].items() if name]),
        ("hart", totals["cycles"]["hart"], totals["hart"].values()),
        ("engine", totals["cycles"]["engine"], totals["engine"].values()),
    ):
        if sum(parts) != whole:
            raise Fault(f"the sum of its line '{word} ..' is {sum(parts)}, and has to be {whole}")
    if two:
        moved, both = (totals["hart0"][name] + totals["hart1"][name] for name in ("moved", "retired"))
        if both != totals["hart"]["retired"]:
            raise Fault(f"its harts retired {both} instructions, and have to have retired {totals['hart']['retired']}")
        if moved > totals["hart"]["moved"]:
            raise Fault(f"its harts have {moved} moves, and there are {totals['hart']['moved']}")
    pcs = None if retired is None else pcs_of(retired)
    if pcs is not None and sum(pcs.values()) != totals["hart"]["retired"]:
        raise Fault(f"its program counters retired {sum(pcs.values())} times, and have to have {totals['hart']['retired']} times")
    cycles = [event.cycle for event in events]
    if cycles != sorted(cycles) or (cycles and cycles[-1] > totals["cycles"][""] + 1):
        raise Fault("the cycles of its events do not rise, or go past the last one")
    try:
        trace = traced.read(sections, totals)
        counts = counted.read(sections, totals)
    except (counted.Fault, traced.Fault) as fault:
        raise Fault(str(fault)) from None
    more = {head: counts.get(head) for head in counted.HEADS}
    return Observed(events, trap[0] if trap else None, totals, pcs, states_of(sections), trace, **more)
