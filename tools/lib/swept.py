"""What `sweep` writes: rows of cycles that leave the same images, and what these led to."""

import re
from dataclasses import dataclass, field

from lib.options import Refused

ROW = re.compile(r"cycles (\d+) (\d+) counts (\d+) (\d+) queued (\d+) images (\d+) tried (\d+)((?:, .*)?)")
LEAD = re.compile(r", (?:epoch (\d+) at (\d+)|none) times (\d+) boot (\d+) (\d+)")


@dataclass
class Lead:
    """The boots of a row that led to one checkpoint, or loaded the program: then epoch and count are None."""

    epoch: int
    count: int
    times: int
    least: int
    most: int


@dataclass
class Row:
    """Cycles after which a cut leaves the same images."""

    first: int
    last: int
    least_count: int
    most_count: int
    queued: int
    images: int
    tried: int
    leads: list

    def lost(self, lead):
        """How many instructions are lost at its last cycle by a restart of a checkpoint."""
        return self.most_count - (lead.count or 0)


@dataclass
class Sums:
    """The sums of rows, as `sweep` writes them."""

    states: int = 0
    rows: int = 0
    restarts: dict = field(default_factory=dict)
    reloads: int = 0
    decided: int = 0
    longest: int = 0
    most_lost: int = 0
    lost: int = 0

    def add(self, row):
        """Adds a row."""
        self.rows += 1
        self.decided += len(row.leads) > 1
        for lead in row.leads:
            self.states += lead.times
            self.longest = max(self.longest, lead.most)
            self.most_lost = max(self.most_lost, row.lost(lead))
            self.lost += row.lost(lead) * lead.times
            if lead.epoch is None:
                self.reloads += lead.times
            else:
                self.restarts[lead.epoch] = self.restarts.get(lead.epoch, 0) + lead.times

    def lines(self):
        """Its lines."""
        return [
            f"states {self.states} rows {self.rows}",
            *(f"restarts {epoch} {times}" for epoch, times in sorted(self.restarts.items())),
            f"reloads {self.reloads}",
            f"decided {self.decided}",
            f"longest boot {self.longest}",
            f"lost most {self.most_lost} sum {self.lost}",
        ]


def optional(text):
    """A number, if there is one."""
    return None if text is None else int(text)


def row_of(line):
    """The row of a line, or None if it is another one."""
    found = ROW.fullmatch(line)
    if not found:
        return None
    *numbers, rest = found.groups()
    leads = [Lead(optional(epoch or None), optional(count or None), *map(int, more)) for epoch, count, *more in LEAD.findall(rest)]
    if "".join(match.group() for match in LEAD.finditer(rest)) != rest:
        raise Refused(f"no lead of a row: {rest}")
    return Row(*map(int, numbers), leads)


class Swept:
    """What a sweep has written: its rows, the lines of differences, and the last line."""

    def __init__(self, lines):
        self.rows = [row for row in map(row_of, lines) if row]
        self.differs = [line for line in lines if line.startswith("differs ")]
        self.last = lines[-1] if lines else ""
        if not re.fullmatch(r"(exit|trap) \d+ at \d+|(to|limit) \d+", self.last):
            raise Refused(f"the text does not end as that of a sweep: {self.last}")

    def reached_end(self):
        """Whether the run ended in it."""
        return not self.last.startswith("to ")
