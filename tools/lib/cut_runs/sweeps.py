"""Runs that are ended at their restart, read off sweeps. A row of several picks doesn't say which of them led where, so each tear
has a sweep of its own, and the rows of all of them are of the same cycles."""

import os
import re
import subprocess
import sys
import tempfile
from collections import Counter

from lib import options, repository
from lib.cut_runs.jobs import LONGEST, flat
from lib.options import Refused
from lib.repository import SCRIPT
from lib.swept import Swept

# What tools/sweep says if the run ends before its first cycle.
BEFORE = "the run ends before cycle"

DIFFERS = re.compile(r"differs (\d+) by pick \d+")


def can_say(words, verb, pairs):
    """Whether sweeps say what the runs of a call come to. A sweep has no cut of its own, refuses --gap, and reports no run of its
    own; it names no events of an image before a cut; and another program may have no sweep."""
    wanted = words.until_restart and verb == "run" and words.around is None and words.thynvm == SCRIPT
    return wanted and words.cuts is None and words.log is None and pairs.get("--gap", "0") == "0"


def call_of(words, own, job, tear, folder):
    """The call that sweeps the range by one tear."""
    between = ["--from", words.first, "--to", words.last, "--step", words.step, "--tears", tear, "--keep", folder, "--jobs", words.jobs]
    torn = ["--torn"] if words.torn else []
    run = ["run", job.file, *flat(job.pairs), "--limit", LONGEST]
    parallel = [] if own is None else ["--", *own]
    return [sys.executable, repository.path("tools", "sweep"), *map(str, [*between, *torn, *run, *parallel])]


def first_of(name):
    """The first cycle of a piece, by its name."""
    return int(name.split("-")[0])


def swept_by(words, own, job, tear):
    """What the pieces of a tear's sweep have written, in order; none if the run ends before the range."""
    with tempfile.TemporaryDirectory() as folder:
        call = call_of(words, own, job, tear, folder)
        done = subprocess.run(call, stdin=subprocess.DEVNULL, stdout=subprocess.DEVNULL, stderr=subprocess.PIPE, text=True)
        if BEFORE in done.stderr:
            return []
        if done.returncode not in (0, 1):
            raise Refused(options.in_a_line(done.stderr))
        pieces = sorted(os.listdir(folder), key=first_of)
        return [Swept(options.lines_of(os.path.join(folder, piece), "a piece")) for piece in pieces]


class Led:
    """What the cuts of a range led to, by their tears: rows of cycles, with a row of each tear."""

    def __init__(self, words, tears, swept):
        self.step, self.tears = words.step, tears
        self.rows = list(zip(*([row for piece in pieces for row in piece.rows] for pieces in swept)))
        self.differs = [{int(DIFFERS.match(line)[1]) for piece in pieces for line in piece.differs} for pieces in swept]
        for row, *others in self.rows:
            if any((other.first, other.last) != (row.first, row.last) for other in others):
                raise Refused(f"the sweeps of two tears have other rows from cycle {row.first} on")
        self.cuts = len(range(words.first, words.last + 1, words.step))

    def count(self, row):
        """How many cuts fall in a row."""
        return (row.last - row.first) // self.step + 1

    def fell(self):
        """At how many cuts power was cut."""
        return sum(self.count(row) for row, *_ in self.rows)

    def wrong(self):
        """Each row and tear with a state that is not the plain machine's."""
        for rows in self.rows:
            for tear, row, differs in zip(self.tears, rows, self.differs):
                if row.first in differs:
                    yield tear, row

    def summary(self):
        """What they came to, as lines."""
        wrong = list(self.wrong())
        for tear, row in wrong:
            cuts = f"cut {row.first}" if row.last == row.first else f"cuts {row.first} to {row.last}"
            yield f"{cuts} tear {tear} differs in the state"
        runs, differ = self.cuts * len(self.tears), sum(self.count(row) for _, row in wrong)
        fell = self.fell()
        yield f"runs {runs}, {differ} differ, {runs - fell * len(self.tears)} ended before the cut"
        restarts, decided = Counter(), 0
        for rows in self.rows:
            count = self.count(rows[0])
            led = [lead.epoch for row in rows for lead in row.leads]
            for epoch in led:
                restarts[epoch] += count
            decided += count * (len(set(led)) > 1)
        reloads = restarts.pop(None, 0)
        for epoch, count in sorted(restarts.items()):
            yield f"restarts of epoch {epoch}: {count}"
        yield f"reloads: {reloads}"
        yield f"the tears decided at {decided} of {fell} cuts"


def led_by(words, own, job, tears):
    """What the cuts of a call led to."""
    return Led(words, tears, [swept_by(words, own, job, tear) for tear in tears])
