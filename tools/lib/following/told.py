"""What the lines of a report have said, one after the other."""

import re
import time

from lib import report
from lib.images import PER_PAGE
from lib.report import Committed, Compared, Cut, Digest, Ended, NUMBER, Reloaded, Restored, Sealed, Summary

# What a line is: of an event, or of a run of `compare`, or of an end or of sums; each other one says why a run stopped, or why
# none began.
EVENT, RUN, END, CLOSING = "event", "run", "end", "closing"

# How long a bar is.
BAR = 20

# The line of `make`, which has no run.
MADE = re.compile(rf"made {NUMBER} {NUMBER}")


class Told:
    """What the lines of a report have said."""

    def __init__(self):
        # The last line, what it is, and what it says.
        self.line, self.kind, self.event = "", EVENT, None
        # The last epoch that ended, and whether the run has ended.
        self.epoch, self.has_ended = None, False
        # Whether the program was loaded or a checkpoint restored; and whether it was loaded since power came on.
        self.began = self.loaded = False
        # The cuts, and the cycle of the last one.
        self.cuts = self.cycle = 0
        # The count since which power is on, the last count, and the instructions in all.
        self.start = self.count = self.done = 0
        # When the program began to execute, and when its last epoch ended.
        self.first = self.latest = None

    def take(self, line):
        """Notes a line; what it is."""
        event, before = report.event_of(line), self.event
        self.line, self.event = line, event
        self.note(event)
        is_of_restart = isinstance(event, Digest) and isinstance(before, Restored)
        if is_of_restart or isinstance(event, (Sealed, Committed, Cut, Restored, Reloaded)):
            self.kind = EVENT
        elif isinstance(event, Compared):
            self.kind = RUN
        else:
            self.kind = END if isinstance(event, (Ended, Digest, Summary)) or MADE.fullmatch(line) else CLOSING
        return self.kind

    def note(self, event):
        """Notes what a line says."""
        if isinstance(event, Sealed):
            self.done += event.count - self.count
            self.epoch, self.count, self.latest = event.epoch, event.count, time.monotonic()
        elif isinstance(event, Committed):
            self.begin()
            self.loaded = self.loaded or event.epoch == 0
        elif isinstance(event, Cut):
            self.cuts, self.cycle, self.loaded, self.start = self.cuts + 1, event.cycle, False, self.count
        elif isinstance(event, Restored):
            self.begin()
            self.start = self.count = event.count
        elif isinstance(event, Reloaded):
            self.start = self.count = 0
        elif isinstance(event, Ended):
            self.has_ended = True

    def begin(self):
        self.began, self.first = True, self.first or time.monotonic()

    def how_far(self, seconds):
        """How far the run is, as far as the report says that."""
        if self.epoch is None:
            return f"{self.line or 'no line of the report yet'}, {seconds:.0f} s"
        spent = self.latest - (self.first or self.latest)
        rate = f", {self.done / spent:.0f} a second" if spent > 0.1 else ""
        return f"epoch {self.epoch} ended at {self.count} instructions{rate}, {seconds:.0f} s"

    def bar(self, seconds, pages, last):
        """The same with the cycles of an observed or swept run with so many pages, which ends at the latest after the last one."""
        cycles = min(self.least_cycles(pages), last)
        full = BAR * cycles // last
        far = f"epoch {self.epoch} ended" if self.epoch is not None else self.line or "no line of the report yet"
        return f"[{'#' * full}{' ' * (BAR - full)}] at least {cycles} of {last} cycles, {far}, {seconds:.0f} s"

    def least_cycles(self, pages):
        """The cycles that the run had at least: those up to the last cut; one for each block, if the program was loaded since;
        and two for each instruction, which is fetched and retires."""
        return self.cycle + (PER_PAGE * pages if self.loaded else 0) + 2 * (self.count - self.start)


def without_events(lines):
    """Of the lines of a report those that --quiet leaves."""
    told = Told()
    return [line for line in lines if told.take(line) != EVENT]
