"""Calls of the program, the events of a report one after another, and what a program comes to."""

import math
import os
from collections import Counter
from dataclasses import dataclass, field
from typing import Optional

from lib import calls, report, torn
from lib.calls import wants
from lib.random_runs.drawn import DEFAULTS, said


@dataclass
class Answer:
    """What a call answered: status, standard output, and the report's lines."""

    status: int
    printed: bytes
    lines: list

    @property
    def last(self):
        return self.lines[-1] if self.lines else "nothing reported"


@dataclass
class Caller:
    """Where a case makes its calls: a folder for its files, what was called, and sums for the end."""

    program: str
    folder: str
    seconds: float
    observer: Optional[str] = None  # what is called over an NVM that tears, if it is to tear
    unsaid: tuple = ()  # options that are left out if they have their default
    calls: list = field(default_factory=list)
    sums: Counter = field(default_factory=Counter)

    def write(self, name, data):
        with open(os.path.join(self.folder, name), "wb") as file:
            file.write(data)

    def read(self, name):
        with open(os.path.join(self.folder, name), "rb") as file:
            return file.read()

    def command(self, words):
        """The call with these words."""
        return torn.command(self.program, self.observer, words)

    def call(self, *words):
        """The answer of a call."""
        words = [str(word) for word in said(words, self.unsaid)]
        self.calls.append((words, None))
        status, printed, told, used = calls.call(self.command(words), self.folder, self.seconds)
        self.sums["microseconds"] += int(1e6 * used)
        self.calls[-1] = words, status
        fault = calls.fault_of(status, self.seconds)
        wants(not fault, fault)
        told = told.decode("utf-8", "surrogateescape")
        wants(not told or told.endswith("\n"), f"the report ends within a line: {told[-80:]!r}")
        return Answer(status, printed, told.split("\n")[:-1])


@dataclass(frozen=True)
class Mark:
    """A checkpoint: its epoch, its count of steps, and how many of these are hart 0's."""

    epoch: int
    count: int
    first: int


START = Mark(0, 0, 0)


class Report:
    """The events of a report, read one after another: each has to be possible after those before it.

    `kept` is the checkpoint that a restart finds, None if there is none, and `doubt` is what it may find besides. Of a resumed
    run these are what the saved one has left, up to its first restart."""

    def __init__(self, piece, oracle):
        self.harts, self.overlaps = piece.geometry.harts, piece.geometry.scheme == "thynvm"
        self.length, self.cuts, self.oracle = piece.pace.values["epoch"], piece.pace.cuts, oracle
        self.kept, self.doubt = piece.found
        # Whether the program runs, whether the boot has not yet read what was left, and whether a checkpoint was reported.
        self.on, self.dark, self.shown = False, piece.verb == "resume", False
        self.fell, self.restarts, self.doubtful, self.ended, self.early, self.overlapped = 0, 0, 0, 0, 0, 0
        # How many instructions each of two harts retired in each epoch that ended.
        self.end, self.digest, self.before, self.turns = None, None, "", []

    def take(self, line):
        event = report.event_of(line)
        wants(event is not None and type(event) not in (report.Closing, report.Compared), f"not a line of an event: {line!r}")
        kind = event.word
        wants(self.end is None or kind in ("memory", "summary"), f"after the end: {line!r}")
        wants(getattr(self, kind)(event), f"not possible here: {line!r}")
        self.before = kind

    def epoch(self, event):
        if not self.on or self.doubt is not None:
            return False
        one, other = event.turns or (0, 0)
        mark = Mark(event.epoch, event.count, event.count if self.harts == 1 else self.kept.first + one)
        retired = mark.count - self.kept.count
        self.doubt = mark
        self.turns.append((one, other))
        self.ended += 1
        self.early += event.room is not None
        right = mark.epoch == self.kept.epoch + 1 and 0 <= retired <= self.length
        right = right and (event.turns is not None) == (self.harts == 2)
        right = right and (event.turns is None or one + other == retired)
        right = right and (event.cause == "end" or (event.cause == "length") == (retired == self.length))
        right = right and (self.oracle.count is None or (event.cause == "end") == (mark.first == self.oracle.count))
        free, dirty, needed = event.room or (0, 0, 1)
        return right and needed in (1, 2) and free < dirty + needed

    def commit(self, event):
        right = not self.dark and self.doubt is not None and self.doubt.epoch == event.epoch
        self.kept, self.doubt, self.on, self.shown = self.doubt, None, True, True
        self.overlapped += event.overlapped
        return right and event.overlapped <= (self.length if self.overlaps else 0)

    def cut(self, event):
        self.fell += 1
        self.on, self.dark = False, True
        return self.fell <= len(self.cuts) and (event.number, event.cycle) == (self.fell, self.cuts[self.fell - 1])

    def reload(self, _event):
        self.doubt, self.dark = START, False
        return self.before == "cut" and self.kept is None

    def restart(self, event):
        found = [mark for mark in (self.kept, self.doubt) if mark and (mark.epoch, mark.count) == (event.epoch, event.count)]
        if not self.dark or not found:
            return False
        self.restarts += 1
        self.doubtful += found[0] == self.doubt
        self.kept, self.doubt, self.on, self.dark, self.shown = found[0], None, True, False, True
        return True

    def exit(self, event):
        self.end = event.word, event.number
        return self.on and self.doubt is None and self.kept.count == event.count

    trap = exit

    def memory(self, event):
        self.digest = event.digest
        known = self.oracle.digests.setdefault(self.kept.first, event.digest)
        right = self.oracle.count is None or known == event.digest
        wants(right, f"at {self.kept.first} another memory than before: {event.digest}")
        return self.before in ("restart", "exit", "trap")

    def summary(self, event):
        due = self.end is not None and self.end[0] == "exit"
        return due and (event.epochs, event.early, event.overlapped) == (self.ended, self.early, self.overlapped)


def read_report(piece, answer, oracle):
    """The report of a call that was not refused, up to its closing line: it has ended or come to its limit."""
    told, lines = Report(piece, oracle), list(answer.lines)
    closing = lines.pop() if answer.status not in (0, 1) and lines else None
    for line in lines:
        told.take(line)
    states = sum(line.startswith(("restart ", "exit ", "trap ")) for line in lines)
    wants(sum(line.startswith("memory ") for line in lines) == states * piece.digest, "a digest is missing, or not due")
    if told.end is None:
        limit = piece.pace.values.get("limit", DEFAULTS["limit"])
        wants((answer.status, closing) == (8, f"limit {limit}"), f"status {answer.status}, {answer.last!r}, and no end")
        due = sum(cut <= limit for cut in piece.pace.cuts)
        wants(told.fell == due, f"{told.fell} cuts fell up to the limit, and not {due}")
    else:
        due = 0 if told.end[0] == "exit" else 1
        wants(answer.status == due, f"status {answer.status} after {' '.join(map(str, told.end))}")
        wants((piece.verb == "bench" and due == 0) == (told.before == "summary"), "the line of sums is missing, or not due")
    return told


class Plain:
    """What the plain machine makes of a program: its end, None if it does not come to one, the count there, what it printed."""

    def __init__(self, caller, words, limit, digest):
        self.caller, self.words, self.consoles, self.digests = caller, words, {}, {}
        answer = caller.call("plain", *words, "--limit", limit, *["--digest"] * digest)
        self.printed, self.end, self.count = answer.printed, None, None
        if answer.status == 8:
            wants(answer.lines == [f"limit {limit}"], f"`plain` came to its limit with {answer.lines}")
            self.count = math.inf
            return
        end, *more = map(report.event_of, answer.lines or [""])
        fits = isinstance(end, report.Ended) and len(more) == digest and all(isinstance(it, report.Digest) for it in more)
        wants(fits, f"`plain` answered with status {answer.status} and {answer.lines}")
        self.end, self.count = (end.word, end.number), end.count
        due = 0 if end.word == "exit" else 1
        wants(answer.status == due, f"status {answer.status} of `plain`, and {answer.lines[0]!r}")
        if digest:
            self.digests[self.count] = more[0].digest

    def shows(self, told, printed):
        """Whether this is the console at the checkpoint of a report that stopped."""
        at = told.kept.first if told.shown else 0
        if at == 0 or not self.printed or at == self.count:
            return printed == (self.printed if at and at == self.count else b"")
        if at not in self.consoles:
            answer = self.caller.call("plain", *self.words, "--limit", at)
            wants((answer.status, answer.lines) == (8, [f"limit {at}"]), f"`plain` at {at} answered {answer.last!r}")
            self.consoles[at] = answer.printed
        return printed == self.consoles[at]


class Known:
    """The same of a program for two harts of which this is known beforehand, but for the counts."""

    def __init__(self, printed, code, digest, steps):
        self.printed, self.end, self.count = printed, ("exit", code), None
        self.digest, self.digests, self.steps = digest, {}, steps

    def shows(self, told, printed):
        """Whether the console begins so. (How far it is at a checkpoint depends on the turns.)"""
        return self.printed.startswith(printed) if told.shown else not printed


@dataclass
class Guest:
    """A program with its input, and what it comes to if `plain` does not say it; of a made one also its number."""

    data: bytes
    source: bytes = b""
    known: Optional[Known] = None
    number: Optional[int] = None
