"""What a call has to answer, and whether it does: its status, its outputs, and each line of its report."""

import hashlib
import os
from collections import Counter
from dataclasses import dataclass, field
from typing import Optional

from lib import calls, report, torn
from lib.calls import wants
from lib.guest import made_file
from lib.hostile_calls.rules import RESUMED, RUN, Checkpoint, Due, closings, image_refusal, read_image, settings, test_file
from lib.program import MOST_BYTES, MOST_IMAGE_BYTES, OPERANDS, SCHEMES


@dataclass
class Plan:
    """A call that is not refused: its command and values, and of `resume` the checkpoint that it begins with."""

    verb: str
    values: dict
    checkpoint: Checkpoint = None


def fetch(folder, name, most=MOST_BYTES):
    try:
        with open(os.path.join(folder, name) if name else "", "rb") as file:
            fits = os.fstat(file.fileno()).st_size <= most
            data = file.read() if fits else b""
    except FileNotFoundError:
        raise Due(3, f"fetch {name} missing") from None
    except OSError:
        raise Due(3, f"fetch {name} failed") from None
    if not fits:
        raise Due(3, f"fetch {name} too long")
    return data


def plan_of(words, folder):
    """The plan of a call in a folder, or its refusal."""
    verb, v = settings(words)
    if verb == "make":
        return Plan(verb, v)
    most = MOST_IMAGE_BYTES if verb == "resume" else MOST_BYTES
    data = made_file(v["n"]) if verb == "bench" else fetch(folder, v[OPERANDS[verb][0].lower()], most)
    length = len(fetch(folder, v["input"])) if "input" in v else 0
    if verb != "resume":
        test_file(data, v)
        return Plan(verb, v)
    checkpoint = read_image(data, v, RESUMED)
    if checkpoint.cursor > length:
        raise Due(10, f"input {checkpoint.cursor} {length}")
    return Plan(verb, v, checkpoint)


def can_put(folder, name):
    """Whether a file can be written under a name."""
    path = os.path.join(folder, name)
    return name != "" and not name.endswith("/") and os.path.isdir(os.path.dirname(path)) and not os.path.isdir(path)


# Reports.


def is_of_a_run(event):
    """Whether this is an event of a run, with numbers that it may have."""
    if isinstance(event, report.Sealed) and event.room:
        return event.room[2] in (1, 2)
    if isinstance(event, report.Ended) and event.word == "trap":
        return event.number <= 7
    return event is not None and not isinstance(event, (report.Closing, report.Compared))


class Report:
    """The events of a report, read one after another: each has to be possible after those before it."""

    def __init__(self, plan):
        v = plan.values
        self.length, self.cuts, self.digest, self.harts = v["epoch"], v["cuts"], v["digest"], v["harts"]
        first = plan.checkpoint
        # The counts at the ends of epochs, the epoch sealed last, the one committed last, and whether power is on.
        self.counts = {first.epoch: first.count} if first else {0: 0}
        self.sealed = first.epoch if first else 0
        self.committed = first.epoch if first else None
        self.on = plan.verb == "plain" or first is None
        self.plain = plan.verb == "plain"
        self.fell, self.early, self.overlapped, self.ended = 0, 0, 0, 0
        self.end, self.before, self.digests, self.shown = None, "", [], False

    def take(self, line):
        event = report.event_of(line)
        wants(is_of_a_run(event), "not a line of an event", line)
        kind = event.word
        due = self.digest and self.before in ("restart", "exit", "trap")
        wants(due == (kind == "memory"), "a line `memory` is missing or not due", line)
        wants(self.end is None or kind in ("memory", "summary"), "after the end", line)
        wants(not self.plain or kind in ("exit", "trap", "memory"), "not of `plain`", line)
        wants(getattr(self, kind)(event, line), "not possible here", line)
        self.before = kind

    def epoch(self, event, _line):
        epoch, count = event.epoch, event.count
        retired = count - self.counts.get(epoch - 1, count + 1)
        right = self.on and epoch == self.sealed + 1 and self.committed == self.sealed and 0 <= retired <= self.length
        right = right and (event.turns is not None) == (self.harts == 2)
        if event.turns is not None:
            right = right and sum(event.turns) == retired
        if event.cause == "length":
            right = right and retired == self.length
        if event.room is not None:
            free, dirty, needed = event.room
            right = right and free < dirty + needed
            self.early += 1
        self.sealed, self.counts[epoch] = epoch, count
        self.ended += 1
        return right

    def commit(self, event, _line):
        right = self.on and event.epoch == self.sealed and self.committed != event.epoch and event.overlapped <= self.length
        self.committed = event.epoch
        self.overlapped += event.overlapped
        self.shown = self.shown or event.epoch > 0
        return right

    def cut(self, event, _line):
        self.fell += 1
        self.on = False
        return self.fell <= len(self.cuts) and (event.number, event.cycle) == (self.fell, self.cuts[self.fell - 1])

    def reload(self, _event, _line):
        right = self.before == "cut" and self.committed is None
        self.on, self.sealed = True, 0
        return right

    def restart(self, event, _line):
        epoch = event.epoch
        right = not self.on and epoch in (self.committed, self.sealed) and self.counts[epoch] == event.count
        self.on, self.committed, self.sealed, self.shown = True, epoch, epoch, True
        return right

    def exit(self, event, line):
        self.end = line
        return event.number <= 255 and self.is_end(event.count)

    def trap(self, event, line):
        self.end = line
        return self.is_end(event.count)

    def is_end(self, count):
        return self.plain or (self.on and self.committed == self.sealed and self.counts[self.sealed] == count)

    def memory(self, event, _line):
        self.digests.append(event.digest)
        return True

    def summary(self, event, _line):
        sums = event.epochs, event.early, event.overlapped
        return self.end.startswith("exit") and sums == (self.ended, self.early, self.overlapped)


def lines_of(errors):
    text = errors.decode("utf-8", "surrogateescape")
    wants(not text or text.endswith("\n"), f"the report ends within a line: {text[-80:]!r}")
    return text.split("\n")[:-1]


@dataclass
class Answer:
    """What a call answered: status, standard output and report; and of one that was not refused, what the report says."""

    status: int
    printed: bytes
    errors: bytes
    report: Report = None

    @property
    def word(self):
        """The answer's name in the table at the end."""
        last = self.errors.decode("utf-8", "replace").rstrip("\n").split("\n")[-1].split(" ")
        if last == [""]:
            return "nothing reported"
        if self.status in (4, 5):
            return " ".join((last[0], *last[2:3]))
        if self.status == 3:
            return f"{last[0]} {'too long' if last[-1] == 'long' else last[-1]}"
        if self.status == 2:
            return " ".join(last[:1] if last[0] == "usage" else last[:2])
        return {0: "exit", 1: "trap", 6: "terminal failed", 8: "limit", 9: "memory", 10: "input"}.get(self.status, "")


def judge_refusal(due, answer):
    wants(answer.status == due.status, f"status {answer.status}, and not {due.status} with {due.line!r}")
    wants(answer.printed == b"", "a refused call has printed")
    wants(lines_of(answer.errors) == due.line.split("\n"), f"the report is {answer.errors[:200]!r}, and not {due.line!r}")


def judge_made(plan, answer, folder):
    n, out = plan.values["n"], plan.values["out"]
    wants(answer.printed == b"", "`make` has printed")
    if not can_put(folder, out):
        judge_refusal(Due(3, f"put {out} failed"), answer)
        return
    data = made_file(n)
    wants((answer.status, lines_of(answer.errors)) == (0, [f"made {n} {len(data)}"]), "`make` has failed")
    wants(fetch(folder, out) == data, "the made file is another")


def judge_comparison(plan, answer):
    """A comparison has a line for each scheme in turn, up to the first run that comes to its limit."""
    lines = lines_of(answer.errors)
    wants(answer.status in (0, 1, 8), f"status {answer.status} of a comparison in which nothing fails")
    if answer.status == 8:
        wants(lines and lines.pop() == f"limit {plan.values['limit']}", "the line of the limit is missing")
    wants(len(lines) == len(SCHEMES) or (answer.status == 8 and len(lines) < len(SCHEMES)), f"{len(lines)} lines of schemes")
    for name, line in zip(SCHEMES, lines):
        sums = report.event_of(line)
        wants(isinstance(sums, report.Compared) and sums.scheme == name, f"not the line of {name}", line)
        wants(sums.early <= sums.epochs and (name != "shadow" or sums.overlapped == 0), "not possible sums", line)
        wants(sums.writes >= 64 * plan.values["pages"], "fewer writes than loading takes", line)


def split_report(status, errors):
    """The lines of a report's events, and its closing line if the status has one."""
    lines = lines_of(errors)
    forms = [form for form in closings().get(status, ()) if form.pattern]
    if lines and any(form.fullmatch(lines[-1]) for form in forms):
        return lines[:-1], lines[-1]
    return lines, ""


def judge_run(plan, answer, folder):
    """A call that is not refused ends by itself or at its limit, and its image is saved, or that fails."""
    lines, closing = split_report(answer.status, answer.errors)
    told = answer.report = Report(plan)
    for line in lines:
        told.take(line)
    wants(not told.digest or told.before not in ("restart", "exit", "trap"), "the last digest is missing")
    name = plan.values.get("save")
    if name is not None and not can_put(folder, name):
        wants((answer.status, closing) == (3, f"put {name} failed"), f"status {answer.status} where nothing can be saved")
    elif told.end is None:
        due = 8, f"limit {plan.values['limit']}"
        wants((answer.status, closing) == due, f"status {answer.status}, {closing!r}, and no end")
    else:
        due = 0 if told.end.startswith("exit") else 1
        wants((answer.status, closing) == (due, ""), f"status {answer.status}, {closing!r}, and {told.end!r}")
        summed = plan.verb == "bench" and due == 0
        wants(summed == (told.before == "summary"), "the line of sums is missing or not due")
    wants(plan.verb == "plain" or not answer.printed or told.shown, "standard output has bytes of no checkpoint")
    if plan.checkpoint:
        judge_resumed(plan.checkpoint, answer, told)
    if name is not None:
        judge_saved(plan, folder)


def judge_without_terminal(whole, answer, is_plain):
    """A standard output that takes nothing ends a call that prints; of `plain` the report has all that it is due."""
    lines, closing = split_report(answer.status, answer.errors)
    if not whole.printed:
        wants((answer.status, answer.errors) == (whole.status, whole.errors), "it prints nothing, and answers otherwise")
        return
    every = split_report(whole.status, whole.errors)[0]
    wants((answer.status, closing) == (6, "terminal failed"), f"status {answer.status}, {closing!r}: the terminal failed")
    wants(lines == every[: len(lines)] and (not is_plain or len(lines) == len(every)), "the terminal failed: another report")


def judge_without_report(whole, answer):
    """A report that takes nothing ends a call with 6 if it has a line that is not a closing line."""
    lines, _closing = split_report(whole.status, whole.errors)
    due = 6 if lines else whole.status
    wants(answer.status == due, f"status {answer.status}, and not {due}: the report failed")
    wants(whole.printed.startswith(answer.printed), "the report failed: another terminal")


def judge_resumed(checkpoint, answer, told):
    """A resumed run restarts with what its image holds."""
    if not told.shown:
        return
    wants(answer.printed.startswith(checkpoint.console), "the image's console was not printed")
    digest = hashlib.sha256(checkpoint.memory).hexdigest()
    wants(not told.digests or told.digests[0] == digest, "the memory restarted with is not the image's")
    if checkpoint.status and told.end:
        due = f"{('exit', 'trap')[checkpoint.status - 1]} {checkpoint.number} at {checkpoint.count}"
        wants(told.end == due, f"the end is not the image's {due!r}")


def judge_saved(plan, folder):
    """A saved image has a checkpoint of the run, or none. (Its numbers may be too high for it to be resumed again.)"""
    name = plan.values["save"]
    if not can_put(folder, name):
        return
    try:
        read_image(fetch(folder, name, MOST_IMAGE_BYTES), plan.values, RUN)
    except Due as due:
        wants(due.line == image_refusal(1), f"the saved image is refused: {due.line}")


@dataclass
class Caller:
    """Where a case makes its calls: a folder for its files, and what the calls were and answered."""

    program: str
    folder: str
    seconds: float
    observer: Optional[str] = None  # what is called over an NVM that tears, if it is to tear
    calls: list = field(default_factory=list)
    answers: Counter = field(default_factory=Counter)

    def write(self, name, data):
        with open(os.path.join(self.folder, name), "wb") as file:
            file.write(data)
        return name

    def command(self, words, printed=None, errors=None):
        """The answer of a call, which is not to end by a signal or to take too long."""
        call = torn.command(self.program, self.observer, words)
        status, *outputs, _ = calls.call(call, self.folder, self.seconds, printed, errors)
        fault = calls.fault_of(status, self.seconds)
        wants(not fault, fault)
        return Answer(status, *outputs)

    def call(self, *words):
        """The answer of a call, judged."""
        words = [str(word) for word in words]
        self.calls.append((words, ""))
        try:
            due = plan_of(words, self.folder)
        except Due as refusal:
            due = refusal
        answer = self.command(words)
        if isinstance(due, Due):
            judge_refusal(due, answer)
        elif due.verb == "make":
            judge_made(due, answer, self.folder)
        elif due.verb == "compare":
            judge_comparison(due, answer)
        else:
            judge_run(due, answer, self.folder)
        self.answers[answer.status, answer.word] += 1
        return answer

    def call_full(self, whole, *words):
        """A call whose answer is known again: with a standard output, and then a report, that takes nothing."""
        words = [str(word) for word in words]
        with open("/dev/full", "wb") as full:
            self.calls.append((words, ">/dev/full"))
            silent = self.command(words, printed=full.fileno())
            judge_without_terminal(whole, silent, words[0] == "plain")
            self.calls.append((words, "2>/dev/full"))
            blind = self.command(words, errors=full.fileno())
            judge_without_report(whole, blind)
        self.answers[silent.status, silent.word] += 1
        self.answers[blind.status, "report failed" if blind.status == 6 else blind.word] += 1


def compare(one, other):
    """Two answers of the same program: what both show of terminal and end is the same."""
    if one.report is None or other.report is None:
        wants((one.status, one.errors) == (other.status, other.errors), "one call is refused and the other is not")
        return
    both = one.report.end and other.report.end
    wants(not both or one.report.end == other.report.end, f"two ends: {one.report.end!r}, {other.report.end!r}")
    wants(not both or one.printed == other.printed, "with the same end, two terminals")
    digests = one.report.digests[-1:], other.report.digests[-1:]
    wants(not both or digests[0] == digests[1], "with the same end, two memories")
    short, long = sorted((one.printed, other.printed), key=len)
    wants(long.startswith(short), "one terminal does not begin as the other")


def against_plain(plain, run):
    """The plain machine had as many instructions as the run had cycles, so it is never behind."""
    compare(plain, run)
    if plain.report and run.report:
        wants(plain.report.end or not run.report.end, "the run has an end that the plain machine does not have")
        wants(len(plain.printed) >= len(run.printed), "the run has printed more than the plain machine")
