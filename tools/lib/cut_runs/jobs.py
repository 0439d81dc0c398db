"""What each run is called by and compared with; and a run."""

import hashlib
from dataclasses import dataclass, field
from typing import Optional

from lib import program, report, torn
from lib.options import Refused

# The options of `run` that change what the plain machine does, too.
SHARED = tuple(f"--{name}" for name in program.PLAIN if name not in ("limit", "digest"))

# The options of `run` that the script gives.
OWN = ("--digest", "--limit", "--help")

# The greatest limit: a run that is cut and ends without cuts ends before it.
LONGEST = program.FIELDS["limit"].high

# The statuses of a call that began no run, by docs/FORMATS.md.
REFUSING = (2, 3, 4, 5, 10)


def options_of(words):
    """The options of `run` as pairs of name and value, each at most once."""
    pairs = {}
    rest = list(words)
    while rest:
        name, equals, value = rest.pop(0).partition("=")
        if not name.startswith("--"):
            raise Refused(f"this is not an option: {name}")
        if name in OWN:
            raise Refused(f"{name} is given to each run by this script")
        if name == "--save":
            raise Refused("--save is refused: all runs would write the same file")
        if name == "--harts":
            raise Refused("--harts is refused: with two harts a cut may change the end, and `plain` has one hart")
        if not equals:
            if not rest:
                raise Refused(f"{name} needs a value")
            value = rest.pop(0)
        if name in pairs:
            raise Refused(f"{name} stands twice")
        pairs[name] = value
    return pairs


def flat(pairs):
    """Pairs as words of a command."""
    return [word for pair in pairs.items() for word in pair]


def listed(numbers):
    return ",".join(map(str, numbers))


def taken(answer):
    """The answer of a call that began a run; one that is refused is refused here by its line."""
    if answer.status in REFUSING:
        raise Refused(f"the program refuses this: {answer.said()}")
    return answer


def at_its_end(answer, what):
    """The answer of a call that came to the program's end."""
    if not taken(answer).has_ended:
        raise Refused(f"{what} does not come to the program's end: {answer.said()}")
    return answer


@dataclass
class Job:
    """What is done: the program to call, `run` or `resume`, the file or image, the options, and the cuts that each run has. If
    cuts are to tear blocks, `observer` is the program to call for the runs."""

    called: str
    verb: str
    file: str
    pairs: dict
    base: list = field(default_factory=list)
    until_restart: bool = False
    observer: Optional[str] = None
    start: Optional[list] = None  # of an image: epoch and count of its checkpoint

    def words(self, limit=LONGEST, cuts=(), tears=(), more=("--digest",)):
        """The words of a run, from its command on."""
        words = [self.verb, self.file, *more, *flat(self.pairs), "--limit", str(limit)]
        words += ["--cuts", listed(cuts)] if cuts else []
        return [*words, "--tears", listed(tears)] if tears else words

    def command(self, *which, **more):
        """The call of a run."""
        first = torn.observing(self.observer) if self.observer else [self.called]
        return [*first, *self.words(*which, **more)]

    def plain(self, *more):
        """The words of a call of the plain machine."""
        shared = {name: value for name, value in self.pairs.items() if name in SHARED}
        return [self.called, "plain", self.file, *flat(shared), *more]


def reference(calls, job):
    """What the runs are compared with, and the answer of a run with the cuts of --cuts alone. The first is the end on the plain
    machine, or, of an image, which names no program, that of a run without any cut."""
    without = "with the cuts of --cuts alone the machine" if job.base else "without a cut the machine"
    if job.verb == "run":
        want = at_its_end(calls.run(job.plain("--digest")), "the plain machine")
    else:
        want = at_its_end(calls.run(job.command()), "without a cut the machine")
        if not job.base:
            return want, want
    return want, at_its_end(calls.run(job.command(cuts=job.base)), without)


class Stop:
    """Whether a run has restarted after a cut, line by line of its report: with the digest of the restart, or a reload."""

    def __init__(self, cut):
        self.cut, self.fell = cut, False

    def __call__(self, line):
        event = report.event_of(line)
        self.fell = self.fell or isinstance(event, report.Cut) and event.cycle == self.cut
        return self.fell and isinstance(event, (report.Reloaded, report.Digest))


@dataclass
class Run:
    """What a run came to that has a cut more than those of --cuts. Of one that was ended at its restart the status is None."""

    cut: int
    tear: int
    was_cut: bool
    status: Optional[int]
    end: list  # the last lines of its report, with the digest
    shown: int  # how many bytes it printed, and their SHA-256
    terminal: str
    restarts: list  # pairs of epoch and count
    reloads: int
    is_promised: bool  # the last restart is of the checkpoint that was reported last, or of the one sealed after it


def one(calls, job, cut, tear):
    """Makes a run; None after an interrupt."""
    cuts = sorted([*job.base, cut])
    # The cuts of --cuts leave none of the queued writes.
    tears = [tear if it == cut else 0 for it in cuts]
    answer = calls.run(job.command(cuts=cuts, tears=tears), Stop(cut) if job.until_restart else None)
    return None if answer is None else run_of(answer, cut, tear, job.start)


def run_of(answer, cut, tear, start):
    """A run by its answer; it began with a checkpoint, as a pair of epoch and count, or with none."""
    events = report.events(answer.lines)
    restarts = [[event.epoch, event.count] for event in events if isinstance(event, report.Restored)]
    return Run(
        cut=cut,
        tear=tear,
        was_cut=any(isinstance(event, report.Cut) and event.cycle == cut for event in events),
        status=answer.status,
        end=answer.end if answer.status is not None or isinstance(events[-1], report.Reloaded) else answer.lines[-2:],
        shown=len(answer.printed),
        terminal=hashlib.sha256(answer.printed).hexdigest(),
        restarts=restarts,
        reloads=sum(isinstance(event, report.Reloaded) for event in events),
        is_promised=is_promised(events, start),
    )


def is_promised(events, start):
    """Whether each restart is of the checkpoint that was reported last or of the one that was sealed after it, and a program is
    loaded again only if no checkpoint was reported."""
    first = [0, 0]
    kept, sealed = (start, None) if start else (None, first)
    for event in events:
        if isinstance(event, report.Sealed):
            sealed = [event.epoch, event.count]
        elif isinstance(event, report.Committed):
            kept, sealed = sealed, None
        elif isinstance(event, report.Restored):
            found = [event.epoch, event.count]
            if found not in (kept, sealed):
                return False
            kept, sealed = found, None
        elif isinstance(event, report.Reloaded):
            if kept is not None:
                return False
            sealed = first
    return True
