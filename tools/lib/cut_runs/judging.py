"""Whether a run is as it has to be, and the sums of all runs."""

import hashlib
import json
import sys
from collections import Counter, defaultdict

from lib import report
from lib.cut_runs.jobs import REFUSING, taken
from lib.options import Refused


class Judge:
    """Compares runs with the one of which `want` is the answer."""

    def __init__(self, calls, job, want):
        self.calls, self.job, self.want = calls, job, want
        self.terminal = hashlib.sha256(want.printed).hexdigest()
        self.last = report.event_of(want.end[0]).count
        # By the count of instructions: the line of the digest of memory, and how many bytes the plain machine has printed.
        told = [(report.event_of(line), after) for line, after in zip(want.lines, want.lines[1:])]
        self.memories = {event.count: after for event, after in told if isinstance(event, (report.Restored, report.Ended))}
        self.consoles = {0: 0, self.last: len(want.printed)}

    def differs(self, run):
        """In what a run differs, in words."""
        if run.status in REFUSING:
            raise Refused(f"the program refuses this: {'; '.join(run.end)}")
        if run.status is None:
            return list(self.at_the_restart(run))
        wrong = {
            "terminal": run.terminal != self.terminal,
            "end": run.end != self.want.end,
            "status": run.status != self.want.status,
        }
        return [part for part, differs in wrong.items() if differs]

    def at_the_restart(self, run):
        """The same of a run that was ended there. Until it was, it may have printed more than the checkpoint has."""
        is_reload = run.end == ["reload"]
        count = 0 if is_reload else run.restarts[-1][1]
        if not run.is_promised:
            yield "restart"
        shown = hashlib.sha256(self.want.printed[: run.shown]).hexdigest()
        if run.terminal != shown or run.shown < self.console(count):
            yield "terminal"
        if not is_reload and self.memories.setdefault(count, run.end[-1]) != run.end[-1]:
            yield "memory"

    def console(self, count):
        """How many bytes the plain machine has printed after so many instructions. Of an image that is not known."""
        if self.job.verb != "run":
            return 0
        if count not in self.consoles:
            answer = taken(self.calls.run(self.job.plain("--limit", str(count))))
            self.consoles[count] = len(answer.printed)
        return self.consoles[count]


class Results:
    """The runs that were made, each with a line in the log; and how far the sweep is, on a terminal."""

    def __init__(self, judge, total, log):
        self.judge, self.total = judge, total
        self.runs = []  # with what each differs in
        self.differ = 0
        self.log = open(log, "w", encoding="utf-8") if log else None
        self.shown = sys.stderr.isatty()

    def add(self, run):
        differs = self.judge.differs(run)
        self.runs.append((run, differs))
        self.differ += bool(differs)
        if self.log:
            print(json.dumps(logged(run, differs)), file=self.log, flush=True)
        if self.shown:
            print(f"\r{len(self.runs)} of {self.total} runs, {self.differ} differ", end="", file=sys.stderr, flush=True)

    def fell(self):
        """Whether power was cut in any run where it was to be."""
        return any(run.was_cut for run, _ in self.runs)

    def close(self):
        if self.log:
            self.log.close()
        if self.shown and self.runs:
            print(file=sys.stderr)


def logged(run, differs):
    """What the log has of a run."""
    return {
        "cut": run.cut,
        "tear": run.tear,
        "differs": differs,
        "end": run.end,
        "status": run.status,
        "was_cut": run.was_cut,
        "restarts": [epoch for epoch, _ in run.restarts],
        "reloads": run.reloads,
    }


def deciding(runs):
    """At how many cuts not all tears led to the same restarts, and at how many power was cut at all."""
    led = defaultdict(set)
    for run in runs:
        if run.was_cut:
            led[run.cut].add((tuple(epoch for epoch, _ in run.restarts), run.reloads))
    return sum(len(ways) > 1 for ways in led.values()), len(led)


def summary(results):
    """What the runs came to, as lines."""
    different = [(run, differs) for run, differs in results if differs]
    for run, differs in sorted(different, key=lambda it: (it[0].cut, it[0].tear)):
        yield f"cut {run.cut} tear {run.tear} differs in {', '.join(differs)}: {'; '.join(run.end)}"
    runs = [run for run, _ in results]
    uncut = sum(not run.was_cut for run in runs)
    yield f"runs {len(runs)}, {len(different)} differ, {uncut} ended before the cut"
    epochs = Counter(epoch for run in runs for epoch, _ in run.restarts)
    for epoch, count in sorted(epochs.items()):
        yield f"restarts of epoch {epoch}: {count}"
    yield f"reloads: {sum(run.reloads for run in runs)}"
    decided, cuts = deciding(runs)
    yield f"the tears decided at {decided} of {cuts} cuts"
