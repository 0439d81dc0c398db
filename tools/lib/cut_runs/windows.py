"""In which cycles the events of a run are, and where the tears decide what a cut leaves."""

import os
import subprocess
import tempfile

from lib import calls as memory
from lib import images, observed, options
from lib.cut_runs.calls import Calls, each
from lib.cut_runs.jobs import taken
from lib.images import BLOCK
from lib.options import Refused
from lib.repository import OBSERVER, SCRIPT, SMALLEST


def build_observer():
    """Has the program observe of this repository built, so that it is seen how far the build is."""
    if not os.path.exists(OBSERVER):
        subprocess.run([SCRIPT, "observe", os.devnull, "plain", SMALLEST], stdin=subprocess.DEVNULL)


def observation(calls, job, observer):
    """What `observe` says of the run without the cuts that are tried."""
    command = [observer] if observer else [SCRIPT, "observe"]
    if not observer:
        build_observer()
    with tempfile.TemporaryDirectory() as folder:
        out = os.path.join(folder, "out")
        answer = calls.run([*command, out, *job.words(cuts=job.base, more=())])
        if answer.status not in (0, 1) or not os.path.exists(out):
            raise Refused(f"`observe` does not come to the program's end: {answer.said()}")
        lines = options.lines_of(out, "what `observe` has written")
    try:
        return observed.read(lines)
    except observed.Fault as fault:
        raise Refused(f"what `observe` has written cannot be read: {fault}") from None


def windows(seen, around, width):
    """The cycles of a run's events of this kind, and all cycles in the windows around them, before the run's end."""
    last = seen.number("cycles")
    if around == "end":
        return [last], range(max(1, last - width), last)
    at = [event.cycle for event in seen.events if event.word == around]
    inside = {cycle for it in at for cycle in range(it - width // 2, it - width // 2 + width)}
    return at, sorted(cycle for cycle in inside if 1 <= cycle < last)


def commits_of(seen):
    """Of each commit of a run its cycle, its epoch, and the cycle of the event before it: the commit block is written later."""
    before = 0
    for event in seen.events:
        if event.word == "commit":
            yield event.cycle, event.told.epoch, before
        before = event.cycle


def first_with(holds, low, high):
    """The first cycle after one at which something does not hold that holds from then on, as it does at the last one. The search
    goes from there back, as it is mostly near."""
    step = 1
    while high - step > low and holds(high - step):
        high, step = high - step, 2 * step
    low = max(low, high - step)
    while high - low > 1:
        middle = (low + high) // 2
        low, high = (low, middle) if holds(middle) else (middle, high)
    return high


class Commits:
    """Looks for the cycles in which a commit block is queued: what a cut leaves is said by the image that is saved there."""

    def __init__(self, calls, job, folder):
        self.calls, self.job, self.folder = calls, job, folder

    def epoch(self, cycle, tear):
        """The epoch that a commit block names after a cut in this cycle, or -1 if there is none."""
        name = os.path.join(self.folder, f"{cycle}-{tear}")
        tears = [*(0 for _ in self.job.base), tear]
        command = self.job.command(cycle, self.job.base, tears, ("--save", name))
        answer = self.calls.run(command)
        if answer is None:
            raise KeyboardInterrupt
        if taken(answer).status != 8:
            raise Refused(f"the run does not stop at cycle {cycle}: {answer.said()}")
        with open(name, "rb") as file:
            commit = images.blocks_of(file.read(2 * BLOCK), 1)
        os.remove(name)
        return images.words_of(commit)[1] if any(commit) else -1

    def queued(self, cycle, epoch, before):
        """The cycles after which the commit block of an epoch is queued: from the one of its write to the one before it lands,
        which is that of the barrier if no drain was earlier. A cut after one of these leaves either commit block."""
        written = first_with(lambda at: self.epoch(at, 1) >= epoch, before, cycle - 1)
        landed = first_with(lambda at: self.epoch(at, 0) >= epoch, written, cycle)
        return range(written, landed)


def commit_windows(job, jobs, seen):
    """The cycles of a run's commits, and those in which the tears decide."""
    commits, inside, calls = list(commits_of(seen)), set(), Calls()
    with tempfile.TemporaryDirectory(prefix="cuts-", dir=memory.SHARED_MEMORY) as folder:
        looked = Commits(calls, job, folder)
        for cycles in each(calls, jobs, looked.queued, commits):
            inside.update(cycles)
    return [cycle for cycle, _, _ in commits], sorted(inside)
