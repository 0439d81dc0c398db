"""What single runs with one cut come to, beside a sweep of the same run."""

import os
import subprocess

from lib import observed, options
from lib.options import Refused

# The picks of a sweep, if none are listed.
PICKS = range(4)

# The picks whose images are saved and counted, and the most images that are counted so.
DRAWN, FEW = range(64), 8


class Runs:
    """The runs of a file with these options, each with one cut or up to one cycle."""

    def __init__(self, program, observer, words, folder):
        self.program, self.observer, self.words = program, observer, words
        self.out, self.saved = os.path.join(folder, "single"), os.path.join(folder, "saved")

    def boot(self, cut, pick):
        """The epoch and the count that the run restores after a cut, or None and 0 if it loads the program; and the boot's cycles."""
        called(self.observer, self.out, "run", *self.words, "--cuts", cut, "--tears", pick)
        events = observed.read(options.lines_of(self.out, "what `observe` has written")).events
        at = [event.word for event in events].index("cut")
        for event in events[at + 1 :]:
            if event.word == "restart":
                return event.told.epoch, event.told.count, event.cycle - cut
            if event.word == "commit":
                return None, 0, event.cycle - cut
        raise Refused(f"after a cut at {cut} with pick {pick} nothing is restored or loaded")

    def images(self, cycle):
        """How many different images cuts after this cycle leave by the picks."""
        return len({self.image(cycle, pick) for pick in DRAWN})

    def image(self, cycle, pick):
        called(self.program, "run", *self.words, "--limit", cycle, "--tears", pick, "--save", self.saved)
        with open(self.saved, "rb") as file:
            return file.read()


def called(*words):
    """Makes a call, whose output is not looked at."""
    subprocess.run([str(word) for word in words], stdin=subprocess.DEVNULL, stdout=subprocess.DEVNULL, stderr=subprocess.DEVNULL)


def boots_of(boots):
    """The least and the most cycles of the boots that led to each checkpoint."""
    led = {}
    for epoch, count, cycles in boots:
        least, most = led.get((epoch, count), (cycles, cycles))
        led[epoch, count] = min(least, cycles), max(most, cycles)
    return led


def difference(row, runs):
    """What a row says otherwise than single runs, in words, or None."""
    single = boots_of(runs.boot(row.first, pick) for pick in PICKS)
    swept = {(lead.epoch, lead.count or 0): (lead.least, lead.most) for lead in row.leads}
    if swept != single:
        return f"boots after {row.first}: swept {swept}, single {single}"
    last = {boot[:2] for boot in (runs.boot(row.last, pick) for pick in PICKS)}
    if last != set(swept):
        return f"checkpoints after {row.last}: swept {set(swept)}, single {last}"
    if row.images <= FEW and runs.images(row.first) != row.images:
        return f"images after {row.first}: counted {row.images}, saved {runs.images(row.first)}"
    return None
