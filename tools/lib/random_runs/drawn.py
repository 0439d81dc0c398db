"""What is drawn for a run beside its program: memory, geometry, and the options of each call."""

import math
from dataclasses import dataclass

from lib import images, program
from lib.images import PAGE
from lib.program import SCHEMES

DEFAULTS = program.defaults()


def size_in(rng, least, most):
    """A number between two, small ones as often as great ones."""
    return min(most, max(least, int(math.exp(rng.uniform(math.log(least), math.log(most + 1))))))


@dataclass
class Memory:
    """Where memory is, in `plain` and `run` alike."""

    base: int
    pages: int
    console: int

    @property
    def end(self):
        return self.base + PAGE * (self.pages - self.console)

    @property
    def words(self):
        return ["--base", self.base, "--pages", self.pages, "--console", self.console]


def drawn_pages(rng):
    """A number of pages: mostly few."""
    chance = rng.random()
    if chance < 0.75:
        return rng.randrange(8, 17)
    if chance < 0.94:
        return size_in(rng, 17, 64)
    if chance < 0.993:
        return size_in(rng, 65, 512)
    return size_in(rng, 513, 4096) if chance < 0.9997 else size_in(rng, 4097, 65536)


def drawn_memory(rng):
    base = rng.choice((65536,) * 6 + (0, 4096, 61440, 2**31 - PAGE, 2**32 - 3 * PAGE, 2**62 - PAGE))
    pages = drawn_pages(rng)
    # At least two pages are the program's.
    return Memory(base, pages, rng.choice((1, 1, 1, 2, rng.randrange(1, min(16, pages - 2) + 1))))


@dataclass
class Geometry:
    """What a run and those that resume it have in common, beside memory."""

    scheme: str
    harts: int
    btt: int
    ptt: int

    def slot(self, memory):
        """The blocks of a slot."""
        whole = images.Geometry(memory.base, memory.pages, memory.console, self.btt, self.ptt, self.scheme, self.harts)
        return images.layout_of(whole).slot_blocks

    @property
    def words(self):
        return ["--scheme", self.scheme, "--btt", self.btt, "--ptt", self.ptt, "--harts", self.harts]


def drawn_geometry(rng, options):
    scheme, harts = rng.choice(tuple(SCHEMES)), rng.choice((1, 1, 1, 2, 2))
    scheme, harts = options.scheme or scheme, options.harts or harts
    btt = 8 * rng.choice((1, 1, 1, size_in(rng, 1, 8), size_in(rng, 1, 8), size_in(rng, 1, 64), size_in(rng, 1, 512), 64))
    ptt = 8 * rng.choice((1, 1, 1, size_in(rng, 1, 2), size_in(rng, 1, 2), size_in(rng, 1, 8), size_in(rng, 1, 64), 8))
    return Geometry(scheme, harts, btt, ptt)


@dataclass
class Pace:
    """What a call of `run` or `resume` has of its own: options by their names."""

    values: dict
    cuts: list
    tears: list

    @property
    def words(self):
        words = [word for name, value in self.values.items() for word in (f"--{name}", value)]
        for name, numbers in (("cuts", self.cuts), ("tears", self.tears)):
            words += [f"--{name}", ",".join(map(str, numbers))] if numbers else []
        return words


def cycles_of(memory, geometry, epoch, steps, resumed=False):
    """About how many cycles loading takes, or recovery, and so many instructions after it."""
    slot = geometry.slot(memory)
    wide = 150 if geometry.scheme == "shadow" else 20
    return (0 if resumed else 86 * memory.pages) + 2 * slot + 10, 5 * steps + (steps // epoch + 1) * (2 * slot + wide)


def drawn_pace(rng, memory, geometry, steps, resumed=False):
    """The options of a call for a program of about so many instructions."""
    values = {}

    def maybe(name, *choices):
        if rng.random() < 0.7:
            values[name] = rng.choice(choices)

    epochs = size_in(rng, 1, 60), size_in(rng, 10, 2000), size_in(rng, 10, 2000), size_in(rng, 1, 1_000_000)
    epoch = rng.choice((*epochs, *epochs, 10000))
    # An epoch for each instruction makes a checkpoint of each: not of a long program.
    epoch = max(epoch, steps * (2 * geometry.slot(memory) + 60) // 700_000, 1)
    values["epoch"] = epoch
    maybe("sets", 1, 1, 2, 4, 8, 16, 32, 64)
    maybe("ways", *range(1, 9))
    maybe("nvmq", 1, 2, 64, rng.randrange(1, 65))
    maybe("dramq", 1, 2, 64, rng.randrange(1, 65))
    if rng.random() < 0.6:
        values["high"] = rng.choice((0, 1, 3, rng.randrange(64), 63))
        values["low"] = rng.randrange(values["high"] + 1)
    elif rng.random() < 0.5:
        values["low"] = rng.randrange(23)
    maybe("mix", 0, rng.randrange(1, 10**rng.randrange(1, 20)))
    maybe("gap", 0, 0, 1, 2, size_in(rng, 1, 1_000_000))
    boot, work = cycles_of(memory, geometry, epoch, steps, resumed)
    many = min(rng.choice((0, 0, 1, 1, 2, 3, 4)), 65536 // memory.pages - 1)
    places = [boot * rng.random() if rng.random() < 0.3 else boot + work * rng.random() ** 2 for _ in range(many)]
    cuts = sorted({1 + int(place) for place in places})
    tears = [rng.choice((0, 1, 1, rng.randrange(2, 10**19))) for _ in range(rng.randrange(len(cuts) + 2))]
    return Pace(values, cuts, tears)


def promised(memory, geometry, pace, steps):
    """The cycles within which a run of one hart ends, by docs/THEOREM.md, of a program that ends within so many steps."""
    values, slot = pace.values, geometry.slot(memory)
    epoch, btt, ptt = values["epoch"], geometry.btt, geometry.ptt
    lines = values.get("sets", 16) * values.get("ways", 4)
    most = {
        "thynvm": 64 * (epoch + lines + btt + 64 * ptt + 16) + (memory.pages + 63) // 64,
        "journal": 17 * epoch + 3 * btt + slot + 5,
        "shadow": 17 * epoch + 129 * ptt + slot + 4,
    }[geometry.scheme]
    more = {"thynvm": 64 * ptt, "journal": btt, "shadow": 0}[geometry.scheme]
    boot = 64 * memory.pages + 2 * slot + more + 8
    return max(pace.cuts, default=0) + 1 + 2 * boot + 4 * most * (steps + 1)


def patience(memory, geometry, pace, steps):
    """The cycles within which a run of two harts is expected to end, with a checkpoint for each instruction."""
    boot, work = cycles_of(memory, geometry, 1, 2 * steps + 1000)
    return max(pace.cuts, default=0) + 3 * (boot + work)


def said(words, unsaid):
    """The words of a call without these options where they have their default."""
    rest, kept = list(words), []
    while rest:
        word = rest.pop(0)
        name = str(word)[2:] if str(word).startswith("--") else ""
        if name in unsaid and rest[0] == DEFAULTS[name]:
            rest.pop(0)
        else:
            kept.append(word)
    return kept
