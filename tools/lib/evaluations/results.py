"""The runs of an evaluation: how they are made, and their numbers."""

from concurrent.futures import ThreadPoolExecutor
from dataclasses import dataclass

from lib import observed, repository
from lib.options import Refused
from lib.report import Sealed
from lib.studies import design, runs


class Differs(Refused):
    """A run does not print what the plain machine prints."""

    status = 1


@dataclass(frozen=True)
class Run:
    """A benchmark with options, by a scheme."""

    program: str
    options: str
    scheme: str

    @property
    def plan(self):
        """The same as a run of a study."""
        program = design.Program(self.program, ["run", repository.example("benchmarks", f"{self.program}.elf")])
        return next(design.planned([program], [self.options.split()], {"scheme": [self.scheme]}))


@dataclass
class Result:
    """What a run came to: the row of a study, and the events."""

    cells: dict
    events: list

    def number(self, name):
        return int(self.cells[name])

    def sum(self, *names):
        return sum(map(self.number, names))

    @property
    def stores(self):
        """Writes of the NVM that the cache made. Only how many of them were evictions is estimated, not their sum."""
        return self.sum("cause:evictions_nvm~", "cause:flushes_nvm~")

    @property
    def slots(self):
        return self.sum("state", "table")

    @property
    def writes(self):
        """Writes of the NVM after the loading."""
        return self.number("writes") - self.number("cause:boot_writes")

    @property
    def ends(self):
        """The ends of epochs, in their order."""
        return [told for event in self.events if isinstance(told := event.told, Sealed)]

    @property
    def free(self):
        """The mean of the entries that were free when an epoch ended early; None if none did."""
        rooms = [end.room[0] for end in self.ends if end.room]
        return sum(rooms) / len(rooms) if rooms else None

    @property
    def short(self):
        """How many epochs ended early after fewer than half as many instructions as the epoch before."""
        counts = [0, *(end.count for end in self.ends)]
        lengths = [after - before for before, after in zip(counts, counts[1:])]
        return sum(end.room is not None and 2 * own < last for end, own, last in zip(self.ends[1:], lengths[1:], lengths))


def result_of(run, answer, plain):
    """The numbers of a run. It has to have the end and the output of the plain machine."""
    if answer["status"] != 0 or (answer["end"], answer["printed"]) != (plain["end"], plain["printed"]):
        said = [" ".join(text.split()) for text in (answer["end"], answer["printed"], plain["end"], plain["printed"])]
        raise Differs("{}: {} {}, and on the plain machine {} {}".format(" ".join(run.plan.call[1:]), *said))
    cells = runs.cells_of(answer, plain["instructions"], run.plan.settings)
    if runs.NONE in cells.values():
        raise Differs(f"{' '.join(run.plan.call[1:])}: observe has not written all numbers")
    return Result(cells, observed.read(answer["out"].splitlines()).events)


def made(wanted, jobs):
    """The results of some runs, of which `jobs` are made at a time. The plain machine executes each program once."""
    for program in (repository.PROGRAM, repository.OBSERVER):
        if not repository.is_built(program):
            raise Refused(f"there is no program {program}: a call of ./thynvm observe builds it")
    wanted = list(dict.fromkeys(wanted))
    with ThreadPoolExecutor(jobs) as pool:
        plains = list(dict.fromkeys(run.plan.plain for run in wanted))
        answers = dict(zip(plains, pool.map(lambda words: runs.plain(*words), plains)))
        done = pool.map(lambda run: runs.observe(run.plan.call), wanted)
        return {run: result_of(run, answer, answers[run.plan.plain]) for run, answer in zip(wanted, done)}
