"""A case: a run in one piece or in several, with saves between, and what each piece has to come to."""

import argparse
from dataclasses import dataclass, replace

from lib.calls import wants
from lib.drawing import Draw
from lib.guest import LINKED, segments_of
from lib.images import PAGE
from lib.program import FIELDS, SCHEMES
from lib.random_runs.drawn import DEFAULTS, Geometry, Memory, Pace, cycles_of, drawn_geometry, drawn_pace, patience, promised, size_in
from lib.random_runs.programs import drawn_guest
from lib.random_runs.reports import START, Caller, Plain, read_report

# How many instructions `plain` is given; a run whose program does not end within them has fewer cycles in all.
PLAIN_LIMIT = 200_000

MOST_LIMIT = FIELDS["limit"].high


@dataclass
class Piece:
    """A call of `run`, `bench` or `resume`: its options, what it begins with, and the name under which it is saved."""

    verb: str
    operand: object
    memory: Memory
    geometry: Geometry
    pace: Pace
    more: list  # the options that all pieces share: the input, and whether there are digests
    found: tuple = (None, START)  # the checkpoint that is there, and the one that may be
    is_sure: bool = True  # of an image: that it has a checkpoint
    ends: bool = False  # the limit is one within which it has to end
    save: str = ""

    @property
    def digest(self):
        return "--digest" in self.more

    def words(self, without=(), save=None):
        name = self.save if save is None else save
        values = {key: value for key, value in self.pace.values.items() if key not in without}
        pace = replace(self.pace, values=values)
        words = [self.verb, self.operand, *self.memory.words, *self.geometry.words, *pace.words, *self.more]
        return [*words, "--save", name] if name else words


def judge(piece, report, answer, oracle):
    """A run that has ended has what the program comes to; one at its limit what it had at the last checkpoint reported."""
    if report.end is None:
        wants(oracle.shows(report, answer.printed), f"the terminal at the limit, with the checkpoint {report.kept}, is another")
        return
    wants(report.end == oracle.end, f"the end is {report.end}, and not {oracle.end}")
    wants(oracle.count in (None, report.kept.first), f"the end is at {report.kept.first}, and not at {oracle.count}")
    wants(answer.printed == oracle.printed, "with the same end, another terminal")
    due = oracle.digest if oracle.count is None else None
    wants(due is None or not piece.digest or report.digest == due, "with the same end, another memory")


def is_starved(piece, report):
    """Whether one of two harts did not come to its turn any more, which the schedule in turn lets happen."""
    one = other = 0
    for turns in reversed(report.turns):
        one, other = one + turns[0], other + turns[1]
        if one + other >= 1000:
            return piece.pace.values.get("mix", 0) == 0 and 0 in (one, other)
    return False


def refused(caller, due, words):
    """A call that is refused by rule, with one of these statuses and lines."""
    answer = caller.call(*words)
    caller.sums["refused"] += 1
    fits = answer.printed == b"" and len(answer.lines) == 1 and (answer.status, answer.last) in due
    wants(fits, f"status {answer.status} with {answer.last!r}, and not {' or '.join(map(str, due))}")


def other_geometry(rng, memory, geometry, knows_harts):
    """Options with which an image is of another geometry."""
    memory, geometry = replace(memory), replace(geometry)
    kinds = ["base", "pages", "btt", "ptt", "scheme"] + ["console"] * (memory.console < 15) + ["harts"] * knows_harts
    kind = rng.choice(kinds)
    if kind == "base":
        memory.base = memory.base + PAGE if memory.base < 2**61 else 0
    elif kind in ("pages", "console"):
        memory.pages += kind == "pages" or memory.console + 1 == memory.pages
        memory.console += kind == "console"
    elif kind == "scheme":
        geometry.scheme = rng.choice([name for name in SCHEMES if name != geometry.scheme])
    elif kind == "harts":
        geometry.harts = 3 - geometry.harts
    else:
        most = 4096 if kind == "btt" else 512
        old = getattr(geometry, kind)
        setattr(geometry, kind, old + 8 if old < most else 8)
    return memory, geometry


def refused_run(rng, caller, memory, geometry, pace):
    """Options each of which is in its range, and that do not go together."""
    memory, kind = replace(memory), rng.choice(("console", "low", "cuts", "tears"))
    if kind == "console":
        memory.pages = rng.randrange(8, 17)
        memory.console = rng.randrange(memory.pages, 17)
        line = f"value console {memory.console}"
        refused(caller, [(2, line)], ["plain", "program", *memory.words])
    elif kind == "low":
        pace.values["high"] = rng.randrange(63)
        pace.values["low"] = rng.randrange(pace.values["high"] + 1, 64)
        line = f"value low {pace.values['low']}"
    elif kind == "cuts":
        pace.cuts = sorted(rng.sample(range(1, 10**6), rng.randrange(1, 5)))
        memory.pages = rng.randrange(65536 // (len(pace.cuts) + 1) + 1, 65537)
        line = f"value cuts {memory.pages * (len(pace.cuts) + 1)}"
    else:
        pace.tears = [rng.randrange(10**19) for _ in range(len(pace.cuts) + 2)]
        line = f"value tears {len(pace.tears)}"
    words = [*memory.words, *geometry.words, *pace.words]
    refused(caller, [(2, line)], ["run", "program", *words])


def outside(guest, memory):
    """The refusal of a program file that does not fit into memory."""
    for k, start, end in segments_of(guest.data):
        if start < memory.base or end > memory.end:
            return [(4, f"file 17 SegmentOutsideMemory {k}")]
    return None


@dataclass
class Case:
    """A case: what is drawn for it, and what becomes of it."""

    rng: Draw
    caller: Caller
    options: argparse.Namespace

    def run(self):
        rng, caller = self.rng, self.caller
        self.geometry = drawn_geometry(rng, self.options)
        caller.unsaid = tuple(DEFAULTS) if rng.random() < 0.5 else ("harts",) * (self.options.harts == 1)
        self.memory, self.guest = drawn_guest(rng, caller, self.geometry.harts)
        caller.write("program", self.guest.data)
        self.more = ["--input", "input"] if self.guest.source or rng.random() < 0.3 else []
        if self.more:
            caller.write("input", self.guest.source)
        self.count_it()
        if rng.random() < 0.03:
            pace = drawn_pace(rng, self.memory, self.geometry, 1000)
            refused_run(rng, caller, self.memory, self.geometry, pace)
        if rng.random() < 0.02 and self.guest.known is None and self.geometry.harts == 1:
            self.memory.base = rng.choice((0, LINKED, LINKED + PAGE * rng.randrange(1, 64), 2**40))
        due = outside(self.guest, self.memory)
        if due:
            pace = drawn_pace(rng, self.memory, self.geometry, 1000)
            refused(caller, due, ["plain", "program", *self.memory.words, *self.more])
            words = [*self.memory.words, *self.geometry.words, *pace.words, *self.more]
            refused(caller, due, ["run", "program", *words])
            return
        self.compared()

    def count_it(self):
        self.caller.sums[self.geometry.scheme] += 1
        self.caller.sums["two harts" if self.geometry.harts == 2 else "one hart"] += 1

    def compared(self):
        """The run, in one piece or in several, and what it has to come to."""
        rng, pages = self.rng, self.memory.pages
        # A digest of much memory takes longer than all else.
        chances = {16: 0.95, 64: 0.4, 512: 0.1, 4096: 0.02, 65536: 0}
        digest = rng.random() < next(chance for most, chance in chances.items() if pages <= most)
        self.oracle = self.guest.known
        if self.oracle is None:
            self.oracle = Plain(self.caller, ["program", *self.memory.words, *self.more], PLAIN_LIMIT, digest)
        self.more += ["--digest"] * digest
        boot = cycles_of(self.memory, self.geometry, 1, 0)[0]
        self.left = min(PLAIN_LIMIT, boot + size_in(rng, 1000, 60000))
        # About how many instructions there are.
        if self.guest.known:
            self.steps = self.oracle.steps
        else:
            self.steps = self.left // 5 if self.oracle.end is None else self.oracle.count
        pieces = 0
        if rng.random() < 0.3 and pages <= 4096:
            pieces = rng.choice((1, 1, 2, 3, size_in(rng, 2, 20)))
            self.caller.sums["saves"] += 1
        self.pieces(pieces)
        if pages <= 64 and rng.random() < 0.05 and self.oracle.end is not None:
            self.by_each_scheme()

    def by_each_scheme(self):
        """`compare` says of each scheme what `run` reports with it, up to one that comes to its limit."""
        values = drawn_pace(self.rng, self.memory, self.geometry, self.steps).values
        values["limit"] = patience(self.memory, self.geometry, Pace(values, [], []), self.steps)
        lines, statuses, printed, writes = [], [], [], 64 * self.memory.pages
        for scheme in SCHEMES:
            piece = Piece("run", "program", self.memory, replace(self.geometry, scheme=scheme), Pace(values, [], []), self.more)
            answer = self.caller.call(*piece.words())
            report = read_report(piece, answer, self.oracle)
            statuses.append(answer.status)
            printed.append(answer.printed)
            if report.end is None:
                lines.append(f"limit {values['limit']}")
                break
            lines.append(f"scheme {scheme} epochs {report.ended} early {report.early} overlapped {report.overlapped} writes ")
        words = [word for word in replace(piece, verb="compare").words() if word not in ("--scheme", scheme)]
        answer = self.caller.call(*words)
        wants((answer.status, answer.printed) == (statuses[-1], printed[0]), "`compare` has another status or terminal than `run`")
        fits = len(answer.lines) == len(lines) and all(map(str.startswith, answer.lines, lines))
        wants(fits, f"`compare` says {answer.lines}, and `run` {lines}")
        fits = all(int(line.split(" ")[-1]) >= writes for line in answer.lines if line.startswith("scheme "))
        wants(fits, f"`compare` says {answer.lines}: loading alone makes {writes} writes")
        self.caller.sums["comparisons"] += 1

    def first_piece(self):
        piece = Piece("run", "program", self.memory, self.geometry, None, self.more)
        if self.guest.number is not None and self.geometry.harts == 1 and self.rng.random() < 0.5:
            piece.verb, piece.operand = "bench", self.guest.number
        return piece

    def pace(self, piece, pieces, is_last):
        """The options of a piece. The last one goes on to the end, if there is one; another to some limit, and is saved."""
        rng = self.rng
        pace = drawn_pace(rng, self.memory, self.geometry, self.steps, piece.verb == "resume")
        boot, work = cycles_of(self.memory, self.geometry, pace.values["epoch"], self.steps, piece.verb == "resume")
        some = 1 + int(rng.random() * boot if rng.random() < 0.1 else boot + rng.random() * 2 * work / (pieces + 1))
        if self.oracle.end is None:
            pace.values["limit"] = self.left if is_last else min(some, max(1, self.left // 2))
        elif not is_last or (pieces == 0 and rng.random() < 0.08):
            pace.values["limit"] = some
        if not is_last or rng.random() < 0.05:
            over = piece.verb == "resume" and rng.random() < 0.2
            piece.save = piece.operand if over else "image1" if piece.operand == "image0" else "image0"
        piece.pace = pace
        if rng.random() < 0.07 and self.memory.pages <= 32 and self.steps <= 5000:
            self.aim(piece)
        if "limit" in pace.values:
            self.left = max(1, self.left - pace.values["limit"])
            return
        piece.ends = True
        if self.geometry.harts == 2:
            pace.values["limit"] = patience(self.memory, self.geometry, pace, self.steps)
            return
        most = promised(self.memory, self.geometry, pace, self.oracle.count)
        if most > DEFAULTS["limit"] or rng.random() < 0.7:
            pace.values["limit"] = min(MOST_LIMIT, most * rng.choice((1, 1, 10)))

    def aim(self, piece):
        """A cut, or what is saved, comes just before the commit of a checkpoint, where the pick decides, or soon after it."""
        rng, caller = self.rng, self.caller
        values, more = dict(piece.pace.values), [word for word in piece.more if word != "--digest"]
        alone = replace(piece, pace=Pace(values, [], []), more=more, save="")

        def report(limit):
            values["limit"] = limit
            return caller.call(*alone.words()).lines

        longest = MOST_LIMIT if self.geometry.harts == 1 else patience(self.memory, self.geometry, alone.pace, self.steps)
        longest = self.left if self.oracle.end is None else longest
        commits = [line for line in report(longest) if line.startswith("commit ")]
        if not commits:
            return
        line, most = rng.choice(commits[:300]), 1024
        while line not in report(most):
            most *= 2
        least = most // 2 if most > 1024 else 1
        while least < most:
            middle = (least + most) // 2
            least, most = (least, middle) if line in report(middle) else (middle + 1, most)
        cycle = min(max(1, most - rng.choice((1, 1, 2, 3, -rng.randrange(30)))), longest)
        pick = rng.choice((1, rng.randrange(2, 10**19)))
        if piece.save and "limit" in piece.pace.values and rng.random() < 0.5:
            piece.pace.values["limit"], piece.pace.cuts, piece.pace.tears = cycle, [], [pick]
        else:
            later = [cut for cut in piece.pace.cuts if cut > cycle][:3]
            piece.pace.cuts, piece.pace.tears = [cycle, *later], [pick, *piece.pace.tears[1 : 1 + len(later)]]

    def pieces(self, most):
        """A run, and so many that resume it, one after another."""
        rng, caller, made = self.rng, self.caller, 0
        piece, marked = self.first_piece(), set()
        while True:
            is_last = made >= most
            self.pace(piece, most, is_last)
            if piece.verb == "resume" and rng.random() < 0.06:
                self.resume_wrongly(piece)
            answer = caller.call(*piece.words())
            made += 1
            if self.is_empty(piece, answer):
                piece = self.first_piece()
                continue
            report = read_report(piece, answer, self.oracle)
            if piece.ends and report.end is None:
                wants(is_starved(piece, report), "it has not ended, and was to")
                caller.sums["starved"] += 1
            judge(piece, report, answer, self.oracle)
            marked |= self.counted(piece, report, most, marked)
            self.without_gap(piece, answer)
            if is_last or (report.end is not None and rng.random() < 0.7):
                return
            found = (report.kept, report.doubt) if report.kept else (report.doubt, None)
            is_sure = report.kept is not None
            piece = Piece("resume", piece.save, self.memory, self.geometry, None, self.more, found, is_sure)

    def is_empty(self, piece, answer):
        """Whether an image is refused because it has no checkpoint, which it may if none was reported before."""
        if piece.verb != "resume" or piece.is_sure or answer.status != 5:
            return False
        wants((answer.printed, answer.lines) == (b"", ["image 1 Empty"]), f"an image is refused with {answer.lines}")
        self.caller.sums["empty"] += 1
        return True

    def counted(self, piece, report, pieces, marked):
        """Counts a piece, and the run once among those with each of these."""
        sums = self.caller.sums
        sums["pieces"] += pieces > 0
        for name in ("ended", "early", "fell", "restarts", "doubtful"):
            sums[name] += getattr(report, name)
        new = {name for name, has in (("gap", piece.pace.values.get("gap")), ("cuts", piece.pace.cuts)) if has} - marked
        sums.update(new)
        return new

    def without_gap(self, piece, answer):
        """Now and then the same without --gap, where that makes no difference: a seed draws otherwise."""
        draws = any(tear > 1 for tear in piece.pace.tears[: len(piece.pace.cuts) + 1])
        if not piece.pace.values.get("gap") or draws or piece.save == piece.operand or self.rng.random() < 0.5:
            return
        caller = self.caller
        other = caller.call(*piece.words(without=("gap",), save="other" if piece.save else ""))
        same = (answer.status, answer.printed, answer.lines) == (other.status, other.printed, other.lines)
        wants(same, "without --gap, another answer")
        wants(not piece.save or caller.read(piece.save) == caller.read("other"), "without --gap, another image")

    def resume_wrongly(self, piece):
        """The image is resumed with another geometry."""
        memory, geometry = other_geometry(self.rng, self.memory, self.geometry, self.options.harts != 1)
        due = [(5, "image 4 Geometry")] if piece.is_sure else [(5, "image 4 Geometry"), (5, "image 1 Empty")]
        words = [*memory.words, *geometry.words, *self.more]
        refused(self.caller, due, ["resume", piece.operand, *words])
