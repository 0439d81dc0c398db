"""The tables of docs/EVALUATION.md: the runs of each row, and what stands in its cells."""

from dataclasses import dataclass

from lib.evaluations.results import Run
from lib.program import SCHEMES

ARRAYS = ("random", "streaming", "sliding")
STORES = tuple(f"{store}_{size}" for store in ("hash_table", "red_black_tree") for size in (16, 256, 4096))
PROGRAMS = (*ARRAYS, *STORES)

# The programs whose rows the gate makes, where a table has a row for each.
CHECKED = ("streaming", "hash_table_16")

# Options beside the defaults: no page is promoted; a cache of 256 lines and not of 64.
SPARSE, LARGE = "--high 63", "--sets 64"


@dataclass(frozen=True)
class Row:
    """A row: its first cells, its runs by names, and whether the gate makes it."""

    first: tuple
    runs: dict
    is_checked: bool


@dataclass(frozen=True)
class Table:
    """A table of the page: its name there, its headings, its rows, and the function that makes the other cells of a row."""

    name: str
    headings: tuple
    rows: list
    cells: object

    def line(self, row, found):
        """A row as a line of the page."""
        results = {name: found[run] for name, run in row.runs.items()}
        return line_of((*row.first, *self.cells(results)))

    @property
    def head(self):
        return [line_of(self.headings), "|" + "---|" * len(self.headings)]


def line_of(cells):
    return f"| {' | '.join(map(shown, cells))} |"


def shown(cell):
    """A number with commas between thousands, a quotient with two decimals, and - for what there is not."""
    if cell is None:
        return "-"
    return f"{cell:,}" if isinstance(cell, int) else f"{cell:.2f}" if isinstance(cell, float) else cell


def share(part, whole):
    return f"{100 * part / whole:.1f} %"


def each_program(runs_of):
    """A row for each program."""
    return [Row((name,), runs_of(name), name in CHECKED) for name in PROGRAMS]


def by_scheme(program, options=""):
    """The runs of a program by each scheme, named by the schemes."""
    return {scheme: Run(program, options, scheme) for scheme in SCHEMES}


# ---- what each scheme does


def schemes(found):
    yield found["thynvm"].number("instructions")
    for scheme in SCHEMES:
        epochs, early = found[scheme].number("epochs"), found[scheme].number("early")
        yield f"{epochs:,} ({early:,})" if early else epochs
    yield from (found[scheme].writes for scheme in SCHEMES)
    yield found["thynvm"].writes / found["journal"].writes
    yield share(found["thynvm"].number("overlapped"), found["thynvm"].number("instructions"))


def causes(found):
    both, log, pages = (found[scheme] for scheme in SCHEMES)
    yield from (both.stores, both.number("copied"), both.number("page"), both.slots)
    yield from (log.number("copied"), log.slots, pages.number("page"), pages.slots)


# ---- why thynvm writes more than the journal


def promotion(found):
    both, sparse = found["thynvm"], found["sparse"]
    yield from (both.number("promoted") // 64, both.number("page") // 64)
    yield from (both.stores + both.number("copied"), both.number("page"), both.writes)
    yield from (sparse.stores + sparse.number("copied"), sparse.writes)
    yield found["journal"].writes


def cache(found):
    small, large = found["small"], found["large"]
    yield from (found["journal"].number("copied"), small.stores, large.stores)
    yield from (small.number("copied"), large.number("copied"), small.writes, large.writes)
    yield from (found["journal"].writes, found["large journal"].writes)


def entries(found):
    both, log = found["thynvm"], found["journal"]
    free = None if both.free is None else round(both.free)
    yield from (both.number("epochs"), both.number("early"), both.short, free, both.number("promoted") // 64)
    yield from (both.stores, both.number("copied"), both.slots, both.writes)
    yield from (log.number("epochs"), log.number("early"), log.writes)


def rows_of_entries():
    """Rows by program, lines of the cache and entries."""
    for program, caches, numbers in (
        ("random", (64,), (64, 128, 256, 512, 4096)),
        ("sliding", (64, 256), (64, 128, 256, 512)),
        ("hash_table_4096", (64, 256), (64, 128, 256, 512)),
    ):
        for lines in caches:
            for btt in numbers:
                words = [*([LARGE] if lines == 256 else []), *([f"--btt {btt}"] if btt != 512 else [])]
                runs = {scheme: Run(program, " ".join(words), scheme) for scheme in ("thynvm", "journal")}
                yield Row((program, lines, btt), runs, program == "sliding" and lines == 64 and btt in (128, 512))


def slots(found):
    yield found["thynvm"].slots // found["thynvm"].number("commit")
    for scheme in SCHEMES:
        one = found[scheme]
        yield from (one.slots, one.writes, share(one.slots, one.writes))


def copying(found):
    yield found["thynvm"].number("instructions")
    for scheme in SCHEMES:
        yield from (found[scheme].number("epochs"), found[scheme].writes)


TABLES = (
    Table(
        "schemes",
        (
            *("program", "instructions", "epochs: thynvm", "journal", "shadow", "writes: thynvm", "journal", "shadow"),
            *("thynvm / journal", "meanwhile"),
        ),
        each_program(by_scheme),
        schemes,
    ),
    Table(
        "causes",
        ("program", "thynvm: stores", "copies", "pages", "slots", "journal: copies", "slots", "shadow: pages", "slots"),
        each_program(by_scheme),
        causes,
    ),
    Table(
        "promotion",
        (
            *("program", "pages promoted", "written", "stores and copies", "blocks of pages", "writes"),
            *("`--high 63`: stores and copies", "writes", "journal"),
        ),
        each_program(
            lambda name: {
                "thynvm": Run(name, "", "thynvm"),
                "sparse": Run(name, SPARSE, "thynvm"),
                "journal": Run(name, "", "journal"),
            }
        ),
        promotion,
    ),
    Table(
        "cache",
        (
            *("program", "journal: copies", "stores: 64 lines", "256", "copies: 64 lines", "256", "writes: 64 lines", "256"),
            *("journal: 64 lines", "256"),
        ),
        each_program(
            lambda name: {
                "small": Run(name, SPARSE, "thynvm"),
                "large": Run(name, f"{LARGE} {SPARSE}", "thynvm"),
                "journal": Run(name, "", "journal"),
                "large journal": Run(name, LARGE, "journal"),
            }
        ),
        cache,
    ),
    Table(
        "entries",
        (
            *("program", "lines", "entries", "thynvm: epochs", "early", "short", "free", "pages promoted", "stores", "copies"),
            *("slots", "writes", "journal: epochs", "early", "writes"),
        ),
        list(rows_of_entries()),
        entries,
    ),
    Table(
        "slots",
        (
            *("pages of memory", "blocks of a slot", "thynvm: slots", "writes", "share", "journal: slots", "writes", "share"),
            *("shadow: slots", "writes", "share"),
        ),
        [
            Row((pages,), by_scheme("hash_table_256", f"--btt 256 --pages {pages}"), pages == 256)
            for pages in (256, 4096, 16384, 65536)
        ],
        slots,
    ),
    Table(
        "copying",
        ("`memcpy` of", "instructions", "thynvm: epochs", "writes", "journal: epochs", "writes", "shadow: epochs", "writes"),
        [
            Row(("the C library, by bytes",), by_scheme("red_black_tree_4096_bytes"), False),
            Row(("the runtime, by words",), by_scheme("red_black_tree_4096"), True),
        ],
        copying,
    ),
)

# The runs that the picture has.
DRAWN = [Run(name, "", scheme) for name in PROGRAMS for scheme in SCHEMES]
