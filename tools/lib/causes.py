"""How many accesses of each cause a run had, from what `observe` has written. `causes_of` is the one place that says so.

`observe` counts what the engine writes by kind, and the cycles of the hart by kind. It does not count which of the cache's
stores came from evictions, which went to the DRAM, nor what any read was for. These numbers are estimates here; each rule
stands at its number below, and `tools/cost --help` has them in words. Nothing of this is proved."""

from dataclasses import dataclass

from lib.options import Refused

BLOCKS = 64  # of a page

# The most blocks of a slot beside counts and map: the records of two harts, and tables of 4096 entries and of 512, eight in each.
MOST_OF_SLOT = 2 * 5 + (4096 + 512) // 8


@dataclass
class Causes:
    """Numbers by cause. Those in `ESTIMATED` are not in what `observe` writes."""

    boot_reads: int = 0
    boot_writes: int = 0
    boot_barriers: int = 0
    hart: int = 0  # cycles within instructions and of retirements
    fills_nvm: int = 0
    fills_dram: int = 0
    evictions_nvm: int = 0
    evictions_dram: int = 0
    other_barriers: int = 0  # neither of a boot nor of the engine: those that --gap makes
    ends: int = 0  # cycles of the hart at the ends of epochs, and of copies into frames
    flushes_nvm: int = 0
    flushes_dram: int = 0
    promotions_nvm: int = 0  # blocks that were read there and written into a frame
    promotions_dram: int = 0
    merges: int = 0
    frame_copies: int = 0  # of shadow paging: a block that is read in the NVM and written into a frame
    buffer_copies: int = 0  # blocks that the engine copied from the DRAM to a place of their own
    home_copies: int = 0  # and those that it copied from the NVM to the NVM
    journalled: int = 0
    pages: int = 0
    slot: int = 0
    commits: int = 0
    barriers: int = 0

    @property
    def promotions(self):
        return self.promotions_nvm + self.promotions_dram

    @property
    def fills(self):
        return self.fills_nvm + self.fills_dram

    @property
    def evictions(self):
        return self.evictions_nvm + self.evictions_dram


# Numbers that are estimated, because `observe` does not count them. But of the journal's copies `--causes` says where they went.
ESTIMATED = frozenset(
    "fills_nvm fills_dram evictions_nvm evictions_dram flushes_nvm flushes_dram promotions_nvm promotions_dram frame_copies "
    "buffer_copies home_copies journalled".split()
)

JOURNAL_COPIES = ("buffer_copies", "journalled")

NAMES = tuple(Causes.__dataclass_fields__)


def is_estimated(name, seen, scheme):
    """Whether a number of a run is none that `observe` has written."""
    return name in ESTIMATED and not (name in JOURNAL_COPIES and scheme == "journal" and seen.causes is not None)


def causes_of(seen, scheme, pages, console):
    """The numbers of a run."""
    check_scheme(seen, scheme)
    found = Causes()
    count_boots(found, seen)
    count_engine(found, seen)
    check_pages(found, seen, scheme, pages)
    {"thynvm": both_tables, "journal": journal, "shadow": shadow}[scheme](found, seen, left_of(found, seen, pages, console))
    return found


def check_scheme(seen, scheme):
    """Refuses a scheme that the run cannot be of."""
    engine, hart, words = seen.totals["engine"], seen.totals["hart"], [event.word for event in seen.events]
    if scheme != "thynvm":
        none = [hart["merged"], hart["promoted"], seen.number("epochs", "overlapped")]
        none.append(engine["page"] if scheme == "journal" else engine["copied"])
        if any(none):
            raise Refused(f"no run of {scheme} has counted this: --scheme has to be that of the run")
    elif engine["page"] and not hart["promoted"] and "restart" not in words:
        raise Refused("pages were written and none was promoted, as with shadow paging: --scheme has to be that of the run")
    elif engine["barrier"] > engine["committed"] + words.count("cut") + 1:
        raise Refused("there are two barriers for each commit, as with the journal: --scheme has to be that of the run")


def recovering(seen):
    """How many cycles went by in boots that found a checkpoint: their actions, each a read."""
    since, cycles = 0, 0
    for event in seen.events:
        if event.word == "cut":
            since = event.cycle
        elif event.word == "restart":
            cycles += event.cycle - since
    return cycles


def count_boots(found, seen):
    """Reads, writes and barriers of boots. A loading has one read, two barriers and writes; a recovery reads alone."""
    words = [event.word for event in seen.events]
    engine, nvm = seen.totals["engine"], seen.totals["nvm"]
    loaded = sum(event.line.startswith("commit 0 ") for event in seen.events)
    # Of an image that was resumed the first boot is a recovery; else each begins with loading, and so does one after a reload.
    loads = words.count("reload") + (words[:1] != ["restart"])
    cycles = seen.number("cycles", "boot")
    found.boot_barriers = min(2 * loaded, max(0, nvm["barriers"] - engine["barrier"] - engine["committed"]))
    found.boot_reads = min(cycles, recovering(seen) + loads)
    most = max(0, nvm["writes"] - written_by_engine(seen))
    found.boot_writes = min(max(0, cycles - found.boot_reads - found.boot_barriers), most)


def written_by_engine(seen):
    """How many blocks the engine wrote."""
    return sum(seen.number("engine", name) for name in ("copied", "page", "state", "table", "commit"))


def count_engine(found, seen):
    """What the engine wrote, and the cycles of the hart: these are counted."""
    engine, hart, nvm = seen.totals["engine"], seen.totals["hart"], seen.totals["nvm"]
    found.hart = hart["moved"] + hart["retired"]
    found.ends = sum(hart[name] for name in ("flushed", "merged", "promoted", "sealed"))
    found.merges, found.pages, found.commits = hart["merged"], engine["page"], engine["commit"]
    found.slot = engine["state"] + engine["table"]
    found.barriers = engine["barrier"] + engine["committed"]
    found.other_barriers = max(0, nvm["barriers"] - found.barriers - found.boot_barriers)


def check_pages(found, seen, scheme, pages):
    """Refuses a number of pages of which the loading did not write each block once, as far as the run says."""
    words = [event.word for event in seen.events]
    # Beside memory's blocks a loading writes header, commit block and a slot, with the counts or, of shadow paging, the map.
    more = (pages + 7) // 8 if scheme == "shadow" else (pages + 63) // 64
    most, cuts = BLOCKS * pages + 2 + MOST_OF_SLOT + more, words.count("cut") + words.count("restart")
    written = found.boot_writes
    if words[:1] == ["commit"] and (written < BLOCKS * pages or (not cuts and written > most)):
        raise Refused(
            f"the loading wrote {written} blocks, and {pages} pages have {BLOCKS * pages}: --pages has to be that of the run"
        )


def left_of(found, seen, pages, console):
    """What is left of reads and writes of the NVM, for all causes that `observe` does not count. Its reads include those by
    which the simulator reads whole states, for each restart and for the end: as many as program memory has blocks."""
    words, nvm = [event.word for event in seen.events], seen.totals["nvm"]
    states = BLOCKS * (pages - console) * sum(words.count(word) for word in ("restart", "exit", "trap"))
    return max(0, nvm["reads"] - found.boot_reads - states), max(0, nvm["writes"] - written_by_engine(seen) - found.boot_writes)


def both_tables(found, seen, left):
    """ThyNVM. What the hart wrote into the NVM are stores; the DRAM took at least the stores that landed there in a cycle of
    their own, and those dirty lines of epochs' ends that the NVM did not take."""
    reads, stores_nvm = left
    flushed, promoted, copied = seen.number("hart", "flushed"), seen.number("hart", "promoted"), seen.number("engine", "copied")
    stores_dram = max(0, seen.number("cycles", "dramdrain") - promoted - found.merges, flushed - stores_nvm)
    stores = stores_nvm + stores_dram
    # The dirty lines of ends of epochs went to both devices as all stores did.
    found.flushes_nvm = flushed * stores_nvm // stores if stores else 0
    found.flushes_dram = flushed - found.flushes_nvm
    found.evictions_nvm, found.evictions_dram = stores_nvm - found.flushes_nvm, stores_dram - found.flushes_dram
    # Each copy from a buffer had a store into it. The others came from the NVM, on the way home, as far as there are reads.
    found.home_copies = min(max(0, copied - stores_dram), reads)
    found.buffer_copies = copied - found.home_copies
    found.promotions_nvm = min(promoted, reads - found.home_copies)
    found.promotions_dram = promoted - found.promotions_nvm
    found.fills_nvm = reads - found.home_copies - found.promotions_nvm
    # The stores into the DRAM of which no copy was made went into frames. What was evicted into one is filled again from it.
    in_frames = max(0, stores_dram - found.buffer_copies)
    found.fills_dram = in_frames * (stores - flushed) // stores if stores else 0


def journal(found, seen, left):
    """The journal. All stores go into buffers. Each buffer is written into the journal and then home."""
    reads, writes = left
    flushed, copied = seen.number("hart", "flushed"), seen.number("engine", "copied")
    found.flushes_dram = flushed
    found.evictions_dram = max(0, seen.number("cycles", "dramdrain") - flushed)
    found.evictions_nvm, found.fills_nvm = writes, reads
    # With --causes `observe` says which of them went home.
    found.buffer_copies = copied // 2 if seen.causes is None else seen.causes["homes"]
    found.journalled = copied - found.buffer_copies


def shadow(found, seen, left):
    """Shadow paging. Each block of a frame that is written was copied into the frame before, in a cycle of the hart."""
    reads, writes = left
    flushed = seen.number("hart", "flushed")
    found.frame_copies = copies = min(found.pages, reads)
    # `flushed` has the copies at ends of epochs too. It has as many lines as those copies leave, and at least one for 64 of them.
    found.flushes_dram = max(flushed - copies, flushed // (BLOCKS + 1))
    # The other copies were made within instructions, each 64 of them for a store.
    within = copies - (flushed - found.flushes_dram)
    found.hart, found.ends = found.hart - min(within, found.hart), found.ends + min(within, found.hart)
    landed = seen.number("cycles", "dramdrain") - copies - found.flushes_dram
    found.evictions_dram = max(0, landed, (within + BLOCKS - 1) // BLOCKS)
    found.evictions_nvm, found.fills_nvm = writes, reads - copies
