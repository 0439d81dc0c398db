"""The layouts of the NVM's image (docs/FORMATS.md): where its parts are, in blocks, and what its words mean.

Of each scheme a class has the places. Another layout is a class with the same calls, and a line in LAYOUTS."""

import struct
from dataclasses import dataclass
from typing import NamedTuple

from lib.program import GEOMETRY, SCHEMES

BLOCK, PAGE, WORD = 64, 4096, 8
PER_PAGE = PAGE // BLOCK

# The bytes with which header and commit block begin; of the commit block they name the version.
HEADER = b"THYNHDR1"
COMMITS = {1: b"THYNCMT1", 2: b"THYNCMT2"}

# What the option --scheme calls the scheme of a number.
SCHEME_NAMES = {number: name for name, number in SCHEMES.items()}

# The words of the processor's record, of which one hart has forty; words 1 to 31 are its registers.
PC, COUNT, CURSOR, CONSOLE, BREAK, STATUS, NUMBER, EPOCH, FLOOR = 0, *range(32, 40)
RECORD_WORDS, RECORD_BLOCKS = 40, 5

# With two harts these follow: its pc, its registers, and of both reservations width and address, and zeros.
SECOND_PC, FIRST_WIDTH, SECOND_WIDTH, SECOND_ZEROS = 40, 72, 74, range(76, 80)
WIDTHS = (0, 4, 8)


def words_of(data):
    """Bytes as words of eight, lowest byte first."""
    return list(struct.unpack(f"<{len(data) // WORD}Q", data))


def bytes_of(*words):
    """The same back."""
    return struct.pack(f"<{len(words)}Q", *words)


def blocks_of(data, first, many=1):
    """Some blocks of an image."""
    return data[BLOCK * first : BLOCK * (first + many)]


@dataclass(frozen=True)
class Geometry:
    """The options that an image belongs to."""

    base: int
    pages: int
    console: int
    btt: int
    ptt: int
    scheme: str = "thynvm"
    harts: int = 1

    def numbers(self):
        """Those that stand in words of their own of the header."""
        return [getattr(self, name) for name in GEOMETRY]

    def last(self):
        """The last word of the header."""
        return SCHEMES[self.scheme] + 256 * (self.harts - 1)

    def options(self):
        """The numbers as options of a call."""
        return " ".join(f"--{name} {number}" for name, number in zip(GEOMETRY, self.numbers()))


class Header(NamedTuple):
    """What a header says, whatever it is."""

    name: bytes
    version: int
    numbers: list
    scheme: int
    harts: int


def header_of(data):
    """The header of an image."""
    version, *numbers, last = words_of(data[WORD:BLOCK])
    return Header(data[:WORD], version, numbers, last % 256, last // 256 + 1)


def header_bytes(geometry, version=2):
    """The header of an image of a geometry."""
    return HEADER + bytes_of(version, *geometry.numbers(), geometry.last())


def commit_bytes(epoch, version=2):
    """The commit block of an epoch."""
    return COMMITS[version] + bytes_of(epoch, *[0] * 6)


class Layout:
    """Where the parts of an image are. The slots stand behind the commit block, and have the processor's record, the entries
    of one table or of two, and with the first scheme the counts of stores."""

    version = 2
    slots = 2
    counts = 0  # blocks of them in a slot

    def __init__(self, geometry, first, second=0):
        self.geometry = geometry
        # How many entries each of the two tables has.
        self.first, self.second = first, second
        self.record = RECORD_BLOCKS * geometry.harts
        self.tables = first // WORD + second // WORD

    @property
    def slot_blocks(self):
        """How many blocks a slot has."""
        return self.record + self.tables + self.counts

    @property
    def size(self):
        """How many bytes the image has."""
        return BLOCK * self.blocks

    def slot(self, epoch):
        """The first block of the slot of an epoch."""
        return self.slots + self.slot_blocks * (epoch % 2)

    def record_words(self, data, epoch):
        """The words of the processor's record in the slot of an epoch."""
        return words_of(blocks_of(data, self.slot(epoch), self.record))

    def entries(self, data, epoch):
        """The entries of both tables in the slot of an epoch: 0, or one more than a number."""
        words = words_of(blocks_of(data, self.slot(epoch) + self.record, self.tables))
        return words[: self.first], words[self.first :]

    def count_bytes(self, data, epoch):
        """How many stores each page had in an epoch, and zeros behind; nothing if the layout has no counts."""
        return blocks_of(data, self.slot(epoch) + self.record + self.tables, self.counts)


class Remapping(Layout):
    """Memory has homes, and two tables list the blocks and pages of memory that stand elsewhere. The slots of version 1 stand
    before the homes, those of version 2 behind all places of memory. Version 1 knows one hart only, and no counts."""

    def __init__(self, geometry, version=2):
        super().__init__(geometry, geometry.btt, geometry.ptt)
        self.version = version
        old = RECORD_BLOCKS + self.tables
        self.homes = 2 + 2 * old
        self.alternate_blocks = self.homes + PER_PAGE * geometry.pages
        self.alternate_pages = self.alternate_blocks + geometry.btt
        self.blocks = self.alternate_pages + PER_PAGE * geometry.ptt
        if version == 2:
            self.slots, self.counts = self.blocks, (geometry.pages + 63) // 64
            self.blocks += 2 * self.slot_blocks

    def memory(self, data, _epoch, first, second):
        """All of memory's blocks, each from where the tables have it. What they list outside of memory is left out."""
        memory = bytearray(blocks_of(data, self.homes, self.alternate_blocks - self.homes))
        for table, place, size in ((second, self.alternate_pages, PAGE), (first, self.alternate_blocks, BLOCK)):
            for i, entry in enumerate(table):
                if 0 < size * entry <= len(memory):
                    at = BLOCK * place + size * i
                    memory[size * (entry - 1) : size * entry] = data[at : at + size]
        return bytes(memory)


class Journaling(Layout):
    """Memory has homes, and one table lists the blocks of memory that stand in the journal of the checkpoint's slot."""

    def __init__(self, geometry):
        super().__init__(geometry, geometry.btt)
        self.homes = 2 + 2 * self.slot_blocks
        self.journals = self.homes + PER_PAGE * geometry.pages
        self.blocks = self.journals + 2 * geometry.btt

    def memory(self, data, epoch, first, _second):
        """All of memory's blocks, each from where the table has it. What it lists outside of memory is left out."""
        memory = bytearray(blocks_of(data, self.homes, self.journals - self.homes))
        journal = self.journals + self.first * (epoch % 2)
        for i, entry in enumerate(first):
            if 0 < BLOCK * entry <= len(memory):
                memory[BLOCK * (entry - 1) : BLOCK * entry] = blocks_of(data, journal + i)
        return bytes(memory)


class Shadowing(Layout):
    """A map, the only table, gives each page of memory a page of a pool, which stands behind the slots."""

    def __init__(self, geometry):
        super().__init__(geometry, WORD * ((geometry.pages + 7) // 8))
        self.pool = 2 + 2 * self.slot_blocks
        self.pages = geometry.pages + geometry.ptt
        self.blocks = self.pool + PER_PAGE * self.pages

    def memory(self, data, _epoch, first, _second):
        """All of memory's blocks, each page from where the map has it."""
        pool = BLOCK * self.pool - PAGE
        return b"".join(data[pool + PAGE * entry : pool + PAGE * (entry + 1)] for entry in first[: self.geometry.pages])


LAYOUTS = {"thynvm": Remapping, "journal": Journaling, "shadow": Shadowing}


def layout_of(geometry):
    """The layout of version 2 of a geometry's scheme."""
    return LAYOUTS[geometry.scheme](geometry)
