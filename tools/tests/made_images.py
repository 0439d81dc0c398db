"""Images that are made by hand for the tests, from docs/FORMATS.md alone: eight pages, and eight entries in each table.

They do not use lib/images.py, whose places they try."""

import struct

BLOCK, PAGE = 64, 4096
BASE, PAGES, CONSOLE, BTT, PTT = 65536, 8, 1, 8, 8

# The first block of slot 0, the blocks of a slot, and the blocks of the image, by version, scheme and harts.
PLACES = {
    (1, 0, 1): (2, 7, 1048),
    (2, 0, 1): (1048, 8, 1064),
    (2, 0, 2): (1048, 13, 1074),
    (2, 1, 1): (2, 6, 542),
    (2, 2, 1): (2, 6, 1038),
}

# The first block of memory's homes, or of the pool.
HOMES = {(1, 0): 16, (2, 0): 16, (2, 1): 14, (2, 2): 14}


def words(*numbers):
    return struct.pack(f"<{len(numbers)}Q", *numbers)


def record(epoch, count=60, cursor=2, console=3, status=0, number=0, pc=65540):
    """A record in which register k has 100 + k, the break is 65600 and its floor 65552."""
    registers = [100 + k for k in range(1, 32)]
    return words(pc, *registers, count, cursor, console, 65600, status, number, epoch, 65552)


# The second hart of a record of two: its pc, its registers, two reservations, and zeros.
SECOND = words(65544, *(200 + k for k in range(1, 32)), 0, 0, 8, 65664, 0, 0, 0, 0)


class Made:
    """An image whose words a test may change."""

    def __init__(self, scheme=0, version=2, harts=1, epoch=5, header_version=None, **more):
        slots, blocks, size = PLACES[version, scheme, harts]
        self.homes, self.record_blocks = HOMES[version, scheme], 5 * harts
        self.slot = slots + blocks * (epoch % 2)
        self.data = bytearray(BLOCK * size)
        shown = version if header_version is None else header_version
        self.put(0, b"THYNHDR1" + words(shown, BASE, PAGES, CONSOLE, BTT, PTT, scheme + 256 * (harts - 1)))
        self.put(1, f"THYNCMT{version}".encode() + words(epoch, 0, 0, 0, 0, 0, 0))
        self.put(self.slot, record(epoch, **more) + (SECOND if harts == 2 else b""))
        if scheme == 2:
            # Page x of memory stands in page x of the pool.
            self.put(self.slot + self.record_blocks, words(*range(1, 9)))
        # The last page is the console's.
        self.put(self.homes + 64 * 7, b"Hi\n")

    def put(self, block, data, at=0):
        """Puts bytes into a block and those behind it."""
        self.data[BLOCK * block + at : BLOCK * block + at + len(data)] = data
        return self

    def word(self, block, k, number):
        """Sets a word of a block."""
        return self.put(block, words(number), 8 * k)

    def entry(self, k, number):
        """Sets an entry of the tables, of which those of the second stand behind the first."""
        return self.word(self.slot + self.record_blocks, k, number)

    def count(self, page, stores):
        """Sets how many stores a page had."""
        return self.put(self.slot + self.record_blocks + 2, bytes([stores]), page)

    @property
    def bytes(self):
        return bytes(self.data)
