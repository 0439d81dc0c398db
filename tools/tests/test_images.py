"""The layouts of the NVM's image, by docs/FORMATS.md."""

import struct
import unittest

from lib import images
from lib.images import BLOCK, PAGE, Geometry, Journaling, Remapping, Shadowing, layout_of


def words(*numbers):
    return struct.pack(f"<{len(numbers)}Q", *numbers)


class Layouts(unittest.TestCase):
    """With eight pages and eight entries in each table, whose numbers FORMATS.md has."""

    def geometry(self, scheme="thynvm", harts=1):
        return Geometry(65536, 8, 1, 8, 8, scheme, harts)

    def test_both_tables(self):
        # T is 2, C is 1, Z1 is 7; E is 1048.
        one, two = Remapping(self.geometry()), Remapping(self.geometry(harts=2))
        self.assertEqual((one.homes, one.alternate_blocks, one.alternate_pages, one.slots), (16, 528, 536, 1048))
        self.assertEqual((one.slot_blocks, one.blocks), (8, 1064))
        self.assertEqual((two.homes, two.slots, two.slot_blocks, two.blocks, two.size), (16, 1048, 13, 1074, 68736))
        self.assertEqual([one.slot(epoch) for epoch in (0, 1, 2)], [1048, 1056, 1048])

    def test_blocks_of_counts(self):
        # A block has the counts of 64 pages.
        for pages, counts in ((8, 1), (64, 1), (65, 2), (65536, 1024)):
            layout = Remapping(Geometry(65536, pages, 1, 8, 8))
            self.assertEqual((layout.counts, layout.slot_blocks), (counts, 7 + counts))

    def test_version_one(self):
        old = Remapping(self.geometry(), version=1)
        self.assertEqual((old.homes, old.slots, old.slot_blocks, old.blocks, old.counts), (16, 2, 7, 1048, 0))
        self.assertEqual([old.slot(epoch) for epoch in (4, 5)], [2, 9])

    def test_the_journal(self):
        one, two = Journaling(self.geometry("journal")), Journaling(self.geometry("journal", 2))
        self.assertEqual((one.slot_blocks, one.homes, one.journals, one.blocks), (6, 14, 526, 542))
        self.assertEqual((two.slot_blocks, two.homes, two.blocks), (11, 24, 552))

    def test_shadow_paging(self):
        one = Shadowing(self.geometry("shadow"))
        self.assertEqual((one.slot_blocks, one.pool, one.pages, one.blocks), (6, 14, 16, 1038))
        # Nine pages need two blocks of the map.
        self.assertEqual(Shadowing(Geometry(65536, 9, 1, 8, 8, "shadow")).slot_blocks, 7)

    def test_which_layout(self):
        for scheme, kind in (("thynvm", Remapping), ("journal", Journaling), ("shadow", Shadowing)):
            self.assertIs(type(layout_of(self.geometry(scheme))), kind)


class Words(unittest.TestCase):
    def test_header(self):
        header = images.header_bytes(Geometry(65536, 8, 2, 16, 24, "shadow", 2))
        self.assertEqual(header, bytes.fromhex("5448594e48445231") + words(2, 65536, 8, 2, 16, 24, 258))
        read = images.header_of(header + bytes(64))
        self.assertEqual(read, (b"THYNHDR1", 2, [65536, 8, 2, 16, 24], 2, 2))

    def test_commit_block(self):
        self.assertEqual(images.commit_bytes(5), bytes.fromhex("5448594e434d5432") + words(5, 0, 0, 0, 0, 0, 0))
        self.assertEqual(images.commit_bytes(5, version=1)[:8], bytes.fromhex("5448594e434d5431"))

    def test_record(self):
        numbers = [images.COUNT, images.CURSOR, images.CONSOLE, images.BREAK, images.STATUS, images.NUMBER, images.EPOCH]
        self.assertEqual([*numbers, images.FLOOR], list(range(32, 40)))
        self.assertEqual((images.SECOND_PC, images.FIRST_WIDTH, images.SECOND_WIDTH), (40, 72, 74))

    def test_options(self):
        self.assertEqual(Geometry(0, 9, 2, 16, 8).options(), "--base 0 --pages 9 --console 2 --btt 16 --ptt 8")


def marked(blocks):
    """An image in which each block has its number in each byte, modulo 251."""
    return b"".join(bytes([k % 251]) * BLOCK for k in range(blocks))


class Memory(unittest.TestCase):
    """Where each block of memory is read: its first byte says from what block of the image."""

    def blocks(self, layout, epoch, first, second=()):
        memory = layout.memory(marked(layout.blocks), epoch, list(first), list(second))
        self.assertEqual(len(memory), 8 * PAGE)
        return [memory[BLOCK * k] for k in range(8 * 64)]

    def test_both_tables(self):
        layout = Remapping(Geometry(65536, 8, 1, 8, 8))
        # Entry 2 lists block 5, and entry 0 of the page table page 3; page 9 is not there.
        read = self.blocks(layout, 0, [0, 0, 6, 0, 0, 0, 0, 0], [4, 0, 10, 0, 0, 0, 0, 0])
        wanted = [(16 + k) % 251 for k in range(512)]
        wanted[5] = (528 + 2) % 251
        wanted[192:256] = [(536 + k) % 251 for k in range(64)]
        self.assertEqual(read, wanted)

    def test_a_block_before_its_page(self):
        layout = Remapping(Geometry(65536, 8, 1, 8, 8))
        read = self.blocks(layout, 0, [193, *[0] * 7], [4, *[0] * 7])
        self.assertEqual(read[192:194], [528 % 251, 537 % 251])

    def test_the_journal_of_each_slot(self):
        layout = Journaling(Geometry(65536, 8, 1, 8, 8, "journal"))
        for epoch, journal in ((4, 526), (5, 534)):
            read = self.blocks(layout, epoch, [0, 0, 0, 2, 0, 0, 0, 0])
            self.assertEqual(read[:3], [14, (journal + 3) % 251, 16])

    def test_the_pool(self):
        layout = Shadowing(Geometry(65536, 8, 1, 8, 8, "shadow"))
        read = self.blocks(layout, 0, [16, 2, 3, 4, 5, 6, 7, 8])
        # Page 0 stands in page 15 of the pool, page 1 in page 1.
        self.assertEqual(read[0], (14 + 64 * 15) % 251)
        self.assertEqual(read[64], (14 + 64) % 251)
