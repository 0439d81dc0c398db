"""Numbers by cause, of texts of `observe` that were written by hand."""

import unittest

from lib import causes, counted, observed, written
from lib.options import Refused


def text(events, hart, engine, nvm, dram, waiting, boot, landed=200, overlapped=10):
    """What `observe` writes, of numbers in the order of its lines. The sums are made right."""
    names = dict(observed.TOTALS)
    line = lambda word, numbers: word + "".join(f" {name} {number}" for name, number in zip(names[word], numbers))
    cycles = boot + sum(hart) + sum(engine) + landed + dram
    lines = [
        *events,
        f"cycles {cycles} boot {boot} hart {sum(hart)} engine {sum(engine)} nvmdrain {landed} dramdrain {dram}",
        line("hart", hart),
        line("engine", engine),
        f"waiting {waiting}",
        line("nvm", nvm),
        "lost 0",
        f"epochs 2 early 0 overlapped {overlapped}",
    ]
    return "".join(f"{line}\n" for line in lines)


# Two epochs of a program of 50 instructions, in eight pages. The loading has 1 read, 522 writes and 2 barriers.
EVENTS = """700 0 commit 0 overlapped 0
800 30 epoch 1 ends at 30 by length
900 40 commit 1 overlapped 10
1000 50 epoch 2 ends at 50 by end
1132 50 commit 2 overlapped 0
1132 50 exit 0 at 50""".splitlines()

WAITED = [line.replace("900 40 commit 1 overlapped 10", "900 30 commit 1 overlapped 0") for line in EVENTS]

# The hart: 150 cycles of instructions, 10 lines flushed, 2 merges, 64 blocks promoted. The engine: 20 copies, a page, 16 blocks
# of slots. It wrote 102 of the 647 blocks and the boot 522, so the hart stored 23 in the NVM. 546 reads are 1 of the boot, 448 of
# the state at the end, and 97. The DRAM took 73 blocks in cycles of their own, less 64 promoted and 2 merged: 7.
HOME = text(EVENTS, (100, 50, 10, 2, 64, 2), (20, 64, 10, 6, 2, 2, 2), (546, 647, 6), 73, 53, 525)

# The same with 33 stores more into the DRAM, which are 40 then.
FRAMES = text(EVENTS, (100, 50, 10, 2, 64, 2), (20, 64, 10, 6, 2, 2, 2), (546, 647, 6), 106, 53, 525)

# The journal, whose loading has 520 writes: 9 copies, 3 lines flushed, and a move of --gap with its barrier.
JOURNAL = text(WAITED, (100, 50, 3, 0, 0, 2), (9, 0, 10, 2, 3, 2, 2), (461, 544, 8), 8, 20, 523, 500, 0)

# Shadow paging: two frames are written. One was filled at an end of an epoch: 64 copies and the line, 65 cycles of `flushed`, and
# one line more. So the other was filled within instructions, as 66 less a line are 65 of 128 copies, which leaves 63.
SHADOW = text(WAITED, (200, 50, 66, 0, 0, 2), (0, 128, 10, 2, 2, 2, 2), (584, 662, 6), 20, 20, 523, 300, 0)


def found(lines, scheme="thynvm", pages=8, console=1):
    return causes.causes_of(observed.read(lines.splitlines()), scheme, pages, console)


class ByCause(unittest.TestCase):
    def has(self, text, scheme="thynvm", **numbers):
        """Of a text these are the numbers, and all others are 0."""
        numbers = {name: numbers.get(name, 0) for name in causes.NAMES}
        self.assertEqual({name: getattr(found(text, scheme), name) for name in causes.NAMES}, numbers)

    def test_the_smallest_run(self):
        self.has(written.EXAMPLE, boot_reads=1, boot_writes=522, boot_barriers=2, hart=7, ends=1, slot=8, commits=1, barriers=2)

    def test_cuts_and_a_restart(self):
        # Of 645 writes 596 are the boots' and 42 the engine's; 7 of the hart. The DRAM took 10, of which one was merged: 9. So of
        # 4 flushes 4 * 7 / 16 went to the NVM: 1. Both copies had a store into a buffer. Seven stores went to frames, and 12 in
        # 16 of all stores were evictions: 7 * 12 / 16 is 5. Of 938 reads 12 are the boots', 896 those of two states.
        self.has(
            written.CUTS,
            **dict(boot_reads=12, boot_writes=596, boot_barriers=2, hart=690, ends=10, slot=36, commits=4, barriers=8, merges=1),
            **dict(fills_nvm=30, fills_dram=5, evictions_nvm=6, evictions_dram=6, flushes_nvm=1, flushes_dram=3, buffer_copies=2),
        )

    COUNTED = dict(
        boot_reads=1, boot_writes=522, boot_barriers=2, hart=150, ends=78, merges=2, pages=64, slot=16, commits=2, barriers=4
    )

    def test_copies_home_and_promotions(self):
        # Of 10 flushes 10 * 23 / 30 went to the NVM: 7. Seven copies had a store into a buffer, so 13 came from the NVM, as did
        # 64 promotions, and of 97 reads 20 are left. Nothing is left for frames, so nothing was filled from them.
        self.has(
            HOME,
            **self.COUNTED,
            **dict(flushes_nvm=7, flushes_dram=3, evictions_nvm=16, evictions_dram=4, buffer_copies=7, home_copies=13),
            **dict(promotions_nvm=64, fills_nvm=20),
        )

    def test_stores_into_frames(self):
        # Of 10 flushes 10 * 23 / 63 went to the NVM: 3. All 20 copies are of buffers. 20 stores went to frames, of which
        # 20 * 53 / 63 were evictions: 16.
        self.has(
            FRAMES,
            **self.COUNTED,
            **dict(flushes_nvm=3, flushes_dram=7, evictions_nvm=20, evictions_dram=33, buffer_copies=20, promotions_nvm=64),
            **dict(fills_nvm=33, fills_dram=16),
        )

    def test_few_writes_of_the_dram(self):
        # None landed in a cycle of its own. But of 10 flushes the NVM took no more than the hart stored there: 4. So the DRAM took 6.
        text_ = text(EVENTS, (100, 50, 10, 0, 0, 2), (0, 0, 10, 6, 2, 2, 2), (449, 522 + 18 + 4, 6), 0, 10, 525, 500)
        few = found(text_)
        self.assertEqual((few.flushes_nvm, few.flushes_dram, few.evictions_nvm, few.evictions_dram), (4, 6, 0, 0))

    def test_few_reads(self):
        few = found(FRAMES.replace("reads 546", "reads 479"))
        self.assertEqual((few.promotions_nvm, few.promotions_dram, few.fills_nvm, few.promotions), (30, 34, 0, 64))
        few = found(HOME.replace("reads 546", "reads 454"))
        self.assertEqual((few.home_copies, few.buffer_copies, few.promotions_nvm, few.fills_nvm), (5, 15, 0, 0))

    def test_the_journal(self):
        self.has(
            JOURNAL,
            "journal",
            **dict(boot_reads=1, boot_writes=520, boot_barriers=2, hart=150, ends=5, slot=12, commits=2, barriers=5),
            **dict(
                other_barriers=1, evictions_nvm=1, flushes_dram=3, evictions_dram=5, fills_nvm=12, journalled=5, buffer_copies=4
            ),
        )

    def test_the_journal_with_causes(self):
        # A cut fell before the last three copies, so more went into the journal than home.
        numbers = [523, 150, 0, 3, 0, 2, 0, 6, 3, 0, 10, 2, 2, 5, 500, 8, 0, 20]
        section = "".join(f"{name} {number}\n" for name, number in zip(counted.NAMES, numbers))
        whole = f"{JOURNAL}causes\n{section}"
        numbers = found(whole, "journal")
        self.assertEqual((numbers.journalled, numbers.buffer_copies), (6, 3))
        # So of the journal these two are counted, and nothing else that is estimated.
        for text_, scheme, name, estimated in (
            (whole, "journal", "journalled", False),
            (whole, "journal", "buffer_copies", False),
            (whole, "journal", "fills_nvm", True),
            (whole, "thynvm", "buffer_copies", True),
            (JOURNAL, "journal", "journalled", True),
            (JOURNAL, "journal", "commits", False),
        ):
            seen = observed.read(text_.splitlines())
            self.assertEqual(causes.is_estimated(name, seen, scheme), estimated, (name, scheme))

    def test_shadow_paging(self):
        # A frame that was filled within instructions was for an eviction, though only 20 writes landed in cycles of their own.
        self.has(
            SHADOW,
            "shadow",
            **dict(boot_reads=1, boot_writes=520, boot_barriers=2, hart=187, ends=131, slot=12, commits=2, barriers=4, pages=128),
            **dict(frame_copies=128, flushes_dram=1, evictions_dram=1, fills_nvm=7),
        )
        # All copies at ends of epochs, and 140 writes that landed: 10 more than copies and lines.
        text_ = text(WAITED, (200, 50, 130, 0, 0, 2), (0, 128, 10, 2, 2, 2, 2), (584, 662, 6), 140, 20, 523, 300, 0)
        ends = found(text_, "shadow")
        self.assertEqual((ends.hart, ends.ends, ends.flushes_dram, ends.evictions_dram), (250, 132, 2, 10))
        # 128 cycles of `flushed` have one line with its 64 copies, and no second one; so 127 of 256 copies are theirs, and the
        # other 129 are of three frames.
        text_ = text(WAITED, (200, 50, 128, 0, 0, 2), (0, 256, 10, 2, 2, 2, 2), (705, 790, 6), 20, 20, 523, 300, 0)
        some = found(text_, "shadow")
        self.assertEqual((some.frame_copies, some.flushes_dram, some.hart, some.evictions_dram), (256, 1, 121, 3))

    def test_sums(self):
        for lines, scheme in (
            (written.CUTS, "thynvm"),
            (HOME, "thynvm"),
            (FRAMES, "thynvm"),
            (JOURNAL, "journal"),
            (SHADOW, "shadow"),
        ):
            seen, some = observed.read(lines.splitlines()), found(lines, scheme)
            parts = "boot_writes evictions_nvm flushes_nvm buffer_copies home_copies journalled pages slot commits".split()
            self.assertEqual(sum(getattr(some, name) for name in parts), seen.number("nvm", "writes"))
            self.assertEqual(some.hart + some.ends, seen.number("cycles", "hart"))

    def refuses(self, said, *words, **more):
        with self.assertRaises(Refused) as fault:
            found(*words, **more)
        self.assertIn(said, str(fault.exception))

    def test_the_number_of_pages(self):
        said = "the loading wrote 522 blocks, and 9 pages have 576: --pages has to be that of the run"
        self.refuses(said, written.EXAMPLE, pages=9)
        # More than 7 * 64 blocks, header, commit block, 586 of a slot and one with counts.
        many = written.EXAMPLE.replace("writes 531", "writes 1047").replace("cycles 722 boot 525", "cycles 1238 boot 1041")
        self.refuses("the loading wrote 1038 blocks, and 7 pages have 448", many.replace("722 3", "1238 3"), pages=7)
        # With shadow paging the slot has a map of eight pages a block: of 65,536 pages 8,192, and 5 of the record.
        blocks = 64 * 65536 + 2 + 5 + 8192
        text_ = text(
            WAITED, (200, 50, 0, 0, 0, 2), (0, 0, 10, 2, 2, 2, 2), (1 + 64 * 65535, blocks + 14, 6), 0, 20, blocks + 3, 3000, 0
        )
        self.assertEqual(found(text_, "shadow", 65536).boot_writes, blocks)
        self.refuses("--pages has to be that of the run", text_, "thynvm", 65536)

    def test_schemes_that_cannot_be(self):
        for lines, scheme, said in (
            (HOME, "journal", "no run of journal has counted this"),
            (HOME, "shadow", "no run of shadow has counted this"),
            (JOURNAL, "shadow", "no run of shadow has counted this"),
            (SHADOW, "journal", "no run of journal has counted this"),
            (SHADOW, "thynvm", "as with shadow paging"),
            (JOURNAL.replace("copied 9", "copied 8").replace("barrier 3", "barrier 4"), "thynvm", "as with the journal"),
        ):
            with self.subTest(scheme=scheme, said=said):
                self.refuses(said, lines, scheme)
        # A cut, and the end of a run at its limit, may each come between the two barriers of a checkpoint: 4 for 2 commits.
        cut = [EVENTS[0], "750 20 cut 1 at cycle 750", "760 0 restart 0 at 0", *EVENTS[1:-1]]
        text_ = text(cut, (100, 50, 0, 0, 0, 2), (0, 0, 10, 6, 4, 3, 2), (459, 522 + 19, 8), 0, 10, 535, 500)
        self.assertEqual(found(text_).barriers, 6)
        self.refuses("as with the journal", text_.replace("barrier 4", "barrier 5").replace("commit 3", "commit 2"))
