"""tools/trace, over tables as `observe --accesses` writes them."""

from lib import accesses
from tests.support import CopyTest

HEAD = "cycle\tdevice\taccess\tplace\tcause\n"

# The end of CONTROLLER.md's example, cycles 697 to 722: the commit block of loading, the fill of the program's first block, the
# slot of epoch 1 (its first place is 16 + 512 + 8 + 512, and 8), and the commit block.
EXAMPLE = HEAD + "".join(
    f"{cycle}\tnvm\t{access}\t{place}\t{cause}\n"
    for cycle, access, place, cause in (
        (698, "write", 1, "boot"),
        (701, "read", 16, "instructions"),
        (709, "write", 1056, "processor"),
        (710, "write", 1057, "processor"),
        (721, "write", 1, "commits"),
    )
)

# A block that the engine copies home from its alternate block.
MOVED = HEAD + "900\tnvm\tread\t534\tcopies\n900\tnvm\twrite\t78\tcopies\n"


class Trace(CopyTest):
    tool = "trace"

    def trace(self, form, table):
        """The text that is written."""
        self.prints("", form, table, self.path("t"))
        return self.read("t.nvm.trace")

    def test_help(self):
        self.has_help()

    def test_dramsim3(self):
        # 16 * 64 is 0x400, 1056 * 64 is 67584 (0x10800).
        nvm = "0x40 WRITE 0\n0x400 READ 3\n0x10800 WRITE 11\n0x10840 WRITE 12\n0x40 WRITE 23\n"
        self.assertEqual(self.trace("--dramsim3", self.file("a", EXAMPLE)), nvm)
        # 534 * 64 is 34176 (0x8580), 78 * 64 is 4992 (0x1380).
        self.assertEqual(self.trace("--dramsim3", self.file("b", MOVED)), "0x8580 READ 0\n0x1380 WRITE 0\n")

    def test_ramulator(self):
        self.assertEqual(self.trace("--ramulator", self.file("b", MOVED)), "0x8580 R\n0x1380 W\n")

    def test_nothing(self):
        self.assertEqual(self.trace("--dramsim3", self.file("a", HEAD + "none\n")), "")

    def test_standard_input(self):
        self.prints("", "--ramulator", "-", self.path("t"), source=MOVED)
        self.assertEqual(self.read("t.nvm.trace"), "0x8580 R\n0x1380 W\n")

    def test_rows(self):
        for row in (
            "1\tnvm\tread\t0",
            "1\tnvm\tread\t0\tboot\t0",
            "x\tnvm\tread\t0\tboot",
            "1\tcache\tread\t0\tboot",
            "1\tnvm\terase\t0\tboot",
            "1\tnvm\tread\t-1\tboot",
            "1\tnvm\tread\t0\tfill",
        ):
            with self.assertRaisesRegex(accesses.Fault, "this is not a row of an access"):
                accesses.read((HEAD + row).splitlines())
        for before, after in (
            ("2\tnvm\tread\t0\tboot", "1\tnvm\tread\t0\tboot"),
            ("2\tnvm\tread\t0\tcopies", "2\tnvm\twrite\t0\thomes"),
        ):
            with self.assertRaisesRegex(accesses.Fault, "it cannot follow"):
                accesses.read((HEAD + before + "\n" + after).splitlines())

    def test_refusals(self):
        table = self.file("a", EXAMPLE)
        self.refuses("one of the arguments --dramsim3 --ramulator is required", table, self.path("t"))
        self.refuses("not allowed with argument", "--dramsim3", "--ramulator", table, self.path("t"))
        self.refuses("the following arguments are required: PREFIX", "--dramsim3", table)
        self.refuses("TRACE cannot be read", "--dramsim3", self.path("none"), self.path("t"))
        self.refuses("is no table of accesses: in place of the names", "--dramsim3", self.file("b", ""), self.path("t"))
        self.refuses("is no table of accesses: it has neither", "--dramsim3", self.file("c", HEAD), self.path("t"))
        self.refuses("is no table of accesses", "--dramsim3", self.file("d", EXAMPLE + "none\n"), self.path("t"))
        self.refuses("No such file or directory", "--dramsim3", table, self.path("none", "t"))
