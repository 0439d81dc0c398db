"""tools/cost, on texts of `observe` that were written by hand."""

from lib import written
from tests import test_causes
from tests.support import CopyTest, needs_matplotlib

LATENCIES = "--nvm-read 100 --nvm-write 300 --nvm-barrier 500 --dram-read 40 --dram-write 50 --hart 2".split()

HEADINGS = "                                            number    each ns         time ns   share\n"

# Of CONTROLLER.md's example. Its boot has 1 read, 522 writes and 2 barriers; the state of the end takes 448 reads, so the program
# read nothing of its own (449 - 1 - 448). The engine wrote 5 + 3 + 1 of the 531 blocks, and 522 are the boot's. There are four
# barriers: 2 of the boot, 1 of the engine before its commit block, and 1 that commits. 14 ns are the hart's; 3716 / 14 is 265.43.
TABLE_OF_EXAMPLE = (
    "{name} (estimates; ~ a number that is one too)\n"
    + HEADINGS
    + """boot        reads of the NVM                     1        100             100   0.1 %
boot        writes of the NVM                  522        300          156600  97.0 %
boot        barriers                             2        500            1000   0.6 %
program     cycles of the hart                   7          2              14   0.0 %
program     fills from the NVM                   0~       100               0   0.0 %
program     fills from the DRAM                  0~        40               0   0.0 %
program     evictions into the NVM               0~       300               0   0.0 %
program     evictions into the DRAM              0~        50               0   0.0 %
program     barriers                             0        500               0   0.0 %
checkpoint  cycles of the hart                   1          2               2   0.0 %
checkpoint  slots                                8        300            2400   1.5 %
checkpoint  commit blocks                        1        300             300   0.2 %
checkpoint  barriers                             2        500            1000   0.6 %
all, one after the other                                               161416 100.0 %
all, less what passed beside the program                               161416
the checkpoint's share is 2.3 %
ideal DRAM takes 14 ns; program and checkpoints 265.43 times that
ideal NVM takes 14 ns; program and checkpoints 265.43 times that
"""
)

# The same without the boot: 14 ns and 3702 ns.
LAST_WITHOUT_BOOT = """all, one after the other                                                 3716 100.0 %
all, less what passed beside the program                                 3716
the checkpoint's share is 99.6 %
ideal DRAM takes 14 ns; program and checkpoints 265.43 times that
ideal NVM takes 14 ns; program and checkpoints 265.43 times that
"""


class Cost(CopyTest):
    tool = "cost"

    def setUp(self):
        super().setUp()
        self.out = self.file("out", written.EXAMPLE)

    def rows(self, text, *words):
        """The rows of a table, as name and time, and the lines below them."""
        done = self.call(*LATENCIES, "--pages", 8, *words, "--table", self.file("text", text))
        self.assertEqual((done.err, done.status), ("", 0))
        lines = done.out.splitlines()[2:]
        parts = [line for line in lines if line.endswith(" %") and line[51:62].strip()]
        return {" ".join(line[:38].split()): int(line[62:78]) for line in parts}, lines[len(parts) :]

    def last(self, text, *words):
        """Of the lines below a table the numbers that are estimates of the whole: both times, shares, and multiples."""
        lines = self.rows(text, *words)[1]
        return [int(line[61:].split()[0]) for line in lines[:2]] + [line.partition(" is ")[2] for line in lines[2:3]] + lines[3:]

    def test_help(self):
        self.has_help()
        said = " ".join(self.call("--help").out.split())
        self.assertIn(
            "--hart is the time of a cycle, not of an instruction: an instruction that hits the cache has two to four cycles",
            said,
        )
        self.assertIn("All numbers that this script prints are estimates.", said)

    def test_a_table(self):
        self.prints(TABLE_OF_EXAMPLE.format(name=self.out), *LATENCIES, "--pages", 8, "--table", self.out)
        self.prints(TABLE_OF_EXAMPLE.format(name="-"), *LATENCIES, "--pages", 8, "--table", "-", source=written.EXAMPLE)

    def test_without_the_boot(self):
        done = self.call(*LATENCIES, "--pages", 8, "--no-boot", "--table", self.out)
        self.assertTrue(done.out.endswith(LAST_WITHOUT_BOOT), done.out)

    def test_what_passes_beside_the_program(self):
        # Worked out in tools/readers: 204,920 ns in all, of which 1,162 passed beside the program. Without the boots, of 181,000
        # ns, program and checkpoints take 23,920; on ideal DRAM 690 * 2 + 35 * 40 + 12 * 50, on ideal NVM 690 * 2 + 35 * 100 + 12
        # * 300.
        self.assertEqual(
            self.last(written.CUTS),
            [
                204920,
                203758,
                "7.9 % to 8.4 %",
                "ideal DRAM takes 3380 ns; program and checkpoints 6.73 to 7.08 times that",
                "ideal NVM takes 8480 ns; program and checkpoints 2.68 to 2.82 times that",
            ],
        )

    def test_the_lesser_of_two_times(self):
        # The program takes 150 * 2 + 20 * 100 + 16 * 300 + 4 * 50 = 7,300 ns for 50 instructions, and 10 were overlapped: 1,460
        # ns. The engine takes 7 * 340 + 13 * 400 + 64 * 340 + 16 * 300 + 2 * 300 + 4 * 500 = 36,740 ns, half of it not at the
        # hart's turn, and of that 100 in 232 cycles were of the first checkpoint: 7,918 ns. Beside these the checkpoints have 78
        # * 2 + 7 * 300 + 3 * 50 + 64 * (100 + 50) + 2 * (40 + 50) = 12,186 ns.
        whole = 7300 + 36740 + 12186
        self.assertEqual(self.last(test_causes.HOME, "--no-boot")[:2], [whole, whole - 1460])
        # If a cycle of the hart takes 2,000 ns, 10 instructions take 61,400, and the engine's 7,918 are less.
        whole += 1998 * (150 + 78)
        self.assertEqual(self.last(test_causes.HOME, "--no-boot", "--hart", 2000)[:2], [whole, whole - 7918])

    def test_each_time(self):
        rows, _ = self.rows(test_causes.HOME, "--no-boot")
        self.assertEqual(
            rows,
            {
                "program cycles of the hart": 300,
                "program fills from the NVM": 2000,
                "program fills from the DRAM": 0,
                "program evictions into the NVM": 4800,
                "program evictions into the DRAM": 200,
                "program barriers": 0,
                "checkpoint cycles of the hart": 156,
                "checkpoint flushes into the NVM": 2100,
                "checkpoint flushes into the DRAM": 150,
                "checkpoint promotions, NVM read": 6400,
                "checkpoint promotions, DRAM written": 3200,
                "checkpoint merges, DRAM read": 80,
                "checkpoint merges, DRAM written": 100,
                "checkpoint copies of buffers, read": 280,
                "checkpoint copies of buffers, written": 2100,
                "checkpoint copies home, read": 1300,
                "checkpoint copies home, written": 3900,
                "checkpoint pages, DRAM read": 2560,
                "checkpoint pages, NVM written": 19200,
                "checkpoint slots": 4800,
                "checkpoint commit blocks": 600,
                "checkpoint barriers": 2000,
            },
        )

    def test_sequential_writes_and_banks(self):
        rows, _ = self.rows(test_causes.HOME, "--nvm-write-sequential", 90, "--banks", 2)
        # Half of 522 * 90, 64 * 90 and 16 * 90; half of 16 * 300 and of 64 * 100; nobody waits less for fills, barriers and the
        # hart.
        for name, time in (
            ("boot writes of the NVM", 23490),
            ("checkpoint pages, NVM written", 2880),
            ("checkpoint slots", 720),
            ("program evictions into the NVM", 2400),
            ("checkpoint promotions, NVM read", 3200),
            ("program fills from the NVM", 2000),
            ("checkpoint barriers", 2000),
            ("program cycles of the hart", 300),
        ):
            self.assertEqual(rows[name], time, name)
        # 16 and 4 evictions, and 20 fills: 300 + 20 * 40 + 20 * 25, and 300 + 20 * 100 + 20 * 150.
        last = self.last(test_causes.HOME, "--banks", 2)
        self.assertTrue(last[3].startswith("ideal DRAM takes 1600 ns;") and last[4].startswith("ideal NVM takes 5300 ns;"), last)

    def test_other_schemes(self):
        rows, _ = self.rows(test_causes.JOURNAL, "--scheme", "journal", "--no-boot", "--nvm-write-sequential", 200)
        for name, time in (
            ("program evictions into the DRAM", 250),
            ("program barriers", 500),
            ("checkpoint flushes into the DRAM", 150),
            ("checkpoint copies of buffers, read", 160),
            ("checkpoint copies of buffers, written", 1200),
            ("checkpoint journal, DRAM read", 200),
            ("checkpoint journal, NVM written", 1000),
        ):
            self.assertEqual(rows[name], time, name)
        rows, last = self.rows(test_causes.SHADOW, "--scheme", "shadow", "--no-boot")
        for name, time in (
            ("program cycles of the hart", 374),
            ("program evictions into the DRAM", 50),
            ("checkpoint cycles of the hart", 262),
            ("checkpoint copies to frames, read", 12800),
            ("checkpoint copies to frames, written", 6400),
            ("checkpoint pages, DRAM read", 5120),
            ("checkpoint pages, NVM written", 38400),
        ):
            self.assertEqual(rows[name], time, name)
        # Nothing passed beside the program: both ends are the same.
        self.assertEqual(last[0].split()[-3], last[1].split()[-1])

    def test_several(self):
        other = self.file("other", test_causes.JOURNAL)
        done = self.call(*LATENCIES, "--pages", 8, "--scheme", "thynvm,journal", "--table", self.out, other)
        self.assertEqual(
            [line for line in done.out.splitlines() if "(estimates" in line],
            [f"{name} (estimates; ~ a number that is one too)" for name in (self.out, other)],
        )

    @needs_matplotlib
    def test_pictures(self):
        names = self.out, self.file("cuts", written.CUTS)
        for end, start in ((".svg", b"<?xml"), (".pdf", b"%PDF"), (".png", b"\x89PNG")):
            self.prints(
                "", *LATENCIES, "--pages", 8, "--title", "A $ & <B>", "--baseline", "ideal-nvm", *names, self.path("a" + end)
            )
            with open(self.path("a" + end), "rb") as file:
                self.assertEqual(file.read(len(start)), start)
        self.is_picture("a.svg")
        more = ["--labels", "x:a,x:b", "--baseline", "first", "--size", "page", "--most", "2"]
        self.prints("", *LATENCIES, "--pages", 8, *more, *names, self.path("b.svg"))
        zeros = [word if word.startswith("--") else "0" for word in LATENCIES]
        self.refuses("nothing takes any time", *zeros, "--pages", 8, self.out, self.path("a.svg"), status=1)

    def test_without_matplotlib(self):
        env = self.without_matplotlib()
        said = "matplotlib is not installed (on Debian it is in the package python3-matplotlib); --table needs none"
        self.refuses(said, *LATENCIES, "--pages", 8, self.out, self.path("a.svg"), env=env)
        self.prints(TABLE_OF_EXAMPLE.format(name=self.out), *LATENCIES, "--pages", 8, "--table", self.out, env=env)

    def test_refusals_of_texts(self):
        for old, new, said in (
            ("engine copied 0", "engine copied 1", "'engine ..' is 12, and has to be 11"),
            ("waiting 7\n", "", "6 lines, and not the 7"),
            (written.EXAMPLE, written.REPORT, "is not what `observe` writes of a run: behind its events it has 4 lines"),
        ):
            text = written.EXAMPLE.replace(old, new)
            with self.subTest(said=said):
                self.refuses(said, *LATENCIES, "--pages", 8, "--table", self.file("text", text), status=1)
        said = "the loading wrote 522 blocks, and 9 pages have 576: --pages has to be that of the run"
        self.refuses(said, *LATENCIES, "--pages", 9, "--table", self.out, status=1)
        self.refuses(
            "no run of shadow has counted this",
            *LATENCIES,
            "--pages",
            8,
            "--scheme",
            "shadow",
            "--table",
            self.file("text", test_causes.HOME),
            status=1,
        )
        self.refuses("cannot be read", *LATENCIES, "--pages", 8, "--table", self.path("none"), status=1)

    def test_refusals_of_words(self):
        for k in range(0, len(LATENCIES), 2):
            without = LATENCIES[:k] + LATENCIES[k + 2 :]
            self.refuses(f"the following arguments are required: {LATENCIES[k]}", *without, "--pages", 8, "--table", self.out)
        self.refuses("the following arguments are required: --pages", *LATENCIES, "--table", self.out)
        for words, said in (
            (["--hart", "-1", "--table"], "argument --hart: invalid nanoseconds value: '-1'"),
            (["--pages", 0, "--table"], "argument --pages: invalid positive value: '0'"),
            (["--banks", 0, "--table"], "argument --banks: invalid positive value: '0'"),
            (["--most", 0], "argument --most: invalid height value: '0'"),
            (["--console", 8, "--table"], "--console is below --pages"),
            (["--scheme", "paper", "--table"], "argument --scheme: invalid schemes value: 'paper'"),
            (["--scheme", "shadow,journal", "--table"], "there are 1 OUT, and 2 schemes"),
            (["--labels", "a,b", "--table"], "there are 1 OUT, and 2 labels"),
            (["--baseline", "paper", "--table"], "argument --baseline: invalid choice: 'paper'"),
            ([], "OUT and PICTURE are wanted, or --table"),
            (["a.svg"], "the picture's name ends in none of .svg, .pdf, .png: "),
        ):
            with self.subTest(said=said):
                self.refuses(said, *LATENCIES, "--pages", 8, *words, self.out)
