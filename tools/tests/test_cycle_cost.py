"""tools/cycle-cost, with a valgrind that is a script."""

import os

from tests.support import CopyTest

PAGE = """| what | host instructions |
|---|---|
| a step of the plain machine | 123 |
| a cycle of the whole machine, at the default options | 245 |
| a cycle of the whole machine, at the largest tables | 254 |
| a cycle of the whole machine, with two harts | 303 |
| a cycle of the whole machine, over the journal | 240 |
| a cycle of the whole machine, over shadow paging | 242 |
| a cycle of the whole machine, of made program 3 | 362 |
"""

# Counts 245 for each cycle and 100,000 beside, and of other calls what they are to count; its last word is the limit.
VALGRIND = """
for limit; do :; done
case "$*" in
    *' plain '*) each=123 ;;
    *' --harts 2 '*) each=300 ;;
    *' --scheme journal '*) each=241 ;;
    *' --scheme shadow '*) each=242 ;;
    *' bench 3 '*) each=360 ;;
    *) each=245 ;;
esac
echo "==1== Collected : $((100000 + each * limit))" >&2
"""

DEFAULT, LARGEST = "a cycle of the whole machine, at the default options", "a cycle of the whole machine, at the largest tables"

AGREES = f"""ok {DEFAULT}: 245.0 host instructions, the page says 245
ok {LARGEST}: 245.0 host instructions, the page says 254
ok a cycle of the whole machine, with two harts: 300.0 host instructions, the page says 303
ok a cycle of the whole machine, over the journal: 241.0 host instructions, the page says 240
ok a cycle of the whole machine, over shadow paging: 242.0 host instructions, the page says 242
ok a cycle of the whole machine, of made program 3: 360.0 host instructions, the page says 362
ok a step of the plain machine: 123.0 host instructions, the page says 123
"""


class CycleCost(CopyTest):
    tool = "cycle-cost"

    def setUp(self):
        super().setUp()
        self.program("exit 0")
        self.file("docs/PERFORMANCE.md", PAGE)

    def test_help(self):
        self.has_help()

    def test_within_five_in_a_hundred(self):
        self.prints(AGREES, env=self.beside(valgrind=VALGRIND))

    def test_too_far(self):
        self.file("docs/PERFORMANCE.md", PAGE.replace("| 254 |", "| 258 |").replace("| 123 |", "|  |"))
        wanted = AGREES.replace(f"ok {LARGEST}: 245.0 host instructions, the page says 254", f"WRONG {LARGEST}: 245.0 host instructions, the page says 258")
        wanted = wanted.replace("ok a step of the plain machine: 123.0 host instructions, the page says 123", "WRONG a step of the plain machine: 123.0 host instructions, the page says None")
        self.prints(wanted, env=self.beside(valgrind=VALGRIND), status=1)

    def test_a_valgrind_that_fails(self):
        self.refuses("callgrind counted nothing: it is not so", env=self.beside(valgrind="echo one line >&2; echo it is not so >&2; exit 1"))
        self.refuses("callgrind counted nothing: it said nothing", env=self.beside(valgrind="exit 1"))

    def test_without_valgrind(self):
        self.prints("cycle-cost: valgrind is not installed: nothing was counted\n", env=self.without())

    def test_refusals(self):
        self.refuses("unrecognized arguments: x", "x")
        os.remove(self.path("crates/thynvm/out/thynvm"))
        self.refuses("there is no program", env=self.without())
