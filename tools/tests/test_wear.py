"""tools/wear, over texts as `observe` writes them."""

from lib import written
from tests.support import CopyTest, loaded, needs_matplotlib

# The same run over an NVM whose wear is levelled, so to say.
LEVELLED = written.STORED.replace("0 3\n1 538\n", "0 2\n1 260\n3 279\n")


class Wear(CopyTest):
    tool = "wear"

    def setUp(self):
        super().setUp()
        self.bare, self.levelled = self.file("bare.out", written.STORED), self.file("levelled.out", LEVELLED)

    def test_help(self):
        self.has_help()

    def test_a_table(self):
        self.prints("place bare levelled\n0 3 2\n1 538 260\n3 0 279\n", "--table", self.bare, self.levelled)
        self.prints("place a b_c\n0 3 2\n1 538 260\n3 0 279\n", "--labels", "a,b c", "--table", self.bare, self.levelled)
        self.prints("place -\n0 3\n1 538\n", "--table", "-", source=written.STORED)

    @needs_matplotlib
    def test_a_picture(self):
        self.prints("", self.bare, self.path("a.svg"))
        self.is_picture("a.svg")
        self.prints("", "--title", "wear", self.bare, self.levelled, self.path("b.svg"))
        self.is_picture("b.svg")

    def test_the_heat_map(self):
        wear = loaded("wear")
        # Five places: a row has the root of twice as many, which is more than 3, so 4.
        self.assertEqual(wear.squares([6, 6, 4, 2, 2]), [[6, 6, 4, 2], [2, None, None, None]])
        self.assertEqual(wear.squares([7]), [[7, None]])
        self.assertEqual(len(wear.squares(list(range(12288)))[0]), 157)
        self.assertEqual((wear.counts_of({0: 2, 3: 1}), wear.counts_of({})), ([2, 0, 0, 1], [0]))

    def test_without_matplotlib(self):
        env = self.without_matplotlib()
        self.refuses("matplotlib is not installed", self.bare, self.path("a.svg"), env=env)
        self.prints("place bare\n0 3\n1 538\n", "--table", self.bare, env=env)

    def test_refusals(self):
        self.refuses("the following arguments are required: OUT")
        self.refuses("either PICTURE or --table is wanted", self.bare)
        self.refuses("the picture's name ends in none of .svg, .pdf, .png: a.gif", self.bare, "a.gif")
        self.refuses("there are 1 labels, and 2 OUTs", "--labels", "a", "--table", self.bare, self.levelled)
        self.refuses("has no writes of places", "--table", self.file("cuts.out", written.CUTS))
        self.refuses("is not what `observe` writes of a run", "--table", self.file("list", "0 1\n"))
        self.refuses("OUT cannot be read", "--table", self.path("none"))
