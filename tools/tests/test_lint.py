"""tools/lint: in a small repository, where each difference is made; and in this one, for which nothing may differ."""

import os
import re
import subprocess
import unittest

from lib import repository
from lib.lint import claim, english, help, map, names, proofs
from tests.support import CopyTest, ToolTest, needs, needs_program

CRATES = """# one line a crate, lowest first
low: other
middle: low
high: low middle
"""

MAP = """# The page

## The map

### The lower layer

| crate | what it is | stands on | its contract in one sentence |
|---|---|---|---|
| low | a thing | other | it holds |
| middle | more | low | it holds too |

### The upper layer

| crate | what it is | stands on | its contract in one sentence |
|---|---|---|---|
| high | most | low, middle | all holds |

## More
"""

# The map as it is printed: the page's section without its heading.
PRINTED = MAP.split("## The map\n\n")[1].split("\n## More")[0]

CODE = "pub fn read_it(x: u64) -> u64 { x }\n\npub struct Table {\n    entries: u64,\n}\n"

NAMES = "# Names\n\n`read_it` reads `entries` of `Table`, as `crates/low/src/lib.rt` says.\n"


class Map(CopyTest):
    tool = "lint"

    def setUp(self):
        super().setUp()
        self.file("crates.txt", CRATES)
        self.file("docs/ARCHITECTURE.md", MAP)
        self.file("docs/layers.svg", self.call("map", "--picture").out)

    def differs(self, said):
        self.prints(f"{said}\n", "map", status=1)

    def test_nothing_differs(self):
        self.prints("docs/ARCHITECTURE.md has the 3 crates of crates.txt\n", "map")

    def test_what_is_printed(self):
        self.prints(f"{PRINTED}", "map", "--print")
        self.prints("middle\nhigh\n", "map", "--above", "low")
        self.prints("\n", "map", "--above", "high")

    def test_the_picture(self):
        root = self.is_picture("docs/layers.svg")
        texts = [text.firstChild.data for text in root.getElementsByTagName("text")]
        self.assertEqual(texts, ["The upper layer", "1 crate", "The lower layer", "2 crates"])
        # From the upper layer to the lower one.
        self.assertEqual(len(root.getElementsByTagName("line")), 1)

    def test_differences(self):
        page = "docs/ARCHITECTURE.md"
        for old, new, said in (
            ("| low, middle |", "| low |", f"{page}: high stands on 'low', in crates.txt on 'low, middle'"),
            ("| high | most", "| none | most", f"{page} does not have high\n{page} has none, which crates.txt does not list"),
        ):
            self.file(page, MAP.replace(old, new))
            done = self.call("map")
            with self.subTest(said=said):
                self.assertTrue(set(said.splitlines()) <= set(done.out.splitlines()), done.out)
                self.assertEqual((done.err, done.status), ("", 1))
        self.file(page, MAP)
        self.file("docs/layers.svg", "<svg/>")
        self.differs("docs/layers.svg is not what tools/lint map --picture prints")

    def test_an_order_that_is_wrong(self):
        rows = "| low | a thing | other | it holds |\n", "| middle | more | low | it holds too |\n"
        self.file("docs/ARCHITECTURE.md", MAP.replace("".join(rows), "".join(reversed(rows))))
        self.assertIn("the crates of the layer 'The lower layer' are not in the order of crates.txt\n", self.call("map").out)
        self.file("docs/ARCHITECTURE.md", MAP)
        self.file("crates.txt", CRATES.replace("low: other", "low: high"))
        self.assertIn("low stands on high of a layer above its own\n", self.call("map").out)

    def test_refusals(self):
        self.refuses("cannot read a crate none in crates.txt", "map", "--above", "none")
        self.file("docs/ARCHITECTURE.md", MAP.replace("| middle | more | low | it", "| middle | more | it"))
        self.refuses("cannot read the row of middle in docs/ARCHITECTURE.md, which has 3 cells", "map")
        self.file("docs/ARCHITECTURE.md", "# Another\n")
        self.refuses("cannot read `## The map` in docs/ARCHITECTURE.md", "map")
        os.remove(self.path("docs/ARCHITECTURE.md"))
        self.refuses("cannot read docs/ARCHITECTURE.md: No such file or directory", "map")


LIB = """//! What is low. It has
//! a second sentence.
//!
//! Open this.

mod more;

pub use more::{Reader, Shut, Table, is_even, sums_are_even};

/// Not named.
pub fn hidden() -> u64 {
    0
}
"""

MORE = """//! More.
ghost use Rattle.low.specs.One.{one};

/// A table of numbers.
/// It has no gaps.
pub struct Table {
    /// A field.
    pub entries: u64,
}

/// Inside.
struct Own;

impl Table {
    /// Entry `at`, of those
    /// that there are. Else 0.
    pub fn entry(&self, at: u64) -> u64
        ensures { result ≡ 0 }
    {
        0
    }

    /// Inside.
    fn inner(&self) {}

    /// Lists
    /// none twice. Nor more.
    ///
    /// More of it.
    #[inline]
    pub fn lists_once(&self)
        ensures { self.now }
    {
        let _ = &self.entries;
    }
}

/// What reads.
pub trait Reader {
    /// Reads on.
    fn read(&mut self)
        ensures { self.new };
}

impl Reader for Table {
    fn read(&mut self) {}
}

/// A table that is shut.
pub enum Shut {
    No,
}

impl<N: Other> Reader for Shut<N> {
    /// Reads nothing.
    fn read(&mut self) {}
}

impl Reader for Own {
    /// Inside.
    fn read(&mut self) {}
}

impl Model for Table {
    /// Of another library.
    fn model(&self) {}
}

/// Whether it is even: 4 is. 5 is not.
pub const fn is_even(x: u64) -> bool {
    x % 2 == 0
}

/// Sums of even numbers are
/// even. So are products.
pub fn sums_are_even()
    ensures { one }
{}

/// Of this file alone, whose name is a module's.
pub fn more() {}
"""

MAIN = """//! The program.

use crate::top::work;

fn main() {}
"""

TOP = """/// Works.
pub fn work() {
}

/// Not called by main.
pub fn more() {
}
"""

PROOFS = """## The lower layer

### low

What is low.

| implementation | what it says |
|---|---|
| `Reader` for `Table` | A table of numbers. It has no gaps. |
| `Reader` for `Shut` | A table that is shut. |

| law | what it says |
|---|---|
| `Table::lists_once` | Lists none twice. Nor more. |
| `sums_are_even` | Sums of even numbers are even. So are products. |

| function | what it says |
|---|---|
| `Table::entry` | Entry `at`, of those that there are. |
| `Reader::read` | Reads on. |
| `Shut::read` | Reads nothing. |
| `is_even` | Whether it is even: 4 is. *No contract.* |

## The upper layer

### high

The program.

| function | what it says |
|---|---|
| `work` | Works. *No contract.* |
"""


class Proofs(CopyTest):
    """In a repository of three crates, of which one has nothing public: what the page has of them is worked out by hand."""

    tool = "lint"

    def setUp(self):
        super().setUp()
        self.file("crates.txt", CRATES)
        self.file("docs/ARCHITECTURE.md", MAP)
        self.file("docs/PROOFS.md", "# Another\n")
        for path, text in (("low/src/lib", LIB), ("low/src/more", MORE), ("high/src/main", MAIN), ("high/src/top", TOP)):
            self.file(f"crates/{path}.rt", text)
        self.file("crates/middle/src/lib.rt", "//! In the middle.\n")

    def page(self):
        with open(self.path("docs/PROOFS.md"), encoding="utf-8") as file:
            return file.read()

    def test_what_is_written(self):
        self.prints("", "proofs", "--write")
        self.assertEqual(self.page(), f"{proofs.HEAD}\n{PROOFS}")
        self.assertTrue(self.page().startswith(english.MADE))
        self.prints("docs/PROOFS.md has what the comments of 2 crates say\n", "proofs")

    def test_differences(self):
        said = "docs/PROOFS.md is not what tools/lint proofs --write makes of the comments\n"
        self.prints(said, "proofs", status=1)
        self.call("proofs", "--write")
        self.file("crates/low/src/more.rt", MORE.replace("/// even. So are products.", "/// even."))
        self.prints(said, "proofs", status=1)

    def test_a_function_without_a_comment(self):
        self.file("crates/high/src/top.rt", TOP.replace("/// Works.\n", ""))
        self.call("proofs", "--write")
        self.assertTrue(self.page().endswith("| `work` | *No contract.* |\n"))

    def test_a_module_that_is_public(self):
        self.file("crates/middle/src/lib.rt", "//! In the middle.\npub mod inner;\nmod deep;\n")
        self.file("crates/middle/src/inner.rt", "//! Inside.\nmod deep;\n\npub use deep::shown;\n")
        text = "/// Is shown.\npub fn shown()\n    ensures { a }\n{}\n\n/// Is not.\npub fn hidden()\n    ensures { a }\n{}\n"
        self.file("crates/middle/src/inner/deep.rt", text)
        self.file("crates/middle/src/deep.rt", text)
        self.call("proofs", "--write")
        self.assertIn("### middle\n\nIn the middle.\n\n| law | what it says |\n|---|---|\n| `inner::shown` | Is shown. |\n", self.page())
        self.assertNotIn("hidden", self.page())
        self.assertNotIn("`shown`", self.page())

    def test_refusals(self):
        os.remove(self.path("docs/PROOFS.md"))
        self.refuses("cannot read docs/PROOFS.md: No such file or directory", "proofs")
        os.remove(self.path("crates/middle/src/lib.rt"))
        self.refuses("cannot read crates/middle/src/lib.rt: No such file or directory", "proofs", "--write")


@needs("git")
class Names(CopyTest):
    tool = "lint"

    def names(self, text, code=CODE):
        self.file("crates.txt", CRATES)
        self.file("crates/low/src/lib.rt", code)
        self.file("thynvm", "run_it() {\n    :\n}\n")
        self.file("README.md", text)
        for words in (["init", "-q"], ["add", "crates.txt", "crates", "thynvm", "README.md", "tools"]):
            subprocess.run(["git", *words], cwd=self.folder, check=True)
        return self.call("names")

    def test_names_that_are_found(self):
        done = self.names(NAMES + "\n`run_it` and `check_map`; `low`, `image`, `--picture` and `if`.\n")
        self.assertEqual((done.out, done.err, done.status), ("10 names in 1 documents are found\n", "", 0))

    def test_calls_of_a_module(self):
        self.file("crates/low/src/inner/deep.rt", "pub fn deepest() {}\n")
        self.assertEqual(self.names("`inner::deepest`\n").out, "1 names in 1 documents are found\n")
        said = "README.md:1: `outer::deepest`: outer::deepest is not in the repository\n"
        self.assertEqual(self.names("`outer::deepest`\n").out, said)

    def test_names_that_are_nowhere(self):
        for text, said in (
            ("`read_that`", "README.md:1: `read_that`: read_that is not in the repository"),
            ("a\n`Table::entrys`", "README.md:2: `Table::entrys`: Table::entrys is not in the repository"),
            ("`lib/none.py`", "README.md:1: `lib/none.py`: lib/none.py is not in the repository"),
            ("`--nowhere`", "README.md:1: `--nowhere`: --nowhere is not in the repository"),
            ("`read_it` (`crates/middle/src`)", "README.md:1: `crates/middle/src`: crates/middle/src is not in the repository"),
            ("the words `of Reading_it all`", "README.md:1: `of Reading_it all`: Reading_it is not in the repository"),
        ):
            done = self.names(f"{text}\n")
            with self.subTest(text=text):
                self.assertIn(f"{said}\n", done.out)
                self.assertEqual((done.err, done.status), ("", 1))


@needs("git")
class English(CopyTest):
    """In a repository of one page and one crate: what is counted there is worked out by hand."""

    tool = "lint"

    def counts(self, **files):
        """The counts of a page, a file of code and a file of definitions."""
        paths = {"page": "README.md", "code": "crates/low/src/lib.rt", "definitions": "crates/low/specs/One.antt"}
        for name, text in files.items():
            self.file(paths[name], text)
        for words in (["init", "-q"], ["add", *(paths[name] for name in files)]):
            subprocess.run(["git", *words], cwd=self.folder, check=True)
        done = self.call("english", "--counts")
        self.assertEqual((done.err, done.status), ("", 0))
        counted = {line.split(None, 3)[3]: int(line.split()[0]) for line in done.out.splitlines()}
        return {name: number for name, number in counted.items() if number}

    def test_long_sentences(self):
        # The first sentence has 41 words, the second 40; the third is of another paragraph. A span in back quotes is one word.
        page = f"{'one ' * 41}. A{' one' * 39}.\n\nA{' one' * 38} `of many words`\n\n- A{' one' * 20}\n- A{' one' * 20}\n"
        self.assertEqual(self.counts(page=page), {"sentences of more than 40 words": 1})

    def test_long_cells(self):
        # All sentences are short; the first cell has 61 words, the second 60.
        page = f"| a | b |\n|---|---|\n|{' one two. Two' * 20} one | A{' one. One' * 29} one |\n"
        self.assertEqual(self.counts(page=page), {"table cells of more than 60 words": 1})

    def test_what_does_not_count(self):
        page = "# A page\n\n    that of\n\n    so many\n\n`that of`, and that often of so manyfold.\n"
        self.assertEqual(self.counts(page=page), {})
        self.assertEqual(self.counts(page="<!-- made by a script -->\nThat of the other.\n"), {})

    def test_words_over_two_lines(self):
        page = "# That of\n\nThose\nof a page. So\n  many, as many.\n\n| what is seen of it | it goes by |\n\n> no sooner\n"
        counted = {"that of, those of": 2, "so many, as many": 2, "what is seen of": 1, "goes by": 1, "no sooner": 1}
        self.assertEqual(self.counts(page=page), counted)

    def test_comments(self):
        code = (
            "//! So it is.\n/// So does this, of the head.\nuse a::b;\n\n/// And this.\n///\n/// So that puts.\npub fn a() {\n"
            "    // The same.\n}\n\n/// Some. Nor\n#[inline]\nfn b() {}\n\n/// Alone: is due.\n\n    /// the same as\n    c: u64,\n"
        )
        definitions = "-- nor this head\nuse Rattle.a\n\n-- nor\n-- made anew\none : Nat\n---- so many\ntwo : Nat\n"
        begin = "comments that begin with And, So, Nor or The same"
        self.assertEqual(self.counts(page="", code=code, definitions=definitions), {"puts": 1, "made anew": 1, begin: 3})

    def test_places(self):
        self.counts(page="One.\n\nThe page\nhas that of two.\n", code="/// So.\nfn a() {}\n")
        page = "README.md:3: that of, those of: The page has that of two.\n"
        code = "crates/low/src/lib.rt:1: comments that begin with And, So, Nor or The same: So.\n"
        self.prints(page + code, "english", "--list")
        self.prints(page, "english", "--list", "README.md")
        self.prints(code, "english", "--list", "crates/")

    def test_more_than_there_may_be(self):
        self.file("README.md", "One.\n")
        subprocess.run(["git", "init", "-q"], cwd=self.folder, check=True)
        subprocess.run(["git", "add", "README.md"], cwd=self.folder, check=True)
        self.prints("none of 13 wordings is found more often than it may be\n", "english")
        most = english.WORDINGS["so does"].most
        self.file("README.md", "So does it.\n" * (most + 1))
        said = f"so does: {most + 1}, and at most {most} may be: tools/lint english --list\n"
        self.prints(said, "english", status=1)
        self.file("README.md", "So does it.\n" * most)
        self.prints("none of 13 wordings is found more often than it may be\n", "english")

    def test_refusals(self):
        subprocess.run(["git", "init", "-q"], cwd=self.folder, check=True)
        self.refuses("cannot read a document or a source: git knows none", "english")
        self.file("README.md")
        subprocess.run(["git", "add", "README.md"], cwd=self.folder, check=True)
        os.remove(self.path("README.md"))
        self.refuses("cannot read README.md: No such file or directory", "english")


class Elsewhere(CopyTest):
    tool = "lint"

    def test_refusals(self):
        # Where git does not look for a repository in the folders above.
        nowhere = {**os.environ, "GIT_CEILING_DIRECTORIES": os.path.dirname(self.folder)}
        for part in ("names", "english"):
            self.refuses("cannot read the list of files: git ls-files has failed", part, env=nowhere)
            self.refuses("cannot read the list of files: git is not in PATH", part, env=self.without())


class Claim(ToolTest):
    """In this repository: what the claim reaches is not made again here."""

    tool = "lint"

    def test_nothing_differs(self):
        done = self.call("claim")
        self.assertRegex(done.out, r"\Adocs/THEOREM.md lists the \d+ files that the claim reaches, and they are marked\n\Z")
        self.assertEqual((done.err, done.status), ("", 0))

    def test_the_list(self):
        # The table of docs/THEOREM.md has the same files.
        done = self.call("claim", "--list")
        files = [line.split()[1] for line in done.out.splitlines() if line.endswith(".antt")]
        section = repository.text_of("docs/THEOREM.md").split("## The order of reading\n")[1].split("\n## ")[0]
        self.assertEqual(done.status, 0)
        for file in files:
            self.assertIn(f"`{file}`", section)
        self.assertIn(f"\n{len(files)} files, ", done.out)

    def test_names(self):
        done = self.call("claim", "--names")
        self.assertEqual(done.status, 0)
        self.assertIn(" definitions\n", done.out)


class ClaimElsewhere(CopyTest):
    tool = "lint"

    def test_refusals(self):
        self.refuses("cannot read crates/thy_cli/src/top.rt: No such file or directory", "claim")
        self.file("crates/thy_cli/src/top.rt", "pub fn another() {\n}\n")
        self.refuses("cannot read the contract of `thynvm`", "claim")
        self.file("crates/thy_cli/src/top.rt", "pub fn thynvm<S: Shelf>(\n)\n{\n}\n")
        self.refuses("cannot read the trait Shelf", "claim")


class Parts(unittest.TestCase):
    """Parts of the walk, over texts of a few lines."""

    def test_what_a_file_brings_in(self):
        uses = claim.Uses("use Rattle.low.specs.Things.{One, Two as Other}\n  ghost use Rattle.std.list as list\n")
        self.assertEqual(uses.names, {"One": ("low.specs.Things", "One"), "Other": ("low.specs.Things", "Two")})
        self.assertEqual(uses.modules, {"list": "std.list"})

    def test_a_type_by_another_name(self):
        # In this repository the journal is a type over another one, and the scheme that waits is not.
        self.assertEqual(claim.alias_of("Journal"), ("Composed", "Refill"))
        self.assertEqual(claim.alias_of("WaitingScheme"), ("WaitingScheme", None))

    def test_lines_of_the_picture(self):
        # In each layer one crate: what a layer stands on by way of another one has no line.
        crates = {"one": [], "two": ["one"], "three": ["two"], "four": ["one", "two", "three"], "five": ["four", "one", "std"]}
        layers = {name.upper(): [[name]] for name in crates}
        direct = map.stands_on(crates, layers)
        self.assertEqual(direct, {"ONE": [], "TWO": ["ONE"], "THREE": ["TWO"], "FOUR": ["THREE"], "FIVE": ["FOUR"]})
        # A line from the third layer to the first passes beside the second.
        rows, lines = map.lines_of({"ONE": [], "TWO": ["ONE"], "THREE": ["ONE", "TWO"]})
        self.assertEqual(rows, [[("ONE", None)], [("TWO", None), ("ONE", 1)], [("THREE", None)]])
        passing = [(("THREE", None), ("ONE", 1)), (("ONE", 1), ("ONE", None))]
        self.assertEqual(set(lines), {*passing, (("THREE", None), ("TWO", None)), (("TWO", None), ("ONE", None))})

    def test_the_table_of_the_page(self):
        text = "## The order of reading\n\n| | crate | read | skim |\n|---|---|---|---|\n| 1 | low | `One.antt`, `Two.antt` | |\n| 2 | high | | `Three.antt` |\n\n## More\n"
        self.assertEqual(claim.rows_of(text), [[("low", "One.antt"), ("low", "Two.antt")], [("high", "Three.antt")]])

    def test_ranges_that_are_tried(self):
        # The ends of a range are taken, and the numbers beside them refused.
        self.assertEqual(help.tries("gap", "at most 5"), ([["--gap", "0"], ["--gap", "1"], ["--gap", "5"]], [["--gap", "6"]]))
        good, bad = help.tries("btt", "8 to 4096, multiple of 8")
        self.assertEqual(good, [["--btt", "8"], ["--btt", "16"], ["--btt", "4096"]])
        self.assertEqual(bad, [["--btt", "7"], ["--btt", "4104"], ["--btt", "9"]])
        self.assertEqual(help.tries("scheme", "a, b or c")[1], [["--scheme", "A"], ["--scheme", "bs"], ["--scheme", "0"]])

    def test_names_of_sources(self):
        code = "pub fn read_it() {}\npub struct Table {\n    pub entries: u64,\n}\n// fn not_this\nimpl Table {\n}\n"
        self.assertTrue({"read_it", "Table", "entries", "Table::"} <= names.names_in_code(code))
        self.assertNotIn("not_this", names.names_in_code(code))
        definitions = 'abbrev one : Nat := 1\npub record Two := { }\nthree : "put failed"\n-- four : Nat\n'
        self.assertTrue({"one", "Two", "three", "put", "failed"} <= names.names_in_definitions(definitions))
        self.assertNotIn("four", names.names_in_definitions(definitions))


class Help(CopyTest):
    tool = "lint"

    def test_refusals(self):
        self.refuses("there is no program /none: a call of ./thynvm builds it", "help", "--program", "/none")
        program = self.program("exit 0")
        self.script("thynvm", repository.text_of("thynvm"))
        self.refuses("cannot read docs/USING.md: No such file or directory", "help", "--program", program)
        self.file("docs/USING.md", "")
        self.refuses("cannot read the table of options in docs/USING.md", "help", "--program", program)
        self.file("docs/USING.md", repository.text_of("docs/USING.md"))
        self.refuses("cannot read crates/thy_base/src/options.rt: No such file or directory", "help", "--program", program)
        self.file("crates/thy_base/src/options.rt", "")
        self.refuses("cannot read the table of options in crates/thy_base/src/options.rt", "help", "--program", program)

    def test_tables_are_written(self):
        # A row of the scripts' file is changed: both tables follow, and say so before they are written.
        row = "option: gap\ndefault: 0\nrange: at most 5000000\ncommands: run resume\nhelp: how often / a line moves\npage: when a line moves\n"
        text = repository.text_of("tools/lib/program.txt")
        before = re.search(r"option: gap\n(?:.+\n)*", text)[0]
        self.file("tools/lib/program.txt", text.replace(before, row))
        self.script("thynvm", repository.text_of("thynvm"))
        self.file("docs/USING.md", repository.text_of("docs/USING.md"))
        self.prints("written to thynvm and docs/USING.md: 22 options\n", "help", "--write")
        with open(self.path("docs/USING.md"), encoding="utf-8") as file:
            self.assertIn("| `--gap` | 0 | at most 5,000,000 | when a line moves |\n", file.read())
        with open(self.path("thynvm"), encoding="utf-8") as file:
            self.assertIn(
                "  --gap       0            at most 5000000                  how often\n"
                "                                                            a line moves\n",
                file.read(),
            )

    def test_ranges_of_the_code(self):
        self.assertEqual(help.said_by("Bounds::Below(1, 16, Field::Pages)"), "1 to 16, below pages")
        self.assertEqual(help.said_by("Bounds::AtMost(1_000_000)"), "at most 1000000")
        self.assertEqual(help.plain(["1 to", "10^12"]), "1 to 1000000000000")
        self.assertEqual(help.in_page("at most 1000000, below 2^62"), "at most 1,000,000, below `2^62`")


class Whole(ToolTest):
    tool = "lint"

    def test_help_pages(self):
        self.has_help()
        for part in ("help", "claim", "map", "proofs", "names", "english"):
            done = self.call(part, "--help")
            self.assertEqual((done.err, done.status), ("", 0))
            self.assertIn(f"usage: lint {part}", done.out)
            self.assertIn("Exit status: ", done.out)

    def test_refusals(self):
        self.refuses("invalid choice: 'x'", "x")
        self.refuses("unrecognized arguments: --check", "map", "--check")

    def test_proofs_of_this_repository(self):
        self.assertRegex(self.call("proofs").out, r"\Adocs/PROOFS.md has what the comments of \d+ crates say\n\Z")

    def test_map_and_names_of_this_repository(self):
        self.assertRegex(self.call("map").out, r"\Adocs/ARCHITECTURE.md has the \d+ crates of crates.txt\n\Z")
        with open(repository.path("docs/layers.svg"), encoding="utf-8") as file:
            self.prints(file.read(), "map", "--picture")

    @needs("git")
    def test_english_of_this_repository(self):
        # Who has lowered a count lowers the number of it too: no number is above that of the first day.
        self.prints("none of 13 wordings is found more often than it may be\n", "english")
        self.assertEqual([name for name, wording in english.WORDINGS.items() if wording.most > wording.first], [])

    @needs("git")
    @needs_program()
    def test_all_parts(self):
        done = self.call()
        self.assertEqual((len(done.out.splitlines()), done.err, done.status), (6, "", 0), done.out)
        self.assertIn("19 options agree\n", done.out)
