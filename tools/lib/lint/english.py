"""Counts the wordings that stop a reader, in documents and in comments on items. No count may rise."""

import re
from dataclasses import dataclass

from lib.lint.sources import Unreadable, text_of, tracked, verdict

SUBJECT = "how many wordings that stop a reader there are, with how many there may be"

ABOUT = """Counts wordings that stop a reader, in README.md, CONTRIBUTING.md, docs/*.md and in the comments on items of crates/, and
compares each count with the most that there may be. These numbers stand in tools/lib/lint/english.py, beside those of the first
day, and only fall: who rewords a text lowers them.

A comment on an item is a block of `///` in src/, or of `--` in specs/ and proofs/, directly above what it is about: an item, a
field or a clause. What stands in back quotes is one word, and blocks of code do not count, nor does a page whose first line says
`<!-- made by` a script. A sentence ends at a full stop, a question mark or an exclamation mark, and at the end of its paragraph,
list item, table cell or comment.

With --counts the counts are printed, each with the most that there may be and with that of the first day; with --list each
place, of one file or folder if that is named.

Exit status: 0 printed, or no count is above its number; 1 some count is; 2 invalid usage, or something cannot be read."""

# The most words of a sentence and of a table's cell.
SENTENCE, CELL = 40, 60

# What is left out of a page: such a page is made by a script.
MADE = "<!-- made by"

PAGES = re.compile(r"README\.md|CONTRIBUTING\.md|docs/[^/]*\.md")
SOURCES = re.compile(r"crates/[^/]+/(?:src/.*\.rt|(?:specs|proofs)/.*\.antt)")

# What follows a comment that is not about an item: the head of a file stands above its uses.
NO_ITEM = re.compile(r"(?:pub |ghost )*(?:use|mod|module)\b|$")

# A list item or a heading, with which a new part of a text begins.
HEAD = re.compile(r" *(?:[-*]|\d+\.|#+|>) +")
ROW = re.compile(r" *\|")
RULER = re.compile(r"[ |:-]*")
# Where a sentence ends: the next one begins with a capital, a number, or a name such as docs/USING.md or thy_base.
ENDS = re.compile(r"(?<=[.!?])[\"'*)\]]*\s+(?=[\"'*(\[]*(?:[A-Z0-9]|\w+[_/.]\w))")


@dataclass(frozen=True)
class Part:
    """A part of a page or of a comment that is read by itself: what is in back quotes is one word."""

    path: str
    line: int
    kind: str  # "prose", "cell" or "comment", of which the first part is an "opening"
    text: str

    def sentences(self):
        return ENDS.split(self.text)

    def said(self, text):
        """A text of this part, with where it stands."""
        return f"{self.path}:{self.line}: {text}"


def words_in(text):
    return len(re.findall(r"[^\W_][\w'’,.-]*", text))


def long_sentences(part):
    return [text for text in part.sentences() if words_in(text) > SENTENCE]


def long_cells(part):
    return [part.text] if part.kind == "cell" and words_in(part.text) > CELL else []


def phrases(*words):
    """What finds each of some words in a part."""
    pattern = re.compile(rf"\b(?:{'|'.join(words)})\b", re.I)
    return lambda part: [part.text[max(found.start() - 30, 0) : found.end() + 30] for found in pattern.finditer(part.text)]


def openings(part):
    """The opening of a comment that cannot be understood alone."""
    return [part.text] if part.kind == "opening" and re.match(r"(?:And|So|Nor|The same)\b", part.text, re.I) else []


@dataclass(frozen=True)
class Wording:
    """What is counted, and how many there were on the first day and may be today."""

    finds: object  # a function: of a part the texts in question
    first: int
    most: int


WORDINGS = {
    f"sentences of more than {SENTENCE} words": Wording(long_sentences, 370, 0),
    f"table cells of more than {CELL} words": Wording(long_cells, 75, 0),
    "that of, those of": Wording(phrases("that of", "those of"), 462, 0),
    "so many, as many": Wording(phrases("so many", "as many"), 289, 0),
    "no sooner": Wording(phrases("no sooner"), 0, 0),
    "so it is": Wording(phrases("so it is"), 29, 0),
    "so does": Wording(phrases("so does"), 41, 0),
    "what is seen of": Wording(phrases("what is seen of"), 36, 0),
    "made anew": Wording(phrases("made anew"), 5, 0),
    "puts": Wording(phrases("puts"), 62, 0),
    "is due": Wording(phrases("is due"), 63, 0),
    "goes by": Wording(phrases("goes by"), 17, 0),
    "comments that begin with And, So, Nor or The same": Wording(openings, 467, 0),
}


def plain(text):
    """A text in one line, with each span in back quotes as one word, and each link as what is read of it."""
    text = re.sub(r"`[^`]*`", "Code", " ".join(text.split()))
    return re.sub(r"!?\[([^\]]*)\]\([^)]*\)", r"\1", text)


def parts_of(path, numbered, kind):
    """The parts of lines, which come with their numbers."""
    begin, held = 0, []
    for number, line in [*numbered, (0, "")]:
        row, head = ROW.match(line), HEAD.match(line)
        if held and (not line.strip() or row or head):
            yield Part(path, begin, kind, plain(" ".join(held)))
            held = []
        if row and not RULER.fullmatch(line):
            cells = re.split(r"(?<!\\)\|", re.sub(r"`[^`]*`", "`Code`", line.strip()).strip("|"))
            yield from (Part(path, number, "cell", plain(cell)) for cell in cells if cell.strip())
        elif not row and line.strip():
            begin = begin if held else number
            held.append(line[head.end() :] if head else line)


def parts_of_page(path, text):
    """The parts of a page, without its blocks of code."""
    if text.startswith(MADE):
        return
    lines, is_code = [], False
    for number, line in enumerate(text.splitlines(), 1):
        is_blank, before = not line.strip(), lines[-1][1].strip() if lines else ""
        is_code = line.startswith("    ") and (is_code or not before) or is_code and is_blank
        lines.append((number, "" if is_code else line))
    yield from parts_of(path, lines, "prose")


def comments_of(text, mark):
    """The comments on items: of each its lines, with their numbers."""
    held = []
    for number, line in enumerate(text.splitlines(), 1):
        line = line.strip()
        if line.startswith(mark) and not line.startswith(mark + "-"):
            held.append((number, line[len(mark) :].strip()))
        else:
            if held and not NO_ITEM.match(line):
                yield held
            held = []


def parts_of_source(path, text):
    """The parts of the comments on items."""
    for lines in comments_of(text, "///" if path.endswith(".rt") else "--"):
        kind = "opening"
        for part in parts_of(path, lines, "comment"):
            yield Part(path, part.line, kind, part.text) if part.kind == "comment" else part
            kind = "comment"


def all_parts():
    """The parts of all that is read."""
    paths = [path for path in tracked() if PAGES.fullmatch(path) or SOURCES.fullmatch(path)]
    if not paths:
        raise Unreadable("a document or a source: git knows none")
    for path in paths:
        yield from (parts_of_page if PAGES.fullmatch(path) else parts_of_source)(path, text_of(path))


def found():
    """Of each wording the places: parts, with what is in question there."""
    parts = list(all_parts())
    return {name: [(part, text) for part in parts for text in wording.finds(part)] for name, wording in WORDINGS.items()}


def add_to(parser):
    """The options of this part."""
    parser.add_argument("--counts", action="store_true", help="print the counts, the most that there may be, and the first day's")
    parser.add_argument("--list", nargs="?", const="", metavar="PATH", help="print each place, of this file or folder")


def check(_words=None):
    """Compares, and prints what there is too much of. The status."""
    differ = []
    for name, places in found().items():
        if len(places) > WORDINGS[name].most:
            differ.append(f"{name}: {len(places)}, and at most {WORDINGS[name].most} may be: tools/lint english --list")
    return verdict(differ, f"none of {len(WORDINGS)} wordings is found more often than it may be")


def work(words):
    """Does what the options of this part say. The status."""
    if words.counts:
        for name, places in found().items():
            print(f"{len(places):6} {WORDINGS[name].most:6} {WORDINGS[name].first:6}  {name}")
        return 0
    if words.list is not None:
        for name, places in found().items():
            for part, text in places:
                if part.path.startswith(words.list):
                    print(part.said(f"{name}: {text}"))
        return 0
    return check()
