"""Makes docs/PROOFS.md from the comments on the laws and the public functions of all crates, and compares."""

import glob
import os
import re
from dataclasses import dataclass

from lib.lint.map import PAGE as MAP, layers_in
from lib.lint.sources import below_of, text_of, verdict
from lib.repository import TOP

SUBJECT = "docs/PROOFS.md with the comments on laws and public functions"

ABOUT = """Compares docs/PROOFS.md with the page that is made from the sources. With --write it writes that page.

The page has the layers of docs/ARCHITECTURE.md with the crates of crates.txt. Of each crate it has the first sentence of
src/lib.rt, the implementations of traits, the laws and the other public functions, in the order of the files. Of a law it has
the first paragraph of its comment (`///`), of another function the first sentence, and whether it has no contract. A function
is public if src/lib.rt names it, or the type or trait that has it, in a `pub use`, or if a module does that src/lib.rt makes public,
with which it is named then; in a program, if src/main.rt names it in a `use crate::`. A law is a public function with a contract
that returns nothing and is lent nothing to change.

Exit status: 0 written, or nothing differs; 1 the page differs; 2 invalid usage, or something cannot be read."""

PAGE = "docs/PROOFS.md"

HEAD = """<!-- made by tools/lint proofs --write -->
# What is proved, crate by crate

*Proved* means: for all arguments that meet the conditions that a function states, its result and effects are what its contract
says, and no more than that. Each function is also proved safe (no index out of range, no overflow, no use after free) and total
(it returns). If a row ends with *No contract*, that is all that is proved of its function. A crate counts if crates.txt lists it,
because `rt ci` proves these crates and no others. The promise of the whole program is the contract of `thynvm` (thy_cli), of which
THEOREM.md says what it is built of; TESTING.md lists what is only tested.

A script makes this page from the comments of the code. A comment says in words what the contract below it says exactly: whoever
relies on a row reads the contract, in `src/` of the crate. A *law* is a function that does nothing, so that all it has is its
contract. Little code calls a law: if it lost a clause, most other proofs would still pass.

A call is *exact* if its contract determines its result and what it leaves. An implementation of a trait promises, call by call,
what the trait says. Out of memory may be returned by any call that allocates, because no contract counts what the allocator
refuses. `committed`, `last` and `work` are the three versions of a block (CONTROLLER.md, "Three versions of each block"). *The
places hold what they have to* (`HoldAll` of thy_control) says that frames and targets hold the blocks that the tables promise;
CONTROLLER.md explains why this is a condition and not an invariant.
"""

# The head of a block: the trait and the type that implements it, or the trait or the type alone.
BLOCK = re.compile(r"(?:impl(?:<.*?>)? (?:(\w+)(?:<.*?>)? for )?|pub trait )((?:&mut )?\w+)")
FUNCTION = re.compile(r"(?: {4})?(pub )?(?:const )?fn (\w+)")
DECLARED = re.compile(r"(?:pub(?:\(\w+\))? )?(?:const )?(fn|struct|enum|trait) (\w+)")
# How the root of a library says what is public, and the root of a program what it calls.
EXPORTS = {"lib.rt": r"^pub use ([^;]*);", "main.rt": r"^use crate::([^;]*);"}
# Where a sentence ends: the next one begins with a capital, a number or a name.
ENDS = re.compile(r"(?<=[.!?])\s+(?=[A-Z0-9`(*])")


@dataclass(frozen=True)
class Function:
    """A function: alone, or a call of a type or a trait."""

    owner: str  # the type or the trait, or nothing
    trait: str  # that the type implements by this call
    name: str
    is_open: bool  # as far as its file says
    comment: str
    text: str  # from its name to its body
    module: str  # that is public and has it, or nothing

    @property
    def title(self):
        return f"`{'::'.join(filter(None, [self.owner or self.module, self.name]))}`"

    @property
    def says(self):
        """What its row says: the first sentence of its comment, and whether no clause, not even a trait's, says what it does."""
        has_contract = self.trait or re.search(r"\bensures\b", self.text)
        return " ".join(filter(None, [first_sentence(self.comment), "" if has_contract else "*No contract.*"]))

    @property
    def is_law(self):
        head, *contract = re.split(r"\b(?:requires|ensures)\b", self.text)
        return bool(contract) and "->" not in head and "&mut" not in head


def exports_in(text, root):
    """What a root names for others."""
    return set(re.findall(r"\b\w+\b(?!::)", " ".join(re.findall(EXPORTS[root], text, re.M))))


def first_sentence(text):
    return ENDS.split(text)[0]


def paragraph(comment):
    """The first paragraph of a comment, in one line."""
    return " ".join(comment[: comment.index("")] if "" in comment else comment)


def declaration(lines):
    """The lines of a declaration up to the one at which its body begins, or at which it ends without one."""
    for number, line in enumerate(lines, 1):
        if line.strip() in ("{", "{}") or line.endswith((" {", " {}", ";")):
            return "\n".join(lines[:number])
    return "\n".join(lines)


class Crate:
    """What the page says of a crate."""

    def __init__(self, name):
        folder = os.path.join(TOP, "crates", name, "src")
        root = next((root for root in EXPORTS if os.path.exists(os.path.join(folder, root))), "lib.rt")
        text = text_of(f"crates/{name}/src/{root}")
        head = [line[3:].strip() for line in text.splitlines() if line.startswith("//!")]
        self.name, self.subject = name, first_sentence(paragraph(head))
        self.exported = {"": exports_in(text, root)}  # by public module
        for module in re.findall(r"^pub mod (\w+);", text, re.M):
            self.exported[module] = exports_in(text_of(f"crates/{name}/src/{module}.rt"), "lib.rt")
        self.functions, self.implementations = [], []  # the latter as trait, type, comment and public module
        self.kinds, self.comments = {}, {}  # of what is declared outside of blocks, by public module
        for path in sorted(glob.glob(os.path.join(folder, "**", "*.rt"), recursive=True)):
            first = re.split(r"[/.]", os.path.relpath(path, folder))[0]
            self.read(text_of(path).splitlines(), first if first in self.exported else "")

    def read(self, lines, module):
        """Reads a file of a public module, or of none."""
        owner, trait, is_trait, comment = "", "", False, []
        for number, line in enumerate(lines):
            if line.lstrip().startswith("///"):
                comment.append(line.strip()[3:].strip())
            elif not line.lstrip().startswith("#["):
                block, declared, function = BLOCK.match(line), DECLARED.match(line), FUNCTION.match(line)
                if block or line == "}":
                    trait, owner = block.groups(default="") if block else ("", "")
                    is_trait = line.startswith("pub trait")
                if block and trait:
                    self.implementations.append((trait, owner, paragraph(comment), module))
                if declared:
                    self.kinds[module, declared[2]], self.comments[module, declared[2]] = declared[1], paragraph(comment)
                if function and bool(owner) == line.startswith(" "):
                    is_open = is_trait or bool(function[1]) or bool(trait and comment)
                    text = declaration(lines[number:])
                    self.functions.append(Function(owner, trait, function[2], is_open, paragraph(comment), text, module))
                comment = []

    def traits(self):
        """The traits that it declares for others."""
        return {name for (module, name), kind in self.kinds.items() if kind == "trait" and name in self.exported[module]}

    def shows(self, module, name):
        """Whether something is not one of those that it declares for itself alone."""
        return name in self.exported[module] or (module, name) not in self.kinds

    def tables(self, traits):
        """The tables of its section that have rows: of each its head, and pairs of a name and of what is said of it."""
        types = [one for one in self.implementations if one[0] in traits and self.shows(one[3], one[1])]
        calls = [one for one in self.functions if one.is_open and self.shows(one.module, one.owner or one.name)]
        calls = [one for one in calls if not one.trait or one.trait in traits]
        tables = {
            "implementation": [(f"`{trait}` for `{owner}`", said or self.comments.get((module, owner), "")) for trait, owner, said, module in types],
            "law": [(one.title, one.comment) for one in calls if one.is_law],
            "function": [(one.title, one.says) for one in calls if not one.is_law],
        }
        return {head: rows for head, rows in tables.items() if rows}


def page():
    """The whole page."""
    crates = {name: Crate(name) for name in below_of(text_of("crates.txt"))}
    traits, lines = set().union(*(crate.traits() for crate in crates.values())), [HEAD]
    for layer, members in layers_in(text_of(MAP)).items():
        placed = [crates[name] for name in crates if any(row[0] == name for row in members)]
        shown = [crate for crate in placed if crate.tables(traits)]
        lines += [f"## {layer}\n"] if shown else []
        for crate in shown:
            lines.append(f"### {crate.name}\n\n{crate.subject}\n")
            for head, rows in crate.tables(traits).items():
                lines += [f"| {head} | what it says |\n|---|---|", *(f"| {name} | {said} |" if said else f"| {name} | |" for name, said in rows), ""]
    return "\n".join(lines).rstrip() + "\n"


def add_to(parser):
    """The options of this part."""
    parser.add_argument("--write", action="store_true", help="write the page")


def check(_words=None):
    """Compares, and prints what differs. The status."""
    made = page()
    differ = [] if text_of(PAGE) == made else [f"{PAGE} is not what tools/lint proofs --write makes of the comments"]
    sections = len(re.findall("^### ", made, re.M))
    return verdict(differ, f"{PAGE} has what the comments of {sections} crates say")


def work(words):
    """Does what the options of this part say. The status."""
    if not words.write:
        return check()
    with open(os.path.join(TOP, PAGE), "w", encoding="utf-8") as file:
        file.write(page())
    return 0
