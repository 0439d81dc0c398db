"""Walks from the contract of `thynvm` to every definition that the claim rests on."""

import glob
import os
import re
from collections import defaultdict

from lib.lint.sources import Unreadable, text_of, verdict, without_start
from lib.repository import TOP

SUBJECT = "the files that the claim reaches with docs/THEOREM.md, and their first lines"

ABOUT = """Compares the files of definitions that the claim reaches with the order of reading in docs/THEOREM.md: the table there has
to name exactly these files, and no file in a row above one that it uses. And exactly these files have to be marked as such by
their first line; --mark marks them.

The claim is the contract of `thynvm` in crates/thy_cli/src/top.rt. The walk goes from the names in this contract to their
definitions, from these to the names that they mention, and so on. A definition that nothing mentions does not count, even if it
stands in the same file, and neither does a comment. The contract rests on the traits of shelf, sinks and device too, and on the
ghost members of the machines' types.

With --list the files are printed, crate by crate, each after those of its crate that it uses, and how many lines of each are
reached; with --names the definitions too.

Exit status: 0 printed, or nothing differs; 1 something differs; 2 invalid usage, or something cannot be read."""

CONTRACT = "crates/thy_cli/src/top.rt"
DOCUMENT = "docs/THEOREM.md"
SECTION = "## The order of reading"
MARK = "-- Part of the claim.\n"

# What a machine keeps to itself: the claim says no more of it than that a run is at such moments. So the walk doesn't follow
# this field of its record. Nor is what a boot holds to be whole: in the claim `whole` is a field of a device.
OPAQUE = {"is_at", "whole"}

# A name that is no field, a field, and the first line of a definition.
NAME = re.compile(r"(?<![\w'.])[A-Za-z_][\w']*")
FIELD = re.compile(r"\.([A-Za-z_][\w']*)")
HEAD = re.compile(r"((?:abbrev|unfoldable|opaque|pub|record|data) )+([\w']+)|()([\w']+) :")


def found(pattern, text, what):
    match = re.search(pattern, text, re.M | re.S)
    if not match:
        raise Unreadable(what)
    return match


class Uses:
    """The names that a file brings in, each with its module and its name there; and its short names of modules."""

    def __init__(self, text):
        self.names, self.modules = {}, {}
        for module, names in re.findall(r"^ *(?:ghost )?use Rattle\.([\w.]+)\.\{([^}]*)\}", text, re.M):
            for item in names.split(","):
                name, _, alias = item.strip().partition(" as ")
                self.names[alias or name] = (module, name)
        for module, alias in re.findall(r"^ *(?:ghost )?use Rattle\.([\w.]+) as (\w+)", text, re.M):
            self.modules[alias] = module


class File:
    """A file of definitions: the lines of each without comments, and the type that has each constructor."""

    def __init__(self, crate, path):
        self.crate, self.title = crate, path + ".antt"
        text = text_of(f"crates/{crate}/specs/{self.title}")
        self.uses, self.lines, self.owner = Uses(text), {}, {}
        name, indent = None, ""
        for line in text.splitlines():
            if line.startswith("module ") or HEAD.match(line):
                indent = "  " if line.startswith("module ") else ""
            line = without_start(line, indent)
            head = HEAD.match(line)
            name = (head[2] or head[4]) if head else name
            if name and line.strip() and not line.lstrip().startswith("--"):
                self.lines.setdefault(name, []).append(line)
        for name, lines in self.lines.items():
            if re.match(r"(pub )?data\b", lines[0]):
                self.owner.update({line.split()[0]: name for line in lines[1:]})

    def text(self, name):
        return "\n".join(self.lines[name])


class Walk:
    """What the claim reaches."""

    def __init__(self):
        self.files = {}  # by crate and path
        self.reached = defaultdict(set)  # file: the names of its definitions
        self.used = defaultdict(set)  # file: the other files that it uses
        self.elsewhere = defaultdict(set)  # types of the code by crate, and names of libraries by module
        self.fields = set()  # that are mentioned
        self.held = []  # fields of records that wait until they are mentioned
        self.todo = []  # texts with what their file brings in

    def go_on(self):
        """Follows every name until no new one is found."""
        while self.todo:
            while self.todo:
                self.take(*self.todo.pop())
            due = [part for part in self.held if part[0] in self.fields - OPAQUE]
            self.held = [part for part in self.held if part not in due]
            self.todo = [part[1:] for part in due]

    def take(self, text, uses, file):
        self.fields.update(FIELD.findall(text))
        for name in set(NAME.findall(text)):
            if name in uses.modules:
                for inner in re.findall(rf"\b{name}\.(\w+)", text):
                    self.enter(uses.modules[name], inner, file)
            elif name in uses.names:
                self.enter(*uses.names[name], file)
            elif file:
                self.reach(file, name)

    def enter(self, module, name, user):
        """Follows a name into its module."""
        crate, _, inner = module.partition(".specs.")
        if not os.path.isdir(os.path.join(TOP, "crates", crate)):
            self.elsewhere[module.replace(".specs.", ", ")].add(name)
        elif inner.startswith("declared."):
            self.elsewhere[f"{crate}, src"].add(inner.replace(".TheVariants", "").split(".")[-1])
        else:
            file = self.file(crate, inner.replace(".", "/"))
            if user and user is not file:
                self.used[user].add(file)
            if not self.reach(file, name):
                raise Unreadable(f"{name} of {crate}, {file.title}")

    def file(self, crate, path):
        if (crate, path) not in self.files:
            self.files[crate, path] = File(crate, path)
        return self.files[crate, path]

    def reach(self, file, name, by_field=False):
        """Reaches a definition, and answers whether the file has it. One by field is followed as its fields are mentioned."""
        name = file.owner.get(name, name)
        if name not in file.lines:
            return False
        if name not in self.reached[file]:
            self.reached[file].add(name)
            head, _, fields = file.text(name).partition("= record {") if by_field else (file.text(name), "", "")
            self.todo.append((head, file.uses, file))
            self.held += [(*part, file.uses, file) for part in re.findall(r"^  (\w+) = (.*);$", fields, re.M)]
        return True


def alias_of(name):
    """The type that a name stands for by an alias, and that type's argument or None; without an alias, the name and None."""
    for path in sorted(glob.glob(os.path.join(TOP, "crates/*/src/**/*.rt"), recursive=True)):
        alias = re.search(rf"^pub type {name} = (\w+)(?:<(\w+)>)?;", text_of(path), re.M)
        if alias:
            return alias[1], alias[2]
    return name, None


def ghost(walk, trait, kind, member):
    """Follows a ghost member of a type, and of the type's argument what it takes from that. Answers its text."""
    kind, argument = alias_of(kind)
    for path in sorted(glob.glob(os.path.join(TOP, "crates/*/src/**/*.rt"), recursive=True)):
        for block in re.findall(rf"^impl(?:<[^>]*>)? {trait} for {kind}\b.*?^}}", text_of(path), re.M | re.S):
            value = re.search(rf"ghost {member} = \{{ (.*?) \}};", block, re.S)
            if value:
                follow(walk, value[1], Uses(text_of(path)))
                for own in FIELD.findall(value[1]) if argument else []:
                    ghost(walk, trait, argument, own)
                return value[1]
    raise Unreadable(f"the ghost member {member} of {kind}")


def follow(walk, text, uses):
    """Follows the records that a ghost member names, field by field."""
    for name in NAME.findall(text):
        if name in uses.names:
            module, there = uses.names[name]
            crate, _, inner = module.partition(".specs.")
            walk.reach(walk.file(crate, inner.replace(".", "/")), there, by_field=True)


def trait_of(name):
    """A trait without its comments, and what its file brings in."""
    for path in sorted(glob.glob(os.path.join(TOP, "crates/*/src/**/*.rt"), recursive=True)):
        text = text_of(path)
        block = re.search(rf"^pub trait {name}\b.*?^}}", text, re.M | re.S)
        if block:
            return re.sub(r"//.*|^ *ghost use .*", "", block[0], flags=re.M), Uses(text)
    raise Unreadable(f"the trait {name}")


def walk_claim():
    """Everything that the contract of `thynvm` reaches."""
    text, walk = text_of(CONTRACT), Walk()
    contract = found(r"^pub fn thynvm<.*?^\{", text, "the contract of `thynvm`")[0]
    walk.todo.append((contract, Uses(text), None))
    for trait in set(re.findall(r"\w+: (\w+)", found(r"<(.*?)>\(", contract, "its parameters")[1])):
        walk.todo.append((*trait_of(trait), None))
    kinds = re.findall(r"⟦<(\w+)<(\w+)> as (\w+)>⟧\.(\w+)", contract)
    if not kinds:
        raise Unreadable("the machines in the contract of `thynvm`")
    for machine, scheme, trait, member in kinds:
        own = found(r"\bS\.(\w+)", ghost(walk, trait, machine, member), "the scheme in the machine's kind")
        ghost(walk, r"\w+", scheme, own[1])
    walk.go_on()
    return walk


def in_order(walk):
    """The files: crates as crates.txt has them, and in a crate each file after those that it uses."""
    crates = re.findall(r"^(\w+):", text_of("crates.txt"), re.M)
    left = sorted(walk.reached, key=lambda file: (crates.index(file.crate), file.title))
    placed = []
    while left:
        free = [file for file in left if not any(used in left and used is not file for used in walk.used[file])]
        file = next(file for file in free if file.crate == left[0].crate)
        left.remove(file)
        placed.append(file)
    return placed


def lines_in(walk, file):
    return sum(len(file.lines[name]) for name in walk.reached[file])


def listing(walk, with_names):
    """What is printed, line by line."""
    crate = None
    for file in in_order(walk):
        if file.crate != crate:
            yield file.crate
            crate = file.crate
        yield f"{lines_in(walk, file):6} {file.title}"
        yield from (f"           {name}" for name in file.lines if with_names and name in walk.reached[file])
    total = sum(lines_in(walk, file) for file in walk.reached)
    yield f"{len(walk.reached)} files, {total} lines in {sum(map(len, walk.reached.values()))} definitions"
    yield "These name types that the code declares, and names of libraries:"
    for place, names in sorted(walk.elsewhere.items()):
        yield f"       {place}: {', '.join(sorted(names))}"


def rows_of(text):
    """The files that each row of the order of reading names, as pairs of crate and title."""
    section = found(rf"^{SECTION}\n(.*?)^## ", text, f"`{SECTION}` in {DOCUMENT}")[1]
    rows = []
    for line in section.splitlines():
        crate = re.match(r"\| *\d+ *\| *(\w+) *\|", line)
        if crate:
            rows.append([(crate[1], title) for title in re.findall(r"`(\w+\.antt)`", line)])
    return rows


def differences(walk):
    """How the order of reading differs from what is reached."""
    rows = rows_of(text_of(DOCUMENT))
    row_of, named = {}, [pair for row in rows for pair in row]
    for number, row in enumerate(rows):
        row_of.update(dict.fromkeys(row, number))
    reached = {(file.crate, file.title): file for file in in_order(walk)}
    for pair in reached:
        if pair not in row_of:
            yield f"{DOCUMENT} does not list {pair[1]} of {pair[0]}, which the claim reaches"
    for pair in dict.fromkeys(named):
        if pair not in reached:
            yield f"{DOCUMENT} lists {pair[1]} of {pair[0]}, which the claim does not reach"
        if named.count(pair) > 1:
            yield f"{DOCUMENT} lists {pair[1]} of {pair[0]} more than once"
    for pair, file in reached.items():
        for used in sorted((used.crate, used.title) for used in walk.used[file]):
            if pair in row_of and row_of[pair] < row_of.get(used, 0):
                yield f"{DOCUMENT} lists {pair[1]} of {pair[0]} above {used[1]} of {used[0]}, which it uses"


def specs():
    """The paths of all files of definitions."""
    return sorted(os.path.relpath(path, TOP) for path in glob.glob(os.path.join(TOP, "crates/*/specs/**/*.antt"), recursive=True))


def mark(walk):
    """Marks the files that are reached, and no other, and answers the paths of those that were wrong."""
    reached = {f"crates/{file.crate}/specs/{file.title}" for file in walk.reached}
    for path in specs():
        text = text_of(path)
        if text.startswith(MARK) != (path in reached):
            with open(os.path.join(TOP, path), "w", encoding="utf-8") as file:
                file.write(MARK + text if path in reached else without_start(text, MARK))
            yield path


def mismarked(walk):
    """The files whose first line says wrongly whether they are reached."""
    reached = {f"crates/{file.crate}/specs/{file.title}" for file in walk.reached}
    for path in specs():
        if text_of(path).startswith(MARK) != (path in reached):
            yield f"{path} is {'not ' if path in reached else ''}marked as part of the claim: tools/lint claim --mark"


def add_to(parser):
    """The options of this part."""
    parser.add_argument("--list", action="store_true", help="print the files instead, with their numbers of lines")
    parser.add_argument("--names", action="store_true", help="print the names of the definitions too")
    parser.add_argument("--mark", action="store_true", help="mark these files as part of the claim, and no others")


def check(_words=None):
    """Compares, and prints what differs. The status."""
    walk = walk_claim()
    differ = [*differences(walk), *mismarked(walk)]
    return verdict(differ, f"{DOCUMENT} lists the {len(walk.reached)} files that the claim reaches, and they are marked")


def work(words):
    """Does what the options of this part say. The status."""
    if words.mark:
        print("\n".join(mark(walk_claim())) or "nothing to mark")
        return 0
    if words.list or words.names:
        print("\n".join(listing(walk_claim(), words.names)))
        return 0
    return check()
