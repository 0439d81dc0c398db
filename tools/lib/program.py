"""The commands and options of the program. What is said of each option stands in program.txt."""

import os
import re
from dataclasses import dataclass

# What program.txt says of an option that is no field: its value is a name, or it has none.
A_NAME, A_FLAG = ["a name"], ["a flag, with no value"]

# How a value of an option is written that is no number, by its default.
WORDS = {"none": [], "thynvm": "thynvm"}


@dataclass(frozen=True)
class Row:
    """What program.txt says of an option. In `range` and `help` each line of the help page is one of a list."""

    name: str
    default: str
    range: list
    commands: list
    help: list
    page: str


@dataclass(frozen=True)
class Field:
    """An option that is a number, a list of numbers or a word: its default, its range, and the step between its values."""

    default: object
    low: int = 0
    high: int = 10**19 - 1
    step: int = 1


def rows_in(text):
    """The rows of a text in the form of program.txt."""
    rows = []
    for block in re.sub(r"^#.*\n", "", text, flags=re.M).strip().split("\n\n"):
        cells = dict(line.split(": ", 1) for line in block.splitlines())
        lines = {name: cells[name].split(" / ") for name in ("range", "help")}
        rows.append(Row(cells["option"], cells["default"], commands=cells["commands"].split(), page=cells["page"], **lines))
    return rows


def number(text):
    """A number that may be written as a power."""
    base, _, power = text.partition("^")
    return int(base) ** int(power or 1)


def field_of(row, before):
    """A row as a field, with the fields of the rows before it."""
    if row.default in WORDS:
        return Field(WORDS[row.default])
    said = " ".join(row.range)
    step = int(found[1]) if (found := re.search(r"multiple of (\d+)", said)) else 1
    low, high = 0, Field.high
    if found := re.search(r"(\d+) (?:to|or) ([\d^]+)", said):
        low, high = int(found[1]), number(found[2])
    elif found := re.search(r"below ([\d^]+)", said):
        high = number(found[1]) - step
    elif found := re.search(r"at most (\w+)", said):
        high = before[found[1]].high if found[1] in before else number(found[1])
    return Field(int(row.default), low, high, step)


def fields_of(rows):
    """The fields among some rows."""
    fields = {}
    for row in rows:
        if row.range not in (A_NAME, A_FLAG):
            fields[row.name] = field_of(row, fields)
    return fields


# The rows of program.txt, in the order in which the program reads and tests its options, and the fields among them.
with open(os.path.join(os.path.dirname(os.path.realpath(__file__)), "program.txt"), encoding="utf-8") as _file:
    ROWS = rows_in(_file.read())
FIELDS = fields_of(ROWS)

# Options whose value is a name, and options without a value.
NAMES, FLAGS = (tuple(row.name for row in ROWS if row.range == said) for said in (A_NAME, A_FLAG))

LISTS = ("cuts", "tears")

OPTIONS = tuple(row.name for row in ROWS)

# The schemes of checkpoints, each with the number that an image's header has of it.
SCHEMES = {"thynvm": 0, "journal": 1, "shadow": 2}

# What has to be the same again when an image is resumed: numbers of the header, and then its last word.
GEOMETRY = ("base", "pages", "console", "btt", "ptt")


def options_of(command):
    """The options that a command takes."""
    return tuple(row.name for row in ROWS if command in row.commands)


# What the plain machine takes, and what `compare` does.
PLAIN, COMPARED = options_of("plain"), options_of("compare")

# Of each command its operands, and its options.
OPERANDS = {
    "run": ("FILE",),
    "plain": ("FILE",),
    "resume": ("IMAGE",),
    "bench": ("N",),
    "compare": ("FILE",),
    "make": ("N", "OUT"),
}

# The greatest number of a made program.
MOST_NUMBER = 4294967295

# The most bytes of a file that is read, and of a saved image.
MOST_BYTES, MOST_IMAGE_BYTES = 67_108_864, 536_870_912


def defaults():
    """The defaults of the fields that are no lists."""
    return {name: field.default for name, field in FIELDS.items() if name not in LISTS}
