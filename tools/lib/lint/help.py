"""Compares the options of tools/lib/program.txt with the help page, with docs/USING.md, with the code and with the program."""

import os
import re
import subprocess
import tempfile

from lib import program, repository
from lib.options import Refused
from lib.lint.sources import Unreadable, text_of, verdict

SUBJECT = "the options of tools/lib/program.txt with the help page, docs/USING.md, the code and the program"

ABOUT = """Compares the options of tools/lib/program.txt, by which the scripts go, with the tables in `./thynvm --help` and in
docs/USING.md, and with the program's own table in crates/thy_base/src/options.rt: its names in their order, the defaults, the
ranges, and the commands that take each. With --write both tables are written from that file.

Then the program is called with the ends of each range, and with the numbers beside them, on a file that is not there: a value in
range answers `fetch`, another `value` with the field's name. Of the schemes each name answers `fetch`, and another `word scheme`.
It is also asked which options `compare` takes.

Exit status: 0 written, or all agree; 1 some differ; 2 invalid usage, something cannot be read, or there is no program to call."""

# Where the options stand: the scripts' own, the help page's, the document's and the code's.
TABLE = "tools/lib/program.txt"
SCRIPT = "thynvm"
DOCUMENT = "docs/USING.md"
CODE = "crates/thy_base/src/options.rt"

# Options whose value is a name or none: no field, and no range.
NAMES = (*program.NAMES, *program.FLAGS)

# The commands of a row of the code's table, by how it is made.
COMMANDS = {"all": "run resume bench compare plain", "machine": "run resume bench compare", "Runs": "run resume bench"}


def help_table():
    """The table of the help page."""
    lines = ["  option      default      range                            meaning"]
    for row in program.ROWS:
        first = [f"--{row.name}", row.default]
        for k in range(max(len(row.range), len(row.help))):
            name, default = first if k == 0 else ("", "")
            said, meaning = (cell[k] if k < len(cell) else "" for cell in (row.range, row.help))
            lines.append(f"  {name:12}{default:13}{said:33}{meaning}".rstrip())
    return "\n".join(lines) + "\n"


def in_page(text):
    """A default or a range as the document has it: long numbers in groups, what is computed in back quotes."""
    text = re.sub(r"\w+ \* \(.*?\) <= \d+|\d+\^\d+", r"`\g<0>`", text)
    return re.sub(r"\b\d{7,}\b", lambda found: f"{int(found[0]):,}", text)


def page_table():
    """The table of the document."""
    rows = ["| option | default | range | meaning |", "|---|---|---|---|"]
    for row in program.ROWS:
        rows.append(f"| `--{row.name}` | {in_page(row.default)} | {in_page(' '.join(row.range))} | {row.page} |")
    return "\n".join(rows) + "\n"


# Of each file that has a table, how that begins and ends, and what it is to be.
TABLES = {
    SCRIPT: (r"^  option +default +range +meaning\n(?:  .*\n)*", help_table),
    DOCUMENT: (r"^\| option \| default \| range \| meaning \|\n(?:\|.*\n)*", page_table),
}


def found_in(name):
    """The table that a file has."""
    found = re.search(TABLES[name][0], text_of(name), re.M)
    if found is None:
        raise Unreadable(f"the table of options in {name}")
    return found[0]


def write():
    """Writes both tables. The status."""
    for name, (_, made) in TABLES.items():
        text = text_of(name).replace(found_in(name), made())
        with open(repository.path(name), "w", encoding="utf-8") as file:
            file.write(text)
    print(f"written to {' and '.join(TABLES)}: {len(program.ROWS)} options")
    return 0


def said_by(bounds):
    """A range of the code in the words of the table."""
    name, _, rest = bounds.replace("Bounds::", "").replace("Field::", "").replace("_", "").rstrip(")").partition("(")
    numbers = rest.lower().split(", ")
    said = {
        "Any": "any",
        "AtMost": "at most {0}",
        "AtMostOf": "at most {0}",
        "Between": "{0} to {1}",
        "Eights": "{0} to {1}, multiple of 8",
        "Below": "{0} to {1}, below {2}",
        "PowerOfTwo": "a power of two, 1 to 64",
        "PageAddress": "multiple of 4096, below 2^62",
    }
    return said[name].format(*numbers) if name in said else bounds


def code_rows():
    """The program's own table, in its order: of each option its name, default, range, and commands."""
    text = re.sub(r"\s+", " ", text_of(CODE))
    order = re.search(r"static FIELDS: [^=]*= \[(.*?)\];", text)
    rows = {}
    for field, made, name, rest in re.findall(r'Field::(\w+) => (?:\{ )?(\w+)\( ?"(\w+)", (.*?),? ?\)(?:,| \})(?= Field::| \})', text):
        value, _, more = rest.partition(", ")
        if made == "row":
            default, said, made = ("thynvm" if value == "Value::Name" else "none"), None, more.replace("Commands::", "")
        else:
            default, said = value.replace("_", ""), said_by(more)
        rows[field] = (name, default, said, COMMANDS.get(made, made))
    fields = re.findall(r"Field::(\w+)", order[1]) if order else []
    if not fields or not set(fields) <= set(rows):
        raise Unreadable(f"the table of options in {CODE}")
    return [rows[field] for field in fields]


def plain(said):
    """A range with its numbers written out."""
    return re.sub(r"\b10\^(\d+)", lambda found: "1" + "0" * int(found[1]), " ".join(said)).replace("1 or 2", "1 to 2")


def code_differences():
    """How the code's table differs from that of the scripts."""
    code, rows = code_rows(), [row for row in program.ROWS if row.name not in NAMES]
    if [row[0] for row in code] != [row.name for row in rows]:
        yield f"{CODE} has other options than {TABLE}, or in another order"
    for (name, default, said, commands), row in zip(code, rows):
        for what, there, here in (
            ("default", default, row.default),
            ("range", said or plain(row.range), plain(row.range)),
            ("commands", commands, " ".join(row.commands)),
        ):
            if there != here:
                yield f"--{name}: the {what} is {there} in {CODE}, {here} in {TABLE}"


def is_taken(called, name, folder):
    """Whether `compare` takes an option, by its answer for a file that is not there."""
    value = [] if name in program.FLAGS else [{"scheme": "journal", "cuts": "5", "tears": "0"}.get(name, "none" if name in NAMES else "8")]
    call = [called, "compare", os.path.join(folder, "none"), f"--{name}", *value]
    done = subprocess.run(call, stdout=subprocess.DEVNULL, stderr=subprocess.PIPE, text=True)
    return done.stderr != "usage\n"


def tries(name, said):
    """Values in a range and outside of it, as lists of words: what is taken, and what is refused."""
    one = lambda *values: [[f"--{name}", str(value)] for value in values if value >= 0]
    if name == "cuts":
        rising = lambda many: ["--cuts", ",".join(str(k + 1) for k in range(many))]
        good = [rising(64) + ["--pages", "8"], rising(15) + ["--pages", "4096"], rising(1) + ["--pages", "32768"]]
        bad = [rising(65) + ["--pages", "8"], rising(16) + ["--pages", "4096"], rising(1) + ["--pages", "65536"], ["--cuts", "0"], ["--cuts", "2,2"]]
        return good, bad
    if name == "tears":
        return [["--tears", "1"], ["--tears", "1,2", "--cuts", "5"]], [["--tears", "1,2"], ["--tears", "1,2,3", "--cuts", "5"]]
    if name == "scheme":
        names = re.split(r", | or ", said)
        return [["--scheme", word] for word in names], [["--scheme", word] for word in (names[0].upper(), names[1] + "s", "0")]
    if said == "any":
        return one(0, 10**19 - 1), []
    if said == "at most high":
        return one(0, 22) + [["--low", "5", "--high", "5"]], one(23) + [["--low", "6", "--high", "5"]]
    step = int(found[1]) if (found := re.search(r"multiple of ([0-9]+)", said)) else 1
    if found := re.search(r"([0-9]+) (?:to|or) ([0-9^]+)", said):
        low, high = program.number(found[1]), program.number(found[2])
    elif found := re.search(r"below ([0-9^]+)", said):
        low, high = 0, program.number(found[1]) - step
    else:
        low, high = 0, program.number(re.search(r"at most ([0-9]+)", said)[1])
    good, bad = one(low, low + step, high), one(low - 1, high + step) + (one(low + 1) if step > 1 else [])
    if "power of two" in said:
        good, bad = one(*(2**k for k in range(low // 2, high.bit_length()))), bad + one(3, 48)
    if name == "high":
        good = [[*words, "--low", "0"] for words in good]
    if "below pages" in said:
        good, bad = good + [[f"--{name}", "8", "--pages", "9"]], bad + [[f"--{name}", "9", "--pages", "9"]]
    return good, bad


def answer(called, words, folder):
    """The last line of the report of a run of a file that is not there."""
    call = [called, "run", os.path.join(folder, "none"), *words]
    lines = subprocess.run(call, stdout=subprocess.DEVNULL, stderr=subprocess.PIPE, text=True).stderr.splitlines()
    return lines[-1] if lines else ""


def differences(called):
    """How they differ."""
    for name, (_, made) in TABLES.items():
        if found_in(name) != made():
            yield f"the table of options in {name} is not that of {TABLE}: `tools/lint help --write` writes it"
    yield from code_differences()
    for row in program.ROWS:
        if row.name not in NAMES:
            yield from wrong_answers(called, row.name, " ".join(row.range))
    with tempfile.TemporaryDirectory() as folder:
        for row in program.ROWS:
            if is_taken(called, row.name, folder) != ("compare" in row.commands):
                yield f"compare --{row.name}: the program and {TABLE} differ"


def wrong_answers(called, name, range_said):
    """The values of a field that the program does not answer as its range has it."""
    refusal = "word scheme" if name == "scheme" else f"value {name} "
    with tempfile.TemporaryDirectory() as folder:
        for wanted, cases in zip(("fetch ", refusal), tries(name, range_said)):
            for words in cases:
                line = answer(called, words, folder)
                if not line.startswith(wanted):
                    yield f"{' '.join(words)}: '{line}', and not '{wanted}..'"


def add_to(parser):
    """The options of this part."""
    parser.add_program()
    parser.add_argument("--write", action="store_true", help="write the tables of the help page and of docs/USING.md")


def check(words=None):
    """Compares, and prints what differs. The status."""
    called = repository.PROGRAM if words is None else words.program
    if not repository.is_built(called):
        raise Refused(f"there is no program {called}: a call of ./thynvm builds it")
    return verdict(list(differences(called)), f"{len(program.FIELDS)} options agree")


def work(words):
    """Does the same with the program that is named, or writes. The status."""
    return write() if words.write else check(words)
