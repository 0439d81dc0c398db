"""Manual pages, made of help pages."""

import re

from lib.packaging import pages

# What begins a section of its own in a help page.
SECTIONS = {"Exit status: ": "EXIT STATUS", "Examples: ": "EXAMPLES"}

# What each page says at its end.
PLACE = "The documents are in docs/ beside README.md in the package's folder, and of the Debian package in /usr/share/doc/thynvm."

# Characters that troff would print as others.
ESCAPES = {"\\": "\\e", "-": "\\-", "'": "\\(aq", "`": "\\(ga", "^": "\\(ha", "~": "\\(ti", '"': "\\(dq"}


def escaped(text):
    """A text as troff prints it."""
    text = "".join(ESCAPES.get(letter, letter) for letter in text)
    return f"\\&{text}" if text.startswith(".") else text


def bold(text):
    return f"\\fB{escaped(text)}\\fR"


def filled(text):
    """A text of sentences: what is in back quotes is bold."""
    parts = text.split("`")
    if len(parts) % 2 == 0:
        return escaped(text)
    done = "".join(bold(part) if k % 2 else escaped(part) for k, part in enumerate(parts))
    return f"\\&{done}" if done.startswith(".") else done


def literal(lines):
    """Lines that stay as they are."""
    return [".nf", *(escaped(line) for line in lines), ".fi"]


def list_of(rows):
    """Terms with their texts; a term without a text is left out."""
    return [line for term, text in rows if text for line in (".TP", bold(term), filled(text))]


def table_rows(lines):
    """The table of options as terms with texts."""
    for name, (default, said, meaning) in pages.table_of(lines).items():
        yield f"--{name}", f"{meaning} (default: {default}; {said})"


def body(lines):
    """A block, as troff has it."""
    if pages.HEADINGS.match(lines[0]):
        done = list_of(pages.rows_of(lines[1:], long_terms=True) or ())
        return [".SH OPTIONS" if "optional" in lines[0] or lines[0] == "options:" else ".SH OPERANDS", *done] if done else []
    if pages.is_table(lines):
        return [".SH OPTIONS", *list_of(table_rows(lines))]
    for start, section in SECTIONS.items():
        if lines[0].startswith(start):
            return [f".SH {section}", filled(" ".join(lines)[len(start) :])]
    rows = pages.rows_of(lines)
    if rows:
        return list_of(rows)
    if lines[0].startswith(" "):
        return [".PP", *literal(lines)]
    return [".PP", filled(" ".join(lines))]


def synopsis(lines, own, name):
    """The lines of usage, with the name under which the command is called in place of its own."""
    lines = [re.sub(rf"^(usage:|      ) {re.escape(own)}\b", rf"\1 {name}", line) for line in lines]
    return [".SH SYNOPSIS", *literal(line[len("usage: ") :] for line in lines)]


def page(own, name, summary, text, date, version, others):
    """The manual page of a command `name`, which calls itself `own`: from its help page, and what it does in a line."""
    first, *rest = pages.blocks(text)
    lines = [f".TH {escaped(name.upper())} 1 {date} {escaped(f'thynvm-{version}')} thynvm"]
    lines += [".SH NAME", f"{escaped(name)} \\- {escaped(summary)}", *synopsis(first, own, name), ".SH DESCRIPTION"]
    for block in rest:
        lines += body(block)
    *almost, last = others
    lines += [".SH SEE ALSO", *(f".BR {escaped(other)} (1)," for other in almost), f".BR {escaped(last)} (1)"]
    lines += [".PP", escaped(PLACE)]
    # A section begins without a paragraph of its own.
    return re.sub(r"(\.SH .*\n)\.PP\n", r"\1", "\n".join(lines) + "\n")
