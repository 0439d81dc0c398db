"""Help pages, taken apart: blocks, rows of a term and its text, and the table of options of ./thynvm."""

import re

# The columns of the table of options in the help page of ./thynvm: name, default, range, meaning.
COLUMNS = (slice(2, 14), slice(14, 27), slice(27, 60), slice(60, None))

# What stands above the rows of a script's options, with each version of Python.
HEADINGS = re.compile(r"(?:positional arguments|options|optional arguments):$")


def blocks(page):
    """The blocks of a page, between empty lines: lists of lines."""
    return [block.split("\n") for block in re.split(r"\n\s*\n", page.strip("\n"))]


def indent_of(line):
    return len(line) - len(line.lstrip(" "))


def rows_of(lines, long_terms=False):
    """The lines as pairs of a term and its text, if that is what they are: each row begins as the first, and its text stands in a
    column of its own, also in the lines after. None if they are something else. A long term may have a line of its own."""
    least = indent_of(lines[0])
    deeper = [indent_of(line) for line in lines if indent_of(line) > least]
    first = re.match(r" *\S.*? {2,}(?=\S)", lines[0])
    if not deeper and not first:
        return None
    column, rows = (min(deeper) if deeper else first.end()), []
    for line in lines:
        if indent_of(line) == column:
            rows[-1][1].append(line.strip())
        elif indent_of(line) != least:
            return None
        elif line[column - 1 : column] == " " and line[column : column + 1].strip():
            rows.append((line[:column].strip(), [line[column:].strip()]))
        elif long_terms:
            rows.append((line.strip(), []))
        else:
            return None
    return [(term, " ".join(text)) for term, text in rows]


def is_table(lines):
    """Whether these lines are the table of options."""
    return lines[0].split() == ["option", "default", "range", "meaning"]


def table_of(lines):
    """The table of options: of each its default, its range and what it means."""
    rows = []
    for line in lines[1:]:
        cells = [line[column].strip() for column in COLUMNS]
        if cells[0]:
            rows.append(cells)
        else:
            rows[-1] = [f"{old} {new}".strip() for old, new in zip(rows[-1], cells)]
    return {name[2:]: tuple(cells) for name, *cells in rows}


def options_in(page):
    """The table of options in the help page of ./thynvm."""
    return next(table_of(lines) for lines in blocks(page) if is_table(lines))


def commands_in(page):
    """Of each command in the help page of ./thynvm, by its first word, what it does."""
    rows = next(rows for rows in map(rows_of, blocks(page)[1:]) if rows)
    return {term.split()[0]: text for term, text in rows}


def shortly(text):
    """The beginning of a text, as a description of a few words."""
    text = re.sub(r"^before [^:]*: ", "", text)
    return re.split(r" \(|[.:;](?= |$)", text)[0]
