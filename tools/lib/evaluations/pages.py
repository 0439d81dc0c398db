"""The tables in a page: each is behind a line that names it, `<!-- table NAME -->`, and goes up to the next empty line."""

import re

from lib.options import Refused

MARK = re.compile(r"<!-- table ([a-z]+) -->")


def parts_of(text):
    """The page as pairs: lines that stay, and the name of the table behind them; None for the end."""
    held, lines = [], iter(text.splitlines())
    for line in lines:
        held.append(line)
        found = MARK.fullmatch(line)
        if found:
            yield held, found[1], table_of(lines)
            held = []
    yield held, None, []


def table_of(lines):
    """The lines of a table."""
    table = []
    for line in lines:
        if not line:
            break
        table.append(line)
    return table


def tables_in(text, names):
    """The tables of a page by their names. Each name has to stand there once, and no other."""
    found = [(name, table) for _, name, table in parts_of(text) if name]
    if sorted(name for name, _ in found) != sorted(names):
        raise Refused(f"the page has the tables {', '.join(name for name, _ in found) or 'none'}, and not {', '.join(names)}")
    return dict(found)


def with_tables(text, tables):
    """The page with these tables in place of its own."""
    tables_in(text, tables)
    lines = []
    for held, name, _ in parts_of(text):
        lines += held + ([*tables[name], ""] if name else [])
    return "".join(f"{line}\n" for line in lines)
