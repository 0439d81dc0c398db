"""The table of a study: a line of headings, and a line for each run, with tabs between. It grows run by run."""

import os

from lib import options
from lib.options import Refused
from lib.studies.runs import COLUMNS


def line_of(cells):
    """A row. No cell has a tab or the end of a line."""
    return "\t".join(" ".join(str(cell).split()) for cell in cells) + "\n"


class Table:
    """The rows of a study in a file, by their keys."""

    def __init__(self, path, keys):
        self.path, self.columns, self.keys = path, (*keys, *COLUMNS), len(keys)
        self.rows = {}

    def begin(self, resumes):
        """Begins the file, or reads what an earlier study has left there. A last line that was broken off is no row."""
        if not resumes:
            if os.path.exists(self.path):
                raise Refused(f"{self.path} is there already: --resume goes on with it")
            self.write([])
            return
        if not os.path.exists(self.path):
            self.write([])
            return
        try:
            with open(self.path, encoding="utf-8") as file:
                heading, *lines = file.read().split("\n")[:-1] or [""]
        except (OSError, UnicodeDecodeError) as fault:
            raise Refused(f"the table cannot be read: {fault}") from None
        if heading + "\n" != line_of(self.columns):
            raise Refused(f"{self.path} is the table of another study: its headings differ")
        for line in lines:
            cells = line.split("\t")
            if len(cells) == len(self.columns):
                self.rows[tuple(cells[: self.keys])] = cells
        self.write(self.rows.values())

    def write(self, rows):
        """Writes the whole file: it is there as before or as a whole."""
        other = f"{self.path}.new"
        with open(other, "w", encoding="utf-8") as file:
            file.writelines(map(line_of, [self.columns, *rows]))
        os.replace(other, self.path)

    def add(self, key, cells):
        """Adds a row."""
        row = [*key, *(cells[name] for name in COLUMNS)]
        self.rows[tuple(" ".join(part.split()) for part in key)] = row
        with open(self.path, "a", encoding="utf-8") as file:
            file.write(line_of(row))

    def has(self, key):
        return tuple(" ".join(part.split()) for part in key) in self.rows

    def end(self, keys):
        """Puts the rows of these keys in their order. Others, of an earlier study, stay behind them."""
        order = {tuple(" ".join(part.split()) for part in key): k for k, key in enumerate(keys)}
        self.write([row for _, row in sorted(self.rows.items(), key=lambda item: order.get(item[0], len(order)))])


def read(path):
    """The headings and the rows of a table, each a dictionary."""
    lines = options.lines_of(path, "the table")
    columns = lines[0].split("\t") if lines else []
    if "scheme" not in columns or "status" not in columns:
        raise Refused(f"{path} is not the table of a study")
    keys = columns[: columns.index("scheme") + 1]
    rows = [dict(zip(columns, line.split("\t"))) for line in lines[1:] if line.count("\t") == len(columns) - 1]
    return keys, columns, rows
