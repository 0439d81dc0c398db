"""The table of options, with that of docs/USING.md."""

import re
import unittest

from lib import program, repository


def rows():
    """Of each option of the page its default and its range, in order; a row may have two options."""
    found = []
    for line in repository.text_of("docs/USING.md").splitlines():
        cells = [cell.strip() for cell in line.strip("|").split("|")]
        if line.startswith("| `--") and len(cells) == 4:
            names = re.findall(r"`--(\w+)`", cells[0])
            defaults = re.sub(r"(?<=\d),(?=\d{3})", "", cells[1]).split(", ")
            ranges = re.sub(r"(?<=\d),(?=\d{3})", "", cells[2]).split("; ") if len(names) == 2 else [cells[2]]
            for k, name in enumerate(names):
                found.append((name, defaults[min(k, len(defaults) - 1)], ranges[min(k, len(ranges) - 1)]))
    return found


def number(text):
    base, _, power = text.strip("`").partition("^")
    return int(base) ** int(power or 1)


class Program(unittest.TestCase):
    def test_names_and_defaults(self):
        page = rows()
        self.assertEqual([name for name, _, _ in page], list(program.OPTIONS))
        for name, default, _ in page:
            if name in program.FIELDS:
                self.assertEqual(str(program.FIELDS[name].default or 0), default.replace("none", "0"), name)

    def test_ranges(self):
        for name, _, said in rows():
            said = re.sub(r"(?<=\d),(?=\d{3})", "", said)
            found = re.search(r"(\d+) (?:to|or) (`?[\d^]+`?)", said)
            if found and name != "low":
                field = program.FIELDS[name]
                self.assertEqual((field.low, field.high), (number(found[1]), number(found[2])), name)
            if "multiple" in said:
                self.assertEqual(program.FIELDS[name].step, int(re.search(r"multiple of (\d+)", said)[1]), name)
        self.assertEqual(program.FIELDS["base"].high, 2**62 - 4096)

    def test_what_commands_take(self):
        for name in ("run", "resume", "bench"):
            self.assertEqual(program.options_of(name), program.OPTIONS)
        self.assertEqual(set(program.OPTIONS) - set(program.options_of("compare")), {"scheme", "cuts", "tears", "save"})
        self.assertEqual(set(program.options_of("plain")), {"base", "pages", "console", "limit", "input", "digest"})
        self.assertEqual(program.options_of("make"), ())

    def test_the_largest_files(self):
        page = repository.text_of("docs/FORMATS.md")
        self.assertIn(f"at most {program.MOST_BYTES:,} bytes", page)
        self.assertIn(f"at most {program.MOST_IMAGE_BYTES:,} bytes", page)
