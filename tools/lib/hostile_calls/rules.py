"""What docs/FORMATS.md and docs/USING.md say: whether arguments, a program file or an image are refused, and with which line.

The numbers and names of refusals, the statuses and the forms of closing lines are read from docs/FORMATS.md."""

import re
import struct
from dataclasses import dataclass
from functools import lru_cache

from lib import images, repository
from lib.images import BLOCK, PAGE
from lib.program import FIELDS, FLAGS, GEOMETRY, LISTS, MOST_NUMBER, OPERANDS, SCHEMES, options_of

# Below which epochs and counts are: those of an image that is resumed, and those of a run.
RESUMED, RUN = 2**62, 2**63


@lru_cache(maxsize=None)
def document():
    return repository.text_of("docs/FORMATS.md")


@lru_cache(maxsize=None)
def refusals(heading):
    """The names of the refusals below a heading, by their numbers."""
    section = document().split(heading, 1)[1].split("\n#", 1)[0]
    return {int(number): name for number, name in re.findall(r"^\| (\d+) \| (\w+)", section, re.M)}


@lru_cache(maxsize=None)
def closings():
    """The forms of the closing lines, by status; a status with none has an empty form."""
    section = document().split("### Statuses and closing lines", 1)[1]
    forms = {}
    for status, said in re.findall(r"^\| (\d+) \|.*\|([^|]*)\|$", section, re.M):
        for line in re.findall(r"`([^`]+)`", said) or [""]:
            form = re.sub(r"\b[NkijCL]\b", r"\\d+", re.sub(r"\bFIELD\b", "[a-z]+", line))
            refusal = line.split()[0] in ("file", "image") if line else False
            form = form.replace("NAME", r"\w+" if refusal else "(?s:.*)")
            forms.setdefault(int(status), []).append(re.compile(form))
    return forms


def file_refusal(number, *indices):
    return " ".join(map(str, ("file", number, refusals("### The seventeen refusals")[number], *indices)))


def image_refusal(number, *indices):
    return " ".join(map(str, ("image", number, refusals("### What an image means")[number], *indices)))


# Arguments.


class Due(Exception):
    """A refusal that is due: a status and a line."""

    def __init__(self, status, line):
        super().__init__(line)
        self.status, self.line = status, line


def usage(holds):
    if not holds:
        raise Due(2, "usage")


def looks_like_an_option(word):
    return word.startswith("-") and word != "-"


def texts_of(words):
    """The command, and the texts of its operands and options."""
    usage(words and words[0] in OPERANDS)
    verb, rest, operands, found = words[0], list(words[1:]), [], {}
    while rest:
        word = rest.pop(0)
        if word == "--":
            operands += rest
            break
        if not looks_like_an_option(word):
            operands.append(word)
            continue
        usage(word.startswith("--"))
        name, equals, value = word[2:].partition("=")
        usage(name in options_of(verb) and name not in found)
        if name in FLAGS:
            usage(not equals)
        elif not equals:
            usage(rest and not looks_like_an_option(rest[0]))
            value = rest.pop(0)
        found[name] = value
    usage(len(operands) == len(OPERANDS[verb]))
    return verb, {**found, **dict(zip(map(str.lower, OPERANDS[verb]), operands))}


def value_of(name, text):
    """A field's value, or the refusal of a text that is none."""
    if name == "scheme":
        if text not in SCHEMES:
            raise Due(2, "word scheme")
        return text
    pieces = text.split(",") if name in LISTS else [text]
    if not all(re.fullmatch(r"[0-9]{1,19}", piece) for piece in pieces):
        raise Due(2, f"word {name}")
    return [int(piece) for piece in pieces] if name in LISTS else int(text)


def value(holds, name, number):
    if not holds:
        raise Due(2, f"value {name} {number}")


def test_ranges(v):
    """The first value that is out of its range is refused."""
    value(v.get("n", 0) <= MOST_NUMBER, "n", v.get("n"))
    for name, option in FIELDS.items():
        if name in (*LISTS, "scheme"):
            continue
        if name == "limit":
            test_lists(v)
        number = v[name]
        value(option.low <= number <= option.high and number % option.step == 0, name, number)
        value(name != "console" or number < v["pages"], name, number)
        value(name != "sets" or number & (number - 1) == 0, name, number)
        value(name != "low" or number <= v["high"], name, number)


def test_lists(v):
    cuts, tears = v["cuts"], v["tears"]
    value(len(cuts) <= 64, "cuts", len(cuts))
    for before, cut in zip([0, *cuts], cuts):
        value(before < cut, "cuts", cut)
    value(v["pages"] * (len(cuts) + 1) <= 65536, "cuts", v["pages"] * (len(cuts) + 1))
    value(len(tears) <= len(cuts) + 1, "tears", len(tears))


def settings(words):
    """The command and its values, or the refusal of the arguments."""
    verb, texts = texts_of(words)
    values = {name: option.default for name, option in FIELDS.items()}
    for name in ("n", *FIELDS):
        if name in texts:
            values[name] = value_of(name, texts[name])
    test_ranges(values)
    others = {name: text for name, text in texts.items() if name not in values}
    return verb, {**values, **others, "digest": "digest" in texts}


# Program files.


def number_at(data, at, size):
    return int.from_bytes(data[at : at + size], "little")


def header_fault(data):
    """The number of the refusal of a file's header, 0 if it is right."""
    if len(data) < 64:
        return 1
    flags, count = number_at(data, 48, 4), number_at(data, 56, 2)
    tests = (
        data[:4] == b"\x7fELF",
        data[4] == 2,
        data[5] == 1,
        data[6] == 1 and number_at(data, 20, 4) == 1,
        number_at(data, 16, 2) == 2,
        number_at(data, 18, 2) == 243,
        not flags & 1,
        not flags & 6,
        not flags & 8,
        number_at(data, 52, 2) == 64 and (count == 0 or number_at(data, 54, 2) == 56),
        count != 0xFFFF,
        count == 0 or number_at(data, 32, 8) + 56 * count <= len(data),
    )
    return next((2 + k for k, holds in enumerate(tests) if not holds), 0)


def test_file(data, v):
    """A program file that is not accepted is refused."""
    number = header_fault(data)
    if number:
        raise Due(4, file_refusal(number))
    places = [number_at(data, 32, 8) + 56 * k for k in range(number_at(data, 56, 2))]
    if any(number_at(data, at, 4) in (2, 3) for at in places):
        raise Due(4, file_refusal(14))
    end = v["base"] + PAGE * (v["pages"] - v["console"])
    for k, at in enumerate(places):
        if number_at(data, at, 4) != 1:
            continue
        offset, address, size, room = (number_at(data, at + field, 8) for field in (8, 16, 32, 40))
        if size > room:
            raise Due(4, file_refusal(15, k))
        if size and offset + size > len(data):
            raise Due(4, file_refusal(16, k))
        if room and not v["base"] <= address <= address + room <= end:
            raise Due(4, file_refusal(17, k))


# Images.


@dataclass
class Checkpoint:
    """What an accepted image means."""

    epoch: int
    count: int
    cursor: int
    status: int
    number: int
    console: bytes
    memory: bytes


def geometry_of(v):
    """The geometry that options name."""
    return images.Geometry(*(v[name] for name in GEOMETRY), v["scheme"], v["harts"])


class Image:
    """The bytes of an image, and where its parts are: the places of the commit block's version."""

    def __init__(self, data, v):
        self.data, self.v, geometry = data, v, geometry_of(v)
        new = images.layout_of(geometry)
        first, one = v["scheme"] == "thynvm", v["harts"] == 1
        # What a header may say of its version: version 1 knows the first scheme and one hart only.
        self.versions = (1, 2) if first and one else (2,)
        # The commit block is of version 1.
        self.is_old = first and one and data[BLOCK : BLOCK + 8] == images.COMMITS[1]
        self.layout = images.Remapping(geometry, version=1) if self.is_old else new
        # The lengths that it may have, and where the slots of version 2 are, whatever the commit block says.
        self.sizes = {self.layout.size, new.size}
        self.size, self.slots = new.size, new.slots

    @property
    def ends(self):
        """The greatest entries of both tables."""
        pages = self.v["pages"]
        return (self.layout.pages, pages) if self.v["scheme"] == "shadow" else (64 * pages, pages)

    def words(self, block, count):
        return list(struct.unpack_from(f"<{count}Q", self.data, BLOCK * block))

    def test(self, first, second):
        """Tables that list what is not there, or something twice, are refused."""
        if self.v["scheme"] == "shadow":
            test_map(first, self.v["pages"], self.layout.pages)
        else:
            test_tables(first, second, self.v["pages"])

    def entry_of(self, rng, page):
        """An entry of the first table: a block of this page, or of a map a page of the pool."""
        if self.v["scheme"] == "shadow":
            return rng.randrange(self.layout.pages) + 1
        return 64 * page + rng.randrange(64) + 1


def test_map(listed, pages, pool):
    """A map that has no page of the pool for a page of memory, or one for none, or one twice, is refused."""
    for x, entry in enumerate(listed):
        if not 0 < entry <= pool if x < pages else entry:
            raise Due(5, image_refusal(6, x))
    seen = {}
    for k, entry in enumerate(listed[:pages]):
        if entry in seen:
            raise Due(5, image_refusal(7, seen[entry], k))
        seen[entry] = k


def test_tables(btt, ptt, pages):
    """Tables that list what is not there, or something twice, are refused."""
    for first, table, bound in ((0, btt, 64 * pages), (len(btt), ptt, pages)):
        if max(table, default=0) > bound:
            raise Due(5, image_refusal(6, first + next(i for i, entry in enumerate(table) if entry > bound)))
    for first, table in ((0, btt), (len(btt), ptt)):
        seen = {}
        for k, entry in enumerate(table):
            if entry and entry in seen:
                raise Due(5, image_refusal(7, first + seen[entry], first + k))
            seen[entry] = k
    for i, entry in enumerate(btt):
        page = (entry - 1) // 64 + 1
        if entry and page in ptt:
            raise Due(5, image_refusal(8, i, ptt.index(page)))


def read_image(data, v, ceiling):
    """The checkpoint in an image, or its refusal."""

    def test(holds, number):
        if not holds:
            raise Due(5, image_refusal(number))

    test(len(data) >= 2 * BLOCK and any(data[BLOCK : 2 * BLOCK]), 1)
    image, header = Image(data, v), images.header_of(data)
    layout, commit = image.layout, image.words(1, 8)
    test(header.name == images.HEADER, 2)
    test(header.version in image.versions, 3)
    geometry = layout.geometry
    test(header.numbers == geometry.numbers() and image.words(0, 8)[7] == geometry.last(), 4)
    test(len(data) in image.sizes, 4)
    epoch = commit[1]
    named = data[BLOCK : BLOCK + 8] == images.COMMITS[2] or image.is_old and header.version == 1
    test(named and epoch < ceiling and not any(commit[2:]), 5)
    record = layout.record_words(data, epoch)
    test(record[images.EPOCH] == epoch, 5)
    first, second = layout.entries(data, epoch)
    image.test(first, second)
    count, cursor, length = record[images.COUNT], record[images.CURSOR], record[images.CONSOLE]
    status, number = record[images.STATUS], record[images.NUMBER]
    test(status <= 2 and number <= (0, 255, 7)[status] and count < ceiling, 9)
    test(length <= PAGE * v["console"], 10)
    for page, stores in enumerate(layout.count_bytes(data, epoch)):
        if stores > 63 or page >= v["pages"] and stores:
            raise Due(5, image_refusal(11, page))
    if v["harts"] == 2:
        # The widths of both reservations, and the zeros behind them.
        widths = record[images.FIRST_WIDTH], record[images.SECOND_WIDTH]
        test(all(width in images.WIDTHS for width in widths) and not any(record[k] for k in images.SECOND_ZEROS), 12)
    memory, end = layout.memory(data, epoch, first, second), PAGE * (v["pages"] - v["console"])
    return Checkpoint(epoch, count, cursor, status, number, memory[end : end + length], memory[:end])
