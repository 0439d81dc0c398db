"""Compares the map of the crates in docs/ARCHITECTURE.md with crates.txt, and makes it anew."""

import re
import sys

from lib.lint.sources import Unreadable, below_of, text_of, verdict, without_start

SUBJECT = "the map and the picture in docs/ARCHITECTURE.md with crates.txt"

ABOUT = """Compares the map of docs/ARCHITECTURE.md with crates.txt: the page has to have exactly the crates of crates.txt, each once and
in the order of crates.txt within its layer, with what it stands on; no crate may stand on one of a layer above its own; and
docs/layers.svg has to be the picture.

With --print it prints the map instead: a table for each layer, with a row for each crate. The columns 'crate' and 'stands on' are
made from crates.txt; the layers and the other columns are the page's. A crate that the page does not have yet is printed in a
last table, and a crate that crates.txt does not list is left out. In the column 'stands on' a crate of this repository stands
without its 'thy_'. With --picture it prints docs/layers.svg: a box for each layer, with a line from each to those below that it
stands on directly. With --above CRATE it prints the crates that stand on this one,
directly or not: they are proved anew when it changes.

Exit status: 0 printed, or nothing differs; 1 something differs; 2 invalid usage, or something cannot be read."""

PAGE = "docs/ARCHITECTURE.md"
PICTURE = "docs/layers.svg"
SECTION = "## The map"
HEAD = "| crate | what it is | stands on | its contract in one sentence |\n|---|---|---|---|"
NOT_PLACED = "Not placed yet"

# Sizes in the picture: of a letter, of a row, of a box, and of the space between boxes; and how often its rows are put in order.
LETTER, ROW, BOX, SPACE, SWEEPS = 7.2, 64, 36, 28, 8


def layers_in(text):
    """What the page says: of each layer its rows, as lists of four cells."""
    section = re.search(rf"^{SECTION}\n(.*?)(?=^## |\Z)", text, re.M | re.S)
    if not section:
        raise Unreadable(f"`{SECTION}` in {PAGE}")
    layers = {}
    for line in section[1].splitlines():
        if line.startswith("### "):
            layers[line[4:].strip()] = rows = []
        elif re.match(r"\| *(?!crate *\|)\w+ *\|", line):
            if not layers:
                raise Unreadable(f"the layer of a row in {PAGE}")
            rows.append([cell.strip() for cell in line.strip().strip("|").split("|")])
            if len(rows[-1]) != 4:
                raise Unreadable(f"the row of {rows[-1][0]} in {PAGE}, which has {len(rows[-1])} cells")
    if not any(layers.values()):
        raise Unreadable(f"a layer with a crate in {PAGE}")
    return layers


def shown(others):
    return ", ".join(without_start(other, "thy_") for other in others)


def listing(crates, layers):
    """The map, line by line."""
    texts = {row[0]: row for rows in layers.values() for row in rows}
    placed = {name: [crate for crate in crates if any(row[0] == crate for row in rows)] for name, rows in layers.items()}
    left = [crate for crate in crates if crate not in texts]
    for name, members in {**placed, **({NOT_PLACED: left} if left else {})}.items():
        yield f"### {name}\n\n{HEAD}"
        for crate in members:
            _, what, _, contract = texts.get(crate, ["", "", "", ""])
            yield f"| {crate} | {what} | {shown(crates[crate])} | {contract} |"
        yield ""


def differences(crates, layers):
    """How the page differs from crates.txt."""
    place, named = {}, [row[0] for rows in layers.values() for row in rows]
    for number, (name, rows) in enumerate(layers.items()):
        for row in rows:
            place[row[0]] = number
            if row[0] in crates and row[2] != shown(crates[row[0]]):
                yield f"{PAGE}: {row[0]} stands on '{row[2]}', in crates.txt on '{shown(crates[row[0]])}'"
        members = [row[0] for row in rows if row[0] in crates]
        if members != [crate for crate in crates if crate in members]:
            yield f"{PAGE}: the crates of the layer '{name}' are not in the order of crates.txt"
    for crate in crates:
        if crate not in named:
            yield f"{PAGE} does not have {crate}"
        for other in crates[crate]:
            if place.get(other, 0) > place.get(crate, len(layers)):
                yield f"{PAGE}: {crate} stands on {other} of a layer above its own"
    for crate in dict.fromkeys(named):
        if crate not in crates:
            yield f"{PAGE} has {crate}, which crates.txt does not list"
        if named.count(crate) > 1:
            yield f"{PAGE} has {crate} more than once"
    if text_of(PICTURE) != picture(crates, layers):
        yield f"{PICTURE} is not what tools/lint map --picture prints"


def below(crates, crate):
    """Every crate of the repository that a crate stands on, directly or not."""
    found, left = set(), [crate]
    while left:
        fresh = {other for other in crates[left.pop()] if other in crates} - found
        found |= fresh
        left += fresh
    return found


def stands_on(crates, layers):
    """Of each layer, lowest first, those that it stands on directly: none that another one of them stands on."""
    layer_of = {row[0]: name for name, rows in layers.items() for row in rows}
    all_of = {name: set() for name in layers}
    for crate, others in crates.items():
        found = {layer_of[other] for other in others if other in layer_of}
        all_of.get(layer_of.get(crate), set()).update(found - {layer_of.get(crate)})
    return {
        name: [other for other in layers if other in direct and not any(other in below(all_of, more) for more in direct)]
        for name, direct in all_of.items()
    }


def lines_of(direct):
    """The rows of the picture, lowest first, and its lines, from above to below. What is in a row is a pair of a layer and None,
    or of a layer and the row in which a line to it passes on its way down."""
    height = {}
    for name, others in direct.items():
        height[name] = 1 + max((height.get(other, 0) for other in others), default=-1)
    rows = [[(name, None) for name in direct if height[name] == row] for row in range(max(height.values()) + 1)]
    lines = set()
    for name, others in direct.items():
        for other in others:
            way = [(other, row) for row in range(height[name] - 1, height.get(other, 0), -1)]
            for part in way:
                if part not in rows[part[1]]:
                    rows[part[1]].append(part)
            ends = [(name, None), *way, (other, None)]
            lines.update(zip(ends, ends[1:]))
    return rows, sorted(lines, key=str)


def packed(row):
    """The middle of each part of a row, from left to right, beside each other around 0."""
    left = -sum(width_of(part) + SPACE for part in row) / 2
    for part in row:
        yield part, left + (width_of(part) + SPACE) / 2
        left += width_of(part) + SPACE


def middles_of(rows, lines):
    """The middle of each part. The rows are put in order from above and from below in turn: what has lines to each other is near."""
    middle = dict(pair for row in rows for pair in packed(row))
    ends = [*lines, *((lower, upper) for upper, lower in lines)]
    for turn in range(SWEEPS):
        for row in rows if turn % 2 else reversed(rows):
            near = {part: [middle[other] for end, other in ends if end == part] for part in row}
            row.sort(key=lambda part: sum(near[part]) / max(len(near[part]), 1))
            middle.update(packed(row))
    return middle


def width_of(part):
    return LETTER * len(part[0]) + 24 if part[1] is None else 0


def picture(crates, layers):
    """The picture of the layers, as a text of SVG."""
    rows, lines = lines_of(stands_on(crates, layers))
    middle = middles_of(rows, lines)
    wide, high = 2 * max(abs(middle[part]) + width_of(part) / 2 for row in rows for part in row) + 16, ROW * len(rows)
    place = {part: (middle[part] + wide / 2, ROW * (len(rows) - 1 - k) + (ROW - BOX) / 2) for k, row in enumerate(rows) for part in row}
    out = [f'<svg xmlns="http://www.w3.org/2000/svg" width="{wide:.0f}" height="{high}" font-family="sans-serif" font-size="12">']
    out.append(f'<rect width="{wide:.0f}" height="{high}" fill="#ffffff"/>')
    for upper, lower in lines:
        (x, y), (to_x, to_y) = place[upper], place[lower]
        out.append(f'<line x1="{x:.1f}" y1="{y + BOX:.1f}" x2="{to_x:.1f}" y2="{to_y:.1f}" stroke="#445566"/>')
        if lower[1] is not None:
            out.append(f'<line x1="{to_x:.1f}" y1="{to_y:.1f}" x2="{to_x:.1f}" y2="{to_y + BOX:.1f}" stroke="#445566"/>')
    for part in (part for row in reversed(rows) for part in row if part[1] is None):
        (x, y), many = place[part], sum(row[0] in crates for row in layers[part[0]])
        box = f'x="{x - width_of(part) / 2:.1f}" y="{y:.1f}" width="{width_of(part):.1f}" height="{BOX}"'
        out.append(f'<rect {box} rx="3" fill="#eeeeee" stroke="#445566"/>')
        out.append(f'<text x="{x:.1f}" y="{y + 14:.1f}" text-anchor="middle" font-weight="bold">{part[0]}</text>')
        out.append(f'<text x="{x:.1f}" y="{y + 28:.1f}" text-anchor="middle">{many} crate{"" if many == 1 else "s"}</text>')
    return "\n".join([*out, "</svg>"]) + "\n"


def both():
    """What crates.txt says, and what the page says."""
    return below_of(text_of("crates.txt")), layers_in(text_of(PAGE))


def add_to(parser):
    """The options of this part."""
    parser.add_argument("--print", action="store_true", help="print the map instead")
    parser.add_argument("--picture", action="store_true", help="print the picture")
    parser.add_argument("--above", metavar="CRATE", help="print the crates that stand on this one")


def check(_words=None):
    """Compares, and prints what differs. The status."""
    crates, layers = both()
    return verdict(list(differences(crates, layers)), f"{PAGE} has the {len(crates)} crates of crates.txt")


def work(words):
    """Does what the options of this part say. The status."""
    crates, layers = both()
    if words.above:
        if words.above not in crates:
            raise Unreadable(f"a crate {words.above} in crates.txt")
        print("\n".join(crate for crate in crates if words.above in below(crates, crate)))
        return 0
    if words.picture:
        sys.stdout.write(picture(crates, layers))
        return 0
    if words.print:
        print("\n".join(listing(crates, layers)).rstrip())
        return 0
    return check()
