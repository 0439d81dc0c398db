"""The numbers that are drawn of a table, and the picture."""

import re
import textwrap
from dataclasses import dataclass

from lib import pictures
from lib.options import Refused

# What is drawn: a column, a sum of columns that are stacked, or a column divided by another.
TERM = r"[^+/,]+"
DRAWN = re.compile(rf"{TERM}(\+{TERM})*|{TERM}/{TERM}")


@dataclass
class Point:
    """A number that is drawn: its group of bars or its place on the axis, its line or bar, and a number for each term."""

    place: str
    line: str
    values: list


def terms_of(text, columns):
    """The columns that are drawn, and whether the first is divided by the second. `~` behind a name may be left out."""
    if not DRAWN.fullmatch(text):
        raise Refused(f"this is no column, sum of columns or column / column: {text}")
    known = {name.rstrip("~"): name for name in columns}
    for name in re.split(r"[+/]", text):
        if name.rstrip("~") not in known:
            raise Refused(f"the table has no column {name}")
    return [known[name.rstrip("~")] for name in re.split(r"[+/]", text)], "/" in text


def number_of(row, name):
    return float(row[name]) if re.fullmatch(r"[0-9]+", row[name]) else None


def values_of(row, terms, is_ratio):
    """The numbers of a row; None if one of them is missing."""
    found = [number_of(row, name) for name in terms]
    if None in found:
        return None
    if is_ratio:
        return [found[0] / found[1]] if found[1] else None
    return found


def chosen(rows, conditions):
    """The rows of which some columns have these values."""
    return [row for row in rows if all(row.get(name) == value for name, value in conditions)]


def said(row, names):
    return " ".join(
        f"{name} {row[name]}" if name not in ("program", "options", "scheme") else row[name] for name in names
    ).strip()


def points_of(rows, keys, over, terms, is_ratio):
    """What is drawn, and how many rows lack it. A line or a bar is named by what differs among the rows."""
    differing = [name for name in keys if len({row[name] for row in rows}) > 1]
    if over is None:
        place_by, line_by = [name for name in keys if name != "scheme" and name in differing] or ["program"], ["scheme"]
    else:
        place_by, line_by = [over], [name for name in differing if name != over] or ["scheme"]
    points, missing = [], 0
    for row in rows:
        values = values_of(row, terms, is_ratio)
        if values is None or over is not None and number_of(row, over) is None:
            missing += 1
            continue
        points.append(Point(row[over] if over else said(row, place_by), said(row, line_by), values))
    return points, missing


def normalised(points, baseline):
    """The same numbers, of those of a line at the same place; and how many have none there."""
    if baseline is None:
        return points, 0
    lines = {point.line for point in points}
    if baseline not in lines:
        raise Refused(f"there is no {baseline} among {', '.join(sorted(lines))}")
    whole = {point.place: sum(point.values) for point in points if point.line == baseline}
    found = [
        Point(point.place, point.line, [value / whole[point.place] for value in point.values])
        for point in points
        if whole.get(point.place)
    ]
    return found, len(points) - len(found)


def table(name, points, terms, is_ratio):
    """The numbers as lines with tabs, below a line of headings."""
    yield "\t".join(["place", "line", *([name] if is_ratio else terms)])
    for point in points:
        yield "\t".join([point.place, point.line, *(f"{value:.6g}" for value in point.values)])


def draw_lines(axis, points):
    """A line for each scheme, and whatever else differs, over the places."""
    lines = list(dict.fromkeys(point.line for point in points))
    seen = {}
    for line in lines:
        scheme = next((word for word in line.split() if word in pictures.COLOURS), line)
        k = seen[scheme] = seen.get(scheme, -1) + 1
        some = sorted((float(point.place), sum(point.values)) for point in points if point.line == line)
        how = {"color": pictures.colour_of(scheme, lines), "marker": pictures.MARKERS[k % 6], "linestyle": pictures.STYLES[k % 4]}
        axis.plot(*zip(*some), label=pictures.plain(line), **how)
    places = sorted({float(point.place) for point in points})
    if places[0] > 0 and places[-1] >= 16 * places[0]:
        axis.set_xscale("log", base=2 if all(place.is_integer() and not int(place) & int(place) - 1 for place in places) else 10)
    axis.set_ylim(bottom=0)
    axis.grid(axis="y")


def draw_bars(axis, points, terms, most):
    """A group of bars for each place, by schemes. Bars of several terms are stacked: these have the colours, and below each bar
    stands its scheme."""
    places, lines = (list(dict.fromkeys(getattr(point, name) for point in points)) for name in ("place", "line"))
    wide, ticks = 0.8 / len(lines), []
    for point in points:
        at = places.index(point.place) + (lines.index(point.line) - (len(lines) - 1) / 2) * wide
        bottom = 0
        for k, (term, value) in enumerate(zip(terms, point.values)):
            stacked = len(terms) > 1
            colour = pictures.STACK[k % len(pictures.STACK)] if stacked else pictures.colour_of(point.line, lines)
            axis.bar(
                at, value, wide * 0.92, bottom, color=colour, label=pictures.plain(term if stacked else point.line), linewidth=0
            )
            bottom += value
            ticks += [(at, point.line if stacked else "")] if k == 0 else []
        if most is not None and bottom > most:
            axis.text(at, most, f"{bottom:.3g} ", ha="center", va="top", fontsize=5, rotation=90)
    if len(terms) > 1:
        axis.set_xticks([at for at, _ in ticks], [pictures.plain(line) for _, line in ticks], rotation=90)
        for k, place in enumerate(places):
            shown = pictures.plain(textwrap.fill(place, 14))
            axis.text(k, 1.0, shown, transform=axis.get_xaxis_transform(), ha="center", va="bottom", fontsize=5)
    else:
        axis.set_xticks(range(len(places)), [pictures.plain(place) for place in places], rotation=30, ha="right")
    if most is not None:
        axis.set_ylim(0, most)
    axis.grid(axis="y")


def draw(panels, over, words, name):
    """Draws a panel for each column, one below the other. A panel is what it is named, its points and its terms."""
    are_stacked = over is None and any(len(terms) > 1 and len(points[0].values) > 1 for _, points, terms in panels)
    figure, rows = pictures.axes(words.size, 0.6 + 1.7 * len(panels), rows=len(panels), sharex=not are_stacked)
    for (axis,), (text, points, terms) in zip(rows, panels):
        is_stacked = len(points[0].values) > 1
        if over:
            draw_lines(axis, points)
            axis.set_xlabel(pictures.plain(over) if axis is rows[-1][0] else "")
        else:
            draw_bars(axis, points, terms if is_stacked else [text], words.most)
        shown = words.axis or ("sum" if is_stacked else text)
        axis.set_ylabel(pictures.plain(f"{shown}, of {words.baseline}" if words.baseline else shown))
        handles, labels = axis.get_legend_handles_labels()
        once = dict(zip(labels, handles))
        if axis is rows[0][0] or are_stacked:
            many = 6 if words.size == "page" else 3 if max(map(len, once)) < 12 else 2
            axis.legend(
                once.values(),
                once.keys(),
                loc="lower left",
                bbox_to_anchor=(0, 1.12 if are_stacked else 1.0),
                ncol=many,
                borderaxespad=0.2,
            )
    pictures.put(figure, name, words.title)
