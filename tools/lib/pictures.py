"""Pictures by matplotlib, in the sizes of a paper: of a column, or of a page."""

import logging
import os
import subprocess
import sys
import textwrap

from lib.options import Refused

# Widths in inches.
WIDTHS = {"column": 3.4, "page": 7.0}

ENDS = (".svg", ".pdf", ".png")

# The python that Debian's packages are for.
DEBIAN = "/usr/bin/python3"

# Colours that stay apart in grey and for those who see fewer of them.
COLOURS = {"thynvm": "#4878a8", "journal": "#d08030", "shadow": "#609048"}
STACK = ("#b0b0b0", "#4878a8", "#90b8d8", "#803080", "#d08030", "#609048", "#c8b040", "#a03848", "#505050")
OTHERS = ("#805090", "#a03848", "#708090", "#b0a040", "#303030")

# What each kind of line is drawn with, one after the other.
MARKERS, STYLES = "osD^vX", ("-", "--", ":", "-.")

STYLE = {
    "font.size": 7,
    "axes.titlesize": 8,
    "axes.labelsize": 7,
    "legend.fontsize": 6,
    "xtick.labelsize": 6,
    "ytick.labelsize": 6,
    "axes.linewidth": 0.6,
    "lines.linewidth": 1.0,
    "lines.markersize": 3,
    "axes.spines.top": False,
    "axes.spines.right": False,
    "legend.frameon": False,
    "legend.handlelength": 1.2,
    "legend.handletextpad": 0.4,
    "legend.columnspacing": 1.0,
    "axes.axisbelow": True,
    "grid.linewidth": 0.4,
    "grid.color": "#d8d8d8",
    "hatch.linewidth": 0.4,
    # Text stays text, and the same picture is the same file.
    "svg.fonttype": "none",
    "svg.hashsalt": "thynvm",
    "pdf.fonttype": 42,
}


class Missing(Refused):
    """Something that draws is not installed."""

    status = 2


def add_options(parser, title):
    """The options that each script has which draws."""
    parser.add_argument("--title", default=title, help="what stands above the picture; '' leaves it out")
    parser.add_argument(
        "--size", choices=WIDTHS, default="column", help="how wide it is: a column of a paper (3.4 inches), or a page (7)"
    )


def is_name(name):
    return name.endswith(ENDS)


def check_name(parser, name):
    """Refuses the name of a picture."""
    if not is_name(name):
        parser.error(f"the picture's name ends in none of {', '.join(ENDS)}: {name}")


def found():
    """Whether the python that runs this has matplotlib."""
    try:
        import matplotlib  # noqa: F401
    except ImportError:
        return False
    return True


def has_debian():
    """Whether Debian's python is another one than that which runs this, and has matplotlib."""
    if os.path.realpath(sys.executable) == os.path.realpath(DEBIAN) or not os.access(DEBIAN, os.X_OK):
        return False
    done = subprocess.run([DEBIAN, "-c", "import matplotlib"], stdin=subprocess.DEVNULL, capture_output=True)
    return done.returncode == 0


def has_matplotlib():
    """Whether something draws."""
    return found() or has_debian()


def ready():
    """Refuses if nothing draws. If the python in PATH is not Debian's, and only Debian's has matplotlib, that runs the script."""
    if found():
        return
    if has_debian():
        sys.stdout.flush()
        os.execv(DEBIAN, [DEBIAN, *sys.argv])
    raise Missing("matplotlib is not installed (on Debian it is in the package python3-matplotlib); --table needs none")


def axes(size, height, rows=1, columns=1, **more):
    """A figure of a width, with axes in rows and columns: an array of rows."""
    import matplotlib

    # The first picture of a user looks for fonts; if that takes long, it would be said on standard error.
    logging.getLogger("matplotlib.font_manager").setLevel(logging.ERROR)
    matplotlib.use("agg")
    matplotlib.rcParams.update(STYLE)
    from matplotlib import pyplot

    return pyplot.subplots(rows, columns, figsize=(WIDTHS[size], height), squeeze=False, constrained_layout=True, **more)


def plain(text):
    """A text in which nothing is a formula."""
    return text.replace("$", r"\$")


def put(figure, name, title):
    """Writes a picture into a file."""
    if title:
        # So many letters go into an inch.
        figure.suptitle(plain(textwrap.fill(title, int(15 * figure.get_figwidth()))), fontsize=8)
    # No date stands in it.
    metadata = {".svg": {"Date": None}, ".pdf": {"CreationDate": None}}.get(name[-4:])
    figure.savefig(name, metadata=metadata, dpi=300)


def colour_of(name, names):
    """The colour of a scheme, or of another one among some names."""
    if name in COLOURS:
        return COLOURS[name]
    others = [other for other in names if other not in COLOURS]
    return OTHERS[others.index(name) % len(OTHERS)]
