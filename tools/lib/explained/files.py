"""What is wrong with a program file or an image that was refused, and what mends it."""

import os

from lib import images, program
from lib.guest import FILE_HEADER, MADE_PAGES, LINKED, PROGRAM_HEADER, made_file
from lib.images import BLOCK, HEADER, PAGE, LAYOUTS, Geometry, Remapping
from lib.program import GEOMETRY

STATIC = "link it with -static -no-pie, and with none of -c, -r and -shared"

# What mends a program file, by the name of its refusal.
FLAGS = {
    "NotClass64": "compile and link it with -march=rv64im -mabi=lp64",
    "IsRve": "compile and link it with -march=rv64im -mabi=lp64",
    "NotLittle": "compile and link it with -mlittle-endian",
    "NotExec": STATIC,
    "NotRiscv": "compile and link it for RISC-V, as by riscv64-unknown-elf-gcc -march=rv64im -mabi=lp64",
    "NeedsCompressed": "compile it, and all that is linked to it, with -march=rv64im",
    "NeedsFloat": "compile it, and all that is linked to it, with -mabi=lp64",
    "NeedsLoader": "link it with -static -no-pie",
    "SegmentOutsideMemory": "link it with -Wl,-Ttext-segment=ADDRESS, the address of --base, or give more --pages",
}

# What is wrong with a file that no compiler has written, or that is not whole.
DAMAGED = {
    "TooShort": "{file} is too short for a program: its header alone has {header} bytes, and this is a file{size}",
    "NotElf": "{file} is no ELF file, as compilers for RISC-V write them; examples/runtime/cc makes one of a program in C",
    "BadVersion": "{file} has another version of ELF than 1, and there is no other: it is damaged, or no linker wrote it",
    "BadHeaderSize": "the headers of {file} have not the sizes of ELF-64, {header} and {entry} bytes: "
    "it is damaged, or no linker wrote it",
    "TooManyHeaders": "{file} has 65535 program headers or more: link it into fewer segments",
    "HeadersOutside": "the file{size} ends before its program headers do: it is not whole; copy it or link it again",
    "FileOverMemory": "segment {k} of {file} has more bytes there than in memory: the file is damaged, or no linker wrote it",
    "SegmentOutsideFile": "the file{size} ends before its segment {k} does: it is not whole; copy it or link it again",
}

# What of an image is as no run saves it: by the number of the refusal what that is, and of what very many are the exception.
CHANGED = {
    "5": ("the commit block is", " of fewer than 2^62 epochs"),
    "6": ("entry {0} of the tables is", ""),
    "7": ("entries {0} and {1} of the tables are", ""),
    "8": ("entries {0} and {1} of the tables are", ""),
    "9": ("the processor's status or count is", " of fewer than 2^62 instructions"),
    "10": ("the console's length is", ""),
    "11": ("the count of page {0} is", ""),
    "12": ("what the record has of the second hart is", ""),
}


def size_of(name):
    """How many bytes a file has; None if it is none."""
    return os.path.getsize(name) if os.path.isfile(name) else None


def begins_with(name, start):
    """Whether a file begins with some bytes."""
    if not os.path.isfile(name):
        return False
    with open(name, "rb") as file:
        return file.read(len(start)) == start


def is_made(call):
    """Whether the call runs a made program: of each the file has the same length, and the same first instruction."""
    if call.command == "bench":
        return True
    first = made_file(0)
    start = first[: FILE_HEADER + PROGRAM_HEADER + 4]
    if call.command not in ("run", "plain", "compare"):
        return False
    return size_of(call.operands[0]) == len(first) and begins_with(call.operands[0], start)


def help_with_made_program(call):
    """What a made program needs, if its pages are not all in memory."""
    base, room = call.number("base"), call.number("pages") - call.number("console")
    if not is_made(call) or base <= LINKED and base + PAGE * room >= LINKED + PAGE * MADE_PAGES:
        return ""
    needs = f"with --base {LINKED} it needs --pages {MADE_PAGES + call.number('console')} or more"
    return f"a made program stores to the {MADE_PAGES} pages from {LINKED} on: {needs}"


def help_with_program(call, name, rest):
    """What helps with a refused program file."""
    if call.command == "bench":
        return help_with_made_program(call)
    file = call.operands[0]
    if name == "NotElf" and begins_with(file, HEADER):
        return f"{file} is an image that --save has written: ./thynvm resume goes on from it"
    size = size_of(file)
    parts = {"file": file, "size": "" if size is None else f" of {size} bytes", "k": rest[0] if rest else ""}
    said = DAMAGED.get(name)
    return said.format(header=FILE_HEADER, entry=PROGRAM_HEADER, **parts) if said else FLAGS.get(name, "")


def geometry_of(call):
    """The options of a call that an image belongs to."""
    return Geometry(*(call.number(name) for name in GEOMETRY), call.scheme, call.number("harts"))


def lengths(geometry, version):
    """The lengths that an image of a geometry may have, by the version in its header."""
    one = [Remapping(geometry, version=1).size] if version == 1 and geometry.scheme == "thynvm" else []
    return [*one, LAYOUTS[geometry.scheme](geometry).size]


def help_with_geometry(call, file):
    """What differs of an image: its options, or, if they agree with those of the call, its length."""
    with open(file, "rb") as stream:
        header = images.header_of(stream.read(BLOCK))
    mine = geometry_of(call)
    if (header.numbers, header.scheme, header.harts) != (mine.numbers(), program.SCHEMES[mine.scheme], mine.harts):
        names = (*GEOMETRY, "scheme", "harts")
        values = *header.numbers, images.SCHEME_NAMES.get(header.scheme, header.scheme), header.harts
        return "the image belongs to " + " ".join(f"--{name} {value}" for name, value in zip(names, values))
    wanted, size = lengths(mine, header.version), size_of(file)
    among = " or ".join(map(str, wanted))
    what = f"only {size} bytes of {among}: it is not whole"
    if size >= wanted[0]:
        what = f"{size} bytes and not {among}: it is not as --save writes it"
    return f"{file} has the options of the call, but {what}; copy it or save it again"


def help_with_image(call, number, rest):
    """What helps with a refused image."""
    file = call.operands[0]
    if number == "1":
        size = size_of(file)
        if size is not None and size < 2 * BLOCK:
            return f"{file} has {size} bytes, and an image {2 * BLOCK} at least: it is not whole; copy it or save it again"
        return "the image holds no checkpoint: its run had committed none"
    if number == "2":
        if begins_with(file, b"\x7fELF"):
            return f"{file} is a program: ./thynvm run begins it"
        return f"{file} does not begin with {HEADER.decode()}: it is no image that --save has written"
    if number == "3":
        return "the image has another version of the format than this program reads"
    if number == "4":
        return help_with_geometry(call, file)
    if number not in CHANGED:
        return ""
    what, fewer = CHANGED[number]
    return f"{what.format(*rest)} such as no run{fewer} saves: {file} has changed since; save it again"
