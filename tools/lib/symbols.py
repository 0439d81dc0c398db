"""The functions of a program file by their symbols, and the lines of its source by addr2line."""

import bisect
import re
import shutil
import struct
import subprocess
from dataclasses import dataclass

from lib.options import Refused

# Of a section header the type of a symbol table, and the flag of a section with instructions. Of a symbol the types that a
# function may have: none, as a label of an assembler, or that of a function.
SYMBOLS, EXECUTABLE, LABEL, FUNCTION = 2, 4, 0, 2

# The sizes of a section header and of a symbol, and the place of three numbers in the file's header.
SECTION_HEADER, SYMBOL, SECTIONS_AT = 64, 24, (40, 60)

# The programs that find lines, in the order in which they are looked for: the toolchain of the examples has the first.
FINDERS = ("riscv64-unknown-elf-addr2line", "riscv64-linux-gnu-addr2line", "llvm-addr2line")


@dataclass(frozen=True)
class Section:
    kind: int
    flags: int
    place: int
    size: int
    link: int

    def of(self, data):
        """Its bytes in a file."""
        if self.place + self.size > len(data):
            raise struct.error("a section goes past the file's end")
        return data[self.place : self.place + self.size]


def sections_of(data):
    """The sections of an ELF file of 64 bits, or none."""
    place, count = struct.unpack_from("<Q", data, SECTIONS_AT[0])[0], struct.unpack_from("<H", data, SECTIONS_AT[1])[0]
    for k in range(count if place else 0):
        _, kind, flags, _, at, size, link = struct.unpack_from("<IIQQQQI", data, place + k * SECTION_HEADER)
        yield Section(kind, flags, at, size, link)


def named(strings, place):
    return strings[place : strings.index(0, place)].decode(errors="replace")


def functions_in(data):
    """The functions of a file: address, size, and name, of which the last one at an address is the one to show."""
    sections = list(sections_of(data))
    for table in sections:
        if table.kind != SYMBOLS:
            continue
        symbols, strings = table.of(data), sections[table.link].of(data)
        for at in range(0, len(symbols) - SYMBOL + 1, SYMBOL):
            name, info, _, section, address, size = struct.unpack_from("<IBBHQQ", symbols, at)
            kind, is_global = info & 15, bool(info >> 4)
            if kind not in (LABEL, FUNCTION) or not 0 < section < len(sections) or not sections[section].flags & EXECUTABLE:
                continue
            text = named(strings, name)
            if text and not text.startswith(("$", ".L")):
                yield address, kind == FUNCTION, is_global, text, size


def without_inner_labels(functions):
    """Those of sorted functions that are no labels within one that has a size."""
    end = 0
    for address, is_function, is_global, text, size in functions:
        if is_function or address >= end:
            yield address, is_function, is_global, text, size
        if is_function:
            end = max(end, address + size)


class Functions:
    """The functions of a program file."""

    def __init__(self, name):
        try:
            with open(name, "rb") as file:
                data = file.read()
        except OSError as fault:
            raise Refused(f"PROGRAM cannot be read: {fault}") from None
        if data[:6] != b"\x7fELF\x02\x01":
            raise Refused(f"{name} is not a program file: an ELF file of 64 bits is wanted")
        try:
            self.functions = list(without_inner_labels(sorted(functions_in(data))))
        except (struct.error, ValueError, IndexError) as fault:
            raise Refused(f"the symbols of {name} cannot be read: {fault}") from None
        self.starts = [address for address, *_ in self.functions]

    def __bool__(self):
        return bool(self.functions)

    def at(self, pc):
        """The function of an address, or the address if none is there."""
        k = bisect.bisect_right(self.starts, pc)
        if k:
            address, _, _, text, size = self.functions[k - 1]
            if not size or pc < address + size:
                return text
        return f"{pc:#x}"


def finder():
    """The program that finds lines."""
    for name in FINDERS:
        if shutil.which(name):
            return name
    raise Refused(f"{FINDERS[0]} is not installed")


def lines_at(name, addresses):
    """The line of each of these addresses, as `file.c:21`, or `?` if the file does not say."""
    asked = "".join(f"{address:#x}\n" for address in addresses)
    done = subprocess.run([finder(), "-s", "-e", name], input=asked, capture_output=True, text=True, errors="replace")
    told = done.stdout.splitlines()
    if done.returncode or len(told) != len(addresses):
        raise Refused(f"{finder()} failed: {done.stderr.strip() or 'it did not answer for each address'}")
    lines = (re.sub(r" \(discriminator [0-9]+\)$", "", line) for line in told)
    return ["?" if re.search(r"^\?\?:|:(\?|0)$", line) else line for line in lines]
