"""How a script is called: its options, its help page, its refusals in a line, and how it ends."""

import argparse
import os
import sys

from lib import repository


class Refused(Exception):
    """Why a script goes no further, in words for the one who called. A `status` of its own stands in place of the script's."""


def in_a_line(text):
    """What is said in several lines, as one."""
    return " ".join(line.strip() for line in str(text).splitlines() if line.strip())


class Parser(argparse.ArgumentParser):
    """The options of a script. What has no place among them is refused in a line on standard error, with the status 2."""

    def __init__(self, prog, about, **more):
        super().__init__(prog=prog, description=about, formatter_class=argparse.RawDescriptionHelpFormatter, **more)

    def error(self, message):
        self.exit(2, f"{self.prog}: {in_a_line(message)}\n")

    def add_program(self, name="--program", default=repository.PROGRAM, **more):
        """The option that names a program to call, in place of the one that is built in the repository."""
        self.add_argument(name, default=default, **{"help": "the program to call", **more})

    def add_torn(self):
        """The option that lets cuts tear blocks, and the one that names what is called then."""
        self.add_argument("--torn", action="store_true", help="cuts tear blocks between their words")
        self.add_argument("--observe", default=repository.OBSERVER, metavar="PATH", help="the program observe, for --torn")

    def observer_of(self, given):
        """The program to call for runs whose blocks are torn, or None if none are to be."""
        if not given.torn:
            return None
        self.check_program(given.observe)
        return os.path.abspath(given.observe)

    def check_program(self, program):
        """Refuses a call for which there is no program."""
        if not repository.is_built(program):
            self.error(f"there is no program {program}{'' if repository.is_package() else ': a call of ./thynvm builds it'}")


def positive(text):
    """A number above 0."""
    value = int(text)
    if value <= 0:
        raise ValueError
    return value


def seconds(text):
    """A time above 0."""
    value = float(text)
    if not 0 < value < float("inf"):
        raise ValueError
    return value


def refuse(prog, fault, status=2):
    """Says in a line why a script goes no further; its status."""
    print(f"{prog}: {in_a_line(fault)}", file=sys.stderr)
    return status


def finish(prog, work, refused, lists=False):
    """Does the work of a script; its status. If the work is refused, or a file cannot be read or written, that is said in a
    line, and the status is `refused`. One that lists may be left by its reader, as `head` leaves it, which is no fault."""
    try:
        status = work()
        if lists:
            # What is still to be written may find that the reader has left, too.
            sys.stdout.flush()
        return status
    except (Refused, OSError) as fault:
        if lists and isinstance(fault, BrokenPipeError):
            # Nothing more is to be written at the end either.
            os.dup2(os.open(os.devnull, os.O_WRONLY), 1)
            return 0
        return refuse(prog, fault, getattr(fault, "status", refused))


def lines_of(name, what):
    """The lines of a file, or of standard input if the name is `-`. What cannot be read is refused, as what it is."""
    try:
        if name == "-":
            return sys.stdin.read().splitlines()
        with open(name, encoding="utf-8") as file:
            return file.read().splitlines()
    except (OSError, UnicodeDecodeError) as fault:
        raise Refused(f"{what} cannot be read: {fault}") from None


def write_lines(name, lines):
    """Puts lines into a file."""
    text = "".join(f"{line}\n" for line in lines)
    with open(name, "w", encoding="utf-8") as file:
        file.write(text)
