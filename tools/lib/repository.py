"""Where the repository is, and the programs that are built in it."""

import os
import subprocess

TOP = os.path.dirname(os.path.dirname(os.path.dirname(os.path.realpath(__file__))))


def path(*names):
    """The whole path of a file or folder of the repository."""
    return os.path.join(TOP, *names)


# The script that runs the program, and builds it before if need be.
SCRIPT = path("thynvm")

# What says of a package which state it is. The repository has no such file.
VERSION = path("VERSION")


def is_package():
    """Whether this is a package, as tools/package makes it, in which nothing is built."""
    return os.path.exists(VERSION)


def program(name):
    """Where the program of a crate is: a package has all in one folder, the repository each in its crate's."""
    return path("bin", name) if is_package() else path("crates", name, "out", name)


# What the script runs, once it has built it, and the same if its first word is `observe` or `sweep`.
PROGRAM = program("thynvm")
OBSERVER = program("observe")
SWEEPER = program("sweep")


def text_of(name):
    """The text of a file of the repository."""
    with open(path(name), encoding="utf-8") as file:
        return file.read()


def example(name, file=None):
    """The path of a file of an example; of its program, if no other is named."""
    return path("examples", name, f"{name}.elf" if file is None else file)


# A program of three instructions.
SMALLEST = example("exit_seven")


def is_built(program=PROGRAM):
    """Whether there is a program to call."""
    return os.access(program, os.X_OK)


def help_page():
    """The help page of the program, which the script has."""
    return subprocess.run([SCRIPT, "--help"], stdout=subprocess.PIPE, check=True, universal_newlines=True).stdout


def tracked():
    """The paths of the files that the repository keeps, as seen from its top."""
    listed = subprocess.run(["git", "ls-files"], cwd=TOP, capture_output=True, check=True, universal_newlines=True)
    return listed.stdout.splitlines()
