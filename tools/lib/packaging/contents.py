"""What is in a package: a tree of files, from a repository in which the programs are built."""

import ast
import os
import re
import subprocess
import sys
import time
from dataclasses import dataclass

from lib import repository
from lib.lint.sources import below_of
from lib.options import Refused
from lib.packaging import completions, manual

# The scripts that a package does not have: they are for work on the repository, or need the kit.
FOR_DEVELOPERS = (
    *("cycle-cost", "draft", "evaluation", "examples", "first-run", "forgetful", "hostile", "instructions", "kills", "lint"),
    *("package", "progress", "quick-rt", "random", "readers", "test", "tutorial", "unproved", "version-one"),
)

# Of tools/lib what only these need.
THEIR_MODULES = ("evaluations", "forgetful", "hostile_calls", "lint", "packaging", "random_runs")

PROGRAMS = ("thynvm", "observe", "sweep")

# What stands in the package as it does in the repository, beside scripts: files, and folders with all that they have.
FILES = ("thynvm", "README.md", "CHANGELOG.md", "CONTRIBUTING.md")
FOLDERS = ("docs", "examples")

# Where in a package the manual pages and the completions are.
MANUAL, BASH, ZSH = "man/man1", "completion/thynvm.bash", "completion/_thynvm"

SUMMARY = "simulates a RISC-V computer that survives power cuts without help from its programs"

# Of the processors for which the kit links their number in an ELF file, the name by uname, and that by Debian.
PROCESSORS = {62: ("x86_64", "amd64"), 183: ("aarch64", "arm64")}


@dataclass(frozen=True)
class File:
    """A file of a package, or, if `link` is not empty, a symbolic link to that."""

    content: bytes = b""
    is_executable: bool = False
    link: str = ""


@dataclass(frozen=True)
class State:
    """Which state of the repository a package is of, and what it needs."""

    said: str  # what `./thynvm --version` says
    date: str  # that of the changelog, as 2026-11-30
    seconds: int  # when the commit was made
    author: str  # who made it
    processor: str
    debian: str
    glibc: str

    @property
    def version(self):
        return self.date.replace("-", ".")

    @property
    def needs(self):
        return f"Linux on {self.processor} with glibc {self.glibc} or later"


def output_of(*command, **more):
    """What a command prints, if it succeeds."""
    done = subprocess.run(command, cwd=repository.TOP, stdin=subprocess.DEVNULL, capture_output=True, text=True, **more)
    if done.returncode != 0:
        raise Refused(f"{os.path.basename(command[0])} {command[1]} has failed: {done.stderr or done.returncode}")
    return done.stdout


def date_of(text):
    """A date in words, as numbers."""
    try:
        return time.strftime("%Y-%m-%d", time.strptime(text, "%d %B %Y"))
    except ValueError:
        raise Refused(f"CHANGELOG.md begins with a date that cannot be read: {text}") from None


def glibc_of(programs):
    """The least glibc that has all symbols of some programs, by the names of versions in them."""
    found = {tuple(map(int, number)) for program in programs for number in re.findall(rb"\0GLIBC_(\d+)\.(\d+)", program)}
    if not found:
        raise Refused("the programs name no version of glibc")
    return ".".join(map(str, max(found)))


def processor_of(programs):
    """The processor of some programs, by both its names."""
    numbers = {int.from_bytes(program[18:20], "little") if program[:4] == b"\x7fELF" else 0 for program in programs}
    if len(numbers) != 1 or not numbers <= set(PROCESSORS):
        raise Refused("the programs are not all for one processor that is known here")
    return PROCESSORS[numbers.pop()]


def state_of(programs):
    """The state of the repository, as the script says it, whole."""
    said = output_of(repository.SCRIPT, "--version")
    date = re.search(r"^thynvm of (.*)$", said, re.M)
    for name, found in (
        ("a date in CHANGELOG.md", date),
        ("a commit of git", re.search("^commit ", said, re.M)),
        ("the kit, which rt names, and rt is not in PATH or fails", re.search("^kit ", said, re.M)),
    ):
        if not found:
            raise Refused(f"a package says which state it is of, and this is missing: {name}")
    author, seconds = output_of("git", "log", "-1", "--format=%an <%ae>%n%ct").splitlines()
    processor, debian = processor_of(programs)
    return State(said, date_of(date[1]), int(seconds), author, processor, debian, glibc_of(programs))


def newest_in(crate):
    """When a file that a crate is made from was last changed; 0 if there is none."""
    times = [0]
    for part in ("src", "specs", "proofs"):
        for folder, _, names in os.walk(repository.path("crates", crate, part)):
            times += [os.stat(os.path.join(folder, name)).st_mtime for name in names]
    return max(times)


def check_program(name):
    """Refuses a program that is missing, or older than what it is made from. That is what ./thynvm builds anew: it notes what
    crates.txt said when it began to build, and goes by that time."""
    path, kept = repository.program(name), {}
    noted = f"{path}.built"
    if not repository.is_built(path):
        raise Refused(f"there is no program {path}: `rt ci` builds it")
    since = os.stat(path).st_mtime
    if os.path.exists(noted):
        since, kept = os.stat(noted).st_mtime, below_of(repository.text_of(noted))
    below, crates = below_of(repository.text_of("crates.txt")), [name]
    for crate in crates:
        crates += [other for other in below.get(crate, ()) if other in below and other not in crates]
    older = [f"its crate {crate}" for crate in crates if newest_in(crate) > since]
    if os.stat(repository.path("crates.txt")).st_mtime > since and kept != {crate: below.get(crate) for crate in crates}:
        older.append("crates.txt")
    if older:
        raise Refused(f"the program {path} is older than {older[0]}: `rt ci` builds it anew")


def bytes_of(path):
    with open(path, "rb") as file:
        return file.read()


def tools_among(files):
    """The scripts of a package, of the files of a repository."""
    names = [os.path.basename(path) for path in files if os.path.dirname(path) == "tools"]
    return sorted(name for name in names if name not in FOR_DEVELOPERS)


def is_wanted(path, tools):
    """Whether a file of the repository is in the package."""
    top, _, below = path.partition("/")
    if top == "tools":
        module, _, _ = below[len("lib/") :].partition("/")
        return below in tools or below.startswith("lib/") and module not in THEIR_MODULES
    return path in FILES or top in FOLDERS and below != ""


def help_of(name):
    """The help page of a script, always as wide."""
    return output_of(sys.executable, repository.path("tools", name), "--help", env={**os.environ, "COLUMNS": "100"})


def summary_of(name):
    """What a script does, by its first line, as manual pages have it."""
    text = ast.get_docstring(ast.parse(repository.text_of(f"tools/{name}"))).rstrip(".").replace("`", "")
    return text[0].lower() + text[1:]


def pages_of(tools, state):
    """The manual pages, by the names of their commands."""
    commands = {f"thynvm-{name}": name for name in tools}
    every = ["thynvm", *commands]
    others = lambda name: [other for other in every if other != name]
    done = {"thynvm": ("thynvm", SUMMARY, repository.help_page())}
    done.update({command: (name, summary_of(name), help_of(name)) for command, name in commands.items()})
    return {
        name: manual.page(own, name, summary, text, state.date, state.version, others(name))
        for name, (own, summary, text) in done.items()
    }


def tree():
    """The files of a package by their paths, and which state that is."""
    for name in PROGRAMS:
        check_program(name)
    programs = {name: bytes_of(repository.program(name)) for name in PROGRAMS}
    state, tracked = state_of(programs.values()), repository.tracked()
    tools = tools_among(tracked)
    files = {f"bin/{name}": File(content, True) for name, content in programs.items()}
    files["VERSION"] = File(f"{state.said}needs {state.needs}\n".encode())
    for path in tracked:
        if is_wanted(path, tools):
            whole = repository.path(path)
            files[path] = File(bytes_of(whole), os.access(whole, os.X_OK))
    for name, text in pages_of(tools, state).items():
        files[f"{MANUAL}/{name}.1"] = File(text.encode())
    files[BASH] = File(completions.bash().encode())
    files[ZSH] = File(completions.zsh(repository.help_page()).encode())
    return files, state
