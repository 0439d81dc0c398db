"""The words of a call of ./thynvm, taken apart as the script and the program take them."""

import difflib

from lib import program
from lib.program import OPERANDS

# Words of the script alone.
QUIET, OBSERVE, BUILD = "--quiet", "observe", "build"

# The options of observe, between OUT and the command: what each does, and whether a number or a name follows it. The one with a
# name stands first. And the commands that they go with.
TORN, ACCESSES = "--torn", "--accesses"
WISHES = {
    ACCESSES: "lists the accesses to the NVM under a name",
    "--accesses-from": "leaves out those before a cycle",
    "--accesses-to": "leaves out those after a cycle",
    "--pcs": "says how often each program counter retired",
    "--state": "says the state after a cycle",
    "--state-at": "says the state at a count of instructions",
    "--trace": "says which instructions retired, and what each loaded or stored",
    "--trace-from": "leaves out those below a count of instructions",
    "--trace-to": "leaves out those above a count of instructions",
    "--causes": "says how many cycles there were of each cause",
    "--epochs": "says the same for each time that an epoch was executed",
    "--wear": "says how many writes each place of the NVM took",
    TORN: "lets a cut tear blocks",
}
BOUNDS = {"--trace-from": "--trace", "--trace-to": "--trace", "--accesses-from": ACCESSES, "--accesses-to": ACCESSES}
NUMBERED, OBSERVED_RUNS = ("--state", "--state-at", *BOUNDS), ("run", "resume", "bench")
FOLLOWED = (ACCESSES, *NUMBERED)

# The options of sweep, between OUT and the command, that have a value: what each does. `--torn` is one too.
SWEPT = {
    "--from": "says the first cycle after which images are tried",
    "--to": "says the last one",
    "--step": "leaves out all but every Nth cycle",
    "--tears": "says by which picks images are drawn",
    "--all": "tries every image, if a cut can leave at most so many",
    "--compare": "says what of a state is compared",
}

# What is missing if a call ends before its command, or before OUT.
COMMANDS = ", ".join(list(OPERANDS)[:-1]) + f" or {list(OPERANDS)[-1]}"
NO_OUT = "observe needs OUT, the name under which text is put, and then a call"


def nearest(word, words, dashes=""):
    """Which of some words is nearest to another, as the end of a sentence; nothing where none is near."""
    found = difflib.get_close_matches(word, words, n=1)
    return f"; the nearest is {dashes}{found[0]}" if found else ""


def after_sweep(words):
    """The words of a sweep after OUT and its options, and these with their values."""
    rest, given = list(words[1:]), {}
    while rest and rest[0] in (*SWEPT, TORN):
        option = rest.pop(0)
        given[option] = rest.pop(0) if rest and option in SWEPT else ""
    return rest, given


class Call:
    """The words of a call; `fault` is the first that has no place, in words. `out` is the OUT of observe, or None; `wishes` are the
    options of observe, each with its number, its name or None."""

    def __init__(self, words):
        self.operands, self.options, self.fault, self.out, self.wishes = [], {}, "", None, {}
        rest = list(words)
        is_quiet = rest[:1] == [QUIET]
        if is_quiet:
            rest.pop(0)
        if rest[:1] == [BUILD]:
            self.fault = f"{BUILD} is a command only as the first word" if is_quiet else f"{BUILD} takes no other word"
        elif rest[:1] == [OBSERVE]:
            after = self.take_wishes(rest[2:])
            # A command in the place of OUT, and none behind it, is the call's own.
            if not after or rest[1] in OPERANDS and after[0] not in OPERANDS:
                self.fault = NO_OUT
            else:
                self.out = rest[1]
            rest = after
        self.command = rest[0] if rest else ""
        self.known = program.options_of(self.command)
        self.fault = self.fault or self.command_fault(rest)
        self.take(rest[1:])

    def take_wishes(self, rest):
        """Takes the options of observe, each once; the words that are left."""
        while rest and rest[0] in WISHES and rest[0] not in self.wishes and not (rest[0] == ACCESSES and self.wishes):
            wish = rest.pop(0)
            if wish in FOLLOWED and not rest:
                self.fault = f"{wish} needs a {'number' if wish in NUMBERED else 'name'}"
                return [wish]
            self.wishes[wish] = rest.pop(0) if wish in FOLLOWED else None
        return rest

    def command_fault(self, rest):
        """What is wrong with the first word."""
        if not rest:
            return f"a command is missing: {COMMANDS}"
        if self.command in OPERANDS:
            bound = next((wish for wish in self.wishes if wish in BOUNDS and BOUNDS[wish] not in self.wishes), "")
            if bound:
                return f"{bound} goes with {BOUNDS[bound]}"
            goes = f"{next(iter(self.wishes), '')} goes with {', '.join(OBSERVED_RUNS[:-1])} or {OBSERVED_RUNS[-1]}"
            return goes if self.wishes and self.command == "plain" else ""
        if self.command in self.wishes:
            return f"{self.command} stands twice"
        if self.command == ACCESSES:
            return f"{ACCESSES} stands directly after OUT"
        if self.command.startswith("-"):
            return f"{self.command} stands before the command"
        if self.command in (OBSERVE, BUILD):
            return f"{self.command} is a command only as the first word"
        return f"there is no command {self.command}{nearest(self.command, OPERANDS)}"

    def take(self, rest):
        """Takes the words after the command, up to a fault."""
        wanted = OPERANDS.get(self.command, ())
        while rest and not self.fault:
            word = rest.pop(0)
            if word == "--":
                self.operands += rest
                break
            if word.startswith("--"):
                self.fault = self.option(word[2:], rest)
            elif word.startswith("-") and word != "-":
                self.fault = f"{word} is not an option: each has two dashes, as --pages"
            else:
                self.operands.append(word)
        if not self.fault and len(self.operands) > len(wanted):
            self.fault = f"'{self.operands[len(wanted)]}' is one word too many: {self.command} takes {' '.join(wanted)}"
        elif not self.fault and len(self.operands) < len(wanted):
            self.fault = f"{self.command} needs {' '.join(wanted[len(self.operands):])}"

    def option(self, word, rest):
        """Takes an option, and its value where that is a word of its own; or says what is wrong."""
        name, equals, value = word.partition("=")
        if name not in self.known:
            if name in program.OPTIONS:
                return f"{self.command} does not take --{name}"
            return f"there is no option --{name}{nearest(name, self.known, '--')}"
        if name in self.options:
            return f"--{name} stands twice"
        if name in program.FLAGS:
            self.options[name] = ""
            return f"--{name} takes no value" if equals else ""
        if not equals:
            if not rest:
                return f"--{name} needs a value"
            if rest[0].startswith("-") and rest[0] != "-":
                return f"--{name} needs a value; one that begins with a dash is given as --{name}={rest[0]}"
            value = rest.pop(0)
        self.options[name] = value
        return ""

    def number(self, name):
        """The number that an option has, given or by default."""
        return int(self.options.get(name, program.FIELDS[name].default))

    def numbers(self, name):
        """The numbers of a list; none if it is not given."""
        return [int(number) for number in self.options[name].split(",")] if name in self.options else []

    @property
    def scheme(self):
        return self.options.get("scheme", program.FIELDS["scheme"].default)

    def read(self):
        """The files that the call reads, in their order."""
        files = self.operands[:1] if self.command in ("run", "plain", "resume", "compare") else []
        return files + [self.options[name] for name in ["input"] if name in self.options]

    def written(self):
        """The file that the call writes, beside OUT; or None."""
        return self.operands[1] if self.command == "make" and len(self.operands) > 1 else self.options.get("save")
