"""Which runs a study has: each program with each configuration, each value of each list, and each scheme."""

import itertools
import os
import shlex
from dataclasses import dataclass, field

from lib import program
from lib.call import nearest
from lib.options import Refused

# Options of which a list of values makes no sense: they are lists already, or files that all runs would share.
NOT_SWEPT = (*program.LISTS, *program.NAMES, *program.FLAGS)


@dataclass
class Program:
    """A program file or the made program of a number, with the options that it needs in each call."""

    name: str
    words: list  # `run FILE`, or `bench N`
    options: list = field(default_factory=list)


@dataclass
class Planned:
    """A run: what its row begins with, and its call."""

    key: tuple
    call: list  # the words after OUT
    plain: tuple  # the words of `plain`, or of `make` if the program is a made one; none with two harts
    settings: dict  # pages, console and scheme


def whole_path(word):
    """The path of a file that other folders and machines find too; what is no file of its own, as /dev/null, stays."""
    return os.path.abspath(word)


def file_of(text):
    """A program file and its options, by a word of the call. NAME=FILE names it; else it is named by its file and options."""
    path, *more = shlex.split(text)
    name, equals, rest = path.partition("=")
    if equals:
        path = rest
    shown = name if equals else shlex.join([os.path.basename(path), *more])
    if not path or not shown:
        raise ValueError
    options = []
    for word in more:
        options.append(whole_path(word) if options[-1:] == ["--input"] else word)
    options = [f"--input={whole_path(word[8:])}" if word.startswith("--input=") else word for word in options]
    return Program(shown, ["run", whole_path(path)], options)


def made(number):
    return Program(f"made {number}", ["bench", str(number)])


def lists_of(words):
    """The options with lists of values, by the words that the script has not taken itself."""
    found, rest = {}, list(words)
    while rest:
        word = rest.pop(0)
        name, equals, value = word[2:].partition("=")
        if not word.startswith("--"):
            raise Refused(f"this is not an option: {word}")
        if name not in program.OPTIONS:
            raise Refused(f"there is no option --{name}{nearest(name, program.OPTIONS, '--')}")
        if name in NOT_SWEPT:
            raise Refused(f"--{name} has no list of values: it goes into a --program or a --configuration")
        if name in found:
            raise Refused(f"--{name} stands twice")
        if not equals:
            if not rest:
                raise Refused(f"--{name} needs a list of values")
            value = rest.pop(0)
        found[name] = value.split(",")
        if len(set(found[name])) < len(found[name]) or "" in found[name]:
            raise Refused(f"--{name} has an empty value or one twice: {value}")
        if name == "scheme" and not set(found[name]) <= set(program.SCHEMES):
            raise Refused(f"the schemes are {', '.join(program.SCHEMES)}: {value}")
    return found


def pairs_of(words):
    """The options of a configuration as pairs. (The program itself refuses what has no place among them, in its run.)"""
    pairs, rest = {}, list(words)
    while rest:
        name, equals, value = rest.pop(0).partition("=")
        flag = name[2:] in program.FLAGS
        pairs[name[2:]] = value if equals or flag or not rest else rest.pop(0)
    return pairs


def check_words(words):
    """Refuses options that a study gives itself, or cannot give."""
    for name in pairs_of(words):
        if name in ("save", "digest"):
            raise Refused(f"--{name} is refused: no run of a study is saved or has digests")


def columns_of(lists):
    """What the key of a row says: the program, its options, each option with a list, and the scheme."""
    return ("program", "options", *(name for name in lists if name != "scheme"), "scheme")


def planned(programs, configurations, lists):
    """All runs, in the order of the table."""
    schemes = lists.get("scheme", list(program.SCHEMES))
    lists = {**{name: values for name, values in lists.items() if name != "scheme"}, "scheme": schemes}
    for one, configuration in itertools.product(programs, configurations):
        words = one.options + configuration
        check_words(words)
        pairs = pairs_of(words)
        for name in lists:
            if name in pairs:
                raise Refused(f"--{name} has a list, and stands in the options of a program or a configuration too")
        for values in itertools.product(*lists.values()):
            swept = [word for name, value in zip(lists, values) for word in (f"--{name}", value)]
            key = (one.name, shlex.join(configuration), *values)
            every = {**pairs, **dict(zip(lists, values))}
            yield Planned(key, [*one.words, *words, *swept], plain_of(one, every), settings_of(every))


def plain_of(one, every):
    """The words by which the plain machine says how many instructions there are."""
    if every.get("harts", "1") != "1":
        return ()
    shared = [
        word for name in program.PLAIN if name in every and name not in program.FLAGS for word in (f"--{name}", every[name])
    ]
    verb, what = one.words
    return ("make" if verb == "bench" else "plain", what, *shared)


def settings_of(every):
    """What is to be known of a run to tell its causes; None for a number that is none."""
    number = lambda name: int(every[name]) if every.get(name, "").isdigit() else program.FIELDS[name].default
    return {"pages": number("pages"), "console": number("console"), "scheme": every["scheme"]}
