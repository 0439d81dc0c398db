"""What was wrong with a call that was refused, by the line in which that was said."""

import re

from lib import program, repository
from lib.call import ACCESSES, TORN
from lib.explained import files


def range_of(field):
    """The range of an option, from the table of the help page."""
    row = re.search(rf"^  --{field} .*\n(?: {{4}}.*\n)*", repository.help_page(), re.MULTILINE)
    return " ".join(part for line in row[0].splitlines() if (part := line[27:60].strip())) if row else ""


def help_with_accesses(call):
    """Why no accesses are listed of a run."""
    name = call.wishes[ACCESSES]
    if name in (call.out, *call.read(), call.written()):
        return f"TRACE is to be another name than {name}, which the call reads or writes itself"
    if call.numbers("cuts"):
        return "with --accesses no power may be cut: --cuts has to be left out"
    return "with --accesses no line may wander: --gap has to be 0" if call.number("gap") > 0 else ""


def help_with_usage(call):
    """Which word has no place."""
    fault = call.fault
    if not fault and call.out is not None:
        if call.command == "make":
            return "make has no run to observe"
        if call.command == "compare":
            return "compare has three runs: observe run, once with each --scheme"
        if TORN in call.wishes and call.number("gap") > 0:
            return "with --torn no line may wander: --gap has to be 0"
        if call.out in (*call.read(), call.written()):
            return f"OUT is to be another name than {call.out}, which the call reads or writes itself"
        if ACCESSES in call.wishes and (said := help_with_accesses(call)):
            return said
    return f"{fault}; ./thynvm --help says what there is" if fault else "./thynvm --help says what there is"


def help_with_word(field):
    """What an option takes that could not be read."""
    if field == "scheme":
        return f"--scheme takes {range_of(field)}"
    commas = ", with commas between them" if field in program.LISTS else ""
    name = "N" if field == "n" else f"--{field}"
    return f"{name} takes {'numbers of ' if commas else ''}1 to 19 decimal digits{commas}"


def help_with_bound(call, number):
    """What helps if cuts times pages are over the bound: the number of the line is in no word of the call."""
    cuts, pages, most = call.numbers("cuts"), call.number("pages"), program.FIELDS["pages"].high
    rises = all(low < high for low, high in zip([0, *cuts], cuts))
    times = len(cuts) + 1
    if not rises or times > 65 or number != times * pages:
        return ""
    bounds = f"so many cuts go with at most {most // times} pages, and so many pages with at most {most // pages - 1} cuts"
    return f"{number} is {pages} pages times {times}, one more than there are cuts, and may be at most {most}: {bounds}"


def help_with_value(call, field, number):
    """The range of an option whose value is outside of it."""
    if field == "trace-from":
        return "--trace-from has to be above 0: the first instruction that retires has the count 1"
    if field == "trace-to":
        return "--trace-to may not be below --trace-from, and has to be above 0"
    if field == "n":
        return f"N is 0 to {program.MOST_NUMBER}"
    bound = help_with_bound(call, int(number)) if field == "cuts" and not call.fault else ""
    return bound or f"the range of --{field}: {range_of(field)}"


def help_with_line(call, line):
    """What helps with a refusal."""
    kind, *rest = line.split(" ")
    first = rest[0] if rest else ""
    if kind == "usage":
        return help_with_usage(call)
    if kind == "word":
        return help_with_word(first)
    if kind == "value" and len(rest) > 1:
        return help_with_value(call, first, rest[1])
    if kind == "file" and len(rest) > 1:
        return files.help_with_program(call, rest[1], rest[2:])
    if kind == "image":
        return files.help_with_image(call, first, rest[2:])
    if kind == "input":
        return f"before its checkpoint the program had read {first} bytes: --input has to name the same file as before"
    return ""
