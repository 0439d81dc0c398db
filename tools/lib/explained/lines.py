"""The lines of help before a call and after it."""

import struct
import sys
from dataclasses import dataclass
from typing import Optional

from lib.explained import places, refused, runs

# The statuses of a run that exited, trapped or came to its limit; of a file that could not be fetched or put; of other refusals.
RUNS, FILES, REFUSALS = (0, 1, 8), 3, (2, 4, 5, 10)


@dataclass(frozen=True)
class Outcome:
    """What is known of a call when it is over."""

    status: int
    # The last line of the report.
    line: str = ""
    # How many cuts fell, and whether the program was loaded or a checkpoint restored.
    cuts: int = 0
    began: bool = False
    # How many bytes of the console were written, if that is known.
    console: Optional[int] = None


def after(call, outcome):
    """What is said when a call is over: some lines, or none."""
    if outcome.status in RUNS:
        return runs.help_after_run(call, outcome)
    if outcome.status == FILES:
        return [places.help_with_files(call)]
    return [refused.help_with_line(call, outcome.line)] if outcome.status in REFUSALS else []


def say(lines):
    """Prints some lines of help, without those that are empty."""
    for line in lines:
        if line:
            print(f"thynvm: {line}", file=sys.stderr, flush=True)


def say_before(call):
    """Says before a call what will go wrong."""
    said(lambda: [places.help_before(call)])


def say_after(call, outcome):
    """Says what helps after a call."""
    said(lambda: after(call, outcome))


def said(lines):
    """Says what some call returns; nothing if what it looks at is not as expected: no call depends on it."""
    try:
        say(lines())
    except (OSError, ValueError, LookupError, struct.error):
        pass
