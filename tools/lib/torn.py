"""Calls over an NVM whose blocks a cut may tear between their words: the program observe with `--torn`."""

import os

from lib.call import OBSERVED_RUNS, TORN


def observing(observer):
    """What stands before the command. The text that is put is not wanted."""
    return [observer, os.devnull, TORN]


def fits(words):
    """Whether a call may go over such an NVM: it goes over one, no line is to wander, and it does not name what the text is
    put under."""
    return bool(words) and words[0] in OBSERVED_RUNS and not any(it.startswith("--gap") or os.devnull in it for it in words)


def command(program, observer, words):
    """A call of the program; if there is an observer and the words fit, one of the observer."""
    return [*observing(observer), *words] if observer and fits(words) else [program, *words]
