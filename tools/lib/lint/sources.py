"""What all parts of the linter read."""

import re
import subprocess

from lib import repository
from lib.options import Refused


class Unreadable(Refused):
    """What cannot be found or read."""

    def __init__(self, what):
        super().__init__(f"cannot read {what}")


def text_of(path):
    """The text of a file of the repository."""
    try:
        return repository.text_of(path)
    except OSError as fault:
        raise Unreadable(f"{path}: {fault.strerror}") from None


def tracked():
    """The paths of the files that the repository keeps."""
    try:
        return repository.tracked()
    except FileNotFoundError:
        raise Unreadable("the list of files: git is not in PATH") from None
    except subprocess.CalledProcessError:
        raise Unreadable("the list of files: git ls-files has failed") from None


def below_of(text):
    """What crates.txt says: of each crate, lowest first, what it stands on."""
    return {crate: others.split() for crate, others in re.findall(r"^(\w+)[^:#\n]*:(.*)$", text, re.M)}


def without_start(text, start):
    """A text without what it begins with, if it does."""
    return text[len(start) :] if text.startswith(start) else text


def verdict(differ, holds):
    """Prints what differs, or what holds if nothing does. The status."""
    print("\n".join(differ) or holds)
    return 1 if differ else 0
