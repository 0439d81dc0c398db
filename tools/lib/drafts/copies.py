"""Copies of the crates' code, changed by patches."""

import glob
import os
import shutil
import subprocess

from lib import repository
from lib.options import Refused

# What a program is made of, beside the code of the crates.
FILES = ("crates.txt", "HANDLES")

# What of a patch is applied. Definitions and proofs are not in the copy.
APPLIED = ("crates/*/src/*", "crates.txt")

# Has `observe` and `sweep` print what they put under OUT.
SHOWN = repository.path("tools", "lib", "drafts", "shown.patch")

# The draft that changes nothing.
NONE = "-"


def patches_of(draft):
    """The patches of a draft, a folder, in the order of their names."""
    if draft == NONE:
        return []
    found = sorted(glob.glob(os.path.join(glob.escape(draft), "*.patch")))
    if not found:
        raise Refused(f"there is no patch in the folder {draft}")
    return found


def copy_crates(folder):
    """Copies the code of the crates into a folder."""
    for source in glob.glob(repository.path("crates", "*", "src")):
        shutil.copytree(source, os.path.join(folder, os.path.relpath(source, repository.TOP)))
    for name in FILES:
        shutil.copy(repository.path(name), folder)


def apply(patch, folder):
    """Applies a patch in a folder, which is in no repository for git."""
    if shutil.which("git") is None:
        raise Refused("git, which applies patches, is not in PATH")
    call = ["git", "apply", *(f"--include={some}" for some in APPLIED), os.path.abspath(patch)]
    where = {**os.environ, "GIT_CEILING_DIRECTORIES": os.path.dirname(os.path.realpath(folder))}
    done = subprocess.run(call, cwd=folder, env=where, stdin=subprocess.DEVNULL, capture_output=True, text=True)
    if done.returncode != 0:
        raise Refused(f"{patch} does not fit the crates: {done.stderr or done.returncode}")


def copied(folder, patches):
    """A copy of the crates in a folder, changed by patches, whose programs print what they put under OUT."""
    if repository.is_package():
        raise Refused("a draft changes the crates of a clone, and this is a package")
    copy_crates(folder)
    for patch in (*patches, SHOWN):
        apply(patch, folder)
