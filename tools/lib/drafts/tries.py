"""Runs of the programs of a copy by `rt try`, which proves nothing: it compiles a program with checks at run time, once for all
its runs. It keeps no file, so the programs print what they put under OUT (copies.SHOWN)."""

import os
import re
import shutil
import subprocess
import tempfile
from dataclasses import dataclass
from typing import Optional

from lib.options import Refused
from lib.processes import end

# The OUT of each call, and the line behind which the text that is put there is printed.
OUT, MARK = "observed", b"\nobserved\n"

# How rt names a run and how it ended, behind what the run wrote on standard error.
CASE = re.compile(rb"^case=(run-\d+) (run=.*)\n", re.M)
ENDED = re.compile(r"run=ended status=(\d+) ")

# The interpreter, by which rt tries a program too, cannot run one that reads arguments.
STEPS = "1"


@dataclass
class Tried:
    """What a call came to."""

    how: str  # how rt says that it ended
    printed: bytes
    text: Optional[bytes]  # what was put under OUT; None if nothing was
    report: bytes

    @property
    def status(self):
        """The program's own exit status; None if the run did not end by itself."""
        ended = ENDED.match(self.how)
        return int(ended[1]) if ended else None

    @property
    def last(self):
        """The last line of the report. If the run did not end by itself, rt says there why."""
        lines = self.report.decode("utf-8", "replace").splitlines()
        return lines[-1] if lines else self.how


def check_kit():
    """Refuses if rt is not there."""
    if shutil.which("rt") is None:
        raise Refused("rt, the command of the Rattle kit, is not in PATH")


def write_cases(folder, calls):
    """A file for each call, and one with its words, a line for each."""
    for name, words in calls.items():
        if any("\n" in word for word in words):
            raise Refused(f"a word of a call has a line feed: {' '.join(words)}")
        open(os.path.join(folder, name), "w", encoding="utf-8").close()
        with open(os.path.join(folder, f"{name}.args"), "w", encoding="utf-8") as file:
            file.writelines(f"{word}\n" for word in (OUT, *words))


def outputs_of(call, folder):
    """What a call of rt prints on both outputs. If this script is ended, so is all that rt has started."""
    how = {"stdin": subprocess.DEVNULL, "stdout": subprocess.PIPE, "stderr": subprocess.PIPE, "start_new_session": True}
    process = subprocess.Popen(call, cwd=folder, **how)
    try:
        return process.communicate()
    finally:
        if process.poll() is None:
            end(process)


def answers_of(out, err):
    """What each call came to, by the outputs of rt and the name of its case."""
    parts = CASE.split(err)
    reports = {name.decode(): (report, how.decode()) for report, name, how in zip(parts[::3], parts[1::3], parts[2::3])}
    heads = re.compile(rb"^== (" + "|".join(reports).encode() + rb")\n", re.M)
    parts = heads.split(out) if reports else []
    printed = {name.decode(): text for name, text in zip(parts[1::2], parts[2::2])}
    found = {}
    for name, (report, how) in reports.items():
        before, mark, text = printed.get(name, b"").rpartition(MARK)
        found[name] = Tried(how, before if mark else text, text if mark else None, report)
    return found


def fault_in(err, folder):
    """What rt says on standard error of a copy that it refuses: the first error, by the file's path in the copy, or else the end."""
    text = err.decode("utf-8", "replace").replace(f"{folder}/", "").strip()
    return next((line for line in text.splitlines() if "error" in line), text[-500:] or "it says nothing")


def tried(folder, program, calls, seconds):
    """What each call of a program of a copy comes to, in their order. A call has the words after OUT, with whole paths of files:
    the program runs in a folder of its own, each time for so many seconds at most."""
    calls = {f"run-{k:04}": words for k, words in enumerate(calls)}
    with tempfile.TemporaryDirectory(prefix="draft-") as cases:
        write_cases(cases, calls)
        call = ["rt", "try", "--steps", STEPS, "--seconds", str(seconds), "--cases", cases]
        out, err = outputs_of(call, os.path.join(folder, "crates", program))
    found = answers_of(out, err)
    if list(found) != list(calls):
        raise Refused(f"rt try has made {len(found)} of {len(calls)} runs: {fault_in(err, folder)}")
    return list(found.values())
