"""A run of a study, made by a process of its own, and the row that it leaves."""

import base64
import json
import os
import shlex
import subprocess
import sys
import tempfile

from lib import causes, observed, report
from lib.drafts import copies, tries
from lib.options import Refused
from lib.repository import OBSERVER, PROGRAM

# The numbers of a row, from the totals that `observe` writes: the column, and where it is there.
TOTALS = {name or word: (word, name or "") for word, names in observed.TOTALS for name in names}

# The numbers by cause. Those that are estimated have a mark.
CAUSES = {f"cause:{name}{'~' if name in causes.ESTIMATED else ''}": name for name in causes.NAMES}

COLUMNS = ("status", "end", "instructions", *TOTALS, *CAUSES)

# What stands for a number that there is not.
NONE = "-"

# How many seconds a run of a draft may take. One that goes on for ever is better ended by --limit.
SECONDS = 3600


class Failed(Refused):
    """The jobs were not all made."""

    status = 1


def end_of(lines):
    """The line with which a run ended, or the last of its report."""
    ends = [line for line in lines if isinstance(report.event_of(line), report.Ended)]
    return (ends or lines or ["nothing reported"])[-1]


def told(done):
    """How a call ended, and what it printed."""
    return {"end": end_of(done.stderr.decode(errors="replace").splitlines()), "printed": done.stdout.decode(errors="replace")}


def observe(words):
    """Makes a run: its status, its end, what it printed, and what `observe` wrote of it."""
    with tempfile.TemporaryDirectory() as folder:
        out = os.path.join(folder, "out")
        done = subprocess.run([OBSERVER, out, *words], stdin=subprocess.DEVNULL, capture_output=True)
        text = ""
        if os.path.exists(out):
            with open(out, encoding="utf-8") as file:
                text = file.read()
    return {"status": done.returncode, **told(done), "out": text}


def plain(verb, what, *options):
    """How many instructions the plain machine executes to the program's end, or that it came to none; and what it printed."""
    with tempfile.TemporaryDirectory() as folder:
        file = what
        if verb == "make":
            file = os.path.join(folder, "made.elf")
            subprocess.run([PROGRAM, "make", what, file], stdin=subprocess.DEVNULL, capture_output=True)
        command = [PROGRAM, "plain", file, *options]
        done = subprocess.run(command, stdin=subprocess.DEVNULL, capture_output=True)
    ends = report.events(done.stderr.decode(errors="replace").splitlines(), report.Ended)
    return {"instructions": str(ends[0].count) if ends else NONE, **told(done)}


def word_of(job):
    """A job as one word of a command."""
    return base64.urlsafe_b64encode(json.dumps(job).encode()).decode()


def one(word):
    """Does a job, and prints what it came to as a line."""
    job = json.loads(base64.urlsafe_b64decode(word))
    found = observe(job["call"]) if "call" in job else plain(*job["plain"])
    print(json.dumps({"job": job["job"], **found}), flush=True)
    return 0


def answer_of(line):
    """What a job came to, by the line that it printed."""
    try:
        answer = json.loads(line)
        answer["job"]
    except (ValueError, TypeError, KeyError):
        raise Failed(f"parallel prints a line that is not of a run: {line.strip()}") from None
    return answer


def made(jobs, words, script):
    """What each of some jobs came to, as soon as it has ended. GNU parallel makes them."""
    command = ["parallel", "--will-cite", *words]
    lines = "".join(shlex.join([sys.executable, script, "--one", word_of(job)]) + "\n" for job in jobs)
    with tempfile.TemporaryFile("w+") as given:
        given.write(lines)
        given.seek(0)
        call = subprocess.Popen(command, stdin=given, stdout=subprocess.PIPE, text=True)
        try:
            for line in call.stdout:
                yield answer_of(line)
            status = call.wait()
        finally:
            # At the first signal parallel lets its jobs end, at the second it ends them.
            while call.poll() is None:
                call.terminate()
                try:
                    call.wait(0.5)
                except subprocess.TimeoutExpired:
                    continue
    if status != 0:
        raise Failed(f"parallel has ended with {status}")


def drafted(jobs, draft):
    """What each of some jobs came to without proof, with the crates as a draft changes them."""
    with tempfile.TemporaryDirectory(prefix="draft-") as folder:
        copies.copied(folder, copies.patches_of(draft))
        done = tries.tried(folder, "observe", [job["call"] for job in jobs], SECONDS)
    for job, one in zip(jobs, done):
        lines = one.report.decode(errors="replace").splitlines()
        status = NONE if one.status is None else one.status
        printed, out = (text.decode(errors="replace") for text in (one.printed, one.text or b""))
        yield {"job": job["job"], "status": status, "end": end_of(lines), "printed": printed, "out": out}


def differs(answer, plain, plan):
    """Whether a run has ended with another line than the plain machine, or printed something else. (`bench` prints nothing.)"""
    prints = plan.call[0] == "run" and answer["printed"] != plain["printed"]
    return answer["status"] in (0, 1) and (prints or answer["end"] != plain["end"])


def cells_of(answer, instructions, settings):
    """What the row of a run has after its key."""
    cells = {name: NONE for name in COLUMNS}
    cells.update(status=answer["status"], end=answer["end"], instructions=instructions)
    try:
        seen = observed.read(answer["out"].splitlines())
    except observed.Fault:
        return cells
    cells.update({column: seen.number(*place) for column, place in TOTALS.items()})
    try:
        found = causes.causes_of(seen, settings["scheme"], settings["pages"], settings["console"])
    except Refused:
        return cells
    cells.update({column: getattr(found, name) for column, name in CAUSES.items()})
    return cells
