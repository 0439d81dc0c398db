"""Many calls of the program, made quickly: for the scripts that draw cases and judge the answers."""

import math
import os
import resource
import shutil
import signal
from functools import lru_cache

# A call that has not ended is given up after as many times its limit by the clock, whatever processor time it had.
MOST_WAITING = 50

# The environment of every call. (As a plain dictionary, since it is gone through at each.)
ENVIRONMENT = dict(os.environb)

# Signals that a script ignores, as Python does, and the program is not to; and how a call ends that takes too long.
IGNORED_BY_PYTHON = signal.SIGPIPE, signal.SIGXFSZ
OUT_OF_TIME = -signal.SIGXCPU, -signal.SIGKILL

# Where the files of cases lie, if it can be written: files there are in memory. Else they lie where temporary files do.
SHARED_MEMORY = next((place for place in ("/dev/shm",) if os.access(place, os.W_OK)), None)


@lru_cache(maxsize=None)
def streams():
    """What every call of this process has as its streams: an empty input, and two files in memory, emptied before it."""
    return os.open(os.devnull, os.O_RDONLY), os.memfd_create("printed"), os.memfd_create("report")


def content(stream):
    return os.pread(stream, os.fstat(stream).st_size, 0)


class Wrong(Exception):
    """What is wrong with an answer."""


def wants(holds, text, line=None):
    """Says what is wrong, and with which line of a report, unless something holds."""
    if not holds:
        raise Wrong(text if line is None else f"{text}: {line!r}")


class Late(Exception):
    """A call has not ended."""


def give_up(*_):
    raise Late


def status_of(state):
    """An exit status, or a signal as a negative number."""
    return -os.WTERMSIG(state) if os.WIFSIGNALED(state) else os.WEXITSTATUS(state)


def waited(process, seconds):
    """The status with which a process ends, and the processor time that it used. On a busy machine it may take longer by the
    clock than by its processor time."""
    signal.setitimer(signal.ITIMER_REAL, MOST_WAITING * seconds)
    try:
        _, state, used = os.wait4(process, 0)
    except Late:
        os.kill(process, signal.SIGKILL)
        _, state, used = os.wait4(process, 0)
    finally:
        signal.setitimer(signal.ITIMER_REAL, 0)
    return status_of(state), used.ru_utime + used.ru_stime


def call(command, folder, seconds, printed=None, report=None):
    """The status of a call in a folder, what it printed and reported, and its processor time. It may be given other outputs, of
    which nothing is read. (No shell, no pipe and no thread: a call takes little more than the program itself.)"""
    given = streams()
    for stream in given[1:]:
        os.ftruncate(stream, 0)
        os.lseek(stream, 0, os.SEEK_SET)
    ends = given[0], given[1] if printed is None else printed, given[2] if report is None else report
    actions = [(os.POSIX_SPAWN_DUP2, stream, k) for k, stream in enumerate(ends)]
    os.chdir(folder)
    process = os.posix_spawn(command[0], command, ENVIRONMENT, file_actions=actions, setsigdef=IGNORED_BY_PYTHON)
    # Its processor time ends a call by a signal. (One that has ended meanwhile still has a limit, until it is waited for.)
    most = math.ceil(seconds)
    resource.prlimit(process, resource.RLIMIT_CPU, (most, most + 1))
    status, used = waited(process, seconds)
    return status, content(given[1]), content(given[2]), used


def fault_of(status, seconds):
    """What is wrong with the status of a call that ended by a signal, or nothing."""
    if status in OUT_OF_TIME:
        return f"no answer within {seconds:g} seconds of processor time"
    return f"ended by signal {-status}" if status < 0 else ""


def begin_worker(memory, interrupt=signal.default_int_handler):
    """Limits the address space of this process, and so of all that it calls, to so many MiB; and readies it for a call that
    does not end, and for an interrupt."""
    resource.setrlimit(resource.RLIMIT_AS, (memory << 20, memory << 20))
    resource.setrlimit(resource.RLIMIT_CORE, (0, 0))
    signal.signal(signal.SIGALRM, give_up)
    signal.signal(signal.SIGINT, interrupt)


def own_folder(root):
    """The folder of this process for the files of a case."""
    folder = os.path.join(root, str(os.getpid()))
    os.makedirs(folder, exist_ok=True)
    return folder


def empty(folder):
    """Removes all that is in a folder."""
    for entry in os.scandir(folder):
        if entry.is_dir(follow_symlinks=False):
            shutil.rmtree(entry.path)
        else:
            os.unlink(entry.path)


def kept(place, folder, fault, commands):
    """Keeps the files of a case, with the commands that repeat it and what is wrong."""
    shutil.rmtree(place, ignore_errors=True)
    shutil.copytree(folder, place)
    lines = ["#!/bin/sh", f"# {fault}", 'cd "$(dirname "$0")" || exit']
    lines += [f'{command}; echo "status $?" >&2' for command in commands]
    script = os.path.join(place, "repeat")
    with open(script, "w", encoding="utf-8", errors="surrogateescape") as file:
        file.write("\n".join(lines) + "\n")
    os.chmod(script, 0o755)
    return place
