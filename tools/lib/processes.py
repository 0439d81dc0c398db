"""Processes and what they have started, as /proc shows them."""

import os
import signal
import time


def text_of(path):
    with open(path, encoding="utf-8", errors="replace") as file:
        return file.read()


def fields_of(pid):
    """What /proc says of a process after its name: its state, parent, group, session, and numbers."""
    return text_of(f"/proc/{pid}/stat").rpartition(")")[2].split()


def crate_of(pid):
    """The crate that a process works on, by its --crate-name; or None."""
    try:
        words = text_of(f"/proc/{pid}/cmdline").split("\0")
    except OSError:
        return None
    return words[words.index("--crate-name") + 1] if "--crate-name" in words[:-1] else None


def listed():
    """Of each process its parent and its session."""
    found = {}
    for name in os.listdir("/proc"):
        if name.isdigit():
            try:
                fields = fields_of(name)
                found[int(name)] = int(fields[1]), int(fields[3])
            except (OSError, IndexError):
                continue
    return found


def crates_of(session):
    """The crates that the processes of a session work on, in their order."""
    crates = {crate_of(pid) for pid, (_, its) in listed().items() if its == session}
    return sorted(crate for crate in crates if crate)


def family(first):
    """A process and those below it."""
    found, parents = [first], {pid: parent for pid, (parent, _) in listed().items()}
    for one in found:
        found += [pid for pid, parent in parents.items() if parent == one]
    return found


def is_alive(pid):
    """Whether a process is there, and has not ended."""
    try:
        return fields_of(pid)[0] not in "ZX"
    except (OSError, IndexError):
        return False


def end(process, seconds=5):
    """Ends a process that leads a group, with all that it has started. It may end its own at a TERM; what is left after some
    seconds is killed."""
    members, began = family(process.pid), time.monotonic()
    send(os.killpg, process.pid, signal.SIGTERM)
    while any(map(is_alive, members)) and time.monotonic() - began < seconds:
        time.sleep(0.1)
    for one in members:
        if is_alive(one):
            send(os.kill, one, signal.SIGKILL)
    process.wait()


def send(call, pid, number):
    """Sends a signal, unless nobody is there."""
    try:
        call(pid, number)
    except OSError:
        pass
