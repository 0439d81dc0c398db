"""Calls of the program, which an interrupt ends together."""

import subprocess
import tempfile
import threading
from concurrent.futures import ThreadPoolExecutor, as_completed
from dataclasses import dataclass
from typing import Optional

from lib import report


@dataclass
class Answer:
    """What a call printed on standard output, the lines of its report, and its status; None if it was ended before its end."""

    printed: bytes
    lines: list
    status: Optional[int]

    @property
    def end(self):
        """The line of the end with the digest behind it; of a run that has not ended its last line."""
        return self.lines[-2:] if len(self.lines) >= 2 and is_end(self.lines[-2]) else self.lines[-1:]

    @property
    def has_ended(self):
        """Whether the program came to its end."""
        return self.status in (0, 1) and bool(self.end) and is_end(self.end[0])

    def said(self):
        """What the report says last, in a line."""
        return "; ".join(self.end) or "nothing reported"


def is_end(line):
    """Whether a line says that the run has ended."""
    return isinstance(report.event_of(line), report.Ended)


class Calls:
    """Calls of the program. After an interrupt there are none any more."""

    def __init__(self):
        self.lock = threading.Lock()
        self.open = set()
        self.over = False

    def begin(self, command, terminal):
        """Begins a call; None after the interrupt."""
        with self.lock:
            if self.over:
                return None
            # In a session of its own, an interrupt at the terminal does not reach it, and cannot look like an end.
            call = subprocess.Popen(
                command,
                stdin=subprocess.DEVNULL,
                stdout=terminal,
                stderr=subprocess.PIPE,
                start_new_session=True,
            )
            self.open.add(call)
        return call

    def run(self, command, is_enough=None):
        """What a command answers; None after the interrupt. It is ended as soon as a line of its report is enough."""
        with tempfile.TemporaryFile() as terminal:
            call = self.begin(command, terminal)
            if call is None:
                return None
            lines, enough = [], False
            try:
                for line in call.stderr:
                    lines.append(line.decode("utf-8", "replace").rstrip("\n"))
                    enough = is_enough is not None and is_enough(lines[-1])
                    if enough:
                        break
                else:
                    call.wait()
            finally:
                # If it was enough, or at an interrupt, it still runs.
                call.kill()
                call.wait()
                call.stderr.close()
                with self.lock:
                    self.open.discard(call)
            if self.over:
                return None
            terminal.seek(0)
            return Answer(terminal.read(), lines, None if enough else call.returncode)

    def stop(self):
        """Ends all calls that are under way, and lets none begin."""
        with self.lock:
            self.over = True
            for call in self.open:
                call.kill()


def each(calls, jobs, work, items):
    """What some work makes of each item, so many at a time, in the order in which they are done. At the end, which may be an
    interrupt, these calls are over."""
    pool = ThreadPoolExecutor(jobs)
    try:
        for done in as_completed([pool.submit(work, *item) for item in items]):
            yield done.result()
    finally:
        calls.stop()
        pool.shutdown()
