"""A program that runs: what it writes is passed on, and its report is read."""

import os
import re
import select
import signal
import socket
import subprocess
import threading
import time

from lib.following.told import CLOSING, EVENT, RUN, Told
from lib.processes import send, text_of
from lib.showing import Line

# After how many seconds it is shown how far the run is, and how often.
PATIENCE, PACE = 2, 0.5

# The most that one message has. A console has at most 65536 bytes, which may be written at once.
LARGEST, ROOM = 1 << 20, 1 << 17

SIGNALS = (signal.SIGHUP, signal.SIGINT, signal.SIGQUIT, signal.SIGTERM)

# The status of a run whose output failed.
OUTPUT_FAILED = 6


class Inbox:
    """Where messages arrive in the order in which they were sent, and with the sender of each. What is written to a sender is a
    message for each write. Of two pipes nobody could tell the order."""

    def __init__(self):
        self.place = b"\0thynvm." + os.urandom(8).hex().encode()
        self.socket = socket.socket(socket.AF_UNIX, socket.SOCK_DGRAM)
        self.socket.bind(self.place)
        self.room = memoryview(bytearray(LARGEST))

    def sender(self, name):
        made = socket.socket(socket.AF_UNIX, socket.SOCK_DGRAM)
        made.setsockopt(socket.SOL_SOCKET, socket.SO_SNDBUF, ROOM)
        made.bind(self.place + name)
        made.connect(self.place)
        return made

    def waits(self, seconds):
        """Whether a message has come, within some seconds."""
        return bool(select.select([self.socket], [], [], seconds)[0])

    def take(self):
        """A message, and its sender's name."""
        size, source = self.socket.recvfrom_into(self.room)
        return bytes(self.room[:size]), source[len(self.place) :]


class Screen:
    """What is written to, and the line below it that says how far the run is, as `how_far` says of what was told. `waits_for_keys`
    if something may be typed, so that there is no line before the report's first."""

    def __init__(self, waits_for_keys, how_far):
        self.line, self.at_start, self.when = Line(), True, 0
        self.how_far = how_far
        self.waits_for_keys, self.began = waits_for_keys, time.monotonic()

    @property
    def seconds(self):
        return time.monotonic() - self.began

    def put(self, stream, data):
        self.line.wipe()
        self.at_start = data.endswith(b"\n")
        while data:
            data = data[os.write(stream, data) :]

    def draw(self, told):
        """Shows the line, if the cursor is at the start of one, the run goes on, and the script has the terminal."""
        seconds = self.seconds
        if seconds < PATIENCE or not self.at_start or told.has_ended or (self.waits_for_keys and not told.line):
            return
        if (self.line.is_drawn and seconds - self.when < PACE) or not has_terminal():
            return
        self.line.draw(self.how_far(told, seconds))
        self.when = seconds


def has_terminal():
    try:
        return os.tcgetpgrp(2) == os.getpgrp()
    except OSError:
        return True


class Run:
    """A program that is to run. If `quiet`, the events of its report are left out. If `shown`, it is shown how far it is, as
    `how_far` says. If `both`, its output comes here too, as it goes where the report goes. What is known at the end: the status or the signal by
    which it ended, the bytes of its report, and all that it has written."""

    def __init__(self, command, quiet, shown, both, waits_for_keys, how_far=Told.how_far):
        self.command, self.quiet, self.shown, self.both = command, quiet, shown, both
        self.told, self.screen = Told(), Screen(waits_for_keys, how_far)
        self.child, self.early = None, []
        self.status = self.signal = self.size = 0
        self.written, self.rest = None, b""

    def begin(self):
        """Starts the program; an OSError if that cannot be done here, and nothing runs then."""
        for number in SIGNALS:
            # One that was ignored, as by nohup, stays so, for the program too.
            if signal.getsignal(number) != signal.SIG_IGN:
                signal.signal(number, self.pass_on)
        self.inbox = Inbox()
        output, report, self.over = map(self.inbox.sender, (b"output", b"report", b"over"))
        self.child = subprocess.Popen(self.command, stdout=output if self.both else None, stderr=report)
        for number in self.early:
            send(os.kill, self.child.pid, number)

    def pass_on(self, number, _):
        """Passes a signal on. One from the keyboard goes to the program too: it ends at the first."""
        self.early.append(number)
        if self.child and self.child.returncode is None:
            send(os.kill, self.child.pid, number)

    def wait(self):
        """Waits for the program's end, and then sends that. Before its process is gone, it is asked how much it has written."""
        os.waitid(os.P_PID, self.child.pid, os.WEXITED | os.WNOWAIT)
        try:
            self.written = int(re.search(r"^wchar: (\d+)$", text_of(f"/proc/{self.child.pid}/io"), re.M)[1])
        except (OSError, TypeError):
            pass
        self.child.wait()
        try:
            self.over.send(b".")
        except OSError:
            pass

    def follow(self):
        """Passes on what the program writes, up to its end."""
        while True:
            if not self.inbox.waits(0):
                if self.shown:
                    self.screen.draw(self.told)
                self.inbox.waits(PACE if self.shown else None)
                continue
            data, sender = self.inbox.take()
            if sender == b"over":
                self.screen.line.wipe()
                return
            if sender == b"output":
                self.told.kind = EVENT
                self.screen.put(1, data)
            elif sender == b"report":
                self.take(data)

    def take(self, data):
        """Takes some bytes of the report."""
        self.size += len(data)
        *lines, self.rest = (self.rest + data).split(b"\n")
        # Only a closing line may come in pieces.
        self.told.kind = CLOSING
        for line in lines:
            self.told.take(line.decode("utf-8", "surrogateescape"))
            if self.quiet and self.told.kind != EVENT:
                self.screen.put(2, line + b"\n")
        if not self.quiet:
            self.screen.put(2, data)

    def go(self):
        """Follows the program, up to its end."""
        waiter, failed = threading.Thread(target=self.wait), ""
        waiter.start()
        try:
            self.follow()
        except OSError:
            # What is written to has failed, of which the program has not heard. So the run is ended where it would have ended by
            # itself; after its end only its status is to be mended.
            failed = self.told.kind
            self.inbox.socket.close()
            if failed in (EVENT, RUN):
                self.child.kill()
        waiter.join()
        self.status, self.signal = max(self.child.returncode, 0), max(-self.child.returncode, 0)
        if failed and failed != CLOSING:
            self.status, self.signal = OUTPUT_FAILED, 0
