"""What the tests of ./thynvm share: a folder with the script and the least that it needs of the repository, a command in place of
rt, programs that are scripts, and calls in pipes and on a terminal."""

import fcntl
import os
import select
import shutil
import struct
import subprocess
import termios
import time

from lib import repository
from tests.support import CopyTest

ZEROS = "0" * 64

# The command in place of rt. It is called in the folder of the program's crate, and notes its calls. It fails, or builds
# `program`.
RT = r"""#!/usr/bin/env bash
echo "$*" >>"$FAKE/calls"
case $FAKE_MODE,$1 in
*,version) echo 'some-kit logic 1' ;;
build,help) printf 'rt all check --jobs N\nrt try --data NAME=FILE\n' ;;
build,all)
    for crate in one two; do
        echo "== $crate"
        sleep 0.7
    done
    ;;
build,run) cp "$FAKE/program" "out/${PWD##*/}" ;;
build,try)
    printf 'commit 0 overlapped 0\nepoch 1 ends at 3 by end\nexit 7 at 3\nrun=ended status=0 seconds=1\n' >&2
    echo terminal
    ;;
*) exit 1 ;;
esac
"""

# A program that prints on both outputs, without a pause.
QUICK = rf"""#!/usr/bin/env bash
for k in {{1..50}}; do
    echo "out $k"
    echo "epoch $k ends at $((k * 10)) by length" >&2
done
printf 'exit 3 at 500\nmemory {ZEROS}\n' >&2
"""

QUICK_OUTPUT = "".join(f"out {k}\n" for k in range(1, 51))

# One that takes three seconds and a half.
SLOW = r"""#!/usr/bin/env bash
echo 'commit 0 overlapped 0' >&2
for k in {1..7}; do
    sleep 0.5
    echo "epoch $k ends at $((k * 1000)) by length" >&2
    [ "$k" != 3 ] || echo 'from the program'
done
echo 'exit 0 at 7000' >&2
"""

# One that ends only by a signal, after a cut and a restart.
ENDLESS = r"""#!/usr/bin/env bash
printf '%s\n' 'commit 0 overlapped 0' 'epoch 1 ends at 1000 by length' 'cut 1 at cycle 20000' 'restart 1 at 1000' \
    'epoch 2 ends at 2000 by length' 'epoch 3 ends at 3000 by length' >&2
exec sleep 20
"""

# One whose report has an event of each kind, and digests.
EVENTS = rf"""#!/usr/bin/env bash
printf '%s\n' 'commit 0 overlapped 0' 'epoch 1 ends at 5 by exhausted 1 2 3' 'cut 1 at cycle 9' reload 'cut 2 at cycle 10' \
    'restart 1 at 5' 'memory {"a" * 64}' 'epoch 2 ends at 9 by end harts 4 5' 'commit 2 overlapped 0' \
    'trap 2 at 9' 'memory {"b" * 64}' >&2
echo out
exit 1
"""

# The options of a small machine.
SMALL = ["--pages", "8", "--btt", "8", "--ptt", "8"]


def report_of(program):
    """What a program that is a script writes to standard error."""
    return subprocess.run(["bash", "-c", program], stdout=subprocess.DEVNULL, stderr=subprocess.PIPE, text=True).stderr


def until(condition):
    """Waits for something, for at most half a minute."""
    end = time.monotonic() + 30
    while not condition() and time.monotonic() < end:
        time.sleep(0.05)


class ScriptTest(CopyTest):
    """A test of the script, in a folder that has it beside a copy of tools/. `rt` fails there, unless the mode is `build`."""

    mode = "fail"

    def setUp(self):
        super().setUp()
        for name in ("thynvm", "observe", "sweep"):
            self.file(f"crates/{name}/src/main.rt")
            os.makedirs(self.path(f"crates/{name}/out"))
        self.file("crates.txt", "one:\ntwo: one\nthynvm: two\nobserve: two\nsweep: two\n")
        for name in ("thynvm", "CHANGELOG.md"):
            shutil.copy(repository.path(name), self.path(name))
        self.script("bin/rt", RT)
        self.script("program", QUICK)

    def install(self, program, name="thynvm"):
        """Puts a program where the built one of this name stands: a file, or the text of a script."""
        place = self.path(f"crates/{name}/out/{name}")
        if program.startswith("#!"):
            self.script(place, program)
        else:
            shutil.copy(program, place)
        os.utime(place)

    def remove_tools(self):
        shutil.rmtree(self.tools)

    def text(self, name):
        """The text of a file; nothing if it is not there."""
        return self.read(name) if os.path.exists(self.path(name)) else ""

    def variables(self, **more):
        kept = {name: value for name, value in os.environ.items() if not name.startswith("THYNVM_")}
        path = f"{self.path('bin')}:{os.environ['PATH']}"
        return {**kept, "PATH": path, "FAKE": self.folder, "FAKE_MODE": self.mode, "TERM": "xterm", **more}

    def without_commands(self, *names):
        """A PATH that has rt, and all other commands but some."""
        folder = self.path("commands")
        os.makedirs(folder, exist_ok=True)
        for place in filter(os.path.isdir, os.environ["PATH"].split(":")):
            for name in os.listdir(place):
                if name not in names and not os.path.lexists(os.path.join(folder, name)):
                    os.symlink(os.path.join(place, name), os.path.join(folder, name))
        return f"{self.path('bin')}:{folder}"

    def command(self, *words):
        return [self.path("thynvm"), *words]

    def start(self, *words, **more):
        """Begins a call, with both outputs in pipes."""
        pipes = {"stdin": subprocess.DEVNULL, "stdout": subprocess.PIPE, "stderr": subprocess.PIPE}
        how = {"cwd": self.folder, "env": self.variables(**more), "text": True, "errors": "replace"}
        return subprocess.Popen(self.command(*words), **pipes, **how)

    def made(self, *words, **more):
        """Makes a call: its status, output and report."""
        call = self.start(*words, **more)
        output, report = call.communicate(timeout=60)
        return call.returncode, output, report

    def helped(self, *words):
        """Makes a call with lines of help: its status, the program's lines of the report, and the others."""
        status, _, report = self.made(*words, THYNVM_HELP="1")
        lines, mark = report.splitlines(), "thynvm: "
        own = [line[len(mark) :] for line in lines if line.startswith(mark)]
        return status, [line for line in lines if not line.startswith(mark)], own

    def begins(self, text, start):
        self.assertEqual(text[: len(start)], start)


class Terminal:
    """A call on a terminal of 100 columns. `output` is a file that takes its standard output in place of that."""

    def __init__(self, test, *words, output=None, **more):
        self.shown, self.times = b"", []
        self.own, other = os.openpty()
        fcntl.ioctl(other, termios.TIOCSWINSZ, struct.pack("HHHH", 24, 100, 0, 0))
        self.began = time.monotonic()
        self.call = subprocess.Popen(
            test.command(*words),
            cwd=test.folder,
            env=test.variables(**more),
            stdin=other,
            stdout=output or other,
            stderr=other,
            start_new_session=True,
            preexec_fn=lambda: fcntl.ioctl(2, termios.TIOCSCTTY, 0),
        )
        os.close(other)

    def read(self, until=None, seconds=30):
        """Reads what is shown, up to some bytes or to the end."""
        end = time.monotonic() + seconds
        while time.monotonic() < end and not (until and until in self.shown):
            if not select.select([self.own], [], [], 0.1)[0]:
                continue
            try:
                data = os.read(self.own, 65536)
            except OSError:
                break
            if not data:
                break
            self.shown += data
            self.times.append((time.monotonic() - self.began, data))
        return self.shown

    def press(self, key):
        os.write(self.own, key)

    def end(self):
        """Reads the rest: the status, and what was shown."""
        self.read()
        status = self.call.wait(30)
        os.close(self.own)
        return status, self.shown.replace(b"\r\n", b"\n").decode("utf-8", "replace")
