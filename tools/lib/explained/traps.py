"""Where a program trapped, and what mends that."""

import os
import re
import shlex
import subprocess
import tempfile

from lib import decoded, repository
from lib.explained.files import FLAGS
from lib.options import Refused
from lib.repository import OBSERVER
from lib.symbols import Functions, lines_at

# The line of a trap that `observe` puts: pc, word, address, hart.
TRAP = re.compile(r"^trap ([0-9a-f]+)(?: ([0-9a-f]+))?(?: ([0-9a-f]+))?(?: hart ([01]))?$", re.MULTILINE)

# The commands of which FILE is the program, and for how many seconds a call is made again to hear where it trapped.
WITH_FILE, PATIENCE = ("run", "plain"), 10

# The opcodes of the extension A, and of F and D: loads and stores, four fused operations, all others.
ATOMIC, FLOATS = 0x2F, (0x07, 0x27, 0x43, 0x47, 0x4B, 0x4F, 0x53)


def trap_in(name):
    """The line of a trap in what `observe` has put; None if it has none, or is a terminal or a pipe, which has nothing to read again."""
    if not os.path.isfile(name):
        return None
    with open(name, encoding="ascii") as file:
        return TRAP.search(file.read())


def again(call):
    """The words of a call that makes the same run and saves nothing."""
    given = [f"--{name}={value}" if value else f"--{name}" for name, value in call.options.items() if name != "save"]
    return [call.command, *given, "--", *call.operands]


def observed_again(call):
    """The line of the trap of a call that was not observed, if it can be made again in a few seconds."""
    files = call.read()
    if not repository.is_built(OBSERVER) or call.written() in files or not all(map(os.path.isfile, files)):
        return None
    with tempfile.TemporaryDirectory(prefix="thynvm-trap-") as folder:
        out = os.path.join(folder, "out")
        quiet = {"stdin": subprocess.DEVNULL, "stdout": subprocess.DEVNULL, "stderr": subprocess.DEVNULL}
        try:
            subprocess.run([OBSERVER, out, *again(call)], timeout=PATIENCE, **quiet)
        except (OSError, subprocess.TimeoutExpired):
            return None
        return trap_in(out)


def line_of(program, pc):
    """The line of an address; nothing if the file or the tools do not say it."""
    try:
        return lines_at(program, [pc])[0].replace("?", "")
    except Refused:
        return ""


def place_of(program, pc):
    """The function and the line of an address, as far as the file and the tools say that."""
    try:
        function = Functions(program).at(pc)
    except Refused:
        return ""
    if function.startswith("0x"):
        return ""
    line = line_of(program, pc)
    return f" in {function}{line and f', {line}'}"


def help_with_place(call, trap):
    """Where it trapped, and at what."""
    pc, word = int(trap[1], 16), trap[2]
    said = f"hart {trap[4]} trapped at {trap[1]}" if trap[4] else f"the program trapped at {trap[1]}"
    said += place_of(call.operands[0], pc) if call.command in WITH_FILE else ""
    if word:
        said += f": {decoded.shown(int(word, 16), pc) or f'the word {word}'}"
    return f"{said}, address {trap[3]}" if trap[3] else said


def help_with_word(call, trap):
    """Which flag of the compiler helps, if the word is one of an extension that the machine lacks."""
    word = int(trap[2] or "0", 16)
    if word == 0:
        return ""
    where = f"the word {trap[2]} at {trap[1]} is an instruction of the extension"
    if word & 3 != 3:
        return f"{where} C: {FLAGS['NeedsCompressed']}"
    if word & 127 == ATOMIC and not trap[4]:
        return f"{where} A, which is there with --harts 2; for one hart compile the program, and all that is linked to it, with -march=rv64im"
    if word & 127 in FLOATS:
        return f"{where} F or D: compile the program, and all that is linked to it, with -march=rv64im -mabi=lp64"
    return ""


def help_with_trap(call):
    """Where a program trapped, and what mends that: some lines."""
    trap = observed_again(call) if call.out is None and call.command in WITH_FILE else call.out and trap_in(call.out)
    if trap:
        return [help_with_place(call, trap), help_with_word(call, trap)]
    if call.out is None and call.command in WITH_FILE:
        return [f"./thynvm observe OUT {shlex.join(again(call))} says in OUT where it trapped"]
    return []
