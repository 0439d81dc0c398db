"""All cases of a seed, on all processors; and every cut of a program, by tools/cuts."""

import os
import shlex
import signal
import subprocess
import sys
import tempfile
import time
from collections import Counter
from concurrent.futures import ProcessPoolExecutor

from lib import calls, repository
from lib.calls import Wrong
from lib.drawing import Draw
from lib.program import SCHEMES
from lib.random_runs.cases import Case
from lib.random_runs.drawn import DEFAULTS
from lib.random_runs.reports import Caller


def one_case(options, folder, number):
    """The sums of a case, and what is wrong."""
    calls.empty(folder)
    caller = Caller(options.program, folder, options.seconds, options.observer)
    fault = ""
    try:
        Case(Draw(f"{options.seed} {number}"), caller, options).run()
    except Wrong as wrong:
        words, status = caller.calls[-1] if caller.calls else ([], None)
        fault = f"case {number}: {wrong} (thynvm {shlex.join(words)}: status {status}) {repeating(options, number)}"
        if options.keep:
            place = os.path.join(options.keep, f"{options.seed}-{number}")
            commands = [shlex.join(caller.command(words)) for words, _ in caller.calls]
            fault += f"; kept in {calls.kept(place, folder, fault, commands)}"
    if options.case is not None:
        for words, status in caller.calls:
            print(f"thynvm {shlex.join(words)}: status {status}")
    caller.sums["calls"] = len(caller.calls)
    return caller.sums, fault


def repeating(options, number):
    """The call of this script that makes a case again."""
    words = ["tools/random", "--seed", str(options.seed), "--case", str(number)]
    words += ["--torn"] if options.observer else []
    words += ["--harts", str(options.harts)] if options.harts else []
    return shlex.join(words + (["--scheme", options.scheme] if options.scheme else []))


def some_cases(task):
    """The sums of some cases, and what is wrong."""
    options, root, numbers = task
    folder = calls.own_folder(root)
    sums, faults, before = Counter(), [], time.process_time()
    for number in numbers:
        more, fault = one_case(options, folder, number)
        sums.update(more)
        faults += [fault] if fault else []
    sums.update(cases=len(numbers), microseconds=int(1e6 * (time.process_time() - before)))
    return sums, faults


# How many cases a process makes before it says what came of them.
AT_ONCE = 16


def summary(options, sums, wrong, seconds):
    """What the runs came to, in a line."""
    runs = sums["cases"]
    each = sums["microseconds"] / 1000 / max(runs, 1)
    return (
        f"seed {options.seed}: {runs} runs, {wrong} wrong; {', '.join(f'{name} {sums[name]}' for name in SCHEMES)}; "
        f"one hart {sums['one hart']}, two {sums['two harts']} ({sums['starved']} of them starved); with gap {sums['gap']}; "
        f"{sums['ended']} epochs, {sums['early']} of them exhausted; with cuts {sums['cuts']} ({sums['fell']} fell; "
        f"{sums['restarts']} restarts, {sums['doubtful']} of a checkpoint that was not reported); "
        f"with saves {sums['saves']} (in {sums['pieces']} pieces, {sums['empty']} images empty); "
        f"{sums['comparisons']} comparisons; {sums['refused']} calls refused by rule of {sums['calls']}; "
        f"{seconds:.1f} s, {each:.1f} ms of a processor each"
    )


def random_runs(options):
    """Makes the cases. The exit status."""
    numbers = range(options.runs) if options.case is None else [options.case]
    sums, wrong, began, shown, status = Counter(), 0, time.monotonic(), sys.stderr.isatty(), 0
    # An interrupt is not the workers'.
    limits = options.memory, signal.SIG_IGN
    with tempfile.TemporaryDirectory(prefix="random-", dir=calls.SHARED_MEMORY) as root:
        tasks = [(options, root, numbers[at : at + AT_ONCE]) for at in range(0, len(numbers), AT_ONCE)]
        with ProcessPoolExecutor(options.jobs, initializer=calls.begin_worker, initargs=limits) as pool:
            under_way = [pool.submit(some_cases, task) for task in tasks]
            try:
                for done in under_way:
                    more, faults = done.result()
                    sums.update(more)
                    wrong += len(faults)
                    for fault in faults:
                        print(fault, flush=True)
                    if shown:
                        print(f"\r{sums['cases']} of {len(numbers)} runs, {wrong} wrong", end="", file=sys.stderr, flush=True)
            except KeyboardInterrupt:
                status = 130
                for one in under_way:
                    one.cancel()
    if shown:
        print(file=sys.stderr)
    print(summary(options, sums, wrong, time.monotonic() - began), flush=True)
    return status or (1 if wrong else 0)


# Every cut of a program.


def ends_within(program, file, words, limit):
    """Whether a run ends within so many cycles."""
    call = [program, "run", file, *words, "--limit", str(limit)]
    done = subprocess.run(call, stdin=subprocess.DEVNULL, stdout=subprocess.DEVNULL, stderr=subprocess.PIPE, text=True)
    if done.returncode not in (0, 1, 8):
        raise Wrong(f"{shlex.join(call)}: status {done.returncode}, {done.stderr.splitlines()[-1:]}")
    return done.returncode != 8


def cycles_to_the_end(program, file, words):
    """How many cycles a run has, found by its limits."""
    most = 1024
    while not ends_within(program, file, words, most):
        if most > DEFAULTS["limit"]:
            raise Wrong(f"{file} does not end within {most} cycles")
        most *= 2
    least = most // 2
    while least < most:
        middle = (least + most) // 2
        least, most = (least, middle) if ends_within(program, file, words, middle) else (middle + 1, most)
    return most


def every_cut(options, words):
    """Has tools/cuts cut power at each cycle, with each scheme. The exit status."""
    status = 0
    for scheme in SCHEMES if options.scheme is None else (options.scheme,):
        more = [*words, "--scheme", scheme]
        last = cycles_to_the_end(options.program, options.cuts, more)
        print(f"{scheme}: a cut after each of {last} cycles but the last", flush=True)
        call = [repository.path("tools/cuts"), options.cuts, "--from", "1", "--to", str(last - 1), *more]
        call += ["--torn", "--observe", options.observer] if options.observer else []
        done = subprocess.run([*call, "--thynvm", options.program, "--jobs", str(options.jobs)])
        status = max(status, done.returncode)
    return status
