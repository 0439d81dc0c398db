"""All cases of a seed, on all processors; and calls whose memory is refused, page by page."""

import os
import resource
import shlex
import subprocess
import tempfile
from collections import Counter
from concurrent.futures import ProcessPoolExecutor

from lib import calls, torn
from lib.calls import MOST_WAITING, Wrong, wants
from lib.drawing import Draw
from lib.hostile_calls import cases, images
from lib.hostile_calls.answers import Answer, Caller, lines_of
from lib.images import PAGE

KINDS = {"elf": cases.elf_case, "image": images.image_case, "words": cases.words_case, "input": cases.input_case}


# Calls whose memory is refused, over the files `good` (greet), `input` and `image`.
SMALL = "--pages 8 --btt 8 --ptt 8 --input input --digest"
ALLOCATING = (
    f"plain good {SMALL}",
    f"run good {SMALL} --epoch 120 --cuts 900,1700 --tears 7,1 --save saved",
    f"run good {SMALL} --epoch 60 --high 0 --low 0 --cuts 300 --limit 5000 --save saved",
    f"run good {SMALL} --scheme journal --epoch 120 --cuts 900,1700 --tears 7,1 --save saved",
    f"run good {SMALL} --scheme shadow --epoch 120 --cuts 900,1700 --tears 7,1 --save saved",
    f"resume image {SMALL.replace('btt 8', 'btt 16')} --epoch 100",
    "bench 7 --limit 20000",
    f"compare good {SMALL} --epoch 120",
    "make 7 out",
    "run good --pages 7",
    "run good --cuts 1,x",
    "run text --input none",
    "resume text",
)


# With these settings the C library asks the system for each larger piece of memory, so that each can be refused.
TUNABLES = "glibc.malloc.top_pad=0:glibc.malloc.mmap_threshold=4096:glibc.malloc.trim_threshold=0"
ASKING = {**os.environ, "GLIBC_TUNABLES": TUNABLES}


def limited(pages):
    """What a child does before it becomes the program: from then on it has so many pages of memory to write to."""

    def begin():
        resource.setrlimit(resource.RLIMIT_DATA, (PAGE * pages, PAGE * pages))

    return begin


def pages_to_begin(caller):
    """The least memory with which the system can start the program: with less, its loader ends or is ended."""
    for pages in range(2**16):
        done = subprocess.run([caller.program], capture_output=True, env=ASKING, preexec_fn=limited(pages), check=False)
        if done.returncode in (2, 9):
            return pages
    raise Wrong("the program does not start")


def command_short_of_memory(caller, words, pages):
    """The answer of a call that has so many pages of memory to write to."""
    call = [caller.program, *words]
    how = {"capture_output": True, "env": ASKING, "cwd": caller.folder, "preexec_fn": limited(pages)}
    try:
        done = subprocess.run(call, stdin=subprocess.DEVNULL, timeout=MOST_WAITING * caller.seconds, check=False, **how)
    except subprocess.TimeoutExpired:
        raise Wrong(f"no answer within {MOST_WAITING * caller.seconds:g} seconds") from None
    wants(done.returncode >= 0, f"ended by signal {-done.returncode}")
    return Answer(done.returncode, done.stdout, done.stderr)


def judge_short_of_memory(answer, whole):
    lines, every = lines_of(answer.errors), lines_of(whole.errors)
    wants(answer.status == 9 and lines[-1:] == ["memory"], f"status {answer.status} with {lines[-1:]}")
    first = lines[:-1]
    wants(first == every[: len(first)] or first[-1:] == ["reload"], "the report is not a first part of the whole one")
    wants(whole.printed.startswith(answer.printed), "the terminal is not a first part of the whole one")


def allocs_case(caller, text):
    """A call with more and more memory, until its answer is whole."""
    image, _options, source = images.saved_image(caller.program, caller.seconds, 1)
    for name, data in zip(("good", "image", "input"), (dict(cases.good_files())["greet"], image, source)):
        caller.write(name, data)
    caller.write("text", b"What is this?\n")
    words = text.split()
    caller.calls.append((words, ""))
    whole = caller.command(words)
    same, pages = 0, pages_to_begin(caller)
    while same < 32:
        wants(pages < 2**16, "the answer is not whole with 256 MiB")
        answer = command_short_of_memory(caller, words, pages)
        pages += 1
        if (answer.status, answer.printed, answer.errors) == (whole.status, whole.printed, whole.errors):
            same += 1
        else:
            same = 0
            judge_short_of_memory(answer, whole)
        caller.answers[answer.status, answer.word] += 1


def one_case(options, folder, kind, number):
    """The answers of a case, and what is wrong."""
    calls.empty(folder)
    caller = Caller(options.program, folder, options.seconds, options.observer)
    try:
        if kind == "allocs":
            allocs_case(caller, ALLOCATING[number])
        else:
            KINDS[kind](Draw(f"{options.seed} {kind} {number}"), caller)
    except Wrong as wrong:
        last = shlex.join(caller.calls[-1][0]) if caller.calls else ""
        fault = f"{kind} {number}: {wrong} (thynvm {last})"
        if options.keep:
            place = os.path.join(options.keep, f"{kind}-{options.seed}-{number}")
            commands = [
                f"{shlex.join(torn.command(caller.program, caller.observer, words))} {full}" for words, full in caller.calls
            ]
            fault += f"; kept in {calls.kept(place, folder, fault, commands)}"
        return caller.answers, fault
    return caller.answers, ""


def some_cases(task):
    """How many calls of each kind had which answer, and what is wrong."""
    options, root, numbered = task
    folder = calls.own_folder(root)
    counts, faults = Counter(), []
    for kind, number in numbered:
        answers, fault = one_case(options, folder, kind, number)
        counts.update({(kind, answer): many for answer, many in answers.items()})
        faults += [fault] if fault else []
    return counts, faults


def show(counts, kinds):
    """The table of answers: how many calls of each kind came to which."""
    rows = sorted({answer for _, answer in counts}, key=str)
    rows.sort(key=lambda row: row[0] if isinstance(row[0], int) else -1)
    print(f"{'status':>6}  {'answer':<24}" + "".join(f"{kind:>8}" for kind in kinds))
    for row in rows:
        print(f"{row[0]:>6}  {row[1]:<24}" + "".join(f"{counts[kind, row]:>8}" for kind in kinds))
    print(f"{'':>6}  {'calls':<24}" + "".join(f"{sum(n for (k, _), n in counts.items() if k == kind):>8}" for kind in kinds))


# How many cases a process makes before it says what came of them.
AT_ONCE = 32


def every_case(options):
    """Makes the cases that are asked for, and shows what they came to. The status."""
    if options.allocs:
        numbered = [("allocs", number) for number in range(len(ALLOCATING)) if options.case in (None, number)]
    else:
        numbers = range(options.count) if options.case is None else [options.case]
        numbered = [(kind, k) for k in numbers for kind in KINDS if options.only in (None, kind)]
    kinds = list(dict.fromkeys(kind for kind, _ in numbered))
    at_once = 1 if options.allocs else AT_ONCE
    counts, faults = Counter(), []
    with tempfile.TemporaryDirectory(prefix="hostile-", dir=calls.SHARED_MEMORY) as root:
        tasks = [(options, root, numbered[at : at + at_once]) for at in range(0, len(numbered), at_once)]
        with ProcessPoolExecutor(options.jobs, initializer=calls.begin_worker, initargs=(options.memory,)) as pool:
            for answers, wrong in pool.map(some_cases, tasks):
                counts.update(answers)
                faults += wrong
                for fault in wrong:
                    print(fault, flush=True)
    show(counts, kinds)
    print(f"{len(numbered)} cases of seed {options.seed}, {len(faults)} wrong")
    return 1 if faults else 0
