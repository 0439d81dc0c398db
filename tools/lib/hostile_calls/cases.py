"""Cases: program files, lists of arguments and inputs, drawn from a generator; each makes its calls by a caller."""

import glob
import os
from functools import lru_cache

from lib import guest, repository
from lib.guest import LINKED, OPCODES, made_file
from lib.hostile_calls import images
from lib.hostile_calls.answers import against_plain, fetch
from lib.hostile_calls.drawn import listed, mutate_bytes, near, schedule, with_number
from lib.hostile_calls.rules import Image, number_at, settings
from lib.images import BLOCK, PAGE
from lib.program import FIELDS, FLAGS, LISTS, MOST_BYTES, MOST_IMAGE_BYTES, MOST_NUMBER, OPTIONS, SCHEMES, options_of

CALLS = (63, 64, 93, 94, 214, 2, 93)
# Bits 31 to 27 of LR, SC, and the AMOs.
ATOMIC = (0b00010, 0b00011, 0b00001, 0b00000, 0b00100, 0b01100, 0b01000, 0b10000, 0b10100, 0b11000, 0b11100)


def atomic(rng):
    """An atomic instruction at sp; with one hart it is illegal."""
    function, order = rng.choice(ATOMIC), rng.getrandbits(2)
    rs2 = 0 if function == 0b00010 else rng.getrandbits(5)
    return function << 27 | order << 25 | rs2 << 20 | 2 << 15 | rng.choice((2, 3)) << 12 | rng.getrandbits(5) << 7 | 0x2F


def instruction(rng, harts=1):
    """An instruction word: any, one of a known opcode, a load or store near sp, a number of a call, or a call; for two harts
    also an atomic one."""
    kind = rng.randrange(8 if harts == 1 else 10)
    if kind == 0:
        return rng.getrandbits(32)
    if kind > 7:
        return atomic(rng)
    if kind < 4:
        return rng.getrandbits(25) << 7 | rng.choice(OPCODES)
    if kind == 4:
        return rng.getrandbits(12) << 20 | 2 << 15 | rng.getrandbits(8) << 7 | rng.choice((0x03, 0x13))
    if kind == 5:
        return rng.getrandbits(12) << 20 | 2 << 15 | rng.randrange(4) << 12 | rng.getrandbits(5) << 7 | 0x23
    if kind == 6:
        return rng.choice(CALLS) << 20 | 17 << 7 | 0x13
    # ecall, and what gives a0, a1 and a2 the values of a call: 1, sp or an address near it, 64.
    near_sp = rng.getrandbits(12) << 20 | 2 << 15 | 0x593
    return rng.choice((0x00000073, 0x00000073, 0x00010593, 0x00100513, 0x04000613, near_sp))


@lru_cache(maxsize=None)
def good_files():
    """The built examples, with the page numbers that they need."""
    paths = sorted(glob.glob(repository.path("examples/*/*.elf")))
    return [(os.path.basename(path)[:-4], fetch("", path)) for path in paths]


def small_program(rng, harts=1):
    """A small file of random instructions, the registers of a call set before."""
    words = [instruction(rng, harts) for _ in range(rng.randrange(1, 200))]
    return guest.elf(LINKED, [(LINKED, guest.code_of(words), rng.choice((0, 4096, 20000)))], align=4)


def program_file(rng):
    kind = rng.randrange(6)
    if kind == 0:
        return made_file(rng.randrange(8))
    if kind == 1:
        return small_program(rng)
    return rng.choice(good_files())[1]


# Fields of the headers by place and size.
HEADER = [(0, 1), (4, 1), (5, 1), (6, 1), (16, 2), (18, 2), (20, 4), (24, 8), (32, 8), (52, 2), (54, 2), (56, 2)]
FLAGS_FIELD = (48, 4)
SEGMENT = [(0, 4), (0, 4), (8, 8), (16, 8), (32, 8), (40, 8)]


def mutate_header(rng, data):
    if rng.random() < 0.2:
        return with_number(data, *FLAGS_FIELD, rng.choice((1, 2, 4, 8, 16, 17, 32, rng.getrandbits(32))))
    at, size = rng.choice(HEADER)
    return with_number(data, at, size, near(rng, number_at(data, at, size), len(data), 2, 3, 56, 64, 243))


def mutate_segment(rng, data):
    first, count = number_at(data, 32, 8), number_at(data, 56, 2)
    at, size = rng.choice(SEGMENT)
    at += first + 56 * rng.randrange(count or 1)
    if at + size > len(data):
        return data
    ends = [65536 + PAGE * pages for pages in (0, 7, 255)]
    return with_number(data, at, size, near(rng, number_at(data, at, size), len(data), 1, 2, 3, *ends))


def mutate_segments(rng, data):
    """The table of program headers again at the end, with more of them, in another order."""
    first, count = number_at(data, 32, 8), number_at(data, 56, 2)
    table = [data[at : at + 56] for at in range(first, min(first + 56 * count, len(data) - 55), 56)]
    many = [rng.choice(table) for _ in range(rng.randrange(1, 9))] if table else []
    moved = with_number(with_number(data, 32, 8, len(data)), 56, 2, len(many))
    return moved + b"".join(many)


def mutate_length(rng, data):
    end = rng.choice((0, 1, 63, 64, 65, 119, 120, 121, len(data) - 1, rng.randrange(len(data) + 1)))
    return data[:end] if rng.random() < 0.8 else data + rng.randbytes(rng.randrange(1, 100))


def mutate_code(rng, data):
    """Random instruction words in the place of others."""
    first = min(120, len(data) // 4 * 4)
    for _ in range(rng.randrange(1, 24)):
        at = rng.randrange(first, len(data) + 1) // 4 * 4
        data = with_number(data, at, 4, instruction(rng)) if at + 4 <= len(data) else data
    return data


def random_file(rng, data):
    head = rng.choice((0, 4, 7, 20, 64, 120))
    return data[:head] + rng.randbytes(rng.randrange(300))


FILE_MUTATIONS = (
    *(mutate_header, mutate_segment, mutate_segment, mutate_segments, mutate_length, mutate_bytes, random_file),
    *(mutate_code, mutate_code, mutate_code, mutate_code),
)


def some_digests(rng, pages):
    """The option for digests. Those of much memory take longer than all else, so only a quarter of the runs have them."""
    return ["--digest"] if pages <= 16 or rng.random() < 0.25 else []


def elf_case(rng, caller):
    data = program_file(rng)
    for _ in range(rng.choice((0, 1, 1, 1, 2, 3))):
        data = rng.choice(FILE_MUTATIONS)(rng, data) if len(data) >= 64 else data
    caller.write("program", data)
    caller.write("input", rng.randbytes(rng.choice((0, 1, 64, 65, 500))))
    base = rng.choice((65536,) * 12 + (0, 61440, 2**31, 2**62 - PAGE))
    pages = rng.choice((8,) * 6 + (16,) * 3 + (64, 200, 256))
    limit = rng.choice((1, 3000, 3000, 20000, 20000, 150000))
    memory = ["--base", base, "--pages", pages, "--console", rng.choice((1, 1, 2, 7))]
    shared = [*memory, "--limit", limit, *some_digests(rng, pages), "--input", "input"]
    tables = ["--btt", rng.choice((8, 16, 64, 512)), "--ptt", rng.choice((8, 16, 64))]
    tables += rng.choice(([], [], ["--scheme", "journal"], ["--scheme", "shadow"]))
    plain = caller.call("plain", "program", *shared)
    run = caller.call("run", "program", *shared, *tables, *schedule(rng, limit + 2), "--save", "image")
    against_plain(plain, run)
    if run.report:
        # A program that has not ended is likely not to end at all. One that has does not run on the plain machine again.
        more = 300000 if plain.report.end else 20000
        at = shared.index("--limit") + 1
        shared[at] = limit + more
        whole = plain if plain.report.end else caller.call("plain", "program", *shared)
        shared[at] = more
        resumed = caller.call("resume", "image", *shared, *tables, *schedule(rng, 20000))
        if resumed.report:
            against_plain(whole, resumed)
    if rng.random() < 0.3:
        pair_case(rng, caller, shared, tables)


def pair_case(rng, caller, shared, tables):
    """A run of two harts and what is resumed from its image. Turns depend on the schedule, so no run is compared with
    another: each answer is judged by itself."""
    caller.write("program", small_program(rng, harts=2))
    pair = [*shared, *tables, "--harts", 2]
    run = caller.call("run", "program", *pair, *schedule(rng, 20000), "--save", "pair")
    if run.report:
        if rng.random() < 0.5:
            words = [str(word) for word in pair]
            image = Image(fetch(caller.folder, "pair"), settings(["resume", "pair", *words])[1])
            caller.write("pair", mutate_second(rng, image, image.data))
        caller.call("resume", "pair", *pair, *schedule(rng, 20000))


def mutate_second(rng, image, data):
    """A word of the second hart in a slot: a register, a reservation, or one of the zeros behind them."""
    word = rng.choice((rng.randrange(40, 72), 72, 73, 74, 75, 76, 79))
    at = BLOCK * image.layout.slot(rng.randrange(2)) + 8 * word
    return with_number(data, at, 8, rng.choice((0, 1, 4, 5, 8, rng.getrandbits(64))))


# Texts that are no numbers, or hardly.
TEXTS = ("", "x", "+1", "-5", "1 ", " 1", "1,", ",", "1,,2", "0x10", "008", "1e3", "8.0", "٣", "=", "-", "--")
TEXTS += ("9" * 19, "9" * 20, "0" * 18 + "8", "0" * 19 + "8")

# Words that do not belong in a list of arguments.
STRANGE = ("--help", "-h", "--version", "-V", "help", "--", "-", "-x", "extra", "--n", "--n=1", "--unknown", "--page")
STRANGE += ("--digest=1", "--digest")


def ends_of(name):
    option = FIELDS[name]
    numbers = {option.low, option.high, option.default}
    around = {number + step for number in numbers for step in (-option.step, -1, 0, 1, option.step)}
    return [number for number in (*sorted(around), 3, 63, 64, 10**19 - 1, 2**62, 2**63, 2**64 - 1) if number >= 0]


def any_value(rng, name):
    """A value of a field, at an end of its range, past it, or no number."""
    if rng.random() < 0.15:
        return rng.choice(TEXTS)
    if name == "scheme":
        return rng.choice((*SCHEMES, *SCHEMES, "Journal", "journals", "shadows", "0"))
    if name not in LISTS:
        return str(rng.choice(ends_of(name)))
    many = [rng.randrange(200) for _ in range(rng.choice((1, 2, 3, 63, 64, 65, 66)))]
    return listed(many if rng.random() < 0.3 else sorted(set(many)))


def stretch(rng, words):
    """Something that does not belong in a list of arguments, at any place."""
    kind = rng.randrange(6)
    at = rng.randrange(len(words) + 1)
    if kind == 0:
        return words[:at] + [rng.choice(STRANGE)] + words[at:]
    if kind == 1:
        return words[:at] + words[at + 1 :]
    if kind == 2:
        without_value = [f"--{rng.choice(tuple(FIELDS))}"]
        return words + rng.choice((words[1:], words[-1:], without_value, ["--pages", "8", "--pages=8"]))
    if kind == 3:
        return [rng.choice(("", "Run", "runs", "help", "make", "plain", "bench", "resume", "compare"))] + words[1:]
    if kind == 4:
        return rng.sample(words, len(words))
    return words


def operands(rng, caller, verb):
    """Operands of a command: what is there, what is not, and what cannot be read."""
    if verb in ("bench", "make"):
        n = rng.choice(("0", "7", str(MOST_NUMBER), str(MOST_NUMBER), str(MOST_NUMBER + 1), rng.choice(TEXTS)))
        return [n] if verb == "bench" else [n, rng.choice(("out", "out", ".", "none/out", "good/out", ""))]
    if rng.random() < 0.04:
        most = MOST_IMAGE_BYTES if verb == "resume" else MOST_BYTES
        os.truncate(os.path.join(caller.folder, caller.write("long", b"")), most + rng.randrange(2))
        return ["long"]
    there = "image" if verb == "resume" else "good"
    return [rng.choice((there,) * 8 + ("good", "image", "none", "", ".", "-", "text", "good/"))]


# Names for options that take one, of what is there and of what is not; a flag has an empty one.
NAMES_GIVEN = {"input": ("text", "text", "none", "."), "save": ("saved", "none/saved", "."), "digest": ("",)}


def some_options(rng, verb, geometry):
    """Texts of a few of a command's options, and now and then of one that it does not take."""
    texts = {}
    if verb == "make" and rng.random() < 0.9:
        return texts
    if verb == "resume":
        texts.update({name[2:]: number for name, number in zip(geometry[::2], geometry[1::2])})
    taken = OPTIONS if verb == "make" else options_of(verb)
    names = [name for name in FIELDS if name in taken or rng.random() < 0.05]
    for name in rng.sample(names, min(len(names), rng.choice((0, 1, 1, 2, 4)))):
        texts[name] = any_value(rng, name)
    for name, given in NAMES_GIVEN.items():
        if rng.random() < 0.25 and name in taken:
            texts[name] = rng.choice(given)
    if verb == "bench":
        texts.update({name: "30000" for name in ("epoch", "limit") if rng.random() < 0.5})
    return texts


def words_case(rng, caller):
    data, geometry, _source = images.saved_image(caller.program, caller.seconds, 0)
    caller.write("good", dict(good_files())["exit_seven"])
    caller.write("image", data)
    caller.write("text", b"What is this?\n")
    verb = rng.choice(("run", "run", "run", "resume", "plain", "bench", "compare", "make"))
    given = operands(rng, caller, verb)
    parts = [given] if verb == "make" else [[word] for word in given]
    for name, text in some_options(rng, verb, geometry).items():
        separate = [f"--{name}"] if name in FLAGS else [f"--{name}", text]
        parts.append([f"--{name}={text}"] if name not in FLAGS and rng.random() < 0.3 else separate)
    rng.shuffle(parts)
    words = [verb, *(word for part in parts for word in part)]
    words = stretch(rng, words) if rng.random() < 0.3 else words
    answer = caller.call(*words)
    if rng.random() < 0.05:
        caller.call_full(answer, *words)


def input_bytes(rng, source):
    kind = rng.randrange(5)
    if kind == 0:
        return rng.randbytes(rng.choice((0, 1, 63, 64, 65, 128, 4095, 4096, 20000)))
    if kind == 1:
        return bytes(rng.choices(b"\n\t 019azAZ;+-*/=()\"\0\xff", k=rng.randrange(3000)))
    if kind == 2:
        return source[: rng.randrange(len(source) + 1)] * rng.choice((1, 2, 50))
    if kind == 3:
        return b"\n".join(rng.sample(source.split(b"\n"), source.count(b"\n") + 1))
    return mutate_bytes(rng, source)


def input_case(rng, caller):
    name, given = rng.choice((("greet", "name"), ("interpreter", "script"), ("sorted_words", "words")))
    caller.write("program", fetch("", repository.example(name)))
    caller.write("input", input_bytes(rng, fetch("", repository.example(name, given))))
    limit = 500000 if rng.random() < 0.03 else rng.choice((20000, 20000, 100000))
    pages = 8 if name == "greet" else rng.choice((64,) * 7 + (256,))
    shared = ["program", "--pages", pages, "--console", rng.choice((1, 2)), "--input", "input"]
    shared += [*some_digests(rng, pages), "--limit", limit]
    plain = caller.call("plain", *shared)
    more = ["--btt", rng.choice((64, 512)), *schedule(rng, limit)]
    run = caller.call("run", *shared, *more)
    against_plain(plain, run)
    if rng.random() < 0.1:
        caller.call_full(plain, "plain", *shared)
        caller.call_full(run, "run", *shared, *more)
