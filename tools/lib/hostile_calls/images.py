"""Cases of saved images: the program saves a few itself, and these are mutated and resumed."""

import os
import struct
import tempfile
from functools import lru_cache

from lib import repository
from lib.calls import Wrong, wants
from lib.hostile_calls.answers import Caller, compare, fetch
from lib.hostile_calls.drawn import mutate_bytes, near, schedule, with_number
from lib.hostile_calls.rules import RUN, Due, Image, number_at, read_image, settings
from lib.images import BLOCK, PAGE
from lib.program import SCHEMES

# Images that the program saves, to be mutated: the example, its options, and those of the run alone.
SAVED = (
    ("exit_seven", "--pages 8 --btt 8 --ptt 8", "--limit 704"),
    ("greet", "--pages 8 --btt 16 --ptt 8", "--epoch 120 --limit 2200 --input name"),
    ("greet", "--pages 8 --btt 16 --ptt 8", "--epoch 100 --high 1 --low 0 --limit 4000 --tears 1 --input name"),
    ("greet", "--pages 8 --console 2 --btt 8 --ptt 16", "--epoch 60 --high 0 --low 0 --input name"),
    ("sum_loop", "--pages 8 --btt 8 --ptt 8", "--epoch 500 --limit 60000 --tears 5"),
    ("collatz", "--pages 9 --btt 8 --ptt 8", "--epoch 50 --limit 9000 --tears 9 --high 2 --low 1"),
    ("sorted_words", "--pages 32 --btt 32 --ptt 8", "--epoch 3000 --limit 90000 --high 4 --low 2 --input words"),
    ("hello", "--pages 32 --btt 64 --ptt 16", "--epoch 500 --limit 40000 --high 5 --low 2"),
    ("greet", "--scheme journal --pages 8 --btt 16 --ptt 8", "--epoch 100 --limit 4000 --tears 1 --input name"),
    ("collatz", "--scheme journal --pages 9 --btt 8 --ptt 8", "--epoch 50 --limit 9000 --tears 9"),
    ("sorted_words", "--scheme journal --pages 32 --btt 32 --ptt 8", "--epoch 3000 --limit 90000 --input words"),
    ("greet", "--scheme shadow --pages 8 --btt 8 --ptt 8", "--epoch 100 --limit 4000 --tears 1 --input name"),
    ("collatz", "--scheme shadow --pages 9 --btt 8 --ptt 8", "--epoch 50 --limit 9000 --tears 9"),
    ("sorted_words", "--scheme shadow --pages 32 --btt 8 --ptt 16", "--epoch 3000 --limit 90000 --input words"),
)


@lru_cache(maxsize=None)
def saved_image(program, seconds, k):
    """One of the images that the program saves, its options, and its input."""
    name, options, more = SAVED[k]
    given = more.split("--input ")
    source = repository.example(name, given[1]) if len(given) == 2 else os.devnull
    with tempfile.TemporaryDirectory() as folder:
        words = [*options.split(), *given[0].split(), "--input", source, "--save", "image"]
        answer = Caller(program, folder, seconds).command(["run", repository.example(name), *words])
        wants(answer.status in (0, 8), f"no image is saved of {name}: {answer.errors[-200:]!r}")
        data = fetch(folder, "image")
    try:
        read_image(data, settings(["resume", "image", *options.split()])[1], RUN)
    except Due as due:
        raise Wrong(f"the image saved of {name} is refused: {due.line}") from None
    return data, options.split(), fetch("", source)


def mutate_image_header(rng, image, data):
    at = 8 * rng.randrange(8)
    return with_number(data, at, 8, near(rng, number_at(data, at, 8)))


def mutate_commit(rng, image, data):
    at = 64 + 8 * rng.choice((0, 1, 1, 1, *range(2, 8)))
    return with_number(data, at, 8, near(rng, number_at(data, at, 8)))


def mutate_epochs(rng, image, data):
    """Another epoch in the commit block and in the records."""
    epoch = near(rng, number_at(data, 72, 8)) % 2**64
    data = with_number(data, 72, 8, epoch)
    return with_number(data, BLOCK * image.layout.slot(epoch) + 8 * 38, 8, rng.choice((epoch, epoch, epoch, epoch + 1)))


def mutate_record(rng, image, data):
    slot = rng.choice((0, number_at(data, 72, 8), number_at(data, 72, 8)))
    k = rng.choice((*range(40), 0, 32, 33, 34, 34, 36, 37, 38))
    at = BLOCK * image.layout.slot(slot) + 8 * k
    v = image.v
    memory = v["base"], v["base"] + PAGE * (v["pages"] - v["console"])
    return with_number(data, at, 8, near(rng, number_at(data, at, 8), *memory, PAGE * v["console"], 7, 255, 2))


def mutate_status(rng, image, data):
    at = BLOCK * image.layout.slot(number_at(data, 72, 8)) + 8 * 36
    data = with_number(data, at, 8, rng.choice((0, 1, 1, 2, 2, 3)))
    return with_number(data, at + 8, 8, rng.choice((0, 1, 4, 7, 8, 255, 256)))


def mutate_table(rng, image, data):
    v = image.v
    table = BLOCK * (image.layout.slot(number_at(data, 72, 8)) + image.layout.record)
    count = image.layout.first + image.layout.second
    k = rng.choice((rng.randrange(image.layout.first), image.layout.first + rng.randrange(image.layout.second) if image.layout.second else 0))
    live = [entry for entry in struct.unpack_from(f"<{count}Q", data, table) if entry]
    other = rng.choice(live or [0])
    pages = rng.choice((*live, rng.randrange(v["pages"]) + 1))
    numbers = other, pages, 64 * pages, 64 * pages - 63, *image.ends, near(rng, other, *image.ends)
    return with_number(data, table + 8 * k, 8, rng.choice(numbers))


def mutate_pair(rng, image, data):
    """Two entries of a table that list the same, or a block and its page."""
    v = image.v
    table = BLOCK * (image.layout.slot(number_at(data, 72, 8)) + image.layout.record)
    page = rng.randrange(v["pages"])
    entry = image.entry_of(rng, page)
    blocks = [(k, entry) for k in rng.sample(range(image.layout.first), 2)]
    pages = [(image.layout.first + k, page + 1) for k in rng.sample(range(image.layout.second), 2)] if image.layout.second else blocks
    for k, entry in rng.choice((blocks, pages, (blocks[0], pages[0]))):
        data = with_number(data, table + 8 * k, 8, entry)
    return data


def mutate_count(rng, image, data):
    """A count at an end of its range, of any page, of the last, or of one that is not there."""
    pages = image.v["pages"]
    size = BLOCK * image.layout.counts
    if not size:
        return data
    page = rng.choice((0, pages - 1, min(pages, size - 1), size - 1, rng.randrange(size)))
    at = BLOCK * (image.layout.slot(number_at(data, 72, 8)) + image.layout.record + image.layout.tables) + page
    return with_number(data, at, 1, rng.choice((0, 1, 62, 63, 64, 65, 128, 255)))


def mutate_version(rng, image, data):
    """Another version in the header, in the commit block, or in both; as long as an image of version 1, or not."""
    if rng.random() < 0.7:
        data = with_number(data, 8, 8, rng.choice((0, 1, 1, 1, 2, 3)))
    if rng.random() < 0.7:
        data = with_number(data, 71, 1, ord(rng.choice("01123")))
    return data[: rng.choice((image.size, BLOCK * image.slots))]


def swap_blocks(rng, image, data):
    count = len(data) // BLOCK
    near_slots = (0, 1, *range(image.slots, count))
    one, other = sorted(rng.sample(range(count) if rng.random() < 0.3 else near_slots, 2))
    blocks = [data[BLOCK * k : BLOCK * (k + 1)] for k in range(count)]
    blocks[one], blocks[other] = blocks[other], blocks[one]
    return b"".join(blocks) + data[BLOCK * count :]


def mutate_image_length(rng, image, data):
    ends = (0, 1, 63, 64, 127, 128, 129, len(data) - 1, len(data) - 64, rng.randrange(len(data) + 1))
    if rng.random() < 0.8:
        return data[: rng.choice(ends)]
    return data + bytes(rng.choice((1, 64, 4096)))


def mutate_image_bytes(rng, image, data):
    return mutate_bytes(rng, data)


IMAGE_MUTATIONS = (
    *(mutate_image_header, mutate_commit, mutate_epochs, mutate_status),
    *(swap_blocks, mutate_image_length, mutate_image_bytes, mutate_version, mutate_count, mutate_count),
    *(mutate_record, mutate_record, mutate_record, mutate_table, mutate_table, mutate_table, mutate_pair),
)


def image_case(rng, caller):
    data, options, source = saved_image(caller.program, caller.seconds, rng.randrange(len(SAVED)))
    v = settings(["resume", "image", *options])[1]
    image = Image(data, v)
    for _ in range(rng.choice((0, 1, 1, 1, 1, 2, 3))):
        if len(data) == image.size:
            data = rng.choice(IMAGE_MUTATIONS)(rng, image, data)
    caller.write("image", data)
    caller.write("input", source[: rng.choice((len(source), len(source), len(source), rng.randrange(len(source) + 1)))])
    if rng.random() < 0.05:
        options = [*options[:-1], rng.choice((8, 16, 24))]
    if rng.random() < 0.05:
        geometry = options if v["scheme"] == "thynvm" else options[2:]
        options = ["--scheme", rng.choice(tuple(SCHEMES)), *geometry]
    shared = ["image", *options, "--digest", "--input", "input", "--limit", rng.choice((100, 20000, 20000, 100000))]
    one = caller.call("resume", *shared, *schedule(rng, 20000))
    other = caller.call("resume", *shared, *schedule(rng, 20000), "--save", "again")
    compare(one, other)
