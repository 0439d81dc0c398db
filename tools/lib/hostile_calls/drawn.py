"""What all cases draw: numbers, schedules, and changes of bytes."""

ENDS_OF_WORDS = [0, 1, 2, 2**8 - 1, 2**16 - 1, 2**31, 2**32 - 1, 2**62 - 1, 2**62, 2**63 - 1, 2**63, 2**64 - 4096, 2**64 - 1]


def listed(numbers):
    return ",".join(map(str, numbers))


def schedule(rng, cycles):
    """Options of a run that are not to change what its program does."""
    words = []

    def maybe(name, *values):
        if rng.random() < 0.5:
            words.extend((f"--{name}", rng.choice(values)))

    maybe("epoch", rng.randrange(1, 60), rng.randrange(1, 2000), 10000)
    maybe("sets", 1, 2, 64)
    maybe("ways", 1, 2, 8)
    maybe("nvmq", 1, 2, 64)
    maybe("dramq", 1, 2, 64)
    maybe("mix", 0, rng.randrange(10**19))
    if rng.random() < 0.5:
        high = rng.choice((0, 1, 3, 22, 63))
        words.extend(("--high", high, "--low", rng.randrange(high + 1)))
    if rng.random() < 0.6:
        cuts = sorted({rng.randrange(1, cycles) for _ in range(rng.choice((1, 1, 2, 3, 8)))})
        words.extend(("--cuts", listed(cuts)))
        tears = [rng.choice((0, 1, rng.randrange(10**19))) for _ in range(rng.randrange(1, len(cuts) + 2))]
        words.extend(("--tears", listed(tears)))
    return words


def with_number(data, at, size, number):
    return data[:at] + (number % 256**size).to_bytes(size, "little") + data[at + size :]


def near(rng, old, *others):
    """A number at an end, beside the old one or beside another."""
    around = [number + step for number in (old, *others) for step in (-1, 0, 1)]
    return rng.choice((*ENDS_OF_WORDS, *around, *around, rng.getrandbits(64), 1 << rng.randrange(64)))


def mutate_bytes(rng, data):
    changed = bytearray(data)
    for _ in range(rng.randrange(1, 20)):
        changed[rng.randrange(len(data))] = rng.choice((0, 255, rng.randrange(256)))
    return bytes(changed)
