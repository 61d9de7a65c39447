"""Stored banks with one file damaged, from a fixed seed: cut short, longer, a byte or a number changed, or swapped for another."""

import random


def cut(rng, data):
    """The file without its end."""
    return data[: rng.randrange(len(data))] if data else data


def longer(rng, data):
    """The file with bytes behind its end."""
    return data + bytes(rng.randrange(256) for _ in range(rng.randrange(1, 20)))


def flipped(rng, data):
    """The file with one bit changed, mostly near its front."""
    at = rng.randrange(min(len(data), rng.choice((8, 40, 10**6))))
    return data[:at] + bytes([data[at] ^ 1 << rng.randrange(8)]) + data[at + 1 :]


def stepped(rng, data):
    """The file with one byte raised or lowered by one, as a value or a bound may be."""
    at = rng.randrange(len(data))
    return data[:at] + bytes([(data[at] + rng.choice((1, 255))) % 256]) + data[at + 1 :]


def repeated(rng, data):
    """The file with some of its bytes twice."""
    first, last = sorted(rng.randrange(len(data) + 1) for _ in range(2))
    return data[:last] + data[first:]


WAYS = (cut, longer, flipped, flipped, stepped, stepped, stepped, repeated)


def damaged(number, files, names, count):
    """So many copies of the files, each with one of these names damaged, and what was done to it."""
    rng = random.Random(number)
    for _ in range(count):
        name, way = rng.choice(names), rng.choice(WAYS)
        if files[name]:
            yield f"{way.__name__} {name}", {**files, name: way(rng, files[name])}
