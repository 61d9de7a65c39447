"""Ten sounds of many kinds, made from a fixed seed: lists of 16-bit samples at 22,050 frames a second."""

import math
import random

RATE = 22050


def clamped(value):
    """The nearest sample."""
    return max(-32768, min(32767, round(value)))


def sine(_, at):
    """A tone."""
    return 12000 * math.sin(2 * math.pi * 440 * at / RATE)


def chirp(_, at):
    """A tone that rises to the highest that there is."""
    return 15000 * math.sin(math.pi * (60 + 11000 * at / RATE) * at / RATE)


def square(_, at):
    """A square wave."""
    return 14000 if at * 220 // RATE % 2 == 0 else -14000


def silence(_, __):
    """Nothing."""
    return 0


def clip(_, at):
    """A tone that is far too loud."""
    return 60000 * math.sin(2 * math.pi * 180 * at / RATE)


def noise(rng, _):
    """Any numbers of 16 bits."""
    return rng.randrange(-32768, 32768)


def quiet(rng, at):
    """A tone and a hiss that are hardly heard."""
    return 40 * math.sin(2 * math.pi * 330 * at / RATE) + rng.uniform(-4, 4)


def mix(rng, at):
    """A chord with a little hiss."""
    return sum(3500 * math.sin(2 * math.pi * tone * at / RATE) for tone in (220, 277.2, 329.6)) + rng.uniform(-300, 300)


def pluck(rng, count):
    """A plucked string: noise that runs round and grows soft."""
    string, out = [rng.uniform(-24000, 24000) for _ in range(100)], []
    for at in range(count):
        out.append(string[at % 100])
        string[at % 100] = 0.497 * (string[at % 100] + string[(at + 1) % 100])
    return out


def drums(rng, count):
    """Hits of noise over a falling tone."""
    out = []
    for at in range(count):
        since = at % 5512 / RATE
        out.append(16000 * math.exp(-12 * since) * math.sin(2 * math.pi * 70 * since) + rng.uniform(-14000, 14000) * math.exp(-40 * since))
    return out


def sounds(count):
    """The sounds by name, so many frames of each."""
    made = {"pluck": pluck(random.Random(1), count), "drums": drums(random.Random(2), count)}
    for number, frame in enumerate((sine, chirp, square, silence, clip, noise, quiet, mix)):
        rng = random.Random(number)
        made[frame.__name__] = [frame(rng, at) for at in range(count)]
    return {name: [clamped(value) for value in made[name]] for name in sorted(made)}
