"""Banks from fixed seeds: small ones of many kinds of sounds, and one for each way to be refused.

A bank is a name, its files by name, the name of its manifest, and how what is said of it must begin.
"""

import json
import math
import random
import struct
from typing import NamedTuple

import brr
from wave_file import EXTENSIBLE, PCM, chunk, fmt, riff, smpl

OWN = "m.toml"
RATE = 32000


class Bank(NamedTuple):
    """A bank before it is compiled."""

    name: str
    files: dict
    own: str
    says: str


def manifest(samples, **keys):
    """A manifest of some samples; a key of None is left out."""
    top = {"format": "brr", "bank": "x.img", "beam": 2, "budget": 300, **keys}
    lines = [f"{key} = {json.dumps(value)}" for key, value in top.items() if value is not None]
    for sample in samples:
        lines.append("[[sample]]")
        lines += [f"{key} = {json.dumps(value)}" for key, value in sample.items() if value is not None]
    return "\n".join(lines).encode() + b"\n"


# Sounds


def silence(_, count):
    """Nothing."""
    return [0] * count


def noise(rng, count):
    """Any numbers of 16 bits."""
    return [rng.randrange(-32768, 32768) for _ in range(count)]


def hiss(rng, count):
    """Noise that is not loud."""
    return [rng.randrange(-500, 500) for _ in range(count)]


def square(rng, count):
    """A square wave at both ends of 16 bits, so that outputs clamp and wrap."""
    half = rng.randrange(1, 30)
    return [32767 if i // half % 2 == 0 else -32768 for i in range(count)]


def tone(rng, count):
    """A sine."""
    period, loudness = rng.uniform(4, 90), rng.randrange(20, 32768)
    return [round(loudness * math.sin(2 * math.pi * i / period)) for i in range(count)]


def saw(rng, count):
    """A ramp again and again."""
    period, step = rng.randrange(2, 60), rng.randrange(1, 1000)
    return [brr.clamp(step * (i % period - period // 2)) for i in range(count)]


def odd(rng, count):
    """Small odd numbers, which twice an output never meets."""
    return [rng.choice((-3, -1, 1, 3)) for _ in range(count)]


def loud(rng, count):
    """One of the ends of 16 bits all the time."""
    return [rng.choice((-32768, 32767))] * count


def walk(rng, count):
    """Small steps up and down."""
    value, found = 0, []
    for _ in range(count):
        value = brr.clamp(value + rng.randrange(-900, 901))
        found.append(value)
    return found


def clicks(rng, count):
    """Silence with a loud number now and then."""
    return [rng.randrange(-32768, 32768) if rng.randrange(9) == 0 else 0 for _ in range(count)]


def decoded(rng, count):
    """What blocks of any heads and codes stand for, and a little noise: it wraps and swings as only a decoder does."""
    found, last, older, spread = [], 0, 0, rng.choice((0, 3, 300))
    while len(found) < count:
        codes = [rng.randrange(16) for _ in range(16)]
        for _, out in brr.steps(rng.randrange(64), codes, last, older):
            last, older = out, last
            found.append(brr.clamp(2 * out + rng.randrange(-spread, spread + 1)))
    return found[:count]


SOUNDS = (silence, noise, hiss, square, tone, saw, odd, loud, walk, clicks, decoded, decoded)


def pack(sounds, bits):
    """The samples of some channels, frame by frame."""
    mixed = [sample for frame in zip(*sounds) for sample in frame]
    if bits == 16:
        return struct.pack("<%dh" % len(mixed), *mixed)
    return bytes(128 + (sample >> 8) for sample in mixed)


def wave(sounds, bits=16, rate=RATE, loop=None, rng=None):
    """A WAVE file of some channels; with `rng` its chunks come in any order, with others between them."""
    chunks = [fmt(len(sounds), rate, bits), chunk(b"data", pack(sounds, bits))]
    if loop:
        chunks.append(smpl(rate, *loop))
    if rng:
        chunks[0] = fmt(len(sounds), rate, bits, rng.choice((PCM, EXTENSIBLE)))
        chunks += [chunk(b"LIST", bytes(rng.randrange(5)))] * rng.randrange(3)
        rng.shuffle(chunks)
    return riff(chunks)


# Banks that fit


def any_loop(rng, frames, exact, size):
    """A loop of few blocks in so many frames, whole blocks where it must be exact; None where there is no room."""
    period = size * rng.randrange(1, 8)
    if not exact:
        period = rng.choice((period, 4 * rng.randrange(1, 16), rng.randrange(1, 24)))
    if period > frames:
        return None
    first = rng.randrange(frames - period + 1)
    return first, first + period - 1


def any_sample(rng, name, exact, size):
    """The manifest's lines of a sample, and its file, for blocks of so many samples."""
    frames = rng.choice((rng.randrange(1, 20), rng.randrange(10, 90), rng.randrange(60, 350)))
    stereo = rng.randrange(3) == 0
    sounds = [rng.choice(SOUNDS)(rng, frames) for _ in range(1 + stereo)]
    loop = any_loop(rng, frames, exact, size) if rng.randrange(3) else None
    keys = {
        "name": name,
        "file": name + ".wav",
        "channel": rng.randrange(2) if stereo else rng.choice((None, 0)),
        "loop": rng.choice((None, None, "smpl", "none")),
    }
    return keys, wave(sounds, rng.choice((8, 16, 16)), rng.choice((1, 8000, 32000, 44100, 1000000)), loop, rng)


def fitting_bank(number, form="brr", size=16, align=None):
    """A bank of a few samples in a format with blocks of this size that is not refused; `align` is the manifest's block."""
    rng = random.Random(number)
    length = rng.choice((None, "exact", "unroll", "unroll"))
    files, samples = {}, []
    for at in range(rng.choice((1, 2, 3, 4))):
        keys, data = any_sample(rng, f"{rng.choice(('s', 'Hit-', '_', '0'))}{at}", length != "unroll", size)
        samples.append(keys)
        files[keys["file"]] = data
    files[OWN] = manifest(
        samples,
        format=form,
        bank=rng.choice(("x.img", "0", "B_a-n.k")),
        base=rng.choice((None, 0, 256, 32768)),
        block=align or rng.choice((None, 8)),
        beam=rng.choice((1, 1, 2, 3)),
        budget=rng.choice((0, 20, 150)) if align else rng.choice((0, 40, 300, 2000)),
        length=length,
        start=rng.choice((None, "front", "rotate")),
        paths=rng.choice((None, None, 1, 2, 5)),
    )
    return Bank(f"{form} seed {number}", files, OWN, "sample ")


# The second block is best under shift 13 and filter 2, or 3: each step of least cost leads the shifts below it astray.
SWINGS = (
    [-4448, 173, -39, -4424, -141, -73, -4200, 42, -4330, -4134, -4005, 159, 0, -234, -3885, -103]
    + [-461, -101, -4425, -8319, -16237, -26516, 29626, 240, -32217, 265, 26734, -18896, 286, 14116, 22544, 29431],
    [-3901, -7, 152, -385, -264, -4117, 215, -45, -3996, -199, -3915, -394, -342, -4493, 240, -4356]
    + [-7244, -13654, -23553, 30817, -79, -29447, 8649, -25658, 7335, -30805, -125, 21251, -32078, 228, 25828, -23356],
)
RAMP = [90 * i for i in range(40)]
SOUND = wave([RAMP])
ONE = {"name": "s", "file": "s.wav"}


def edge(name, says, files, samples=(ONE,), **keys):
    """A bank at the edge of what is taken, whose report begins like this."""
    return Bank(name, {OWN: manifest(samples, **keys), **files}, OWN, says + " ")


def edges():
    """Banks at the edges of what is read and of what fits."""
    plain, loop, sound = fmt(1, RATE, 16), smpl(RATE, 4, 19), pack([RAMP], 16)
    data = chunk(b"data", sound)
    whole, round_ = "sample s blocks 3 loop none", "sample s blocks 2 loop 1"
    yield edge("memory full", "sample s blocks 28 loop none", {"s.wav": wave([[-7] * 448])}, base=65280)
    for filter_, swing in zip((2, 3), SWINGS):
        yield edge(f"shift 13, filter {filter_}", "sample s blocks 2 loop none", {"s.wav": wave([swing])})
    yield edge("rest after the chunks", whole, {"s.wav": SOUND + b"rest..."})
    yield edge("rest of a frame, no pad byte", whole, {"s.wav": riff([plain, chunk(b"data", sound + b"\1")])[:-1]})
    long_fmt, short_fmt = chunk(b"fmt ", plain[8:] + bytes(2)), chunk(b"fmt ", plain[8:20])
    yield edge("two fmt", whole, {"s.wav": riff([long_fmt, short_fmt, data])})
    yield edge("sampler of no loops", whole, {"s.wav": riff([plain, chunk(b"smpl", bytes(36)), loop, data])})
    two_loops = chunk(b"smpl", loop[8:36] + struct.pack("<I", 2) + loop[40:] + smpl(RATE, 0, 39)[44:])
    yield edge("two loops, two samplers", round_, {"s.wav": riff([plain, two_loops, data, chunk(b"smpl", b"")])})
    yield edge("fmt last", round_, {"s.wav": riff([data, loop, chunk(b"fact", bytes(3)), plain])}, start="rotate")
    stereo = wave([[5000 if i % 5 else -3 for i in range(50)], [i * i for i in range(50)]], 8)
    both = [{"name": name, "file": "b", "channel": at} for at, name in enumerate("st")]
    yield edge("both channels of one file", "sample s blocks 4 loop none", {"b": stereo}, both, bank="b.0")
    names = [f"{at:02}" for at in range(64)]
    many = {name: wave([[at * 512 - 16384] * (at // 4 + 1)], loop=(0, at // 4)) for at, name in enumerate(names)}
    samples = [{"name": name, "file": name} for name in names]
    yield edge("64 samples", "sample 00 blocks 1 loop 0", many, samples, length="unroll")


def spu_edges():
    """Banks of SPU-ADPCM at the edges of what is taken."""
    once, again = "sample s blocks 1 loop none error", "sample s blocks 1 loop 0 error"
    yield edge("spu, loudest", f"{once} 469532700 bound 469532700 gap 0", {"s.wav": wave([[32767] * 28])}, format="spu")
    yield edge("spu, one frame", f"{again} 0 bound 0", {"s.wav": wave([[0]], loop=(0, 0))}, format="spu", length="unroll")
    yield edge("spu, source of the bank's name", once, {"x.img": wave([RAMP[:28]])}, ({**ONE, "file": "x.img"},), format="spu")
    long = "sample s blocks 40 loop none"
    yield edge("spu, beyond the SNES's memory", long, {"s.wav": wave([[0] * 1120])}, format="spu", base=65280)


def ima_edges():
    """Banks of IMA ADPCM at the edges of what is taken."""
    once = "sample s blocks 1 loop none error 0 bound 0"
    yield edge("ima, one frame of a block of 505", once, {"s.wav": wave([[0]])}, format="ima")
    yield edge("ima, block 1024", "sample s blocks 1 loop 3..39", {"s.wav": wave([RAMP], loop=(3, 39))}, format="ima", block=1024)
    far = {"s.wav": wave([[9] * 36864], 8, loop=(36863, 36863))}
    yield edge("ima, 4096 blocks", "sample s blocks 4096 loop 36863..36863", far, format="ima", block=8)
    yield edge("ima, frames after the loop", "sample s blocks 5 loop 2..4", {"s.wav": wave([RAMP], loop=(2, 4))}, format="ima", block=8)


# Banks that are refused


def refused(says, files=None, samples=(ONE,), **keys):
    """A bank that is refused with this line; its one source is a plain sound, where none is given."""
    return Bank(says, {"s.wav": SOUND, OWN: manifest(samples, **keys), **(files or {})}, OWN, says + "\n")


def bad_source(says, data, **keys):
    """A bank whose source `s.wav` is refused with this line."""
    return refused(says, {"s.wav": data}, **keys)


def bad_manifest(says, text):
    """A bank whose manifest, given as a text, is refused with this line."""
    return refused("fault 3 manifest " + says, {OWN: text.encode()})


def bad_key(says, samples=(ONE,), **keys):
    """A bank whose manifest has these samples and keys, and is refused with this line."""
    return refused("fault 3 manifest " + says, samples=samples, **keys)


def bad_sample_key(says, **keys):
    """A bank whose one sample has these keys besides, and is refused with this line."""
    return bad_key(says, ({**ONE, **keys},))


def refused_manifests():
    """A bank for each way that a manifest is refused."""
    yield bad_manifest("TooLong 65537", "#" * 65537)
    yield bad_manifest("NotToml", "format = brr")
    yield refused("fault 3 manifest NotToml", {OWN: b'bank = "\xff"'})
    yield bad_key("UnknownKey Length", start=1, Length="exact", bank=None, zone=1)
    yield bad_key("MissingKey format", format=None, bank=None)
    yield bad_key("WrongKind format", format=1)
    yield bad_key("BadWord format", format="BRR")
    yield bad_key("MissingKey bank", bank=None)
    for bank in ("", ".x", "x/y", "x y", "x" * 65):
        yield bad_key("BadWord bank", bank=bank)
    for base in (-256, 100, 65536):
        yield bad_key(f"OutOfRange base {base}", base=base)
    yield bad_key("WrongKind base", base=True)
    yield bad_key("OutOfRange block 10", block=10)
    yield bad_key("OutOfRange beam 0", beam=0)
    yield bad_key("OutOfRange paths 65", paths=65, budget=-1)
    yield bad_key("OutOfRange beam 65", beam=65, paths=0)
    yield bad_key("WrongKind paths", paths="4")
    yield bad_key("OutOfRange budget 1000001", budget=1000001)
    yield bad_key("BadWord length", length="", start="")
    yield bad_key("BadWord start", start="Front")
    yield bad_key("NoSamples", ())
    yield bad_key("NoSamples", (), sample=[])
    yield bad_key("WrongKind sample", (), sample=1)
    yield bad_key("WrongKind sample", (), sample=["s"])
    yield bad_key("TooMany 65", [{"name": f"s{at}"} for at in range(65)])
    yield bad_sample_key("UnknownKey rate", rate=1, name=None)
    yield bad_sample_key("MissingKey name", name=None)
    yield bad_sample_key("BadWord name", name="a.b")
    yield bad_sample_key("BadWord name", name="x" * 17)
    yield bad_sample_key("MissingKey file", file=None)
    yield bad_sample_key("BadWord file", file="")
    yield bad_sample_key("BadWord file", file="\u00e9" * 128)
    yield bad_sample_key("OutOfRange channel 2", channel=2)
    yield bad_sample_key("WrongKind channel", channel="0")
    yield bad_sample_key("BadWord loop", loop="exact")
    yield bad_key("SameName b", [{"name": name, "file": "s.wav"} for name in "abcba"])
    for file in ("x.img", "x.img.s.first.wav", "x.img.s.cert"):
        yield bad_sample_key("Clash " + file, file=file)
    yield bad_key("Clash " + OWN, bank=OWN)
    for file in ("x.img.s.vag", "x.img.s.first.wav", "x.img.s.cert"):
        yield bad_key("Clash " + file, ({**ONE, "file": file},), format="spu")
    yield bad_key("OutOfRange base 100", format="spu", base=100)
    for file in ("x.img.s.wav", "x.img.s.first.wav", "x.img.s.cert"):
        yield bad_key("Clash " + file, ({**ONE, "file": file},), format="ima")
    yield bad_key("OutOfRange block 1028", format="ima", block=1028)


def refused_waves():
    """A bank for each way that a WAVE file is refused."""
    plain, data = fmt(1, RATE, 16), chunk(b"data", bytes(64))
    short, streaming = chunk(b"data", bytes(64))[:-2], b"data" + b"\xff" * 4
    extensible = fmt(1, RATE, 16, EXTENSIBLE)
    yield bad_source("fault 4 s NotRiff", b"RIF")
    yield bad_source("fault 4 s NotWave", b"RIFF\0\0\0\0WAVX")
    yield bad_source("fault 4 s Streaming", riff([plain, streaming]))
    yield bad_source("fault 4 s Truncated 36", riff([plain, short]))
    yield bad_source("fault 4 s DataTwice", riff([data, data]))
    yield bad_source("fault 4 s NoFmt", riff([data]))
    yield bad_source("fault 4 s BadFmt 15", riff([chunk(b"fmt ", plain[8:23]), data]))
    yield bad_source("fault 4 s BadFmt 39", riff([chunk(b"fmt ", extensible[8:47]), data]))
    yield bad_source("fault 4 s NotPcm 3", riff([fmt(1, RATE, 16, 3), data]))
    yield bad_source("fault 4 s NotPcm 65534", riff([extensible[:-1] + b"\0", data]))
    yield bad_source("fault 4 s BadChannels 3", riff([fmt(3, 0, 16), data]))
    for rate in (0, 1000001):
        yield bad_source(f"fault 4 s BadRate {rate}", riff([fmt(1, rate, 12), data]))
    yield bad_source("fault 4 s BadBits 24", riff([fmt(1, RATE, 24), data]))
    yield bad_source("fault 4 s BadAlign 4", riff([plain[:20] + b"\4" + plain[21:], data]))
    yield bad_source("fault 4 s NeedsChannel", riff([fmt(2, RATE, 8)]))
    yield bad_source("fault 4 s NoChannel 1", riff([plain]), samples=({**ONE, "channel": 1},))
    yield bad_source("fault 4 s NoData", riff([plain, chunk(b"dat ", bytes(4))]))
    yield bad_source("fault 4 s FileLong 4194304", SOUND + bytes(4194305 - len(SOUND)))


def refused_loops():
    """A bank for each way that a loop is refused."""
    plain, data, loop = fmt(1, RATE, 16), chunk(b"data", bytes(64)), smpl(RATE, 0, 31)
    for size in (35, 59):
        yield bad_source(f"fault 4 s SmplShort {size}", riff([chunk(b"smpl", loop[8 : 8 + size]), plain, data]))
    yield bad_source("fault 4 s LoopKind 1", riff([plain, smpl(RATE, 3, 2, 1), data]))
    yield bad_source("fault 4 s LoopBackwards 33 32", wave([[0] * 32], loop=(33, 32)))
    yield bad_source("fault 4 s LoopOutside 32 32", wave([[0] * 32], loop=(16, 32)))
    yield bad_source("fault 4 s LoopOutside 0 0", wave([[]], loop=(0, 0)))


def refused_fits():
    """A bank for each way that sounds do not fit, and for a source that is not there."""
    far = {"loop": (5, 4101), "bits": 8}
    yield bad_source("fault 5 s EmptySample", wave([[]]))
    yield bad_source("fault 5 s LoopLength 25 16", wave([[9] * 60], loop=(3, 27)))
    yield bad_source("fault 5 s TooLong 4097", wave([[0] * 65537], 8))
    for start in ("front", "rotate"):
        yield bad_source("fault 5 s TooLong 4098", wave([[0] * 4102], **far), length="unroll", start=start)
    yield bad_source("fault 5 s LoopLength 27 28", wave([[9] * 60], loop=(3, 29)), format="spu")
    yield bad_source("fault 5 s TooLong 4097", wave([[0] * 114689], 8), format="spu")
    yield bad_source("fault 5 s TooLong 4097", wave([[0] * 36865], 8), format="ima", block=8)
    yield bad_source("fault 5 s TooLong 520", wave([[0] * 262145], 8), format="ima")
    yield refused("fault 6 x.img ImageFull 65545", {"s.wav": wave([[0] * 449])}, base=65280)
    yield refused("fault 8 fetch gone.wav", samples=(ONE, {"name": "t", "file": "gone.wav"}))
    two = (ONE, {"name": "t", "file": "t.wav"})
    yield refused("fault 5 s EmptySample", {"s.wav": wave([[]]), "t.wav": b""}, two)
    yield refused("fault 4 t NotRiff", {"t.wav": b""}, two, base=65280)


def banks():
    """All banks."""
    found = [fitting_bank(number) for number in range(160)] + [fitting_bank(number, "spu", 28) for number in range(500, 560)]
    for number, align in enumerate((8, 8, 8, 12, 12, 16, 20, 28, 36) * 3 + (256,), 700):
        found.append(fitting_bank(number, "ima", 1, align))
    return found + [*edges(), *spu_edges(), *ima_edges(), *refused_manifests(), *refused_waves(), *refused_loops(), *refused_fits()]
