"""What `exact`, `unroll`, `front` and `rotate` do to a loop: a short sound, and what plays of it."""

import math
import os
import pathlib
import struct

from bank import compiled
from svg import Picture, Scale

LEFT, SHOWN = 16, 128
SOURCE, PLAYED = (84, 154), (206, 276)
ACROSS = Scale(0, SHOWN, LEFT, 784)
HEIGHT = 16000

# The first frame of the loop, its length, the keys of the manifest, and what the picture says.
CASES = {
    "exact": (16, 32, "exact", "front", "exact: a loop of whole blocks stays as it is"),
    "unroll": (16, 20, "unroll", "front", "unroll: a loop of 20 frames is stored four times, which fills five blocks"),
    "front": (10, 32, "exact", "front", "front: six zeros in front move the loop onto a block"),
    "rotate": (10, 32, "exact", "rotate", "rotate: the loop begins six frames later in its round, without zeros in front"),
}


def sound(first, period):
    """A sound that swells up to its loop."""
    out = []
    for i in range(first + period):
        turn = 2 * math.pi * (i - first) / period
        level = 10000 * min(1.0, (i + 4) / (first + 4))
        out.append(round(level * (math.sin(turn) + 0.5 * math.cos(2 * turn) - 0.5 * math.cos(3 * turn))))
    return out


def wave(samples, first):
    """A WAVE file with a loop from a frame to the end."""
    sampler = struct.pack("<15I", 0, 0, 62500, 60, 0, 0, 0, 1, 0, 0, 0, first, len(samples) - 1, 0, 0)
    body = b"WAVEfmt " + struct.pack("<IHHIIHH", 16, 1, 1, 16000, 32000, 2, 16)
    body += b"data" + struct.pack(f"<I{len(samples)}h", 2 * len(samples), *samples)
    body += b"smpl" + struct.pack("<I", len(sampler)) + sampler
    return b"RIFF" + struct.pack("<I", len(body)) + body


def span(drawn, first, last, y, words):
    """A bracket under some frames, with what it says."""
    drawn.line(ACROSS(first), y, ACROSS(last), y, "axis")
    for end in (first, last):
        drawn.line(ACROSS(end), y - 4, ACROSS(end), y + 4, "axis")
    drawn.text((ACROSS(first) + ACROSS(last)) / 2, y + 16, words, "faint", "middle")


def band(drawn, place, values, shades, kind):
    """Frames as a line with dots, over shades."""
    top, bottom = place
    for shade, first, last in shades:
        drawn.box(ACROSS(first), top - 8, ACROSS(last) - ACROSS(first), bottom - top + 16, shade)
    for block in range(0, SHOWN + 1, 16):
        drawn.line(ACROSS(block), top - 8, ACROSS(block), bottom + 8, "grid")
    down = Scale(HEIGHT, -HEIGHT, top, bottom)
    points = [(ACROSS(i + 0.5), down(value)) for i, value in enumerate(values)]
    drawn.path(points, kind)
    for x, y in points:
        drawn.box(x - 1.5, y - 1.5, 3, 3, kind + "-area")


def picture(sample, title):
    """The picture of one case."""
    drawn = Picture(800, 342, title)
    first, last = sample.loop
    begin, end = 16 * sample.loop_block, 16 * sample.blocks
    its = f"its loop is {last - first + 1} frames from frame {first} on"
    drawn.text(LEFT, 60, f"the source, {len(sample.frames)} frames; {its}")
    band(drawn, SOURCE, sample.frames, [("loop", first, last + 1)], "source")
    drawn.text(LEFT, 188, f"what plays; a grid line is a block of 16 frames, and the loop begins at block {sample.loop_block}")
    starts = range(begin, SHOWN, end - begin)
    shades = [("again" if i % 2 else "loop", start, min(start + end - begin, SHOWN)) for i, start in enumerate(starts)]
    band(drawn, PLAYED, sample.played[:SHOWN], shades, "decoded")
    span(drawn, 0, begin, 300, "before the loop")
    span(drawn, begin, end, 300, f"the loop, blocks {sample.loop_block} to {sample.blocks - 1}")
    span(drawn, end, SHOWN, 300, "and again")
    return str(drawn)


def pictures(program, folder):
    """The four pictures by name, of banks that are compiled in a folder."""
    here, drawn = os.getcwd(), {}
    os.chdir(folder)
    try:
        for name, (first, period, length, start, title) in CASES.items():
            pathlib.Path(name + ".wav").write_bytes(wave(sound(first, period), first))
            keys = f'format = "brr"\nbank = "{name}.img"\nlength = "{length}"\nstart = "{start}"\n'
            keys += f'[[sample]]\nname = "{name}"\nfile = "{name}.wav"\n'
            pathlib.Path(name + ".toml").write_text(keys, encoding="utf-8")
            drawn["loops-" + name] = picture(compiled(program, name + ".toml")[0], title)
    finally:
        os.chdir(here)
    return drawn
