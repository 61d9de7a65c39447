#!/usr/bin/env python3
"""Makes the sounds of the examples: a plucked string, a drum, an organ, a vowel, a noise hit, a plain tone, and single turns of
three waves.

Each is a 16-bit mono WAVE file; all but the drum and the hit have a loop in a `smpl` chunk.
The files are the same on every run.
"""
import math
import os
import struct

RATE = 16000
HERE = os.path.dirname(os.path.abspath(__file__))


def noise(seed):
    """An endless row of numbers from -1 to 1: a linear congruence."""
    state = seed
    while True:
        state = (state * 1664525 + 1013904223) % 2**32
        yield state / 2**31 - 1


def pluck(frames, period):
    """A plucked string: a row of noise that is averaged with its neighbour at each turn."""
    source = noise(1)
    string = [next(source) for _ in range(period)]
    out = []
    for i in range(frames):
        out.append(string[i % period])
        string[i % period] = 0.5 * (string[i % period] + string[(i + 1) % period])
    # the loop is one turn that no longer changes
    last = out[-period:]
    return [0.9 * x for x in out + last], (frames, frames + period - 1)


def drum(frames):
    """A drum: a falling tone and some noise, which die away."""
    source = noise(2)
    out = []
    phase = 0.0
    for i in range(frames):
        t = i / frames
        phase += 2 * math.pi * (60 + 140 * math.exp(-8 * t)) / RATE
        out.append((0.8 * math.sin(phase) + 0.2 * next(source)) * math.exp(-6 * t))
    return out, None


def tone(frames, start, period):
    """A tone of two partials that swells before its loop."""
    out = []
    for i in range(frames):
        swell = min(1.0, (i + 1) / start)
        turn = 2 * math.pi * i / period
        out.append(swell * (0.5 * math.sin(turn) + 0.2 * math.sin(3 * turn)))
    return out, (start, frames - 1)


def organ(start, period):
    """An organ: the drawbars of one key, with a click that dies away, and a loop of one turn."""
    bars = ((1, 0.36), (2, 0.2), (3, 0.16), (4, 0.1), (6, 0.06))
    out = []
    for i in range(start + period):
        turn = 2 * math.pi * i / period
        click = 0.15 * math.exp(-i / 20) * math.sin(7.3 * turn)
        out.append(min(1.0, (i + 1) / 60) * sum(level * math.sin(bar * turn) for bar, level in bars) + click)
    return out, (start, start + period - 1)


def vowel(start, period):
    """A vowel as in "father": pulses of the voice through three resonators, and a loop of one turn."""
    out = [1.0 if i % period == 0 else -1.0 / (period - 1) for i in range(start + period)]
    for pitch, width in ((700, 90), (1220, 110), (2600, 160)):
        decay = math.exp(-math.pi * width / RATE)
        echo = 2 * decay * math.cos(2 * math.pi * pitch / RATE)
        last = older = 0.0
        for i, x in enumerate(out):
            last, older = (1 - echo + decay * decay) * x + echo * last - decay * decay * older, last
            out[i] = last
    most = max(abs(x) for x in out)
    return [0.8 * x / most * min(1.0, (i + 1) / 400) for i, x in enumerate(out)], (start, start + period - 1)


def hit(frames):
    """A noise hit: noise that grows duller as it dies away."""
    source = noise(3)
    out = []
    last = 0.0
    for i in range(frames):
        t = i / frames
        last += (0.25 + 0.7 * math.exp(-5 * t)) * (next(source) - last)
        out.append(0.9 * last * math.exp(-5 * t))
    return out, None


def turn(period, wave_at):
    """One turn of a wave, which is its own loop; the wave is a function of the part of the turn."""
    return [0.85 * wave_at(i / period) for i in range(period)], (0, period - 1)


def chunk(name, body):
    return name + struct.pack("<I", len(body)) + body + b"\0" * (len(body) % 2)


def wave(sound, loop):
    """The bytes of a WAVE file of a sound, and of its loop where it has one."""
    samples = [max(-32768, min(32767, round(32767 * x))) for x in sound]
    body = b"WAVE"
    body += chunk(b"fmt ", struct.pack("<HHIIHH", 1, 1, RATE, 2 * RATE, 2, 16))
    body += chunk(b"data", struct.pack("<%dh" % len(samples), *samples))
    if loop:
        fields = (0, 0, 10**9 // RATE, 60, 0, 0, 0, 1, 0, 0, 0, loop[0], loop[1], 0, 0)
        body += chunk(b"smpl", struct.pack("<15I", *fields))
    return chunk(b"RIFF", body)


def main():
    sounds = {
        "pluck": pluck(4000, 64),
        "drum": drum(3000),
        "organ": organ(640, 48),
        "vowel": vowel(1900, 100),
        "hit": hit(2400),
        "tone": tone(1600, 800, 100),
        "sine": turn(64, lambda part: math.sin(2 * math.pi * part)),
        "pulse": turn(64, lambda part: 1 if part < 0.125 else -1 / 7),
        "square": turn(32, lambda part: 1 if part < 0.5 else -1),
    }
    for name, (sound, loop) in sounds.items():
        with open(os.path.join(HERE, name + ".wav"), "wb") as file:
            file.write(wave(sound, loop))


main()
