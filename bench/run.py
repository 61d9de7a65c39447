#!/usr/bin/env python3
"""Times the built program on generated inputs, and prints a table.

The inputs are the same on every run. Ratios compare lines of one run: they say how time grows.
"""
import os
import re
import resource
import shutil
import struct
import subprocess
import sys
import time

HERE = os.path.dirname(os.path.abspath(__file__))
ADBANK = os.path.join(HERE, "..", "build", "adbank")
WORK = os.path.join(HERE, "..", "build", "bench")
OUTSIDE = os.path.join(HERE, "..", "tests", "outside")


def chunk(name, body):
    return name + struct.pack("<I", len(body)) + body + b"\0" * (len(body) % 2)


def noise(frames):
    """A walk of small random steps, by a linear congruence."""
    state, value, out = 1, 0, []
    for _ in range(frames):
        state = (state * 1664525 + 1013904223) % 2**32
        value = max(-32768, min(32767, value + (state >> 22) - 512))
        out.append(value)
    return out


def wave(samples):
    fmt = struct.pack("<HHIIHH", 1, 1, 32000, 64000, 2, 16)
    data = struct.pack("<%dh" % len(samples), *samples)
    return chunk(b"RIFF", b"WAVE" + chunk(b"fmt ", fmt) + chunk(b"data", data))


def manifest(bank, file, kind="brr", beam=1, budget=0):
    top = 'format = "%s"\nbank = "%s"\nbeam = %d\nbudget = %d\nblock = 256\n' % (kind, bank, beam, budget)
    return top + '[[sample]]\nname = "s"\nfile = "%s"\n' % file


def image(blocks):
    """An image of one entry whose last block repeats from the first."""
    bodies = b"".join(bytes([0x50 | (3 if b + 1 == blocks else 0)]) + bytes([0x1F] * 8) for b in range(blocks))
    memory = struct.pack("<HH", 516, 516) + bodies
    return b"SNBI" + struct.pack("<HHIII", 1, 1, 512, len(memory), 32000) + memory


def write(name, content):
    with open(os.path.join(WORK, name), "wb" if isinstance(content, bytes) else "w") as file:
        file.write(content)


def run(*words):
    """The least time of three runs, in seconds, and what was said."""
    best = None
    for _ in range(3):
        begin = time.perf_counter()
        done = subprocess.run([ADBANK, *words], cwd=WORK, stdout=subprocess.PIPE, check=False)
        taken = time.perf_counter() - begin
        best = taken if best is None else min(best, taken)
    return best, done.stdout.decode()


def cells_in(name):
    """How many cells the certificate of a file lists."""
    with open(os.path.join(WORK, name), "rb") as file:
        data = file.read()
    cells, at = 0, 8
    for _ in range(struct.unpack_from("<H", data, 6)[0]):
        layers = struct.unpack_from("<I", data, at + 12)[0]
        at += 16
        for _ in range(layers):
            count = struct.unpack_from("<I", data, at + 6)[0]
            cells += count
            at += 10 + 12 * count
    return cells, len(data)


def show(title, rows):
    """Rows by twos, the second of each beside the first."""
    print("%-34s %10s %8s" % (title, "seconds", "ratio"))
    for i, (name, taken) in enumerate(rows):
        ratio = "" if i % 2 == 0 else "%8.1f" % (taken / rows[i - 1][1])
        print("%-34s %10.3f %s" % (name, taken, ratio))
    print()


def reading():
    """Compiling by a narrow beam, walking chunks, and playing."""
    rows = []
    for frames in (8192, 65536):
        write("f%d.wav" % frames, wave(noise(frames)))
        write("f%d.toml" % frames, manifest("f%d.img" % frames, "f%d.wav" % frames))
        rows.append(("compile %d frames" % frames, run("compile", "f%d.toml" % frames)[0]))
    for chunks in (65536, 524286):
        write("c%d.wav" % chunks, b"RIFF" + struct.pack("<I", 4 + 8 * chunks) + b"WAVE" + b"LIST\0\0\0\0" * chunks)
        write("c%d.toml" % chunks, manifest("c%d.img" % chunks, "c%d.wav" % chunks))
        rows.append(("walk %d chunks" % chunks, run("compile", "c%d.toml" % chunks)[0]))
    write("play.img", image(4096))
    for count in (100000, 1000000):
        rows.append(("play %d outputs" % count, run("play", "brr", "play.img", "0", str(count))[0]))
    show("", rows)


def beams():
    """Beams of two widths in each format."""
    rows = []
    for kind, frames in (("brr", 65536), ("spu", 65536), ("ima", 22050)):
        write("b%s.wav" % kind, wave(noise(frames)))
        for beam in (1, 8):
            name = "b%s%d" % (kind, beam)
            write(name + ".toml", manifest(name, "b%s.wav" % kind, kind, beam))
            rows.append(("%s, %d frames, beam %d" % (kind, frames, beam), run("compile", name + ".toml")[0]))
    show("beam", rows)


def search():
    """Searches of one segment by budgets, and checks of what they leave."""
    print("%-34s %10s %10s %10s %12s" % ("search, then check", "seconds", "cells", "bytes", "us a cell"))
    write("s.wav", wave([value // 16 for value in noise(512)]))
    for kind in ("brr", "spu", "ima"):
        for budget in (10000, 100000, 1000000):
            name = "s%s%d" % (kind, budget)
            write(name + ".toml", manifest(name, "s.wav", kind, 8, budget))
            taken, said = run("compile", name + ".toml")
            cells, size = cells_in(name + ".s.cert")
            levels = said.split("levels ")[1].split("\n")[0]
            print("%-34s %10.3f %10d %10d %12s" % ("%s, budget %d, levels %s" % (kind, budget, levels), taken, cells, size, ""))
            taken, _ = run("check", name + ".toml")
            each = "%12.2f" % (1e6 * taken / cells) if cells else ""
            print("%-34s %10.3f %10d %10d %s" % ("    its check", taken, cells, size, each))
    most = resource.getrusage(resource.RUSAGE_CHILDREN).ru_maxrss
    print("largest memory of a run: %d MB" % (most // 1024))
    print()


class Counting:
    """A machine of the plain search that counts the pieces which may lead on."""

    def __init__(self, machine):
        self.machine, self.pieces, self.most = machine, 0, 0

    def __getattr__(self, name):
        return getattr(self.machine, name)

    def symbols(self, place, target, slack):
        self.most = slack
        return self.machine.symbols(place, target, slack)

    def image(self, head, place, symbol, box, target):
        made = [piece for piece in self.machine.image(head, place, symbol, box, target) if piece[1] <= self.most]
        self.pieces += len(made)
        return made


def plain_pieces(samples, beam):
    """The cells and the pieces of a search at level 0, by the plain program."""
    sys.path.insert(0, OUTSIDE)
    import plain_machines
    import plain_search

    machine = Counting(plain_machines.machine_of({"format": "brr"}))
    search = plain_search.Search(machine, samples, plain_search.beam(machine, samples, beam)[2])
    fronts = search.forward(0, 1000000)
    return sum(map(len, fronts)), machine.pieces


def steps():
    """A search of single states beside as many steps of a decoder in C as it makes pieces."""
    compiler = shutil.which("cc")
    if compiler is None or sys.version_info < (3, 11):
        print("steps: skipped, since they need cc and Python 3.11")
        return
    program = os.path.join(WORK, "step_calls")
    subprocess.run([compiler, "-O2", "-o", program, os.path.join(HERE, "step_calls.c")], check=True)
    samples = [value // 16 for value in noise(96)]
    write("p.wav", wave(samples))
    write("p.toml", manifest("p", "p.wav", beam=8, budget=1000000))
    write("p0.toml", manifest("p", "p.wav", beam=8, budget=0))
    without = run("compile", "p0.toml")[0]
    taken = run("compile", "p.toml")[0] - without
    listed = cells_in("p.s.cert")[0]
    cells, pieces = plain_pieces(samples, 8)
    stepped = float(subprocess.run([program, str(pieces)], stdout=subprocess.PIPE, check=True).stdout.split()[0])
    print("%-34s %10s %10s %10s %12s %8s" % ("search of single states", "seconds", "cells", "pieces", "their steps", "ratio"))
    print("%-34s %10.3f %10d %10d %12.4f %8.1f" % ("brr, 6 blocks", taken, listed, pieces, stepped, taken / stepped))
    assert cells == listed, (cells, listed)
    print()


def hiss(frames):
    """Loud noise."""
    state, out = 1, []
    for _ in range(frames):
        state = (state * 1664525 + 1013904223) % 2**32
        out.append((state >> 16) - 32768)
    return out


def pluck(frames):
    """A string that is plucked: noise goes round and grows dull."""
    ring, out = hiss(100), []
    for at in range(frames):
        out.append(ring[at % 100])
        ring[at % 100] = (ring[at % 100] + ring[(at + 1) % 100]) // 2
    return out


def square(frames):
    """Both ends of 16 bits by turns."""
    return [32767 if at // 40 % 2 == 0 else -32768 for at in range(frames)]


def plain_bound():
    """The plain program of bounds near the error, where there is a compiler for it."""
    compiler = shutil.which("g++") or shutil.which("clang++")
    if compiler is None:
        return None
    program = os.path.join(WORK, "strong_bound")
    subprocess.run([compiler, "-O2", "-std=c++17", "-o", program, os.path.join(OUTSIDE, "strong_bound.cpp")], check=True)
    return program


def plainly(program, kind, samples, effort):
    """How long the plain program takes."""
    given = " ".join(map(str, samples)).encode()
    begin = time.perf_counter()
    subprocess.run([program, kind, "bound", effort], input=given, stdout=subprocess.DEVNULL, check=True)
    return time.perf_counter() - begin


def bounds():
    """Bounds near the error of one second of sound, by effort."""
    print("%-34s %10s %12s %10s" % ("bound, 32000 frames", "seconds", "bound/error", "plainly"))
    program = plain_bound()
    for name, make in (("noise", hiss), ("pluck", pluck), ("square", square)):
        samples = make(32000)
        write(name + ".wav", wave(samples))
        for kind in ("brr", "spu"):
            own = name + kind
            write(own + ".toml", manifest(own, name + ".wav", kind))
            run("compile", own + ".toml")
            for effort in ("0", "500"):
                taken, said = run("bound", own + ".toml", effort)
                error, bound = (int(said.split(word)[1].split()[0]) for word in (" error ", " bound "))
                plain = "%10.3f" % plainly(program, kind, samples, effort) if program else ""
                print("%-34s %10.3f %12.3f %s" % ("%s, %s, effort %s" % (name, kind, effort), taken, bound / error if error else 1, plain))
    print()


def profile(name):
    """The instructions of the two parts of a compilation, which are the same on every run."""
    if shutil.which("valgrind") is None:
        print("profile: skipped, since valgrind is not installed")
        return
    out = os.path.join(WORK, "profile.out")
    quiet = {"cwd": WORK, "stdout": subprocess.DEVNULL, "stderr": subprocess.DEVNULL}
    tool = ["valgrind", "--tool=callgrind", "--callgrind-out-file=" + out]
    subprocess.run([*tool, ADBANK, "compile", name], check=True, **quiet)
    told = subprocess.run(["callgrind_annotate", "--inclusive=yes", "--threshold=100", out],
                          capture_output=True, text=True, check=True).stdout
    parts = (("beam", "beam_encoder::top::beam"), ("beam and search", "bank_compile::segment::search_segment"))
    counts = []
    for _, function in parts:
        line = next((row for row in told.splitlines() if function in row), None)
        if line is None:
            print("profile: skipped, since %s is not to be seen" % function)
            return
        counts.append(int(re.match(r" *([0-9,]+)", line).group(1).replace(",", "")))
    print("%-34s %14s %8s" % (name, "instructions", "ratio"))
    for i, (part, _) in enumerate(parts):
        ratio = "" if i == 0 else "%8.2f" % (counts[i] / counts[0])
        print("%-34s %14d %s" % (part, counts[i], ratio))


def main():
    if not os.path.exists(ADBANK):
        sys.exit("bench: run make first")
    os.makedirs(WORK, exist_ok=True)
    reading()
    beams()
    search()
    steps()
    bounds()
    profile("f8192.toml")


main()
