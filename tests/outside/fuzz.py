#!/usr/bin/env python3
"""Damaged files and words of every kind, each run compared with the plain programs of this folder.

    fuzz.py PROGRAM [SECONDS [SEED]]

Small banks of every format are compiled, and again and again one of their files is damaged and a command is run over them:
`compile` over a damaged manifest or source, `check`, `decompile` and `play` over a damaged image, VAG file, WAVE file of IMA
ADPCM or certificate, `block` over any bytes, and words that are mostly no command. What is said, the status and every file
must be as plain_words.py says. The cases follow from the seed; so many processes as there are processors run them for so
many seconds (60), each with a seed of its own.
"""

import multiprocessing
import os
import pathlib
import random
import resource
import subprocess
import sys
import tempfile
import time

import bank_manifest
import seeded_banks
from compare_banks import differences, form_of
from plain_compiler import Fault, Outcome, compile_bank, open_bank
from plain_words import end_of
from seeded_banks import OWN
from seeded_damage import WAYS

# A bank's format, its budget, and for each of its samples the frames, the first and last frame of its loop, and how loud it is.
BANKS = (
    ("brr", 0, ((40, (8, 39), 9000), (16, None, 40))),
    ("brr", 600, ((32, None, 30),)),
    ("spu", 0, ((56, (28, 55), 9000), (30, None, 32767))),
    ("spu", 300, ((56, None, 15),)),
    ("ima", 0, ((30, (9, 20), 300), (9, None, 32767))),
    ("ima", 200, ((18, None, 1),)),
)
# The most that a manifest may ask for, and how loud a sound may be where cells are searched, since the plain search is slow.
MOST_BEAM, MOST_BUDGET, MOST_LOUD = 2, 600, 40
WORDS = ("block", "compile", "check", "bound", "decompile", "play", "make", "brr", "vag", "ima", "dsp", "0", "63", "64", "00", "+1", "1000000", "1000001", "4294967296")
ODD_WORDS = ("", "-", "--", "-h", "--help", "--version", "help", "comp", "Compile", "check ", "\u00e9", OWN, "absent")


def sources(form, budget, sounds):
    """The manifest of a bank, and its sounds."""
    rng, files, entries = random.Random(form), {}, []
    for number, (frames, loop, loud) in enumerate(sounds):
        name = f"s{number}"
        files[name + ".wav"] = seeded_banks.wave([[rng.randrange(-loud - 1, loud + 1) for _ in range(frames)]], loop=loop)
        entries.append({"name": name, "file": name + ".wav"})
    keys = {"format": form, "beam": 1, "budget": budget, **({"length": "unroll", "block": 8} if form == "ima" else {})}
    return {**files, OWN: seeded_banks.manifest(entries, **keys)}


def stored_banks():
    """The files of each bank, and those with what its compilation stores."""
    found = []
    for bank in BANKS:
        files = sources(*bank)
        done = compile_bank(files, OWN)
        assert done.status == 0, done.said
        found.append((files, {**done.files, "raw": bytes(range(32))}))
    return found


def is_quick(files):
    """Whether the plain programs end soon over these files."""
    try:
        manifest, _, found = open_bank(files, OWN)
    except Fault:
        return True
    loud = max(abs(target) for sample in found for target in sample.targets)
    return manifest["beam"] <= MOST_BEAM and manifest["budget"] <= (MOST_BUDGET if loud <= MOST_LOUD else 0)


def any_words(rng):
    """Words that are mostly no command."""
    words = [rng.choice(WORDS if rng.randrange(4) else ODD_WORDS) for _ in range(rng.randrange(7))]
    # the plain programs have no `make`
    return words if words[:1] != ["make"] else ["make", "07"]


def words_for(rng, files, name):
    """A command over a damaged file of a bank."""
    form = form_of(files[name]) or rng.choice(("brr", "vag", "ima"))
    if name == "raw":
        return ["block", "raw", "out"]
    if name.endswith((".cert", ".toml")) or rng.randrange(3) == 0:
        return ["check", OWN] if rng.randrange(4) else ["bound", OWN, str(rng.choice((0, 1, 50)))]
    if rng.randrange(2):
        return ["decompile", form, name, "out"]
    return ["play", form, name, str(rng.choice((0, 0, 1, 63))), str(rng.randrange(200))]


def any_case(rng, banks):
    """The words of a run, and the files that it is over."""
    sources, stored = rng.choice(banks)
    if rng.randrange(10) == 0:
        return any_words(rng), stored
    fresh = rng.randrange(3) == 0
    files = sources if fresh else stored
    name = rng.choice([name for name in files if files[name] and not name.endswith(".first.wav")])
    data = files[name]
    for _ in range(rng.choice((1, 1, 1, 2, 5))):
        data = rng.choice(WAYS)(rng, data) or data
    damaged = {**files, name: data}
    return ["compile", OWN] if fresh else words_for(rng, damaged, name), damaged


def run_in(folder, program, files, words):
    """How the program ends in a folder, which afterwards is empty."""
    for name, data in files.items():
        (folder / name).write_bytes(data)
    done = subprocess.run([program, *words], cwd=folder, stdout=subprocess.PIPE, check=False)
    after = {path.name: path.read_bytes() for path in folder.iterdir()}
    for name in after:
        (folder / name).unlink()
    return Outcome(done.returncode, done.stdout, after)


def work(program, seed, seconds, results):
    """Runs cases until the time is over; tells how many, those that differ, and the most memory that a run took."""
    rng, banks, count, differing = random.Random(seed), stored_banks(), 0, []
    quick = os.path.isdir("/dev/shm") and "/dev/shm" or None
    with tempfile.TemporaryDirectory(dir=quick) as place:
        begin = time.monotonic()
        while time.monotonic() < begin + seconds and len(differing) < 5:
            words, files = any_case(rng, banks)
            if words[:1] in (["compile"], ["check"], ["bound"]) and not is_quick(files):
                continue
            count += 1
            end = run_in(pathlib.Path(place), program, files, words)
            found = differences(end_of(words, files, end.said), end)
            if found:
                differing.append((seed, count, words, found, files))
    results.put((count, differing, resource.getrusage(resource.RUSAGE_CHILDREN).ru_maxrss))


def kept(files):
    """A new folder with the files of a case."""
    place = pathlib.Path(tempfile.mkdtemp(prefix="adbank-fuzz-"))
    for name, data in files.items():
        (place / name).write_bytes(data)
    return place


def main(words):
    """Runs the cases; ends with 1 where a run ends otherwise than it must."""
    if not words or bank_manifest.tomllib is None:
        sys.exit("usage: fuzz.py PROGRAM [SECONDS [SEED]], with Python 3.11 or later")
    program, seconds, seed = os.path.abspath(words[0]), float(words[1]) if words[1:] else 60, int(words[2]) if words[2:] else time.time_ns() % 10**6
    results = multiprocessing.Queue()
    workers = [multiprocessing.Process(target=work, args=(program, 1000 * seed + each, seconds, results)) for each in range(os.cpu_count())]
    for worker in workers:
        worker.start()
    ends = [results.get() for _ in workers]
    for worker in workers:
        worker.join()
    count, memory = sum(end[0] for end in ends), max(end[2] for end in ends)
    for own, number, given, found, files in (case for end in ends for case in end[1]):
        print(f"seed {own}, case {number}: {given} in {kept(files)}")
        print("".join(f"    {line}\n" for line in found), end="")
    differing = sum(len(end[1]) for end in ends)
    print(f"seed {seed}: {count} cases, {count / seconds:.0f} a second, {differing} differ, {memory // 1024} MB at most")
    return 1 if differing else 0


if __name__ == "__main__":
    sys.exit(main(sys.argv[1:]))
