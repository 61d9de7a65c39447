#!/usr/bin/env python3
"""How `adbank compile`, `check` and `decompile` compare with the plain programs of plain_compiler.py, plain_check.py and
plain_decompile.py.

    compare_banks.py PROGRAM [MANIFEST..]

Each manifest is compiled there, and by `PROGRAM compile` in a fresh folder with a copy of the same files. What is said,
the exit status and every file in that folder must be the same, byte for byte. Then the stored bank is checked by both, as
it is and with one of its files damaged, and what is said and the status must be the same. Without a manifest the banks are
those of examples/ and of seeded_banks.py.
"""

import os
import pathlib
import subprocess
import sys
import tempfile
import time

import bank_manifest
import seeded_banks
import brr_bank
import spu_bank
from plain_check import check_bank
from plain_compiler import Outcome, compile_bank
from plain_decompile import decompile
from seeded_banks import Bank
from seeded_damage import damaged

EXAMPLES = pathlib.Path(__file__).resolve().parents[2] / "examples"


def run_program(program, files, *words):
    """How the program ends with these words in a fresh folder with these files."""
    with tempfile.TemporaryDirectory() as folder:
        for name, data in files.items():
            pathlib.Path(folder, name).write_bytes(data)
        done = subprocess.run([program, *words], cwd=folder, stdout=subprocess.PIPE, check=False)
        after = {path.name: path.read_bytes() for path in pathlib.Path(folder).iterdir()}
    return Outcome(done.returncode, done.stdout, after)


def differences(want, have):
    """In words, where two outcomes differ."""
    found = []
    if have.status != want.status:
        found.append(f"status {have.status}, wanted {want.status}")
    if have.said != want.said:
        found.append(f"said {have.said!r}, wanted {want.said!r}")
    for name in sorted(want.files.keys() | have.files.keys()):
        if want.files.get(name) != have.files.get(name):
            found.append(f"file {name}: {differs_at(want.files.get(name), have.files.get(name))}")
    return found


def differs_at(want, have):
    """In words, where the bytes of a file differ; None for a file that is not there."""
    if want is None or have is None:
        return "not wanted" if want is None else "not there"
    at = len(os.path.commonprefix([want, have]))
    return f"{len(have)} bytes, wanted {len(want)}, the first difference at {at}"


def form_of(data):
    """Which kind of stored bank a file is, if it is one."""
    if data[:4] == b"RIFF":
        return "ima" if data[20:22] == b"\x11\0" else None
    return {b"SNBI": "brr", b"VAGp": "vag"}.get(data[:4])


def compare_apart(program, bank, compiled):
    """In words, where decompilations of what was stored differ: of each file as it is, and damaged."""
    found = []
    for name in sorted(compiled.files.keys() - bank.files.keys()):
        form = form_of(compiled.files[name])
        for what, files in [("whole", compiled.files), *damaged(bank.name + name, compiled.files, [name], 4)] if form else ():
            have = run_program(program, files, "decompile", form, name, "out")
            found += [f"decompile {name}, {what}: {line}" for line in differences(decompile(files, form, name, "out"), have)]
    return found


def bank_at(path):
    """The bank of a manifest, with all files beside it."""
    files = {file.name: file.read_bytes() for file in path.resolve().parent.iterdir() if file.is_file()}
    return Bank(str(path), files, path.name, "")


def narrowed(bank):
    """The same bank with a narrow beam and a small budget: the plain compiler is slow."""
    lines = [line for line in bank.files[bank.own].decode().split("\n") if not line.startswith(("beam", "budget"))]
    return bank._replace(files={**bank.files, bank.own: "\n".join(["beam = 1", "budget = 200", *lines]).encode()})


def compare(program, banks):
    """Compares bank by bank and says how each ends; answers how many differ."""
    differing = 0
    for bank in banks:
        want = compile_bank(bank.files, bank.own)
        assert want.said.startswith(bank.says.encode()), (bank.name, want.said)
        found = differences(want, run_program(program, bank.files, "compile", bank.own))
        if want.status == 0:
            found += compare_checks(program, bank, want) + compare_apart(program, bank, want)
        differing += bool(found)
        print(f"{bank.name}: status {want.status}, {'DIFFERS' if found else 'same'}")
        for line in found:
            print("    " + line)
        sys.stdout.flush()
    return differing


def compare_checks(program, bank, compiled):
    """In words, where checks of a compiled bank differ: as it is, and with one file damaged."""
    stored = sorted(compiled.files.keys() - bank.files.keys())
    names = [name for name in stored if not name.endswith(".first.wav")]
    found, plain = [], check_bank(compiled.files, bank.own)
    if plain.said.splitlines()[:-1] != compiled.said.splitlines()[:-1]:
        found.append(f"its check says {plain.said!r}")
    for what, files in [("whole", compiled.files), *damaged(bank.name, compiled.files, names, 8)]:
        want = plain if what == "whole" else check_bank(files, bank.own)
        found += [f"check, {what}: {line}" for line in differences(want, run_program(program, files, "check", bank.own))]
    return found


def banks_at(paths):
    """The banks of these manifests, or without any the examples and the seeded ones."""
    if paths:
        return [bank_at(path) for path in paths]
    return [narrowed(bank_at(path)) for path in sorted(EXAMPLES.glob("*.toml"))] + seeded_banks.banks()


def main(words):
    """Runs the comparison; ends with 1 where something differs."""
    if not words:
        sys.exit("usage: compare_banks.py PROGRAM [MANIFEST..]")
    if bank_manifest.tomllib is None:
        sys.exit("compare_banks: Python 3.11 or later is needed to read manifests")
    program = os.path.abspath(words[0])
    if not os.path.exists(program):
        sys.exit(f"compare_banks: there is no program {program}")
    begin = time.monotonic()
    brr_bank.check_floors()
    spu_bank.check_floors()
    banks = banks_at([pathlib.Path(word) for word in words[1:]])
    differing = compare(program, banks)
    print(f"{len(banks)} banks, {differing} differ, {time.monotonic() - begin:.0f} seconds")
    return 1 if differing else 0


if __name__ == "__main__":
    sys.exit(main(sys.argv[1:]))
