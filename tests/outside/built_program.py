"""The program that the tests here run: the first word of a test, where it is a file, else build/adbank."""

import os
import pathlib
import subprocess
import sys

ROOT = pathlib.Path(__file__).resolve().parents[2]
PROGRAM = os.path.abspath(sys.argv.pop(1) if sys.argv[1:] and os.path.isfile(sys.argv[1]) else ROOT / "build" / "adbank")


def run(words, folder, **given):
    """How some words end in a folder, with what they say as texts."""
    if "input" not in given:
        given["stdin"] = subprocess.DEVNULL
    return subprocess.run(list(map(str, words)), cwd=folder, capture_output=True, text=True, check=False, **given)


def adbank(folder, *words):
    """How the program ends in a folder."""
    return run([PROGRAM, *words], folder)


def tool(folder, name, *words, **given):
    """How a tool ends in a folder."""
    return run([sys.executable, "-B", ROOT / "tools" / name, *words], folder, **given)


def compile_files(folder, files, own):
    """What the program says when it compiles the manifest `own` beside these files."""
    for name, data in files.items():
        pathlib.Path(folder, name).write_bytes(data)
    done = adbank(folder, "compile", own)
    assert done.returncode == 0, done.stdout
    return done.stdout
