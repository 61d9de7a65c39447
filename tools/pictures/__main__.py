#!/usr/bin/env python3
"""Draws pictures of a bank as SVG files: what was encoded, how well, and where it errs.

The bank of MANIFEST is compiled by the program in this folder, as `adbank compile MANIFEST` does it, and played. FOLDER
then has `bars.svg` with the error and the bound of each sample, and for each sample `NAME-sound.svg` with source and
decoded sound over each other and `NAME-blocks.svg` with the error of each block. With --loops it has instead four
pictures of what `exact`, `unroll`, `front` and `rotate` do to a loop.
"""

import argparse
import os
import pathlib
import shutil
import sys
import tempfile

import bars
import blocks
import loops
import sound
from bank import Trouble, compiled

BUILT = pathlib.Path(__file__).resolve().parents[2] / "build" / "adbank"


def arguments():
    """The words of the command line."""
    parser = argparse.ArgumentParser(
        prog="pictures", description=__doc__, formatter_class=argparse.RawDescriptionHelpFormatter
    )
    parser.add_argument("manifest", nargs="?", metavar="MANIFEST", help="the manifest of a bank; its files are found from here")
    parser.add_argument("--loops", action="store_true", help="draw what is done to a loop")
    parser.add_argument("--into", default="pictures", metavar="FOLDER", help="where the pictures go (pictures)")
    parser.add_argument("--program", metavar="PROGRAM", help="the built program (build/adbank beside this tool, else adbank)")
    found = parser.parse_args()
    if (found.manifest is None) != found.loops:
        parser.error("name a manifest, or --loops")
    return found


def pictures(program, manifest):
    """The pictures by name: of a manifest's bank, or of loops where there is none."""
    if manifest is None:
        with tempfile.TemporaryDirectory() as folder:
            return loops.pictures(program, folder)
    samples = compiled(program, manifest)
    drawn = {"bars": bars.picture(samples)}
    for sample in samples:
        drawn[sample.name + "-sound"] = sound.picture(sample)
        drawn[sample.name + "-blocks"] = blocks.picture(sample)
    return drawn


def main():
    """Draws, and says where."""
    asked = arguments()
    program = shutil.which(asked.program or (BUILT if BUILT.exists() else "adbank"))
    if program is None:
        sys.exit("pictures: there is no program; run make, or name it with --program")
    try:
        drawn = pictures(os.path.abspath(program), asked.manifest)
        folder = pathlib.Path(asked.into)
        folder.mkdir(parents=True, exist_ok=True)
        for name, text in drawn.items():
            (folder / (name + ".svg")).write_text(text, encoding="utf-8")
    except (Trouble, OSError, ValueError) as trouble:
        sys.exit(f"pictures: {trouble}")
    print(f"{len(drawn)} pictures in {folder}")


if __name__ == "__main__":
    main()
