#!/usr/bin/env python3
"""Takes an image of sound memory apart into one .brr file a sample, and joins such files again.

A .brr file is what SNES tools read: two bytes, low byte first, with the loop offset, which counts the bytes from the
first block to the loop block (0 where there is no loop), and then the blocks. Beside the files stands order.txt, with
the base, and for each sample in order its rate and its file:

    base 512
    sample 16000 pluck.brr

Joined again, the files give the same bytes. An image whose samples do not fill its memory in order, one behind the
other, is not taken apart without --loose, since its bytes could not come back. Images are described in docs/FORMATS.md;
where one is damaged, the fault has the name that it has there.
"""

import argparse
import os
import re
import struct
import sys
from typing import NamedTuple

ORDER = "order.txt"
BLOCK = 9
ENDS, REPEATS = 1, 2
MOST_SAMPLES, MOST_BASE, MOST_RATE, MEMORY_END = 64, 65280, 1000000, 65536


class Refused(Exception):
    """Why a file is not taken, in words."""


class Sample(NamedTuple):
    """The rate, the blocks as they are stored, and the loop block's place in them or None."""

    rate: int
    blocks: bytes
    loop: int | None


class Bank(NamedTuple):
    """The address in sound memory, and samples in order."""

    base: int
    samples: list


def track_at(memory, at):
    """The blocks from a place on up to the first that ends; None where none does."""
    for end in range(at + BLOCK, len(memory) + 1, BLOCK):
        if memory[end - BLOCK] & ENDS:
            return memory[at:end]
    return None


def repeats(blocks):
    """Whether blocks go on at a loop address after the last."""
    return bool(blocks[-BLOCK] & REPEATS)


def check_numbers(base, count):
    """Refuses a base or a count of samples that no image has."""
    if not 1 <= count <= MOST_SAMPLES:
        raise Refused(f"BadEntries {count}")
    if base % 256 or base > MOST_BASE:
        raise Refused(f"BadBase {base}")


def read_entry(memory, base, number, rate):
    """One sample of an image."""
    if not 1 <= rate <= MOST_RATE:
        raise Refused(f"BadRate {number} {rate}")
    if 4 * number + 4 > len(memory):
        raise Refused(f"BadEntry {number}")
    start, loop = (address - base for address in struct.unpack_from("<HH", memory, 4 * number))
    blocks = track_at(memory, start) if start >= 0 else None
    if blocks is None:
        raise Refused(f"BadEntry {number}")
    if not repeats(blocks):
        return Sample(rate, blocks, None)
    if loop - start not in range(0, len(blocks), BLOCK):
        raise Refused(f"BadLoopAddress {number}")
    return Sample(rate, blocks, loop - start)


def read_image(data):
    """The bank in an image."""
    if data[:4] != b"SNBI" or len(data) < 16:
        raise Refused("NotImage")
    version, count, base, length = struct.unpack_from("<HHII", data, 4)
    if version != 1:
        raise Refused(f"BadVersion {version}")
    check_numbers(base, count)
    if base + length > MEMORY_END:
        raise Refused(f"ImageFull {base + length}")
    need = 16 + 4 * count + length
    if len(data) != need:
        raise Refused(f"ImageLength {len(data)} {need}")
    rates = struct.unpack_from(f"<{count}I", data, 16)
    memory = data[16 + 4 * count :]
    return Bank(base, [read_entry(memory, base, number, rate) for number, rate in enumerate(rates)])


def write_image(bank):
    """The image of a bank: a directory, and then the samples one behind the other."""
    directory, at = b"", bank.base + 4 * len(bank.samples)
    blocks = b"".join(sample.blocks for sample in bank.samples)
    if at + len(blocks) > MEMORY_END:
        raise Refused(f"ImageFull {at + len(blocks)}")
    for sample in bank.samples:
        directory += struct.pack("<HH", at, at + (sample.loop or 0))
        at += len(sample.blocks)
    memory = directory + blocks
    head = b"SNBI" + struct.pack("<HHII", 1, len(bank.samples), bank.base, len(memory))
    return head + struct.pack(f"<{len(bank.samples)}I", *(sample.rate for sample in bank.samples)) + memory


def read_brr(data, rate):
    """The sample in a .brr file."""
    offset, blocks = int.from_bytes(data[:2], "little"), data[2:]
    if not blocks or len(blocks) % BLOCK:
        raise Refused(f"{len(data)} bytes are not a loop offset of 2 and blocks of {BLOCK}")
    track = track_at(blocks, 0)
    if track is None:
        raise Refused("no block ends the sample")
    if track != blocks:
        raise Refused(f"block {len(track) // BLOCK - 1} ends the sample, and others follow")
    if not repeats(blocks):
        return Sample(rate, blocks, None)
    if offset not in range(0, len(blocks), BLOCK):
        raise Refused(f"no block begins at the loop offset {offset}")
    return Sample(rate, blocks, offset)


def write_brr(sample):
    """The .brr file of a sample."""
    return (sample.loop or 0).to_bytes(2, "little") + sample.blocks


def write_order(base, rows):
    """The text of order.txt for rows of a rate and a file's name."""
    return "".join([f"base {base}\n", *(f"sample {rate} {name}\n" for rate, name in rows)])


def read_order(text):
    """The base, and rows of a rate and a file's name, of order.txt."""
    base, rows = None, []
    for number, line in enumerate(text.splitlines(), 1):
        if base is None and (found := re.fullmatch(r"base ([0-9]{1,9})", line, re.ASCII)):
            base = int(found[1])
        elif base is not None and (found := re.fullmatch(r"sample ([0-9]{1,9}) ([^/\0]+)", line, re.ASCII)):
            rows.append((int(found[1]), found[2]))
            if not 1 <= rows[-1][0] <= MOST_RATE:
                raise Refused(f"line {number}: BadRate {len(rows) - 1} {found[1]}")
        else:
            raise Refused(f"line {number} is not `{'base ADDRESS' if base is None else 'sample RATE FILE'}`")
    if base is None:
        raise Refused("it is empty")
    check_numbers(base, len(rows))
    return base, rows


def refused_in(path, read, *given):
    """What `read` makes of something given; what it refuses is said of the file at this path."""
    try:
        return read(*given)
    except Refused as why:
        raise Refused(f"{path}: {why}") from why


def fetch(path):
    """The bytes of a file."""
    with open(path, "rb") as file:
        return file.read()


def names_of(count, given):
    """The names of the files: those that are given, or numbers."""
    names = given or [f"{number:02}" for number in range(count)]
    if len(names) != count:
        raise Refused(f"it has {count} samples, and {len(names)} names are given")
    for at, name in enumerate(names):
        if not re.fullmatch(r"[\w-][\w.-]*", name, re.ASCII) or name in names[:at]:
            raise Refused(f"`{name}` is no name for a file, or is given twice")
    return [name + ".brr" for name in names]


def split(image, folder, given, loose):
    """Takes an image apart into a folder."""
    data = fetch(image)
    bank = refused_in(image, read_image, data)
    files = refused_in(image, names_of, len(bank.samples), given)
    if not loose and write_image(bank) != data:
        raise Refused(f"{image}: its samples do not fill it in order; --loose takes it apart all the same")
    os.makedirs(folder, exist_ok=True)
    for file, sample in zip(files, bank.samples):
        with open(os.path.join(folder, file), "wb") as out:
            out.write(write_brr(sample))
    with open(os.path.join(folder, ORDER), "w", encoding="ascii", newline="\n") as out:
        out.write(write_order(bank.base, [(sample.rate, file) for file, sample in zip(files, bank.samples)]))


def join(folder, image):
    """Joins the files of a folder into an image."""
    order = os.path.join(folder, ORDER)
    text = fetch(order).decode("utf-8", "replace")
    base, rows = refused_in(order, read_order, text)
    samples = []
    for rate, name in rows:
        path = os.path.join(folder, name)
        samples.append(refused_in(path, read_brr, fetch(path), rate))
    data = refused_in(order, write_image, Bank(base, samples))
    with open(image, "wb") as out:
        out.write(data)


class Words(argparse.ArgumentParser):
    """Reads the words; what is wrong with them is one line."""

    def error(self, message):
        self.exit(2, f"brr_split: {message}; --help says more\n")


def words():
    """What the words may be."""
    parser = Words(prog="brr_split.py", description=__doc__, formatter_class=argparse.RawDescriptionHelpFormatter)
    commands = parser.add_subparsers(dest="command", required=True, metavar="COMMAND")
    part = commands.add_parser("split", help="take an image apart")
    part.add_argument("--loose", action="store_true", help="although joining could not give the same bytes")
    part.add_argument("image", metavar="IMAGE")
    part.add_argument("folder", metavar="FOLDER", help="which is made if it is not there")
    part.add_argument("names", metavar="NAME", nargs="*", help="names of the samples in order; numbers if none is given")
    whole = commands.add_parser("join", help="join what split has made")
    whole.add_argument("folder", metavar="FOLDER")
    whole.add_argument("image", metavar="IMAGE")
    return parser


def main(given):
    """Runs one command; answers 1 where it is refused or fails."""
    asked = words().parse_args(given)
    try:
        if asked.command == "split":
            split(asked.image, asked.folder, asked.names, asked.loose)
        else:
            join(asked.folder, asked.image)
    except Refused as why:
        print(f"brr_split: {why}", file=sys.stderr)
        return 1
    except OSError as why:
        print(f"brr_split: {why.filename}: {why.strerror}", file=sys.stderr)
        return 1
    return 0


if __name__ == "__main__":
    sys.exit(main(sys.argv[1:]))
