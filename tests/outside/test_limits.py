#!/usr/bin/env python3
"""The longest inputs that every limit allows, and those that are one longer: what the program says, in what time and memory.

    test_limits.py [PROGRAM]

A table of times and of the most memory is printed at the end; docs/LIMITS.md tells what each limit is for.
"""

import os
import pathlib
import random
import struct
import tempfile
import time
import unittest

import brr
import seeded_banks
import wave_file
from built_program import PROGRAM

OWN = "m.toml"
NOISE = [random.Random(1).randrange(-32768, 32768) for _ in range(262144)]
TABLE = []


def one(form, samples, own=b"", most=None, **keys):
    """The files of a bank of one sound; its file has `most` bytes where that is said, the manifest these in front."""
    chunks = [wave_file.fmt(1, 32000, 16), wave_file.chunk(b"data", struct.pack("<%dh" % len(samples), *samples))]
    if most:
        chunks.append(wave_file.chunk(b"LIST", bytes(most - 20 - sum(map(len, chunks)))))
    text = seeded_banks.manifest([{"name": "s", "file": "s.wav"}], **{"format": form, "bank": "b", "beam": 1, "budget": 0, **keys})
    return {"s.wav": wave_file.riff(chunks)[: most or None], OWN: own + text}


def comment(files, most):
    """The same with so long a manifest."""
    return {**files, OWN: b"#" * (most - len(files[OWN]) - 1) + b"\n" + files[OWN]}


def many(count):
    """A bank of so many short sounds."""
    sound = seeded_banks.wave([[5] * 16])
    entries = [{"name": f"s{at}", "file": "s.wav"} for at in range(count)]
    return {"s.wav": sound, OWN: seeded_banks.manifest(entries, bank="b", beam=1, budget=0)}


def image(blocks, most=None):
    """An image of one entry, or with so many bytes more than its header says."""
    body = b"".join(brr.spell(0, [1] * 16, int(at + 1 == blocks)) for at in range(blocks))
    memory = struct.pack("<HH", 516, 516) + body
    data = b"SNBI" + struct.pack("<HHIII", 1, 1, 512, len(memory), 32000) + memory
    return data + bytes(most - len(data)) if most else data


def vag(blocks, most=None):
    """A VAG file of so many blocks, with bytes behind them up to `most`."""
    body = b"".join(bytes([0, int(at + 1 == blocks)]) + bytes([0x11] * 14) for at in range(blocks))
    body += bytes(most - 48 - len(body)) if most else b""
    return b"VAGp" + struct.pack(">IIII", 32, 0, len(body), 32000) + bytes(12) + b"s".ljust(16, b"\0") + body


class Limits(unittest.TestCase):
    """Each limit met, and passed by one."""

    def run_over(self, what, files, *words):
        """The status and the first and last line of a run, which is put into the table."""
        with tempfile.TemporaryDirectory() as folder:
            for name, data in files.items():
                pathlib.Path(folder, name).write_bytes(data)
            read, write = os.pipe()
            begin = time.monotonic()
            child = os.fork()
            if child == 0:
                os.chdir(folder)
                os.dup2(write, 1)
                os.close(read)
                os.execv(PROGRAM, [PROGRAM, *words])
            os.close(write)
            with os.fdopen(read, "rb") as pipe:
                said = pipe.read().decode()
            _, status, used = os.wait4(child, 0)
            TABLE.append((what, time.monotonic() - begin, used.ru_maxrss / 1024))
            after = {path.name: path.read_bytes() for path in pathlib.Path(folder).iterdir()}
        return os.waitstatus_to_exitcode(status), said, after

    def done(self, what, files, *words):
        """A run that ends with 0; gives the files afterwards."""
        status, said, after = self.run_over(what, files, *words)
        self.assertEqual(status, 0, said[:200])
        return after

    def refused(self, line, files, *words):
        """A run that says this line and stores nothing."""
        status, said, after = self.run_over(line, files, *words)
        self.assertEqual((f"{status} {said}", after), (f"{line.split()[1]} {line}\n", files))

    def test_manifest(self):
        """65,536 bytes of manifest."""
        files = one("brr", NOISE[:16])
        self.done("a manifest of 65,536 bytes", comment(files, 65536), "compile", OWN)
        self.refused("fault 3 manifest TooLong 65537", comment(files, 65537), "compile", OWN)

    def test_source(self):
        """4,194,304 bytes of a source."""
        self.done("a source of 4,194,304 bytes", one("brr", NOISE[:32], most=4194304), "compile", OWN)
        self.refused("fault 4 s FileLong 4194304", one("brr", NOISE[:32], most=4194305), "compile", OWN)
        self.refused("fault 5 s TooLong 131070", one("brr", [0] * 2097120), "compile", OWN)

    def test_samples(self):
        """64 samples."""
        self.done("64 samples", many(64), "compile", OWN)
        self.refused("fault 3 manifest TooMany 65", many(65), "compile", OWN)

    def test_blocks(self):
        """4,096 blocks, and 262,144 samples of IMA ADPCM."""
        for form, count, keys in (("brr", 65536, {}), ("spu", 114688, {}), ("ima", 261248, {"block": 1024}), ("ima", 36864, {"block": 8})):
            after = self.done(f"{count} frames of {form}, compiled", one(form, NOISE[:count], **keys), "compile", OWN)
            self.done(f"{count} frames of {form}, checked", after, "check", OWN)
            stored, word = {"brr": ("b", "brr"), "spu": ("b.s.vag", "vag"), "ima": ("b.s.wav", "ima")}[form]
            self.done(f"{count} frames of {form}, taken apart", after, "decompile", word, stored, "out")
        self.refused("fault 5 s TooLong 4097", one("brr", NOISE[:65537]), "compile", OWN)
        self.refused("fault 5 s TooLong 4097", one("spu", NOISE[:114689]), "compile", OWN)
        self.refused("fault 5 s TooLong 4097", one("ima", NOISE[:36865], block=8), "compile", OWN)

    def test_image(self):
        """65,536 bytes of sound memory."""
        self.refused("fault 6 b ImageFull 102148", one("brr", NOISE[:65536], base=65280), "compile", OWN)

    def test_search(self):
        """A budget of 1,000,000 cells, and the certificate that it makes."""
        loud = one("brr", NOISE[:65536], budget=1000000)
        after = self.done("65,536 frames of noise, budget 1,000,000", loud, "compile", OWN)
        self.done("65,536 frames of noise, budget 1,000,000, checked", after, "check", OWN)
        quiet = one("brr", [sample // 1200 for sample in NOISE[:640]], budget=1000000)
        after = self.done("640 quiet frames, budget 1,000,000", quiet, "compile", OWN)
        self.done("640 quiet frames, budget 1,000,000, checked", after, "check", OWN)

    def test_certificate(self):
        """33,554,432 bytes of a certificate."""
        after = self.done("one block, compiled", one("brr", NOISE[:16]), "compile", OWN)
        cert = after["b.s.cert"]
        long = {**after, "b.s.cert": cert + bytes(33554432 - len(cert))}
        self.refused(f"fault 7 s Trailing {len(cert)}", long, "check", OWN)
        self.refused("fault 4 s FileLong 33554432", {**long, "b.s.cert": long["b.s.cert"] + b"\0"}, "check", OWN)

    def test_stored(self):
        """8,388,608 bytes of a stored file, 4,096 blocks of it played."""
        self.done("a VAG file of 8,388,608 bytes", {"f": vag(4096, 8388608)}, "decompile", "vag", "f", "out")
        self.refused("fault 4 f FileLong 8388608", {"f": vag(4096, 8388624)}, "decompile", "vag", "f", "out")
        self.refused("fault 4 f TooMuch 4097", {"f": vag(4097)}, "decompile", "vag", "f", "out")
        self.refused("fault 4 f TooMuch 4097", {"f": image(4097)}, "play", "brr", "f", "0", "1")
        self.refused("fault 4 f ImageLength 8388608 36888", {"f": image(4096, 8388608)}, "play", "brr", "f", "0", "1")
        self.done("1,000,000 outputs", {"f": image(4096)}, "play", "brr", "f", "0", "1000000")


def show_table():
    """Prints what was measured."""
    for what, seconds, memory in TABLE:
        print(f"{what:60} {seconds:8.3f} s {memory:8.1f} MB")


unittest.addModuleCleanup(show_table)

if __name__ == "__main__":
    unittest.main()
