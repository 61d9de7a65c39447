#!/usr/bin/env python3
"""WAVE files as programs that many people use write them.

Prints each file as a Rust constant, as it stands in the tests of `wave_form`. They are written by
Python's `wave` module, by sox and by libsndfile (Debian's packages sox and libsndfile1), and the last
one field by field from the RIFF WAVE documents, with the sampler behind the samples. The samples are
those of FRAMES; nothing here comes from this project's own program.
"""

import ctypes
import os
import struct
import subprocess
import tempfile
import wave

RATE = 22050
# Left and right of each frame.
FRAMES = [(0, 5), (1000, -1), (-1000, 32767), (32767, -32768), (-32768, 256)]


def by_python(path, frames):
    """16 bits."""
    with wave.open(path, "wb") as out:
        out.setnchannels(len(frames[0]))
        out.setsampwidth(2)
        out.setframerate(RATE)
        for frame in frames:
            for sample in frame:
                out.writeframesraw(sample.to_bytes(2, "little", signed=True))


def by_sox(path):
    """One channel of 8 bits, an odd number of samples: the left ones, without dither."""
    raw = b"".join(left.to_bytes(2, "little", signed=True) for left, _ in FRAMES)
    source = ["-t", "raw", "-r", str(RATE), "-e", "signed", "-b", "16", "-c", "1", "-"]
    subprocess.run(["sox", "-V1", "-D", *source, "-b", "8", path], input=raw, check=True)


class Info(ctypes.Structure):
    """libsndfile's SF_INFO."""

    _fields_ = [("frames", ctypes.c_int64)] + [
        (name, ctypes.c_int) for name in ("samplerate", "channels", "format", "sections", "seekable")
    ]


class Loop(ctypes.Structure):
    """A loop of SF_INSTRUMENT: its end is the frame after the last one."""

    _fields_ = [("mode", ctypes.c_int)] + [(name, ctypes.c_uint32) for name in ("start", "end", "count")]


class Instrument(ctypes.Structure):
    """libsndfile's SF_INSTRUMENT."""

    _fields_ = [
        ("gain", ctypes.c_int),
        ("notes", ctypes.c_char * 6),
        ("loop_count", ctypes.c_int),
        ("loops", Loop * 16),
    ]


WAV, EXTENSIBLE, PCM_16 = 0x010000, 0x130000, 0x0002
SET_INSTRUMENT, FORWARD, WRITE = 0x10D1, 801, 0x20


def by_libsndfile(path, kind, frames, loop):
    """16 bits, and where there is a loop a sampler with it, which libsndfile puts before the samples."""
    library = ctypes.CDLL("libsndfile.so.1")
    library.sf_open.restype = ctypes.c_void_p
    info = Info(samplerate=RATE, channels=len(frames[0]), format=kind | PCM_16)
    out = ctypes.c_void_p(library.sf_open(path.encode(), WRITE, ctypes.byref(info)))
    assert out
    if loop:
        instrument = Instrument(gain=1, notes=bytes([60, 0, 0, 127, 0, 127]), loop_count=1)
        instrument.loops[0] = Loop(FORWARD, loop[0], loop[1] + 1, 0)
        assert library.sf_command(out, SET_INSTRUMENT, ctypes.byref(instrument), ctypes.sizeof(instrument))
    samples = [sample for frame in frames for sample in frame]
    block = (ctypes.c_short * len(samples))(*samples)
    assert library.sf_write_short(out, block, ctypes.c_int64(len(samples))) == len(samples)
    library.sf_close(out)


def by_hand(path, frames, loop):
    """One channel of 16 bits, and a sampler with a loop behind the samples."""
    samples = b"".join(struct.pack("<h", sample) for (sample,) in frames)
    fmt = struct.pack("<HHIIHH", 1, 1, RATE, 2 * RATE, 2, 16)
    header = struct.pack("<9I", 0, 0, 1_000_000_000 // RATE, 60, 0, 0, 0, 1, 0)
    smpl = header + struct.pack("<6I", 0, 0, loop[0], loop[1], 0, 0)
    chunks = b"".join(
        name + struct.pack("<I", len(body)) + body for name, body in ((b"fmt ", fmt), (b"data", samples), (b"smpl", smpl))
    )
    with open(path, "wb") as out:
        out.write(b"RIFF" + struct.pack("<I", 4 + len(chunks)) + b"WAVE" + chunks)


def show(name, write, *more):
    """Prints the file that `write` makes."""
    with tempfile.TemporaryDirectory() as folder:
        path = os.path.join(folder, "sound.wav")
        write(path, *more)
        with open(path, "rb") as file:
            data = file.read()
    print(f"const {name}: [u8; {len(data)}] = [")
    for at in range(0, len(data), 24):
        print("    " + ", ".join(str(byte) for byte in data[at : at + 24]) + ",")
    print("];\n")


LEFT = [(left,) for left, _ in FRAMES]
show("PYTHON_MONO", by_python, LEFT)
show("PYTHON_STEREO", by_python, FRAMES)
show("SOX_BYTES", by_sox)
show("SNDFILE_LOOP", by_libsndfile, WAV, LEFT, (1, 3))
show("SNDFILE_EXTENSIBLE", by_libsndfile, EXTENSIBLE, FRAMES, None)
show("LOOP_BEHIND", by_hand, LEFT, (1, 3))
