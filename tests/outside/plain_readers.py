"""Stored banks read, with their first fault, plainly: images, VAG files, and WAVE files of IMA ADPCM.

The rules are those of docs/FORMATS.md; nothing here is shared with the program.
"""

import struct
from typing import NamedTuple

import brr
import ima
import spu
import wave_file
from wave_file import Refused

MOST_FILE = 8388608


class Stored(NamedTuple):
    """An entry as its file says it."""

    rate: int
    # head and symbols of each block that the player comes to
    blocks: list
    # the block that comes after the last one, or None
    loop_block: int | None
    # bytes behind the last block
    trailing: int


def refuse_long(data, most=MOST_FILE):
    """Refuses a file of more bytes than it may have."""
    if len(data) > most:
        raise Refused("FileLong", most)


def brr_entry(memory, base, entry, rate):
    """One entry of an image's memory."""
    if not 1 <= rate <= 1000000:
        raise Refused("BadRate", entry, rate)
    if 4 * entry + 4 > len(memory):
        raise Refused("BadEntry", entry)
    start, again = (address - base for address in struct.unpack_from("<HH", memory, 4 * entry))
    if start < 0:
        raise Refused("BadEntry", entry)
    blocks, at = [], start
    while True:
        if at + 9 > len(memory):
            raise Refused("BadEntry", entry)
        head, codes, flags = brr.parse(memory[at : at + 9])
        blocks.append((head, codes))
        at += 9
        if flags & 1:
            break
    if not flags & 2:
        return Stored(rate, blocks, None, 0)
    if again < start or (again - start) % 9 or (again - start) // 9 >= len(blocks):
        raise Refused("BadLoopAddress", entry)
    return Stored(rate, blocks, (again - start) // 9, 0)


def image(data):
    """The entries of an image."""
    if len(data) < 16 or data[:4] != b"SNBI":
        raise Refused("NotImage")
    version, entries, base, length = struct.unpack_from("<HHII", data, 4)
    if version != 1:
        raise Refused("BadVersion", version)
    if not 1 <= entries <= 64:
        raise Refused("BadEntries", entries)
    if base % 256 or base > 65280:
        raise Refused("BadBase", base)
    if base + length > 65536:
        raise Refused("ImageFull", base + length)
    if len(data) != 16 + 4 * entries + length:
        raise Refused("ImageLength", len(data), 16 + 4 * entries + length)
    rates = struct.unpack_from("<%dI" % entries, data, 16)
    return [brr_entry(data[16 + 4 * entries :], base, entry, rate) for entry, rate in enumerate(rates)]


def spu_track(rate, data):
    """The track of some blocks of SPU-ADPCM."""
    if len(data) % 16:
        raise Refused("Ragged", len(data))
    ends = [at for at in range(0, len(data), 16) if data[at + 1] & 1]
    if not ends:
        raise Refused("NoEnd")
    blocks = [spu.parse(data[at : at + 16]) for at in range(0, ends[0] + 16, 16)]
    starts = [block for block, (_, _, flags) in enumerate(blocks) if flags & 4]
    looped = blocks[-1][2] & 2
    if looped and not starts:
        raise Refused("NoLoopStart", ends[0])
    for block, (head, _, _) in enumerate(blocks):
        if head >= 80:
            raise Refused("BadFilter", block, head // 16)
    return Stored(rate, [block[:2] for block in blocks], starts[-1] if looped else None, len(data) - 16 * len(blocks))


def vag(data):
    """The entry of a VAG file."""
    if data[:4] != b"VAGp":
        raise Refused("NotVag")
    if len(data) < 48:
        raise Refused("VagShort", len(data))
    size, rate = struct.unpack_from(">II", data, 12)
    if not 1 <= rate <= 1000000:
        raise Refused("BadRate", rate)
    return spu_track(rate, data[48 : 48 + size])


class Framed(NamedTuple):
    """A WAVE file of IMA ADPCM."""

    rate: int
    align: int
    blocks: list
    frames: int
    loop: tuple | None


def ima_wave(data):
    """What a WAVE file of IMA ADPCM says."""
    chunks = wave_file.walk(data)
    body = chunks.get(b"fmt ")
    if body is None:
        raise Refused("NoFmt")
    if len(body) < 20:
        raise Refused("BadFmt", len(body))
    tag, channels, rate, _, align, bits, _, size = struct.unpack("<HHIIHHHH", body[:20])
    if tag != 17:
        raise Refused("NotIma", tag)
    if channels != 1:
        raise Refused("BadChannels", channels)
    if not 1 <= rate <= 1000000:
        raise Refused("BadRate", rate)
    if bits != 4:
        raise Refused("BadBits", bits)
    if align % 4 or not 8 <= align <= 1024 or size != ima.samples(align):
        raise Refused("BadAlign", align)
    if b"data" not in chunks:
        raise Refused("NoData")
    sound = chunks[b"data"]
    blocks = [sound[at : at + align] for at in range(0, len(sound) - align + 1, align)]
    for number, block in enumerate(blocks):
        if block[2] > 88:
            raise Refused("BadHead", number, "BadIndex", block[2])
        if block[3]:
            raise Refused("BadHead", number, "BadReserved", block[3])
    frames, fact = len(blocks) * size, chunks.get(b"fact", b"")
    if len(fact) >= 4:
        frames = min(frames, struct.unpack("<I", fact[:4])[0])
    return Framed(rate, align, blocks, frames, wave_file.first_loop(chunks.get(b"smpl"), frames))


def ima_symbols(block):
    """The head and the symbols of a block of IMA ADPCM."""
    first, index, codes = ima.parse(block)
    return index, [first + 32768] + codes
