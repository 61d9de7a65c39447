"""WAVE files read and written, with their first fault, plainly.

The rules are those of docs/FORMATS.md, and the fields those of the RIFF WAVE documents; nothing here is shared with the
program.
"""

import struct

PCM, EXTENSIBLE = 1, 0xFFFE
PCM_SUBFORMAT = bytes.fromhex("0100000000001000800000aa00389b71")


class Refused(Exception):
    """What refuses something: the kind of the fault and its fields."""


def chunk(name, body):
    """A chunk with its pad byte."""
    return name + struct.pack("<I", len(body)) + body + bytes(len(body) % 2)


def riff(chunks):
    """A WAVE file of some chunks."""
    return chunk(b"RIFF", b"WAVE" + b"".join(chunks))


def fmt(channels, rate, bits, tag=PCM):
    """The chunk that tells how samples are packed."""
    align = channels * bits // 8
    body = struct.pack("<HHIIHH", tag, channels, rate, rate * align, align, bits)
    if tag == EXTENSIBLE:
        body += struct.pack("<HHI", 22, bits, 0) + PCM_SUBFORMAT
    return chunk(b"fmt ", body)


def smpl(rate, start, end, kind=0):
    """The chunk of a sampler with one loop."""
    fields = (0, 0, 1000000000 // rate, 60, 0, 0, 0, 1, 0) + (0, kind, start, end, 0, 0)
    return chunk(b"smpl", struct.pack("<15I", *fields))


def write(samples, rate, loop):
    """A file of one channel of 16 bits, with a loop's first and last frame or without a loop."""
    chunks = [fmt(1, rate, 16), chunk(b"data", struct.pack("<%dh" % len(samples), *samples))]
    return riff(chunks + ([smpl(rate, *loop)] if loop else []))


def walk(data):
    """The first chunk of each name."""
    if data[:4] != b"RIFF":
        raise Refused("NotRiff")
    if data[8:12] != b"WAVE":
        raise Refused("NotWave")
    found, at = {}, 12
    while at + 8 <= len(data):
        name, size = struct.unpack("<4sI", data[at : at + 8])
        if name == b"data" and size == 0xFFFFFFFF:
            raise Refused("Streaming")
        if at + 8 + size > len(data):
            raise Refused("Truncated", at)
        if name == b"data" and name in found:
            raise Refused("DataTwice")
        found.setdefault(name, data[at + 8 : at + 8 + size])
        at += 8 + size + size % 2
    return found


def read_fmt(body):
    """Channels, rate and bits; refuses what is not plain PCM."""
    if body is None:
        raise Refused("NoFmt")
    if len(body) < 16:
        raise Refused("BadFmt", len(body))
    tag, channels, rate, _, align, bits = struct.unpack("<HHIIHH", body[:16])
    if tag == EXTENSIBLE and len(body) < 40:
        raise Refused("BadFmt", len(body))
    if tag != PCM and not (tag == EXTENSIBLE and body[24:40] == PCM_SUBFORMAT):
        raise Refused("NotPcm", tag)
    if channels not in (1, 2):
        raise Refused("BadChannels", channels)
    if not 1 <= rate <= 1000000:
        raise Refused("BadRate", rate)
    if bits not in (8, 16):
        raise Refused("BadBits", bits)
    if align != channels * bits // 8:
        raise Refused("BadAlign", align)
    return channels, rate, bits


def read(data, channel):
    """The rate, the frames of one channel, and the sampler's body or None."""
    chunks = walk(data)
    channels, rate, bits = read_fmt(chunks.get(b"fmt "))
    if channels == 2 and channel is None:
        raise Refused("NeedsChannel")
    if channel is not None and channel >= channels:
        raise Refused("NoChannel", channel)
    if b"data" not in chunks:
        raise Refused("NoData")
    body, align = chunks[b"data"], channels * bits // 8
    body = body[: len(body) // align * align]
    if bits == 16:
        samples = list(struct.unpack("<%dh" % (len(body) // 2), body))
    else:
        samples = [(byte - 128) * 256 for byte in body]
    return rate, samples[channel or 0 :: channels], chunks.get(b"smpl")


def first_loop(body, frames):
    """The first and the last frame of a sampler's first loop, or None."""
    if body is None:
        return None
    if len(body) < 36:
        raise Refused("SmplShort", len(body))
    if struct.unpack("<I", body[28:32])[0] == 0:
        return None
    if len(body) < 60:
        raise Refused("SmplShort", len(body))
    kind, start, end = struct.unpack("<3I", body[40:52])
    if kind != 0:
        raise Refused("LoopKind", kind)
    if start > end:
        raise Refused("LoopBackwards", start, end)
    if end >= frames:
        raise Refused("LoopOutside", end, frames)
    return start, end
