"""The sounds of a bank: WAVE files that the program has taken, so nothing is tested here, and how they lie on blocks."""

import math
import struct


def chunks(data):
    """The first chunk of each name in a WAVE file."""
    found, at = {}, 12
    while at + 8 <= len(data):
        name, size = struct.unpack("<4sI", data[at : at + 8])
        found.setdefault(name, data[at + 8 : at + 8 + size])
        at += 8 + size + size % 2
    return found


def read(data, channel):
    """The rate, the samples of one channel, and the loop's first and last frame or None."""
    found = chunks(data)
    channels, rate, _, align, bits = struct.unpack("<HIIHH", found[b"fmt "][2:16])
    body = found[b"data"]
    body = body[: len(body) // align * align]
    if bits == 8:
        samples = [(byte - 128) * 256 for byte in body]
    else:
        samples = list(struct.unpack(f"<{len(body) // 2}h", body))
    sampler, loop = found.get(b"smpl"), None
    if sampler and struct.unpack("<I", sampler[28:32])[0]:
        loop = struct.unpack("<2I", sampler[44:52])
    return rate, samples[channel or 0 :: channels], loop


def fitted(frames, loop, start):
    """The targets of whole blocks, and the block where the loop begins or None."""
    if loop is None:
        return frames + [0] * (-len(frames) % 16), None
    first, last = loop
    period = last - first + 1
    late = -first % 16
    zeros = late if start == "front" else 0
    length = first + late + period * 16 // math.gcd(period, 16)
    played = [frames[i if i <= last else first + (i - first) % period] for i in range(length - zeros)]
    return [0] * zeros + played, (first + late) // 16
