"""Manifests of banks read, with their first fault, plainly.

The rules are those of docs/FORMATS.md; nothing here is shared with the program. Manifests are TOML, which Python's own
`tomllib` reads from Python 3.11 on, in its version 1.0 and with numbers of any size. What only a later TOML allows, or a
number beyond 64 bits, may be read otherwise here than by the program.
"""

import re

from wave_file import Refused

try:
    import tomllib
except ImportError:
    tomllib = None

MOST_MANIFEST = 65536
REQUIRED = object()


def read_key(table, key, kind, fits, default=REQUIRED):
    """The number or text under a key, which must fit."""
    if key not in table:
        if default is REQUIRED:
            raise Refused("MissingKey", key)
        return default
    value = table[key]
    if type(value) is not kind:
        raise Refused("WrongKind", key)
    if not fits(value):
        raise Refused("OutOfRange", key, value) if kind is int else Refused("BadWord", key)
    return value


def refuse_unknown(table, known):
    """Refuses the first key in byte order that is not known."""
    for key in sorted(table, key=str.encode):
        if key not in known:
            raise Refused("UnknownKey", key)


def read_entry(table):
    """One sample of a manifest."""
    refuse_unknown(table, ("name", "file", "channel", "loop"))
    return {
        "name": read_key(table, "name", str, lambda name: re.fullmatch("[A-Za-z0-9_-]{1,16}", name)),
        "file": read_key(table, "file", str, lambda file: 1 <= len(file.encode()) <= 255 and "\0" not in file),
        "channel": read_key(table, "channel", int, lambda channel: channel in (0, 1), None),
        "loop": read_key(table, "loop", str, lambda word: word in ("smpl", "none"), "smpl"),
    }


def read_entries(tables):
    """The samples of a manifest, no two of the same name."""
    if tables == []:
        raise Refused("NoSamples")
    if type(tables) is not list:
        raise Refused("WrongKind", "sample")
    if len(tables) > 64:
        raise Refused("TooMany", len(tables))
    if not all(type(table) is dict for table in tables):
        raise Refused("WrongKind", "sample")
    entries = [read_entry(table) for table in tables]
    names = [entry["name"] for entry in entries]
    for at, name in enumerate(names):
        if name in names[:at]:
            raise Refused("SameName", name)
    return entries


def first_pass_name(bank, name):
    """The file that a sample's first pass is stored in."""
    return f"{bank}.{name}.first.wav"


def cert_name(bank, name):
    """The file that a sample's certificate is stored in."""
    return f"{bank}.{name}.cert"


def refuse_clash(manifest, own):
    """Refuses a source, or the manifest's own name, that the bank itself would store."""
    bank, entries = manifest["bank"], manifest["samples"]
    ending = {"spu": "vag", "ima": "wav"}.get(manifest["format"])
    stored = {f"{bank}.{entry['name']}.{ending}" for entry in entries} if ending else {bank}
    for entry in entries:
        stored |= {first_pass_name(bank, entry["name"]), cert_name(bank, entry["name"])}
    for name in [entry["file"] for entry in entries] + [own]:
        if name in stored:
            raise Refused("Clash", name)


def read_toml(data):
    """The table that a manifest's bytes are."""
    try:
        return tomllib.loads(data.decode())
    except (UnicodeDecodeError, tomllib.TOMLDecodeError) as error:
        raise Refused("NotToml") from error


def read(data, own):
    """What a manifest says, with the defaults; `own` is its own name."""
    if len(data) > MOST_MANIFEST:
        raise Refused("TooLong", MOST_MANIFEST + 1)
    table = read_toml(data)
    refuse_unknown(table, ("format", "bank", "base", "block", "beam", "paths", "budget", "length", "start", "sample"))
    manifest = {
        "format": read_key(table, "format", str, lambda word: word in ("brr", "spu", "ima")),
        "bank": read_key(table, "bank", str, lambda bank: re.fullmatch("[A-Za-z0-9][A-Za-z0-9_.-]{0,63}", bank)),
        "base": read_key(table, "base", int, lambda base: base in range(0, 65281, 256), 512),
        "block": read_key(table, "block", int, lambda block: block in range(8, 1025, 4), 256),
        "beam": read_key(table, "beam", int, lambda beam: beam in range(1, 65), 8),
        "paths": read_key(table, "paths", int, lambda paths: paths in range(1, 65), 1),
        "budget": read_key(table, "budget", int, lambda budget: budget in range(1000001), 100000),
        "length": read_key(table, "length", str, lambda word: word in ("exact", "unroll"), "exact"),
        "start": read_key(table, "start", str, lambda word: word in ("front", "rotate"), "front"),
        "samples": read_entries(table.get("sample", [])),
    }
    refuse_clash(manifest, own)
    return manifest
