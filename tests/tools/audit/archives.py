"""A small writer of PMTiles archives, version 3, which shares no code with their reader."""

import gzip
import json
import struct
import sys
from pathlib import Path

sys.path.append(str(Path(__file__).resolve().parents[2] / "program"))

from wire import varint  # noqa: E402

HEADER = struct.Struct("<7sB11Q6B6i1x")


def tile_id(z, x, y):
    """By the rule as it is written: all tiles of the zooms before, and the steps along Hilbert's curve."""
    number, side = sum(4**zoom for zoom in range(z)), 2**z // 2
    while side:
        right, lower = int(x & side > 0), int(y & side > 0)
        number += side * side * ((3 * right) ^ lower)
        if lower == 0:
            if right == 1:
                x, y = 2**z - 1 - x, 2**z - 1 - y
            x, y = y, x
        side //= 2
    return number


def directory(entries):
    """Entries of (tile id, run, offset, length), as they are spelled. An offset right behind the entry before is a 0."""
    out, last = [varint(len(entries))], 0
    for number, *_ in entries:
        out.append(varint(number - last))
        last = number
    out += [varint(run) for _, run, _, _ in entries]
    out += [varint(length) for _, _, _, length in entries]
    behind = None
    for _, _, offset, length in entries:
        out.append(varint(0 if offset == behind else offset + 1))
        behind = offset + length
    return b"".join(out)


def entries_of(tiles):
    """The entries of tiles by (z, x, y), equal ones of a run once and equal contents once; and the bytes of the tiles."""
    entries, data, known = [], bytearray(), {}
    for number, content in sorted((tile_id(*place), content) for place, content in tiles.items()):
        if content not in known:
            known[content] = len(data), len(content)
            data += content
        offset, length = known[content]
        if entries and entries[-1][0] + entries[-1][1] == number and entries[-1][2] == offset:
            entries[-1] = (entries[-1][0], entries[-1][1] + 1, offset, length)
        else:
            entries.append((number, 1, offset, length))
    return entries, bytes(data)


def archive(tiles, leaf=None, internal=1, packed=1, deep=False, addressed=None, said=None):
    """The bytes of an archive. Leaf directories have so many entries each; `deep` puts a directory between; `said` is what it
    says of itself."""
    entries, data = entries_of(tiles)
    pack = gzip.compress if internal == 2 else bytes
    leaves = b""

    def lead_to(entries):
        nonlocal leaves
        content = pack(directory(entries))
        leaves += content
        return (entries[0][0], 0, len(leaves) - len(content), len(content))

    root = entries
    if leaf:
        root = [lead_to(entries[at : at + leaf]) for at in range(0, len(entries), leaf)]
        if deep:
            root = [lead_to(root[at : at + 3]) for at in range(0, len(root), 3)]
    content, metadata = pack(directory(root)), pack(json.dumps(said or {}).encode())
    begun = 127
    sections = []
    for section in (content, metadata, leaves, data):
        sections += [begun, len(section)]
        begun += len(section)
    count = len(tiles) if addressed is None else addressed
    zooms = [place[0] for place in tiles] or [0]
    first, last = (said or {}).get("minzoom", min(zooms)), (said or {}).get("maxzoom", max(zooms))
    bounds = [round(each * 10**7) for each in (said or {}).get("bounds", (0, 0, 0, 0))]
    head = HEADER.pack(
        b"PMTiles", 3, *sections, count, len(entries), len(entries), 1, internal, packed, 1, first, last, *bounds, 0, 0
    )
    assert len(head) >= 127
    return head[:127] + content + metadata + leaves + data


def with_metadata(tiles, content):
    """An archive whose metadata are these bytes, whatever they are."""
    whole = archive(tiles)
    numbers = list(HEADER.unpack(whole[:127]))
    numbers[4:6] = len(whole), len(content)
    return HEADER.pack(*numbers) + whole[127:] + content
