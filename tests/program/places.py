"""Where faults stand, and whether what `mvt explain` says of them is right.

The fault is taken from its line, and this module looks for the place by itself, in a way that depends on the cause; it
shares no code with the program. The rows of bytes are read back and compared with the tile, and the sentences with those of
the broken tiles in fixtures/tiles/cases.txt. test_fault_places.py asks the program."""

import bz2
import gzip
import json
import lzma
import random
import re
import zlib
from pathlib import Path
from typing import NamedTuple, Optional

from wire import field as spelled
from wire import varint as shortest

TOP = Path(__file__).resolve().parents[2]
LIMIT = 1 << 26
LAYER, FEATURE, VALUE, NAME, ID, TAGS, GEOMETRY = 3, 2, 4, 1, 1, 2, 4
LINE = re.compile(r"layer (\S+) feature (\S+) at (\d+): (\d+) \w+\n")
# What a terminal obeys, and JSON leaves as it is: DEL, the controls of C1, and what turns a line round.
OBEYED = re.compile(r"[\x7f-\x9f\u061c\u200e\u200f\u202a-\u202e\u2066-\u2069]")
# What inputs are that are no tiles and have a mark, zlib and MBTiles apart: the place of the mark, and the mark.
MARKS = [
    ("Gzip", 0, b"\x1f\x8b"),
    ("Zstd", 0, b"\x28\xb5\x2f\xfd"),
    ("Png", 0, b"\x89PNG"),
    ("Sqlite", 0, b"SQLite format 3"),
    ("Pmtiles", 0, b"PMTiles"),
    ("Json", 0, b"{"),
    ("Json", 0, b"["),
    ("Html", 0, b"<"),
    ("Jpeg", 0, b"\xff\xd8\xff"),
    ("Gif", 0, b"GIF8"),
    ("FlatGeobuf", 0, b"fgb\x03"),
    ("Xz", 0, b"\xfd7zXZ"),
    ("Bzip2", 0, b"BZh"),
    ("Zip", 0, b"PK\x03\x04"),
    ("Pdf", 0, b"%PDF-"),
    ("OsmPbf", 4, b"\n\tOSMHeader"),
]
# What is said last of a tile that can be mended.
REMEDY = "mvt mend mends this."
# How a sentence calls them.
WORDS = {
    "Gzip": "gzip",
    "Zlib": "zlib",
    "Zstd": "zstd",
    "Png": "a PNG picture",
    "Sqlite": "a SQLite database, as MBTiles are",
    "Mbtiles": "a SQLite database, as MBTiles are",
    "Pmtiles": "a PMTiles archive",
    "Json": "JSON",
    "Html": "HTML",
    "Jpeg": "a JPEG picture",
    "Gif": "a GIF picture",
    "Webp": "a WebP picture",
    "FlatGeobuf": "a FlatGeobuf file",
    "Xz": "xz",
    "Bzip2": "bzip2",
    "Zip": "a ZIP archive",
    "Pdf": "a PDF document",
    "OsmPbf": r"OpenStreetMap data \(PBF\), which has no tiles",
    "Xml": "XML",
    "PlainText": "plain text",
    "Brotli": "brotli",
}


class Fault(NamedTuple):
    layer: Optional[int]
    feature: Optional[int]
    at: int
    cause: int


class Field(NamedTuple):
    """Where a field begins, its number and wire type, where its payload begins, where it ends."""

    at: int
    number: int
    wire: int
    body: int
    end: int


class Message(NamedTuple):
    """The fields between two places, and where the last of them ends."""

    fields: list
    rest: int
    end: int

    def of(self, number, *wires):
        return [each for each in self.fields if each.number == number and (each.wire in wires or not wires)]

    def begins(self, at):
        return any(each.at == at for each in self.fields) or at == self.rest < self.end

    def span(self, at):
        """The field that begins at a place, or else all from there."""
        return next(((each.at, each.end) for each in self.fields if each.at == at), (at, self.end))


def number_at(tile, at, end):
    """A varint and where it ends; None where none begins."""
    value = 0
    for place in range(at, min(end, at + 10)):
        value |= (tile[place] & 127) << 7 * (place - at)
        if tile[place] < 128:
            return (value, place + 1) if value < 1 << 64 else None
    return None


def field_at(tile, at, end):
    tag = number_at(tile, at, end)
    if tag is None or not 8 <= tag[0] < 1 << 32:
        return None
    number, wire, body = tag[0] >> 3, tag[0] & 7, tag[1]
    if wire in (1, 5):
        after = body + (8 if wire == 1 else 4)
    else:
        told = number_at(tile, body, end) if wire in (0, 2) else None
        if told is None:
            return None
        body, after = (body, told[1]) if wire == 0 else (told[1], told[1] + told[0])
    return Field(at, number, wire, body, after) if after <= end else None


def message(tile, start, end):
    fields, at = [], start
    while field := field_at(tile, at, end):
        fields.append(field)
        at = field.end
    return Message(fields, at, end)


def numbers(tile, feature, number):
    """Where each number of the tags or the geometry is spelled, joined."""
    found = []
    for piece in feature.of(number, 0, 2):
        at = piece.body
        while at < piece.end and (read := number_at(tile, at, piece.end)):
            found.append((at, read[1], read[0]))
            at = read[1]
    return found


class Place(NamedTuple):
    """The name of the layer, the id of the feature, the bytes, and how the second line goes on."""

    name: Optional[bytes]
    id: Optional[int]
    start: int
    end: int
    what: str


def tag_byte(tile, start, end):
    if start == end:
        return ""
    byte = tile[start]
    return f", tag byte 0x{byte:02x}" + (f": field {byte >> 3}, wire type {byte & 7}" if byte < 128 else "")


def find(tile, fault):
    """The place of the first fault of a tile."""
    front = tile[:LIMIT]
    top = message(front, 0, len(front))
    layer = feature = own = name = number = None
    if fault.layer is not None:
        held = top.of(LAYER, 2)[fault.layer]
        layer = message(front, held.body, held.end)
        name = next((tile[each.body : each.end] for each in reversed(layer.of(NAME, 2))), None)
    if fault.feature is not None:
        own = layer.of(FEATURE, 2)[fault.feature]
        feature = message(front, own.body, own.end)
        number = next((number_at(tile, each.body, each.end)[0] for each in reversed(feature.of(ID, 0))), None)
    start, end, what = bytes_of(tile, fault, top, layer, feature, own)
    return Place(name, number, start, end, what)


def bytes_of(tile, fault, top, layer, feature, own):
    at, cause = fault.at, fault.cause
    if cause in (13, 14, 15, 16):
        joined = numbers(tile, feature, TAGS)
        if cause == 13:
            assert len(joined) == at
            start, end, value = joined[-1]
            return start, end, f", number of tags: {at}, the last: {value}"
        start, end, value = joined[at]
        return start, end, f", tag {at} of the feature: {value}"
    if cause == 23:
        joined = numbers(tile, feature, GEOMETRY)
        assert len(joined) == at
        what = f", number of integers: {at}"
        ends = [end for _, end, _ in joined] or [each.end for each in feature.of(GEOMETRY)]
        return (ends[-1], ends[-1], what) if ends else (own.at, own.end, what)
    if 17 <= cause <= 22 or cause == 26:
        start, end, value = numbers(tile, feature, GEOMETRY)[at]
        return start, end, f", integer {at} of the geometry: {value}"
    if cause == 25:
        start, end = at, len(tile)
    elif cause == 24:
        start, end = [(each.at, each.end) for each in layer.of(NAME, 2)][-1]
    elif layer is None or cause in (8, 10):
        start, end = top.span(at)
    elif feature is not None:
        start, end = feature.span(at)
    else:
        values = [message(tile, each.body, each.end) for each in layer.of(VALUE, 2)]
        start, end = next(each for each in [layer, *values] if each.begins(at)).span(at)
    return start, end, tag_byte(tile, start, end)


def looks_like(tile):
    """What an input looks like that is no tile, by its name in mvt_lookalike, or None. RFC 1950 has zlib's head."""
    if len(tile) > 1 and tile[0] & 0x8F == 8 and int.from_bytes(tile[:2], "big") % 31 == 0:
        return "Zlib"
    if tile.startswith(b"SQLite format 3") and b"tile_column" in tile[:65_536]:
        return "Mbtiles"
    if re.match(b"RIFF.{4}WEBP", tile, re.DOTALL):
        return "Webp"
    marked = (kind for kind, at, mark in MARKS if tile[at:].startswith(mark))
    return next(marked, None) or text_like(tile) or ("Brotli" if brotli_like(tile) else None)


def text_like(tile):
    """Which text an input is, by its first 512 bytes."""
    start = tile[:512]
    if (
        len(tile) < 4
        or not re.fullmatch(rb"[\t\n\r\x20-\x7e\x80-\xff]*", start)
        or not re.search(b"[A-Za-z]{2}", start)
    ):
        return None
    bare = start.removeprefix(b"\xef\xbb\xbf").lstrip(b"\t\n\r ")
    kinds = (("Xml", b"<?xml"), ("Html", b"<"), ("Json", b"{"), ("Json", b"["))
    return next((kind for kind, front in kinds if bare.startswith(front)), "PlainText")


def brotli_like(tile):
    """Whether an input begins with a window and a compressed block, which is longer than the input, but less than 200 times:
    RFC 7932, 9.1 and 9.2, read bit by bit."""
    bits = iter(format(int.from_bytes(tile[:8], "little"), "064b")[::-1])

    def read(count):
        return sum(int(next(bits)) << place for place in range(count))

    if len(tile) < 20 or (read(1) == 1 and read(3) == 0 and read(3) == 1):
        return False
    is_last = read(1) == 1
    if is_last and read(1) == 1:
        return False
    digits = 4 + read(2)
    if digits == 7:
        return False
    length = [read(4) for _ in range(digits)]
    if (digits > 4 and length[-1] == 0) or (not is_last and read(1) == 1):
        return False
    block = 1 + sum(digit << 4 * place for place, digit in enumerate(length))
    return len(tile) < block < 200 * len(tile)


def documented():
    """The sentence of each cause, by its number: that of the worked tiles which break the rule."""
    found = {}
    text = (TOP / "fixtures" / "tiles" / "cases.txt").read_text()
    for cause, sentence in re.findall(r"^case (\d+)-(?!WireType-gzip)(?:.+\n)*?sentence (.*)$", text, re.MULTILINE):
        assert found.setdefault(int(cause), sentence) == sentence
    return found


def sentence_fails(tile, cause, sentence, sentences):
    """Whether a sentence isn't what an input looks like that is no tile, or else that of the cause."""
    kind = looks_like(tile)
    wanted = rf"This isn't a tile, but looks like {WORDS[kind]}\b.*" if kind else re.escape(sentences[cause])
    return not re.fullmatch(wanted, sentence) or ("`mvt-audit` judges each tile" in sentence) != (kind == "Mbtiles")


def fault_of(line):
    """The fault that a line tells; None where it tells none."""
    told = LINE.fullmatch(line)
    return told and Fault(*(None if group == "-" else int(group) for group in told.groups()))


def shown_bytes(tile, rows):
    """The rows of bytes read back: where the first byte stands, how many there are, and where the mark begins and ends,
    None where it doesn't end; or what is wrong with them."""
    first = at = int(rows[0].split(" ")[0])
    start = end = None
    for row in rows:
        place, marked = row.split("  ")
        if int(place) != at or (at - first) % 16:
            return f"a row begins at {place}"
        for word in marked.split(" "):
            if word == "..":
                continue
            if word.startswith("["):
                start = at
            if byte := word.strip("[]"):
                if tile[at : at + 1].hex() != byte:
                    return f"{byte} at {at}"
                at += 1
            if word.endswith("]"):
                end = at
    return first, at - first, start, end


def rows_fail(tile, place, rows):
    found = shown_bytes(tile, rows)
    first = max(0, place.start - 4)
    shown = min(len(tile), place.end + 4, first + 32)
    wanted = first, shown - first, place.start, place.end if place.end <= shown else None
    goes_on = rows[-1].endswith(" ..")
    return None if found == wanted and goes_on == (place.end > shown) else f"the rows {rows}: {found}, not {wanted}"


def holders_line(fault, place):
    """The line of the layer and the feature."""
    line = f"layer {fault.layer}"
    if place.name is not None:
        quoted = json.dumps(place.name.decode("utf-8", "replace"), ensure_ascii=False)
        line += " " + OBEYED.sub(lambda found: f"\\u{ord(found[0]):04x}", quoted)
    if fault.feature is not None:
        line += f", feature {fault.feature}"
    return line if place.id is None else f"{line}, id {place.id}"


def place_line(place):
    if place.start == place.end:
        return f"before byte {place.start}{place.what}"
    if place.start + 1 == place.end:
        return f"byte {place.start}{place.what}"
    return f"bytes {place.start} to {place.end - 1}{place.what}"


def failure(tile, told, lines, sentences, is_mended):
    """Why what is said of a refused tile is wrong, if it is; `is_mended` says that `mvt mend` mends it."""
    fault = fault_of(told)
    if not fault:
        return f"no line of a fault: {told!r}"
    if (lines[-1] == REMEDY) != is_mended:
        return f"{lines[-1]!r}, though it is {'' if is_mended else 'not '}mended"
    lines = lines[:-1] if is_mended else lines
    tile = tile[: LIMIT + 1]
    place = find(tile, fault)
    wanted = [place_line(place)] if fault.layer is None else [holders_line(fault, place), place_line(place)]
    if lines[: len(wanted)] != wanted:
        return f"{lines[: len(wanted)]} isn't {wanted}"
    sentence, *rows = lines[len(wanted) :]
    if sentence_fails(tile, fault.cause, sentence, sentences):
        return f"the sentence of {fault.cause}: {sentence!r}"
    return rows_fail(tile, place, rows)


# ---- tiles in pieces


def in_pieces(chance, number, integers):
    """The fields of some integers: packed ones and single ones, some spelled with a byte too many."""
    out, left = b"", list(integers)
    while left:
        count = chance.randint(1, len(left))
        piece = [longer(chance, each) for each in left[:count]]
        if count == 1 and chance.random() < 0.5:
            out += shortest(number << 3) + piece[0]
        else:
            out += spelled(number, b"".join(piece))
        if chance.random() < 0.2:
            out += spelled(number, b"")
        left = left[count:]
    return out


def longer(chance, value):
    short = shortest(value)
    return short if chance.random() < 0.8 or len(short) > 4 else short[:-1] + bytes([short[-1] | 128, 0])


def piecewise(chance):
    """A layer of some features in pieces, one of whose integers is often wrong."""
    features = b""
    for index in range(chance.randint(1, 4)):
        tags = [chance.randrange(3) if each % 2 else each // 2 for each in range(2 * chance.randint(0, 3))]
        line = [9, 4, 4, 18, 2, 2, 6, 8]
        geometry = line * chance.randint(1, 3)
        for integers in (tags, geometry):
            if integers and chance.random() < 0.3:
                integers[chance.randrange(len(integers))] = chance.choice([0, 1, 7, 10, 15, 4_294_967_295])
            if integers and chance.random() < 0.1:
                del integers[-1 if integers is tags else chance.randrange(1, len(integers)) :]
        parts = [spelled(ID, chance.randrange(1 << chance.randint(1, 64))) for _ in range(chance.randint(0, 2))]
        parts += [spelled(3, 2), in_pieces(chance, TAGS, tags), in_pieces(chance, GEOMETRY, geometry)]
        features += spelled(FEATURE, b"".join(parts))
    names = [spelled(NAME, chance.choice([b"a", b"\xc3\xbc", b'"\n'])) for _ in range(chance.randint(1, 2))]
    keys = b"".join(spelled(3, b"k%d" % each) for each in range(3))
    values = b"".join(spelled(4, spelled(5, each)) for each in range(3))
    return spelled(LAYER, spelled(15, 2) + b"".join(names) + features + keys + values)


# Inputs that are no tiles, by what they are. Of brotli there is the head alone, as Node.js makes it.
NO_TILES = {
    "gzip": gzip.compress(b"tile"),
    "zlib": zlib.compress(b"tile"),
    "zstd": b"\x28\xb5\x2f\xfd\x24\x04\x21\x00\x00tile",
    "PNG": b"\x89PNG\r\n\x1a\n\x00\x00\x00\rIHDR",
    "SQLite": b"SQLite format 3\0\x10\x00",
    "a large database": b"SQLite format 3\0".ljust(1 << 20),
    "MBTiles": b"SQLite format 3\0".ljust(916) + b"zoom_level integer, tile_column integer",
    "a large store": b"SQLite format 3\0".ljust(60_000) + b"tile_column".ljust(1 << 20),
    "a column that is just near enough": b"SQLite format 3\0".ljust(65_525) + b"tile_column",
    "a column that is too far": b"SQLite format 3\0".ljust(65_526) + b"tile_column",
    "PMTiles": b"PMTiles\x03",
    "JSON": b'{"layers": []}',
    "a list in JSON": b"[1]",
    "JSON behind a byte order mark": b'\xef\xbb\xbf{"type": "FeatureCollection"}',
    "JSON behind white space": b'\r\n\t [{"id": 1}]',
    "HTML": b"<!DOCTYPE html>",
    "HTML behind a line feed": b"\n<!DOCTYPE html><html>",
    "XML": b'<?xml version="1.0"?><Error>',
    "XML behind a byte order mark": b'\xef\xbb\xbf<?xml version="1.0"?><Error>',
    "JPEG": b"\xff\xd8\xff\xe0",
    "GIF": b"GIF89a\x01\x00",
    "WebP": b"RIFF\0\0\0\0WEBPVP8 ",
    "a sound": b"RIFF\0\0\0\0WAVEfmt ",
    "FlatGeobuf": b"fgb\x03fgb\x01",
    "xz": lzma.compress(b"tile"),
    "bzip2": bz2.compress(b"tile"),
    "ZIP": b"PK\x03\x04\x14\0",
    "PDF": b"%PDF-1.7\n%\xe2\xe3\xcf\xd3\n",
    "OpenStreetMap data": b"\0\0\0\x0d\n\tOSMHeader\x18\x7c",
    "plain text": b"404 page not found",
    "a text in UTF-8": "Straße;Länge\r\n".encode(),
    "a long text": b"name;id\n" * 100_000,
    "too little of a text": b"abc",
    "a text without letters": b"12.5;a7\n",
    "a text with a zero": b"not found\0",
    "brotli of gdal.mvt": bytes.fromhex("1bf20120e4720ddb").ljust(398, b"\0"),
    "brotli of gdal.json": bytes.fromhex("1bf105002c0a6c1b").ljust(483, b"\0"),
    "brotli of town.geojson": bytes.fromhex("1b6d07009c05762c").ljust(452, b"\0"),
    "brotli of postgis.mvt": bytes.fromhex("1b0702608cd451cd").ljust(414, b"\0"),
    "brotli of 70,000 bytes": bytes.fromhex("5f6f11815f522c6c").ljust(2338, b"\0"),
    "brotli with a window of 16 bits": bytes.fromhex("ea2d22f04b8a858d").ljust(2337, b"\0"),
    "brotli with a window of 10 bits": bytes.fromhex("21fcffc32f291636").ljust(14_580, b"\0"),
    "brotli of point.mvt, which is stored": bytes.fromhex("0b09801a1178020a0161120a08071801220409322229").ljust(
        23, b"\x03"
    ),
    "nothing that is known": b"\xff" * 40,
}


def heads(count):
    """So many inputs that begin as files do, or nearly so; the same ones each time."""
    chance = random.Random(2)
    marks = [bytes(at) + mark for _, at, mark in MARKS]
    marks += [b"RIFF\0\0\0\0WEBP", b"\xef\xbb\xbf", b"\r\n\t ", b"<?xml", b"SQLite format 3\0tile_column"]
    for _ in range(count):
        head = b"".join(chance.choice(marks) for _ in range(chance.randrange(3)))
        rest = bytes(chance.choice(b"aZ \n<{[5;\xc3\x1a\0") for _ in range(chance.randrange(600)))
        yield head[: chance.randint(0, len(head))] + (
            chance.randbytes(chance.randrange(60)) if chance.random() < 0.5 else rest
        )


def in_many_pieces(count):
    """So many tiles whose tags and geometry are spelled in pieces; the same ones each time."""
    chance = random.Random(1)
    return [b"".join(piecewise(chance) for _ in range(chance.randint(1, 2))) for _ in range(count)]
