"""The command `mvt-geojson`: `python3 -m mvt_tools.geojson` is the same."""

import argparse
import json
import sys
from typing import Any, Dict, Iterator, List, Optional, Sequence, Set

from libmvt import rows
from libmvt.geojson import DECIMALS, Part, objects_of, parts_of

from . import _given, foreign
from ._ending import USAGE, Output, say

COMMAND = "mvt-geojson"

_NOT_LOCATED = "a feature without a geometry that GeoJSON has: it is null"
_NOT_FINITE = "a number that JSON doesn't have (NaN, infinity): it is null"
_FOREIGN = "a layer of another version than 2 is left out"


def _parser() -> argparse.ArgumentParser:
    words = _given.Words(
        prog=COMMAND,
        usage="mvt-geojson [STORE] Z/X/Y [--layer NAME].. [--units tile|degrees] [--seq] [--precision N] [--tippecanoe] [--mend]",
        description="Writes a vector tile as GeoJSON, in degrees.",
        epilog="Status: 0 it is written, 1 the tile is refused or doesn't unpack, 2 the command can't be done as it is,"
        " 3 something can't be read or written, 4 there is too little memory. Nothing is written of a refused tile.",
    )
    words.add_argument(
        "what",
        nargs="*",
        metavar="[STORE] Z/X/Y",
        help="where the tile is: a file with it, a folder {z}/{x}/{y}.mvt or .pbf, an .mbtiles or .pmtiles file, a .txt file"
        " with a name on each line, or a server, by the address of its tiles or of its TileJSON; else standard input. And"
        " its place, with Y counted from the north. gzip, zlib and zstd are unpacked",
    )
    words.add_argument("--layer", action="append", metavar="NAME", help="this layer alone, or these")
    words.add_argument("--units", choices=("tile", "degrees"), default="degrees", help="of positions (degrees)")
    words.add_argument("--seq", action="store_true", help="one feature on each line, and no collection")
    words.add_argument("--precision", type=_precision, metavar="N", help=f"decimals of degrees ({DECIMALS})")
    words.add_argument("--tippecanoe", action="store_true", help="a feature's layer and zoom as tippecanoe has them")
    words.add_argument("--mend", action="store_true", help=_given.MEND)
    return words


def _precision(word: str) -> int:
    decimals = foreign.whole(word, 0, 15)
    if decimals is None:
        raise argparse.ArgumentTypeError(f"{word!r} is no number of decimals from 0 to 15")
    return decimals


class _Writer:
    """Writes features as they come, and tells once what GeoJSON doesn't have."""

    def __init__(self, given: argparse.Namespace, place: Optional[_given.Place]) -> None:
        self._given, self._place, self._told = given, place, set()  # type: ignore[var-annotated]
        self._output = Output()

    def write(self, parts: Sequence[Part]) -> None:
        between = b"\n" if self._given.seq else b",\n"
        self._output.bytes(b"" if self._given.seq else b'{"type":"FeatureCollection","features":[\n')
        is_first = True
        for made in self._objects(parts):
            text = json.dumps(made, ensure_ascii=False, separators=(",", ":"))
            self._output.bytes((b"" if is_first else between) + text.encode())
            is_first = False
        self._output.bytes(b"" if is_first else b"\n")
        self._output.bytes(b"" if self._given.seq else b"]}\n")
        self._output.flush()

    def _objects(self, parts: Sequence[Part]) -> Iterator[Dict[str, Any]]:
        decimals = DECIMALS if self._given.precision is None else self._given.precision
        place = self._place if self._given.units == "degrees" else None
        for made in (made for part in parts for made in objects_of(part, place, decimals)):
            self._tell(made)
            yield self._named(made)

    def _named(self, made: Dict[str, Any]) -> Dict[str, Any]:
        if self._given.tippecanoe:
            named: Dict[str, Any] = {"layer": made.pop("layer")}
            if self._place is not None:
                named["minzoom"] = named["maxzoom"] = self._place[0]
            made["tippecanoe"] = named
        return made

    def _tell(self, made: Dict[str, Any]) -> None:
        if made["geometry"] is None:
            self._once(_NOT_LOCATED)
        if any(value is None for value in made["properties"].values()):
            self._once(_NOT_FINITE)

    def _once(self, line: str) -> None:
        told: Set[str] = self._told
        if line not in told:
            told.add(line)
            say(COMMAND, line)


def _work(words: Optional[Sequence[str]]) -> int:
    given = _parser().parse_intermixed_args(words)
    what, place = _given.store_and_place(given.what)
    if given.units == "tile" and given.precision is not None:
        raise _given.GivenError(USAGE, "--precision is of degrees")
    if given.units == "degrees" and place is None:
        raise _given.GivenError(USAGE, "where on earth? say the tile's place, as 14/8192/8191, or --units tile")
    tile = _given.plain(_given.stored(what, place))
    table = rows(_given.mended(COMMAND, tile) if given.mend else tile)
    parts: List[Part] = parts_of(table, given.layer)
    if any(layer.version != 2 for layer in table.layers):
        say(COMMAND, _FOREIGN)
    _Writer(given, place).write(parts)
    return 0


def main(words: Optional[Sequence[str]] = None) -> int:
    """Runs the command, and answers its status."""
    return _given.run(COMMAND, lambda: _work(words))


if __name__ == "__main__":
    sys.exit(main())
