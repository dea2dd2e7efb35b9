"""Cases for `rt try --cases`: quick_cases.py FOLDER. Each is an input, the words and the output that is wanted: of the example
tiles what other programs made of them, of the broken ones nothing, by one command each, of every 13th row of tests/program,
so of all its commands, what stands there, of README.md's commands what it shows below them. A case takes a second;
tests/program has them all."""

import itertools
import re
import shlex
import sys
from pathlib import Path

TOP = Path(__file__).resolve().parents[1]
sys.path.insert(0, str(TOP / "tests" / "program"))

import few_bytes  # noqa: E402

TILES = TOP / "fixtures" / "tiles"
FAULT = re.compile(r"layer \S+ feature \S+ at \d+: \d+ \w+\n", re.M)


def case(folder: Path, name: str, words: list[str], tile: bytes, output: bytes) -> None:
    (folder / name).write_bytes(tile)
    (folder / f"{name}.args").write_text("".join(f"{word}\n" for word in words))
    (folder / f"{name}.stdout").write_bytes(output)


def example_tiles(folder: Path) -> None:
    for tile in ("gdal", "postgis"):
        whole = (TILES / f"{tile}.mvt").read_bytes()
        canonical = (TILES / f"{tile}.canonical.mvt").read_bytes()
        shown = (TILES / f"{tile}.json").read_bytes()
        case(folder, f"{tile}-check", ["check"], whole, (TILES / f"{tile}.check").read_bytes())
        case(folder, f"{tile}-show", ["show"], whole, shown)
        case(folder, f"{tile}-show-canonical", ["show"], canonical, shown)
        case(folder, f"{tile}-rewrite", ["rewrite"], whole, canonical)
        case(folder, f"{tile}-extract", ["extract", "water", "roads", "places"], whole, canonical)


def broken_tiles(folder: Path) -> None:
    paths = sorted((TILES / "broken").glob("*.mvt"))
    for path, command in zip(paths, itertools.cycle(["check", "show", "draw", "rewrite"])):
        case(folder, f"{path.stem}-{command}", [command], path.read_bytes(), b"")


def of_few_bytes(folder: Path) -> None:
    for number, (words, tile, (_, output, _)) in enumerate(few_bytes.runs()):
        if number % 13 == 0 and "" not in words:  # which a file of words can't say
            case(folder, f"row-{number}", words, few_bytes.octets(tile), few_bytes.encoded(output))


def documented(folder: Path) -> None:
    """The commands `mvt WORDS < FILE`, with the lines below them."""
    text = (TOP / "README.md").read_text(encoding="utf-8")
    found = re.findall(r"^    \$ mvt ([^|>\n]*) < (\S+)\n((?:    (?!\$).*\n)+)", text, re.M)
    for number, (words, file, shown) in enumerate(found):
        output = FAULT.sub("", re.sub(r"^    ", "", shown, flags=re.M))
        case(folder, f"README-{number}", shlex.split(words), (TOP / file).read_bytes(), output.encode())


def main() -> None:
    folder = Path(sys.argv[1])
    folder.mkdir(parents=True, exist_ok=True)
    example_tiles(folder)
    broken_tiles(folder)
    of_few_bytes(folder)
    documented(folder)


main()
