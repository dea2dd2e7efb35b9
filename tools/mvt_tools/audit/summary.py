"""The end of a run: a few lines for a person, or JSON for a program."""

from typing import Any, Dict, List, NamedTuple, Optional, Sequence, Tuple

from .._shown import shown
from ..stores import Store
from . import described, findings, sizes
from .engine import Lost
from .judging import ACCEPTED, BROKEN, EMPTY, NOT_UNPACKED, REFUSED, UNREAD, VERDICTS
from .results import Results

# Of long lists the rest is counted, and of long paths the end is left out.
SHOWN, _FEW, _PATH = 6, 3, 1000


class Timed(NamedTuple):
    """How long a run took: until the workers were there, and then for so many tiles; and of the latter the client's own
    seconds of a processor."""

    start: float
    work: float
    client: float
    tiles: int

    def rate(self) -> int:
        return round(self.tiles / self.work) if self.work > 0 else 0


def told(results: Results, timed: Timed, lost: Sequence[Lost], audited: Sequence[Store] = ()) -> Dict[str, Any]:
    """Everything of a run, as it becomes JSON."""
    verdicts: Dict[str, int] = dict(results.counted("verdict"))
    notes = results.database.execute(
        "select note, sum(tiles) from note_counts group by note order by sum(tiles) desc, note"
    ).fetchall()
    stores = results.database.execute("select path, kind, tiles from stores order by path").fetchall()
    stumbled = _listed(results, ("z",), "has_findings")
    beyond = results.database.execute(
        "select z, sum(tiles) from beyond_counts group by z order by sum(tiles) desc, z"
    ).fetchall()
    return {
        "stores": [{"path": path, "kind": kind, "tiles": tiles} for path, kind, tiles in stores],
        "tiles": sum(verdicts.values()),
        "verdicts": {verdict: verdicts.get(verdict, 0) for verdict in VERDICTS},
        "causes": _listed(results, ("cause", "cause_name"), f"verdict = '{REFUSED}'"),
        "zooms": _listed(results, ("z",), BROKEN),
        "layers": _listed(results, ("layer_name",), f"verdict = '{REFUSED}' and layer_name is not null"),
        "notes": dict(notes),
        "with_findings": sum(each["tiles"] for each in stumbled),
        "findings": [kind.told() for kind in findings.kinds(results.database)],
        "finding_zooms": stumbled,
        "beyond_zooms": [{"z": z, "tiles": tiles} for z, tiles in beyond],
        "sizes": sizes.told(results.database),
        "metadata": [
            {"store": store.path, "difference": each}
            for store in audited
            for each in described.differences(results, store)
        ],
        "unfinished": [part._asdict() for part in lost],
        "seconds": {"start": round(timed.start, 2), "work": round(timed.work, 2), "client": round(timed.client, 2)},
        "tiles_this_time": timed.tiles,
        "tiles_a_second": timed.rate(),
    }


def _listed(results: Results, columns: Tuple[str, ...], where: str) -> List[Dict[str, Any]]:
    return [dict(zip((*columns, "tiles"), row)) for row in results.counted(", ".join(columns), where)]


def status(found: Dict[str, Any]) -> int:
    """The status of `mvt check`: 3 where something is unread, else 1 where something is refused and isn't mended, else 0."""
    verdicts = found["verdicts"]
    if verdicts[UNREAD] or found["unfinished"]:
        return 3
    if "mended" in found:
        return 3 if found["mended"]["left_out"] else 1 if found["still_broken"] else 0
    return 1 if verdicts[REFUSED] or verdicts[NOT_UNPACKED] else 0


def _few(counts: Sequence[Tuple[str, int]]) -> str:
    """`FirstRing 176, ZeroSegment 3`, the largest first."""
    shown = [f"{name} {tiles:,}" for name, tiles in counts[:SHOWN]]
    if len(counts) > SHOWN:
        shown.append(f"{len(counts) - SHOWN} more")
    return ", ".join(shown)


def lines(found: Dict[str, Any], files: Sequence[str]) -> List[str]:
    """The lines of each run, and others where there is something to say."""
    verdicts, seconds = found["verdicts"], found["seconds"]
    stores = ", ".join(shown(store["path"], _PATH) for store in found["stores"][:3])
    more = len(found["stores"]) - 3
    layers = [(shown(each["layer_name"]), each["tiles"]) for each in found["layers"]]
    stumbled = _few([(each["finding"], each["tiles"]) for each in found["findings"]])
    rows = [
        (found["tiles"], "tiles", stores + (f" and {more} more" if more > 0 else "")),
        (verdicts[ACCEPTED], ACCEPTED, ""),
        (sum(found["notes"].values()), "notes", _few(list(found["notes"].items()))),
        (found["with_findings"], f"with findings{', which break no rule' if stumbled else ''}", stumbled),
        (verdicts[EMPTY], EMPTY, ""),
        (verdicts[REFUSED], REFUSED, _few([(each["cause_name"], each["tiles"]) for each in found["causes"]])),
        (verdicts[NOT_UNPACKED], NOT_UNPACKED, ""),
        (verdicts[UNREAD], UNREAD, ""),
    ]
    width = len(f"{found['tiles']:,}")
    return [
        *(f"{count:>{width},} {name}{': ' + of if of else ''}" for count, name, of in rows),
        f"broken, by zoom: {_few(_zooms(found['zooms'])) or '-'}; by layer: {_few(layers) or '-'}",
        *_stumbled(found),
        *_beyond(found),
        *_sized(found["sizes"]),
        *_described(found),
        *mended(found),
        f"{found['tiles_this_time']:,} tiles in {seconds['work']:.1f} s, {found['tiles_a_second']:,} a second;"
        f" the workers started in {seconds['start']:.1f} s",
        f"written: {', '.join(shown(file, _PATH) for file in files)}",
    ]


def _zooms(counts: Sequence[Dict[str, Any]]) -> List[Tuple[str, int]]:
    return [("-" if each["z"] is None else str(each["z"]), each["tiles"]) for each in counts]


def _stumbled(found: Dict[str, Any]) -> List[str]:
    """Where tiles with findings are, and one of each kind; nothing where there is none."""
    examples = [f"{each['finding']} in {_address(each['example'])}" for each in found["findings"]]
    if not examples:
        return []
    return [f"with findings, by zoom: {_few(_zooms(found['finding_zooms']))}; such as {', '.join(examples)}"]


def _beyond(found: Dict[str, Any]) -> List[str]:
    """How many tiles stand where no tile can; nothing where there is none."""
    tiles = sum(each["tiles"] for each in found["beyond_zooms"])
    if not tiles:
        return []
    return [f"{misplaced(tiles)}, by zoom: {_few(_zooms(found['beyond_zooms']))}"]


def misplaced(tiles: int) -> str:
    """Of tiles such as 0/1/0."""
    one, many = "tile stands at a place that its zoom", "tiles stand at places that their zoom"
    return f"{tiles:,} {one if tiles == 1 else many} doesn't have"


def _sized(found: Dict[str, Any]) -> List[str]:
    """Of what the accepted tiles are made, and the largest of them."""
    whole = sum(each["bytes"] for each in found["layers"])
    if not whole:
        return []
    shares = {
        "geometry": sum(each["geometry"] for each in found["layers"]),
        "attributes": sum(each["attributes"] for each in found["layers"]),
    }
    parts = [f"{name} {_percent(bytes, whole)}" for name, bytes in shares.items()]
    layers = [f"{_named(each['layer'])} {_percent(each['bytes'], whole)}" for each in found["layers"][:SHOWN]]
    more = [f"{len(found['layers']) - SHOWN} more"] if len(found["layers"]) > SHOWN else []
    largest = [
        f"{_address(each)} {each['bytes']:,} bytes, {each['features']:,} features" for each in found["largest"][:_FEW]
    ]
    large = sum(each["large"] for each in found["zooms"])
    beyond = [f"{large:,} of more than {sizes.LARGE:,} bytes"] if large else []
    return [
        f"accepted tiles by size: {', '.join(parts)}; by layer: {', '.join([*layers, *more])}",
        f"the largest: {'; '.join([*largest, *beyond])}",
    ]


def _percent(part: int, whole: int) -> str:
    return f"{100 * part / whole:.0f} %"


def _named(layer: Optional[str]) -> str:
    return "others" if layer is None else shown(layer)


def mended(found: Dict[str, Any]) -> List[str]:
    """What was mended, and what is still broken; nothing where nothing was to be mended."""
    if "mended" not in found:
        return []
    told, still = found["mended"], found["still_broken"]
    kinds = [f"{name} {count:,} in {told['kinds'][name]:,}" for name, count in _largest(told["changes"])]
    left_out = f"; {told['left_out']:,} couldn't be copied" if told["left_out"] else ""
    links = f", {told['links']:,} of them links that lead out of the store" if told["links"] else ""
    return [
        f"mended: {sum(told['tiles'].values()):,} of {told['copied']:,} tiles, in {shown(told['into'], _PATH)}{left_out}{links}",
        *([f"metadata aren't in the copy: {told['metadata']}"] if told["metadata"] else []),
        f"changes, in how many tiles: {', '.join(kinds) or '-'}",
        f"still broken: {_few(_largest(still)) or 'none'}",
    ]


def _largest(counts: Dict[str, int]) -> List[Tuple[str, int]]:
    return sorted(counts.items(), key=lambda each: (-each[1], each[0]))


def _described(found: Dict[str, Any]) -> List[str]:
    """What the stores say of themselves that isn't so."""
    return [f"metadata: {each['difference']}" for each in found["metadata"]]


def _address(example: Dict[str, Any]) -> str:
    return shown(str(example["name"])) if example["z"] is None else f"{example['z']}/{example['x']}/{example['y']}"
