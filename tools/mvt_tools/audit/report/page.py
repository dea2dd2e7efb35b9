"""The page as HTML."""

import time
from html import escape
from pathlib import Path
from typing import Any, Dict, Iterable, List, Optional, Tuple
from urllib.parse import quote

from libmvt import cause_text

from ... import bounds
from ...stores import Store
from ..judging import ACCEPTED, BROKEN, EMPTY, NOT_UNPACKED, REFUSED, UNREAD, VERDICTS
from ..results import Results
from ..summary import mended, misplaced
from . import pictures
from .examples import Example, examples
from .maps import maps
from .pieces import command, heading, table, zooms
from .sentences import counted, hex_rows, marked
from .sized import sized
from .stumbles import stumbles

MEANINGS = {
    ACCEPTED: "keeps every rule",
    REFUSED: "breaks a rule",
    NOT_UNPACKED: "is compressed, and doesn't unpack",
    EMPTY: "has no bytes; as a tile it has no layer",
    UNREAD: "couldn't be read",
}

# The page needs nothing but itself, and runs nothing.
_POLICY = "default-src 'none'; style-src 'unsafe-inline'; img-src data:"


def page(results: Results, stores: Dict[str, Store], found: Dict[str, Any]) -> str:
    """The whole page."""
    names = ", ".join(Path(store["path"]).name for store in found["stores"])
    style = Path(__file__).with_name("style.css").read_text(encoding="utf-8")
    parts = [
        "<!DOCTYPE html>",
        '<html lang="en"><head><meta charset="utf-8">',
        '<meta name="viewport" content="width=device-width, initial-scale=1">',
        f'<meta http-equiv="Content-Security-Policy" content="{_POLICY}">',
        f"<title>Audit of {escape(names)}</title><style>{style}</style></head><body>",
        f"<h1>Audit of {escape(names)}</h1>",
        _head(found),
        _counts(results, found),
        _maps(results),
        *_causes(results, stores, found),
        *stumbles(results, stores),
        *sized(results, stores, found),
        "</body></html>\n",
    ]
    return "\n".join(part for part in parts if part)


def _head(found: Dict[str, Any]) -> str:
    verdicts = found["verdicts"]
    broken = sum(verdicts[verdict] for verdict in (REFUSED, NOT_UNPACKED, UNREAD))
    said = f"{broken:,} of {counted(found['tiles'], 'tile')} {'is' if broken == 1 else 'are'} broken"
    if not broken:
        said = f"All {counted(found['tiles'], 'tile')} are good" if found["tiles"] != 1 else "The tile is good"
    if found["unfinished"]:
        said += "; the audit isn't complete"
    stores = ", ".join(f"<code>{escape(store['path'])}</code>" for store in found["stores"])
    when = time.strftime("%Y-%m-%d %H:%M")
    verdict = f'<p class="quiet">{stores}, {when}</p><p class="verdict {"bad" if broken else "good"}">{said}.</p>'
    return (
        verdict + _head_of_mended(found) + _head_of_findings(found) + _head_of_places(found) + _head_of_metadata(found)
    )


def _head_of_mended(found: Dict[str, Any]) -> str:
    """What was mended in a copy of the store."""
    return "".join(f"<p>{escape(line[0].upper() + line[1:])}.</p>" for line in mended(found))


def _head_of_findings(found: Dict[str, Any]) -> str:
    if not found["findings"]:
        return ""
    tiles = counted(found["with_findings"], "good tile")
    return f'<p>Viewers may stumble over <a href="#findings">{tiles}</a>; no rule is broken there.</p>'


def _head_of_places(found: Dict[str, Any]) -> str:
    tiles = sum(each["tiles"] for each in found["beyond_zooms"])
    return f"<p>{misplaced(tiles)}; they are on no map.</p>" if tiles else ""


def _head_of_metadata(found: Dict[str, Any]) -> str:
    """What the stores say of themselves that isn't so."""
    several = len(found["stores"]) > 1
    lines = [
        f"<li>{escape(Path(each['store']).name + ': ' if several else '')}{escape(each['difference'])}</li>"
        for each in found["metadata"]
    ]
    return f"<p>The metadata and the tiles differ:</p><ul>{''.join(lines)}</ul>" if lines else ""


def _counts(results: Results, found: Dict[str, Any]) -> str:
    tiles, refused = found["tiles"], found["verdicts"][REFUSED]
    named = {verdict: f'{verdict}<br><span class="quiet">{MEANINGS[verdict]}</span>' for verdict in VERDICTS}
    verdicts = [(named[verdict], found["verdicts"][verdict]) for verdict in VERDICTS]
    causes = [(_link(each["cause"], each["cause_name"]), each["tiles"]) for each in found["causes"]]
    layers = [(escape(each["layer_name"]) or "(without a name)", each["tiles"]) for each in found["layers"]]
    notes = list(found["notes"].items())
    findings = [
        (f'<a href="#finding-{each["finding"]}">{each["finding"]}</a>', each["tiles"]) for each in found["findings"]
    ]
    tables = [
        table("Tiles", "Verdict", verdicts, tiles, (named[ACCEPTED], named[EMPTY])),
        table("By cause", "The first rule that a tile breaks", causes, refused),
        zooms("By zoom", "Broken", dict(results.counted("z", BROKEN)), dict(results.counted("z"))),
        table("By layer", "The layer of the first fault", layers, refused),
        table("Notes", "Allowed, and worth a look", notes, tiles, tuple(found["notes"])),
        table(
            "Findings", "No rule is broken, yet viewers stumble", findings, tiles, tuple(name for name, _ in findings)
        ),
        _zooms_of_findings(results, found),
    ]
    return f'<div class="columns">{"".join(tables)}</div>'


def _link(cause: int, name: str) -> str:
    return f'<a href="#cause-{cause}">{escape(name)}</a>'


def _zooms_of_findings(results: Results, found: Dict[str, Any]) -> str:
    if not found["findings"]:
        return ""
    some = dict(results.counted("z", "has_findings"))
    good = {z: tiles for z, tiles in results.counted("z", f"verdict = '{ACCEPTED}'") if z in some}
    return zooms("Findings, by zoom", "Good tiles with findings", some, good, is_calm=True)


def _maps(results: Results) -> str:
    figures = [
        f'<figure role="img" aria-label="Zoom {each.z}: {each.broken} of {each.tiles} tiles are broken">{each.svg}'
        f"<figcaption>Zoom {each.z}: {each.broken:,} of {counted(each.tiles, 'tile')};"
        f" {each.where}</figcaption></figure>"
        for each in maps(results)
    ]
    if not figures:
        return ""
    legend = (
        '<p class="legend quiet"><span><i></i>no tiles</span><span><i class="calm"></i>good</span>'
        '<span><i class="some"></i>some are broken</span><span><i class="all"></i>all are broken</span></p>'
    )
    return f'<h2>Where the broken ones lie</h2>{legend}<div class="maps">{"".join(figures)}</div>'


def _causes(results: Results, stores: Dict[str, Store], found: Dict[str, Any]) -> List[str]:
    """For each kind of broken tile what it means, and its worst examples."""
    kinds = [(REFUSED, each["cause"], each["cause_name"], each["tiles"]) for each in found["causes"]]
    kinds += [(verdict, None, verdict, found["verdicts"][verdict]) for verdict in (NOT_UNPACKED, UNREAD)]
    parts, album = [], pictures.Album()
    for verdict, cause, name, tiles in kinds:
        if tiles:
            means = cause_text(cause) if cause else f"Such a tile {MEANINGS[verdict]}."
            anchor = cause or verdict.replace(" ", "-")
            parts.append(f'<h3 id="cause-{anchor}">{escape(name)}: {counted(tiles, "tile")}</h3>')
            parts.append(f"<p>{escape(means)}</p>")
            parts += [_example(each, stores, album) for each in examples(results, stores, verdict, cause)]
    if parts:
        parts.insert(0, "<h2>The worst of each kind</h2>")
        parts.insert(1, '<p class="quiet">Those at the lowest zooms, which most people see, of different layers.</p>')
    return parts


def _example(example: Example, stores: Dict[str, Store], album: pictures.Album) -> str:
    row, fault = example.row, example.fault()
    said = [heading(example.store, row, _within(example), stores, example.link), command(row, stores[example.store])]
    if example.content is None:
        return f'<article>{"".join(said)}<p>{escape(row.notes or example.why)}</p></article>'
    if fault is None:
        shown = _bytes(example.content, None)
        said.append(f"<p>{escape(row.notes)}; {counted(row.bytes or 0, 'byte')}.</p>")
        return f'<article>{"".join(said)}<div class="shown">{shown}</div></article>'
    told = [f"<code>{escape(fault.line)}</code>", counted(row.bytes or 0, "byte"), escape(row.notes)]
    if not fault.explanation.endswith(cause_text(fault.cause)):
        # Names of any length stand before the sentence, and their fronts above.
        said.append(f"<p>{escape(fault.explanation if len(fault.explanation) < bounds.WHY else fault.sentence)}</p>")
    said.append(f'<p class="quiet">{"; ".join(filter(None, told))}</p>')
    shown = "".join(_pictures(album.of_fault(example.content, fault))) + _bytes(
        example.content, (fault.start or 0, fault.end or 0)
    )
    return f'<article>{"".join(said)}<div class="shown">{shown}</div></article>'


def _within(example: Example) -> str:
    """The run, the layer and the feature, these by name and id where they have such."""
    row = example.row
    told = f", the first of a run of {counted(row.tiles, 'tile')}" if row.tiles > 1 else ""
    if row.layer is not None:
        told += f", layer {row.layer}" + (f" “{row.layer_name}”" if row.layer_name is not None else "")
    if row.feature is not None:
        told += f", feature {row.feature}" + (f" (id {row.feature_id})" if row.feature_id is not None else "")
    return told


def _pictures(found: List[pictures.Picture]) -> Iterable[str]:
    if not found:
        yield '<p class="quiet">No picture: nothing of the tile can be drawn, or it is too much for this page.</p>'
    for picture in found:
        source = quote(picture.svg, safe=" =:;,/()!*.-+?@_~")
        yield f'<figure><img alt="{escape(picture.told)}" src="data:image/svg+xml,{source}">' f"<figcaption>{escape(picture.told)}</figcaption></figure>"


def _bytes(tile: bytes, place: Optional[Tuple[int, int]]) -> str:
    """The bytes round a place, or those at the beginning."""
    lines = []
    for run in hex_rows(tile, *(place or (0, 0))):
        low, high = run.mark
        spelled = [f"{byte:02X}" for byte in run.content]
        if high > low:
            spelled[low] = f"<mark>{spelled[low]}"
            spelled[high - 1] += "</mark>"
        letters = "".join(chr(byte) if 31 < byte < 127 else "·" for byte in run.content)
        gap = "   " * (8 - len(run.content))
        lines.append(f"<b>{run.start:06X}</b>  {' '.join(spelled)}{gap}  <b>{escape(letters)}</b>")
    caption = marked(*place) if place else "The first bytes, as they are stored."
    told = f"{escape(caption)} Offsets are hexadecimal."
    return f"<figure><pre>{chr(10).join(lines)}</pre><figcaption>{told}</figcaption></figure>"
