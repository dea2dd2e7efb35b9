"""What a type checker knows of the Python module. mypy reads this file; a line that is marked has to be an error."""

from typing import Dict, List, Optional, Sequence, Tuple, Union

import libmvt


def use(content: bytes) -> List[int]:
    flat = libmvt.rows(content)
    first: libmvt.LayerRow = flat.layers[0]
    versions: List[int] = [layer.version for layer in flat.layers]
    places: List[Tuple[int, int]] = [(point.x, point.y) for point in flat.points]
    tags: Sequence[int] = flat.tags
    columns: List[str] = list(flat.frame("water", keys=["name"]).columns)
    flat.frame(5)  # type: ignore[arg-type]
    flat.layers[0].name.start = "a"  # type: ignore[assignment]

    tile = libmvt.read(content)
    kinds: List[libmvt.Kind] = [feature.kind for feature in tile["water"].features]
    found: Optional[libmvt.Layer] = tile.layer("water")
    attributes: Dict[str, libmvt.Value] = tile["water"].features[0].attributes
    both: List[Union[libmvt.Layer, libmvt.Foreign]] = list(tile)
    all_versions: List[int] = [layer.version for layer in tile]
    names: List[str] = [layer.name for layer in tile if isinstance(layer, libmvt.Layer)]
    sizes: List[int] = [len(tile), len(tile["water"]), libmvt.report(content).layers]
    ids: List[Optional[int]] = [feature.id for feature in tile["water"]]
    notes: List[libmvt.Note] = libmvt.report(content).notes
    text: str = libmvt.report(content)
    found.extent  # type: ignore[union-attr]
    libmvt.Feature(None, attributes, "circles", [])  # type: ignore[arg-type]
    libmvt.Builder().layer("a").feature("circles")  # type: ignore[arg-type]
    libmvt.Builder().layer("a").feature("points").point(1.5, 2)  # type: ignore[arg-type]
    built: bytes = libmvt.Builder().layer("a").feature("points", id=7).tag("k", 1.5).point(25, 17).finish()
    try:
        libmvt.judge(content)
    except libmvt.Refused as fault:
        where: Tuple[Optional[int], Optional[int]] = (fault.start, fault.end)
        fault.start + 1  # type: ignore[operator]
        kind: Optional[str] = libmvt.looks_like(content)
        places += [(0, end) for end in where if end is not None and kind is None]
    sizes += [len(ids), len(notes), len(text)]
    return (
        sizes
        + versions
        + all_versions
        + [first.extent, len(places), len(columns), len(tags), len(kinds), len(both), len(names), len(built)]
    )
