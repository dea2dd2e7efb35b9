"""Tiles of the Python module in the form of `mvt show`."""

import json
import struct

import libmvt


def shown_value(value):
    if isinstance(value, bool):
        return {"bool": value}
    if isinstance(value, str):
        return {"string": value}
    if isinstance(value, libmvt.Float):
        return {"float_bits": value.bits}
    if isinstance(value, float):
        return {"double_bits": struct.unpack("<Q", struct.pack("<d", value))[0]}
    return {"uint" if isinstance(value, libmvt.Uint) else "sint" if isinstance(value, libmvt.Sint) else "int": value}


def shown_geometry(kind, drawn):
    if kind == "polygons":
        return {kind: [{"outer": rings[0], "rest": rings[1:]} for rings in drawn]}
    return {kind: drawn}


def shown_layer(layer):
    if isinstance(layer, libmvt.Foreign):
        return {"foreign": {"length": len(layer.bytes), "version": layer.version}}
    features = [
        {
            "attributes": [[key, shown_value(value)] for key, value in feature.attributes.items()],
            "geometry": shown_geometry(feature.kind, feature.geometry),
            "id": feature.id,
        }
        for feature in layer.features
    ]
    return {"extent": layer.extent, "features": features, "name": layer.name}


def shown(of):
    """With lists in the place of tuples."""
    return json.loads(json.dumps({"layers": [shown_layer(layer) for layer in of.layers]}))
