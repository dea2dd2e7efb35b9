"""GeoJSON (RFC 7946) of tiles, and layers of GeoJSON."""

from .making import DECIMALS, Part, Place, objects_of, parts_of, to_geojson
from .reading import MadeLayer, Vanished, from_geojson

__all__ = ["DECIMALS", "MadeLayer", "Part", "Place", "Vanished", "from_geojson", "objects_of", "parts_of", "to_geojson"]
