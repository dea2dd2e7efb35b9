#!/usr/bin/python3
"""Draws a tile by QGIS, without a screen, and prints how many pixels its points, lines and polygons have, as JSON:
qgis_draws.py TILE [PICTURE], which then gets the picture"""
import json
import os
import shutil
import sys
import tempfile
from pathlib import Path

os.environ["QT_QPA_PLATFORM"] = "offscreen"
from qgis.core import (
    QgsApplication,
    QgsCoordinateReferenceSystem,
    QgsMapRendererSequentialJob,
    QgsMapSettings,
    QgsRectangle,
    QgsSymbol,
    QgsVectorTileBasicRenderer,
    QgsVectorTileBasicRendererStyle,
    QgsVectorTileLayer,
    QgsWkbTypes,
)
from qgis.PyQt.QtCore import QSize
from qgis.PyQt.QtGui import QColor

KINDS = {
    "points": (QgsWkbTypes.PointGeometry, "#0000aa"),
    "lines": (QgsWkbTypes.LineGeometry, "#aa0000"),
    "polygons": (QgsWkbTypes.PolygonGeometry, "#00aa00"),
}
SIZE = 512
SIDE = 20037508.342789244  # of the half world of Web Mercator, in metres


def styles():
    for name, (kind, colour) in KINDS.items():
        symbol = QgsSymbol.defaultSymbol(kind)
        symbol.setColor(QColor(colour))
        style = QgsVectorTileBasicRendererStyle(name, "", kind)
        style.setSymbol(symbol)
        style.setEnabled(True)
        yield style


def picture(room):
    layer = QgsVectorTileLayer(f"type=xyz&url=file://{room}/%7Bz%7D/%7Bx%7D/%7By%7D.pbf&zmin=0&zmax=0", "tile")
    renderer = QgsVectorTileBasicRenderer()
    renderer.setStyles(list(styles()))
    layer.setRenderer(renderer)
    settings = QgsMapSettings()
    settings.setLayers([layer])
    settings.setOutputSize(QSize(SIZE, SIZE))
    settings.setBackgroundColor(QColor("white"))
    settings.setFlag(QgsMapSettings.Antialiasing, False)
    settings.setDestinationCrs(QgsCoordinateReferenceSystem("EPSG:3857"))
    settings.setExtent(QgsRectangle(-SIDE, -SIDE, SIDE, SIDE))
    job = QgsMapRendererSequentialJob(settings)
    job.start()
    job.waitForFinished()
    return job.renderedImage()


QgsApplication.setPrefixPath("/usr", True)
application = QgsApplication([], False)
application.initQgis()
with tempfile.TemporaryDirectory() as room:
    Path(room, "0/0").mkdir(parents=True)
    shutil.copy(sys.argv[1], Path(room, "0/0/0.pbf"))
    image = picture(room)
if sys.argv[2:]:
    image.save(sys.argv[2])
found = {name: {} for name in KINDS}
names = {QColor(colour).rgb(): name for name, (_, colour) in KINDS.items()}
for x in range(SIZE):
    for y in range(SIZE):
        name = names.get(image.pixel(x, y))
        if name:
            found[name][x] = found[name].get(x, 0) + 1
print(json.dumps(found))
