"""Draws a tile by Mapbox GL, as the plugin of Qt Location has it, in software and without a screen."""
import collections
import http.server
import itertools
import json
import os
import subprocess
import tempfile
import threading
from pathlib import Path

from PIL import Image

SIZE = 512
ZOOM = 3  # of a sheet, which has a whole world of tiles
SCREENS = itertools.count(100 + os.getpid() % 1000 * 20)  # a screen of its own for each picture
COLOURS = ["#00aa00", "#aa0000", "#0000aa", "#aa7700"]
PAINT = {
    "fill": lambda c: {"fill-color": c, "fill-antialias": False},
    "line": lambda c: {"line-color": c, "line-width": 2},
    "circle": lambda c: {"circle-color": c, "circle-radius": 5},
}
QML = """import QtQuick 2.15
import QtQuick.Window 2.15
import QtLocation 5.15
import QtPositioning 5.15
Window { width: SIDE; height: SIDE; visible: true
  Map { id: map; anchors.fill: parent; copyrightsVisible: false
    plugin: Plugin { name: "mapboxgl"
      PluginParameter { name: "mapboxgl.mapping.additional_style_urls"; value: "file://ROOM/style.json" }
      PluginParameter { name: "mapboxgl.mapping.use_fbo"; value: "true" }
      PluginParameter { name: "mapboxgl.mapping.cache.memory"; value: "true" } }
    center: QtPositioning.coordinate(0, 0); zoomLevel: ZOOM }
  Timer { interval: WAIT; running: true
    onTriggered: map.grabToImage(function (shot) { shot.saveToFile("ROOM/out.png"); Qt.quit() }) } }
"""
# What came: the status, 128 and more for a signal; the viewer's words on the tile; for each layer the columns of the picture
# that have its colour, with how many pixels they have; and the picture. The last two are None where there is no picture.
Drawn = collections.namedtuple("Drawn", "status words columns picture")


def serve(tile_at):
    """A server whose tile at z, x and y is what this function gives."""

    class Handler(http.server.BaseHTTPRequestHandler):
        def do_GET(self):
            tile = tile_at(*map(int, self.path.split("/")[1:]))
            self.send_response(200)
            self.send_header("Content-Length", str(len(tile)))
            self.end_headers()
            self.wfile.write(tile)

        def log_message(self, *_):
            pass

    server = http.server.ThreadingHTTPServer(("127.0.0.1", 0), Handler)
    threading.Thread(target=server.serve_forever, daemon=True).start()
    return server


def style_of(port, zoom, layers):
    """Layers of the style: each of a layer of the tiles, with its type and its paint, the last on top."""
    return {
        "version": 8,
        "sources": {
            "t": {
                "type": "vector",
                "tiles": [f"http://127.0.0.1:{port}/{{z}}/{{x}}/{{y}}"],
                "minzoom": zoom,
                "maxzoom": zoom,
            }
        },
        "layers": [{"id": "ground", "type": "background", "paint": {"background-color": "#ffffff"}}]
        + [
            {"id": str(i), "type": kind, "source": "t", "source-layer": name, "paint": paint, **others}
            for i, (name, kind, paint, others) in enumerate(layers)
        ],
    }


def columns_of(image, colour):
    wanted = tuple(bytes.fromhex(colour[1:]))
    found = collections.Counter()
    for at, pixel in enumerate(image.getdata()):
        if pixel == wanted:
            found[at % image.width] += 1
    return found


def draw(tile, layers):
    """The tile is served as 0/0/0 and drawn by these layers, each a name and fill, line or circle, the last on top."""
    drawn = draw_within(2500, tile, layers)
    if drawn.columns is not None and not any(drawn.columns) and not drawn.words:
        return draw_within(10000, tile, layers)
    return drawn


def draw_within(wait, tile, layers):
    """The picture after so many milliseconds."""
    painted = [(name, kind, PAINT[kind](COLOURS[i]), {}) for i, (name, kind) in enumerate(layers)]
    status, words, image = shot(wait, lambda *_: tile, 0, painted)
    if image is None:
        return Drawn(status, words, None, None)
    return Drawn(status, words, [columns_of(image, COLOURS[i]) for i in range(len(layers))], image.tobytes())


def shot(wait, tile_at, zoom, layers):
    """The status, the viewer's words, and the picture of the whole world at a zoom, or None."""
    server, side = serve(tile_at), SIZE << zoom
    with tempfile.TemporaryDirectory() as room:
        Path(room, "style.json").write_text(json.dumps(style_of(server.server_port, zoom, layers)))
        text = (
            QML.replace("ROOM", room).replace("WAIT", str(wait)).replace("SIDE", str(side)).replace("ZOOM", str(zoom))
        )
        Path(room, "map.qml").write_text(text)
        env = dict(os.environ, LIBGL_ALWAYS_SOFTWARE="1", XDG_RUNTIME_DIR=room, HOME=room)
        screen = f"-screen 0 {side + 100}x{side + 100}x24 +extension GLX"
        ran = subprocess.run(
            ["xvfb-run", "-n", str(next(SCREENS)), "-s", screen, "timeout", "200", "qmlscene", f"{room}/map.qml"],
            env=env,
            capture_output=True,
            text=True,
        )
        server.shutdown()
        words = [
            line.split(" for source t: ")[-1].strip(' "')
            for line in (ran.stdout + ran.stderr).splitlines()
            if "ERROR" in line
        ]
        file = Path(room, "out.png")
        return ran.returncode, words, Image.open(file).convert("RGB") if file.exists() else None


def polygons_over(tiles, names, wait=10000):
    """Of each of up to 64 tiles a picture in which a pixel is how many polygons of the layers with these names lie over it, eight
    at most: each halves the light. All are drawn at once, as the world of a zoom."""
    half = {"fill-color": "#000000", "fill-opacity": 0.5, "fill-antialias": False}
    layers = [(name, "fill", half, {"filter": ["==", "$type", "Polygon"]}) for name in names]
    across = 1 << ZOOM

    def tile_at(_, x, y):
        return tiles[y * across + x] if y * across + x < len(tiles) else b""

    status, words, image = shot(wait, tile_at, ZOOM, layers)
    if image is None or words:
        raise RuntimeError(f"Mapbox GL ends with status {status}: {words}")
    depths = image.getchannel(0).point([8 - light.bit_length() for light in range(256)])
    for at in range(len(tiles)):
        y, x = divmod(at, across)
        yield depths.crop((x * SIZE, y * SIZE, (x + 1) * SIZE, (y + 1) * SIZE))
