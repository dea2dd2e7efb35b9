"""Serves the page that looks into tiles, on this machine alone.

    $ mvt-page tile.mvt world.mbtiles

The browser shows; what is said of a tile comes from the proved library, in this process. `docs/PAGE.md` of the project
tells what the page does. It wants the standard library alone.
"""
