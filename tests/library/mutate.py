#!/usr/bin/env python3
"""Tiles with some bytes changed: mutate.py FOLDER COUNT TILE.. The same tiles each time."""

import random
import sys
from pathlib import Path


def changed(count, tiles):
    """So many tiles: of these in turn, one to three bytes are others, and every fifth or so is cut."""
    chance = random.Random(1)
    for number in range(count):
        tile = bytearray(tiles[number % len(tiles)])
        for _ in range(chance.randint(1, 3)):
            tile[chance.randrange(len(tile))] = chance.randrange(256)
        if chance.random() < 0.2:
            del tile[chance.randrange(len(tile)) :]
        yield bytes(tile)


def main():
    folder, count, tiles = Path(sys.argv[1]), int(sys.argv[2]), sys.argv[3:]
    folder.mkdir(parents=True)
    for number, tile in enumerate(changed(count, [Path(name).read_bytes() for name in tiles])):
        (folder / f"{number:04d}.mvt").write_bytes(tile)


if __name__ == "__main__":
    main()
