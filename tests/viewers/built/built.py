"""The tile of tests/viewers/built, by the builder of Python."""

import sys

import libmvt

builder = libmvt.Builder().layer("water")
builder.feature("polygons", id=1).tag("name", "Mill Pond").tag("salt", False)
builder.ring([(512, 512), (3584, 512), (3584, 3584), (512, 3584)], exterior=True)
builder.ring([(1536, 1536), (1536, 2560), (2560, 2560), (2560, 1536)], exterior=False)
builder.layer("roads").feature("lines", id=2).tag("lanes", 2).tag("level", -1).tag("width", libmvt.Float(7.5))
builder.line([(0, 256), (4096, 256)]).line([(0, 3840), (2048, 3968), (4096, 3840)])
builder.layer("places", extent=512).feature("points").tag("height", 3.25).points([(128, 128), (384, 256)])
sys.stdout.buffer.write(builder.finish())
