"""What the tiles and stores of strangers may cost: the bounds of these commands, each with its reason."""

from libmvt import LIMIT

# ---- memory

# A process takes half of the machine's memory at most, so that the machine lives on; workers share a half. Each of them has so
# much even where they are many, since a tile at the limit of 64 MiB wants that to be unpacked and judged.
MEMORY = 1 << 29

# ---- files, and what is packed in them

# Of a file that should be a tile so many bytes are read: the front of a larger one decides that it is too large.
FILE = LIMIT + (1 << 20)
# A value of an SQLite file has so many bytes at most: a tile, and whatever stands with it. A few bytes of SQL make a gigabyte.
VALUE = FILE + (1 << 20)
# A gzip of more members, or a zstd of more frames, is no tile's: an empty one has few bytes, and each costs time.
MEMBERS = 4096
# A line of a list has so many bytes at most; a name that the system takes is shorter.
LINE = 8192
# A directory of an archive has so many bytes at most, packed and unpacked: those of whole planets have a few million.
DIRECTORY = 64_000_000
# An archive has so many entries at most, or else one for each of its bytes: each is a row of the results, and a kilobyte of gzip
# makes a quarter of a million. Those of the world have a hundredth of that.
ENTRIES = 100_000
# A directory is cut into so many slices at most, where parts of the wanted size would be more: each reads it from its front.
SLICES = 64
# Leaf directories lie in one another no deeper than this, where one or two are usual, and from so many on that can't be read the
# rest isn't looked at.
LEAVES, FAULTS = 8, 100

# ---- questions to SQLite

# So many seconds the next row may take, and one more for so many bytes of the file: a view may never end.
ROW_SECONDS, ROW_BYTES_A_SECOND = 10.0, 1_000_000
# So much a question may name, views within views included: one of a few lines makes millions of them.
NAMES_OF_A_QUESTION = 2_000

# ---- the page

# The rows of a tile, and GeoJSON of it, have at most so many bytes: a text stands in the latter once for each feature that has it.
ROWS_OF_PAGE, GEOJSON = 1 << 30, 1 << 30
# What there is round a fault has up to 72 times as many bytes as the tile; of tiles above so many bytes none is told, and no
# feature of a mended one is drawn.
AROUND = 1 << 23

# ---- rows of results

# A name of a layer or a key has so many bytes in a row: longer ones help nobody, and a few bytes of gzip make one of megabytes.
NAME = 200
# What can't be read is told in so many letters, some of which a server may have sent.
WHY = 1_000
# So many layers of a zoom, and so many keys, are counted by name in a part, and so many in the results; others together.
NAMED, NAMED_IN_ALL = 2_000, 20_000
# Of a tile whose rows have more bytes than this only the size is counted: rows take up to fifty times the bytes of their tile.
ROWS = 1 << 28

# ---- the report

# A picture has so many bytes at most, and all of a page have so many: more make one that browsers are slow with.
PICTURE, PICTURES = 400_000, 1 << 24
# Of a larger tile there is no picture: what is round a fault takes fifty bytes for each one of a tile.
TILE_OF_PICTURE = 2_000_000
# So many points of the broken feature are drawn at most before the fault, and as many behind: more are a blot.
POINTS = 20_000
# Of a tile whose rows have more bytes than this the broken feature alone is drawn, and no name is looked up.
PICTURE_ROWS = 1 << 24
# So many seconds the broken parts of one tile are looked for, each of which costs a look at the whole tile, and after so many no
# picture is begun.
PICTURE_SECONDS, PICTURES_SECONDS = 2.0, 60.0

# ---- copies

# A copy has so many times the bytes of its store at most, or else so many bytes: an archive of zstd grows by less than ten times
# where its tiles are unpacked, and views of a few letters make any number of bytes.
COPY, COPY_LEAST = 50, 1 << 26
# An archive that is copied names so many places at most, or else one for each of its bytes: those of the world have far less,
# and each place is a row of the copy.
PLACES = 1_000_000
# So many places of a run are copied at a time, in less than a second, so that Ctrl-C is heard.
RUN = 50_000
# Tiles are copied by so many at a time, or by so many bytes, since they are held meanwhile.
TILES_AT_A_TIME, BYTES_AT_A_TIME = 2_000, 1 << 24
# So many contents are remembered, so that equal ones stand in a copy once.
CONTENTS = 20_000

# ---- what a store says of itself

# Bytes of what a store says of itself, all of it together, and rows of it: as objects of Python they take thirty times as much.
SAID, SAID_ROWS = 1 << 23, 10_000
# A TileJSON has so many bytes at most: servers send some kilobytes.
TILEJSON = 1 << 20
# Of vector_layers with more layers than this nothing is said: the most that are known have some hundreds.
LAYERS = 10_000
# No degree of bounds is larger: they may lie some turns round the world.
DEGREES = 3600


def cut(name: str) -> str:
    """A name as a row has it: whole, or its front with a mark."""
    front = name[: NAME + 1].encode("utf-8", "surrogatepass")
    if len(front) <= NAME:
        return name
    return front[:NAME].decode("utf-8", "ignore") + "…"
