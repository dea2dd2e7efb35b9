"""Tiles of a few bytes, and what the program answers for each.

Tiles that are accepted, with their report, their JSON and their canonical bytes; tiles that are refused, with the line of
their fault; inputs with the lines of their fields; and command lines. Each tile is written in hexadecimal digits. A run
that writes an output writes nothing to the error stream, unless the fields of an input are told up to a broken one."""

# Layer a with the point (25,17), and the same point in the layer b.
ONE_POINT = "1A1178020A016112071801220309322228 8020"
ONE_POINT_B = "1A1178020A016212071801220309322228 8020"
BOTH = ONE_POINT + ONE_POINT_B
# Layer a without features, with a feature that says nothing, and with two points.
PLAIN = "1A08 7802 0A0161 288020"
BARE = "1A0E 7802 0A0161 12041800 2200 288020"
TWO_POINTS = "1A13 7802 0A0161 12091801 2205110A0E0309 288020"
# A layer of version 1.
FOREIGN = "1A05 7801 0A0161"

REPORT = "ok layers 1 features 1 canonical yes\n"
UNLIKE = "ok layers 1 features 1 canonical no\n"


def octets(digits):
    return bytes.fromhex(digits.replace(" ", ""))


def layer(features, name="a"):
    return '{"extent":4096,"features":[%s],"name":"%s"}' % (features, name)


def feature(geometry, attributes="", identifier="null"):
    return '{"attributes":[%s],"geometry":{%s},"id":%s}' % (attributes, geometry, identifier)


def foreign(length, version=1):
    return '{"foreign":{"length":%d,"version":%d}}' % (length, version)


def shown(*layers):
    return '{"layers":[%s]}\n' % ",".join(layers)


POINT = '"points":[[25,17]]'
A_POINT = layer(feature(POINT))
TWO = shown(layer(feature('"points":[[5,7],[3,2]]')))
NOTHING = shown(layer(feature('"unknown":[]')))
ONE_IN_POLYGON = shown(
    layer(
        feature('"polygons":[{"outer":[[0,0],[10,0],[10,10],[0,10]],"rest":[[[2,2],[2,8],[8,8]],[[1,1],[2,2],[3,3]]]}]')
    )
)
RINGS = "1A2B 7802 0A0161 12211803 221D0900001A1400001413000F09040F12000C0C000F090D0D12020202020F 288020"
KINDS = (
    "1A50 7802 0A0161 1212120C000001010202030304040505 1800 2200 1A01611A01621A01631A01641A01651A0166 22022005 22022805"
    " 2202300A 22051500000080 2209190000000000000080 2202%s 288020"
)
KINDS_SHOWN = shown(
    layer(
        feature(
            '"unknown":[]',
            '["a",{"int":5}],["b",{"uint":5}],["c",{"sint":5}],["d",{"float_bits":2147483648}],'
            '["e",{"double_bits":9223372036854775808}],["f",{"bool":true}]',
        )
    )
)
NO_LAYERS = "ok layers 0 features 0 canonical %s\nnote NoLayers\n"
NO_FEATURES = "ok layers 1 features 0 canonical %s\nnote NoFeatures layer 0\n"
OTHER = "ok layers 1 features 0 canonical yes\nnote Foreign layer 0 version %d\n"
WITH_UINT = feature(POINT, '["k",{"uint":5}]')
SAME_ID = "1A1E 7802 0A0161 1209080718012203093222 1209080718012203093222 288020"
# Features of these ids, some of which an earlier one has.
IDS = (7, 9, 3, 9, 3, 7)
IDS_REPEATED = "1A4A 7802 0A0161" + "".join("1209 08%02X 1801 2203093222" % it for it in IDS) + "288020"

# An input, its report, its JSON, and its canonical bytes.
ACCEPTED = [
    ("", NO_LAYERS % "yes", shown(), ""),
    (ONE_POINT, REPORT, shown(A_POINT), ONE_POINT),
    # Without the extent, and with the version behind it.
    ("1A0E 7802 0A0161 12071801 2203093222", UNLIKE, shown(A_POINT), ONE_POINT),
    ("1A11 0A0161 12071801 2203093222 288020 7802", UNLIKE, shown(A_POINT), ONE_POINT),
    # Integers packed in pieces, and not packed.
    ("1A15 7802 0A0161 120B1801 2202110A 22030E0309 288020", UNLIKE, TWO, TWO_POINTS),
    ("1A16 7802 0A0161 120C1801 2011200A200E20032009 288020", UNLIKE, TWO, TWO_POINTS),
    # Fields that aren't layers, and two layers.
    ("0D01000000 090200000000000000", NO_LAYERS % "no", shown(), ""),
    (BOTH, "ok layers 2 features 2 canonical yes\n", shown(A_POINT, layer(feature(POINT), "b")), BOTH),
    # Geometry and values.
    (RINGS, REPORT + "note FlatRing layer 0 feature 0 ring 2\n", ONE_IN_POLYGON, RINGS),
    (KINDS % "3807", UNLIKE, KINDS_SHOWN, KINDS % "3801"),
    (
        "1A12 7802 0A0161 120B1801 2207098080808 00800",
        UNLIKE,
        shown(layer(feature('"points":[[1073741824,0]]'))),
        "1A15 7802 0A0161 120B1801 2207098080808 00800 288020",
    ),
    # A key that stands twice in the pool.
    (
        "1A2C 7802 0A0161 120B1202000018012203093222 120B1202010018012203093222 1A016B 1A016B 22022805 288020",
        "ok layers 1 features 2 canonical no\n",
        shown(layer(WITH_UINT + "," + WITH_UINT)),
        "1A29 7802 0A0161 120B1202000018012203093222 120B1202000018012203093222 1A016B 22022805 288020",
    ),
    (
        SAME_ID,
        "ok layers 1 features 2 canonical yes\nnote RepeatedId layer 0 feature 1 earlier 0\n",
        shown(layer(feature(POINT, "", "7") + "," + feature(POINT, "", "7"))),
        SAME_ID,
    ),
    (
        IDS_REPEATED,
        "ok layers 1 features 6 canonical yes\nnote RepeatedId layer 0 feature 3 earlier 1\n"
        "note RepeatedId layer 0 feature 4 earlier 2\nnote RepeatedId layer 0 feature 5 earlier 0\n",
        shown(layer(",".join(feature(POINT, "", str(it)) for it in IDS))),
        IDS_REPEATED,
    ),
    # A feature without fields, and one with a field that isn't known.
    ("1A07 7802 0A0161 1200", UNLIKE, NOTHING, BARE),
    ("1A09 7802 0A0161 12022807", UNLIKE, NOTHING, BARE),
    # The last version and the last name count; an unknown field, a long length, an unused value.
    ("1A0A 7801 7802 0A0161 288020", NO_FEATURES % "no", shown(layer("")), PLAIN),
    ("1A0B 7802 0A0162 0A0161 288020", NO_FEATURES % "no", shown(layer("")), PLAIN),
    ("2005 1A08 7802 0A0161 288020", NO_FEATURES % "no", shown(layer("")), PLAIN),
    ("1A8800 7802 0A0161 288020", NO_FEATURES % "no", shown(layer("")), PLAIN),
    ("1A0C 7802 0A0161 22022805 288020", NO_FEATURES % "no", shown(layer("")), PLAIN),
    ("1A0E 7802 0A0161 220428052806 288020", NO_FEATURES % "no", shown(layer("")), PLAIN),
    (PLAIN, NO_FEATURES % "yes", shown(layer("")), PLAIN),
    ("1A07 7802 0A00 288020", NO_FEATURES % "yes", shown(layer("", "")), "1A07 7802 0A00 288020"),
    # Other versions.
    (FOREIGN, OTHER % 1, shown(foreign(5)), FOREIGN),
    (
        FOREIGN + "1A11 7802 0A0161 12071801 2203093222 288020",
        "ok layers 2 features 1 canonical yes\nnote Foreign layer 0 version 1\n",
        shown(foreign(5), A_POINT),
        FOREIGN + ONE_POINT,
    ),
    (
        "1A8500 7801 0A0161",
        "ok layers 1 features 0 canonical no\nnote Foreign layer 0 version 1\n",
        shown(foreign(5)),
        FOREIGN,
    ),
    ("1A0A 7802 7801 0A0161 288020", OTHER % 1, shown(foreign(10)), "1A0A 7802 7801 0A0161 288020"),
    # Its text isn't read.
    ("1A05 7801 0A01FF", OTHER % 1, shown(foreign(5)), "1A05 7801 0A01FF"),
    ("1A02 7800", OTHER % 0, shown(foreign(2, 0)), "1A02 7800"),
]

# An input, and the line of its fault.
REFUSED = [
    ("1A", "layer - feature - at 0: 1 Truncated"),
    ("2005 1A", "layer - feature - at 2: 1 Truncated"),
    ("0A 808080808080808080 01", "layer - feature - at 0: 1 Truncated"),
    ("1A03 0A0161 2005", "layer 0 feature - at 0: 8 NoVersion"),
    ("1A05 7802 0A0261", "layer 0 feature - at 4: 1 Truncated"),
    ("1A0A 7802 0A0161 12032201 80", "layer 0 feature 0 at 9: 1 Truncated"),
    ("1A0B 1280 8080 8080 8080 8080 01", "layer 0 feature - at 2: 1 Truncated"),
    ("20 808080808080808080 02", "layer - feature - at 0: 2 VarintRange"),
    ("0000", "layer - feature - at 0: 3 FieldNumber"),
    ("8080808010 00", "layer - feature - at 0: 3 FieldNumber"),
    ("1B", "layer - feature - at 0: 4 WireType"),
    ("1F8B", "layer - feature - at 0: 4 WireType"),
    ("1800", "layer - feature - at 0: 5 WrongType"),
    ("1A04 7A007801", "layer 0 feature - at 2: 5 WrongType"),
    ("1A0B 7802 0A0161 288080808010", "layer 0 feature - at 7: 6 NumberRange"),
    ("1A06 788080808010", "layer 0 feature - at 2: 6 NumberRange"),
    ("1A05 7802 0A01FF", "layer 0 feature - at 4: 7 NotUtf8"),
    ("1A0B 7802 0A01FF 0A0161 288020", "layer 0 feature - at 4: 7 NotUtf8"),
    ("1A05 7801 0A0261", "layer 0 feature - at 4: 1 Truncated"),
    ("1A03 0A0161", "layer 0 feature - at 0: 8 NoVersion"),
    ("1A02 7802", "layer 0 feature - at 0: 10 NoName"),
    ("1A07 7802 0A0161 2200", "layer 0 feature - at 7: 11 ValueKind"),
    ("1A0B 7802 0A0161 220420052805", "layer 0 feature - at 7: 11 ValueKind"),
    ("1A0E 7802 0A0161 12051801220109 2200", "layer 0 feature - at 14: 11 ValueKind"),
    (ONE_POINT + ONE_POINT, "layer 1 feature - at 19: 24 RepeatedName"),
    ("1A09 7802 0A0161 12021804", "layer 0 feature 0 at 9: 12 GeomType"),
    ("1A11 7802 0A0161 12031201 00 1A016B 22022805", "layer 0 feature 0 at 1: 13 OddTags"),
    ("1A12 7802 0A0161 120412020100 1A016B 22022805", "layer 0 feature 0 at 0: 14 KeyIndex"),
    ("1A12 7802 0A0161 120412020001 1A016B 22022805", "layer 0 feature 0 at 1: 15 ValueIndex"),
    ("1A14 7802 0A0161 1206120400000000 1A016B 22022805", "layer 0 feature 0 at 2: 16 RepeatedKey"),
    ("1A0E 7802 0A0161 12071802 22030A0202", "layer 0 feature 0 at 0: 17 Command"),
    ("1A0C 7802 0A0161 12051801 220101", "layer 0 feature 0 at 0: 18 Count"),
    ("1A0C 7802 0A0161 12051801 220109", "layer 0 feature 0 at 0: 19 Parameters"),
    ("1A11 7802 0A0161 120A1802 22060904040A0000", "layer 0 feature 0 at 4: 20 ZeroSegment"),
    ("1A14 7802 0A0161 120D1801 220911FEFFFFFF0F000200", "layer 0 feature 0 at 3: 21 CoordinateRange"),
    ("1A14 7802 0A0161 120D1803 2209092844 12172B090B0F", "layer 0 feature 0 at 8: 22 FirstRing"),
    ("1A0E 7802 0A0161 12071802 2203090404", "layer 0 feature 0 at 3: 23 EndsEarly"),
    ("1A12 7802 0A0161 120B1801 220709FFFFFFFF0F00", "layer 0 feature 0 at 1: 26 ParameterRange"),
]

# An input, the lines of its fields, and the line of its fault.
FIELDS = [
    ("", "", ""),
    ("1A03 0A0161 2005", "0 3 len 3\n5 4 varint 5\n", ""),
    ("2005 1A", "0 4 varint 5\n", "layer - feature - at 2: 1 Truncated\n"),
    ("0D01000000 090200000000000000", "0 1 i32 1\n5 1 i64 2\n", ""),
    (ONE_POINT, "0 3 len 17\n", ""),
    ("1800", "0 3 varint 0\n", ""),
    ("20 808080808080808080 02", "", "layer - feature - at 0: 2 VarintRange\n"),
    ("0000", "", "layer - feature - at 0: 3 FieldNumber\n"),
    ("1F8B", "", "layer - feature - at 0: 4 WireType\n"),
    ("0A 808080808080808080 01", "", "layer - feature - at 0: 1 Truncated\n"),
]

# A picture of no layer begins and ends so.
PICTURE = (
    '<svg xmlns="http://www.w3.org/2000/svg" viewBox="0 0 1 1">\n'
    "<style>path{fill:none;stroke:currentColor;stroke-width:.2%;stroke-linecap:round;stroke-linejoin:round}"
    ".points{stroke-width:1%}.polygons{fill:currentColor;fill-opacity:.2;fill-rule:evenodd}</style>\n"
)
DRAWN = PICTURE + (
    '<svg color="#0072b2" viewBox="0 0 4096 4096"><title>a</title>\n'
    '<path class="points" d="M25 17h0"><title>{"attributes":[],"id":null}</title></path>\n</svg>\n</svg>\n'
)

# Words, an input, the output in digits, and the line that tells which layer wasn't found.
EXTRACTED = [
    (["b"], BOTH, ONE_POINT_B, ""),
    (["b", "a"], BOTH, BOTH, ""),
    (["b", "b", "a"], BOTH, BOTH, ""),
    (["b", "c"], BOTH, "", "c"),
    (["c", "d"], BOTH, "", "c"),
    # A foreign layer has no name.
    (["a"], FOREIGN, "", "a"),
    (["a"], FOREIGN + ONE_POINT, ONE_POINT, ""),
    (["a"], ONE_POINT, ONE_POINT, ""),
    # A name that begins with a hyphen follows two of them.
    (["--", "a"], ONE_POINT, ONE_POINT, ""),
    (["--", "-x"], ONE_POINT, "", "-x"),
    (["a", ""], ONE_POINT, "", ""),
]

# Lines that are refused before anything is read.
UNREAD = [["frob"], ["extract"], ["extract", "-x"], ["show", "a"], ["--help"], ["help"]]


# What `mend` says behind the line of a fault.
UNMENDED = "mvt: not mended: another rule is broken\n"


def runs():
    """Words, an input, and what is answered: the status, the output and the error stream."""
    for tile, report, text, canonical in ACCEPTED:
        yield ["check"], tile, (0, report, "")
        yield ["show"], tile, (0, text, "")
        yield ["rewrite"], tile, (0, octets(canonical), "")
        yield ["mend"], tile, (0, octets(canonical), "")
    for tile, line in REFUSED:
        for words in (["check"], ["show"], ["draw"], ["rewrite"], ["extract", "a"]):
            yield words, tile, (1, "", line + "\n")
        # These two rules are mended.
        if not line.endswith(("ZeroSegment", "FirstRing")):
            yield ["mend"], tile, (1, "", line + "\n" + UNMENDED)
    for tile, lines, line in FIELDS:
        yield ["fields"], tile, (1 if line else 0, lines, line)
    yield ["draw"], ONE_POINT, (0, DRAWN, "")
    yield ["draw"], FOREIGN, (0, PICTURE + "</svg>\n", "")
    for names, tile, layers, missing in EXTRACTED:
        line = "" if layers else f"mvt: layer not found: {missing}\n"
        yield ["extract", *names], tile, (1 if line else 0, octets(layers), line)
    # Without a subcommand the tile is checked.
    yield [], ONE_POINT, (0, REPORT, "")
    yield [], "1B", (1, "", "layer - feature - at 0: 4 WireType\n")


def encoded(text):
    return text if isinstance(text, bytes) else text.encode()
