"""The numbers of `mvt.h` and their names, made of it by `library/layout.py`."""

# A tile has at most so many bytes.
LIMIT = 67108864

# What each cause is called, by its number.
CAUSES = {
    1: "Truncated",
    2: "VarintRange",
    3: "FieldNumber",
    4: "WireType",
    5: "WrongType",
    6: "NumberRange",
    7: "NotUtf8",
    8: "NoVersion",
    10: "NoName",
    11: "ValueKind",
    12: "GeomType",
    13: "OddTags",
    14: "KeyIndex",
    15: "ValueIndex",
    16: "RepeatedKey",
    17: "Command",
    18: "Count",
    19: "Parameters",
    20: "ZeroSegment",
    21: "CoordinateRange",
    22: "FirstRing",
    23: "EndsEarly",
    24: "RepeatedName",
    25: "TooLarge",
    26: "ParameterRange",
    27: "ExteriorRing",
    28: "InteriorRing",
}

# What each note is called, by its number.
NOTES = {
    1: "NoLayers",
    2: "Foreign",
    3: "NoFeatures",
    4: "RepeatedId",
    5: "FlatRing",
    6: "ClosedTwice",
}

# What each finding is called, by its number.
FINDINGS = {
    1: "ZeroExtent",
    2: "NoGeometry",
    3: "UnknownGeometry",
    4: "FarPoint",
    5: "LargeId",
    6: "LargeNumber",
}

# What each change is called, by its number.
CHANGES = {
    1: "TurnedRing",
    2: "RepeatedPoint",
    3: "PartLeftOut",
    4: "FeatureLeftOut",
    5: "MovedRing",
}

# What each lookalike is called, by its number.
LOOKALIKES = {
    1: "Gzip",
    2: "Zlib",
    3: "Zstd",
    4: "Png",
    5: "Sqlite",
    6: "Pmtiles",
    7: "Json",
    8: "Html",
    9: "Jpeg",
    10: "Gif",
    11: "Webp",
    12: "FlatGeobuf",
    13: "Xz",
    14: "Bzip2",
    15: "Zip",
    16: "Pdf",
    17: "OsmPbf",
    18: "Xml",
    19: "PlainText",
    20: "Brotli",
    21: "Mbtiles",
}
