// What `mvt.h` says of numbers and rows, made of it by `library/layout.py`.

/** A tile has at most so many bytes. Of a longer input the library reads no more. */
export const LIMIT = 67108864;

export const STATUS = { OK: 0, REFUSED: 1, NO_MEMORY: 2, TOO_LARGE: 3, NO_LAYER: 4, BAD_NAME: 5, NO_TILE: 6, NO_DECODER: 7, OUT_OF_TURN: 8 };
export const KIND = { UNKNOWN: 0, POINTS: 1, LINES: 2, POLYGONS: 3 };
export const VALUE_KIND = { TEXT: 1, FLOAT: 2, DOUBLE: 3, INT: 4, UINT: 5, SINT: 6, BOOL: 7 };

/** The numbers of causes, notes, findings and changes, by the names that the program prints, and of what bytes look like. */
export const CAUSE = { Truncated: 1, VarintRange: 2, FieldNumber: 3, WireType: 4, WrongType: 5, NumberRange: 6, NotUtf8: 7, NoVersion: 8, NoName: 10, ValueKind: 11, GeomType: 12, OddTags: 13, KeyIndex: 14, ValueIndex: 15, RepeatedKey: 16, Command: 17, Count: 18, Parameters: 19, ZeroSegment: 20, CoordinateRange: 21, FirstRing: 22, EndsEarly: 23, RepeatedName: 24, TooLarge: 25, ParameterRange: 26, ExteriorRing: 27, InteriorRing: 28 };
export const NOTE = { NoLayers: 1, Foreign: 2, NoFeatures: 3, RepeatedId: 4, FlatRing: 5, ClosedTwice: 6 };
export const FINDING = { ZeroExtent: 1, NoGeometry: 2, UnknownGeometry: 3, FarPoint: 4, LargeId: 5, LargeNumber: 6 };
export const CHANGE = { TurnedRing: 1, RepeatedPoint: 2, PartLeftOut: 3, FeatureLeftOut: 4, MovedRing: 5 };
export const LOOKALIKE = { Gzip: 1, Zlib: 2, Zstd: 3, Png: 4, Sqlite: 5, Pmtiles: 6, Json: 7, Html: 8, Jpeg: 9, Gif: 10, Webp: 11, FlatGeobuf: 12, Xz: 13, Bzip2: 14, Zip: 15, Pdf: 16, OsmPbf: 17, Xml: 18, PlainText: 19, Brotli: 20, Mbtiles: 21 };

/** The lists of a tile in their order, with the bytes of a row. */
export const ROW_SIZES = { layers: 88, features: 64, keys: 16, values: 32, tags: 4, parts: 24, points: 8, integers: 4, texts: 1 };

/** Of each structure the words of 32 bits that it has, and the word at which each field begins. */
export const SPAN_ROW = { words: 4, start: 0, len: 2 };
export const LAYER_ROW = { words: 22, version: 0, extent: 1, name: 2, features: 6, keys: 10, values: 14, bytes: 18 };
export const FEATURE_ROW = { words: 16, id: 0, has_id: 2, kind: 3, tags: 4, parts: 8, integers: 12 };
export const VALUE_ROW = { words: 8, kind: 0, bits: 2, text: 4 };
export const PART_ROW = { words: 6, exterior: 0, points: 2 };
export const POINT_ROW = { words: 2, x: 0, y: 1 };
export const NOTE_ROW = { words: 10, kind: 0, version: 1, layer: 2, feature: 4, ring: 6, earlier: 8 };
export const FINDING_ROW = { words: 10, kind: 0, has_feature: 1, layer: 2, feature: 4, attribute: 6, x: 8, y: 9 };
