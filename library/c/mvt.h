/* mvt: reads, judges and writes Mapbox Vector Tiles (Mapbox Vector Tile Specification 2.1).
 *
 * Each call returns a status. It writes `out` only if the status is MVT_OK, and `fault` only if it is MVT_REFUSED;
 * otherwise they keep their values, which are never read. The memory in `out` belongs to the caller: free it with the call
 * for its type, such as mvt_bytes_free. Calls share nothing, so any number of threads may call at the same time.
 *
 * `bytes` and `len` are one tile, uncompressed. A pointer may be NULL if its length or count is 0; if the library returns
 * a length of 0, don't follow the pointer. The calls that free memory also take NULL; no other call does. The library
 * needs a processor with x86-64-v2.
 *
 * Until 1.0 versions with one minor number stand for each other, and have one shared library: libmvt.so.0.4. Within them
 * calls, and numbers of enums, may be added; structures and what is there stay, so a caller allocates what this header says.
 */
#ifndef MVT_H
#define MVT_H

#include <stddef.h>
#include <stdint.h>

#define MVT_VERSION "0.4.0"
#define MVT_VERSION_MAJOR 0
#define MVT_VERSION_MINOR 4
#define MVT_VERSION_PATCH 0

/* A tile has at most so many bytes, and so has what a call makes of one, but for texts. */
#define MVT_LIMIT 67108864

/* So many of its first bytes tell what an input looks like that is no tile (mvt_looks_like, mvt_explain_head). */
#define MVT_HEAD 65536

#ifdef __cplusplus
extern "C" {
#endif
#ifdef __GNUC__
#pragma GCC visibility push(default)
#endif

typedef enum {
    MVT_OK = 0,
    MVT_REFUSED = 1,     /* the bytes are no tile; the fault says why */
    MVT_NO_MEMORY = 2,   /* out of memory */
    MVT_TOO_LARGE = 3,   /* the result would be larger than MVT_LIMIT bytes */
    MVT_NO_LAYER = 4,    /* no layer of version 2 has this name */
    MVT_BAD_NAME = 5,    /* a name isn't UTF-8 */
    MVT_NO_TILE = 6,     /* rows that are no valid tile */
    MVT_NO_DECODER = 7,  /* the decoder was never made, or is finished or freed */
    MVT_OUT_OF_TURN = 8  /* the builder doesn't expect this call now */
} mvt_status;

/* Bytes, or a UTF-8 text without a zero at its end. */
typedef struct {
    const uint8_t *data;
    size_t len;
} mvt_bytes;

/* Which rule a fault breaks; mvt_cause_text says it in words. The last two are of rows alone (mvt_rows_fault): as bytes they
 * would be a tile, but with other polygons. */
typedef enum {
    MVT_CAUSE_TRUNCATED = 1,
    MVT_CAUSE_VARINT_RANGE = 2,
    MVT_CAUSE_FIELD_NUMBER = 3,
    MVT_CAUSE_WIRE_TYPE = 4,
    MVT_CAUSE_WRONG_TYPE = 5,
    MVT_CAUSE_NUMBER_RANGE = 6,
    MVT_CAUSE_NOT_UTF8 = 7,
    MVT_CAUSE_NO_VERSION = 8,
    MVT_CAUSE_NO_NAME = 10,
    MVT_CAUSE_VALUE_KIND = 11,
    MVT_CAUSE_GEOM_TYPE = 12,
    MVT_CAUSE_ODD_TAGS = 13,
    MVT_CAUSE_KEY_INDEX = 14,
    MVT_CAUSE_VALUE_INDEX = 15,
    MVT_CAUSE_REPEATED_KEY = 16,
    MVT_CAUSE_COMMAND = 17,
    MVT_CAUSE_COUNT = 18,
    MVT_CAUSE_PARAMETERS = 19,
    MVT_CAUSE_ZERO_SEGMENT = 20,
    MVT_CAUSE_COORDINATE_RANGE = 21,
    MVT_CAUSE_FIRST_RING = 22,
    MVT_CAUSE_ENDS_EARLY = 23,
    MVT_CAUSE_REPEATED_NAME = 24,
    MVT_CAUSE_TOO_LARGE = 25,
    MVT_CAUSE_PARAMETER_RANGE = 26,
    MVT_CAUSE_EXTERIOR_RING = 27,
    MVT_CAUSE_INTERIOR_RING = 28
} mvt_cause;

/* The first broken rule. `layer` is -1 if the fault lies in a top-level field itself, and `feature` is -1 if it lies in no
 * feature. `at` is an offset in the tile, or an index in the feature's tags or in the integers of its geometry. `name` is
 * the name of the cause, which is constant: don't free it. */
typedef struct {
    int64_t layer, feature;
    uint64_t at;
    uint32_t cause;     /* an mvt_cause */
    mvt_bytes name;
} mvt_fault;

/* A tile comes as rows. A row refers to its parts by a span: where they begin in the list of their kind, and how many
 * there are. */
typedef struct {
    uint64_t start, len;
} mvt_span;

/* A layer of version 2 has a name, an extent, features, and all keys and values of the tile's layer, also those that no
 * feature uses. A layer of another version has only its bytes. All other fields are 0. */
typedef struct {
    uint32_t version, extent;
    mvt_span name;      /* of texts */
    mvt_span features;
    mvt_span keys;
    mvt_span values;
    mvt_span bytes;     /* of texts */
} mvt_layer;

typedef enum { MVT_UNKNOWN = 0, MVT_POINTS = 1, MVT_LINES = 2, MVT_POLYGONS = 3 } mvt_kind;

/* A feature. Its tags are pairs of a key index and a value index, both counted from the first one of its layer. Its parts
 * are its lines, its rings, or one part with all its points. An unknown geometry has integers instead. */
typedef struct {
    uint64_t id;
    uint32_t has_id;    /* 1 or 0 */
    uint32_t kind;      /* MVT_UNKNOWN .. MVT_POLYGONS */
    mvt_span tags;
    mvt_span parts;
    mvt_span integers;
} mvt_feature;

typedef enum {
    MVT_TEXT = 1,
    MVT_FLOAT = 2,
    MVT_DOUBLE = 3,
    MVT_INT = 4,
    MVT_UINT = 5,
    MVT_SINT = 6,
    MVT_BOOL = 7
} mvt_value_kind;

/* A value: a text, or 64 bits. A float or double is its bit pattern, an int or sint is in two's complement, a bool is 1
 * or 0. */
typedef struct {
    uint32_t kind;      /* MVT_TEXT .. MVT_BOOL */
    uint64_t bits;
    mvt_span text;      /* of texts */
} mvt_value;

/* A line, a ring, or the points of a feature. A ring closes from its last point to its first. */
typedef struct {
    uint32_t exterior;  /* 1 if this is an exterior ring, which begins a polygon, else 0 */
    mvt_span points;
} mvt_part;

/* A position: x to the right, y down. */
typedef struct {
    int32_t x, y;
} mvt_point;

typedef struct {
    const mvt_layer *layers;     size_t layer_count;
    const mvt_feature *features; size_t feature_count;
    const mvt_span *keys;        size_t key_count;     /* of texts */
    const mvt_value *values;     size_t value_count;
    const uint32_t *tags;        size_t tag_count;
    const mvt_part *parts;       size_t part_count;
    const mvt_point *points;     size_t point_count;
    const uint32_t *integers;    size_t integer_count;
    const uint8_t *texts;        size_t text_len;
} mvt_tile;

/* The canonical bytes of a tile: equal tiles have equal bytes.
 * MVT_OK, MVT_REFUSED, MVT_NO_MEMORY, MVT_TOO_LARGE. */
mvt_status mvt_rewrite(const uint8_t *bytes, size_t len, mvt_bytes *out, mvt_fault *fault);

/* What mvt_mend changed. */
typedef enum {
    MVT_CHANGE_TURNED_RING = 1,     /* a ring is told in the other direction, from the same first point */
    MVT_CHANGE_REPEATED_POINT = 2,  /* points that equal the one before them, or at a ring's end its first, are left out */
    MVT_CHANGE_PART_LEFT_OUT = 3,   /* a line or ring is left out: too few points are left */
    MVT_CHANGE_FEATURE_LEFT_OUT = 4, /* a feature is left out: none of its lines or rings is left */
    MVT_CHANGE_MOVED_RING = 5       /* a ring stands elsewhere: behind the exterior ring that holds it */
} mvt_change;

/* A change. Places count from 0 in the tile as it was. What the kind doesn't speak of is 0. */
typedef struct {
    uint32_t kind;      /* an mvt_change */
    uint64_t layer;     /* over layers of every version, as in an mvt_fault */
    uint64_t feature;
    uint64_t part;      /* a line, or a ring through all polygons of the feature */
    uint64_t count;     /* of the points that are left out */
    uint64_t to;        /* of a ring that moved, its index among those that stay */
} mvt_change_row;

typedef struct {
    mvt_bytes bytes;
    const mvt_change_row *changes; size_t change_count;
} mvt_mended;

/* Why mvt_mend refuses a tile. */
typedef enum {
    MVT_UNMENDED_RINGS_CROSS = 1,    /* two rings cross by more than rounding explains, so neither holds the other */
    MVT_UNMENDED_TOO_MANY_STEPS = 2, /* telling its rings would take more than 1,073,741,824 steps */
    MVT_UNMENDED_ANOTHER_RULE = 3    /* another rule is broken, or no line of what is left could be written */
} mvt_unmended;

/* The same with the two rings. What the kind doesn't speak of is 0. */
typedef struct {
    uint32_t kind;          /* an mvt_unmended */
    uint64_t layer;         /* over layers of every version, as in an mvt_fault */
    uint64_t feature;
    uint64_t ring, other;   /* through all polygons of the feature; the larger of the two first */
} mvt_unmended_row;

/* The canonical bytes of a tile in which the two rules are mended that producers break most: MVT_CAUSE_ZERO_SEGMENT and
 * MVT_CAUSE_FIRST_RING. With them comes what was changed: of each feature its lines or rings in order, or that it is left out.
 * Where a polygon's first ring has negative area, its rings are told by even-odd: what an odd number of the others hold is a
 * hole, but for a unit. Filled by even-odd the tile looks the same before and after; ids, attributes and all else stay.
 * A tile that keeps every rule is rewritten, and has no changes. Refused with the fault that mvt_judge tells is one that breaks
 * another rule too, whose rings cross by more than a unit, or whose rings would take seconds (2^30 steps).
 * With MVT_REFUSED it writes `why`, unless that is NULL. Free the result with mvt_mended_free. MVT_OK, MVT_REFUSED,
 * MVT_NO_MEMORY, MVT_TOO_LARGE. */
mvt_status mvt_mend(const uint8_t *bytes, size_t len, mvt_mended *out, mvt_fault *fault, mvt_unmended_row *why);

/* The canonical bytes of the named layers of version 2, in the order of the tile. A repeated name counts once; without
 * names the result has no layers. The names are checked before the bytes, so MVT_BAD_NAME comes first.
 * With MVT_NO_LAYER it writes `missing`, unless that is NULL: the index of the first name that no layer has.
 * MVT_OK, MVT_REFUSED, MVT_NO_MEMORY, MVT_TOO_LARGE, MVT_NO_LAYER, MVT_BAD_NAME. */
mvt_status mvt_extract(const uint8_t *bytes, size_t len, const mvt_bytes *names, size_t count, mvt_bytes *out,
                       mvt_fault *fault, size_t *missing);

/* A tile as one line of JSON, without a line end. MVT_OK, MVT_REFUSED, MVT_NO_MEMORY. */
mvt_status mvt_json(const uint8_t *bytes, size_t len, mvt_bytes *out, mvt_fault *fault);

/* A picture of a tile in SVG. MVT_OK, MVT_REFUSED, MVT_NO_MEMORY. */
mvt_status mvt_svg(const uint8_t *bytes, size_t len, mvt_bytes *out, mvt_fault *fault);

/* Says whether the bytes are a tile, and makes nothing. MVT_OK, MVT_REFUSED, MVT_NO_MEMORY. */
mvt_status mvt_judge(const uint8_t *bytes, size_t len, mvt_fault *fault);

/* What `mvt check` prints: a line with the numbers of layers and features and whether the bytes are canonical, and a line
 * for each note. Each ends with a line feed. MVT_OK, MVT_REFUSED, MVT_NO_MEMORY. */
mvt_status mvt_report(const uint8_t *bytes, size_t len, mvt_bytes *out, mvt_fault *fault);

/* What `mvt lint` prints: a line for each thing that breaks no rule but that viewers stumble over, such as
 * `lint FarPoint layer 0 feature 3 position 20000 0`. Each ends with a line feed; without findings the result is empty.
 * MVT_OK, MVT_REFUSED, MVT_NO_MEMORY. */
mvt_status mvt_lint(const uint8_t *bytes, size_t len, mvt_bytes *out, mvt_fault *fault);

/* What is noted of a tile: nothing that breaks a rule, but worth a look. mvt_note_text says it in words. */
typedef enum {
    MVT_NOTE_NO_LAYERS = 1,
    MVT_NOTE_FOREIGN = 2,
    MVT_NOTE_NO_FEATURES = 3,
    MVT_NOTE_REPEATED_ID = 4,
    MVT_NOTE_FLAT_RING = 5,
    MVT_NOTE_CLOSED_TWICE = 6
} mvt_note;

/* A note. Places count from 0. What the kind doesn't speak of is 0. */
typedef struct {
    uint32_t kind;      /* an mvt_note */
    uint32_t version;   /* of a layer of another version than 2 */
    uint64_t layer, feature;
    uint64_t ring;      /* through all polygons of the feature */
    uint64_t earlier;   /* the feature whose id is repeated */
} mvt_note_row;

typedef struct {
    uint64_t layers;        /* of every version */
    uint64_t features;      /* of the layers of version 2 */
    uint32_t is_canonical;  /* 1 if the bytes are those that mvt_rewrite makes, else 0 */
    const mvt_note_row *notes; size_t note_count;
} mvt_summary;

/* What mvt_report says, as values. Free it with mvt_summary_free. MVT_OK, MVT_REFUSED, MVT_NO_MEMORY. */
mvt_status mvt_survey(const uint8_t *bytes, size_t len, mvt_summary *out, mvt_fault *fault);

/* What viewers stumble over in a tile that keeps every rule. mvt_finding_text says it in words. */
typedef enum {
    MVT_FINDING_ZERO_EXTENT = 1,
    MVT_FINDING_NO_GEOMETRY = 2,
    MVT_FINDING_UNKNOWN_GEOMETRY = 3,
    MVT_FINDING_FAR_POINT = 4,
    MVT_FINDING_LARGE_ID = 5,
    MVT_FINDING_LARGE_NUMBER = 6
} mvt_finding;

/* A finding. Places count from 0. What the kind doesn't speak of is 0. */
typedef struct {
    uint32_t kind;      /* an mvt_finding */
    uint32_t has_feature; /* 0 for a finding of a layer, else 1 */
    uint64_t layer, feature;
    uint64_t attribute; /* of a large number */
    int32_t x, y;       /* of a far point */
} mvt_finding_row;

typedef struct {
    const mvt_finding_row *rows; size_t count;
} mvt_findings;

/* What mvt_lint says, as rows. Free them with mvt_findings_free. MVT_OK, MVT_REFUSED, MVT_NO_MEMORY. */
mvt_status mvt_lint_rows(const uint8_t *bytes, size_t len, mvt_findings *out, mvt_fault *fault);

/* A tile as rows, whose nine lists together have at most `most` bytes; UINT64_MAX is no bound. Beyond it the status is
 * MVT_NO_MEMORY, which is checked after each key, value, feature and layer, so a small tile with many rows ends early: a tile
 * of 4 MB can have 128 MB of rows. A growing list doubles, and takes up to three times its bytes for a moment.
 * MVT_OK, MVT_REFUSED, MVT_NO_MEMORY. */
mvt_status mvt_read(const uint8_t *bytes, size_t len, uint64_t most, mvt_tile *out, mvt_fault *fault);

/* The first layer of version 2 with this name, as the rows of a tile that has no other layer. Reads only as far as this
 * layer, and of earlier layers only the version and the name. So the rest may be broken: MVT_OK doesn't say that the bytes
 * are a tile. A fault is one of this layer, or of bytes before it that are no top-level field. MVT_OK, MVT_REFUSED,
 * MVT_NO_MEMORY, MVT_NO_LAYER. */
mvt_status mvt_read_layer(const uint8_t *bytes, size_t len, mvt_bytes name, mvt_tile *out, mvt_fault *fault);

/* What is wrong with rows. They are checked layer by layer. In a layer of version 2 this is first its name, and whether an
 * earlier layer has it; then its keys, its values and the span of its features; then for each feature its id, tags, kind and
 * geometry, and last whether commands can draw it. */
typedef enum {
    MVT_ROWS_NAME_SPAN = 1,       /* a layer's name reaches beyond the texts */
    MVT_ROWS_NAME = 2,            /* a layer's name isn't UTF-8 */
    MVT_ROWS_KEYS_SPAN = 3,       /* a layer's keys reach beyond the keys */
    MVT_ROWS_KEY = 4,             /* a key reaches beyond the texts, or isn't UTF-8 */
    MVT_ROWS_VALUES_SPAN = 5,     /* a layer's values reach beyond the values */
    MVT_ROWS_VALUE = 6,           /* a value has no such kind, a number out of range, or a text as in MVT_ROWS_KEY */
    MVT_ROWS_FEATURES_SPAN = 7,   /* a layer's features reach beyond the features */
    MVT_ROWS_BYTES_SPAN = 8,      /* the bytes of a layer of another version reach beyond the texts */
    MVT_ROWS_HAS_ID = 9,          /* `has_id` is neither 0 nor 1 */
    MVT_ROWS_TAGS_SPAN = 10,      /* a feature's tags reach beyond the tags */
    MVT_ROWS_ODD_TAGS = 11,       /* a feature's tags are odd in number */
    MVT_ROWS_KEY_INDEX = 12,      /* a tag's index is beyond the layer's keys */
    MVT_ROWS_VALUE_INDEX = 13,    /* a tag's index is beyond the layer's values */
    MVT_ROWS_REPEATED_KEY = 14,   /* a feature's tags name a key twice */
    MVT_ROWS_KIND = 15,           /* a feature's kind isn't 0 to 3 */
    MVT_ROWS_GEOMETRY = 16,       /* parts, points or integers reach beyond their list, `exterior` is neither 0 nor 1,
                                   * an interior ring comes before every exterior one, or points are in several parts */
    MVT_ROWS_DRAWING = 17,        /* no commands can draw the geometry: too few points, a point twice in a row, a ring that
                                   * runs the wrong way round, a position or a step out of range; the rule says which */
    MVT_ROWS_BYTES = 18,          /* a layer's bytes aren't a layer of its version */
    MVT_ROWS_REPEATED_NAME = 19   /* an earlier layer has the layer's name */
} mvt_rows_cause;

/* Where rows are no valid tile. `feature` counts from the layer's first one, and is 0 if `has_feature` is 0.
 * If the cause is MVT_ROWS_DRAWING, `rule` is the first rule that the geometry breaks: line by line or ring by ring, first the
 * step to the first point, then how many points there are, the steps to the others, and the area of a ring. But for the two
 * rules of rows alone it is the cause for which the bytes would be refused. `part` counts from the feature's first line or
 * ring, and `point` from the part's first point; it is 0 if `has_point` is 0. For other causes these four are 0. */
typedef struct {
    uint64_t layer, feature;
    uint32_t has_feature;   /* 1 if the fault is in a feature, else 0 */
    uint32_t cause;         /* an mvt_rows_cause */
    uint32_t rule;          /* an mvt_cause, or 0 */
    uint32_t has_point;     /* 1 if the rule is broken at a point, 0 if by a part as a whole */
    uint64_t part, point;
} mvt_rows_fault;

/* The canonical bytes of the tile that the rows are. Rows may come from mvt_read or be made by hand, in any order, with
 * overlapping spans and unused entries. Fields that don't apply, such as the bytes of a layer of version 2, the text of a
 * number or the `exterior` of a line, are ignored, and so are entries that no row refers to. Every span is checked, also an
 * empty one: it must begin within its list or at its end. Keys and values of a layer that no tag uses are checked, but not
 * written.
 * MVT_NO_TILE if a span reaches beyond its list, a tag's index beyond the keys or values of its layer, or the rows are no
 * valid tile: a name, key or text isn't UTF-8; a kind doesn't exist; a `has_id`, the `exterior` of a ring or a bool is above
 * 1; a float has more than 32 bits; tags are odd in number or name a key twice; there are no points, lines or rings; points
 * are in several parts; a line has less than two points, or a ring less than three; a line or ring has a point twice in a
 * row; a position, or a step to the next one, is beyond 2,147,483,647 to either side; a ring runs the wrong way round; an
 * interior ring comes before every exterior one; two layers have one name; the bytes of a layer aren't a layer of its
 * version. With it the first thing that is wrong is written to `fault`, unless that is NULL. Also MVT_OK, MVT_NO_MEMORY,
 * MVT_TOO_LARGE.
 * An entry counts for each span that covers it. If this is more than all entries of the lists plus 67,108,864, the result is
 * MVT_NO_MEMORY, so a few megabytes of rows can't cause unbounded work. */
mvt_status mvt_write(const mvt_tile *tile, mvt_bytes *out, mvt_rows_fault *fault);

/* Says whether rows are a valid tile, and else writes the same fault as mvt_write. MVT_OK, also if mvt_write would
 * return MVT_TOO_LARGE; MVT_NO_TILE; MVT_NO_MEMORY, also for overlapping spans as in mvt_write. */
mvt_status mvt_judge_rows(const mvt_tile *tile, mvt_rows_fault *fault);

/* The cause of an mvt_rows_fault in plain words: a constant text, also for an unknown cause. mvt_cause_text says its rule. */
const char *mvt_rows_cause_text(uint32_t cause);

/* A decoder reads a tile that comes in pieces of any length. Begin with `mvt_decoder decoder = {0};`, which is no decoder
 * yet. Only one thread may use it at a time. After copying the variable, use only one of the copies. */
typedef struct {
    void *held;
} mvt_decoder;

/* Makes a decoder that has no bytes yet, with the bound of mvt_read: beyond it mvt_decoder_feed returns MVT_NO_MEMORY. The
 * bytes of an unfinished field come on top. What `decoder` held before is not freed. MVT_OK, MVT_NO_MEMORY. */
mvt_status mvt_decoder_new(mvt_decoder *decoder, uint64_t most);

/* Takes a piece. Returns a fault as soon as no further byte can change it. After a fault, or after MVT_NO_MEMORY, each
 * further call returns the same. MVT_OK, MVT_REFUSED, MVT_NO_MEMORY, MVT_NO_DECODER. */
mvt_status mvt_decoder_feed(mvt_decoder *decoder, const uint8_t *piece, size_t len, mvt_fault *fault);

/* The tile as rows, after the last piece. Frees the decoder, whatever the status.
 * MVT_OK, MVT_REFUSED, MVT_NO_MEMORY, MVT_NO_DECODER. */
mvt_status mvt_decoder_finish(mvt_decoder *decoder, mvt_tile *out, mvt_fault *fault);

/* Frees a decoder, if there is one. */
void mvt_decoder_free(mvt_decoder *decoder);

/* A builder makes a tile step by step: begin a layer, begin a feature, add its tags and points, and finish.
 *
 *     mvt_builder builder = {0};
 *     mvt_bytes tile;
 *     mvt_rows_fault fault;
 *     mvt_builder_layer(&builder, mvt_text("places"), 4096);
 *     mvt_builder_feature(&builder, MVT_POINTS);
 *     mvt_builder_tag(&builder, mvt_text("name"), mvt_any_text(mvt_text("Mill Pond")));
 *     mvt_builder_point(&builder, 25, 17);
 *     if (mvt_builder_finish(&builder, &tile, &fault) == MVT_OK) ..
 *
 * A call returns MVT_OK, MVT_NO_MEMORY, or MVT_OUT_OF_TURN if no layer, or no feature of the right kind, has begun. After
 * a status other than MVT_OK each further call returns the same, so it is enough to check the last one. Only one thread
 * may use a builder at a time. After copying the variable, use only one of the copies. */
typedef struct {
    void *held;
} mvt_builder;

/* A value to write: a text, or 64 bits as in mvt_value. The functions below make one of each kind. */
typedef struct {
    uint32_t kind; /* MVT_TEXT .. MVT_BOOL */
    uint64_t bits;
    mvt_bytes text;
} mvt_any;

/* The text of a C string, without the zero at its end. */
mvt_bytes mvt_text(const char *text);
mvt_any mvt_any_text(mvt_bytes text);
mvt_any mvt_any_float(float number);
mvt_any mvt_any_double(double number);
mvt_any mvt_any_int(int64_t number);
mvt_any mvt_any_uint(uint64_t number);
mvt_any mvt_any_sint(int64_t number);
mvt_any mvt_any_bool(int truth);

/* Begins a layer, and ends the one before. */
mvt_status mvt_builder_layer(mvt_builder *builder, mvt_bytes name, uint32_t extent);

/* Adds a layer of another version than 2, given by its bytes. MVT_OUT_OF_TURN for version 2. */
mvt_status mvt_builder_foreign(mvt_builder *builder, uint32_t version, mvt_bytes bytes);

/* The index of a key or a value in the layer, which is added if it is new. */
mvt_status mvt_builder_key(mvt_builder *builder, mvt_bytes key, uint32_t *index);
mvt_status mvt_builder_value(mvt_builder *builder, mvt_any value, uint32_t *index);

/* Begins a feature of the layer, and ends the one before. */
mvt_status mvt_builder_feature(mvt_builder *builder, mvt_kind kind);
mvt_status mvt_builder_id(mvt_builder *builder, uint64_t id);

/* Adds an attribute to the feature, by key and value or by their indices. */
mvt_status mvt_builder_tag(mvt_builder *builder, mvt_bytes key, mvt_any value);
mvt_status mvt_builder_tag_at(mvt_builder *builder, uint32_t key, uint32_t value);

/* Begin a line of a feature of lines, or a ring of a feature of polygons. An exterior ring begins a polygon, and the rings
 * after it are its holes. */
mvt_status mvt_builder_line(mvt_builder *builder);
mvt_status mvt_builder_ring(mvt_builder *builder, int exterior);

/* Add points to the line or ring that began last, or to a feature of points. A ring closes from its last point to its
 * first. */
mvt_status mvt_builder_point(mvt_builder *builder, int32_t x, int32_t y);
mvt_status mvt_builder_points(mvt_builder *builder, const mvt_point *points, size_t count);

/* Adds integers to a feature of unknown geometry. */
mvt_status mvt_builder_integers(mvt_builder *builder, const uint32_t *integers, size_t count);

/* Adds a whole feature in one call, and ends the one before. `id` may be NULL. Tags are pairs of indices from
 * mvt_builder_key and mvt_builder_value. Parts are spans of these points: lines, rings, or one part with all points of a
 * feature of points. MVT_OUT_OF_TURN also if a part reaches beyond the points, or the `exterior` of a ring is above 1. */
mvt_status mvt_builder_add(mvt_builder *builder, mvt_kind kind, const uint64_t *id, const uint32_t *tags, size_t tag_count,
                           const mvt_part *parts, size_t part_count, const mvt_point *points, size_t point_count);

/* Removes the feature that began last, for example if its geometry has become empty. */
mvt_status mvt_builder_drop(mvt_builder *builder);

/* The tile so far, as rows, which belong to the builder: they are valid until its next call; don't free them. Ends the
 * layer. */
mvt_status mvt_builder_rows(mvt_builder *builder, mvt_tile *out);

/* The canonical bytes of the tile. Frees the builder, whatever the status; it may then begin a new tile. Also returns
 * MVT_TOO_LARGE, and MVT_NO_TILE, with which it writes `fault`, unless that is NULL, as mvt_write does. */
mvt_status mvt_builder_finish(mvt_builder *builder, mvt_bytes *out, mvt_rows_fault *fault);

/* Frees a builder, if there is one. */
void mvt_builder_free(mvt_builder *builder);

/* The texts below are constant and end with a zero: don't free them. */

/* The version of the library; MVT_VERSION is that of the header. */
const char *mvt_version(void);

/* A status in a few words, for a message. */
const char *mvt_status_text(uint32_t status);

/* What a cause, a note or a finding means, in a sentence or two; of a finding also which viewers do what. */
const char *mvt_cause_text(uint32_t cause);
const char *mvt_note_text(uint32_t note);
const char *mvt_finding_text(uint32_t finding);

/* What bytes look like that are no tile. */
typedef enum {
    MVT_LOOKALIKE_GZIP = 1,
    MVT_LOOKALIKE_ZLIB = 2,
    MVT_LOOKALIKE_ZSTD = 3,
    MVT_LOOKALIKE_PNG = 4,
    MVT_LOOKALIKE_SQLITE = 5,       /* a database that isn't seen to be MBTiles */
    MVT_LOOKALIKE_PMTILES = 6,
    MVT_LOOKALIKE_JSON = 7,
    MVT_LOOKALIKE_HTML = 8,
    MVT_LOOKALIKE_JPEG = 9,
    MVT_LOOKALIKE_GIF = 10,
    MVT_LOOKALIKE_WEBP = 11,
    MVT_LOOKALIKE_FLAT_GEOBUF = 12,
    MVT_LOOKALIKE_XZ = 13,
    MVT_LOOKALIKE_BZIP2 = 14,
    MVT_LOOKALIKE_ZIP = 15,
    MVT_LOOKALIKE_PDF = 16,
    MVT_LOOKALIKE_OSM_PBF = 17,     /* data of OpenStreetMap */
    MVT_LOOKALIKE_XML = 18,         /* behind a byte order mark or white space; else it counts as HTML */
    MVT_LOOKALIKE_PLAIN_TEXT = 19,
    MVT_LOOKALIKE_BROTLI = 20,      /* has no mark: its first block is longer than the bytes */
    MVT_LOOKALIKE_MBTILES = 21
} mvt_lookalike;

/* What refused bytes look like, an mvt_lookalike, or 0 if they may be meant as a tile. Pass all of them, or at least the first
 * MVT_HEAD, of which brotli isn't told right. Don't ask of an accepted tile, which may begin as something else does. */
int mvt_looks_like(const uint8_t *bytes, size_t len);

/* A fault in a sentence or two. Pass the refused bytes: if they look like gzip, zlib, zstd, PNG, SQLite, PMTiles, JSON or HTML,
 * or else like something that mvt_lookalike names, the text says so. */
const char *mvt_explain(const uint8_t *bytes, size_t len, const mvt_fault *fault);

/* The same of an input of `size` bytes, such as those that were fed to a decoder, of which the first MVT_HEAD are at hand, or
 * all: brotli is told of all alone. */
const char *mvt_explain_head(const uint8_t *head, size_t len, uint64_t size, const mvt_fault *fault);

/* Where a fault stands in the refused bytes: the layer's name, which points into these bytes and may not be UTF-8, the
 * feature's id, and the bytes from `start` up to `end`. These are a field, or the number with the index `at` in the tags or
 * the geometry. If `start` equals `end`, something is missing before that byte. If there is no such layer or feature, both
 * are the end of the bytes. */
typedef struct {
    mvt_bytes layer_name;
    uint32_t has_layer_name; /* 1 or 0 */
    uint32_t has_feature_id; /* 1 or 0 */
    uint64_t feature_id;
    uint64_t start, end;
} mvt_place;
void mvt_locate(const uint8_t *bytes, size_t len, const mvt_fault *fault, mvt_place *out);

/* The bytes of a field: where its tag begins, where its payload begins, which is after the length if it has one, and where
 * both end. */
typedef struct {
    uint64_t start, body, end;
} mvt_bounds;

/* A field of a message. Its wire type is 0, 1, 2 or 5. */
typedef struct {
    uint32_t number, wire_type;
    mvt_bounds bounds;
} mvt_field;

/* An integer of a feature's tags or geometry, and the bytes that spell it. */
typedef struct {
    uint64_t value, start, end;
} mvt_integer;

/* What an integer of a geometry is (MVT specification 2.1, 4.3): a command, or a parameter of one. */
typedef enum {
    MVT_ROLE_NOTHING = 0,   /* no command; more than 32 bits; or behind such an integer or a position out of range */
    MVT_ROLE_MOVE_TO = 1,
    MVT_ROLE_LINE_TO = 2,
    MVT_ROLE_MOVE_X = 3,
    MVT_ROLE_MOVE_Y = 4,    /* begins a part with the point (x, y) */
    MVT_ROLE_LINE_X = 5,
    MVT_ROLE_LINE_Y = 6,    /* adds the point (x, y) to the part, or begins the first one */
    MVT_ROLE_CLOSE_PATH = 7 /* joins the part's last point to its first */
} mvt_role;

/* What an integer of a geometry is, and where the cursor stands after it. */
typedef struct {
    uint32_t role;      /* an mvt_role */
    uint32_t left;      /* so many parameters of the command are still to come */
    int64_t x, y;
} mvt_step;

/* What there is round a fault. What isn't there, or can't be read, is 0. An extent and a type are what the last field says
 * that can be read, whatever it is. */
typedef struct {
    mvt_place place;
    uint32_t has_layer, has_extent, has_feature, has_kind; /* 1 or 0 */
    mvt_bounds layer, feature;
    mvt_bounds message;     /* the innermost message in which the fault is: the feature, a value, the layer or the tile */
    uint64_t extent, kind;
    uint32_t list;          /* the field whose integers the fault's `at` counts: 2, tags, 4, geometry, or 0, none */
    const mvt_bounds *keys;      size_t key_count;      /* of the layer */
    const mvt_integer *tags;     size_t tag_count;      /* of the feature */
    const mvt_integer *geometry; size_t geometry_count; /* of the feature */
    const mvt_step *steps;       size_t step_count;     /* one for each integer of the geometry */
    const mvt_field *fields;     size_t field_count;    /* of the message, up to the first bytes that are none */
} mvt_surroundings;

/* What a person wants to see round a fault of refused bytes: the layer and the feature that it names, the integers of tags
 * and geometry with what they draw, and the fields round it. Takes any bytes and any fault, in a time and with a memory
 * that grow with the layer, or with the bytes if the fault is in no layer: at most 72 bytes for each of them, which an integer of
 * a geometry takes that has one byte, and 48 of what is handed out. So a tile of 8 MiB takes 604 MB at most, and one of 64 MiB
 * 4.8 GB. Free it with mvt_surroundings_free. MVT_OK, MVT_NO_MEMORY. */
mvt_status mvt_around(const uint8_t *bytes, size_t len, const mvt_fault *fault, mvt_surroundings *out);

/* Free what a call put into `out`, and leave zeros there, so that a second call does nothing. NULL does nothing, here and in
 * mvt_decoder_free and mvt_builder_free. */
void mvt_bytes_free(mvt_bytes *bytes);
void mvt_tile_free(mvt_tile *tile);
void mvt_summary_free(mvt_summary *summary);
void mvt_findings_free(mvt_findings *findings);
void mvt_mended_free(mvt_mended *mended);
void mvt_surroundings_free(mvt_surroundings *surroundings);

#ifdef __GNUC__
#pragma GCC visibility pop
#endif
#ifdef __cplusplus
}
#endif

#endif
