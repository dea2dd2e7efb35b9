/* The builder, and the words for a status and a fault. */
#include "tests.h"

#include <inttypes.h>

static int is_text(const mvt_tile *t, mvt_span at, const char *text) {
    return at.len == strlen(text) && memcmp(t->texts + at.start, text, at.len) == 0;
}

/* The layer `a` with the point (25, 17), as the bytes that are known of it. */
static void build_point(void) {
    const uint8_t known[] = {0x1A, 0x11, 0x78, 0x02, 0x0A, 0x01, 0x61, 0x12, 0x07, 0x18,
                             0x01, 0x22, 0x03, 0x09, 0x32, 0x22, 0x28, 0x80, 0x20};
    mvt_builder builder = {0};
    mvt_bytes out = {0};
    mvt_builder_layer(&builder, mvt_text("a"), 4096);
    mvt_builder_feature(&builder, MVT_POINTS);
    mvt_builder_point(&builder, 25, 17);
    mvt_rows_fault fault, untold;
    memset(&untold, 0x5a, sizeof untold), fault = untold;
    require(mvt_builder_finish(&builder, &out, &fault) == MVT_OK && builder.held == NULL, "a point is built");
    require(memcmp(&fault, &untold, sizeof fault) == 0, "no fault is told");
    require(out.len == sizeof known && memcmp(out.data, known, sizeof known) == 0, "the bytes of a point");
    mvt_bytes_free(&out);
    require(mvt_builder_finish(&builder, &out, &fault) == MVT_OK && out.len == 0,
            "a builder that begins anew is empty");
}

/* The case `kinds` is what each language's builder makes of values of all kinds. */
static void build_kinds_of(const told_case *of) {
    static const char *const keys[] = {"s", "f", "d", "i", "p", "u", "n", "z", "b"};
    const mvt_any values[] = {mvt_any_text(mvt_text("x")),
                              mvt_any_float(2.5f),
                              mvt_any_double(3.5),
                              mvt_any_int(-5),
                              mvt_any_int(5),
                              mvt_any_uint(5),
                              mvt_any_sint(-5),
                              mvt_any_sint(5),
                              mvt_any_bool(1)};
    if (strcmp(of->name, "kinds") != 0) return;
    mvt_builder builder = {0};
    mvt_bytes out = {0};
    mvt_rows_fault fault;
    mvt_builder_layer(&builder, mvt_text("a"), 4096);
    mvt_builder_feature(&builder, MVT_POINTS);
    mvt_builder_point(&builder, 25, 17);
    for (int i = 0; i < 9; ++i) mvt_builder_tag(&builder, mvt_text(keys[i]), values[i]);
    require(mvt_builder_finish(&builder, &out, &fault) == MVT_OK, "values of all kinds are built");
    require_bytes(out.data, out.len, of->tile, of->len, "the bytes of values of all kinds");
    mvt_bytes_free(&out);
}

static void build_kinds(void) { each_case(build_kinds_of); }

/* Two layers with a feature of each kind and a value of each kind, read again. */
static void build_all(void) {
    static const mvt_point square[] = {{0, 0}, {8, 0}, {8, 8}, {0, 8}}, hole[] = {{2, 2}, {2, 4}, {4, 4}, {4, 2}};
    static const uint32_t integers[] = {9, 2, 2};
    const uint8_t foreign[] = {0x78, 0x01, 0x0A, 0x01, 0x62};
    const mvt_any values[] = {mvt_any_text(mvt_text("x")),
                              mvt_any_float(2.5f),
                              mvt_any_double(-0.0),
                              mvt_any_double(0.0),
                              mvt_any_int(-1),
                              mvt_any_uint(1),
                              mvt_any_sint(-1),
                              mvt_any_bool(7)};
    mvt_builder builder = {0};
    mvt_bytes out = {0};
    mvt_rows_fault wrong;
    uint32_t key, again, value;
    mvt_builder_layer(&builder, mvt_text("town"), 512);
    mvt_builder_feature(&builder, MVT_POLYGONS);
    mvt_builder_id(&builder, UINT64_MAX);
    mvt_builder_ring(&builder, 1);
    mvt_builder_points(&builder, square, 4);
    mvt_builder_ring(&builder, 0);
    mvt_builder_points(&builder, hole, 4);
    for (int i = 0; i < 8; ++i) {
        const char name[] = {'k', (char)('0' + i), 0};
        mvt_builder_tag(&builder, mvt_text(name), values[i]);
    }
    mvt_builder_feature(&builder, MVT_LINES);
    require(mvt_builder_key(&builder, mvt_text("k5"), &key) == MVT_OK && key == 5, "a key has its first index");
    require(mvt_builder_key(&builder, mvt_text("k5"), &again) == MVT_OK && again == key, "a key has one index");
    require(mvt_builder_value(&builder, mvt_any_uint(1), &value) == MVT_OK && value == 5,
            "a value has its first index");
    mvt_builder_tag_at(&builder, key, value);
    mvt_builder_line(&builder);
    mvt_builder_point(&builder, 0, 0);
    mvt_builder_point(&builder, 1, 2);
    mvt_builder_feature(&builder, MVT_POINTS);
    mvt_builder_tag(&builder, mvt_text("gone"), mvt_any_bool(0));
    mvt_builder_point(&builder, 1, 1);
    mvt_builder_drop(&builder);
    mvt_builder_feature(&builder, MVT_UNKNOWN);
    mvt_builder_integers(&builder, integers, 3);
    mvt_builder_foreign(&builder, 1, (mvt_bytes){foreign, sizeof foreign});
    mvt_builder_layer(&builder, mvt_text("empty"), 4096);
    require(mvt_builder_finish(&builder, &out, &wrong) == MVT_OK, "all kinds are built");

    mvt_tile t;
    mvt_fault fault;
    require(mvt_read(out.data, out.len, UINT64_MAX, &t, &fault) == MVT_OK && t.layer_count == 3,
            "what is built is a tile");
    require(is_text(&t, t.layers[0].name, "town") && t.layers[0].extent == 512, "a layer's head");
    require(t.layers[1].version == 1 && t.layers[1].bytes.len == sizeof foreign, "a layer of another version");
    require(is_text(&t, t.layers[2].name, "empty") && t.layers[2].features.len == 0, "a layer without features");
    require(t.feature_count == 3 && t.features[0].id == UINT64_MAX && t.features[1].has_id == 0, "the features");
    require(t.part_count == 3 && t.point_count == 10 && t.integer_count == 3, "the geometry");
    require(t.parts[0].exterior == 1 && t.parts[1].exterior == 0 && t.points[5].y == 4, "the rings");
    require(t.tag_count == 18, "a feature that was taken back has no tags");
    const uint32_t kinds[] = {MVT_TEXT, MVT_FLOAT, MVT_DOUBLE, MVT_DOUBLE, MVT_INT, MVT_UINT, MVT_SINT, MVT_BOOL};
    const uint64_t bits[] = {0, 0x40200000, (uint64_t)1 << 63, 0, UINT64_MAX, 1, UINT64_MAX, 1};
    for (int i = 0; i < 8; ++i) {
        const char name[] = {'k', (char)('0' + i), 0};
        const mvt_value *row = &t.values[t.layers[0].values.start + t.tags[2 * i + 1]];
        require(is_text(&t, t.keys[t.layers[0].keys.start + t.tags[2 * i]], name), "the key of a tag");
        require(row->kind == kinds[i] && row->bits == bits[i], "the value of a tag");
    }
    mvt_bytes_free(&out);
    mvt_tile_free(&t);
}

/* Whole features are the same tile as their parts one by one, and parts beyond the points aren't due. */
static void build_whole(void) {
    static const mvt_point points[] = {{0, 0}, {8, 0}, {8, 8}, {0, 8}, {2, 2}, {2, 4}, {4, 4}, {4, 2}};
    static const mvt_part rings[] = {{1, {0, 4}}, {0, {4, 4}}}, line = {0, {1, 3}}, dots = {0, {0, 2}};
    static const uint32_t tags[] = {0, 1, 1, 0};
    const uint64_t id = 7;
    mvt_bytes wanted = {0}, out = {0};
    mvt_rows_fault fault;
    for (int whole = 0; whole < 2; ++whole) {
        mvt_builder builder = {0};
        uint32_t index;
        mvt_builder_layer(&builder, mvt_text("a"), 4096);
        for (uint32_t i = 0; i < 2; ++i) {
            mvt_builder_key(&builder, mvt_text(i == 0 ? "k" : "l"), &index);
            mvt_builder_value(&builder, mvt_any_uint(i), &index);
        }
        if (whole) {
            mvt_builder_add(&builder, MVT_POLYGONS, &id, tags, 4, rings, 2, points, 8);
            mvt_builder_add(&builder, MVT_LINES, NULL, NULL, 0, &line, 1, points, 8);
            mvt_builder_add(&builder, MVT_POINTS, NULL, tags, 2, &dots, 1, points, 2);
            mvt_builder_add(&builder, MVT_UNKNOWN, NULL, NULL, 0, NULL, 0, NULL, 0);
        } else {
            mvt_builder_feature(&builder, MVT_POLYGONS);
            mvt_builder_id(&builder, id);
            mvt_builder_tag_at(&builder, 0, 1);
            mvt_builder_tag_at(&builder, 1, 0);
            mvt_builder_ring(&builder, 1);
            mvt_builder_points(&builder, points, 4);
            mvt_builder_ring(&builder, 0);
            mvt_builder_points(&builder, points + 4, 4);
            mvt_builder_feature(&builder, MVT_LINES);
            mvt_builder_line(&builder);
            mvt_builder_points(&builder, points + 1, 3);
            mvt_builder_feature(&builder, MVT_POINTS);
            mvt_builder_tag_at(&builder, 0, 1);
            mvt_builder_points(&builder, points, 2);
            mvt_builder_feature(&builder, MVT_UNKNOWN);
        }
        require(mvt_builder_finish(&builder, whole ? &out : &wanted, &fault) == MVT_OK, "whole features are built");
    }
    require(out.len == wanted.len && memcmp(out.data, wanted.data, out.len) == 0, "whole features are the same tile");
    mvt_bytes_free(&out);
    mvt_bytes_free(&wanted);
    const mvt_part beyond[] = {{0, {0, 9}}, {0, {9, 0}}, {0, {8, 1}}, {0, {UINT64_MAX, 2}}, {0, {1, UINT64_MAX}}};
    for (int i = 0; i < 7; ++i) {
        mvt_builder builder = {0};
        if (i != 5) mvt_builder_layer(&builder, mvt_text("a"), 4096);
        const uint32_t status =
            mvt_builder_add(&builder, MVT_LINES, NULL, NULL, 0, i < 5 ? &beyond[i] : &line, 1, points, 8);
        require(status == (i == 6 ? MVT_OK : MVT_OUT_OF_TURN), "a feature that isn't due");
        if (i == 6) require(mvt_builder_id(&builder, 7) == MVT_OUT_OF_TURN, "a feature that has ended");
        mvt_builder_free(&builder);
    }
}

/* A ring says by 0 or 1 whether it is an exterior one, to a builder as in rows; what other parts say of it means nothing. */
static void build_odd_rings(void) {
    const mvt_point points[] = {{0, 0}, {4, 0}, {4, 4}};
    const uint32_t odd[] = {1, 2, 256, UINT32_MAX};
    for (int i = 0; i < 4; ++i) {
        const mvt_part ring = {odd[i], {0, 3}}, line = {odd[i], {0, 2}}, dot = {odd[i], {0, 1}};
        mvt_builder builder = {0};
        mvt_tile rows;
        mvt_bytes out = {0};
        mvt_rows_fault fault;
        mvt_builder_layer(&builder, mvt_text("a"), 4096);
        require(mvt_builder_add(&builder, MVT_LINES, NULL, NULL, 0, &line, 1, points, 3) == MVT_OK, "a line");
        require(mvt_builder_add(&builder, MVT_POINTS, NULL, NULL, 0, &dot, 1, points, 3) == MVT_OK, "a point");
        require(mvt_builder_rows(&builder, &rows) == MVT_OK && rows.parts[0].exterior == 0 &&
                    rows.parts[1].exterior == 0,
                "no line or point is a ring");
        mvt_builder_layer(&builder, mvt_text("b"), 4096);
        const uint32_t status = mvt_builder_add(&builder, MVT_POLYGONS, NULL, NULL, 0, &ring, 1, points, 3);
        require(status == (i == 0 ? MVT_OK : MVT_OUT_OF_TURN), "an odd ring");
        require(mvt_builder_finish(&builder, &out, &fault) == status, "an answer that stays");
        mvt_bytes_free(&out);
    }
}

/* Keys and values that come again are found among many, and each layer counts its own. */
static void build_many(void) {
    enum { MANY = 20000 };
    mvt_builder builder = {0};
    mvt_tile rows;
    uint32_t index;
    char name[32];
    for (int layer = 0; layer < 2; ++layer) {
        snprintf(name, sizeof name, "layer %d", layer);
        mvt_builder_layer(&builder, mvt_text(name), 4096);
        for (uint32_t i = 0; i < 2 * MANY; ++i) {
            snprintf(name, sizeof name, "%" PRIu32, i % MANY);
            require(mvt_builder_key(&builder, mvt_text(name), &index) == MVT_OK && index == i % MANY, "a key's index");
            const mvt_any value = i % MANY % 2 ? mvt_any_text(mvt_text(name)) : mvt_any_uint(i % MANY);
            require(mvt_builder_value(&builder, value, &index) == MVT_OK && index == i % MANY, "a value's index");
        }
    }
    require(mvt_builder_rows(&builder, &rows) == MVT_OK && rows.key_count == 2 * MANY && rows.value_count == 2 * MANY,
            "each layer has its keys and values once");
    require(rows.layers[1].keys.start == MANY && rows.layers[1].keys.len == MANY, "the keys of the second layer");
    mvt_builder_free(&builder);
    mvt_builder_free(&builder);
}

/* Where a table of 262,144 slots puts a text by a hash that multiplies byte by byte. */
static uint32_t slot_of(const char *text) {
    uint64_t hash = MVT_TEXT * 0x9E3779B97F4A7C15u;
    for (; *text != 0; ++text) hash = (hash ^ (uint8_t)*text) * 0x100000001B3u;
    return (hash ^ hash >> 32) & 0x3FFFF;
}

/* Keys that this hash puts into the first 1,024 slots, which a table that looks on slot by slot finds in the square of
 * their number, have their indices. */
static void build_clashes(void) {
    mvt_builder builder = {0};
    mvt_builder_layer(&builder, mvt_text("a"), 4096);
    char name[16];
    uint32_t index;
    for (uint32_t i = 0, count = 0; count < 2000; ++i) {
        snprintf(name, sizeof name, "%08" PRIx32, i * 0x9E3779B1u);
        if (slot_of(name) >= 1024) continue;
        require(mvt_builder_key(&builder, mvt_text(name), &index) == MVT_OK && index == count++, "a key's index");
    }
    mvt_builder_free(&builder);
}

/* A call that isn't due is answered so, and so are those after it, up to the end. */
static void build_out_of_turn(void) {
    for (int i = 0; i < 7; ++i) {
        mvt_builder builder = {0};
        mvt_bytes out = {0};
        mvt_rows_fault fault;
        uint32_t index = 77, status;
        if (i >= 2) mvt_builder_layer(&builder, mvt_text("a"), 4096);
        if (i >= 4) mvt_builder_feature(&builder, i == 6 ? MVT_POLYGONS : MVT_LINES);
        switch (i) {
        case 0: status = mvt_builder_feature(&builder, MVT_POINTS); break;
        case 1: status = mvt_builder_key(&builder, mvt_text("k"), &index); break;
        case 2: status = mvt_builder_point(&builder, 1, 1); break;
        case 3: status = mvt_builder_foreign(&builder, 2, mvt_text("a")); break;
        case 4: status = mvt_builder_point(&builder, 1, 1); break;
        case 5: status = mvt_builder_ring(&builder, 1); break;
        default: status = mvt_builder_integers(&builder, &index, 1);
        }
        require(status == MVT_OUT_OF_TURN && index == 77, "a call out of turn");
        require(mvt_builder_layer(&builder, mvt_text("b"), 4096) == MVT_OUT_OF_TURN, "an answer that stays");
        require(mvt_builder_finish(&builder, &out, &fault) == MVT_OUT_OF_TURN && out.data == NULL, "nothing is built");
        require(mvt_builder_finish(&builder, &out, &fault) == MVT_OK && builder.held == NULL,
                "a builder that begins anew");
    }
}

/* Rows that are no tile are told as mvt_write tells them. */
static void build_no_tile(void) {
    mvt_builder builder = {0};
    mvt_bytes out = {0};
    mvt_rows_fault fault;
    mvt_builder_layer(&builder, mvt_text("a"), 4096);
    mvt_builder_layer(&builder, mvt_text("b"), 4096);
    mvt_builder_feature(&builder, MVT_UNKNOWN);
    mvt_builder_feature(&builder, MVT_POINTS);
    require(mvt_builder_finish(&builder, &out, &fault) == MVT_NO_TILE && out.data == NULL, "points without a point");
    require(builder.held == NULL && fault.layer == 1 && fault.has_feature == 1 && fault.feature == 1 &&
                fault.cause == MVT_ROWS_GEOMETRY,
            "where, and why");
    mvt_builder_layer(&builder, mvt_text("a"), 4096);
    mvt_builder_layer(&builder, mvt_text("a"), 4096);
    require(mvt_builder_finish(&builder, &out, &fault) == MVT_NO_TILE && fault.layer == 1 && fault.has_feature == 0 &&
                fault.feature == 0 && fault.cause == MVT_ROWS_REPEATED_NAME,
            "a layer's fault");
    mvt_builder_layer(&builder, mvt_text("a"), 4096);
    mvt_builder_layer(&builder, mvt_text("a"), 4096);
    require(mvt_builder_finish(&builder, &out, NULL) == MVT_NO_TILE && out.data == NULL,
            "a fault that nobody asks for");
}

/* What mvt_write looks at: an empty span as any other, and keys and values that no tag names. */
static void write_what_nothing_names(void) {
    const mvt_value good = {.kind = MVT_BOOL, .bits = 1}, bad = {.kind = MVT_BOOL, .bits = 2};
    for (int i = 0; i < 8; ++i) {
        const mvt_span key = {1, 1};
        const mvt_part part = {.points = {0, 1}};
        const mvt_point point = {25, 17};
        mvt_feature feature = {.kind = MVT_POINTS, .parts = {0, 1}};
        mvt_layer layer = {.version = 2, .extent = 4096, .name = {0, 1}, .features = {0, 1}};
        mvt_tile tile = {.layers = &layer,
                         .layer_count = 1,
                         .features = &feature,
                         .feature_count = 1,
                         .parts = &part,
                         .part_count = 1,
                         .points = &point,
                         .point_count = 1,
                         .texts = (const uint8_t *)"ak",
                         .text_len = 2};
        mvt_bytes out = {0};
        tile.keys = &key, tile.key_count = 1, tile.values = &good, tile.value_count = 1;
        layer.keys = layer.values = (mvt_span){0, 1};
        uint32_t wanted = MVT_OK;
        switch (i) {
        case 1: layer.keys = (mvt_span){1, 0}; break;                       /* at the end of the list */
        case 2: layer.keys = (mvt_span){2, 0}, wanted = MVT_NO_TILE; break; /* behind it */
        case 3: feature.tags = (mvt_span){1, 0}, wanted = MVT_NO_TILE; break;
        case 4: feature.integers = (mvt_span){9, 9}; break;                         /* which points haven't */
        case 5: tile.values = &bad, wanted = MVT_NO_TILE; break;                    /* a value that no tag names */
        case 6: tile.texts = (const uint8_t *)"a\xff", wanted = MVT_NO_TILE; break; /* and such a key */
        case 7: tile.values = &bad, layer.values.len = 0; break;                    /* a value of no layer */
        default: break;
        }
        require(mvt_write(&tile, &out, NULL) == wanted, "what is looked at, and what isn't");
        require(wanted != MVT_OK || out.len == 19, "what no tag names isn't written");
        mvt_bytes_free(&out);
    }
}

/* Features of 16,384 zeros each, all the same ones. Of 4,097 features a layer, its name, these features and 67,125,248 zeros
 * are gone over, as many as the lists have and 67,108,864 more; its bytes are too many. Of one feature more, too much is
 * gone over. */
static void write_overlaps(void) {
    enum { ZEROS = 16384, FEATURES = 4098 };
    uint32_t *const integers = calloc(ZEROS, sizeof *integers);
    mvt_feature *const features = calloc(FEATURES, sizeof *features);
    require(integers != NULL && features != NULL, "memory");
    for (int i = 0; i < FEATURES; ++i) features[i].integers = (mvt_span){0, ZEROS};
    for (uint64_t count = 2; count <= FEATURES; count = count == 2 ? FEATURES - 1 : count + 1) {
        const mvt_layer layer = {.version = 2, .extent = 4096, .name = {0, 1}, .features = {0, count}};
        const mvt_tile tile = {.layers = &layer,
                               .layer_count = 1,
                               .features = features,
                               .feature_count = count,
                               .integers = integers,
                               .integer_count = ZEROS,
                               .texts = (const uint8_t *)"a",
                               .text_len = 1};
        mvt_rows_fault fault = {.cause = 99};
        mvt_bytes out = {0};
        const uint32_t wanted = count == 2 ? MVT_OK : count < FEATURES ? MVT_TOO_LARGE : MVT_NO_MEMORY;
        require(mvt_write(&tile, &out, NULL) == wanted, "what spans that overlap are written as");
        require(mvt_judge_rows(&tile, &fault) == (count < FEATURES ? MVT_OK : MVT_NO_MEMORY), "and are judged as");
        require(fault.cause == 99 && (out.data == NULL) == (count > 2), "nothing is written but bytes");
        mvt_bytes_free(&out);
    }
    free(features);
    free(integers);
}

/* Layer `a` with a feature `k: true` at (25, 17), a line and a ring that are broken in one way each: what is said of it. */
static void judge_rows(void) {
    for (uint32_t cause = 0; cause <= 19; ++cause) {
        const mvt_point points[] = {{25, 17}, {3, 6}, {8, 12}, {20, 34}};
        mvt_value value = {.kind = MVT_BOOL, .bits = 1};
        mvt_span key = {1, 1};
        uint32_t tags[] = {0, 0, 0, 0};
        mvt_part parts[] = {{.points = {0, 1}}, {.exterior = 1, .points = {1, 3}}};
        mvt_feature features[] = {{.kind = MVT_POINTS, .parts = {0, 1}, .tags = {0, 2}},
                                  {.kind = MVT_POLYGONS, .parts = {1, 1}}};
        mvt_layer layers[] = {
            {.version = 2, .extent = 4096, .name = {0, 1}, .features = {0, 2}, .keys = {0, 1}, .values = {0, 1}},
            {.version = 2, .name = {1, 1}},
            {.version = 1, .bytes = {2, 2}}};
        uint8_t texts[] = {'a', 'k', 0x78, 0x01};
        const mvt_tile tile = {.layers = layers,
                               .layer_count = 3,
                               .features = features,
                               .feature_count = 2,
                               .keys = &key,
                               .key_count = 1,
                               .values = &value,
                               .value_count = 1,
                               .tags = tags,
                               .tag_count = 4,
                               .parts = parts,
                               .part_count = 2,
                               .points = points,
                               .point_count = 4,
                               .texts = texts,
                               .text_len = 4};
        uint64_t layer = 0;
        int64_t feature = -1;
        switch (cause) {
        case MVT_ROWS_NAME_SPAN: layers[1].name.len = 4, layer = 1; break;
        case MVT_ROWS_NAME: texts[0] = 0xff; break;
        case MVT_ROWS_KEYS_SPAN: layers[1].keys.start = 2, layer = 1; break;
        case MVT_ROWS_KEY: key.start = UINT64_MAX; break;
        case MVT_ROWS_VALUES_SPAN: layers[0].values.len = 2; break;
        case MVT_ROWS_VALUE: value.bits = 2; break;
        case MVT_ROWS_FEATURES_SPAN: layers[1].features = (mvt_span){2, 1}, layer = 1; break;
        case MVT_ROWS_BYTES_SPAN: layers[2].bytes.len = 3, layer = 2; break;
        case MVT_ROWS_HAS_ID: features[1].has_id = 2, feature = 1; break;
        case MVT_ROWS_TAGS_SPAN: features[1].tags = (mvt_span){3, 2}, feature = 1; break;
        case MVT_ROWS_ODD_TAGS: features[0].tags.len = 3, feature = 0; break;
        case MVT_ROWS_KEY_INDEX: tags[0] = 1, feature = 0; break;
        case MVT_ROWS_VALUE_INDEX: tags[1] = 1, feature = 0; break;
        case MVT_ROWS_REPEATED_KEY: features[0].tags.len = 4, feature = 0; break;
        case MVT_ROWS_KIND: features[1].kind = 4, feature = 1; break;
        case MVT_ROWS_GEOMETRY: parts[1].exterior = 0, feature = 1; break;
        case MVT_ROWS_DRAWING: parts[1].points.len = 2, feature = 1; break;
        case MVT_ROWS_BYTES: layers[2].version = 3, layer = 2; break;
        case MVT_ROWS_REPEATED_NAME: layers[1].name.start = 0, layer = 1; break;
        default: break;
        }
        mvt_rows_fault fault = {.cause = 99}, told = fault;
        mvt_bytes out = {0};
        const uint32_t wanted = cause == 0 ? MVT_OK : MVT_NO_TILE;
        require(mvt_judge_rows(&tile, &fault) == wanted, "rows are judged");
        require(mvt_write(&tile, &out, &told) == wanted, "rows are written as they are judged");
        require(memcmp(&told, &fault, sizeof told) == 0, "writing tells what judging tells");
        mvt_bytes_free(&out);
        require(mvt_write(&tile, &out, NULL) == wanted, "the same without a fault");
        require(fault.cause == (cause == 0 ? 99 : cause), "the cause of rows that are no tile");
        require(cause == 0 || (fault.layer == layer && fault.has_feature == (feature >= 0)), "the layer of such rows");
        require(cause == 0 || fault.feature == (feature < 0 ? 0 : (uint64_t)feature), "the feature of such rows");
        require(fault.rule == (cause == MVT_ROWS_DRAWING ? MVT_CAUSE_COUNT : 0) && fault.has_point == 0 &&
                    fault.part == 0 && fault.point == 0,
                "the rule of such rows");
        require(strlen(mvt_rows_cause_text(cause)) > 15, "the text of such a cause");
        mvt_bytes_free(&out);
    }
}

/* Geometries that no commands draw: the rule that each breaks first, the part, and the point or -1. */
static const struct {
    mvt_kind kind;
    uint32_t rule;
    uint64_t part;
    int64_t point;
    size_t count; /* of parts */
    mvt_part parts[3];
    mvt_point points[8];
} UNDRAWN[] = {
    {MVT_POINTS, MVT_CAUSE_COUNT, 0, -1, 1, {{0, {0, 0}}}, {{0, 0}}},
    {MVT_POINTS, MVT_CAUSE_PARAMETER_RANGE, 0, 1, 1, {{0, {0, 2}}}, {{INT32_MAX, 0}, {-1, 0}}},
    {MVT_LINES, MVT_CAUSE_ENDS_EARLY, 0, -1, 0, {{0, {0, 0}}}, {{0, 0}}},
    {MVT_LINES, MVT_CAUSE_COUNT, 1, -1, 2, {{0, {0, 2}}, {0, {2, 1}}}, {{0, 0}, {1, 1}, {5, 5}}},
    {MVT_LINES, MVT_CAUSE_ZERO_SEGMENT, 1, 2, 2, {{0, {0, 2}}, {0, {1, 4}}}, {{0, 0}, {1, 1}, {2, 1}, {2, 1}, {3, 1}}},
    {MVT_LINES, MVT_CAUSE_COORDINATE_RANGE, 0, 1, 1, {{0, {0, 2}}}, {{-1, 0}, {INT32_MIN, 0}}},
    {MVT_POLYGONS, MVT_CAUSE_ENDS_EARLY, 0, -1, 0, {{0, {0, 0}}}, {{0, 0}}},
    {MVT_POLYGONS, MVT_CAUSE_COUNT, 0, -1, 1, {{1, {0, 2}}}, {{0, 0}, {1, 1}}},
    {MVT_POLYGONS, MVT_CAUSE_FIRST_RING, 0, -1, 1, {{1, {0, 3}}}, {{0, 0}, {1, 3}, {3, 1}}},
    {MVT_POLYGONS,
     MVT_CAUSE_EXTERIOR_RING,
     2,
     -1,
     3,
     {{1, {0, 4}}, {1, {0, 4}}, {1, {4, 3}}},
     {{0, 0}, {9, 0}, {9, 9}, {0, 9}, {1, 1}, {2, 2}, {3, 3}}},
    {MVT_POLYGONS,
     MVT_CAUSE_INTERIOR_RING,
     1,
     -1,
     2,
     {{1, {0, 4}}, {0, {4, 4}}},
     {{0, 0}, {9, 0}, {9, 9}, {0, 9}, {1, 1}, {5, 1}, {5, 5}, {1, 5}}},
};

static void judge_rules(void) {
    for (size_t of = 0; of < sizeof UNDRAWN / sizeof *UNDRAWN; ++of) {
        const mvt_part *parts = UNDRAWN[of].parts;
        const size_t count = UNDRAWN[of].count;
        const mvt_feature features[] = {{.kind = MVT_UNKNOWN}, {.kind = UNDRAWN[of].kind, .parts = {0, count}}};
        const mvt_layer layer = {.version = 2, .extent = 4096, .features = {0, 2}};
        const mvt_tile tile = {.layers = &layer,
                               .layer_count = 1,
                               .features = features,
                               .feature_count = 2,
                               .parts = parts,
                               .part_count = count,
                               .points = UNDRAWN[of].points,
                               .point_count = 8};
        const int64_t point = UNDRAWN[of].point;
        const mvt_rows_fault wanted = {.feature = 1,
                                       .has_feature = 1,
                                       .cause = MVT_ROWS_DRAWING,
                                       .rule = UNDRAWN[of].rule,
                                       .has_point = point >= 0,
                                       .part = UNDRAWN[of].part,
                                       .point = point < 0 ? 0 : (uint64_t)point};
        mvt_rows_fault judged, written, built;
        mvt_bytes out = {0};
        require(mvt_judge_rows(&tile, &judged) == MVT_NO_TILE, "a geometry that isn't drawn is judged");
        require(memcmp(&judged, &wanted, sizeof wanted) == 0, "the rule, the part and the point");
        require(mvt_write(&tile, &out, &written) == MVT_NO_TILE && out.data == NULL, "and is written");
        require(memcmp(&written, &wanted, sizeof wanted) == 0, "the same");
        mvt_builder builder = {0};
        mvt_builder_layer(&builder, mvt_text("a"), 4096);
        mvt_builder_feature(&builder, MVT_UNKNOWN);
        mvt_builder_add(&builder, UNDRAWN[of].kind, NULL, NULL, 0, parts, count, UNDRAWN[of].points, 8);
        require(mvt_builder_finish(&builder, &out, &built) == MVT_NO_TILE && out.data == NULL, "and is built");
        require(memcmp(&built, &wanted, sizeof wanted) == 0, "the same again");
        require(mvt_cause_text(judged.rule)[0] != 'n', "a text of the rule");
    }
}

/* Rows that are broken twice: a layer is looked at to its end before the next, and its name before its features. */
static void judge_in_order(void) {
    const mvt_point point = {INT32_MIN, 0};
    const mvt_part part = {.points = {0, 1}};
    const mvt_feature feature = {.kind = MVT_POINTS, .parts = {0, 1}};
    mvt_layer layers[] = {{.version = 2, .name = {0, 1}, .features = {0, 1}},
                          {.version = 2, .name = {0, 1}, .keys = {0, 1}}};
    mvt_tile tile = {.layers = layers,
                     .layer_count = 2,
                     .features = &feature,
                     .feature_count = 1,
                     .parts = &part,
                     .part_count = 1,
                     .points = &point,
                     .point_count = 1,
                     .texts = (const uint8_t *)"ab",
                     .text_len = 2};
    const uint32_t causes[] = {MVT_ROWS_DRAWING, MVT_ROWS_REPEATED_NAME, MVT_ROWS_KEYS_SPAN};
    for (uint64_t step = 0; step < 3; ++step) {
        mvt_rows_fault fault;
        mvt_bytes out = {0};
        require(mvt_write(&tile, &out, &fault) == MVT_NO_TILE && out.data == NULL, "rows that are broken twice");
        require(fault.cause == causes[step] && fault.layer == (step > 0), "what is wrong first");
        if (step == 0)
            layers[0].features.len = 0;
        else
            layers[1].name.start = 1;
    }
}

/* What is said of broken bytes: a second layer `a`, whose second feature has the id 300 and a line that ends early. */
static void explain(void) {
    const uint8_t bytes[] = {0x1A, 0x05, 0x78, 0x01, 0x0A, 0x01, 0x62,                         /* of version 1 */
                             0x1A, 0x19, 0x78, 0x02, 0x12, 0x05, 0x18, 0x00, 0x22, 0x01, 0x09, /* the first feature */
                             0x12, 0x0B, 0x08, 0xAC, 0x02, 0x18, 0x02, 0x22, 0x04, 0x09, 0x00,
                             0x00, 0x0A, 0x0A, 0x01, 0x61};
    mvt_fault fault;
    mvt_place place;
    require(mvt_judge(bytes, sizeof bytes, &fault) == MVT_REFUSED && fault.layer == 1 && fault.feature == 1, "a fault");
    mvt_locate(bytes, sizeof bytes, &fault, &place);
    require(place.has_layer_name && place.layer_name.len == 1 && place.layer_name.data[0] == 'a', "the layer's name");
    require(place.has_feature_id && place.feature_id == 300, "the feature's id");
    require(fault.cause == 19 && place.start == 30 && place.end == 31, "the command that wants more");
    for (size_t len = 0; len < sizeof bytes; ++len) mvt_locate(bytes, len, &fault, &place);
    fault.layer = 2;
    mvt_locate(bytes, sizeof bytes, &fault, &place);
    require(!place.has_layer_name && !place.has_feature_id, "a layer that isn't there");
    require(place.start == sizeof bytes && place.end == sizeof bytes, "which is said to be at the end");
    for (fault.cause = 1; fault.cause <= 26; ++fault.cause) {
        const char *said = mvt_explain(bytes, sizeof bytes, &fault);
        require(said != NULL && (fault.cause == 9 || strlen(said) > 15), "a sentence for each cause");
    }
    require(mvt_explain(NULL, 0, &fault) != NULL && mvt_explain(bytes, 0, &fault) != NULL, "a cause that isn't there");
    mvt_locate(NULL, 0, &fault, &place);
    require(place.start == 0 && place.end == 0 && !place.has_layer_name, "no bytes have no place");
    fault.layer = INT64_MAX, fault.feature = INT64_MIN, fault.at = UINT64_MAX;
    for (fault.cause = 0; fault.cause < 30; ++fault.cause) {
        mvt_locate(bytes, sizeof bytes, &fault, &place);
        require(place.start <= place.end && place.end <= sizeof bytes && !place.has_layer_name,
                "no layer has such an index");
    }
    fault.cause = 4;
    require(strstr(mvt_explain((const uint8_t *)"\x1f\x8b", 2, &fault), "gzip") != NULL, "a head of gzip");
    const char *zlib[] = {"\x78\x01", "\x78\x5e", "\x78\x9c", "\x78\xda"};
    for (int i = 0; i < 4; ++i)
        require(strstr(mvt_explain((const uint8_t *)zlib[i], 2, &fault), "zlib") != NULL, "a head of zlib");
    require(strstr(mvt_explain((const uint8_t *)"\x78\x02", 2, &fault), "compressed") == NULL, "no head of zlib");
    require(strstr(mvt_explain((const uint8_t *)"<html>", 6, &fault), "HTML") != NULL, "a head of HTML");
    for (uint32_t status = 0; status < 9; ++status) require(strlen(mvt_status_text(status)) > 3, "a text for a status");
    require(strcmp(mvt_version(), MVT_VERSION) == 0, "the version of the library");
}

static const named_test TESTS[] = {
    {"a point is built", build_point},
    {"values of each kind", build_kinds},
    {"features of each kind", build_all},
    {"whole features", build_whole},
    {"rings that don't say what they are", build_odd_rings},
    {"keys and values that come again", build_many},
    {"texts that clash", build_clashes},
    {"calls out of turn", build_out_of_turn},
    {"rows that are no tile", build_no_tile},
    {"the first fault of rows", judge_rows},
    {"the rule that no commands draw", judge_rules},
    {"rows that are broken twice", judge_in_order},
    {"what no tag names", write_what_nothing_names},
    {"spans that overlap", write_overlaps},
    {"a fault in words", explain},
};

RUN_TESTS(TESTS)
