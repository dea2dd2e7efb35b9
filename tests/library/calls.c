/* The calls on each case: they hand out what the program says. The rows are written again, and so are copies of them in which
 * a few numbers are changed at random. */
#include "tests.h"

static int lies(mvt_span span, size_t count) { return span.start <= count && span.len <= count - span.start; }

/* Each span of each row lies in its list. Answers a sum over all that is there, so that each byte is read. */
static uint64_t walk(const mvt_tile *t) {
    uint64_t sum = 0;
    for (size_t i = 0; i < t->layer_count; ++i) {
        const mvt_layer *l = &t->layers[i];
        require(lies(l->name, t->text_len) && lies(l->bytes, t->text_len), "the texts of a layer");
        require(lies(l->features, t->feature_count), "the features of a layer");
        require(lies(l->keys, t->key_count) && lies(l->values, t->value_count), "the pools of a layer");
        for (size_t j = 0; j < l->features.len; ++j) {
            const mvt_feature *f = &t->features[l->features.start + j];
            require(lies(f->tags, t->tag_count) && f->tags.len % 2 == 0, "the tags of a feature");
            require(lies(f->parts, t->part_count) && lies(f->integers, t->integer_count), "the geometry of a feature");
            require(f->kind <= MVT_POLYGONS && f->has_id <= 1, "the kind of a feature");
            for (size_t k = 0; k < f->tags.len; k += 2) {
                require(t->tags[f->tags.start + k] < l->keys.len, "a key's index");
                require(t->tags[f->tags.start + k + 1] < l->values.len, "a value's index");
            }
            sum += f->id;
        }
    }
    for (size_t i = 0; i < t->key_count; ++i) require(lies(t->keys[i], t->text_len), "a key");
    for (size_t i = 0; i < t->value_count; ++i) {
        require(lies(t->values[i].text, t->text_len), "a value");
        require(t->values[i].kind >= MVT_TEXT && t->values[i].kind <= MVT_BOOL, "the kind of a value");
        sum += t->values[i].bits;
    }
    for (size_t i = 0; i < t->part_count; ++i) require(lies(t->parts[i].points, t->point_count), "a part");
    for (size_t i = 0; i < t->point_count; ++i) sum += (uint32_t)t->points[i].x + (uint32_t)t->points[i].y;
    for (size_t i = 0; i < t->integer_count; ++i) sum += t->integers[i];
    for (size_t i = 0; i < t->text_len; ++i) sum += t->texts[i];
    return sum;
}

static int same_bytes(const mvt_tile *a, mvt_span in_a, const mvt_tile *b, mvt_span in_b) {
    return in_a.len == in_b.len &&
           (in_a.len == 0 || memcmp(a->texts + in_a.start, b->texts + in_b.start, in_a.len) == 0);
}

static int same_values(const mvt_tile *a, const mvt_value *x, const mvt_tile *b, const mvt_value *y) {
    if (x->kind != y->kind) return 0;
    return x->kind == MVT_TEXT ? same_bytes(a, x->text, b, y->text) : x->bits == y->bits;
}

static int same_tags(const mvt_tile *a, const mvt_layer *k, const mvt_feature *f, const mvt_tile *b, const mvt_layer *l,
                     const mvt_feature *g) {
    if (f->tags.len != g->tags.len) return 0;
    for (size_t i = 0; i < f->tags.len; i += 2) {
        const uint32_t *s = a->tags + f->tags.start + i, *t = b->tags + g->tags.start + i;
        if (!same_bytes(a, a->keys[k->keys.start + s[0]], b, b->keys[l->keys.start + t[0]])) return 0;
        if (!same_values(a, a->values + k->values.start + s[1], b, b->values + l->values.start + t[1])) return 0;
    }
    return 1;
}

static int same_parts(const mvt_tile *a, const mvt_feature *f, const mvt_tile *b, const mvt_feature *g) {
    if (f->parts.len != g->parts.len) return 0;
    for (size_t i = 0; i < f->parts.len; ++i) {
        const mvt_part *p = a->parts + f->parts.start + i, *q = b->parts + g->parts.start + i;
        if (f->kind == MVT_POLYGONS && p->exterior != q->exterior) return 0;
        if (p->points.len != q->points.len) return 0;
        if (memcmp(a->points + p->points.start, b->points + q->points.start, p->points.len * sizeof *a->points) != 0)
            return 0;
    }
    return 1;
}

static int same_features(const mvt_tile *a, const mvt_layer *k, const mvt_feature *f, const mvt_tile *b,
                         const mvt_layer *l, const mvt_feature *g) {
    if (f->has_id != g->has_id || (f->has_id && f->id != g->id) || f->kind != g->kind) return 0;
    if (!same_tags(a, k, f, b, l, g)) return 0;
    if (f->kind != MVT_UNKNOWN) return same_parts(a, f, b, g);
    return f->integers.len == g->integers.len &&
           (f->integers.len == 0 || memcmp(a->integers + f->integers.start, b->integers + g->integers.start,
                                           f->integers.len * sizeof *a->integers) == 0);
}

/* Both rows, which were accepted, are one tile. */
static int same_tiles(const mvt_tile *a, const mvt_tile *b) {
    if (a->layer_count != b->layer_count) return 0;
    for (size_t i = 0; i < a->layer_count; ++i) {
        const mvt_layer *k = a->layers + i, *l = b->layers + i;
        if (k->version != l->version) return 0;
        if (k->version != 2) {
            if (!same_bytes(a, k->bytes, b, l->bytes)) return 0;
            continue;
        }
        if (k->extent != l->extent || !same_bytes(a, k->name, b, l->name) || k->features.len != l->features.len)
            return 0;
        for (size_t j = 0; j < k->features.len; ++j) {
            if (!same_features(a, k, a->features + k->features.start + j, b, l, b->features + l->features.start + j))
                return 0;
        }
    }
    return 1;
}

static uint32_t state = 1;

static uint32_t any(size_t below) {
    state = state * 1664525u + 1013904223u;
    return (uint32_t)((state >> 8) % below);
}

/* Changes four bytes of a list of rows: to a small number, the largest or a random one. */
static void change(void *list, size_t count, size_t size) {
    if (count == 0) return;
    const uint32_t numbers[] = {0, 1, 2, 3, UINT32_MAX, any(1000), any(1 << 24)};
    const size_t at = any(count * size / 4) * 4;
    memcpy((uint8_t *)list + at, &numbers[any(7)], 4);
}

static void *copy_of(const void *list, size_t count, size_t size) {
    void *copy = malloc(count * size + 1);
    require(copy != NULL, "memory");
    if (count != 0) memcpy(copy, list, count * size);
    return copy;
}

/* What is written of rows reads back as these rows, and stays as it is when it is rewritten. Answers the status. */
static uint32_t write_rows(const mvt_tile *rows) {
    mvt_bytes out = {0}, again = {0};
    mvt_fault fault;
    mvt_tile read = {0};
    const uint32_t status = mvt_write(rows, &out, NULL);
    require(status == MVT_OK || status == MVT_NO_TILE, "the status of mvt_write");
    require(status == MVT_OK || (out.data == NULL && out.len == 0), "an output that isn't due is touched");
    if (status != MVT_OK) return status;
    require(mvt_read(out.data, out.len, UINT64_MAX, &read, &fault) == MVT_OK && same_tiles(rows, &read),
            "rows that read back");
    require(mvt_rewrite(out.data, out.len, &again, &fault) == MVT_OK, "what was written is a tile");
    require(again.len == out.len && (out.len == 0 || memcmp(again.data, out.data, out.len) == 0), "canonical bytes");
    mvt_bytes_free(&out);
    mvt_bytes_free(&again);
    mvt_tile_free(&read);
    return status;
}

/* Writes copies of rows in which some numbers are changed. Answers how many were accepted. */
static unsigned write_changed(const mvt_tile *rows, unsigned times) {
    unsigned accepted = 0;
    for (unsigned i = 0; i < times; ++i) {
        mvt_tile t = *rows;
        t.layers = copy_of(rows->layers, rows->layer_count, sizeof *rows->layers);
        t.features = copy_of(rows->features, rows->feature_count, sizeof *rows->features);
        t.keys = copy_of(rows->keys, rows->key_count, sizeof *rows->keys);
        t.values = copy_of(rows->values, rows->value_count, sizeof *rows->values);
        t.tags = copy_of(rows->tags, rows->tag_count, sizeof *rows->tags);
        t.parts = copy_of(rows->parts, rows->part_count, sizeof *rows->parts);
        t.points = copy_of(rows->points, rows->point_count, sizeof *rows->points);
        t.integers = copy_of(rows->integers, rows->integer_count, sizeof *rows->integers);
        t.texts = copy_of(rows->texts, rows->text_len, 1);
        for (unsigned changes = 1 + any(2); changes != 0; --changes) {
            switch (any(8)) {
            case 0: change((void *)t.layers, t.layer_count, sizeof *t.layers); break;
            case 1: change((void *)t.features, t.feature_count, sizeof *t.features); break;
            case 2: change((void *)t.keys, t.key_count, sizeof *t.keys); break;
            case 3: change((void *)t.values, t.value_count, sizeof *t.values); break;
            case 4: change((void *)t.tags, t.tag_count, sizeof *t.tags); break;
            case 5: change((void *)t.parts, t.part_count, sizeof *t.parts); break;
            case 6: change((void *)t.points, t.point_count, sizeof *t.points); break;
            default: change((void *)t.texts, t.text_len / 4, 4); break;
            }
        }
        accepted += write_rows(&t) == MVT_OK;
        free((void *)t.layers);
        free((void *)t.features);
        free((void *)t.keys);
        free((void *)t.values);
        free((void *)t.tags);
        free((void *)t.parts);
        free((void *)t.points);
        free((void *)t.integers);
        free((void *)t.texts);
    }
    return accepted;
}

/* A tile in pieces is the tile as a whole, or has its fault. */
static void decode(const uint8_t *bytes, size_t len, uint32_t wanted, const mvt_tile *rows, const mvt_fault *first) {
    mvt_decoder decoder = {0};
    mvt_fault fault = {0};
    mvt_tile read = {0};
    require(mvt_decoder_new(&decoder, UINT64_MAX) == MVT_OK, "a decoder");
    uint32_t status = MVT_OK;
    for (size_t at = 0; at < len && status == MVT_OK;) {
        const size_t piece = 1 + any(len - at < 1000 ? len - at : 1000);
        status = mvt_decoder_feed(&decoder, bytes + at, piece, &fault);
        at += piece;
    }
    if (status != MVT_OK) require(mvt_decoder_feed(&decoder, NULL, 0, &fault) == status, "an error that stays");
    status = mvt_decoder_finish(&decoder, &read, &fault);
    require(status == wanted, "the status of a decoder");
    if (status == MVT_OK) {
        require(same_tiles(rows, &read), "the rows of a decoder");
        mvt_tile_free(&read);
    } else {
        require(fault.layer == first->layer && fault.feature == first->feature && fault.at == first->at &&
                    fault.cause == first->cause,
                "the fault of a decoder");
    }
    require(mvt_decoder_feed(&decoder, bytes, len, &fault) == MVT_NO_DECODER, "a decoder that is finished");
    require(mvt_decoder_finish(&decoder, &read, &fault) == MVT_NO_DECODER, "a decoder that is finished");
    require(mvt_decoder_new(&decoder, UINT64_MAX) == MVT_OK && mvt_decoder_feed(&decoder, bytes, len / 2, &fault) <= 1,
            "half a tile");
    mvt_decoder_free(&decoder);
    mvt_decoder_free(&decoder);
}

static uint64_t size_of(const mvt_tile *t) {
    return t->layer_count * sizeof *t->layers + t->feature_count * sizeof *t->features +
           t->key_count * sizeof *t->keys + t->value_count * sizeof *t->values + t->tag_count * sizeof *t->tags +
           t->part_count * sizeof *t->parts + t->point_count * sizeof *t->points +
           t->integer_count * sizeof *t->integers + t->text_len;
}

/* Rows of at most so many bytes are read exactly where they have no more. */
static void read_within(const uint8_t *bytes, size_t len, const mvt_tile *rows) {
    const uint64_t size = size_of(rows);
    mvt_tile read = {0};
    mvt_fault fault = {0};
    mvt_decoder decoder = {0};
    require(mvt_read(bytes, len, size, &read, &fault) == MVT_OK && same_tiles(rows, &read), "rows of just the most");
    mvt_tile_free(&read);
    require(mvt_decoder_new(&decoder, size) == MVT_OK, "a decoder of rows of just the most");
    require(mvt_decoder_feed(&decoder, bytes, len, &fault) == MVT_OK, "just the most from a decoder");
    require(mvt_decoder_finish(&decoder, &read, &fault) == MVT_OK && same_tiles(rows, &read),
            "just the most in the end");
    mvt_tile_free(&read);
    require(mvt_read_layer(bytes, len, mvt_text("no layer's name"), &read, &fault) == MVT_NO_LAYER,
            "a layer of no name");
    if (size == 0) return;
    require(mvt_read(bytes, len, size - 1, &read, &fault) == MVT_NO_MEMORY && read.layers == NULL, "beyond the most");
    require(mvt_decoder_new(&decoder, size - 1) == MVT_OK, "a decoder of fewer rows");
    require(mvt_decoder_feed(&decoder, bytes, len, &fault) == MVT_NO_MEMORY, "beyond the most from a decoder");
    mvt_decoder_free(&decoder);
}

typedef uint32_t making(const uint8_t *, size_t, mvt_bytes *, mvt_fault *);

/* What a call makes is what the case has of this key, with a line feed behind it or without; or it has the case's fault. */
static void make(const told_case *of, making *call, const char *key, int adds_line) {
    mvt_bytes out = {0};
    mvt_fault fault = {.layer = -7};
    size_t len;
    const uint32_t status = call(of->tile, of->len, &out, &fault);
    require(status == (case_has(of, "fault") ? MVT_REFUSED : MVT_OK), key);
    require((status == MVT_REFUSED) == (fault.layer != -7), "a fault is told exactly where the tile is refused");
    require(status == MVT_OK || (out.data == NULL && out.len == 0), "an output that isn't due is touched");
    if (status != MVT_OK) return;
    const int is_text = strcmp(key, "canonical") != 0;
    void *wanted = is_text ? (void *)case_text(of, key, &len) : case_bytes(of, key, &len);
    require_bytes(out.data, out.len, wanted, len - (size_t)adds_line, key);
    free(wanted);
    mvt_bytes_free(&out);
    require(out.data == NULL && out.len == 0, "what was given back is still there");
}

/* The line of a fault, its place and its sentence are the program's. */
static void refuse(const told_case *of) {
    mvt_fault fault = {0};
    mvt_place place;
    size_t len;
    char line[200], index[2][24] = {"-", "-"};
    require(mvt_judge(of->tile, of->len, &fault) == MVT_REFUSED, "a tile that is refused");
    if (fault.layer >= 0) sprintf(index[0], "%lld", (long long)fault.layer);
    if (fault.feature >= 0) sprintf(index[1], "%lld", (long long)fault.feature);
    int made = sprintf(line, "layer %s feature %s at %llu: %u %.*s", index[0], index[1], (unsigned long long)fault.at,
                       fault.cause, (int)fault.name.len, (const char *)fault.name.data);
    const char *wanted = case_says(of, "fault", &len);
    require_bytes(line, (size_t)made, wanted, len, "the line of a fault");
    mvt_locate(of->tile, of->len, &fault, &place);
    made = sprintf(line, "%llu %llu", (unsigned long long)place.start, (unsigned long long)place.end);
    wanted = case_says(of, "place", &len);
    require_bytes(line, (size_t)made, wanted, len, "the place of a fault");
    const char *sentence = mvt_explain(of->tile, of->len, &fault);
    wanted = case_says(of, "sentence", &len);
    require_bytes(sentence, strlen(sentence), wanted, len, "the sentence of a fault");
    sentence = mvt_explain_head(of->tile, of->len < MVT_HEAD ? of->len : MVT_HEAD, of->len, &fault);
    require_bytes(sentence, strlen(sentence), wanted, len, "the sentence of a fault by the first bytes");
}

/* Each layer that the case has by name, extracted alone. */
static void extract_each(const told_case *of) {
    size_t len;
    for (const char *line = of->lines; (line = case_line(line, "extract", &len)) != NULL; line += len) {
        const size_t of_name = (size_t)(strchr(line, ' ') - line);
        const mvt_bytes name = {(const uint8_t *)line, of_name};
        uint8_t *wanted = bytes_of_digits(line + of_name + 1, len - of_name - 1, 0);
        mvt_bytes out = {0};
        mvt_fault fault;
        require(mvt_extract(of->tile, of->len, &name, 1, &out, &fault, NULL) == MVT_OK, "a layer that is there");
        require_bytes(out.data, out.len, wanted, (len - of_name - 1) / 2, "a layer alone");
        mvt_bytes_free(&out);
        free(wanted);
    }
}

/* Names that no layer has, and one that isn't UTF-8. */
static void extract_wrong(const uint8_t *bytes, size_t len, uint32_t judged) {
    const mvt_bytes names[] = {{(const uint8_t *)"water", 5}, {(const uint8_t *)"\xff", 1}};
    mvt_bytes out = {0};
    mvt_fault fault = {0};
    const uint32_t extracted = mvt_extract(bytes, len, names, 1, &out, &fault, NULL);
    mvt_bytes_free(&out);
    require(mvt_extract(bytes, len, NULL, 0, &out, &fault, NULL) == judged && out.len == 0, "no layers are named");
    mvt_bytes_free(&out);
    require(mvt_extract(bytes, len, names, 2, &out, &fault, NULL) == MVT_BAD_NAME, "a name that isn't UTF-8");
    const mvt_bytes missed[] = {names[0], {(const uint8_t *)"no such layer", 13}};
    size_t missing = 7;
    const uint32_t without = mvt_extract(bytes, len, missed, 2, &out, &fault, &missing);
    require(without == (judged == MVT_OK ? MVT_NO_LAYER : judged), "a layer that isn't there");
    require(missing == (judged != MVT_OK ? 7 : extracted == MVT_NO_LAYER ? 0 : 1), "the first name that no layer has");
    require(mvt_extract(bytes, len, missed, 2, &out, &fault, NULL) == without, "a missing layer that nobody asks for");
    require(out.data == NULL && out.len == 0, "an output that isn't due is touched");
}

static void call(const told_case *of) {
    const uint8_t *bytes = of->len == 0 ? NULL : of->tile;
    mvt_fault fault = {0};
    mvt_tile rows = {0};
    const uint32_t judged = mvt_judge(bytes, of->len, &fault);
    make(of, mvt_rewrite, "canonical", 0);
    make(of, mvt_json, "show", 1);
    make(of, mvt_svg, "draw", 1);
    make(of, mvt_report, "check", 0);
    make(of, mvt_lint, "lint", 0);
    if (judged == MVT_REFUSED)
        refuse(of);
    else
        extract_each(of);
    extract_wrong(bytes, of->len, judged);
    const uint32_t read = mvt_read(bytes, of->len, UINT64_MAX, &rows, &fault);
    require(read == judged, "a tile is read where it is accepted");
    decode(bytes, of->len, read, &rows, &fault);
    if (read == MVT_OK) {
        volatile uint64_t sum = walk(&rows);
        (void)sum;
        read_within(bytes, of->len, &rows);
        require(write_rows(&rows) == MVT_OK, "rows that were read are a tile");
        write_changed(&rows, 4);
        mvt_tile_free(&rows);
    }
    require(rows.layers == NULL && rows.text_len == 0, "rows that aren't due are touched");
}

static void each(void) { each_case(call); }

/* Layer `a` with the point (25, 17), made by hand, as the bytes that are known of it. */
static void write_point(void) {
    const uint8_t known[] = {0x1A, 0x11, 0x78, 0x02, 0x0A, 0x01, 0x61, 0x12, 0x07, 0x18,
                             0x01, 0x22, 0x03, 0x09, 0x32, 0x22, 0x28, 0x80, 0x20};
    const mvt_layer layer = {.version = 2, .extent = 4096, .name = {0, 1}, .features = {0, 1}};
    const mvt_feature feature = {.kind = MVT_POINTS, .parts = {0, 1}};
    const mvt_part part = {.points = {0, 1}};
    mvt_point point = {25, 17};
    mvt_tile tile = {.layers = &layer,
                     .layer_count = 1,
                     .features = &feature,
                     .feature_count = 1,
                     .parts = &part,
                     .part_count = 1,
                     .points = &point,
                     .point_count = 1,
                     .texts = (const uint8_t *)"a",
                     .text_len = 1};
    mvt_bytes out = {0};
    require(mvt_write(&tile, &out, NULL) == MVT_OK && out.len == sizeof known, "a point made by hand");
    require(memcmp(out.data, known, sizeof known) == 0, "the bytes of a point");
    mvt_bytes_free(&out);
    point.x = INT32_MIN;
    require(mvt_write(&tile, &out, NULL) == MVT_NO_TILE && out.data == NULL, "a point out of range");
    point.x = 25;
    tile.point_count = 0;
    require(mvt_write(&tile, &out, NULL) == MVT_NO_TILE && out.data == NULL, "a point that isn't there");
    const mvt_tile nothing = {0};
    require(mvt_write(&nothing, &out, NULL) == MVT_OK && out.len == 0, "no rows are the empty tile");
}

/* A pointer beside a length or a count of 0 may be NULL. */
static void take_nothing(void) {
    mvt_tile rows = {0};
    mvt_bytes out = {0};
    mvt_fault fault;
    require(mvt_judge(NULL, 0, &fault) == MVT_OK, "no bytes are a tile");
    require(mvt_read(NULL, 0, UINT64_MAX, &rows, &fault) == MVT_OK && rows.layer_count == 0, "no bytes have no rows");
    require(mvt_rewrite(NULL, 0, &out, &fault) == MVT_OK && out.len == 0, "no bytes are canonical");
    require(mvt_extract(NULL, 0, NULL, 0, &out, &fault, NULL) == MVT_OK && out.len == 0, "no layers of no bytes");
    mvt_tile_free(&rows);
    mvt_bytes_free(&out);
}

static void free_nothing(void) {
    mvt_bytes_free(NULL);
    mvt_tile_free(NULL);
    mvt_decoder_free(NULL);
    mvt_builder_free(NULL);
}

static const named_test TESTS[] = {
    {"no bytes", take_nothing},
    {"nothing to give back", free_nothing},
    {"a point made by hand", write_point},
    {"each case", each},
};

RUN_TESTS(TESTS)
