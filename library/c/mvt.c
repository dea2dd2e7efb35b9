/* What C does for itself: it gives back what the library handed out, where a list without entries has no block,
 * takes the name of a layer apart, answers a decoder that isn't there, makes a builder at its first call, and hands out
 * the texts of sentences. */
#include "mvt.h"

#include <stdlib.h>
#include <string.h>

static void give_back(const void *list, size_t count) {
    if (count != 0) free((void *)list);
}

void mvt_bytes_free(mvt_bytes *bytes) {
    if (bytes == NULL) return;
    give_back(bytes->data, bytes->len);
    memset(bytes, 0, sizeof *bytes);
}

void mvt_tile_free(mvt_tile *tile) {
    if (tile == NULL) return;
    give_back(tile->layers, tile->layer_count);
    give_back(tile->features, tile->feature_count);
    give_back(tile->keys, tile->key_count);
    give_back(tile->values, tile->value_count);
    give_back(tile->tags, tile->tag_count);
    give_back(tile->parts, tile->part_count);
    give_back(tile->points, tile->point_count);
    give_back(tile->integers, tile->integer_count);
    give_back(tile->texts, tile->text_len);
    memset(tile, 0, sizeof *tile);
}

void mvt_summary_free(mvt_summary *summary) {
    if (summary == NULL) return;
    give_back(summary->notes, summary->note_count);
    memset(summary, 0, sizeof *summary);
}

void mvt_findings_free(mvt_findings *findings) {
    if (findings == NULL) return;
    give_back(findings->rows, findings->count);
    memset(findings, 0, sizeof *findings);
}

void mvt_mended_free(mvt_mended *mended) {
    if (mended == NULL) return;
    give_back(mended->bytes.data, mended->bytes.len);
    give_back(mended->changes, mended->change_count);
    memset(mended, 0, sizeof *mended);
}

void mvt_surroundings_free(mvt_surroundings *surroundings) {
    if (surroundings == NULL) return;
    give_back(surroundings->keys, surroundings->key_count);
    give_back(surroundings->tags, surroundings->tag_count);
    give_back(surroundings->geometry, surroundings->geometry_count);
    give_back(surroundings->steps, surroundings->step_count);
    give_back(surroundings->fields, surroundings->field_count);
    memset(surroundings, 0, sizeof *surroundings);
}

uint32_t mvt_read_named(const uint8_t *bytes, size_t len, const uint8_t *name, size_t name_len, mvt_tile *out,
                        mvt_fault *fault);

mvt_status mvt_read_layer(const uint8_t *bytes, size_t len, mvt_bytes name, mvt_tile *out, mvt_fault *fault) {
    return mvt_read_named(bytes, len, name.data, name.len, out, fault);
}

/* The proved calls write what they tell to something that is there. */
uint32_t mvt_extract_named(const uint8_t *bytes, size_t len, const mvt_bytes *names, size_t count, mvt_bytes *out,
                           mvt_fault *fault, size_t *missing);
uint32_t mvt_mend_told(const uint8_t *bytes, size_t len, mvt_mended *out, mvt_fault *fault, mvt_unmended_row *why);
uint32_t mvt_write_told(const mvt_tile *tile, mvt_bytes *out, mvt_rows_fault *fault);

mvt_status mvt_extract(const uint8_t *bytes, size_t len, const mvt_bytes *names, size_t count, mvt_bytes *out,
                       mvt_fault *fault, size_t *missing) {
    size_t untold = 0;
    return mvt_extract_named(bytes, len, names, count, out, fault, missing == NULL ? &untold : missing);
}

mvt_status mvt_mend(const uint8_t *bytes, size_t len, mvt_mended *out, mvt_fault *fault, mvt_unmended_row *why) {
    mvt_unmended_row untold = {0};
    return mvt_mend_told(bytes, len, out, fault, why == NULL ? &untold : why);
}

mvt_status mvt_write(const mvt_tile *tile, mvt_bytes *out, mvt_rows_fault *fault) {
    mvt_rows_fault untold = {0};
    return mvt_write_told(tile, out, fault == NULL ? &untold : fault);
}

/* The proved calls take a decoder that is there, and hand it back. */
typedef struct {
    void *decoder;
} held;
uint32_t mvt_held_new(uint64_t most, held *out);
uint32_t mvt_held_feed(held decoder, const uint8_t *piece, size_t len, held *again, mvt_fault *fault);
uint32_t mvt_held_finish(held decoder, mvt_tile *out, mvt_fault *fault);
void mvt_held_free(held decoder);

mvt_status mvt_decoder_new(mvt_decoder *decoder, uint64_t most) {
    held made = {NULL};
    const uint32_t status = mvt_held_new(most, &made);
    if (status == MVT_OK) decoder->held = made.decoder;
    return status;
}

mvt_status mvt_decoder_feed(mvt_decoder *decoder, const uint8_t *piece, size_t len, mvt_fault *fault) {
    if (decoder->held == NULL) return MVT_NO_DECODER;
    held now = {decoder->held};
    const uint32_t status = mvt_held_feed(now, piece, len, &now, fault);
    decoder->held = now.decoder;
    return status;
}

mvt_status mvt_decoder_finish(mvt_decoder *decoder, mvt_tile *out, mvt_fault *fault) {
    if (decoder->held == NULL) return MVT_NO_DECODER;
    const held last = {decoder->held};
    decoder->held = NULL;
    return mvt_held_finish(last, out, fault);
}

void mvt_decoder_free(mvt_decoder *decoder) {
    if (decoder == NULL) return;
    const held last = {decoder->held};
    decoder->held = NULL;
    if (last.decoder != NULL) mvt_held_free(last);
}

/* The proved calls hand a sentence out as bytes, the last of them a zero. */
uint32_t mvt_held_sentence(const uint8_t *bytes, size_t len, const mvt_fault *fault, mvt_bytes *out);
uint32_t mvt_held_cause_text(uint32_t cause, mvt_bytes *out);
uint32_t mvt_held_note_text(uint32_t note, mvt_bytes *out);
uint32_t mvt_held_finding_text(uint32_t finding, mvt_bytes *out);

const char *mvt_explain(const uint8_t *bytes, size_t len, const mvt_fault *fault) {
    mvt_bytes said = {NULL, 0};
    return mvt_held_sentence(bytes, len, fault, &said) ? (const char *)said.data : "A rule is broken.";
}

/* How many bytes there are tells brotli. */
const char *mvt_explain_head(const uint8_t *head, size_t len, uint64_t size, const mvt_fault *fault) {
    const int is_unknown = len < size && mvt_looks_like(head, len) == MVT_LOOKALIKE_BROTLI;
    return mvt_explain(head, is_unknown ? 0 : len, fault);
}

const char *mvt_cause_text(uint32_t cause) {
    mvt_bytes said = {NULL, 0};
    if (mvt_held_cause_text(cause, &said)) return (const char *)said.data;
    switch (cause) {
    case MVT_CAUSE_EXTERIOR_RING:
        return "A further exterior ring has no area or goes the wrong way round. Its area must be positive, which is clockwise "
               "on the screen.";
    case MVT_CAUSE_INTERIOR_RING:
        return "A hole goes the wrong way round. Its area must not be positive: it goes counterclockwise on the screen.";
    default: return "no cause of this library";
    }
}

const char *mvt_note_text(uint32_t note) {
    mvt_bytes said = {NULL, 0};
    return mvt_held_note_text(note, &said) ? (const char *)said.data : "no note of this library";
}

const char *mvt_finding_text(uint32_t finding) {
    mvt_bytes said = {NULL, 0};
    return mvt_held_finding_text(finding, &said) ? (const char *)said.data : "no finding of this library";
}

mvt_bytes mvt_text(const char *text) {
    const mvt_bytes bytes = {(const uint8_t *)text, strlen(text)};
    return bytes;
}

static mvt_any any_of(uint32_t kind, uint64_t bits) {
    const mvt_any value = {kind, bits, {NULL, 0}};
    return value;
}

mvt_any mvt_any_text(mvt_bytes text) {
    const mvt_any value = {MVT_TEXT, 0, text};
    return value;
}

mvt_any mvt_any_float(float number) {
    uint32_t bits;
    memcpy(&bits, &number, sizeof bits);
    return any_of(MVT_FLOAT, bits);
}

mvt_any mvt_any_double(double number) {
    uint64_t bits;
    memcpy(&bits, &number, sizeof bits);
    return any_of(MVT_DOUBLE, bits);
}

mvt_any mvt_any_int(int64_t number) { return any_of(MVT_INT, (uint64_t)number); }
mvt_any mvt_any_uint(uint64_t number) { return any_of(MVT_UINT, number); }
mvt_any mvt_any_sint(int64_t number) { return any_of(MVT_SINT, (uint64_t)number); }
mvt_any mvt_any_bool(int truth) { return any_of(MVT_BOOL, truth != 0); }

/* The proved calls of a builder take one that is there, and hand it back. */
typedef struct {
    void *builder;
} making;
uint32_t mvt_making_new(making *out);
uint32_t mvt_making_layer(making of, const uint8_t *name, size_t len, uint32_t extent, making *again);
uint32_t mvt_making_foreign(making of, uint32_t version, const uint8_t *bytes, size_t len, making *again);
uint32_t mvt_making_key(making of, const uint8_t *key, size_t len, making *again, uint32_t *index);
uint32_t mvt_making_value(making of, const mvt_any *value, making *again, uint32_t *index);
uint32_t mvt_making_feature(making of, uint32_t kind, making *again);
uint32_t mvt_making_id(making of, uint64_t id, making *again);
uint32_t mvt_making_tag(making of, const uint8_t *key, size_t len, const mvt_any *value, making *again);
uint32_t mvt_making_tag_at(making of, uint32_t key, uint32_t value, making *again);
uint32_t mvt_making_line(making of, making *again);
uint32_t mvt_making_ring(making of, uint32_t exterior, making *again);
uint32_t mvt_making_points(making of, const mvt_point *points, size_t count, making *again);
uint32_t mvt_making_integers(making of, const uint32_t *integers, size_t count, making *again);
uint32_t mvt_making_add(making of, uint32_t kind, uint32_t has_id, uint64_t id, const uint32_t *tags, size_t tag_count,
                        const mvt_part *parts, size_t part_count, const mvt_point *points, size_t point_count,
                        making *again);
uint32_t mvt_making_drop(making of, making *again);
uint32_t mvt_making_rows(making of, making *again, mvt_tile *out);
uint32_t mvt_making_finish(making of, mvt_bytes *out, mvt_rows_fault *fault);
void mvt_making_free(making of);

/* What a builder of C holds: the proved one, and the rows that it lent last. */
typedef struct {
    making now;
    mvt_tile rows;
} builder;

/* What a builder holds whose first call found no memory, so that its later calls say so too. It is never written. */
static const builder WITHOUT_MEMORY;

/* Finds the builder, which the first call makes, and takes back the rows that it lent. NULL for want of memory. */
static builder *enter(mvt_builder *of) {
    if (of->held == NULL) {
        builder *made = calloc(1, sizeof *made);
        if (made != NULL && mvt_making_new(&made->now) != MVT_OK) {
            free(made);
            made = NULL;
        }
        of->held = made != NULL ? (void *)made : (void *)&WITHOUT_MEMORY;
    }
    if (of->held == (void *)&WITHOUT_MEMORY) return NULL;
    builder *b = of->held;
    mvt_tile_free(&b->rows);
    return b;
}

mvt_status mvt_builder_layer(mvt_builder *of, mvt_bytes name, uint32_t extent) {
    builder *b = enter(of);
    return b == NULL ? MVT_NO_MEMORY : mvt_making_layer(b->now, name.data, name.len, extent, &b->now);
}

mvt_status mvt_builder_foreign(mvt_builder *of, uint32_t version, mvt_bytes bytes) {
    builder *b = enter(of);
    return b == NULL ? MVT_NO_MEMORY : mvt_making_foreign(b->now, version, bytes.data, bytes.len, &b->now);
}

mvt_status mvt_builder_key(mvt_builder *of, mvt_bytes key, uint32_t *index) {
    builder *b = enter(of);
    return b == NULL ? MVT_NO_MEMORY : mvt_making_key(b->now, key.data, key.len, &b->now, index);
}

mvt_status mvt_builder_value(mvt_builder *of, mvt_any value, uint32_t *index) {
    builder *b = enter(of);
    return b == NULL ? MVT_NO_MEMORY : mvt_making_value(b->now, &value, &b->now, index);
}

mvt_status mvt_builder_feature(mvt_builder *of, mvt_kind kind) {
    builder *b = enter(of);
    return b == NULL ? MVT_NO_MEMORY : mvt_making_feature(b->now, kind, &b->now);
}

mvt_status mvt_builder_id(mvt_builder *of, uint64_t id) {
    builder *b = enter(of);
    return b == NULL ? MVT_NO_MEMORY : mvt_making_id(b->now, id, &b->now);
}

mvt_status mvt_builder_tag(mvt_builder *of, mvt_bytes key, mvt_any value) {
    builder *b = enter(of);
    return b == NULL ? MVT_NO_MEMORY : mvt_making_tag(b->now, key.data, key.len, &value, &b->now);
}

mvt_status mvt_builder_tag_at(mvt_builder *of, uint32_t key, uint32_t value) {
    builder *b = enter(of);
    return b == NULL ? MVT_NO_MEMORY : mvt_making_tag_at(b->now, key, value, &b->now);
}

mvt_status mvt_builder_line(mvt_builder *of) {
    builder *b = enter(of);
    return b == NULL ? MVT_NO_MEMORY : mvt_making_line(b->now, &b->now);
}

mvt_status mvt_builder_ring(mvt_builder *of, int exterior) {
    builder *b = enter(of);
    return b == NULL ? MVT_NO_MEMORY : mvt_making_ring(b->now, exterior != 0, &b->now);
}

mvt_status mvt_builder_points(mvt_builder *of, const mvt_point *points, size_t count) {
    builder *b = enter(of);
    return b == NULL ? MVT_NO_MEMORY : mvt_making_points(b->now, points, count, &b->now);
}

mvt_status mvt_builder_point(mvt_builder *of, int32_t x, int32_t y) {
    const mvt_point point = {x, y};
    return mvt_builder_points(of, &point, 1);
}

mvt_status mvt_builder_integers(mvt_builder *of, const uint32_t *integers, size_t count) {
    builder *b = enter(of);
    return b == NULL ? MVT_NO_MEMORY : mvt_making_integers(b->now, integers, count, &b->now);
}

mvt_status mvt_builder_add(mvt_builder *of, mvt_kind kind, const uint64_t *id, const uint32_t *tags, size_t tag_count,
                           const mvt_part *parts, size_t part_count, const mvt_point *points, size_t point_count) {
    builder *b = enter(of);
    return b == NULL ? MVT_NO_MEMORY
                     : mvt_making_add(b->now, kind, id != NULL, id != NULL ? *id : 0, tags, tag_count, parts,
                                      part_count, points, point_count, &b->now);
}

mvt_status mvt_builder_drop(mvt_builder *of) {
    builder *b = enter(of);
    return b == NULL ? MVT_NO_MEMORY : mvt_making_drop(b->now, &b->now);
}

mvt_status mvt_builder_rows(mvt_builder *of, mvt_tile *out) {
    builder *b = enter(of);
    if (b == NULL) return MVT_NO_MEMORY;
    const uint32_t status = mvt_making_rows(b->now, &b->now, &b->rows);
    if (status == MVT_OK) *out = b->rows;
    return status;
}

mvt_status mvt_builder_finish(mvt_builder *of, mvt_bytes *out, mvt_rows_fault *fault) {
    builder *b = enter(of);
    of->held = NULL;
    if (b == NULL) return MVT_NO_MEMORY;
    const making last = b->now;
    free(b);
    mvt_rows_fault untold = {0};
    return mvt_making_finish(last, out, fault == NULL ? &untold : fault);
}

void mvt_builder_free(mvt_builder *of) {
    if (of == NULL || of->held == NULL) return;
    builder *b = of->held;
    of->held = NULL;
    if (b == &WITHOUT_MEMORY) return;
    mvt_tile_free(&b->rows);
    mvt_making_free(b->now);
    free(b);
}
