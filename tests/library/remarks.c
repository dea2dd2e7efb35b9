/* mvt_survey and mvt_lint_rows on each case: their rows say what the lines of `mvt check` and `mvt lint` say, and where a tile
 * is refused they tell mvt_judge's fault and touch nothing else. */
#include "tests.h"

#include <inttypes.h>

/* Lines that are made of rows. */
typedef struct {
    char *text;
    size_t len, room;
} lines;

#define ADD(to, ...)                                                                                                   \
    do {                                                                                                               \
        const int more = snprintf(NULL, 0, __VA_ARGS__);                                                               \
        while ((to)->room - (to)->len <= (size_t)more)                                                                 \
            (to)->text = realloc((to)->text, (to)->room = 2 * (to)->room + 256);                                       \
        (to)->len += (size_t)snprintf((to)->text + (to)->len, (to)->room - (to)->len, __VA_ARGS__);                    \
    } while (0)

static void add_note(lines *to, const mvt_note_row *row) {
    const uint64_t l = row->layer, f = row->feature;
    switch (row->kind) {
    case MVT_NOTE_NO_LAYERS: ADD(to, "note NoLayers\n"); break;
    case MVT_NOTE_FOREIGN: ADD(to, "note Foreign layer %" PRIu64 " version %" PRIu32 "\n", l, row->version); break;
    case MVT_NOTE_NO_FEATURES: ADD(to, "note NoFeatures layer %" PRIu64 "\n", l); break;
    case MVT_NOTE_REPEATED_ID:
        ADD(to, "note RepeatedId layer %" PRIu64 " feature %" PRIu64 " earlier %" PRIu64 "\n", l, f, row->earlier);
        break;
    case MVT_NOTE_FLAT_RING:
        ADD(to, "note FlatRing layer %" PRIu64 " feature %" PRIu64 " ring %" PRIu64 "\n", l, f, row->ring);
        break;
    default:
        require(row->kind == MVT_NOTE_CLOSED_TWICE, "the kind of a note");
        ADD(to, "note ClosedTwice layer %" PRIu64 " feature %" PRIu64 " ring %" PRIu64 "\n", l, f, row->ring);
    }
}

static void add_finding(lines *to, const mvt_finding_row *row) {
    static const char *const names[] = {"",         "ZeroExtent", "NoGeometry", "UnknownGeometry",
                                        "FarPoint", "LargeId",    "LargeNumber"};
    require(row->kind >= MVT_FINDING_ZERO_EXTENT && row->kind <= MVT_FINDING_LARGE_NUMBER, "the kind of a finding");
    require(row->has_feature == (row->kind != MVT_FINDING_ZERO_EXTENT), "whether a finding is of a feature");
    ADD(to, "lint %s layer %" PRIu64, names[row->kind], row->layer);
    if (row->has_feature) ADD(to, " feature %" PRIu64, row->feature);
    if (row->kind == MVT_FINDING_FAR_POINT) ADD(to, " position %" PRId32 " %" PRId32, row->x, row->y);
    if (row->kind == MVT_FINDING_LARGE_NUMBER) ADD(to, " attribute %" PRIu64, row->attribute);
    ADD(to, "\n");
}

static void compare(lines *made, const told_case *of, const char *key) {
    size_t len;
    char *told = case_text(of, key, &len);
    require_bytes(made->text, made->len, told, len, key);
    free(made->text);
    free(told);
}

static void accepted(const told_case *of) {
    mvt_summary summary;
    mvt_findings findings;
    mvt_fault fault;
    lines notes = {0}, found = {0};
    require(mvt_survey(of->tile, of->len, &summary, &fault) == MVT_OK && summary.is_canonical <= 1, "a survey");
    ADD(&notes, "ok layers %" PRIu64 " features %" PRIu64 " canonical %s\n", summary.layers, summary.features,
        summary.is_canonical ? "yes" : "no");
    for (size_t i = 0; i < summary.note_count; ++i) add_note(&notes, &summary.notes[i]);
    compare(&notes, of, "check");
    require(mvt_lint_rows(of->tile, of->len, &findings, &fault) == MVT_OK, "rows of findings");
    for (size_t i = 0; i < findings.count; ++i) add_finding(&found, &findings.rows[i]);
    compare(&found, of, "lint");
    mvt_summary_free(&summary);
    mvt_findings_free(&findings);
    require(summary.notes == NULL && summary.layers == 0 && findings.rows == NULL,
            "what was given back is still there");
    mvt_summary_free(&summary);
    mvt_findings_free(&findings);
}

static void refused(const uint8_t *bytes, size_t len, const mvt_fault *first) {
    mvt_summary summary, no_summary;
    mvt_findings findings, no_findings;
    mvt_fault fault;
    memset(&no_summary, 0x5a, sizeof summary), summary = no_summary;
    memset(&no_findings, 0x5a, sizeof findings), findings = no_findings;
    for (int i = 0; i < 2; ++i) {
        memset(&fault, 0, sizeof fault);
        require((i == 0 ? mvt_survey(bytes, len, &summary, &fault) : mvt_lint_rows(bytes, len, &findings, &fault)) ==
                    MVT_REFUSED,
                "a tile that is refused");
        require(fault.layer == first->layer && fault.feature == first->feature && fault.at == first->at &&
                    fault.cause == first->cause,
                "its fault");
    }
    require(memcmp(&summary, &no_summary, sizeof summary) == 0 && memcmp(&findings, &no_findings, sizeof findings) == 0,
            "an output that isn't due is touched");
    const int kind = mvt_looks_like(bytes, len);
    require(kind >= 0 && kind <= MVT_LOOKALIKE_MBTILES, "what the bytes look like");
    require((strncmp(mvt_explain(bytes, len, first), "This isn't a tile, but looks like ", 34) == 0) == (kind != 0),
            "its sentence");
}

static void look(const told_case *of) {
    mvt_fault fault;
    if (mvt_judge(of->tile, of->len, &fault) == MVT_OK)
        accepted(of);
    else
        refused(of->tile, of->len, &fault);
}

static void each(void) { each_case(look); }

/* What has a number has a text, and what has none has another. */
static void texts(void) {
    const char *(*const calls[])(uint32_t) = {mvt_cause_text, mvt_note_text, mvt_finding_text};
    const uint32_t last[] = {MVT_CAUSE_INTERIOR_RING, MVT_NOTE_CLOSED_TWICE, MVT_FINDING_LARGE_NUMBER};
    for (int of = 0; of < 3; ++of)
        for (uint32_t number = 0; number <= last[of] + 1; ++number) {
            const char *text = calls[of](number);
            const int is_known = number != 0 && number <= last[of] && !(of == 0 && number == 9);
            require((text[strlen(text) - 1] == '.') == is_known, "a text for each number");
        }
    const mvt_fault fault = {-1, -1, 0, MVT_CAUSE_ZERO_SEGMENT, {NULL, 0}};
    require(strcmp(mvt_cause_text(MVT_CAUSE_ZERO_SEGMENT), mvt_explain(NULL, 0, &fault)) == 0, "the text of a cause");
    require(strcmp(mvt_note_text(MVT_NOTE_FLAT_RING), "A ring's area is 0.") == 0, "the text of a note");
    require(strncmp(mvt_finding_text(MVT_FINDING_LARGE_ID), "An id is beyond 2^53 - 1. The feature is drawn", 46) == 0,
            "and of a finding");
    require(MVT_LIMIT == 1 << 26, "the limit");
    char version[32];
    snprintf(version, sizeof version, "%d.%d.%d", MVT_VERSION_MAJOR, MVT_VERSION_MINOR, MVT_VERSION_PATCH);
    require(strcmp(version, MVT_VERSION) == 0, "the numbers of the version");
}

/* What bytes look like, each begun by a mark; and that they may be meant as a tile. */
static void looks(void) {
    static const struct {
        int kind;
        size_t len;
        const char *bytes;
    } rows[] = {{MVT_LOOKALIKE_GZIP, 2, "\x1f\x8b"},
                {MVT_LOOKALIKE_ZLIB, 2, "\x78\x9c"},
                {MVT_LOOKALIKE_ZSTD, 5, "\x28\xb5\x2f\xfd\x04"},
                {MVT_LOOKALIKE_PNG, 8, "\x89PNG\r\n\x1a\n"},
                {MVT_LOOKALIKE_SQLITE, 16, "SQLite format 3"},
                {MVT_LOOKALIKE_PMTILES, 8, "PMTiles\x03"},
                {MVT_LOOKALIKE_JSON, 13, "{\"layers\":[]}"},
                {MVT_LOOKALIKE_JSON, 9, "\xef\xbb\xbf[true]"},
                {MVT_LOOKALIKE_HTML, 22, "\n<!DOCTYPE html><html>"},
                {MVT_LOOKALIKE_HTML, 28, "<?xml version=\"1.0\"?><Error>"},
                {MVT_LOOKALIKE_JPEG, 4, "\xff\xd8\xff\xe0"},
                {MVT_LOOKALIKE_GIF, 6, "GIF87a"},
                {MVT_LOOKALIKE_WEBP, 16, "RIFF\0\0\0\0WEBPVP8 "},
                {MVT_LOOKALIKE_FLAT_GEOBUF, 8,
                 "fgb\x03"
                 "fgb\x01"},
                {MVT_LOOKALIKE_XZ, 6,
                 "\xfd"
                 "7zXZ"},
                {MVT_LOOKALIKE_BZIP2, 4, "BZh9"},
                {MVT_LOOKALIKE_ZIP, 4, "PK\x03\x04"},
                {MVT_LOOKALIKE_PDF, 8, "%PDF-1.7"},
                {MVT_LOOKALIKE_OSM_PBF, 15, "\0\0\0\x0d\n\tOSMHeader"},
                {MVT_LOOKALIKE_XML, 16, "\xef\xbb\xbf<?xml version"},
                {MVT_LOOKALIKE_PLAIN_TEXT, 18, "404 page not found"},
                {MVT_LOOKALIKE_BROTLI, 20,
                 "\x1b\x14\0\0\x9c"
                 "0123456789ABCDE"},
                {MVT_LOOKALIKE_MBTILES, 27, "SQLite format 3\0tile_column"},
                {0, 7,
                 "\x1a\x03\x0a\x09"
                 "ax\x02"},
                {0, 3, "abc"}};
    for (size_t i = 0; i < sizeof rows / sizeof *rows; ++i)
        require(mvt_looks_like((const uint8_t *)rows[i].bytes, rows[i].len) == rows[i].kind, rows[i].bytes);
    require(mvt_looks_like(NULL, 0) == 0, "no bytes look like nothing");
}

static void free_nothing(void) {
    mvt_summary_free(NULL);
    mvt_findings_free(NULL);
}

static const named_test TESTS[] = {
    {"a text for each number", texts},
    {"what bytes look like", looks},
    {"nothing to give back", free_nothing},
    {"each case", each},
};

RUN_TESTS(TESTS)
