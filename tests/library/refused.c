/* Each call on each case, once for each of its allocations, that one refused: it has to say that it is out of memory, to touch
 * nothing, and to leave no block behind. It is linked with tests/allocator. */
#include "allocator.h"
#include "tests.h"

static unsigned long refused; /* the allocation that is refused, from 1 */

static void require_of(int holds, const char *what, const char *call) {
    if (holds) return;
    fprintf(stderr, "broken: %s: %s: %s, allocation %lu refused\n", tests_at, call, what, refused);
    exit(1);
}

/* From here on the allocation `number` is refused. */
static void begin(unsigned long number) {
    refused = number;
    allocator_refuse_after((long)number - 1);
}

/* What a call hands out: bytes or rows. */
typedef union {
    mvt_bytes bytes;
    mvt_tile tile;
    mvt_summary summary;
    mvt_findings findings;
    mvt_surroundings surroundings;
    mvt_mended mended;
} output;

typedef struct {
    const char *name;
    uint32_t (*call)(const uint8_t *, size_t, output *, mvt_fault *);
    void (*give_back)(output *);
} task;

static uint32_t rewrite(const uint8_t *b, size_t n, output *o, mvt_fault *f) { return mvt_rewrite(b, n, &o->bytes, f); }
static uint32_t mend(const uint8_t *b, size_t n, output *o, mvt_fault *f) {
    return mvt_mend(b, n, &o->mended, f, NULL);
}
static uint32_t json(const uint8_t *b, size_t n, output *o, mvt_fault *f) { return mvt_json(b, n, &o->bytes, f); }
static uint32_t svg(const uint8_t *b, size_t n, output *o, mvt_fault *f) { return mvt_svg(b, n, &o->bytes, f); }
static uint32_t lint(const uint8_t *b, size_t n, output *o, mvt_fault *f) { return mvt_lint(b, n, &o->bytes, f); }
static uint32_t report(const uint8_t *b, size_t n, output *o, mvt_fault *f) { return mvt_report(b, n, &o->bytes, f); }
static uint32_t survey(const uint8_t *b, size_t n, output *o, mvt_fault *f) { return mvt_survey(b, n, &o->summary, f); }
static uint32_t findings(const uint8_t *b, size_t n, output *o, mvt_fault *f) {
    return mvt_lint_rows(b, n, &o->findings, f);
}
static uint32_t judge(const uint8_t *b, size_t n, output *o, mvt_fault *f) {
    const uint32_t status = mvt_judge(b, n, f);
    if (status == MVT_OK) memset(o, 0, sizeof *o);
    return status;
}
/* The fault is found beside the count. */
static uint32_t around(const uint8_t *b, size_t n, output *o, mvt_fault *f) {
    mvt_fault fault = {0, 0, 0, MVT_CAUSE_COMMAND, {NULL, 0}};
    (void)f;
    allocator_refuse_none();
    mvt_judge(b, n, &fault);
    begin(refused);
    return mvt_around(b, n, &fault, &o->surroundings);
}
static uint32_t rows(const uint8_t *b, size_t n, output *o, mvt_fault *f) {
    return mvt_read(b, n, UINT64_MAX, &o->tile, f);
}
static uint32_t layer(const uint8_t *b, size_t n, output *o, mvt_fault *f) {
    return mvt_read_layer(b, n, mvt_text("water"), &o->tile, f);
}
static uint32_t extract(const uint8_t *b, size_t n, output *o, mvt_fault *f) {
    const mvt_bytes names[] = {{(const uint8_t *)"water", 5}, {(const uint8_t *)"places", 6}};
    return mvt_extract(b, n, names, 2, &o->bytes, f, NULL);
}
/* Rows are read beside the count, and then written. */
static uint32_t written(const uint8_t *b, size_t n, output *o, mvt_fault *f) {
    mvt_tile tile;
    allocator_refuse_none();
    const uint32_t read = mvt_read(b, n, UINT64_MAX, &tile, f);
    begin(refused);
    if (read != MVT_OK) return read;
    const uint32_t status = mvt_write(&tile, &o->bytes, NULL);
    mvt_tile_free(&tile);
    return status;
}
/* A tile is built whose texts are parts of the bytes. */
static uint32_t built(const uint8_t *b, size_t n, output *o, mvt_fault *f) {
    mvt_builder builder = {0};
    mvt_rows_fault fault;
    (void)f;
    for (uint32_t layer = 0; layer < 2; ++layer) {
        mvt_builder_layer(&builder, mvt_text(layer == 0 ? "a" : "b"), 4096);
        for (uint32_t i = 0; i < 40; ++i) {
            char key[] = {'k', (char)('0' + i), 0};
            mvt_builder_feature(&builder, MVT_LINES);
            mvt_builder_tag(&builder, mvt_text(key), mvt_any_uint(n == 0 ? i : b[i % n]));
            mvt_builder_line(&builder);
            mvt_builder_point(&builder, 0, 0);
            mvt_builder_point(&builder, 1, (int32_t)i);
            const mvt_point points[] = {{0, 0}, {1, 1}, {2, (int32_t)i}};
            const mvt_part parts[] = {{0, {0, 2}}, {0, {1, 2}}};
            mvt_builder_add(&builder, MVT_LINES, NULL, (const uint32_t[]){0, 0}, 2, parts, 2, points, 3);
        }
    }
    return mvt_builder_finish(&builder, &o->bytes, &fault);
}
static void free_bytes(output *o) { mvt_bytes_free(&o->bytes); }
static void free_tile(output *o) { mvt_tile_free(&o->tile); }
static void free_summary(output *o) { mvt_summary_free(&o->summary); }
static void free_findings(output *o) { mvt_findings_free(&o->findings); }
static void free_mended(output *o) { mvt_mended_free(&o->mended); }
static void free_surroundings(output *o) { mvt_surroundings_free(&o->surroundings); }

static const task TASKS[] = {
    {"mvt_rewrite", rewrite, free_bytes},
    {"mvt_json", json, free_bytes},
    {"mvt_svg", svg, free_bytes},
    {"mvt_extract", extract, free_bytes},
    {"mvt_read", rows, free_tile},
    {"mvt_read_layer", layer, free_tile},
    {"mvt_report", report, free_bytes},
    {"mvt_lint", lint, free_bytes},
    {"mvt_survey", survey, free_summary},
    {"mvt_lint_rows", findings, free_findings},
    {"mvt_around", around, free_surroundings},
    {"mvt_mend", mend, free_mended},
    {"mvt_judge", judge, free_bytes},
    {"mvt_write", written, free_bytes},
    {"mvt_builder_finish", built, free_bytes},
};

/* One call with the allocation `number` refused. Answers whether the call went so far. */
static int refuse(const task *of, const uint8_t *bytes, size_t len, unsigned long number) {
    output out, untouched;
    mvt_fault fault, told_nothing;
    memset(&untouched, 0x5a, sizeof untouched);
    memset(&told_nothing, 0x5a, sizeof told_nothing);
    out = untouched, fault = told_nothing;
    allocator_blocks();
    begin(number);
    const uint32_t status = of->call(bytes, len, &out, &fault);
    const int came = allocator_refuse_none();
    require_of((status == MVT_NO_MEMORY) == came, "the wrong status", of->name);
    if (status == MVT_OK) {
        of->give_back(&out);
    } else {
        require_of(memcmp(&out, &untouched, sizeof out) == 0, "an output is touched", of->name);
    }
    if (status != MVT_REFUSED)
        require_of(memcmp(&fault, &told_nothing, sizeof fault) == 0, "a fault is told", of->name);
    require_of(allocator_blocks() == 0, "a block is left", of->name);
    return came;
}

/* The rows have one layer, of another version, with its bytes, and nothing else. */
static int are_bytes_alone(const mvt_tile *tile, const uint8_t *payload, size_t len) {
    const mvt_layer alone = {.version = 3, .bytes = {0, len}};
    return tile->layer_count == 1 && memcmp(tile->layers, &alone, sizeof alone) == 0 && tile->feature_count == 0 &&
           tile->key_count == 0 && tile->value_count == 0 && tile->tag_count == 0 && tile->part_count == 0 &&
           tile->point_count == 0 && tile->integer_count == 0 && tile->text_len == len &&
           memcmp(tile->texts, payload, len) == 0;
}

/* A layer of version 3 with 16 values, whose version stands neither first nor last: where a value finds no memory, the
 * rows are the same. */
static void refuse_values(void) {
    uint8_t bytes[74] = {0x1a, 72, 0x0a, 1, 'a'};
    size_t len = 5;
    for (uint8_t i = 1; i <= 16; ++i) {
        const uint8_t value[] = {0x22, 2, 0x28, i};
        memcpy(bytes + len, value, sizeof value);
        len += sizeof value;
    }
    memcpy(bytes + len, "\x78\x03\x1a\x01k", 5);
    for (unsigned long number = 1;; ++number) {
        mvt_tile tile;
        mvt_fault fault;
        allocator_blocks();
        begin(number);
        const uint32_t status = mvt_read(bytes, sizeof bytes, UINT64_MAX, &tile, &fault);
        const int came = allocator_refuse_none();
        require_of(status == MVT_OK || (came && status == MVT_NO_MEMORY), "the wrong status", "mvt_read of version 3");
        if (status == MVT_OK) {
            require_of(are_bytes_alone(&tile, bytes + 2, sizeof bytes - 2), "other rows", "mvt_read of version 3");
            mvt_tile_free(&tile);
        }
        require_of(allocator_blocks() == 0, "a block is left", "mvt_read of version 3");
        if (!came) return;
    }
}

static void refuse_each(const told_case *of) {
    for (size_t t = 0; of->len < 1000000 && t < sizeof TASKS / sizeof *TASKS; ++t) {
        unsigned long number = 1;
        while (refuse(&TASKS[t], of->tile, of->len, number)) ++number;
    }
}

static void each(void) { each_case(refuse_each); }

static const named_test TESTS[] = {{"a layer of another version", refuse_values}, {"each case", each}};

RUN_TESTS(TESTS)
