/* mvt_around on each case, with its fault and with made-up ones: what is told lies in the bytes, in order, and agrees with
 * mvt_locate. */
#define _DEFAULT_SOURCE
#include "tests.h"

#include <sys/resource.h>
#include <sys/wait.h>
#include <unistd.h>

static void within(const mvt_bounds *of, uint64_t start, uint64_t end) {
    require(start <= of->start && of->start <= of->body && of->body <= of->end && of->end <= end,
            "the bounds of a field");
}

static void integers(const mvt_integer *of, size_t count, const mvt_bounds *feature) {
    uint64_t last = feature->body;
    for (size_t i = 0; i < count; ++i) {
        require(last <= of[i].start && of[i].start < of[i].end && of[i].end <= feature->end, "the bytes of an integer");
        last = of[i].end;
    }
}

/* The cursor moves by a parameter alone, and only a pair adds a point. */
static void steps(const mvt_surroundings *around) {
    int64_t x = 0, y = 0;
    int is_drawn = 1;
    require(around->step_count == around->geometry_count, "a step for each integer");
    for (size_t i = 0; i < around->step_count; ++i) {
        const mvt_step *step = &around->steps[i];
        const uint64_t value = around->geometry[i].value;
        const int64_t by = (int64_t)(value >> 1) ^ -(int64_t)(value & 1);
        switch (step->role) {
        case MVT_ROLE_NOTHING: is_drawn = 0; break;
        case MVT_ROLE_MOVE_X:
        case MVT_ROLE_LINE_X: x += by; break;
        case MVT_ROLE_MOVE_Y:
        case MVT_ROLE_LINE_Y: y += by; break;
        case MVT_ROLE_CLOSE_PATH: require(step->left == 0, "what follows a ClosePath"); /* fallthrough */
        default: require(step->role == (value & 7), "the number of a command");
        }
        require(is_drawn == (step->role != MVT_ROLE_NOTHING) && step->x == x && step->y == y,
                "where the cursor stands");
    }
}

static void fields(const mvt_surroundings *around) {
    uint64_t last = around->message.body;
    for (size_t i = 0; i < around->field_count; ++i) {
        const mvt_field *field = &around->fields[i];
        require(field->number != 0 && (field->wire_type < 3 || field->wire_type == 5),
                "the number and wire type of a field");
        require(field->bounds.start == last, "a field behind the other");
        within(&field->bounds, last, around->message.end);
        last = field->bounds.end;
    }
}

/* The integer of a fault that counts integers stands at its place. */
static void fault_in(const mvt_surroundings *around, const mvt_fault *fault) {
    const mvt_integer *list = around->list == 2 ? around->tags : around->geometry;
    const size_t count = around->list == 2 ? around->tag_count : around->geometry_count;
    if (around->list == 0 || fault->at >= count || !around->has_feature || fault->cause == MVT_CAUSE_ODD_TAGS ||
        fault->cause == MVT_CAUSE_ENDS_EARLY)
        return;
    require(list[fault->at].start == around->place.start && list[fault->at].end == around->place.end,
            "the integer of a fault");
}

static void look(const uint8_t *bytes, size_t len, const mvt_fault *fault) {
    mvt_surroundings around;
    mvt_place place;
    require(mvt_around(bytes, len, fault, &around) == MVT_OK, "a call with memory");
    mvt_locate(bytes, len, fault, &place);
    require(around.place.start == place.start && around.place.end == place.end &&
                around.place.feature_id == place.feature_id && around.place.has_layer_name == place.has_layer_name &&
                around.place.layer_name.data == place.layer_name.data,
            "the place of mvt_locate");
    require(around.has_layer || (around.layer.end == 0 && !around.has_extent && around.key_count == 0), "no layer");
    require(around.has_feature ||
                (around.feature.end == 0 && !around.has_kind && around.tag_count + around.geometry_count == 0),
            "no feature");
    require(around.has_layer || !around.has_feature, "a feature without a layer");
    within(&around.layer, 0, len);
    within(&around.message, 0, len);
    if (around.has_feature) within(&around.feature, around.layer.body, around.layer.end);
    for (size_t i = 0; i < around.key_count; ++i) within(&around.keys[i], around.layer.body, around.layer.end);
    integers(around.tags, around.tag_count, &around.feature);
    integers(around.geometry, around.geometry_count, &around.feature);
    steps(&around);
    fields(&around);
    fault_in(&around, fault);
    mvt_surroundings_free(&around);
    require(around.keys == NULL && around.steps == NULL && around.field_count == 0,
            "what was given back is still there");
    mvt_surroundings_free(&around);
}

static void look_into(const told_case *of) {
    mvt_fault fault;
    if (mvt_judge(of->tile, of->len, &fault) == MVT_REFUSED) look(of->tile, of->len, &fault);
    for (uint32_t cause = 0; of->len < 100000 && cause < 28; ++cause) {
        const uint64_t at = of->len == 0 ? 0 : cause * 7 % of->len;
        const mvt_fault made_up = {(int64_t)(cause % 3) - 1, (int64_t)(cause % 4) - 1, at, cause, {NULL, 0}};
        look(of->tile, of->len, &made_up);
    }
}

static void each(void) { each_case(look_into); }

/* A polygon whose first ring goes the wrong way round. */
static void example(void) {
    static const uint8_t bytes[] =
        "\x1a\x16\x78\x02\x0a\x01\x61\x12\x0f\x08\x07\x18\x03\x22\x09\x09\x04\x04\x12\x00\x04\x04\x00\x0f";
    const mvt_fault fault = {0, 0, 8, MVT_CAUSE_FIRST_RING, {NULL, 0}};
    mvt_surroundings around;
    require(mvt_around(bytes, 24, &fault, &around) == MVT_OK && around.list == 4 && around.kind == 3, "an example");
    require(around.geometry_count == 9 && around.geometry[8].start == 23 && around.steps[8].role == MVT_ROLE_CLOSE_PATH,
            "the integers of the example");
    require(around.steps[5].x == 2 && around.steps[5].y == 4 && around.steps[7].x == 4 && around.steps[7].y == 4,
            "its points");
    require(around.field_count == 3 && around.fields[2].number == 4 && around.fields[2].bounds.body == 15,
            "its fields");
    mvt_surroundings_free(&around);
}

/* The most bytes of this process that were in memory. */
static size_t peak(void) {
    struct rusage used;
    getrusage(RUSAGE_SELF, &used);
    return (size_t)used.ru_maxrss * 1024;
}

/* A layer of fields of two bytes each, or with a feature of one field that has bytes alone, takes at most so many times its
 * bytes, as mvt.h says. A field of that many bytes has a tag and a length of five bytes. */
static void bounded(uint8_t field, uint32_t cause) {
    enum { BYTES = 1 << 22 };
    const uint8_t heads[][6] = {
        {0x1a, 0x8c, 0x80, 0x80, 0x82, 0}, {0x12, 0x86, 0x80, 0x80, 0x82, 0}, {field, 0x80, 0x80, 0x80, 0x82, 0}};
    uint8_t *bytes = calloc(BYTES + sizeof heads, 1);
    memcpy(bytes, heads, sizeof heads);
    const int is_in_feature = cause != MVT_CAUSE_TRUNCATED;
    for (size_t i = 6; !is_in_feature && i + 1 < BYTES + sizeof heads; i += 2) bytes[i] = field, bytes[i + 1] = 0;
    const mvt_fault fault = {0, is_in_feature ? 0 : -1, is_in_feature ? 1 : 6, cause, {NULL, 0}};
    mvt_surroundings around;
    const size_t before = peak();
    require(mvt_around(bytes, BYTES + sizeof heads, &fault, &around) == MVT_OK, "a call with memory");
    require((is_in_feature ? around.tag_count + around.geometry_count : around.field_count) >= BYTES / 2, "all of it");
    const double times = (double)(peak() - before) / BYTES;
    if (getenv("TELL") || times > 76) fprintf(stderr, "field %u takes %.1f times its bytes\n", field >> 3, times);
    require(times <= 76, "the memory that mvt.h says");
    mvt_surroundings_free(&around);
    free(bytes);
}

/* Each in a process of its own, whose peak is then its own too. */
static void take_memory(void) {
    static const struct {
        uint8_t field;
        uint32_t cause;
    } ROWS[] = {{0x12, MVT_CAUSE_KEY_INDEX}, {0x1a, MVT_CAUSE_TRUNCATED}, {0x22, MVT_CAUSE_COMMAND}};
    for (size_t i = 0; i < sizeof ROWS / sizeof *ROWS; ++i) {
        int status = 1;
        if (fork() == 0) {
            bounded(ROWS[i].field, ROWS[i].cause);
            exit(0);
        }
        require(wait(&status) > 0 && status == 0, "what it takes of memory");
    }
}

static void look_nowhere(void) {
    const mvt_fault nowhere = {5, 5, UINT64_MAX, 99, {NULL, 0}};
    look(NULL, 0, &nowhere);
    mvt_surroundings_free(NULL);
}

static const named_test TESTS[] = {
    {"no bytes", look_nowhere},
    {"a polygon", example},
    {"each case", each},
    {"the memory that mvt.h says", take_memory},
};

RUN_TESTS(TESTS)
