/* mvt_mend on each case: a tile that is accepted comes rewritten and without changes; one that is mended is as `mvt mend` makes
 * it, with its changes, and is accepted and canonical then; and one that is refused tells mvt_judge's fault and why it isn't
 * mended, as `mvt mend` does, and touches nothing else. */
#include "tests.h"

#include <inttypes.h>
#include <stdbool.h>

/* Adds the line of a change, of 120 bytes at most, behind others. */
static size_t add_line(char *to, const mvt_change_row *row) {
    static const char *const names[] = {"",         "TurnedRing", "RepeatedPoint", "PartLeftOut", "FeatureLeftOut",
                                        "MovedRing"};
    bool counts = row->kind != MVT_CHANGE_TURNED_RING && row->kind != MVT_CHANGE_MOVED_RING;
    require(row->kind >= MVT_CHANGE_TURNED_RING && row->kind <= MVT_CHANGE_MOVED_RING, "the kind of a change");
    require((row->count != 0) == counts, "the count of a change");
    require(row->to == 0 || row->kind == MVT_CHANGE_MOVED_RING, "where a ring moved");
    char *end =
        to + sprintf(to, "layer %" PRIu64 " feature %" PRIu64 ": %s", row->layer, row->feature, names[row->kind]);
    if (row->kind != MVT_CHANGE_FEATURE_LEFT_OUT) end += sprintf(end, " %" PRIu64, row->part);
    if (counts) end += sprintf(end, " count %" PRIu64, row->count);
    if (row->kind == MVT_CHANGE_MOVED_RING) end += sprintf(end, " to %" PRIu64, row->to);
    *end = '\n';
    return (size_t)(end + 1 - to);
}

static void require_changes(const told_case *of, const mvt_mended *made) {
    char *lines = malloc(120 * made->change_count + 1), *wanted;
    size_t len = 0, wanted_len;
    for (size_t i = 0; i < made->change_count; ++i) len += add_line(lines + len, &made->changes[i]);
    wanted = case_text(of, "change", &wanted_len);
    require_bytes(lines, len, wanted, wanted_len, "the changes");
    free(wanted);
    free(lines);
}

static void mended(const told_case *of, const mvt_mended *made) {
    size_t len;
    uint8_t *wanted = case_bytes(of, case_has(of, "fault") ? "mended" : "canonical", &len);
    mvt_bytes again;
    mvt_fault fault;
    require_bytes(made->bytes.data, made->bytes.len, wanted, len, "the mended tile");
    require_changes(of, made);
    require((made->change_count == 0) == !case_has(of, "fault"),
            "a tile that keeps every rule has changes, or another has none");
    require(mvt_rewrite(made->bytes.data, made->bytes.len, &again, &fault) == MVT_OK, "what is mended is refused");
    require_bytes(made->bytes.data, made->bytes.len, again.data, again.len, "what is mended isn't canonical");
    mvt_bytes_free(&again);
    free(wanted);
}

/* What `mvt mend` says of a tile that it refuses, behind "mvt: not mended: ". */
static void require_why(const told_case *of, const mvt_unmended_row *why) {
    char line[200];
    size_t len = 0;
    char *wanted = case_text(of, "unmended", &len);
    if (why->kind == MVT_UNMENDED_RINGS_CROSS) {
        sprintf(line, "layer %" PRIu64 " feature %" PRIu64 ": rings %" PRIu64 " and %" PRIu64 " cross\n", why->layer,
                why->feature, why->ring, why->other);
    } else {
        const bool is_long = why->kind == MVT_UNMENDED_TOO_MANY_STEPS;
        require(is_long || why->kind == MVT_UNMENDED_ANOTHER_RULE, "the kind of a cause");
        require(why->layer == 0 && why->feature == 0 && why->ring == 0 && why->other == 0,
                "what a cause doesn't speak of");
        sprintf(line, is_long ? "rings take more than 1073741824 steps\n" : "another rule is broken\n");
    }
    require_bytes(line, strlen(line), wanted, len, "why it isn't mended");
    free(wanted);
}

static void look(const told_case *of) {
    mvt_mended made, untouched;
    mvt_unmended_row why, untold;
    memset(&untold, 0x5a, sizeof untold), why = untold;
    mvt_fault first, fault;
    memset(&untouched, 0x5a, sizeof untouched), made = untouched;
    const mvt_status judged = mvt_judge(of->tile, of->len, &first),
                     status = mvt_mend(of->tile, of->len, &made, &fault, &why);
    require((status == MVT_OK) == (!case_has(of, "fault") || case_has(of, "mended")), "whether a tile is mended");
    if (status == MVT_OK) {
        mended(of, &made);
        require(memcmp(&why, &untold, sizeof why) == 0, "a cause is told of a tile that is mended");
        mvt_mended_free(&made);
        require(made.bytes.data == NULL && made.changes == NULL && made.change_count == 0,
                "what was given back is still there");
        mvt_mended_free(&made);
        return;
    }
    require(status == MVT_REFUSED && judged == MVT_REFUSED, "the status of a tile that isn't mended");
    require(fault.layer == first.layer && fault.feature == first.feature && fault.at == first.at &&
                fault.cause == first.cause,
            "its fault");
    if (case_has(of, "unmended")) require_why(of, &why);
    require(memcmp(&made, &untouched, sizeof made) == 0, "an output that isn't due is touched");
    require(mvt_mend(of->tile, of->len, &made, &fault, NULL) == MVT_REFUSED, "the status, where nobody asks why");
}

static void each(void) { each_case(look); }
static void free_nothing(void) { mvt_mended_free(NULL); }

static const named_test TESTS[] = {{"nothing to give back", free_nothing}, {"each case", each}};

RUN_TESTS(TESTS)
