/* A filter between a tile server and its clients: only tiles that keep every rule pass.
 *
 *     filter < tiles > good
 *
 * Each tile, uncompressed, follows its length: four bytes, the highest first. A good tile passes as it is. For a broken
 * one an empty tile passes, and a line on standard error says which it was and why. The server keeps one filter running,
 * and gets the answer for each tile at once. */
#include <mvt.h>

#include <inttypes.h>
#include <stdio.h>
#include <stdlib.h>

static void die(const char *why) {
    fprintf(stderr, "filter: %s\n", why);
    exit(1);
}

/* Takes the length before the next tile; 0 at the end. */
static int take_length(uint32_t *len) {
    uint8_t head[4];
    const size_t got = fread(head, 1, sizeof head, stdin);
    if (got == 0 && feof(stdin)) return 0;
    if (got != sizeof head) die("the input ends within a length");
    *len = (uint32_t)head[0] << 24 | (uint32_t)head[1] << 16 | (uint32_t)head[2] << 8 | head[3];
    return 1;
}

static void pass(const uint8_t *tile, uint32_t len) {
    const uint8_t head[4] = {len >> 24 & 255, len >> 16 & 255, len >> 8 & 255, len & 255};
    if (fwrite(head, 1, sizeof head, stdout) != sizeof head || fwrite(tile, 1, len, stdout) != len ||
        fflush(stdout) != 0)
        die("the output takes no more");
}

static void tell(uint64_t number, const mvt_fault *fault) {
    fprintf(stderr, "tile %" PRIu64 ": %.*s at %" PRIu64, number, (int)fault->name.len, (const char *)fault->name.data,
            fault->at);
    if (fault->layer >= 0) fprintf(stderr, " of layer %" PRId64, fault->layer);
    if (fault->feature >= 0) fprintf(stderr, ", feature %" PRId64, fault->feature);
    fputc('\n', stderr);
}

/* Whether the tile keeps every rule. */
static int is_good(const uint8_t *bytes, uint32_t len, uint64_t number) {
    mvt_fault fault;
    switch (mvt_judge(bytes, len, &fault)) {
    case MVT_OK: return 1;
    case MVT_REFUSED: tell(number, &fault); return 0;
    default: die("out of memory"); return 0;
    }
}

int main(void) {
    uint8_t *tile = malloc(MVT_LIMIT);
    if (tile == NULL) die("out of memory");
    uint32_t len;
    for (uint64_t number = 0; take_length(&len); ++number) {
        if (len > MVT_LIMIT) die(mvt_cause_text(MVT_CAUSE_TOO_LARGE));
        if (fread(tile, 1, len, stdin) != len) die("the input ends within a tile");
        pass(tile, is_good(tile, len, number) ? len : 0);
    }
    free(tile);
    return 0;
}
