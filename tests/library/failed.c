/* A decoder that failed behind the points of a feature keeps no memory for them: it has no more than one that failed
 * before the first of them, whatever it failed for, while the feature has no row. It is linked with tests/allocator. */
#include "allocator.h"
#include "tests.h"

enum { STEPS = 50000, LEN = 28 + 2 * STEPS, SLACK = 1024 };

static unsigned long refused; /* the allocation that is refused, from 1 */

/* Layer `a` with a line of so many steps of one byte each way; answers where the steps begin. */
static size_t line(uint8_t *tile, size_t *len) {
    uint8_t integers[16], feature[16], *end = integers, *front = feature;
    memcpy(end, "\x09\x00\x00", 3);
    end = put_varint(end + 3, (STEPS << 3) | 2);
    const uint32_t drawn = (uint32_t)(end - integers) + 2 * STEPS;
    memcpy(front, "\x18\x02\x22", 3);
    front = put_varint(front + 3, drawn);
    const uint32_t whole = (uint32_t)(front - feature) + drawn;
    uint8_t size[8], *after = put_varint(size, whole), *at = tile;
    *at++ = 0x1A;
    at = put_varint(at, 6 + (uint32_t)(after - size) + whole);
    memcpy(at, "\x78\x02\x0A\x01\x61\x12", 6);
    at = put_varint(at + 6, whole);
    memcpy(at, feature, (size_t)(front - feature));
    at += front - feature;
    memcpy(at, integers, (size_t)(end - integers));
    at += end - integers;
    memset(at, 2, 2 * STEPS);
    *len = (size_t)(at - tile) + 2 * STEPS;
    return (size_t)(at - tile);
}

/* The bytes that a decoder has when it was fed, which has to answer this, or, where the allocation `refused` comes, that it
 * is out of memory. */
static long held(const uint8_t *tile, size_t len, uint32_t wanted, int *came) {
    mvt_decoder decoder = {0};
    mvt_fault fault = {0};
    allocator_bytes();
    allocator_refuse_after((long)refused - 1);
    uint32_t status = mvt_decoder_new(&decoder, UINT64_MAX);
    if (status == MVT_OK) status = mvt_decoder_feed(&decoder, tile, len, &fault);
    *came = allocator_refuse_none();
    const long bytes = allocator_bytes();
    require(status == (*came ? MVT_NO_MEMORY : wanted), "the status");
    mvt_decoder_free(&decoder);
    require(bytes + allocator_bytes() == 0, "a block is left");
    return bytes;
}

int main(void) {
    static uint8_t tile[LEN];
    size_t len;
    int came;
    const size_t steps = line(tile, &len);
    tile[steps] = tile[steps + 1] = 0;
    const long least = held(tile, len, MVT_REFUSED, &came);
    memset(tile + steps, 2, 2);
    tile[len - 1] = tile[len - 2] = 0;
    require(held(tile, len, MVT_REFUSED, &came) <= least + SLACK, "behind a fault points are kept");
    memset(tile + len - 2, 2, 2);
    /* The layer's row and its name come behind the feature's row, which has the points then. */
    int kept = 0;
    do {
        ++refused;
        const long bytes = held(tile, len, MVT_OK, &came);
        if (came && bytes > least + SLACK) ++kept;
        require(kept <= 2, "behind a refusal points are kept");
    } while (came);
    printf("%lu runs, at most %ld bytes\n", refused, least);
    return 0;
}
