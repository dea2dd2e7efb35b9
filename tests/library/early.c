/* What is refused early: a feature's tags are looked at where its integers were accepted, and the first wrong pair ends
 * that. So a call asks for little memory where many tags stand behind broken integers, and where the first of an odd
 * number of tags names no key, changing a tile asks for no more than judging it. Nor is a key copied to judge it, however
 * long it is. It is linked with tests/allocator. */
#include "allocator.h"
#include "tests.h"

enum { TAGS = 1 << 22, LITTLE = 1 << 16 };

static uint8_t *put_bytes(uint8_t *at, uint8_t tag, const uint8_t *bytes, size_t len) {
    *at = tag;
    at = put_varint(at + 1, len);
    memcpy(at, bytes, len);
    return at + len;
}

/* A tile of layer `a`, with the key `k` and a value, in front of its feature or behind it: a point of these integers,
 * with so many tags behind them, the first of which is this one and the others 0. */
static size_t tile_of(uint8_t *tile, int is_behind, const char *integers, uint8_t first, size_t tags) {
    static const uint8_t entries[] = {0x1a, 1, 'k', 0x22, 2, 0x28, 1};
    uint8_t *list = calloc(tags, 1), *feature = malloc(tags + 32), *layer = malloc(tags + 64);
    if (list == NULL || feature == NULL || layer == NULL) exit(2);
    list[0] = first;
    memcpy(feature, "\x18\x01", 2);
    uint8_t *end = put_bytes(feature + 2, 0x22, (const uint8_t *)integers, strlen(integers));
    end = put_bytes(end, 0x12, list, tags);
    memcpy(layer,
           "\x78\x02\x0a\x01"
           "a",
           5);
    uint8_t *last = layer + 5;
    if (!is_behind) memcpy(last, entries, sizeof entries), last += sizeof entries;
    last = put_bytes(last, 0x12, feature, (size_t)(end - feature));
    if (is_behind) memcpy(last, entries, sizeof entries), last += sizeof entries;
    memcpy(last, "\x28\x80\x20", 3);
    const size_t len = (size_t)(put_bytes(tile, 0x1a, layer, (size_t)(last + 3 - layer)) - tile);
    free(list), free(feature), free(layer);
    return len;
}

static uint32_t judge(const uint8_t *b, size_t n, mvt_fault *f) { return mvt_judge(b, n, f); }
static uint32_t rewrite(const uint8_t *b, size_t n, mvt_fault *f) {
    mvt_bytes out;
    return mvt_rewrite(b, n, &out, f);
}
static uint32_t extract(const uint8_t *b, size_t n, mvt_fault *f) {
    const mvt_bytes names[] = {{(const uint8_t *)"a", 1}};
    mvt_bytes out;
    return mvt_extract(b, n, names, 1, &out, f, NULL);
}

/* A canonical tile of layer `a`, whose one key has so many bytes. */
static size_t tile_of_key(uint8_t *tile, size_t bytes) {
    static const uint8_t feature[] = {0x12, 2, 0, 0, 0x18, 1, 0x22, 3, 9, 2, 2};
    uint8_t *key = malloc(bytes), *layer = malloc(bytes + 64);
    if (key == NULL || layer == NULL) exit(2);
    memset(key, 'k', bytes);
    memcpy(layer,
           "\x78\x02\x0a\x01"
           "a",
           5);
    uint8_t *last = put_bytes(layer + 5, 0x12, feature, sizeof feature);
    last = put_bytes(last, 0x1a, key, bytes);
    memcpy(last, "\x22\x02\x28\x01\x28\x80\x20", 7);
    const size_t len = (size_t)(put_bytes(tile, 0x1a, layer, (size_t)(last + 7 - layer)) - tile);
    free(key), free(layer);
    return len;
}

/* How many bytes a call asks for, which answers this of a tile. */
static size_t asked_by(uint32_t (*call)(const uint8_t *, size_t, mvt_fault *), const uint8_t *tile, size_t len,
                       uint32_t answer) {
    mvt_fault fault;
    allocator_refuse_after(-1);
    allocator_asked_bytes();
    if (call(tile, len, &fault) != answer) {
        fprintf(stderr, "broken: a tile isn't answered by %u\n", (unsigned)answer);
        exit(1);
    }
    return allocator_asked_bytes();
}

static void require_at_most(size_t most, size_t bytes, const char *what) {
    if (bytes <= most) return;
    fprintf(stderr, "broken: %s: %zu bytes are asked for, and %zu at most were to be\n", what, bytes, most);
    exit(1);
}

int main(void) {
    static uint8_t tile[TAGS + 256];
    for (int is_behind = 0; is_behind < 2; ++is_behind) {
        size_t len = tile_of(tile, is_behind, "\x09\x02\x80", 0, TAGS);
        require_at_most(LITTLE, asked_by(judge, tile, len, MVT_REFUSED), "mvt_judge of broken integers");
        /* A layer that may be made anew has room for its bytes. */
        require_at_most(len + LITTLE, asked_by(rewrite, tile, len, MVT_REFUSED), "mvt_rewrite of broken integers");
        require_at_most(len + LITTLE, asked_by(extract, tile, len, MVT_REFUSED), "mvt_extract of broken integers");
        len = tile_of(tile, is_behind, "\x09\x02\x02", 7, TAGS - 1);
        const size_t most = asked_by(judge, tile, len, MVT_REFUSED) + len + LITTLE;
        require_at_most(most, asked_by(rewrite, tile, len, MVT_REFUSED), "mvt_rewrite of odd tags");
        require_at_most(most, asked_by(extract, tile, len, MVT_REFUSED), "mvt_extract of odd tags");
    }
    require_at_most(LITTLE, asked_by(judge, tile, tile_of_key(tile, TAGS), MVT_OK), "mvt_judge of a long key");
    return 0;
}
