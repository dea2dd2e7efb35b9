/* What each handle of mvt.h holds is given back, whenever it is freed: handles decoder|builder|tile|bytes. It is for valgrind,
 * which finds what is lost. With `forgetting` as a second word the last one isn't freed, which valgrind has to find. */
#include "tests.h"

/* The layer `a` with the point (25, 17). */
static const uint8_t TILE[] = {0x1A, 0x11, 0x78, 0x02, 0x0A, 0x01, 0x61, 0x12, 0x07, 0x18,
                               0x01, 0x22, 0x03, 0x09, 0x32, 0x22, 0x28, 0x80, 0x20};
/* The same without its version: a fault that shows once the layer has ended. */
static const uint8_t BROKEN[] = {0x1A, 0x03, 0x0A, 0x01, 0x61};

/* A decoder that took so many bytes of a tile. */
static mvt_decoder decoder_fed(const uint8_t *tile, size_t len, mvt_status wanted) {
    mvt_decoder decoder = {0};
    mvt_fault fault;
    require(mvt_decoder_new(&decoder, UINT64_MAX) == MVT_OK, "a decoder is made");
    mvt_status status = MVT_OK;
    for (size_t at = 0; at < len && status == MVT_OK; ++at) status = mvt_decoder_feed(&decoder, tile + at, 1, &fault);
    require(status == wanted, "what a decoder says of its bytes");
    return decoder;
}

static void decoders(int forgets) {
    mvt_decoder decoder = decoder_fed(TILE, 0, MVT_OK);
    mvt_decoder_free(&decoder);
    decoder = decoder_fed(TILE, 7, MVT_OK);
    mvt_decoder_free(&decoder);
    decoder = decoder_fed(BROKEN, sizeof BROKEN, MVT_REFUSED);
    mvt_decoder_free(&decoder);
    decoder = decoder_fed(TILE, sizeof TILE, MVT_OK);
    mvt_tile tile;
    mvt_fault fault;
    require(mvt_decoder_finish(&decoder, &tile, &fault) == MVT_OK && tile.point_count == 1, "a tile in pieces");
    mvt_decoder_free(&decoder);
    mvt_tile_free(&tile);
    decoder = decoder_fed(TILE, 3, MVT_OK);
    require(mvt_decoder_finish(&decoder, &tile, &fault) == MVT_REFUSED, "a tile that ends early");
    mvt_decoder_free(&decoder);
    decoder = decoder_fed(TILE, sizeof TILE, MVT_OK);
    if (forgets) memset(&decoder, 0, sizeof decoder);
    mvt_decoder_free(&decoder);
    require(decoder.held == NULL, "a freed decoder is none");
    mvt_decoder_free(&decoder);
}

/* A builder with a layer, a feature with a tag, and a point. */
static mvt_builder builder_begun(void) {
    mvt_builder builder = {0};
    mvt_builder_layer(&builder, mvt_text("a"), 4096);
    mvt_builder_feature(&builder, MVT_POINTS);
    mvt_builder_tag(&builder, mvt_text("key"), mvt_any_text(mvt_text("a text that needs memory of its own")));
    require(mvt_builder_point(&builder, 25, 17) == MVT_OK, "a builder is begun");
    return builder;
}

static void builders(int forgets) {
    mvt_builder builder = {0};
    mvt_tile rows;
    mvt_bytes out;
    mvt_rows_fault fault;
    mvt_builder_free(&builder);
    builder = builder_begun();
    mvt_builder_free(&builder);
    builder = builder_begun();
    require(mvt_builder_rows(&builder, &rows) == MVT_OK && rows.point_count == 1, "rows are lent");
    mvt_builder_free(&builder);
    builder = builder_begun();
    require(mvt_builder_line(&builder) == MVT_OUT_OF_TURN, "points have no line");
    mvt_builder_free(&builder);
    builder = builder_begun();
    require(mvt_builder_rows(&builder, &rows) == MVT_OK, "rows are lent");
    require(mvt_builder_finish(&builder, &out, &fault) == MVT_OK && out.len != 0, "a tile is built");
    mvt_bytes_free(&out);
    builder = builder_begun();
    mvt_builder_feature(&builder, MVT_LINES);
    mvt_builder_line(&builder);
    require(mvt_builder_finish(&builder, &out, &fault) == MVT_NO_TILE, "a line without points is no tile");
    mvt_builder_free(&builder);
    builder = builder_begun();
    if (forgets) memset(&builder, 0, sizeof builder);
    mvt_builder_free(&builder);
    require(builder.held == NULL, "a freed builder is none");
    mvt_builder_free(&builder);
}

static void tiles(int forgets) {
    mvt_tile tile;
    mvt_fault fault;
    require(mvt_read(NULL, 0, UINT64_MAX, &tile, &fault) == MVT_OK, "no bytes are a tile");
    mvt_tile_free(&tile);
    require(mvt_read_layer(TILE, sizeof TILE, mvt_text("a"), &tile, &fault) == MVT_OK, "one layer");
    mvt_tile_free(&tile);
    require(mvt_read(TILE, sizeof TILE, UINT64_MAX, &tile, &fault) == MVT_OK, "a tile");
    if (forgets) memset(&tile, 0, sizeof tile);
    mvt_tile_free(&tile);
    require(tile.layer_count == 0 && tile.layers == NULL, "a freed tile is empty");
    mvt_tile_free(&tile);
}

static void bytes(int forgets) {
    typedef mvt_status making(const uint8_t *, size_t, mvt_bytes *, mvt_fault *);
    making *const calls[] = {mvt_rewrite, mvt_json, mvt_svg, mvt_report, mvt_lint};
    mvt_bytes out, names = mvt_text("a");
    mvt_fault fault;
    for (size_t at = 0; at < sizeof calls / sizeof *calls; ++at) {
        require(calls[at](TILE, sizeof TILE, &out, &fault) == MVT_OK, "bytes are made");
        mvt_bytes_free(&out);
        require(calls[at](BROKEN, sizeof BROKEN, &out, &fault) == MVT_REFUSED, "no bytes are made");
    }
    require(mvt_extract(TILE, sizeof TILE, &names, 1, &out, &fault, NULL) == MVT_OK, "a layer is extracted");
    if (forgets) memset(&out, 0, sizeof out);
    mvt_bytes_free(&out);
    require(out.len == 0 && out.data == NULL, "freed bytes are none");
    mvt_bytes_free(&out);
}

int main(int argc, char **argv) {
    static const struct {
        const char *name;
        void (*test)(int forgets);
    } HANDLES[] = {{"decoder", decoders}, {"builder", builders}, {"tile", tiles}, {"bytes", bytes}};
    for (size_t at = 0; argc > 1 && at < sizeof HANDLES / sizeof *HANDLES; ++at) {
        if (strcmp(argv[1], HANDLES[at].name) != 0) continue;
        HANDLES[at].test(argc > 2);
        return 0;
    }
    return 2;
}
