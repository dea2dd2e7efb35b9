/* The tile of tests/viewers/built, by the builder of C. */
#include <mvt.h>
#include <stdio.h>

static void water(mvt_builder *to) {
    static const mvt_point shore[] = {{512, 512}, {3584, 512}, {3584, 3584}, {512, 3584}};
    static const mvt_point island[] = {{1536, 1536}, {1536, 2560}, {2560, 2560}, {2560, 1536}};
    mvt_builder_layer(to, mvt_text("water"), 4096);
    mvt_builder_feature(to, MVT_POLYGONS);
    mvt_builder_id(to, 1);
    mvt_builder_tag(to, mvt_text("name"), mvt_any_text(mvt_text("Mill Pond")));
    mvt_builder_tag(to, mvt_text("salt"), mvt_any_bool(0));
    mvt_builder_ring(to, 1);
    mvt_builder_points(to, shore, 4);
    mvt_builder_ring(to, 0);
    mvt_builder_points(to, island, 4);
}

static void roads(mvt_builder *to) {
    static const mvt_point straight[] = {{0, 256}, {4096, 256}}, bent[] = {{0, 3840}, {2048, 3968}, {4096, 3840}};
    mvt_builder_layer(to, mvt_text("roads"), 4096);
    mvt_builder_feature(to, MVT_LINES);
    mvt_builder_id(to, 2);
    mvt_builder_tag(to, mvt_text("lanes"), mvt_any_uint(2));
    mvt_builder_tag(to, mvt_text("level"), mvt_any_sint(-1));
    mvt_builder_tag(to, mvt_text("width"), mvt_any_float(7.5F));
    mvt_builder_line(to);
    mvt_builder_points(to, straight, 2);
    mvt_builder_line(to);
    mvt_builder_points(to, bent, 3);
}

static void places(mvt_builder *to) {
    mvt_builder_layer(to, mvt_text("places"), 512);
    mvt_builder_feature(to, MVT_POINTS);
    mvt_builder_tag(to, mvt_text("height"), mvt_any_double(3.25));
    mvt_builder_point(to, 128, 128);
    mvt_builder_point(to, 384, 256);
}

int main(void) {
    mvt_builder builder = {0};
    mvt_bytes tile;
    mvt_rows_fault fault;
    water(&builder);
    roads(&builder);
    places(&builder);
    if (mvt_builder_finish(&builder, &tile, &fault) != MVT_OK) return 1;
    const int failed = fwrite(tile.data, 1, tile.len, stdout) != tile.len || fflush(stdout) != 0;
    mvt_bytes_free(&tile);
    return failed;
}
