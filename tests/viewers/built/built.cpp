// The tile of tests/viewers/built, by the builder of C++.
#include <mvt.hpp>

#include <array>
#include <iostream>

namespace {

void water(mvt::builder &to) {
    constexpr std::array<mvt_point, 4> shore{{{512, 512}, {3584, 512}, {3584, 3584}, {512, 3584}}};
    constexpr std::array<mvt_point, 4> island{{{1536, 1536}, {1536, 2560}, {2560, 2560}, {2560, 1536}}};
    to.layer("water").feature(MVT_POLYGONS, 1).tag("name", "Mill Pond").tag("salt", false);
    to.ring(true).points(shore).ring(false).points(island);
}

void roads(mvt::builder &to) {
    to.layer("roads").feature(MVT_LINES, 2).tag("lanes", 2).tag("level", -1).tag("width", 7.5F);
    to.line().point(0, 256).point(4096, 256);
    to.line().point(0, 3840).point(2048, 3968).point(4096, 3840);
}

void places(mvt::builder &to) {
    to.layer("places", 512).feature(MVT_POINTS).tag("height", 3.25).point(128, 128).point(384, 256);
}

} // namespace

int main() {
    mvt::builder builder;
    water(builder);
    roads(builder);
    places(builder);
    const mvt::bytes tile = builder.finish();
    std::cout.write(reinterpret_cast<const char *>(tile.data()), static_cast<std::streamsize>(tile.size()));
    return std::cout.flush() ? 0 : 1;
}
