// Measures mvt_tile and mvt_message: reading a tile of 64 MiB whole and in pieces, and writing it,
// with protozero beside the reading.
//
//   bench/tile.sh
//
// Each run has a process of its own. Prints the best time of three rounds, and the largest growth
// of memory, in which the tile's bytes don't count. What is read isn't dropped. A tile is written
// four times over, after it was read: that is taken off the time, but not off the memory.
#include "layers.hpp"
#include "owned.hpp"
#include "run.hpp"

#include <cstdint>
#include <cstdio>
#include <string>
#include <vector>

extern "C" std::uint64_t mvt_decode(const unsigned char *bytes, std::size_t len, bool keeps);
extern "C" std::uint64_t mvt_feed(const unsigned char *bytes, std::size_t len, std::size_t piece);
extern "C" std::uint64_t mvt_write(const unsigned char *bytes, std::size_t len, std::uint32_t times);
extern "C" bool mvt_is_canonical(const unsigned char *bytes, std::size_t len);
extern "C" std::uint64_t mvt_read_item(const unsigned char *payload, std::size_t len);

static constexpr std::uint32_t times = 4;

// The rows of one tile that has so many layers and features.
static void rows(const char *name, const std::string &tile, std::uint64_t parts) {
    const auto *bytes = reinterpret_cast<const unsigned char *>(tile.data());
    const auto len = tile.size();
    const auto expected = parts + 1;
    if (run_apart([&] { return mvt_is_canonical(bytes, len); }).answer != 1) {
        std::printf("%s: what is written isn't what was read\n", name);
        std::exit(1);
    }
    const std::vector<Work> works{
        {"`decode`", expected, [&] { return mvt_decode(bytes, len, true); }},
        {"`write_tile`", expected, [&] { return mvt_write(bytes, len, times); }},
        {"`decode`, and the tile dropped", expected, [&] { return mvt_decode(bytes, len, false); }},
        {"`feed` of 1 byte", expected, [&] { return mvt_feed(bytes, len, 1); }},
        {"`feed` of 4,096 bytes", expected, [&] { return mvt_feed(bytes, len, 4096); }},
        {"`feed` of all bytes", expected, [&] { return mvt_feed(bytes, len, len); }},
        {"protozero into values", expected,
         [&] { return owned::count(*new std::vector<owned::Layer>(owned::tile_of(tile))); }},
    };
    auto best = best_apart(works);
    best[1].seconds = (best[1].seconds - best[0].seconds) / times;
    for (std::size_t i = 0; i < works.size(); ++i) line_of(name, works[i].name, best[i].seconds, best[i].megabytes);
}

int main() {
    table_head();
    rows("8 lines of 4,190,000 points", big_features(), 9);
    rows("1,000,000 layers", many_layers(), 2'000'000);
    rows("1,000,000 features", tile_of(many_features(1'000'000)), 1'000'001);
    rows("500,000 features, texts above 30 bytes", tile_of(long_texts(500'000)), 500'001);
    const auto payload = many_features(100'000);
    const std::vector<Work> works{
        {"`read_item`", 100'001,
         [&] { return mvt_read_item(reinterpret_cast<const unsigned char *>(payload.data()), payload.size()); }}};
    const auto best = best_apart(works);
    line_of("100,000 features", works[0].name, best[0].seconds, best[0].megabytes);
}
