// Measures the library for C over folders of real tiles, beside protozero and the classes that
// protoc makes, in one process. Tiles that the library refuses are left out for all.
//
//   bench/library.sh FOLDER
//
// Rounds go over all rows of a folder in turn, and the best time of each row counts.
#include "folders.hpp"
#include "mvt.h"
#include "owned.hpp"
#include "vector_tile.pb.h"
#include "walk.hpp"

#include <cstdint>
#include <cstdio>
#include <string>

using folders::bytes_of;

static std::uint64_t judged(const std::string &tile) {
    mvt_fault fault;
    return mvt_judge(bytes_of(tile), tile.size(), &fault) == MVT_OK;
}

// How many layers and features there are, and 1. The rows are given back.
static std::uint64_t read(const std::string &tile) {
    mvt_tile rows;
    mvt_fault fault;
    if (mvt_read(bytes_of(tile), tile.size(), UINT64_MAX, &rows, &fault) != MVT_OK) return 0;
    const std::uint64_t sum = 1 + rows.layer_count + rows.feature_count;
    mvt_tile_free(&rows);
    return sum;
}

// How many canonical bytes a tile has. They are given back.
static std::uint64_t rewritten(const std::string &tile) {
    mvt_bytes bytes;
    mvt_fault fault;
    if (mvt_rewrite(bytes_of(tile), tile.size(), &bytes, &fault) != MVT_OK) return 0;
    const std::uint64_t size = bytes.len;
    mvt_bytes_free(&bytes);
    return size;
}

static std::uint64_t reserialized(const std::string &bytes) {
    ::Tile tile;
    if (!tile.ParseFromString(bytes)) throw walk::Invalid{};
    return tile.SerializeAsString().size();
}

static const std::vector<folders::Work> works{
    read,      [](const std::string &t) { return owned::count(owned::tile_of(t)); },
    judged,    [](const std::string &t) { return walk::judge(t); },
    rewritten, reserialized,
};

static void row(const folders::fs::path &folder) {
    const auto [tiles, refused] = folders::tiles_in(folder, judged);
    if (tiles.empty()) return;
    const double size = folders::bytes_in(tiles);
    const auto seconds = folders::best_of(works, tiles);
    const auto speed = [&](double time) { return size / time / 1e6; };
    std::printf("| %s | %zu, %zu | %.1f | %.0f | %.0f | %.2f | %.0f | %.0f | %.2f | %.0f | %.0f | %.2f |\n",
                folder.filename().c_str(), tiles.size(), refused, size / 1e6, speed(seconds[0]), speed(seconds[1]),
                seconds[1] / seconds[0], speed(seconds[2]), speed(seconds[3]), seconds[3] / seconds[2],
                speed(seconds[4]), speed(seconds[5]), seconds[5] / seconds[4]);
    std::fflush(stdout);
}

int main(int argc, char **argv) {
    if (argc != 2) return 2;
    std::printf("| Folder | Tiles, refused | MB | `mvt_read`, MB/s | protozero into values | Speed | "
                "`mvt_judge` | protozero, judged | Speed | `mvt_rewrite` | protoc, parse and serialize | "
                "Speed |\n"
                "|---|---|---|---|---|---|---|---|---|---|---|---|\n");
    for (const auto &folder : folders::in(argv[1])) row(folder);
}
