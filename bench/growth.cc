// Goes over tiles that are made to be dear, and over rows whose spans overlap, by the library for
// C: each at two sizes, by every call that reads or writes a tile.
//
//   bench/growth.sh
//
// Each run has a process of its own. Prints the time for the larger, and how many times that of the
// smaller it is, beside the ratio of the sizes: of the bytes, and of what overlaps the bytes of the
// rows. Then the dearest tiles of up to 64 MiB: the time of judging and of reading, and how much
// memory grew at most.
#include "hostile.hpp"
#include "mvt.h"
#include "run.hpp"

#include <cstdint>
#include <cstdio>
#include <cstdlib>
#include <string>
#include <vector>

struct Table {
    std::vector<mvt_layer> layers;
    std::vector<mvt_feature> features;
    std::vector<mvt_part> parts;
    std::vector<mvt_point> points;
    std::string texts;

    mvt_tile tile() const {
        mvt_tile tile{};
        tile.layers = layers.data(), tile.layer_count = layers.size();
        tile.features = features.data(), tile.feature_count = features.size();
        tile.parts = parts.data(), tile.part_count = parts.size();
        tile.points = points.data(), tile.point_count = points.size();
        tile.texts = reinterpret_cast<const std::uint8_t *>(texts.data()), tile.text_len = texts.size();
        return tile;
    }
};

static Run written(const mvt_tile &tile) {
    return run_apart([&] {
        mvt_bytes out{};
        return std::uint64_t{mvt_write(&tile, &out, NULL)} + 1;
    });
}

static Run judged(const mvt_tile &tile) {
    return run_apart([&] {
        mvt_rows_fault fault{};
        return std::uint64_t{mvt_judge_rows(&tile, &fault)} + 1;
    });
}

static const char *answer(const Run &run) { return mvt_status_text(static_cast<mvt_status>(run.answer - 1)); }

// A layer of so many features, each a line of all the points.
static Table same_points(std::size_t features, std::size_t points) {
    Table table;
    table.texts = "a";
    table.layers.push_back({});
    table.layers[0].version = 2, table.layers[0].extent = 4096;
    table.layers[0].name = {0, 1}, table.layers[0].features = {0, features};
    mvt_feature feature{};
    feature.kind = MVT_LINES, feature.parts = {0, 1};
    table.features.assign(features, feature);
    table.parts.push_back({0, {0, points}});
    for (std::size_t i = 0; i < points; ++i)
        table.points.push_back({static_cast<std::int32_t>(i % 2), static_cast<std::int32_t>(i)});
    return table;
}

// The same of features that each name all parts, which each name all points.
static Table same_parts(std::size_t features, std::size_t parts, std::size_t points) {
    Table table = same_points(features, points);
    table.parts.assign(parts, table.parts[0]);
    for (auto &feature : table.features) feature.parts = {0, parts};
    return table;
}

// So many layers, of which each is named by the end of one text.
static Table same_text(std::size_t layers, std::size_t length) {
    Table table;
    table.texts = std::string(length, 'x');
    for (std::size_t i = 0; i < layers; ++i) {
        mvt_layer layer{};
        layer.version = 2, layer.extent = 4096, layer.name = {i, length - i};
        table.layers.push_back(layer);
    }
    return table;
}

static double bytes_of(const Table &t) {
    return t.layers.size() * sizeof(mvt_layer) + t.features.size() * sizeof(mvt_feature) +
           t.parts.size() * sizeof(mvt_part) + t.points.size() * sizeof(mvt_point) + t.texts.size();
}

static void overlap(const char *name, const Table &less, const Table &more) {
    const Run w = written(less.tile()), w2 = written(more.tile()), j = judged(less.tile()), j2 = judged(more.tile());
    const double small = bytes_of(less), large = bytes_of(more);
    std::printf("| %s | %.2f, %.2f | %.1f | %.3f, %.1f | %s | %.0f | %.3f, %.1f | %s | %.0f |\n", name, small / 1e6,
                large / 1e6, large / small, w2.seconds, w2.seconds / w.seconds, answer(w2), w2.megabytes, j2.seconds,
                j2.seconds / j.seconds, answer(j2), j2.megabytes);
    std::fflush(stdout);
}

// What every call answers of a tile, in the order of the table. The first layer is extracted.
static std::vector<Run> runs_of(const std::string &tile) {
    const auto *bytes = reinterpret_cast<const std::uint8_t *>(tile.data());
    const auto len = tile.size();
    mvt_tile rows{};
    mvt_fault fault{};
    if (mvt_read(bytes, len, UINT64_MAX, &rows, &fault) != MVT_OK) std::exit(1);
    const mvt_bytes name{rows.texts + rows.layers[0].name.start, rows.layers[0].name.len};
    const std::vector<Run> runs{
        run_apart([&] {
            mvt_fault f;
            return std::uint64_t{mvt_judge(bytes, len, &f)} + 1;
        }),
        run_apart([&] {
            mvt_fault f;
            mvt_bytes out;
            return std::uint64_t{mvt_report(bytes, len, &out, &f)} + 1;
        }),
        run_apart([&] {
            mvt_fault f;
            mvt_bytes out;
            return std::uint64_t{mvt_rewrite(bytes, len, &out, &f)} + 1;
        }),
        run_apart([&] {
            mvt_fault f;
            mvt_bytes out;
            return std::uint64_t{mvt_extract(bytes, len, &name, 1, &out, &f, NULL)} + 1;
        }),
        run_apart([&] {
            mvt_fault f;
            mvt_tile out;
            return std::uint64_t{mvt_read(bytes, len, UINT64_MAX, &out, &f)} + 1;
        }),
        written(rows),
    };
    mvt_tile_free(&rows);
    return runs;
}

static void growth(const char *name, const std::string &small, const std::string &large) {
    const auto before = runs_of(small), after = runs_of(large);
    std::printf("| %s | %.2f, %.2f | %.1f |", name, small.size() / 1e6, large.size() / 1e6,
                1.0 * large.size() / small.size());
    for (std::size_t i = 0; i < before.size(); ++i) {
        if (after[i].answer == 1)
            std::printf(" %.3f, %.1f |", after[i].seconds, after[i].seconds / before[i].seconds);
        else
            std::printf(" %s |", answer(after[i]));
    }
    std::printf("\n");
    std::fflush(stdout);
}

static void tiles() {
    const auto front = forgetful_front();
    const std::string plain(24, 'a');
    const std::size_t less = 225'000, more = 900'000;
    std::printf("| Tile | Sizes, MB | Ratio | `mvt_judge`, s, times | `mvt_report` | `mvt_rewrite` | "
                "`mvt_extract` | `mvt_read` | `mvt_write` |\n"
                "|---|---|---|---|---|---|---|---|---|\n");
    for (const std::size_t count : {2, 30}) {
        for (const bool at_front : {false, true}) {
            const auto name =
                std::to_string(count) + " long texts named in turn, different at the " + (at_front ? "front" : "end");
            growth(name.c_str(), texts_in_turn(less, count, at_front, 1), texts_in_turn(more, count, at_front, 1));
        }
    }
    growth("2 long texts at 8 places each", texts_in_turn(less, 2, false, 8), texts_in_turn(more, 2, false, 8));
    growth("2 long keys named in turn", keys_in_turn(less, 2), keys_in_turn(more, 2));
    growth("30 long keys named in turn", keys_in_turn(less, 30), keys_in_turn(more, 30));
    growth("layers with names of 10,000 bytes", long_names(22, 10'000), long_names(90, 10'000));
    growth("features without fields", bare_features(250'000), bare_features(1'000'000));
    growth("layers without features", small_layers(50'000), small_layers(200'000));
    growth("lines of 2 points in one feature", many_strokes(2, 250'000, {9, 0, 0, 10, 4, 2}),
           many_strokes(2, 1'000'000, {9, 0, 0, 10, 4, 2}));
    growth("rings of 3 points in one feature", many_strokes(3, 150'000, {9, 0, 0, 18, 4, 0, 3, 4, 15}),
           many_strokes(3, 600'000, {9, 0, 0, 18, 4, 0, 3, 4, 15}));
    growth("keys that no feature names", unnamed_keys(250'000), unnamed_keys(1'000'000));
    growth("one feature of many tags", many_tags(125'000), many_tags(500'000));
    growth("one text that all features name", long_text(16'384, 2'500), long_text(65'536, 10'000));
    growth("keys in one feature", many_attributes(10'000, plain), many_attributes(40'000, plain));
    growth("keys of one hash in one feature", many_attributes(10'000, front), many_attributes(40'000, front));
    growth("layers", many_names(10'000, plain), many_names(40'000, plain));
    growth("layers whose names have one hash", many_names(10'000, front), many_names(40'000, front));
}

static void dear(const char *name, const std::string &tile) {
    const auto *bytes = reinterpret_cast<const std::uint8_t *>(tile.data());
    const auto size = tile.size() / 1e6;
    const auto judged = run_apart([&] {
        mvt_fault fault;
        return std::uint64_t{mvt_judge(bytes, tile.size(), &fault)} + 1;
    });
    const auto read = run_apart([&] {
        mvt_fault fault;
        mvt_tile out;
        return std::uint64_t{mvt_read(bytes, tile.size(), UINT64_MAX, &out, &fault)} + 1;
    });
    if (judged.answer != 1 || read.answer != 1) {
        std::printf("%s: %s\n", name, answer(read));
        std::exit(1);
    }
    std::printf("| %s | %.1f | %.3f | %.0f, %.1f | %.3f | %.0f, %.1f |\n", name, size, judged.seconds, judged.megabytes,
                judged.megabytes / size, read.seconds, read.megabytes, read.megabytes / size);
    std::fflush(stdout);
}

static void dearest() {
    const auto front = forgetful_front();
    std::printf("\n| Tile | Size, MB | `mvt_judge`, s | Peak, MB, times the size | `mvt_read`, s | Peak, MB, "
                "times the size |\n|---|---|---|---|---|---|\n");
    dear("33,554,000 features without fields", bare_features(33'554'000));
    dear("4,200,000 layers without features", small_layers(4'200'000));
    dear("11,180,000 lines of 2 points in one feature", many_strokes(2, 11'180'000, {9, 0, 0, 10, 4, 2}));
    dear("7,450,000 rings of 3 points in one feature", many_strokes(3, 7'450'000, {9, 0, 0, 18, 4, 0, 3, 4, 15}));
    dear("one feature of 10,000,000 tags", many_tags(5'000'000));
    dear("one text of 65,536 bytes in 10,000 features", long_text(65'536, 10'000));
    dear("40,000 keys of one hash in one feature", many_attributes(40'000, front));
    dear("40,000 layers whose names have one hash", many_names(40'000, front));
}

int main() {
    tiles();
    std::printf("\n| Rows | Sizes, MB | Ratio | `mvt_write`, s, times | Answer | Peak, MB | "
                "`mvt_judge_rows`, s, times | Answer | Peak, MB |\n"
                "|---|---|---|---|---|---|---|---|---|\n");
    overlap("features that name the same points", same_points(2'000, 8'000), same_points(8'000, 32'000));
    overlap("features that name the same parts, and these the same points", same_parts(500, 500, 500),
            same_parts(2'000, 2'000, 2'000));
    overlap("names of which each is the end of one text", same_text(2'000, 20'000), same_text(8'000, 80'000));
    dearest();
}
