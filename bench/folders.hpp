// Folders of real tiles, and the best time of several rounds over them.
#pragma once

#include <algorithm>
#include <chrono>
#include <cstdint>
#include <filesystem>
#include <fstream>
#include <functional>
#include <iterator>
#include <string>
#include <utility>
#include <vector>

namespace folders {

namespace fs = std::filesystem;
using Tiles = std::vector<std::string>;

inline const unsigned char *bytes_of(const std::string &tile) {
    return reinterpret_cast<const unsigned char *>(tile.data());
}

// The folders in a folder, in order.
inline std::vector<fs::path> in(const fs::path &folder) {
    std::vector<fs::path> found;
    for (const auto &entry : fs::directory_iterator(folder)) {
        if (entry.is_directory()) found.push_back(entry.path());
    }
    std::sort(found.begin(), found.end());
    return found;
}

// The tiles of a folder and the folders below it that are accepted, and how many aren't.
inline std::pair<Tiles, std::size_t> tiles_in(const fs::path &folder,
                                              const std::function<bool(const std::string &)> &accepts) {
    std::pair<Tiles, std::size_t> found;
    for (const auto &entry : fs::recursive_directory_iterator(folder)) {
        const auto ending = entry.path().extension();
        if (!entry.is_regular_file() || (ending != ".mvt" && ending != ".pbf")) continue;
        std::ifstream file(entry.path(), std::ios::binary);
        std::string tile{std::istreambuf_iterator<char>(file), std::istreambuf_iterator<char>()};
        if (accepts(tile))
            found.first.push_back(std::move(tile));
        else
            ++found.second;
    }
    return found;
}

inline double bytes_in(const Tiles &tiles) {
    double size = 0;
    for (const auto &tile : tiles) size += static_cast<double>(tile.size());
    return size;
}

using Work = std::function<std::uint64_t(const std::string &)>;

inline double seconds_of(const Work &work, const Tiles &tiles) {
    static volatile std::uint64_t kept;
    std::uint64_t sum = 0;
    const auto start = std::chrono::steady_clock::now();
    for (const auto &tile : tiles) sum += work(tile);
    const auto end = std::chrono::steady_clock::now();
    kept = sum;
    return std::chrono::duration<double>(end - start).count();
}

// The best time of each work over the tiles. A round goes over all works in turn.
inline std::vector<double> best_of(const std::vector<Work> &works, const Tiles &tiles) {
    std::vector<double> seconds(works.size(), 1e9);
    for (int round = 0; round < 9; ++round) {
        for (std::size_t i = 0; i < works.size(); ++i) seconds[i] = std::min(seconds[i], seconds_of(works[i], tiles));
    }
    return seconds;
}

} // namespace folders
