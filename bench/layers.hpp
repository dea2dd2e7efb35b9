// Tiles to measure with, in their canonical bytes.
#pragma once

#include <cstdint>
#include <cstdio>
#include <cstdlib>
#include <cstring>
#include <random>
#include <string>
#include <unordered_map>
#include <utility>
#include <vector>

inline void put_varint(std::string &out, std::uint64_t n) {
    while (n >= 128) {
        out.push_back(static_cast<char>(n | 128));
        n >>= 7;
    }
    out.push_back(static_cast<char>(n));
}

inline void put_number(std::string &out, std::uint32_t field, std::uint64_t n) {
    put_varint(out, field << 3);
    put_varint(out, n);
}

inline void put_bytes(std::string &out, std::uint32_t field, const std::string &bytes) {
    put_varint(out, field << 3 | 2);
    put_varint(out, bytes.size());
    out += bytes;
}

inline std::string packed(const std::vector<std::uint32_t> &numbers) {
    std::string out;
    for (const auto number : numbers) put_varint(out, number);
    return out;
}

inline std::string text_value(const std::string &text) {
    std::string out;
    put_bytes(out, 1, text);
    return out;
}

inline std::string double_value(double number) {
    std::string out(9, static_cast<char>(3 << 3 | 1));
    std::memcpy(out.data() + 1, &number, sizeof number);
    return out;
}

inline std::string uint_value(std::uint64_t number) {
    std::string out;
    put_number(out, 5, number);
    return out;
}

// Keys or payloads of values, in order of their first use.
struct Pool {
    std::unordered_map<std::string, std::uint32_t> places;
    std::string fields;

    std::uint32_t place(std::uint32_t field, const std::string &entry) {
        const auto [found, is_new] = places.emplace(entry, places.size());
        if (is_new) put_bytes(fields, field, entry);
        return found->second;
    }
};

using Attributes = std::vector<std::pair<std::string, std::string>>;

// The payload of a layer, as its features are added.
class Layer {
    std::string payload;
    Pool keys, values;

public:
    explicit Layer(const std::string &name) {
        put_number(payload, 15, 2);
        put_bytes(payload, 1, name);
    }

    void add(const std::uint64_t *id, const Attributes &attributes, std::uint32_t kind,
             const std::vector<std::uint32_t> &geometry) {
        std::string feature;
        if (id) put_number(feature, 1, *id);
        std::vector<std::uint32_t> tags;
        for (const auto &[key, value] : attributes) {
            tags.push_back(keys.place(3, key));
            tags.push_back(values.place(4, value));
        }
        if (!tags.empty()) put_bytes(feature, 2, packed(tags));
        put_number(feature, 3, kind);
        put_bytes(feature, 4, packed(geometry));
        put_bytes(payload, 2, feature);
    }

    std::string finish() {
        payload += keys.fields;
        payload += values.fields;
        put_number(payload, 5, 4096);
        return std::move(payload);
    }
};

// A line of so many points, each to the right of and below the last.
inline std::vector<std::uint32_t> line(std::mt19937 &random, std::uint32_t points) {
    std::vector<std::uint32_t> integers{9, 1 + static_cast<std::uint32_t>(random() % 8000),
                                        1 + static_cast<std::uint32_t>(random() % 8000), 2 + 8 * (points - 1)};
    for (std::uint32_t i = 1; i < points; ++i) {
        integers.push_back(2 * (1 + random() % 9));
        integers.push_back(2 * (1 + random() % 9));
    }
    return integers;
}

inline std::string tile_of(const std::string &payload) {
    std::string tile;
    put_bytes(tile, 3, payload);
    if (tile.size() > 67'108'864) {
        std::printf("a tile of %zu bytes is too large\n", tile.size());
        std::exit(1);
    }
    return tile;
}

// Eight lines of 4,190,000 points in one layer: 64 MiB.
inline std::string big_features() {
    std::mt19937 random{1};
    Layer layer{"lines"};
    for (int i = 0; i < 8; ++i) layer.add(nullptr, {}, 2, line(random, 4'190'000));
    return tile_of(layer.finish());
}

// A million layers of 64 bytes or so, each with one point that has one attribute.
inline std::string many_layers() {
    std::string tile;
    for (int i = 0; i < 1'000'000; ++i) {
        const auto number = std::to_string(1'000'000 + i);
        Layer layer{number};
        layer.add(nullptr, {{"class", text_value("residential " + number)}}, 1, {9, 50, 34});
        put_bytes(tile, 3, layer.finish());
    }
    return tile;
}

// The payload of a layer of features of 60 bytes or so: an id, four attributes, and a line of 16
// points.
inline std::string many_features(std::uint64_t count) {
    std::mt19937 random{2};
    Layer layer{"roads"};
    for (std::uint64_t id = 0; id < count; ++id) {
        const Attributes attributes{
            {"class", text_value("class " + std::to_string(random() % 16))},
            {"name", text_value("Road of the number " + std::to_string(random() % 20'000))},
            {"width", double_value(0.5 * (random() % 1'000))},
            {"rank", uint_value(random() % 100)},
        };
        layer.add(&id, attributes, 2, line(random, 16));
    }
    return layer.finish();
}

// The payload of a layer of features with a point and two texts of more than 30 bytes.
inline std::string long_texts(std::uint64_t count) {
    std::mt19937 random{4};
    Layer layer{"signs"};
    for (std::uint64_t id = 0; id < count; ++id) {
        const Attributes attributes{
            {"name", text_value("A street whose name has the number " + std::to_string(random() % 20'000))},
            {"operator", text_value("The road office of the district " + std::to_string(random() % 100))},
        };
        layer.add(&id, attributes, 1, {9, 50, 34});
    }
    return layer.finish();
}
