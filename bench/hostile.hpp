// Tiles that are made to be dear: many small parts, a long text that many features name, keys and
// names that all have one hash, long texts that differ little.
#pragma once

#include "layers.hpp"
#include "one_hash.hpp"

#include <cstddef>
#include <cstdint>
#include <string>
#include <vector>

inline std::string bare_features(std::size_t count) {
    std::string payload{"\x78\x02\x0A\x01\x61", 5};
    for (std::size_t i = 0; i < count; ++i) payload.append("\x12\x00", 2);
    return tile_of(payload);
}

inline std::string small_layers(std::size_t count) {
    std::string tile;
    for (std::size_t i = 0; i < count; ++i) put_bytes(tile, 3, Layer{std::to_string(i)}.finish());
    return tile;
}

inline std::string many_strokes(std::uint32_t kind, std::size_t count, const std::vector<std::uint32_t> &stroke) {
    std::vector<std::uint32_t> integers;
    for (std::size_t i = 0; i < count; ++i) integers.insert(integers.end(), stroke.begin(), stroke.end());
    Layer layer{"a"};
    layer.add(nullptr, {}, kind, integers);
    return tile_of(layer.finish());
}

inline std::string many_attributes(std::size_t count, const std::string &front) {
    return tile_of(layer_of_keys("a", count, front));
}

// A text of four characters for each number below 64^4.
inline std::string short_text(std::uint32_t number) {
    std::string text;
    for (int i = 0; i < 4; ++i) text.push_back(static_cast<char>('0' + (number >> (6 * i) & 63)));
    return text;
}

inline std::string unnamed_keys(std::uint32_t count) {
    std::string payload{"\x78\x02\x0A\x01\x61", 5};
    for (std::uint32_t i = 0; i < count; ++i) put_bytes(payload, 3, short_text(i));
    return tile_of(payload);
}

// A feature of this many attributes, each of another key.
inline std::string many_tags(std::uint32_t count) {
    std::vector<std::uint32_t> tags;
    for (std::uint32_t i = 0; i < count; ++i) tags.insert(tags.end(), {i, 0});
    std::string feature, payload{"\x78\x02\x0A\x01\x61", 5};
    put_bytes(feature, 2, packed(tags));
    put_bytes(payload, 2, feature);
    for (std::uint32_t i = 0; i < count; ++i) put_bytes(payload, 3, short_text(i));
    put_bytes(payload, 4, uint_value(5));
    return tile_of(payload);
}

inline std::string many_names(std::size_t count, const std::string &front) {
    std::string tile;
    for (std::size_t i = 0; i < count; ++i) {
        put_bytes(tile, 3, Layer{front + std::to_string(10'000'000 + i) + "0123456789abcdef"}.finish());
    }
    return tile;
}

inline std::string long_text(std::size_t length, std::size_t features) {
    Layer layer{"a"};
    const auto value = text_value(std::string(length, 'x'));
    for (std::size_t i = 0; i < features; ++i) layer.add(nullptr, {{"k", value}}, 1, {9, 50, 34});
    return tile_of(layer.finish());
}

inline std::string with_digits(std::string text, std::size_t at, std::size_t number) {
    const auto digits = std::to_string(100 + number);
    return text.replace(at, digits.size(), digits);
}

// A layer of so many texts of one length, which differ at their fronts or at their ends, and of
// features that name them in turn. A text stands at so many places of the layer.
inline std::string texts_in_turn(std::size_t bytes, std::size_t count, bool at_front, std::size_t places) {
    const std::string plain(bytes / 2 / count / places, 'x');
    std::string payload{"\x78\x02\x0A\x01\x61", 5}, values;
    for (std::size_t place = 0; place < places; ++place) {
        for (std::size_t i = 0; i < count; ++i) {
            put_bytes(values, 4, text_value(with_digits(plain, at_front ? 0 : plain.size() - 3, i)));
        }
    }
    for (std::size_t i = 0; payload.size() < bytes / 2; ++i) {
        std::string feature;
        put_bytes(feature, 2, packed({0, static_cast<std::uint32_t>(i % (count * places))}));
        put_number(feature, 3, 1);
        put_bytes(feature, 4, packed({9, 50, 34}));
        put_bytes(payload, 2, feature);
    }
    put_bytes(payload, 3, "k");
    return tile_of(payload + values);
}

// The same of keys.
inline std::string keys_in_turn(std::size_t bytes, std::size_t count) {
    const std::string plain(bytes / 2 / count, 'x');
    std::string payload{"\x78\x02\x0A\x01\x61", 5};
    for (std::size_t i = 0; i < count; ++i) put_bytes(payload, 3, with_digits(plain, plain.size() - 3, i));
    put_bytes(payload, 4, uint_value(5));
    for (std::size_t i = 0; payload.size() < bytes; ++i) {
        std::string feature;
        put_bytes(feature, 2, packed({static_cast<std::uint32_t>(i % count), 0}));
        put_number(feature, 3, 1);
        put_bytes(feature, 4, packed({9, 50, 34}));
        put_bytes(payload, 2, feature);
    }
    return tile_of(payload);
}

// Layers whose names are so long, and differ at their ends.
inline std::string long_names(std::size_t count, std::size_t length) {
    std::string tile;
    for (std::size_t i = 0; i < count; ++i)
        put_bytes(tile, 3, Layer{with_digits(std::string(length, 'x'), length - 6, i)}.finish());
    return tile;
}
