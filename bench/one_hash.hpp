// Texts that all have one hash under the kit's FoldHasher, and layers that have them as keys.
#pragma once

#include "layers.hpp"

#include <cstdint>
#include <cstring>
#include <string>

inline std::uint64_t folded(std::uint64_t a, std::uint64_t b) {
    const auto product = static_cast<unsigned __int128>(a) * b;
    return static_cast<std::uint64_t>(product) ^ static_cast<std::uint64_t>(product >> 64);
}

// 24 bytes after which the kit's FoldHasher forgets the 8 bytes that follow, in a text of 48 bytes:
// its seed is fixed, and a product is 0 where the text repeats the state.
inline std::string forgetful_front() {
    const std::uint64_t seed = 0x243f6a8885a308d3 + 48, multiplier = 0x9e3779b97f4a7c15;
    for (int n = 10'000'000;; ++n) {
        std::string front = "aaaaaaaa" + std::to_string(n);
        std::uint64_t words[2];
        std::memcpy(words, front.data(), 16);
        const auto state = folded(words[0] ^ seed, words[1] ^ multiplier);
        if ((state & 0x8080808080808080) == 0) {
            front.append(reinterpret_cast<const char *>(&state), 8);
            return front;
        }
    }
}

// The payload of a layer with one feature, whose keys begin with these 24 bytes.
inline std::string layer_of_keys(const std::string &name, std::size_t count, const std::string &front) {
    Attributes attributes;
    for (std::size_t i = 0; i < count; ++i)
        attributes.emplace_back(front + std::to_string(10'000'000 + i) + "0123456789abcdef", uint_value(5));
    Layer layer{name};
    layer.add(nullptr, attributes, 1, {9, 50, 34});
    return layer.finish();
}
