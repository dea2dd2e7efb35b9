// A tile read by protozero into values of its own: ids, attributes with their keys and values, and
// lines of points. It resolves tags and draws lines; it judges neither UTF-8 nor repeated keys, nor
// whether each segment has a length.
#pragma once

#include <protozero/pbf_reader.hpp>

#include <cstdint>
#include <optional>
#include <string>
#include <utility>
#include <variant>
#include <vector>

namespace owned {

struct Sint {
    std::int64_t number;
};
using Value = std::variant<std::string, float, double, std::int64_t, std::uint64_t, Sint, bool>;

struct Attribute {
    std::string key;
    Value value;
};
struct Point {
    std::int32_t x, y;
};
struct Feature {
    std::optional<std::uint64_t> id;
    std::vector<Attribute> attributes;
    std::uint32_t kind = 0;
    std::vector<std::vector<Point>> lines;
};
struct Layer {
    std::string name;
    std::uint32_t extent = 4096;
    std::vector<Feature> features;
};

inline Value value_of(protozero::pbf_reader message) {
    Value value = false;
    while (message.next()) {
        switch (message.tag()) {
        case 1: value = message.get_string(); break;
        case 2: value = message.get_float(); break;
        case 3: value = message.get_double(); break;
        case 4: value = message.get_int64(); break;
        case 5: value = message.get_uint64(); break;
        case 6: value = Sint{message.get_sint64()}; break;
        case 7: value = message.get_bool(); break;
        default: message.skip();
        }
    }
    return value;
}

template <typename Numbers>
std::vector<std::vector<Point>> lines_of(const Numbers &numbers) {
    std::vector<std::vector<Point>> lines;
    std::int32_t x = 0, y = 0;
    for (auto at = numbers.begin(); at != numbers.end();) {
        const std::uint32_t command = *at++;
        if ((command & 7) == 7) continue;
        if ((command & 7) == 1) lines.emplace_back();
        auto &line = lines.back();
        line.reserve(line.size() + (command >> 3));
        for (std::uint32_t i = 0; i < command >> 3; ++i) {
            x += protozero::decode_zigzag32(*at++);
            y += protozero::decode_zigzag32(*at++);
            line.push_back({x, y});
        }
    }
    return lines;
}

inline Feature feature_of(protozero::pbf_reader message, const std::vector<std::string> &keys,
                          const std::vector<Value> &values) {
    Feature feature;
    while (message.next()) {
        switch (message.tag()) {
        case 1: feature.id = message.get_uint64(); break;
        case 2: {
            const auto tags = message.get_packed_uint32();
            for (auto at = tags.begin(); at != tags.end();) {
                const auto key = *at++;
                const auto value = *at++;
                feature.attributes.push_back({keys.at(key), values.at(value)});
            }
            break;
        }
        case 3: feature.kind = message.get_enum(); break;
        case 4: feature.lines = lines_of(message.get_packed_uint32()); break;
        default: message.skip();
        }
    }
    return feature;
}

inline Layer layer_of(protozero::pbf_reader message) {
    Layer layer;
    std::vector<std::string> keys;
    std::vector<Value> values;
    for (auto fields = message; fields.next();) {
        switch (fields.tag()) {
        case 1: layer.name = fields.get_string(); break;
        case 3: keys.push_back(fields.get_string()); break;
        case 4: values.push_back(value_of(fields.get_message())); break;
        case 5: layer.extent = fields.get_uint32(); break;
        default: fields.skip();
        }
    }
    for (auto fields = message; fields.next(2);) {
        layer.features.push_back(feature_of(fields.get_message(), keys, values));
    }
    return layer;
}

inline std::vector<Layer> tile_of(const std::string &bytes) {
    std::vector<Layer> layers;
    for (protozero::pbf_reader message{bytes}; message.next(3);) layers.push_back(layer_of(message.get_message()));
    return layers;
}

// How many layers and features there are, and 1.
inline std::uint64_t count(const std::vector<Layer> &layers) {
    std::uint64_t sum = 1 + layers.size();
    for (const auto &layer : layers) sum += layer.features.size();
    return sum;
}

} // namespace owned
