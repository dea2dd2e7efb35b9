// A tile walked by protozero and judged without values: fields, tags within the pools, and each
// command, position and ring of a geometry. It judges neither UTF-8 nor repeated keys or names.
#pragma once

#include <protozero/pbf_message.hpp>
#include <protozero/pbf_reader.hpp>

#include <cstdint>
#include <stdexcept>
#include <string>
#include <vector>

namespace walk {

struct Invalid : std::runtime_error {
    Invalid() : std::runtime_error("not a tile") {}
};

inline void require(bool holds) {
    if (!holds) throw Invalid{};
}

// How many values a message Value holds, which has to be one.
inline void judge_value(protozero::pbf_reader message, std::uint64_t &sum) {
    int kinds = 0;
    while (message.next()) {
        ++kinds;
        switch (message.tag()) {
        case 1: sum += message.get_view().size(); break;
        case 2: sum += message.get_float() > 0; break;
        case 3: sum += message.get_double() > 0; break;
        case 4: sum += static_cast<std::uint64_t>(message.get_int64()); break;
        case 5: sum += message.get_uint64(); break;
        case 6: sum += static_cast<std::uint64_t>(message.get_sint64()); break;
        case 7: sum += message.get_bool(); break;
        default: --kinds; message.skip();
        }
    }
    require(kinds == 1);
}

// The path that the integers of a geometry draw, point by point, with twice the area of each ring.
class Path {
public:
    explicit Path(std::uint32_t kind, std::uint64_t &sum) : kind_(kind), sum_(sum) {}

    template <typename Numbers>
    void judge(const Numbers &numbers) {
        auto at = numbers.begin();
        const auto end = numbers.end();
        std::uint32_t last = 0;
        while (at != end) {
            const std::uint32_t command = *at & 7, count = *at >> 3;
            ++at;
            if (command == 7) {
                require(kind_ == 3 && count == 1 && last == 2);
                close();
                last = 0;
                continue;
            }
            require((command == 1 || command == 2) && count != 0);
            if (kind_ == 1)
                require(command == 1);
            else if (command == 1)
                require(count == 1 && last != 1);
            else
                require(last == 1);
            if (command == 1) fresh_ = true;
            for (std::uint32_t i = 0; i < count; ++i) {
                require(at != end);
                const std::uint32_t dx = *at;
                ++at;
                require(at != end);
                const std::uint32_t dy = *at;
                ++at;
                require(command == 1 || dx != 0 || dy != 0);
                step(dx, dy);
            }
            last = command;
        }
        if (kind_ == 2) require(last == 2);
        if (kind_ == 3) require(last == 0);
    }

private:
    void step(std::uint32_t dx, std::uint32_t dy) {
        const std::int64_t from_x = x_, from_y = y_;
        x_ += protozero::decode_zigzag32(dx);
        y_ += protozero::decode_zigzag32(dy);
        require(x_ >= INT32_MIN && x_ <= INT32_MAX && y_ >= INT32_MIN && y_ <= INT32_MAX);
        sum_ += static_cast<std::uint32_t>(x_);
        if (fresh_) {
            first_x_ = x_;
            first_y_ = y_;
            area_ = 0;
            fresh_ = false;
        } else {
            area_ += static_cast<__int128>(from_x) * y_ - static_cast<__int128>(x_) * from_y;
        }
    }

    void close() {
        area_ += static_cast<__int128>(x_) * first_y_ - static_cast<__int128>(first_x_) * y_;
        sum_ += area_ > 0;
    }

    std::uint32_t kind_;
    std::uint64_t &sum_;
    std::int64_t x_ = 0, y_ = 0, first_x_ = 0, first_y_ = 0;
    __int128 area_ = 0;
    bool fresh_ = true;
};

inline void judge_feature(protozero::pbf_reader message, const std::vector<protozero::data_view> &keys,
                          std::size_t values, std::uint64_t &sum) {
    using Numbers = protozero::iterator_range<protozero::pbf_reader::const_uint32_iterator>;
    Numbers tags, geometry;
    std::uint32_t kind = 0;
    while (message.next()) {
        switch (message.tag()) {
        case 1: sum += message.get_uint64(); break;
        case 2: tags = message.get_packed_uint32(); break;
        case 3: kind = static_cast<std::uint32_t>(message.get_enum()); break;
        case 4: geometry = message.get_packed_uint32(); break;
        default: message.skip();
        }
    }
    for (auto at = tags.begin(); at != tags.end();) {
        const std::uint32_t key = *at;
        ++at;
        require(at != tags.end());
        const std::uint32_t value = *at;
        ++at;
        require(key < keys.size() && value < values);
        sum += keys[key].size();
    }
    Path{kind, sum}.judge(geometry);
}

inline void judge_layer(protozero::pbf_reader message, std::uint64_t &sum) {
    std::vector<protozero::data_view> keys, values, features;
    std::uint32_t version = 0;
    while (message.next()) {
        switch (message.tag()) {
        case 1: sum += message.get_view().size(); break;
        case 2: features.push_back(message.get_view()); break;
        case 3: keys.push_back(message.get_view()); break;
        case 4: values.push_back(message.get_view()); break;
        case 5: sum += message.get_uint32(); break;
        case 15: version = message.get_uint32(); break;
        default: message.skip();
        }
    }
    require(version == 2);
    for (const auto &value : values) judge_value(protozero::pbf_reader{value}, sum);
    for (const auto &feature : features) judge_feature(protozero::pbf_reader{feature}, keys, values.size(), sum);
}

// A sum over what was read, so that nothing is left out. Throws for bytes that break a rule.
inline std::uint64_t judge(const std::string &bytes) {
    std::uint64_t sum = 1;
    for (protozero::pbf_reader message{bytes}; message.next();) {
        if (message.tag() == 3)
            judge_layer(message.get_message(), sum);
        else
            message.skip();
    }
    return sum;
}

} // namespace walk
