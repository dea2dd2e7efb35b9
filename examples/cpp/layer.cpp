// One layer of a tile as GeoJSON.
//
//     layer NAME < tile > features.geojson            positions in the units of the tile, y downwards
//     layer NAME Z X Y < tile > features.geojson      longitude and latitude, for the tile X/Y of zoom Z
#include <mvt.hpp>

#include <cmath>
#include <cstdio>
#include <iomanip>
#include <iostream>
#include <iterator>
#include <numbers>
#include <optional>
#include <sstream>
#include <string>
#include <vector>

namespace {

/// Where a tile lies in the world of web maps.
struct place {
    double z, x, y;
};

/// Writes the features of a layer.
class writer {
public:
    writer(std::ostream &out, const mvt::tile &tile, const mvt_layer &layer, std::optional<place> at)
        : out_(out), tile_(tile), layer_(layer), at_(at) {}

    void collection() {
        out_ << "{\"type\":\"FeatureCollection\",\"features\":[";
        joined(tile_.features(layer_), [&](const mvt_feature &feature) { this->feature(feature); });
        out_ << "]}\n";
    }

private:
    template <class List, class Write>
    void joined(const List &list, Write write) {
        const char *between = "";
        for (const auto &item : list) {
            out_ << between;
            write(item);
            between = ",";
        }
    }

    void feature(const mvt_feature &feature) {
        out_ << "\n{\"type\":\"Feature\",";
        if (feature.has_id) out_ << "\"id\":" << feature.id << ',';
        out_ << "\"properties\":{";
        const char *between = "";
        for (const auto &[key, value] : tile_.attributes(layer_, feature)) {
            out_ << between;
            text(key);
            out_ << ':';
            std::visit([&](const auto &it) { write(it); }, value);
            between = ",";
        }
        out_ << "},\"geometry\":";
        geometry(feature);
        out_ << '}';
    }

    void write(std::string_view value) { text(value); }
    void write(bool value) { out_ << (value ? "true" : "false"); }
    void write(std::int64_t value) { out_ << value; }
    void write(std::uint64_t value) { out_ << value; }
    void write(float value) { number(value, 9); }
    void write(double value) { number(value, 17); }

    /// JSON has no word for what isn't a finite number.
    void number(double value, int digits) {
        if (std::isfinite(value)) {
            out_ << std::setprecision(digits) << value;
        } else {
            out_ << "null";
        }
    }

    void text(std::string_view value) {
        out_ << '"';
        for (const char c : value) {
            if (c == '"' || c == '\\') {
                out_ << '\\' << c;
            } else if (static_cast<unsigned char>(c) < 0x20) {
                out_ << "\\u" << std::hex << std::setw(4) << std::setfill('0') << static_cast<int>(c) << std::dec;
            } else {
                out_ << c;
            }
        }
        out_ << '"';
    }

    void geometry(const mvt_feature &feature) {
        const auto parts = tile_.parts(feature);
        switch (feature.kind) {
        case MVT_POINTS:
            if (const auto points = tile_.points(parts[0]); points.size() == 1)
                return one("Point", [&] { point(points[0]); });
            return one("MultiPoint", [&] { line(tile_.points(parts[0])); });
        case MVT_LINES:
            if (parts.size() == 1) return one("LineString", [&] { line(tile_.points(parts[0])); });
            return one("MultiLineString", [&] { lines(parts); });
        case MVT_POLYGONS: return one("MultiPolygon", [&] { polygons(parts); });
        default: out_ << "null";
        }
    }

    template <class Write>
    void one(const char *type, Write write) {
        out_ << "{\"type\":\"" << type << "\",\"coordinates\":";
        write();
        out_ << '}';
    }

    void lines(std::span<const mvt_part> parts) {
        out_ << '[';
        joined(parts, [&](const mvt_part &part) { line(tile_.points(part)); });
        out_ << ']';
    }

    void line(std::span<const mvt_point> points) {
        out_ << '[';
        joined(points, [&](mvt_point it) { point(it); });
        out_ << ']';
    }

    /// An exterior ring begins a polygon, and the rings up to the next one are its holes.
    void polygons(std::span<const mvt_part> parts) {
        out_ << '[';
        for (std::size_t first = 0; first < parts.size();) {
            std::size_t next = first + 1;
            while (next < parts.size() && !parts[next].exterior) ++next;
            out_ << (first == 0 ? "[" : ",[");
            joined(parts.subspan(first, next - first), [&](const mvt_part &part) { ring(tile_.points(part)); });
            out_ << ']';
            first = next;
        }
        out_ << ']';
    }

    /// GeoJSON repeats the first point of a ring at its end, and runs round exteriors the other way.
    void ring(std::span<const mvt_point> points) {
        std::vector<mvt_point> round{points[0]};
        round.insert(round.end(), points.rbegin(), points.rend());
        line(round);
    }

    void point(mvt_point it) {
        if (!at_) {
            out_ << '[' << it.x << ',' << it.y << ']';
            return;
        }
        const double size = std::exp2(at_->z);
        const double x = (at_->x + static_cast<double>(it.x) / layer_.extent) / size;
        const double y = (at_->y + static_cast<double>(it.y) / layer_.extent) / size;
        const double latitude = std::atan(std::sinh(std::numbers::pi * (1 - 2 * y))) * 180 / std::numbers::pi;
        out_ << '[';
        number(x * 360 - 180, 10);
        out_ << ',';
        number(latitude, 10);
        out_ << ']';
    }

    std::ostream &out_;
    const mvt::tile &tile_;
    const mvt_layer &layer_;
    std::optional<place> at_;
};

std::optional<place> place_of(int argc, char **argv) {
    if (argc != 5) return std::nullopt;
    return place{std::stod(argv[2]), std::stod(argv[3]), std::stod(argv[4])};
}

int run(int argc, char **argv) {
    const std::string input{std::istreambuf_iterator<char>(std::cin), {}};
    const mvt::tile tile = mvt::read(input);
    const mvt_layer *layer = tile.layer(argv[1]);
    if (layer == nullptr) {
        std::cerr << "layer: not in the tile: " << argv[1] << '\n';
        return 1;
    }
    writer(std::cout, tile, *layer, place_of(argc, argv)).collection();
    return std::cout.flush() ? 0 : 1;
}

} // namespace

int main(int argc, char **argv) try {
    if (argc != 2 && argc != 5) {
        std::cerr << "usage: layer NAME [Z X Y] < tile\n";
        return 2;
    }
    return run(argc, argv);
} catch (const std::exception &why) {
    std::cerr << "layer: " << why.what() << '\n';
    return 1;
}
