// Any bytes, through mvt.hpp, for libFuzzer: every call gives the same verdict, whole or in pieces; what is read is walked to
// its end and built anew, and is then what `rewrite` writes.
#include "mvt.hpp"

#include <algorithm>
#include <cstdlib>
#include <iostream>
#include <optional>
#include <string>

namespace {

void require(bool holds, const char *what) {
    if (holds) return;
    std::cerr << "broken: " << what << '\n';
    std::abort();
}

/// The line of the fault, if the call refuses the bytes.
template <class Call>
std::optional<std::string> refused_by(Call call) {
    try {
        call();
        return std::nullopt;
    } catch (const mvt::refused &why) {
        require(why.what() == why.line() + ": " + std::string(why.sentence()), "the text of a fault");
        return why.line();
    }
}

/// A tile that comes in pieces, of 1 byte to 7 and then of 64 KiB.
void in_pieces(mvt::byte_span input) {
    mvt::decoder decoder;
    for (std::size_t at = 0, len = 1; at < input.size(); at += len) {
        len = at < 64 ? at % 7 + 1 : std::size_t{1} << 16;
        len = std::min(len, input.size() - at);
        decoder.feed(input.subspan(at, len));
    }
    require(decoder.finish() == mvt::read(input), "another tile in pieces");
}

void build_geometry(mvt::builder &builder, const mvt::tile &tile, const mvt_feature &feature) {
    if (feature.kind == MVT_UNKNOWN) builder.integers(tile.integers(feature));
    for (const mvt_part &part : tile.parts(feature)) {
        if (feature.kind == MVT_LINES) builder.line();
        if (feature.kind == MVT_POLYGONS) builder.ring(part.exterior != 0);
        builder.points(tile.points(part));
    }
}

void build_layer(mvt::builder &builder, const mvt::tile &tile, const mvt_layer &layer) {
    builder.layer(tile.text(layer.name), layer.extent);
    for (const mvt_feature &feature : tile.features(layer)) {
        builder.feature(static_cast<mvt_kind>(feature.kind));
        if (feature.has_id) builder.id(feature.id);
        for (const auto &[key, value] : tile.attributes(layer, feature)) {
            builder.tag(key, value);
            require(tile.attribute(layer, feature, key).has_value(), "an attribute that isn't found");
        }
        build_geometry(builder, tile, feature);
    }
}

/// A mended tile is canonical, keeps every rule and isn't changed again; one without changes was a tile before.
void mended(mvt::byte_span input, bool was_refused) {
    const mvt::mended made = mvt::mend(input);
    const mvt::mended again = mvt::mend(made.bytes());
    require(made.changes().empty() != was_refused, "changes of a tile that keeps every rule, or none of another");
    require(again.changes().empty() && std::ranges::equal(again.bytes(), made.bytes()),
            "what is mended is changed again");
    require(std::ranges::equal(mvt::rewrite(made.bytes()), made.bytes()), "what is mended isn't canonical");
}

/// The tile built anew from what its rows say.
mvt::bytes built(const mvt::tile &tile) {
    mvt::builder builder;
    for (const mvt_layer &layer : tile.layers()) {
        if (layer.version == 2) {
            build_layer(builder, tile, layer);
        } else {
            const std::string_view payload = tile.text(layer.bytes);
            builder.foreign(layer.version, payload);
        }
    }
    return builder.finish();
}

} // namespace

extern "C" int LLVMFuzzerTestOneInput(const std::uint8_t *data, std::size_t size) {
    const mvt::byte_span input{data, size};
    const auto fault = refused_by([&] { mvt::judge(input); });
    require(refused_by([&] { (void)mvt::rewrite(input); }) == fault, "rewrite has another verdict");
    require(refused_by([&] { (void)mvt::report(input); }) == fault, "report has another verdict");
    require(refused_by([&] { (void)mvt::lint(input); }) == fault, "lint has another verdict");
    require(refused_by([&] { (void)mvt::survey(input); }) == fault, "survey has another verdict");
    require(refused_by([&] { (void)mvt::lint_rows(input); }) == fault, "lint_rows has another verdict");
    require(refused_by([&] { (void)mvt::json(input); }) == fault, "json has another verdict");
    require(refused_by([&] { (void)mvt::svg(input); }) == fault, "svg has another verdict");
    require(refused_by([&] { (void)mvt::read(input); }) == fault, "read has another verdict");
    require(refused_by([&] { in_pieces(input); }) == fault, "a decoder has another verdict");
    const auto unmended = refused_by([&] { mended(input, fault.has_value()); });
    require(!unmended || unmended == fault, "mend has another verdict, or makes no tile");
    if (fault) return 0;
    const mvt::tile tile = mvt::read(input);
    const mvt::bytes canonical = mvt::rewrite(input);
    require(mvt::write(tile.rows()) == canonical, "rows are written as another tile");
    require(built(tile) == canonical, "another tile is built");
    require(mvt::rewrite(canonical) == canonical, "canonical bytes are rewritten");
    return 0;
}
