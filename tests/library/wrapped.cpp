// What is C++ of the wrapper: wrapped TEST < tile. A test has a name, such as `hold` for the owners or `take` for what bytes and
// names are taken, and prints nothing where all is well. cases.cpp has what the calls answer.
#include "mvt.hpp"

#include <algorithm>
#include <iostream>
#include <iterator>
#include <limits>
#include <map>
#include <string>
#include <thread>
#include <vector>

namespace {

static_assert(std::is_nothrow_copy_constructible_v<mvt::refused> &&
              std::is_nothrow_copy_constructible_v<mvt::no_layer>);

void require(bool holds, const char *what) {
    if (!holds) throw std::logic_error(what);
}

std::string whole_input() { return {std::istreambuf_iterator<char>(std::cin), {}}; }

/// What is moved from is empty, and what is assigned to gives back what it held.
void hold(mvt::byte_span input) {
    mvt::bytes first = mvt::json(input), second = mvt::svg(input);
    const std::string json{first.text()};
    mvt::bytes third = std::move(first);
    require(first.empty() && first.data() == nullptr, "a moved owner still holds");
    second = std::move(third);
    require(second.text() == json && third.empty(), "an assigned owner holds something else");
    second = mvt::bytes();
    require(second.empty() && second.begin() == second.end(), "an emptied owner still holds");

    mvt::tile tile = mvt::read(input);
    const std::size_t count = tile.layers().size();
    mvt::tile other = std::move(tile);
    require(tile.layers().empty() && other.layers().size() == count, "a moved tile still holds");
    other = mvt::read(input);
    require(other.layers().size() == count && !other.layers().empty(), "an assigned tile holds something else");
    other = mvt::read({});
    require(other.layers().empty() && mvt::rewrite({}).empty(), "no bytes are no empty tile");
}

/// Bytes are taken from whatever has them in a row, and layers by any kind of names.
void take(mvt::byte_span input) {
    const std::string text(input.begin(), input.end());
    const std::vector<char> chars(input.begin(), input.end());
    const std::span<const std::byte> part = std::as_bytes(input);
    const std::vector<std::byte> bytes(part.begin(), part.end());
    const std::string wanted = mvt::json(input).str();
    require(mvt::json(text).str() == wanted && mvt::json(std::string_view(text)).str() == wanted,
            "a string is other bytes");
    require(mvt::json(chars).str() == wanted && mvt::json(bytes).str() == wanted, "a vector is other bytes");
    require(mvt::json({input.data(), input.size()}).str() == wanted, "a pointer and a length are other bytes");
    require(mvt::json(mvt::rewrite(text)).str() == wanted, "what a call made is other bytes");

    const std::string both = mvt::extract(text, {"water", "roads"}).str();
    require(mvt::extract(text, std::vector<std::string>{"roads", "water"}).str() == both,
            "names in a vector are others");
    require(mvt::extract(text, std::vector<std::string_view>{}).empty(), "no names give layers");
    try {
        require(mvt::extract(text, {"water", "rail", "nowhere"}).empty(), "a layer that isn't there was found");
    } catch (const mvt::no_layer &why) {
        require(why.name() == "rail" && std::string(why.what()).ends_with("rail"), "another layer is missed");
    }
    const mvt::tile tile = mvt::read(text);
    require(tile.layer("rail") == nullptr && tile.text(tile.layer("water")->name) == "water", "another layer is found");
}

/// One layer is that of the tile, and a name that none has is told.
void pick(mvt::byte_span input) {
    const mvt::tile whole = mvt::read(input);
    for (const mvt_layer &layer : whole.layers()) {
        if (layer.version != 2) continue;
        const mvt::tile one = mvt::read_layer(input, whole.text(layer.name));
        require(one.layers().size() == 1 && one.text(one.layers()[0].name) == whole.text(layer.name), "another layer");
        require(mvt::write(one.rows()).str() == mvt::extract(input, {whole.text(layer.name)}).str(),
                "a layer of other features");
    }
    try {
        const mvt::tile none = mvt::read_layer(input, "nowhere");
        require(none.layers().empty() && false, "a layer of no name");
    } catch (const mvt::no_layer &why) {
        require(why.name() == "nowhere", "another name is missed");
    }
}

/// No tile is read whose rows would have more bytes than they may.
void bound(mvt::byte_span input) {
    try {
        const mvt::tile few = mvt::read(input, 99);
        require(few.layers().empty() && false, "rows of more than 99 bytes");
    } catch (const std::bad_alloc &) {
    }
    try {
        mvt::decoder decoder(99);
        decoder.feed(input);
        require(false, "a decoder of few rows");
    } catch (const std::bad_alloc &) {
    }
}

/// Rows that were made by hand are written, and stay their maker's.
void lend() {
    const mvt_layer layer{
        .version = 2, .extent = 4096, .name = {0, 1}, .features = {}, .keys = {}, .values = {}, .bytes = {}};
    mvt_tile rows{};
    rows.layers = &layer, rows.layer_count = 1;
    rows.texts = reinterpret_cast<const std::uint8_t *>("a"), rows.text_len = 1;
    require(!mvt::write(rows).empty(), "rows made by hand aren't written");
}

template <class Call>
void require_error(Call call, const char *what) {
    try {
        call();
    } catch (const mvt::error &) {
        return;
    }
    require(false, what);
}

/// Rows of another tile, rows after a move and texts that are null pointers are refused, and lead nowhere.
void mix(mvt::byte_span input) {
    const mvt::tile one = mvt::read(input);
    const mvt::bytes made = mvt::builder().layer("a").feature(MVT_POINTS).tag("k", "v").point(1, 2).finish();
    const mvt::tile two = mvt::read(made);
    const mvt_layer &last = one.layers().back();
    const mvt_feature &feature = one.features(last).back();
    const mvt_part &part = one.parts(feature).back();
    require_error([&] { static_cast<void>(two.features(last)); }, "features of another tile");
    require_error([&] { static_cast<void>(two.parts(feature)); }, "parts of another tile");
    require_error([&] { static_cast<void>(two.points(part)); }, "points of another tile");
    require_error([&] { static_cast<void>(two.text(last.name)); }, "a text of another tile");
    const auto ignore = [](std::string_view, const mvt::value &) {};
    require_error([&] { two.attributes(last, feature, ignore); }, "attributes of another tile");
    require_error([&] { static_cast<void>(two.attributes(last, feature)); }, "a range of another tile");
    require_error([&] { static_cast<void>(two.attribute(last, feature, "k")); }, "an attribute of another tile");
    // Its tags are this tile's, and lead beyond the keys that the layer has here.
    mvt_layer bare = one.layers().front();
    bare.keys.len = 0;
    require_error([&] { one.attributes(bare, one.features(bare).front(), ignore); }, "keys that the layer hasn't");
    require_error([&] { static_cast<void>(*one.attributes(bare, one.features(bare).front()).begin()); },
                  "a range beyond the keys");

    mvt::tile moved = mvt::read(input);
    const mvt_layer layer = moved.layers().front();
    const mvt::tile now = std::move(moved);
    require_error([&] { static_cast<void>(moved.features(layer)); }, "features after a move");
    require_error([&] { static_cast<void>(moved.text(layer.name)); }, "a name after a move");

    const char *none = nullptr;
    mvt::builder builder;
    builder.layer("a").feature(MVT_POINTS);
    require_error([&] { builder.tag("k", none); }, "a value that is a null pointer");
    require_error([&] { builder.tag(none, 1); }, "a key that is a null pointer");
    require_error([&] { builder.layer(none); }, "a layer's name that is a null pointer");
    require_error([&] { static_cast<void>(builder.key(none)); }, "a key's index of a null pointer");
    require_error([&] { static_cast<void>(builder.value(none)); }, "a value's index of a null pointer");
    require_error([&] { static_cast<void>(mvt::read_layer(input, none)); }, "one layer of a null pointer");
    require_error([&] { static_cast<void>(now.layer(none)); }, "a layer of a null pointer");
    require_error([&] { static_cast<void>(mvt::extract(input, std::vector<const char *>{none})); },
                  "layers of a null pointer");
    require(builder.tag("k", "v").point(1, 2).finish().str() == made.str(), "what was refused changed the tile");
}

/// A refused tile is told of in words, with the layer's name and the feature's id.
void explain() {
    // The layer `a` with a feature of id 7 whose line goes nowhere.
    const std::string broken("\x1a\x13\x78\x02\x0a\x01"
                             "a\x12\x0c\x08\x07\x18\x02\x22\x06\x09\x00\x00\x0a\x00\x00",
                             21);
    for (const std::string &of : {broken, std::string("\x1f\x8b\x08"), std::string("\x78\x9c\xff")}) {
        try {
            mvt::judge(of);
            require(false, "a broken tile was taken");
        } catch (const mvt::refused &why) {
            const bool packed = why.sentence().find("compressed") != std::string_view::npos;
            require(packed == (of != broken), "a tile that isn't compressed looks so");
            require(why.layer_name() == (packed ? std::nullopt : std::optional<std::string_view>("a")),
                    "another layer's name");
            require(why.feature_id() == (packed ? std::nullopt : std::optional<std::uint64_t>(7)),
                    "another feature's id");
            require(why.start() == (packed ? 0u : 19u) && why.end() == (packed ? 3u : 20u), "another place");
        }
    }
    mvt::decoder decoder;
    try {
        for (const char byte : std::string("\x1f\x8b\x08")) decoder.feed(std::string_view(&byte, 1));
        const mvt::tile none = decoder.finish();
        require(none.layers().size() > 9, "a compressed tile was taken");
    } catch (const mvt::refused &why) {
        require(!why.sentence().empty(), "a fault without words");
        require(!why.start() && !why.end(), "a place in bytes that weren't kept");
    }
    require(std::string(mvt_version()) == MVT_VERSION, "the library is of another version");
}

/// The builder makes what the rows made by hand are, and can be moved and used again.
void build() {
    const mvt_point square[] = {{0, 0}, {8, 0}, {8, 8}, {0, 8}};
    mvt::builder first;
    first.layer("a").feature(MVT_POINTS).point(25, 17);
    mvt::builder builder = std::move(first);
    require(builder.finish().str() == std::string("\x1a\x11\x78\x02\x0a\x01"
                                                  "a\x12\x07\x18\x01\x22\x03\x09\x32\x22\x28\x80\x20",
                                                  19),
            "the bytes of a point");
    require(builder.finish().empty(), "a builder that begins anew is empty");

    builder.layer("town", 512).feature(MVT_POLYGONS, 7).tag("name", "Mill").tag("floors", 3).tag("high", true);
    builder.ring(true).points(square).tag_at(builder.key("area"), builder.value(64.5));
    builder.feature(MVT_LINES).tag("floors", 3u).tag("below", -1).tag("wide", 2.5f).line().point(0, 0).point(1, 2);
    builder.feature(MVT_POINTS).point(1, 1).drop();
    builder.feature(MVT_UNKNOWN).integers(std::vector<std::uint32_t>{9, 9});
    const mvt::bytes made = builder.finish();
    const mvt::tile tile = mvt::read(made);
    const mvt_layer &layer = *tile.layer("town");
    const auto features = tile.features(layer);
    require(layer.extent == 512 && features.size() == 3 && features[0].id == 7 && !features[1].has_id,
            "other features");
    require(tile.points(tile.parts(features[0])[0]).size() == 4 && tile.parts(features[0])[0].exterior == 1,
            "another ring");
    require(tile.points(tile.parts(features[1])[0])[1].y == 2 && tile.integers(features[2]).size() == 2,
            "another geometry");
    std::vector<std::pair<std::string, mvt::value>> tags;
    for (const mvt_feature &feature : features)
        tile.attributes(layer, feature,
                        [&](std::string_view key, const mvt::value &it) { tags.emplace_back(key, it); });
    const std::vector<std::pair<std::string, mvt::value>> wanted{
        {"name", "Mill"}, {"floors", std::uint64_t{3}}, {"high", true},
        {"area", 64.5},   {"floors", std::uint64_t{3}}, {"below", mvt::sint_value(-1)},
        {"wide", 2.5f}};
    require(tags == wanted, "other attributes");
    try {
        builder.tag("no", "feature");
        require(false, "a tag without a feature was taken");
    } catch (const mvt::no_tile &) {
        require(false, "a call out of turn is no tile");
    } catch (const mvt::error &) {
    }
}

/// The input is what each language's builder makes of values of all kinds, and what was read is what is built.
void kinds(mvt::byte_span input) {
    mvt::builder builder;
    builder.layer("a").feature(MVT_POINTS).point(25, 17);
    builder.tag("s", "x").tag("f", 2.5f).tag("d", 3.5).tag("i", mvt::int_value(-5)).tag("p", mvt::int_value(5));
    builder.tag("u", 5).tag("n", -5).tag("z", mvt::sint_value(5)).tag("b", true);
    require(std::ranges::equal(builder.finish(), input), "other bytes of values of all kinds");
    const mvt::tile tile = mvt::read(input);
    const mvt_layer &layer = tile.layers()[0];
    builder.layer("a").feature(MVT_POINTS).point(25, 17);
    for (const auto &[key, value] : tile.attributes(layer, tile.features(layer)[0])) builder.tag(key, value);
    require(std::ranges::equal(builder.finish(), input), "what was read is built as something else");
}

static_assert(std::ranges::forward_range<mvt::attribute_range> && std::ranges::view<mvt::attribute_range>);

/// Attributes are a range that the callback and the search agree with.
void range() {
    mvt::builder builder;
    builder.layer("a").feature(MVT_POINTS).tag("one", 1).tag("two", "2").tag("three", -3).points({{1, 2}, {3, 4}});
    builder.feature(MVT_POINTS).points({{5, 6}});
    const mvt::bytes made = builder.finish();
    const mvt::tile tile = mvt::read(made);
    const mvt_layer &layer = tile.layers()[0];
    const auto features = tile.features(layer);
    const mvt::attribute_range all = tile.attributes(layer, features[0]);
    std::vector<std::string> keys;
    for (auto [key, value] : all) keys.emplace_back(key);
    require(keys == std::vector<std::string>{"one", "two", "three"} && all.size() == 3, "other attributes in a range");
    require(std::ranges::distance(all | std::views::filter([](const auto &it) { return it.first != "two"; })) == 2,
            "a range that isn't filtered");
    require(tile.attributes(layer, features[1]).empty(), "attributes that the feature hasn't");
    require(tile.attribute(layer, features[0], "two") == mvt::value("2"), "another value of a key");
    require(tile.attribute(layer, features[0], "three") == mvt::value(mvt::sint_value(-3)), "another number of a key");
    require(!tile.attribute(layer, features[0], "four") && !tile.attribute(layer, features[1], "one"),
            "a value of no key");
    const auto points = tile.points(tile.parts(features[0])[0]);
    require(points.size() == 2 && points[1].x == 3 && points[1].y == 4, "other points of a list");
}

/// Tiles are equal whose canonical bytes are, whatever keys their layers have beside.
void equal() {
    const auto made = [](double number, int x) {
        mvt::builder builder;
        builder.layer("a").feature(MVT_POINTS).tag("k", number).points({{x, 2}});
        return mvt::read(builder.finish());
    };
    require(made(1, 1) == made(1, 1) && made(1, 1) != made(2, 1) && made(1, 1) != made(1, 2),
            "tiles that equal others");
    require(made(0.0, 1) != made(-0.0, 1), "numbers of other bits");
    const double none = std::numeric_limits<double>::quiet_NaN();
    require(made(none, 1) == made(none, 1) && mvt::tile() == mvt::read({}), "tiles that don't equal themselves");
    // The layer `a` with the point (25, 17), and the same with a key that no feature uses.
    const std::string bare("\x1a\x11\x78\x02\x0a\x01"
                           "a\x12\x07\x18\x01\x22\x03\x09\x32\x22\x28\x80\x20",
                           19);
    const std::string keyed("\x1a\x14\x78\x02\x0a\x01"
                            "a\x12\x07\x18\x01\x22\x03\x09\x32\x22\x1a\x01"
                            "k\x28\x80\x20",
                            22);
    require(mvt::read(bare) == mvt::read(keyed), "a key that nothing names");
}

/// Views and attributes lie within the tile, and values have the kinds of their rows.
void look(mvt::byte_span input) {
    mvt::judge(input);
    const mvt::tile tile = mvt::read(input);
    std::size_t points = 0, tags = 0;
    for (const mvt_layer &layer : tile.layers()) {
        require(layer.version != 2 || !tile.text(layer.name).empty(), "a layer without a name");
        for (const mvt_feature &feature : tile.features(layer)) {
            tile.attributes(layer, feature, [&](std::string_view key, const mvt::value &value) {
                require(!key.empty() && !value.valueless_by_exception(), "an attribute without a key");
                tags += 2;
            });
            for (const mvt_part &part : tile.parts(feature)) points += tile.points(part).size();
            require(feature.kind == MVT_UNKNOWN || tile.integers(feature).empty(), "integers beside a geometry");
        }
    }
    require(points == tile.rows().point_count && tags == tile.rows().tag_count, "a row was left out");
}

/// Rows that were read are written as the canonical bytes, and a row that reaches beyond its list is refused.
void write(mvt::byte_span input) {
    const mvt::tile tile = mvt::read(input);
    require(std::ranges::equal(mvt::write(tile.rows()), mvt::rewrite(input)), "rows are written as another tile");
    mvt_tile rows = tile.rows();
    rows.texts = nullptr;
    rows.text_len = 0;
    try {
        static_cast<void>(mvt::write(rows));
    } catch (const mvt::no_tile &why) {
        require(why.fault() && why.fault()->layer < rows.layer_count && !why.fault()->has_feature, "a fault of rows");
        require(std::string_view(why.what()).starts_with("layer "), "a fault of rows in words");
        return;
    }
    require(false, "rows without their texts are written");
}

/// A geometry that no commands draw says which rule it breaks, and where.
void undrawn() {
    mvt::builder builder;
    builder.layer("a").feature(MVT_LINES).line().point(0, 0).point(1, 1).line().point(2, 2).point(3, 3).point(3, 3);
    try {
        static_cast<void>(builder.finish());
        require(false, "a line that stays is built");
    } catch (const mvt::no_tile &why) {
        const mvt_rows_fault fault = why.fault().value();
        require(fault.cause == MVT_ROWS_DRAWING && fault.rule == MVT_CAUSE_ZERO_SEGMENT, "the rule that a line breaks");
        require(fault.part == 1 && fault.has_point == 1 && fault.point == 2, "and where");
        const std::string wanted =
            std::string("layer 0 feature 0 part 1 point 2: ") + mvt_cause_text(MVT_CAUSE_ZERO_SEGMENT);
        require(why.what() == wanted, "and in words");
    }
    builder.layer("a").feature(MVT_POLYGONS).ring(true).point(0, 0).point(1, 3).point(3, 1);
    try {
        static_cast<void>(builder.finish());
        require(false, "a ring that runs the wrong way round is built");
    } catch (const mvt::no_tile &why) {
        const std::string wanted = std::string("layer 0 feature 0 part 0: ") + mvt_cause_text(MVT_CAUSE_FIRST_RING);
        require(why.what() == wanted, "a ring's rule in words");
    }
}

/// A tile that comes in pieces is the one that comes whole; a finished decoder takes no more.
void pieces(mvt::byte_span input) {
    for (const std::size_t size : {1, 7, 4096}) {
        mvt::decoder first;
        mvt::decoder decoder = std::move(first);
        for (std::size_t at = 0; at < input.size(); at += size)
            decoder.feed(input.subspan(at, std::min(size, input.size() - at)));
        decoder.feed({});
        const mvt::tile tile = decoder.finish();
        require(std::ranges::equal(mvt::write(tile.rows()), mvt::rewrite(input)), "pieces are another tile");
        try {
            decoder.feed(input);
            require(false, "a finished decoder took a piece");
        } catch (const mvt::error &) {
        }
    }
}

/// What is noted and found is what the lines say, and is held by one owner at a time.
void remark(mvt::byte_span input) {
    mvt::summary first = mvt::survey(input);
    const mvt::summary told = std::move(first);
    const mvt::tile tile = mvt::read(input);
    require(told.layers() == tile.layers().size() && told.features() == tile.rows().feature_count, "what is counted");
    require(told.is_canonical() == std::ranges::equal(input, mvt::rewrite(input)), "whether it is canonical");
    require(told.notes().empty() && first.notes().empty() && mvt::lint_rows(input).empty(), "nothing to remark");
    // The layer `a` with a feature of unknown type without integers, and the layer `b` without features.
    const std::string odd("\x1a\x07\x78\x02\x0a\x01\x61\x12\x00\x1a\x05\x78\x02\x0a\x01\x62", 16);
    mvt::summary noted;
    noted = mvt::survey(odd);
    require(noted.notes().size() == 1 && noted.notes()[0].kind == MVT_NOTE_NO_FEATURES && noted.notes()[0].layer == 1,
            "a note");
    const mvt::findings found = mvt::lint_rows(odd);
    for (const mvt_finding_row &row : found)
        require(row.kind == MVT_FINDING_NO_GEOMETRY && row.layer == 0 && row.has_feature == 1 && row.feature == 0,
                "a finding");
    require(found.size() == 1, "one finding");
    try {
        static_cast<void>(mvt::survey(std::string_view("\0", 1)));
        require(false, "a broken tile is surveyed");
    } catch (const mvt::refused &why) {
        require(why.cause() == MVT_CAUSE_FIELD_NUMBER && why.name() == "FieldNumber", "its cause");
    }
}

/// What is mended: an accepted tile isn't, and the layer `a` with a line of one point twice is left without a feature.
void mend(mvt::byte_span input) {
    const mvt::mended same = mvt::mend(input);
    require(same.changes().empty() && std::ranges::equal(same.bytes(), mvt::rewrite(input)),
            "an accepted tile is changed");
    const std::string broken("\x1a\x11\x78\x02\x0a\x01\x61\x12\x0a\x18\x02\x22\x06\x09\x04\x04\x0a\x00\x00", 19);
    mvt::mended first = mvt::mend(broken);
    const mvt::mended told = std::move(first);
    require(first.changes().empty() && first.bytes().empty() && told.changes().size() == 1, "one change, of one owner");
    const mvt_change_row &change = told.changes()[0];
    require(change.kind == MVT_CHANGE_FEATURE_LEFT_OUT && change.layer == 0 && change.feature == 0 && change.part == 0,
            "a change");
    mvt::builder wanted;
    require(std::ranges::equal(told.bytes(), wanted.layer("a").finish()), "the mended tile");
    try {
        static_cast<void>(mvt::mend(std::string_view("\0", 1)));
        require(false, "a broken tile is mended");
    } catch (const mvt::refused &why) {
        require(why.cause() == MVT_CAUSE_FIELD_NUMBER, "its cause");
    }
}

/// What is round a fault: the layer `a` with a line that goes nowhere.
void surround() {
    const std::string tile("\x1a\x12\x78\x02\x0a\x01\x61\x12\x0b\x18\x02\x22\x07\x09\x04\x04\x0a\x00\x00\x00", 20);
    try {
        mvt::judge(tile);
        require(false, "a broken tile is accepted");
    } catch (const mvt::refused &why) {
        mvt::surroundings first = mvt::around(tile, why);
        const mvt::surroundings told = std::move(first);
        require(first.steps().empty() && told.layer()->body == 2 && told.feature()->start == 7 &&
                    told.message().body == 9,
                "bounds");
        require(told.list() == 4 && told.kind() == 2 && !told.extent() && told.keys().empty() && told.tags().empty(),
                "numbers");
        require(told.geometry()[why.at()].start == why.start() && told.place().start == *why.start(),
                "the integer of the fault");
        require(told.steps()[2].role == MVT_ROLE_MOVE_Y && told.steps()[2].x == 2 && told.steps()[2].y == 2, "a point");
        require(told.fields().size() == 2 && told.fields()[1].number == 4 && told.fields()[1].bounds.end == 20,
                "fields");
    }
}

/// Four threads get what one gets.
void share(mvt::byte_span input) {
    const mvt::bytes rewritten = mvt::rewrite(input), shown = mvt::json(input);
    std::vector<int> wrong(4);
    std::vector<std::jthread> threads;
    for (int &count : wrong) {
        threads.emplace_back([&] {
            for (int i = 0; i < 20; ++i) {
                count += !std::ranges::equal(mvt::rewrite(input), rewritten);
                count += mvt::json(input).str() != shown.text();
                look(input);
            }
        });
    }
    threads.clear();
    require(wrong == std::vector<int>(4), "a thread got something else");
}

using test = void (*)(mvt::byte_span);

const std::map<std::string_view, test> TESTS{
    {"hold", hold},
    {"look", look},
    {"write", write},
    {"share", share},
    {"pieces", pieces},
    {"take", take},
    {"bound", bound},
    {"pick", pick},
    {"lend", [](mvt::byte_span) { lend(); }},
    {"explain", [](mvt::byte_span) { explain(); }},
    {"build", [](mvt::byte_span) { build(); }},
    {"range", [](mvt::byte_span) { range(); }},
    {"equal", [](mvt::byte_span) { equal(); }},
    {"undrawn", [](mvt::byte_span) { undrawn(); }},
    {"mix", mix},
    {"remark", remark},
    {"mend", mend},
    {"surround", [](mvt::byte_span) { surround(); }},
    {"kinds", kinds},
};

} // namespace

int main(int count, char **words) try {
    const std::string input = whole_input();
    require(count == 2 && TESTS.contains(words[1]), "a test of that name");
    TESTS.at(words[1])(mvt::bytes_of(input));
    return 0;
} catch (const std::exception &why) {
    std::cerr << "broken: " << why.what() << '\n';
    return 9;
}
