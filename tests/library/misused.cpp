// What the wrapper keeps from compiling: -DCASE=N has one of these lines, and without it all that is here is fine.
#include "mvt.hpp"

#ifndef CASE
#define CASE 0
#endif

inline std::size_t use(const std::string &of, const mvt_tile &mine, const mvt_bytes &text) {
    std::size_t sum = mvt::write(mine).size() + text.len + mvt::json(of).str().size();
    const mvt::tile tile = mvt::read(of);
    for (const mvt_layer &layer : tile.layers()) sum += layer.features.len;
#if CASE == 1 // rows of a tile that is gone
    for (const mvt_layer &layer : mvt::read(of).layers()) sum += layer.features.len;
#elif CASE == 2  // a text that is gone
    const std::string_view kept = mvt::json(of).text();
    sum += kept.size();
#elif CASE == 3  // bytes that are gone
    sum += mvt::rewrite(of).span().size();
#elif CASE == 4  // a name that is gone
    sum += mvt::read(of).text(tile.layers()[0].name).size();
#elif CASE == 5  // rows that aren't the library's, given back by it
    const mvt::tile owned{mine};
    sum += owned.layers().size();
#elif CASE == 6  // bytes that aren't the library's, given back by it
    const mvt::bytes owned{text};
    sum += owned.size();
#elif CASE == 7  // what is made isn't looked at
    mvt::rewrite(of);
#elif CASE == 8  // one name in the place of names
    sum += mvt::extract(of, "water").size();
#elif CASE == 9  // a literal, whose last byte is a zero
    sum += mvt::json("").size();
#elif CASE == 10 // a span of what is gone
    sum += mvt::read(of).points(tile.parts(tile.features(tile.layers()[0])[0])[0]).size();
#elif CASE == 11 // attributes of a tile that is gone, whose views may be kept
    mvt::read(of).attributes(tile.layers()[0], tile.features(tile.layers()[0])[0], [](auto, auto) {});
#elif CASE == 12 // a null pointer as a value
    mvt::builder().layer("a").feature(MVT_POINTS).tag("k", nullptr);
#elif CASE == 13 // a null pointer as a name
    mvt::builder().layer(nullptr);
#elif CASE == 14 // a range of attributes of a tile that is gone
    for (auto [key, value] : mvt::read(of).attributes(tile.layers()[0], tile.features(tile.layers()[0])[0]))
        sum += key.size();
#elif CASE == 15 // bytes that are gone: clang alone tells
    const mvt::input kept = std::string("gone");
    sum += kept.size();
#elif CASE == 16 // the same, in a vector
    const mvt::input kept{std::vector<char>(3)};
    sum += kept.size();
#endif
    return sum;
}
