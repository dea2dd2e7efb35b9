/* mvt for C++20: the calls of mvt.h, with owners that free their memory, views instead of pointers, and exceptions that
 * hold the fault. It is this header alone, and needs mvt.h and the library libmvt.
 *
 *     const mvt::tile tile = mvt::read(bytes);
 *     for (const mvt_layer &layer : tile.layers())
 *         std::cout << tile.text(layer.name) << ": " << layer.features.len << " features\n";
 */
#ifndef MVT_HPP
#define MVT_HPP

#if defined(_MSVC_LANG) ? _MSVC_LANG < 202002L : __cplusplus < 202002L
#error "mvt.hpp needs C++20: -std=c++20"
#endif

#include "mvt.h"

#include <algorithm>
#include <bit>
#include <concepts>
#include <cstddef>
#include <cstdint>
#include <initializer_list>
#include <iterator>
#include <memory>
#include <new>
#include <optional>
#include <ranges>
#include <span>
#include <stdexcept>
#include <string>
#include <string_view>
#include <type_traits>
#include <utility>
#include <variant>
#include <vector>

/* Where the compiler can tell, it warns of what is kept longer than the temporary that it looks into. */
#if defined(__clang__) && __has_cpp_attribute(clang::lifetimebound)
#define MVT_LOOKED_INTO [[clang::lifetimebound]]
#else
#define MVT_LOOKED_INTO
#endif

namespace mvt {

using byte_span = std::span<const std::uint8_t>;

/// The bytes of a string.
[[nodiscard]] inline byte_span bytes_of(std::string_view text) noexcept {
    return {reinterpret_cast<const std::uint8_t *>(text.data()), text.size()};
}

namespace detail {
template <class T>
concept byte_like = std::same_as<T, char> || std::same_as<T, signed char> || std::same_as<T, unsigned char> ||
    std::same_as<T, std::byte> || std::same_as<T, char8_t>;

/// Contiguous bytes. A char array may be a literal; the zero at its end doesn't belong to it.
template <class R>
concept bytes_in_a_row =
    std::ranges::contiguous_range<R> && std::ranges::sized_range<R> && byte_like<std::ranges::range_value_t<R>> &&
    !(std::is_array_v<R> && std::same_as<std::ranges::range_value_t<R>, char>);
} // namespace detail

/// The bytes that a call takes, from anything contiguous: a string, a vector of char or std::byte, a span. It looks into
/// these, so it is for parameters: a variable of this type dangles once the bytes are gone, at once if they are a temporary.
class input {
public:
    constexpr input() noexcept = default;
    constexpr input(const std::uint8_t *data, std::size_t size) noexcept : bytes_(data, size) {}
    template <class R>
    requires(!std::same_as<std::remove_cvref_t<R>, input> && detail::bytes_in_a_row<std::remove_reference_t<R>>)
        input(R &&of MVT_LOOKED_INTO)
    noexcept : bytes_(reinterpret_cast<const std::uint8_t *>(std::ranges::data(of)), std::ranges::size(of)) {}

    [[nodiscard]] const std::uint8_t *data() const noexcept { return bytes_.data(); }
    [[nodiscard]] std::size_t size() const noexcept { return bytes_.size(); }

private:
    byte_span bytes_;
};

/// The base of all errors, except out of memory, which is std::bad_alloc.
class error : public std::runtime_error {
    using std::runtime_error::runtime_error;
};

/// A text that a call takes, from whatever a std::string_view can be made of. Throws error for a null pointer. Like `input`,
/// it is for parameters.
class text_input {
public:
    constexpr text_input() noexcept = default;
    constexpr text_input(const char *data, std::size_t size) noexcept : view_(data, size) {}
    template <class T>
    requires(std::convertible_to<const T &, std::string_view> && !std::same_as<T, std::nullptr_t>)
        text_input(const T &of MVT_LOOKED_INTO)
        : view_(view_of(of)) {}
    text_input(std::nullptr_t) = delete;

    [[nodiscard]] std::string_view view() const noexcept { return view_; }
    [[nodiscard]] mvt_bytes bytes() const noexcept { return {bytes_of(view_).data(), view_.size()}; }

private:
    template <class T>
    static std::string_view view_of(const T &of) {
        if constexpr (std::is_pointer_v<T>)
            if (of == nullptr) throw error("a text is a null pointer");
        return of;
    }

    std::string_view view_;
};

/// The result would be larger than MVT_LIMIT bytes.
class too_large : public error {
    using error::error;
};

/// No layer of version 2 has this name.
class no_layer : public error {
public:
    explicit no_layer(const std::string &name)
        : error("no layer of version 2 has the name " + name), name_(std::make_shared<const std::string>(name)) {}

    [[nodiscard]] const std::string &name() const noexcept { return *name_; }

private:
    std::shared_ptr<const std::string> name_; // an exception is copied without memory
};

/// A name isn't UTF-8.
class bad_name : public error {
    using error::error;
};

/// The rows are no valid tile. Says the first thing that is wrong with them, if it is known.
class no_tile : public error {
public:
    using error::error;
    explicit no_tile(const mvt_rows_fault &fault) : error(line_of(fault)), fault_(fault) {}

    /// The layer, the feature if the fault is in one, and the cause; of a geometry that no commands draw also the rule that
    /// it breaks, the part, and the point if it is broken at one.
    [[nodiscard]] std::optional<mvt_rows_fault> fault() const noexcept { return fault_; }

private:
    static std::string line_of(const mvt_rows_fault &fault) {
        std::string line = "layer " + std::to_string(fault.layer);
        if (fault.has_feature) line += " feature " + std::to_string(fault.feature);
        if (fault.rule == 0) return line + ": " + mvt_rows_cause_text(fault.cause);
        line += " part " + std::to_string(fault.part);
        if (fault.has_point) line += " point " + std::to_string(fault.point);
        return line + ": " + mvt_cause_text(fault.rule);
    }

    std::optional<mvt_rows_fault> fault_;
};

/// The bytes are no tile. Says the first broken rule: the line that the program `mvt` prints, and the sentence.
class refused : public error {
public:
    /// Pass the refused bytes; or the first MVT_HEAD of them, and how many there are.
    explicit refused(const mvt_fault &fault, input of = {}, std::optional<std::uint64_t> size = {})
        : refused(fault, of, !size, mvt_explain_head(of.data(), of.size(), size.value_or(of.size()), &fault)) {}

    /// The line that the program `mvt` prints.
    [[nodiscard]] std::string line() const { return line_of(fault_); }
    [[nodiscard]] std::optional<std::uint32_t> layer() const noexcept { return index(fault_.layer); }
    [[nodiscard]] std::optional<std::uint32_t> feature() const noexcept { return index(fault_.feature); }
    /// An offset in the tile, or an index in the feature's tags or in the integers of its geometry.
    [[nodiscard]] std::uint64_t at() const noexcept { return fault_.at; }
    /// The number of the cause, an mvt_cause, and its name.
    [[nodiscard]] std::uint32_t cause() const noexcept { return fault_.cause; }
    [[nodiscard]] std::string_view name() const noexcept { return text_of(fault_.name); }
    /// The fault in plain words.
    [[nodiscard]] std::string_view sentence() const noexcept { return sentence_; }
    /// The layer's name, which may not be UTF-8, and the feature's id, if the bytes have them.
    [[nodiscard]] std::optional<std::string_view> layer_name() const noexcept {
        if (layer_name_ == nullptr) return std::nullopt;
        return *layer_name_;
    }
    [[nodiscard]] std::optional<std::uint64_t> feature_id() const noexcept { return feature_id_; }
    /// Where the bytes of the fault begin and end. If both are equal, something is missing before that byte. Not for a
    /// decoder, which keeps no bytes.
    [[nodiscard]] std::optional<std::uint64_t> start() const noexcept { return start_; }
    [[nodiscard]] std::optional<std::uint64_t> end() const noexcept { return end_; }

private:
    refused(const mvt_fault &fault, input of, bool are_all, const char *sentence)
        : error(line_of(fault) + ": " + sentence), fault_(fault), sentence_(sentence) {
        mvt_place place{};
        mvt_locate(of.data(), of.size(), &fault, &place);
        if (place.has_layer_name) layer_name_ = std::make_shared<const std::string>(text_of(place.layer_name));
        if (place.has_feature_id) feature_id_ = place.feature_id;
        if (of.size() == 0 || !are_all) return;
        start_ = place.start;
        end_ = place.end;
    }

    static std::optional<std::uint32_t> index(std::int64_t of) noexcept {
        if (of < 0) return std::nullopt;
        return static_cast<std::uint32_t>(of);
    }

    static std::string_view text_of(const mvt_bytes &bytes) noexcept {
        return {reinterpret_cast<const char *>(bytes.data), bytes.len};
    }

    static std::string shown(std::int64_t of) { return of < 0 ? "-" : std::to_string(of); }

    static std::string line_of(const mvt_fault &fault) {
        return "layer " + shown(fault.layer) + " feature " + shown(fault.feature) + " at " + std::to_string(fault.at) +
               ": " + std::to_string(fault.cause) + " " + std::string(text_of(fault.name));
    }

    mvt_fault fault_;      // its name lasts for good
    const char *sentence_; // and so does this
    std::shared_ptr<const std::string> layer_name_;
    std::optional<std::uint64_t> feature_id_, start_, end_;
};

/// Throws the error of a status other than MVT_OK. Pass the bytes that the call took, or the first few of them.
inline void require_ok(std::uint32_t status, const mvt_fault &fault, input of = {},
                       std::optional<std::uint64_t> size = {}) {
    switch (status) {
    case MVT_OK: return;
    case MVT_REFUSED: throw refused(fault, of, size);
    case MVT_NO_MEMORY: throw std::bad_alloc();
    case MVT_TOO_LARGE: throw too_large(mvt_status_text(status));
    case MVT_BAD_NAME: throw bad_name(mvt_status_text(status));
    case MVT_NO_TILE: throw no_tile(mvt_status_text(status));
    default: throw error(mvt_status_text(status));
    }
}

/// Bytes or a text from the library.
class bytes {
public:
    bytes() noexcept = default;
    /// Takes over what a call of mvt.h put into its `out`, and frees it. Not for bytes inside of what was returned, such as
    /// the name of a fault or of a place, nor for bytes from elsewhere.
    [[nodiscard]] static bytes adopt(const mvt_bytes &held) noexcept {
        bytes made;
        made.held_ = held;
        return made;
    }
    bytes(bytes &&other) noexcept : held_(std::exchange(other.held_, {})) {}
    bytes &operator=(bytes other) noexcept {
        std::swap(held_, other.held_);
        return *this;
    }
    bytes(const bytes &) = delete;
    ~bytes() { mvt_bytes_free(&held_); }

    [[nodiscard]] std::size_t size() const noexcept { return held_.len; }
    [[nodiscard]] bool empty() const noexcept { return held_.len == 0; }
    /// A copy as a string.
    [[nodiscard]] std::string str() const { return std::string(view()); }

    // These are valid as long as the owner lives, so a temporary has none.
    [[nodiscard]] const std::uint8_t *data() const &noexcept { return held_.data; }
    [[nodiscard]] const std::uint8_t *begin() const &noexcept { return held_.data; }
    [[nodiscard]] const std::uint8_t *end() const &noexcept { return held_.data + held_.len; }
    [[nodiscard]] byte_span span() const &noexcept { return {held_.data, held_.len}; }
    [[nodiscard]] std::string_view text() const &noexcept { return view(); }
    [[nodiscard]] friend bool operator==(const bytes &one, const bytes &other) noexcept {
        return one.view() == other.view();
    }
    const std::uint8_t *data() const && = delete;
    const std::uint8_t *begin() const && = delete;
    const std::uint8_t *end() const && = delete;
    byte_span span() const && = delete;
    std::string_view text() const && = delete;

private:
    std::string_view view() const noexcept { return {reinterpret_cast<const char *>(held_.data), held_.len}; }

    mvt_bytes held_{};
};

/// A whole number that a tile spells as an int (below zero in ten bytes), or as a sint. Each is a type of its own, so that
/// what was read is what is built, and is its number where one is wanted.
template <mvt_value_kind Kind>
class signed_value {
public:
    constexpr explicit signed_value(std::int64_t number) noexcept : number_(number) {}
    [[nodiscard]] constexpr operator std::int64_t() const noexcept { return number_; }
    [[nodiscard]] friend constexpr bool operator==(signed_value, signed_value) noexcept = default;

private:
    std::int64_t number_;
};
using int_value = signed_value<MVT_INT>;
using sint_value = signed_value<MVT_SINT>;

/// A value: a text, a number or a truth. An unsigned number is a uint.
using value = std::variant<std::string_view, float, double, int_value, std::uint64_t, sint_value, bool>;

class attribute_range;

/// A tile as rows. Views of its lists and texts are valid as long as the tile lives, so a temporary has none. A call that
/// takes a row throws error if the row is of another tile and leads beyond this one's lists; a tile that was moved from has
/// no rows.
class tile {
public:
    tile() noexcept = default;
    /// Takes over the rows that mvt_read, mvt_read_layer or mvt_decoder_finish returned, and frees them. Not
    /// for those of mvt_builder_rows, which the builder frees, nor for rows made by hand.
    [[nodiscard]] static tile adopt(const mvt_tile &rows) noexcept {
        tile made;
        made.rows_ = rows;
        return made;
    }
    tile(tile &&other) noexcept : rows_(std::exchange(other.rows_, {})) {}
    tile &operator=(tile other) noexcept {
        std::swap(rows_, other.rows_);
        return *this;
    }
    tile(const tile &) = delete;
    ~tile() { mvt_tile_free(&rows_); }

    [[nodiscard]] const mvt_tile &rows() const &noexcept { return rows_; }
    const mvt_tile &rows() const && = delete;

    [[nodiscard]] std::span<const mvt_layer> layers() const &noexcept { return {rows_.layers, rows_.layer_count}; }
    std::span<const mvt_layer> layers() const && = delete;

    /// The layer of version 2 with this name, or a null pointer.
    [[nodiscard]] const mvt_layer *layer(text_input name) const & {
        const auto all = layers();
        const auto at = std::ranges::find_if(
            all, [&](const mvt_layer &it) { return it.version == 2 && text(it.name) == name.view(); });
        return at == all.end() ? nullptr : &*at;
    }
    const mvt_layer *layer(text_input name) const && = delete;

    [[nodiscard]] std::span<const mvt_feature> features(const mvt_layer &layer) const & {
        return part(rows_.features, rows_.feature_count, layer.features);
    }
    std::span<const mvt_feature> features(const mvt_layer &) const && = delete;

    [[nodiscard]] std::span<const mvt_part> parts(const mvt_feature &feature) const & {
        return part(rows_.parts, rows_.part_count, feature.parts);
    }
    std::span<const mvt_part> parts(const mvt_feature &) const && = delete;

    [[nodiscard]] std::span<const mvt_point> points(const mvt_part &of) const & {
        return part(rows_.points, rows_.point_count, of.points);
    }
    std::span<const mvt_point> points(const mvt_part &) const && = delete;

    /// The integers of an unknown geometry.
    [[nodiscard]] std::span<const std::uint32_t> integers(const mvt_feature &feature) const & {
        return part(rows_.integers, rows_.integer_count, feature.integers);
    }
    std::span<const std::uint32_t> integers(const mvt_feature &) const && = delete;

    /// A span of the texts: a layer's name, or the bytes of a layer of another version.
    [[nodiscard]] std::string_view text(mvt_span span) const & {
        const auto bytes = part(rows_.texts, rows_.text_len, span);
        return {reinterpret_cast<const char *>(bytes.data()), bytes.size()};
    }
    std::string_view text(mvt_span) const && = delete;

    /// The attributes of a feature of the layer, in order: `for (auto [key, value] : tile.attributes(layer, feature))`.
    [[nodiscard]] attribute_range attributes(const mvt_layer &layer, const mvt_feature &feature) const &;
    attribute_range attributes(const mvt_layer &, const mvt_feature &) const && = delete;

    /// Calls `visit(key, value)` with each of them.
    template <class Visit>
    void attributes(const mvt_layer &layer, const mvt_feature &feature, Visit visit) const &;
    template <class Visit>
    void attributes(const mvt_layer &, const mvt_feature &, Visit) const && = delete;

    /// The value that a feature of the layer has for a key, if it has one.
    [[nodiscard]] std::optional<value> attribute(const mvt_layer &layer, const mvt_feature &feature,
                                                 text_input key) const &;
    std::optional<value> attribute(const mvt_layer &, const mvt_feature &, text_input) const && = delete;

    [[nodiscard]] value value_of(const mvt_value &row) const & {
        switch (row.kind) {
        case MVT_TEXT: return text(row.text);
        case MVT_FLOAT: return std::bit_cast<float>(static_cast<std::uint32_t>(row.bits));
        case MVT_DOUBLE: return std::bit_cast<double>(row.bits);
        case MVT_UINT: return row.bits;
        case MVT_SINT: return sint_value(static_cast<std::int64_t>(row.bits));
        case MVT_BOOL: return row.bits != 0;
        default: return int_value(static_cast<std::int64_t>(row.bits));
        }
    }
    value value_of(const mvt_value &) const && = delete;

    /// Whether the canonical bytes are equal, so keys and values that no feature uses don't count, and numbers are equal if
    /// their bits are. Makes these bytes, and throws what `write` throws.
    friend bool operator==(const tile &one, const tile &other);

private:
    friend class attribute_range;

    [[noreturn]] static void refuse() { throw error("a row of another tile, or of one that was moved from"); }

    template <class Row>
    static std::span<const Row> part(const Row *list, std::size_t count, mvt_span span) {
        if (span.len == 0) return {};
        if (span.start > count || span.len > count - span.start) refuse();
        return {list + span.start, static_cast<std::size_t>(span.len)};
    }

    template <class Row>
    static const Row &at(std::span<const Row> rows, std::uint32_t index) {
        if (index >= rows.size()) refuse();
        return rows[index];
    }

    mvt_tile rows_{};
};

/// The attributes of a feature: pairs of a key and a value. A view of the tile, which it may not outlive. Throws error where a
/// tag leads beyond the layer's keys or values.
class attribute_range : public std::ranges::view_base {
public:
    class iterator {
    public:
        using value_type = std::pair<std::string_view, value>;
        using difference_type = std::ptrdiff_t;
        using iterator_category = std::input_iterator_tag;  // it makes its pairs, and
        using iterator_concept = std::forward_iterator_tag; // can begin anew

        iterator() noexcept = default;
        [[nodiscard]] value_type operator*() const {
            return {of_->text(tile::at(keys_, tag_[0])), of_->value_of(tile::at(values_, tag_[1]))};
        }
        iterator &operator++() noexcept {
            tag_ += 2;
            return *this;
        }
        iterator operator++(int) noexcept {
            iterator before = *this;
            ++*this;
            return before;
        }
        [[nodiscard]] friend bool operator==(const iterator &one, const iterator &other) noexcept {
            return one.tag_ == other.tag_;
        }

    private:
        friend class attribute_range;

        const tile *of_ = nullptr;
        std::span<const mvt_span> keys_;
        std::span<const mvt_value> values_;
        const std::uint32_t *tag_ = nullptr;
    };

    attribute_range() noexcept = default;

    [[nodiscard]] iterator begin() const noexcept { return begin_; }
    [[nodiscard]] iterator end() const noexcept {
        iterator end = begin_;
        end.tag_ += 2 * size_;
        return end;
    }
    [[nodiscard]] std::size_t size() const noexcept { return size_; }
    [[nodiscard]] bool empty() const noexcept { return size_ == 0; }

private:
    friend class tile;

    attribute_range(const tile &of, const mvt_layer &layer, const mvt_feature &feature) {
        const auto tags = tile::part(of.rows_.tags, of.rows_.tag_count, feature.tags);
        begin_.of_ = &of;
        begin_.keys_ = tile::part(of.rows_.keys, of.rows_.key_count, layer.keys);
        begin_.values_ = tile::part(of.rows_.values, of.rows_.value_count, layer.values);
        begin_.tag_ = tags.data();
        size_ = tags.size() / 2;
    }

    iterator begin_;
    std::size_t size_ = 0;
};

inline attribute_range tile::attributes(const mvt_layer &layer, const mvt_feature &feature) const & {
    return {*this, layer, feature};
}

template <class Visit>
void tile::attributes(const mvt_layer &layer, const mvt_feature &feature, Visit visit) const & {
    for (const auto &[key, value] : attributes(layer, feature)) visit(key, value);
}

inline std::optional<value> tile::attribute(const mvt_layer &layer, const mvt_feature &feature,
                                            text_input key) const & {
    const auto all = attributes(layer, feature);
    const auto at = std::ranges::find_if(all, [&](const auto &it) { return it.first == key.view(); });
    if (at == all.end()) return std::nullopt;
    return (*at).second;
}

/// A tile as rows, whose lists have at most `most` bytes; beyond that it throws bad_alloc. Throws refused.
[[nodiscard]] inline tile read(input of, std::uint64_t most = UINT64_MAX) {
    mvt_tile rows{};
    mvt_fault fault{};
    require_ok(mvt_read(of.data(), of.size(), most, &rows, &fault), fault, of);
    return tile::adopt(rows);
}

/// The first layer of version 2 with this name, as a tile that has no other layer. Reads only as far as this layer; later
/// bytes may be broken. Throws refused and no_layer.
[[nodiscard]] inline tile read_layer(input of, text_input name) {
    mvt_tile rows{};
    mvt_fault fault{};
    const std::uint32_t status = mvt_read_layer(of.data(), of.size(), name.bytes(), &rows, &fault);
    if (status == MVT_NO_LAYER) throw no_layer(std::string(name.view()));
    require_ok(status, fault, of);
    return tile::adopt(rows);
}

/// Reads a tile that comes in pieces of any length. Only one thread may use it at a time.
class decoder {
public:
    /// With a bound on the bytes of the rows.
    explicit decoder(std::uint64_t most = UINT64_MAX) { require_ok(mvt_decoder_new(&held_, most), {}); }
    decoder(decoder &&other) noexcept
        : held_(std::exchange(other.held_, {})), head_(std::move(other.head_)), size_(other.size_) {}
    decoder &operator=(decoder other) noexcept {
        std::swap(held_, other.held_);
        std::swap(head_, other.head_);
        std::swap(size_, other.size_);
        return *this;
    }
    decoder(const decoder &) = delete;
    ~decoder() { mvt_decoder_free(&held_); }

    /// Takes a piece. Throws refused as soon as no further byte can change the fault, and again at each further call.
    void feed(input piece) {
        mvt_fault fault{};
        const std::size_t more = std::min(piece.size(), MVT_HEAD - head_.size());
        head_.insert(head_.end(), piece.data(), piece.data() + more);
        size_ += piece.size();
        require_ok(mvt_decoder_feed(&held_, piece.data(), piece.size(), &fault), fault, head_, size_);
    }

    /// The tile, after the last piece. Ends the decoder. Throws refused.
    [[nodiscard]] tile finish() {
        mvt_tile rows{};
        mvt_fault fault{};
        require_ok(mvt_decoder_finish(&held_, &rows, &fault), fault, head_, size_);
        return tile::adopt(rows);
    }

private:
    mvt_decoder held_{};
    /// The first bytes, to recognise what isn't a tile, as in each language, and how many there were.
    std::vector<std::uint8_t> head_;
    std::uint64_t size_ = 0;
};

/// Throws refused if the bytes are no tile. Makes nothing, so it is the fastest check.
inline void judge(input of) {
    mvt_fault fault{};
    require_ok(mvt_judge(of.data(), of.size(), &fault), fault, of);
}

/// What refused bytes look like, if they don't seem meant as a tile. An accepted tile may begin as something else does.
[[nodiscard]] inline std::optional<mvt_lookalike> looks_like(input of) noexcept {
    const int kind = mvt_looks_like(of.data(), of.size());
    if (kind == 0) return std::nullopt;
    return static_cast<mvt_lookalike>(kind);
}

namespace detail {
/// The result of a call that writes it to its last two parameters.
template <class Call>
bytes made(input of, Call call) {
    mvt_bytes out{};
    mvt_fault fault{};
    require_ok(call(of.data(), of.size(), &out, &fault), fault, of);
    return bytes::adopt(out);
}

/// The canonical bytes that a call writes to the first of its two parameters. Throws no_tile and too_large.
template <class Call>
bytes written(Call call) {
    mvt_bytes out{};
    mvt_rows_fault fault{};
    const std::uint32_t status = call(&out, &fault);
    if (status == MVT_NO_TILE) throw no_tile(fault);
    require_ok(status, {});
    return bytes::adopt(out);
}

/// A name that is valid as long as the range.
template <class T>
concept lasting_name = std::convertible_to<T, std::string_view> &&
    (std::is_lvalue_reference_v<T> || std::is_trivially_copyable_v<std::remove_cvref_t<T>>);

} // namespace detail

/// The canonical bytes of a tile: equal tiles have equal bytes. Throws refused and too_large.
[[nodiscard]] inline bytes rewrite(input of) { return detail::made(of, mvt_rewrite); }

/// The canonical bytes of the named layers, in the order of the tile. Throws refused, too_large, no_layer and bad_name.
template <std::ranges::input_range Names>
requires detail::lasting_name<std::ranges::range_reference_t<Names>>
[[nodiscard]] bytes extract(input of, Names &&names) {
    std::vector<mvt_bytes> rows;
    for (auto &&name : names) rows.push_back(text_input(name).bytes());
    mvt_bytes out{};
    mvt_fault fault{};
    std::size_t missing = 0;
    const std::uint32_t status = mvt_extract(of.data(), of.size(), rows.data(), rows.size(), &out, &fault, &missing);
    if (status == MVT_NO_LAYER)
        throw no_layer(std::string{reinterpret_cast<const char *>(rows[missing].data), rows[missing].len});
    require_ok(status, fault, of);
    return bytes::adopt(out);
}

[[nodiscard]] inline bytes extract(input of, std::initializer_list<std::string_view> names) {
    return extract(of, std::span(names.begin(), names.size()));
}

/// The canonical bytes of the tile that the rows are, wherever they come from. Throws no_tile and too_large.
[[nodiscard]] inline bytes write(const mvt_tile &rows) {
    return detail::written([&](mvt_bytes *out, mvt_rows_fault *fault) { return mvt_write(&rows, out, fault); });
}

inline bool operator==(const tile &one, const tile &other) { return write(one.rows_) == write(other.rows_); }

/// A tile as one line of JSON, without a line end. Throws refused.
[[nodiscard]] inline bytes json(input of) { return detail::made(of, mvt_json); }

/// What `mvt check` prints. Throws refused.
[[nodiscard]] inline bytes report(input of) { return detail::made(of, mvt_report); }

/// What `mvt lint` prints: a line for each thing that viewers stumble over. Throws refused.
[[nodiscard]] inline bytes lint(input of) { return detail::made(of, mvt_lint); }

namespace detail {
/// What a call of mvt.h put into its `out`, which is freed with its owner.
template <class Held, void (*Free)(Held *)>
class owner {
public:
    owner() noexcept = default;
    owner(owner &&other) noexcept : held_(std::exchange(other.held_, {})) {}
    owner &operator=(owner other) noexcept {
        std::swap(held_, other.held_);
        return *this;
    }
    owner(const owner &) = delete;
    ~owner() { Free(&held_); }

protected:
    explicit owner(const Held &held) noexcept : held_(held) {}
    Held held_{};
};
} // namespace detail

/// What `mvt check` says of a tile, as values.
class summary : detail::owner<mvt_summary, mvt_summary_free> {
public:
    summary() noexcept = default;
    /// Takes over what mvt_survey returned, and frees it.
    [[nodiscard]] static summary adopt(const mvt_summary &held) noexcept { return summary(held); }
    /// The layers of every version, and the features of those of version 2.
    [[nodiscard]] std::uint64_t layers() const noexcept { return held_.layers; }
    [[nodiscard]] std::uint64_t features() const noexcept { return held_.features; }
    /// Whether the bytes are those that `rewrite` makes.
    [[nodiscard]] bool is_canonical() const noexcept { return held_.is_canonical == 1; }
    /// What is worth a look; `mvt_note_text` says a kind in words.
    [[nodiscard]] std::span<const mvt_note_row> notes() const &noexcept { return {held_.notes, held_.note_count}; }
    std::span<const mvt_note_row> notes() const && = delete;

private:
    using owner::owner;
};

/// Findings, in the order of the layers, features and attributes; `mvt_finding_text` says a kind in words.
class findings : detail::owner<mvt_findings, mvt_findings_free> {
public:
    findings() noexcept = default;
    /// Takes over what mvt_lint_rows returned, and frees it.
    [[nodiscard]] static findings adopt(const mvt_findings &held) noexcept { return findings(held); }
    [[nodiscard]] std::size_t size() const noexcept { return held_.count; }
    [[nodiscard]] bool empty() const noexcept { return held_.count == 0; }
    [[nodiscard]] const mvt_finding_row *begin() const &noexcept { return held_.rows; }
    [[nodiscard]] const mvt_finding_row *end() const &noexcept { return held_.rows + held_.count; }
    const mvt_finding_row *begin() const && = delete;
    const mvt_finding_row *end() const && = delete;

private:
    using owner::owner;
};

/// A tile that was mended: its canonical bytes, and what was changed in the order of the layers, features and parts.
class mended : detail::owner<mvt_mended, mvt_mended_free> {
public:
    mended() noexcept = default;
    /// Takes over what mvt_mend returned, and frees it.
    [[nodiscard]] static mended adopt(const mvt_mended &held) noexcept { return mended(held); }
    [[nodiscard]] std::span<const std::uint8_t> bytes() const &noexcept { return {held_.bytes.data, held_.bytes.len}; }
    [[nodiscard]] std::span<const mvt_change_row> changes() const &noexcept {
        return {held_.changes, held_.change_count};
    }
    std::span<const std::uint8_t> bytes() const && = delete;
    std::span<const mvt_change_row> changes() const && = delete;

private:
    using owner::owner;
};

/// How many layers and features a tile has, whether its bytes are canonical, and what is worth a look. Throws refused.
[[nodiscard]] inline summary survey(input of) {
    mvt_summary out{};
    mvt_fault fault{};
    require_ok(mvt_survey(of.data(), of.size(), &out, &fault), fault, of);
    return summary::adopt(out);
}

/// What viewers stumble over in a tile that keeps every rule. Throws refused.
[[nodiscard]] inline findings lint_rows(input of) {
    mvt_findings out{};
    mvt_fault fault{};
    require_ok(mvt_lint_rows(of.data(), of.size(), &out, &fault), fault, of);
    return findings::adopt(out);
}

/// A tile with the two rules mended that producers break most, ZeroSegment and FirstRing. A tile that keeps every rule comes as
/// `rewrite` makes it. Throws refused, with the fault of the tile as it stands, where it breaks another rule too, or its rings
/// cross by more than a unit or would take seconds (2^30 steps); and too_large.
[[nodiscard]] inline mended mend(input of) {
    mvt_mended out{};
    mvt_fault fault{};
    require_ok(mvt_mend(of.data(), of.size(), &out, &fault, nullptr), fault, of);
    return mended::adopt(out);
}

/// What there is round a fault. What can't be read isn't there; the layer's name points into the bytes that were given.
class surroundings : detail::owner<mvt_surroundings, mvt_surroundings_free> {
public:
    surroundings() noexcept = default;
    /// Takes over what mvt_around returned, and frees it.
    [[nodiscard]] static surroundings adopt(const mvt_surroundings &held) noexcept { return surroundings(held); }
    [[nodiscard]] const mvt_place &place() const &noexcept { return held_.place; }
    const mvt_place &place() const && = delete;
    /// The bytes of the layer and of the feature that the fault names, and of the innermost message in which it is.
    [[nodiscard]] std::optional<mvt_bounds> layer() const noexcept { return told(held_.has_layer, held_.layer); }
    [[nodiscard]] std::optional<mvt_bounds> feature() const noexcept { return told(held_.has_feature, held_.feature); }
    [[nodiscard]] mvt_bounds message() const noexcept { return held_.message; }
    /// The layer's extent and the feature's type, as the last field says that can be read.
    [[nodiscard]] std::optional<std::uint64_t> extent() const noexcept { return told(held_.has_extent, held_.extent); }
    [[nodiscard]] std::optional<std::uint64_t> kind() const noexcept { return told(held_.has_kind, held_.kind); }
    /// The field whose integers the fault's place counts: 2, tags, 4, geometry, or 0, none.
    [[nodiscard]] std::uint32_t list() const noexcept { return held_.list; }
    /// The layer's keys; the feature's integers, with a step for each of the geometry; the message's fields.
    [[nodiscard]] std::span<const mvt_bounds> keys() const &noexcept { return {held_.keys, held_.key_count}; }
    [[nodiscard]] std::span<const mvt_integer> tags() const &noexcept { return {held_.tags, held_.tag_count}; }
    [[nodiscard]] std::span<const mvt_integer> geometry() const &noexcept {
        return {held_.geometry, held_.geometry_count};
    }
    [[nodiscard]] std::span<const mvt_step> steps() const &noexcept { return {held_.steps, held_.step_count}; }
    [[nodiscard]] std::span<const mvt_field> fields() const &noexcept { return {held_.fields, held_.field_count}; }
    std::span<const mvt_bounds> keys() const && = delete;
    std::span<const mvt_integer> tags() const && = delete;
    std::span<const mvt_integer> geometry() const && = delete;
    std::span<const mvt_step> steps() const && = delete;
    std::span<const mvt_field> fields() const && = delete;

private:
    using owner::owner;
    template <class T>
    static std::optional<T> told(std::uint32_t is_there, const T &of) noexcept {
        return is_there == 1 ? std::optional<T>(of) : std::nullopt;
    }
};

/// What there is round the fault of a refused tile, for any bytes and any fault.
[[nodiscard]] inline surroundings around(input of, const mvt_fault &fault) {
    mvt_surroundings out{};
    require_ok(mvt_around(of.data(), of.size(), &fault, &out), fault, of);
    return surroundings::adopt(out);
}
[[nodiscard]] inline surroundings around(input of, const refused &why) {
    const auto index = [](std::optional<std::uint32_t> told) { return told ? static_cast<std::int64_t>(*told) : -1; };
    return around(of, mvt_fault{index(why.layer()), index(why.feature()), why.at(), why.cause(), {nullptr, 0}});
}

/// A picture of a tile in SVG. Throws refused.
[[nodiscard]] inline bytes svg(input of) { return detail::made(of, mvt_svg); }

namespace detail {
/// A value for the builder. A whole number is a uint or, if negative, a sint; the other kinds have types of their own.
template <class T>
mvt_any any_of(const T &value) {
    if constexpr (std::same_as<T, mvt_any>)
        return value;
    else if constexpr (std::same_as<T, int_value>)
        return mvt_any_int(value);
    else if constexpr (std::same_as<T, sint_value>)
        return mvt_any_sint(value);
    else if constexpr (std::same_as<T, bool>)
        return mvt_any_bool(value);
    else if constexpr (std::same_as<T, float>)
        return mvt_any_float(value);
    else if constexpr (std::same_as<T, double>)
        return mvt_any_double(value);
    else if constexpr (std::unsigned_integral<T>)
        return mvt_any_uint(value);
    else if constexpr (std::integral<T>)
        return value < 0 ? mvt_any_sint(value) : mvt_any_uint(static_cast<std::uint64_t>(value));
    else
        return mvt_any_text(text_input(value).bytes());
}

inline mvt_any any_of(const value &of) {
    return std::visit([](const auto &it) { return any_of(it); }, of);
}

template <class T>
concept valued =
    std::same_as<T, mvt_any> || std::same_as<T, value> || std::same_as<T, int_value> || std::same_as<T, sint_value> ||
    std::integral<T> || std::same_as<T, float> || std::same_as<T, double> || std::convertible_to<const T &, text_input>;
} // namespace detail

/// Makes a tile step by step: begin a layer, begin a feature, add its tags and its points, and finish.
///
///     mvt::builder builder;
///     builder.layer("places");
///     builder.feature(MVT_POINTS, 7).tag("name", "Mill Pond").point(25, 17);
///     const mvt::bytes tile = builder.finish();
///
/// A call that the builder doesn't expect throws error, and so does each further call. finish frees the builder.
class builder {
public:
    builder() noexcept = default;
    builder(builder &&other) noexcept : held_(std::exchange(other.held_, {})) {}
    builder &operator=(builder other) noexcept {
        std::swap(held_, other.held_);
        return *this;
    }
    builder(const builder &) = delete;
    ~builder() { mvt_builder_free(&held_); }

    /// Begins a layer, and ends the one before.
    builder &layer(text_input name, std::uint32_t extent = 4096) {
        return done(mvt_builder_layer(&held_, name.bytes(), extent));
    }
    /// Adds a layer of another version than 2, given by its bytes.
    builder &foreign(std::uint32_t version, input of) {
        return done(mvt_builder_foreign(&held_, version, {of.data(), of.size()}));
    }
    /// The index of a key or a value of the layer, which is added if it is new.
    [[nodiscard]] std::uint32_t key(text_input key) {
        std::uint32_t index = 0;
        done(mvt_builder_key(&held_, key.bytes(), &index));
        return index;
    }
    template <detail::valued T>
    [[nodiscard]] std::uint32_t value(const T &value) {
        std::uint32_t index = 0;
        done(mvt_builder_value(&held_, detail::any_of(value), &index));
        return index;
    }

    /// Begins a feature of the layer, and ends the one before.
    builder &feature(mvt_kind kind) { return done(mvt_builder_feature(&held_, kind)); }
    builder &feature(mvt_kind kind, std::uint64_t id) { return feature(kind).id(id); }
    builder &id(std::uint64_t id) { return done(mvt_builder_id(&held_, id)); }

    /// Adds an attribute, by key and value or by their indices. A whole number is a uint or, if negative, a sint; an
    /// int_value, a sint_value and whatever `attributes` gives are written as they are.
    template <detail::valued T>
    builder &tag(text_input key, const T &value) {
        return done(mvt_builder_tag(&held_, key.bytes(), detail::any_of(value)));
    }
    builder &tag_at(std::uint32_t key, std::uint32_t value) { return done(mvt_builder_tag_at(&held_, key, value)); }

    /// Begin a line of a feature of lines, or a ring of a feature of polygons. An exterior ring begins a polygon, and the
    /// rings after it are its holes.
    builder &line() { return done(mvt_builder_line(&held_)); }
    builder &ring(bool exterior) { return done(mvt_builder_ring(&held_, exterior)); }
    /// Add points to the line or ring that began last, or to a feature of points. A ring closes from its last point to its
    /// first.
    builder &point(std::int32_t x, std::int32_t y) { return done(mvt_builder_point(&held_, x, y)); }
    builder &points(std::span<const mvt_point> points) {
        return done(mvt_builder_points(&held_, points.data(), points.size()));
    }
    builder &points(std::initializer_list<mvt_point> points) {
        return this->points(std::span(points.begin(), points.size()));
    }
    /// Adds integers to a feature of unknown geometry.
    builder &integers(std::span<const std::uint32_t> integers) {
        return done(mvt_builder_integers(&held_, integers.data(), integers.size()));
    }
    /// Adds a whole feature, and ends the one before. Its tags are indices from `key` and `value`, its parts are spans of
    /// these points.
    builder &add(mvt_kind kind, std::optional<std::uint64_t> id, std::span<const std::uint32_t> tags,
                 std::span<const mvt_part> parts, std::span<const mvt_point> points) {
        return done(mvt_builder_add(&held_, kind, id ? &*id : nullptr, tags.data(), tags.size(), parts.data(),
                                    parts.size(), points.data(), points.size()));
    }
    /// Removes the feature that began last, for example if its geometry has become empty.
    builder &drop() { return done(mvt_builder_drop(&held_)); }

    /// The canonical bytes of the tile. The builder may then begin a new tile. Throws no_tile and too_large.
    [[nodiscard]] bytes finish() {
        return detail::written(
            [this](mvt_bytes *out, mvt_rows_fault *fault) { return mvt_builder_finish(&held_, out, fault); });
    }

private:
    builder &done(std::uint32_t status) {
        require_ok(status, {});
        return *this;
    }

    mvt_builder held_{};
};

} // namespace mvt

#undef MVT_LOOKED_INTO

#endif
