// Each case (fixtures/tiles/cases.py) is in C++ as the program says.
#include "mvt.hpp"

#include "tests.h"

#include <algorithm>
#include <cstdlib>
#include <string>
#include <vector>

namespace {

std::string said(const told_case &of, const char *key) {
    std::size_t len;
    char *text = case_text(&of, key, &len);
    const std::string made(text, len);
    std::free(text);
    return made;
}

std::string bytes_said(const told_case &of, const char *key) {
    std::size_t len;
    std::uint8_t *bytes = case_bytes(&of, key, &len);
    const std::string made(bytes, bytes + len);
    std::free(bytes);
    return made;
}

void same(std::string_view got, std::string_view wanted, const char *what) {
    require_bytes(got.data(), got.size(), wanted.data(), wanted.size(), what);
}

std::string text_of(mvt::byte_span bytes) { return {bytes.begin(), bytes.end()}; }

mvt::tile in_pieces(mvt::byte_span tile, std::size_t size) {
    mvt::decoder decoder;
    for (std::size_t at = 0; at < tile.size(); at += size)
        decoder.feed(tile.subspan(at, std::min(size, tile.size() - at)));
    return decoder.finish();
}

std::size_t size_of_pieces(mvt::byte_span tile) { return tile.size() < 100'000 ? 7 : 1 << 16; }

std::ptrdiff_t lines_of(const std::string &text) { return std::ranges::count(text, '\n'); }

/// The layers that the case has by name, extracted alone.
void extracted(const told_case &of, mvt::byte_span tile) {
    std::size_t len;
    for (const char *line = of.lines; (line = case_line(line, "extract", &len)) != nullptr; line += len) {
        const std::string_view name(line, strchr(line, ' '));
        const std::size_t digits = len - name.size() - 1;
        std::uint8_t *bytes = bytes_of_digits(line + name.size() + 1, digits, 0);
        const std::string wanted(bytes, bytes + digits / 2);
        std::free(bytes);
        same(mvt::extract(tile, {name}).str(), wanted, "a layer alone");
        require(mvt::read_layer(tile, name) == mvt::read(wanted), "a layer that is read alone");
    }
}

void accepted(const told_case &of, mvt::byte_span tile) {
    const std::string check = said(of, "check"), lint = said(of, "lint"), canonical = bytes_said(of, "canonical");
    const mvt::summary survey = mvt::survey(tile);
    const std::string counts =
        "ok layers " + std::to_string(survey.layers()) + " features " + std::to_string(survey.features());
    same(mvt::report(tile).str(), check, "check");
    same(counts + " canonical " + (survey.is_canonical() ? "yes" : "no"), check.substr(0, check.find('\n')),
         "what is counted");
    require(static_cast<std::ptrdiff_t>(survey.notes().size()) == lines_of(check) - 1, "the notes");
    same(mvt::lint(tile).str(), lint, "lint");
    require(static_cast<std::ptrdiff_t>(mvt::lint_rows(tile).size()) == lines_of(lint), "the findings");
    same(mvt::json(tile).str() + "\n", said(of, "show"), "show");
    same(mvt::svg(tile).str() + "\n", said(of, "draw"), "draw");
    same(mvt::rewrite(tile).str(), canonical, "canonical");
    const mvt::tile read = mvt::read(tile);
    same(mvt::write(read.rows()).str(), canonical, "rows that are written");
    require(in_pieces(tile, size_of_pieces(tile)) == read, "a tile in pieces");
    const mvt::mended mended = mvt::mend(tile);
    same(text_of(mended.bytes()), canonical, "nothing to mend");
    require(mended.changes().empty(), "no changes");
    extracted(of, tile);
}

/// The sentence of the fault, of which the line is the case's.
template <class Call>
std::string refuses(const told_case &of, Call call, const char *what) {
    try {
        call();
    } catch (const mvt::refused &why) {
        same(why.line() + "\n", said(of, "fault"), what);
        return std::string(why.sentence());
    }
    require(false, what);
    return {};
}

void refused(const told_case &of, mvt::byte_span tile, const mvt::refused &why) {
    const std::string line = why.line(), sentence(why.sentence());
    same(line + "\n", said(of, "fault"), "the line of a fault");
    same(sentence + "\n", said(of, "sentence"), "the sentence of a fault");
    same(why.what(), line + ": " + sentence, "the text of a fault");
    same(std::to_string(why.start().value()) + " " + std::to_string(why.end().value()) + "\n", said(of, "place"),
         "the place");
    const bool looks = sentence.starts_with("This isn't a tile, but looks like ");
    require(mvt::looks_like(tile).has_value() == looks, "what the bytes look like");
    refuses(
        of, [&] { static_cast<void>(mvt::read(tile)); }, "read");
    refuses(
        of, [&] { static_cast<void>(mvt::rewrite(tile)); }, "rewrite");
    refuses(
        of, [&] { static_cast<void>(mvt::extract(tile, {"a"})); }, "extract");
    refuses(
        of, [&] { static_cast<void>(mvt::json(tile)); }, "json");
    refuses(
        of, [&] { static_cast<void>(mvt::svg(tile)); }, "svg");
    refuses(
        of, [&] { static_cast<void>(mvt::report(tile)); }, "report");
    refuses(
        of, [&] { static_cast<void>(mvt::survey(tile)); }, "survey");
    refuses(
        of, [&] { static_cast<void>(mvt::lint(tile)); }, "lint");
    refuses(
        of, [&] { static_cast<void>(mvt::lint_rows(tile)); }, "lint_rows");
    refuses(
        of, [&] { static_cast<void>(in_pieces(tile, size_of_pieces(tile))); }, "pieces");
    same(refuses(
             of, [&] { static_cast<void>(in_pieces(tile, tile.size())); }, "one piece"),
         sentence, "a decoder's sentence");
    if (!case_has(&of, "mended")) {
        refuses(
            of, [&] { static_cast<void>(mvt::mend(tile)); }, "mend");
        return;
    }
    const mvt::mended mended = mvt::mend(tile);
    same(text_of(mended.bytes()), bytes_said(of, "mended"), "the mended tile");
    require(static_cast<std::ptrdiff_t>(mended.changes().size()) == lines_of(said(of, "change")), "the changes");
}

void look(const told_case *of) {
    const mvt::byte_span tile{of->tile, of->len};
    try {
        mvt::judge(tile);
    } catch (const mvt::refused &why) {
        return refused(*of, tile, why);
    }
    accepted(*of, tile);
}

} // namespace

int main() try {
    each_case(look);
    return 0;
} catch (const std::exception &why) {
    std::fprintf(stderr, "broken: %s: %s\n", tests_at, why.what());
    return 1;
}
