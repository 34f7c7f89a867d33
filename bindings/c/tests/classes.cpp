// The classes of str_rope.hpp and str_index.hpp, with each public member called: worked answers of the rows for C, each
// refusal by its type, copies and moves. The last line printed is 'N passed, M failed'.
#include <cstdio>
#include <cstring>
#include <iterator>
#include <list>
#include <new>
#include <sstream>
#include <string>
#include <type_traits>
#include <vector>

#include <str_index.hpp>
#include <str_rope.hpp>

#include "plain_text.hpp"
#include "worked_rows.h"

namespace {

using pauskern::bytes;
using pauskern::encoding;
using pauskern::line_type;
using pauskern::owned_index;
using pauskern::position;
using pauskern::range;
using pauskern::rope;
using pauskern::scheme;
using pauskern::text_index;
using plain::schemes;

std::size_t passed, failed;

void same(bool right, const char *call, std::size_t number = 0)
{
    passed += right;
    failed += !right;
    if (!right)
        std::printf("%s, %zu\n", call, number);
}

// The encodings and the kinds of line in the order of the rows.
const encoding units[ENCODINGS] = {encoding::utf16, encoding::utf8, encoding::utf32};
const line_type types[KINDS] = {line_type::crlf, line_type::lf, line_type::lines};
constexpr line_type crlf = line_type::crlf;
static_assert(std::size(schemes) == SCHEMES, "rows for each scheme");

const std::string_view of_breaks(breaks, sizeof breaks - 1);
const std::string_view of_lines(lines, sizeof lines - 1);

position of(str_indices_position there)
{
    return {there.line, there.character};
}

//
// Worked answers, of a rope and of an index.
//

template <class Text> void counts(const Text &text)
{
    same(text.size() == of_breaks.size() && !text.empty(), "size");
    for (std::size_t i = 0; i < SCHEMES; i++) {
        same(text.count(schemes[i]) == counted[i], "count", i);
        for (const auto &row : from_byte_rows)
            same(text.from_byte_idx(schemes[i], row.byte) == row.by_scheme[i], "from_byte_idx", row.byte);
        for (const auto &row : to_byte_rows)
            same(text.to_byte_idx(schemes[i], row.index) == row.by_scheme[i], "to_byte_idx", row.index);
    }
    for (std::size_t at = 0; at < sizeof boundary_marks - 1; at++)
        same(text.is_char_boundary(at) == (boundary_marks[at] == '1'), "is_char_boundary", at);
}

template <class Text> void positions(const Text &text)
{
    for (std::size_t i = 0; i < ENCODINGS; i++) {
        for (const auto &row : position_rows) {
            const position there = {row.line, row.character[i]};
            const auto exact = text.exact_position_of(crlf, units[i], row.byte);
            same(text.position_of(crlf, units[i], row.byte) == there, "position_of", row.byte);
            same(!exact || *exact == there, "exact_position_of", row.byte);
            same(exact.has_value() == (row.byte <= text.size() && text.byte_of(crlf, units[i], there) == row.byte),
                 "whether a byte is a place", row.byte);
            same(text.range_of(crlf, units[i], {row.byte, 0}) == range{there, position{}}, "range_of", row.byte);
        }
        for (const auto &row : byte_rows) {
            const auto exact = text.exact_byte_of(crlf, units[i], of(row.position));
            same(text.byte_of(crlf, units[i], of(row.position)) == row.byte[i], "byte_of", row.position.line);
            same(exact.value_or(NONE) == row.exact[i], "exact_byte_of", row.position.line);
        }
        for (const auto &row : range_rows) {
            const auto found = text.byte_range(crlf, units[i], {of(row.range.start), of(row.range.end)});
            const bytes wanted = {row.bytes[i].start, row.bytes[i].end};
            same(found.value_or(bytes{NONE, NONE}) == wanted, "byte_range", row.range.start.line);
        }
    }
    for (std::size_t i = 0; i < NUMBER_OF(line_rows); i++) {
        same(text.line(crlf, i) == bytes{line_rows[i].start, line_rows[i].end}, "line", i);
        same(text.line_end(crlf, i) == line_rows[i].end, "line_end", i);
    }
}

// The lines of `breaks` by each kind, in the order of the kinds.
const std::vector<std::string> contents[KINDS] = {
    {"a", FROG "b", "\343\201\233", "\342\200\250x"},
    {"a\r", FROG "b\r\343\201\233", "\342\200\250x"},
    {"a", FROG "b", "\343\201\233", "", "x"},
};

// Each line by its number, in order and backwards, and from one on.
template <class Text> void lines_by_kind(const Text &text)
{
    for (std::size_t i = 0; i < KINDS; i++) {
        const std::vector<std::string> &wanted = contents[i];
        const auto found = text.lines(types[i]);
        std::vector<std::string> there, back;
        for (bytes line : found)
            there.emplace_back(text.text(line));
        for (auto line = found.end(); line != found.begin();)
            back.emplace_back(text.text(*--line));
        same(there == wanted && found.size() == wanted.size(), "lines", i);
        same(std::vector<std::string>(back.rbegin(), back.rend()) == wanted, "lines backwards", i);
        for (std::size_t number = 0; number < wanted.size(); number++) {
            auto line = found.from(number);
            const bytes content = text.line(types[i], number);
            same(line.number() == number && *line == content && found[number] == content, "a line by its number",
                 number);
            same(line++ != line && *std::prev(line) == found[number] && line-- == found.from(number + 1),
                 "steps over lines", number);
            const position begin = {number, 0}, past = {number, NONE};
            same(text.position_of(types[i], units[0], content.start) == begin &&
                     text.exact_position_of(types[i], units[0], content.start) == begin &&
                     text.range_of(types[i], units[0], content).start == begin,
                 "positions by kind of line", number);
            same(text.byte_of(types[i], units[0], begin) == content.start &&
                     text.exact_byte_of(types[i], units[0], begin) == content.start &&
                     !text.exact_byte_of(types[i], units[0], past) &&
                     text.byte_range(types[i], units[0], {begin, past}) == content &&
                     text.line_end(types[i], number) == content.end,
                 "bytes by kind of line", number);
        }
        same(found.from(99) == found.end() && found[99] == bytes{text.size(), text.size()}, "past the last line", i);
    }
}

// All of it, of a text that is empty.
template <class Text> void the_empty_text(const Text &text)
{
    same(text.empty() && text.size() == 0 && text.text().empty(), "no text");
    for (scheme one : schemes)
        same(text.count(one) == 0 && text.from_byte_idx(one, 9) == 0 && text.to_byte_idx(one, 9) == 0, "no text");
    same(text.is_char_boundary(0) && !text.is_char_boundary(1), "no text, boundaries");
    for (encoding one : units)
        for (line_type type : types) {
            same(text.position_of(type, one, 9) == position{} && text.byte_of(type, one, {9, 9}) == 0,
                 "no text, positions");
            same(text.exact_byte_of(type, one, {}) == 0u && !text.exact_byte_of(type, one, {0, 1}),
                 "no text, exact bytes");
            same(text.exact_position_of(type, one, 0) == position{} && !text.exact_position_of(type, one, 1),
                 "no text, places");
            same(text.byte_range(type, one, {}) == bytes{} && !text.byte_range(type, one, {{1, 0}, {0, 0}}),
                 "no text, ranges");
        }
    for (line_type one : types)
        same(text.lines(one).size() == 1 && *text.lines(one).begin() == bytes{} && text.line_end(one, 9) == 0,
             "no text, lines");
    same(text.text({0, 0}).empty(), "no text, a part");
}

//
// Refusals.
//

// Whether a call throws a refusal, and as no other type that comes before it; each tells what it is.
template <class Refusal, class Call> bool refuses(Call call)
{
    try {
        call();
    } catch (const Refusal &refusal) {
        return std::strlen(refusal.what()) != 0;
    } catch (...) {
        return false;
    }
    return false;
}

void refused_changes()
{
    rope text(of_lines), other("other");
    same(refuses<pauskern::not_boundary>([&] { text.insert(4, "x"); }), "insert into a char");
    same(refuses<pauskern::not_boundary>([&] { text.remove({0, 99}); }), "remove past the end");
    same(refuses<pauskern::not_ordered>([&] { text.remove({2, 1}); }), "remove backwards");
    same(refuses<pauskern::not_utf8>([&] { text.insert(0, "\343\201"); }), "insert no UTF-8");
    same(refuses<pauskern::not_utf8>([&] { text.append("\200"); }), "append no UTF-8");
    same(refuses<pauskern::not_utf8>([&] { text.assign("\300\200"); }), "assign no UTF-8");
    same(refuses<pauskern::not_utf8>([] { rope("\377"); }), "a rope of no UTF-8");
    same(refuses<pauskern::not_ordered>([&] { text.replace({2, 1}, "x"); }), "replace backwards");
    same(refuses<pauskern::not_boundary>([&] { text.replace({0, 5}, "x"); }), "replace up to the middle of a char");
    same(refuses<pauskern::not_boundary>([&] { text.split_off(5); }), "split inside a char");
    same(refuses<pauskern::same_rope>([&] { text.append(std::move(text)); }), "append to itself");
    same(refuses<pauskern::not_ordered>([&] { text.change(encoding::utf16, {{1, 0}, {0, 0}}, "x"); }), "change");
    same(refuses<pauskern::not_utf8>([&] { text.change(encoding::utf16, {}, "\200"); }), "change to no UTF-8");
    same(refuses<pauskern::not_boundary>([&] {
             text.change_exact(encoding::utf16, {{1, 1}, {1, 2}}, "x");
         }),
         "change_exact from inside a pair");
    same(text == of_lines, "a text after refusals");
}

void refused_reads()
{
    char room[8] = "?";
    const rope text(of_lines);
    const text_index index(of_lines);
    same(refuses<pauskern::not_ordered>([&] { text.text({2, 1}); }), "text backwards");
    same(refuses<pauskern::not_boundary>([&] { text.text({0, SIZE_MAX}); }), "text past the end");
    same(refuses<pauskern::not_boundary>([&] { text.text({3, 4}); }), "text up to the middle of a char");
    same(refuses<pauskern::too_long>([&] { text.copy_to({0, 3}, room, 2); }) && room[0] == '?', "no room");
    same(refuses<std::length_error>([&] { text.copy_to({0, 3}, room, 2); }), "no room, as a length_error");
    same(refuses<std::invalid_argument>([&] { text.text({2, 1}); }), "text backwards, as an invalid_argument");
    same(refuses<pauskern::not_ordered>([&] { index.text({2, 1}); }), "a part of an index's text backwards");
    same(refuses<pauskern::not_boundary>([&] { index.text({0, SIZE_MAX}); }), "a part past the end");
    same(refuses<pauskern::not_boundary>([&] { index.text({4, 8}); }), "a part from inside a char");
    same(refuses<pauskern::not_utf8>([] { text_index("\343\201"); }), "an index of no UTF-8");
    same(refuses<pauskern::not_utf8>([] { owned_index("\355\240\200"); }), "an owned index of no UTF-8");
}

//
// Ropes.
//

// A text of many chunks.
std::string long_text(std::size_t lines)
{
    std::string text;
    for (std::size_t at = 0; at < lines; at++)
        text += "line of text " FROG "b\r\n";
    return text;
}

// Chunks in order and backwards, from a byte on, and as iterators of the library take them.
void chunks()
{
    const std::string whole = long_text(500);
    const rope text(whole);
    std::string there;
    std::list<std::string> back;
    const pauskern::chunk_range lent = text.chunks();
    for (std::string_view chunk : lent) {
        same(!chunk.empty() && chunk.size() <= STR_ROPE_MAX_CHUNK, "the size of a chunk", chunk.size());
        there += chunk;
    }
    for (auto chunk = lent.end(); chunk != lent.begin();)
        back.emplace_front(*--chunk);
    std::string joined;
    for (const std::string &chunk : back)
        joined += chunk;
    same(there == whole && joined == whole && back.size() > 2, "chunks", back.size());
    const auto second = std::next(lent.begin());
    same(second.start() == (*lent.begin()).size() && lent.from(second.start() + 1) == second, "from a byte on");
    auto step = second;
    same(step++ == second && step == std::next(second) && step-- != second && step == second, "steps over chunks");
    same(lent.end().start() == whole.size() && (*lent.end()).empty() && lent.from(SIZE_MAX) == lent.end(), "the end");
    same(static_cast<std::size_t>(std::distance(lent.begin(), lent.end())) == back.size(), "distance");
    const rope none;
    same(none.chunks().begin() == none.chunks().end() && pauskern::chunk_range::iterator().start() == 0, "no chunk");
}

// Reading into memory, and a stream.
void reading()
{
    const std::string whole = long_text(300);
    const rope text(whole);
    std::string copy(whole.size(), '\0');
    std::ostringstream out;
    same(text.text() == whole && text.text({20, 40}) == whole.substr(20, 20), "text");
    text.copy_to({0, whole.size()}, copy.data(), copy.size());
    same(copy == whole, "copy_to");
    same(text.read(whole.size() - 3, copy.data(), 9) == 3 && copy.substr(0, 3) == "b\r\n", "read");
    same(text.read(whole.size(), copy.data(), 9) == 0, "read from the end on");
    out << text << rope("!") << rope();
    same(out.str() == whole + "!", "stream");
    same(str_rope_len(text.get()) == whole.size(), "get");
}

// Equal texts whose chunks differ, and texts of one length that are not equal.
void comparisons()
{
    const std::string whole = long_text(400);
    rope one(whole), other;
    for (std::size_t at = 0; at < whole.size(); at += 20)
        other.insert(other.size(), std::string_view(whole).substr(at, 20));
    same(one == other && other == one && !(one != other), "equal texts");
    same(one == whole && std::string_view(whole) == one && !(one != std::string_view(whole)), "equal to a string");
    const std::hash<rope> sum;
    same(!(one < other) && one <= other && one >= other && sum(one) == sum(other), "equal texts have one hash");
    other.replace({6000, 6001}, "L");
    same((whole < other.text()) == (one < other) && (one < other) != (one > other), "their order");
    same(sum(one) != sum(other) && sum(rope("a")) == 0xaf63dc4c8601ec8c, "their hashes");
    same(rope("a") < rope("ab") && rope() < rope("a") && rope("a\177") < rope("a\302\200"),
         "a beginning, and bytes above");
    same(one != other && !(one == other) && one.size() == other.size(), "a byte differs");
    same(other != whole && whole != other && rope("ab") != "abc" && "ab" != rope("b"), "differs from a string");
    same(rope() == rope() && rope() == "" && rope() != one && one != rope(), "no text");
}

void copies_and_moves()
{
    static_assert(std::is_nothrow_move_constructible_v<rope> && std::is_nothrow_move_assignable_v<rope>);
    static_assert(std::is_nothrow_swappable_v<rope> && !std::is_convertible_v<std::string, rope>);
    rope one("one"), copy = one, other("other");
    one.append("!");
    same(copy == "one" && one == "one!", "a copy");
    copy = one;
    copy = *&copy;
    one.clear();
    same(one.empty() && copy == "one!", "a copy by assignment, and clear");
    rope moved = std::move(copy);
    same(moved == "one!" && copy.empty(), "a move"); // NOLINT: a rope that was moved from is empty
    other = std::move(moved);
    same(other == "one!" && moved.empty(), "a move by assignment");
    rope &itself = other;
    other = std::move(itself);
    same(other == "one!", "a move to itself");
    swap(one, other);
    same(one == "one!" && other.empty(), "swap");
    std::vector<rope> undo(3, one);
    undo.erase(undo.begin());
    same(undo.size() == 2 && undo[1] == one, "ropes in a vector");
    one.insert(3, " more");
    other.assign(" and more");
    one.append(std::move(other));
    const rope rest = one.split_off(9);
    same(one == "one more!" && rest == " and more" && other.empty(), "append and split_off");
    same(str_rope_is_char_boundary(one.get(), 3), "get");
}

void changes_by_positions()
{
    rope text(of_lines);
    text.change(encoding::utf16, {{1, 2}, {1, 3}}, "c");
    same(text == "a\r\n" FROG "c\r\343\201\233\n\nx", "change");
    text.change(encoding::utf8, {{0, 1}, {0, 99}}, "b");
    same(text.text(text.lines()[0]) == "ab", "change past the end of a line");
    text.change_exact(encoding::utf32, {{1, 0}, {1, 1}}, "");
    same(text.text(text.lines()[1]) == "c", "change_exact");
}

//
// Indexes, and the types.
//

void indexes()
{
    static_assert(!std::is_copy_constructible_v<text_index> && std::is_nothrow_move_constructible_v<text_index>);
    static_assert(!std::is_constructible_v<text_index, std::string> && !std::is_constructible_v<text_index, rope>);
    static_assert(std::is_constructible_v<text_index, std::string &> && std::is_move_assignable_v<text_index>);
    const std::string text(of_lines);
    text_index index(text);
    same(index.text().data() == text.data() && index.text({3, 7}) == FROG, "an index's text");
    same(str_index_len(index.get()) == text.size(), "get");
    text_index moved(std::move(index));
    same(moved.count(scheme::crlf) == 4, "a moved index");
    index = std::move(moved);
    same(index.text(index.lines()[1]) == FROG "b", "an index by assignment");
    owned_index owned("one\ntwo"), other = std::move(owned);
    owned = owned_index("three");
    same(other->text(other->lines()[1]) == "two" && (*owned).size() == 5, "owned indexes");
    same(other.text(other.lines()[1]) == "two" && owned.size() == 5 && owned.text() == "three",
         "an owned index itself");
    same(other.position_of(crlf, encoding::utf16, 5) == position{1, 1} && other.lines().size() == 2,
         "its positions and lines");
    same(str_index_len(other.get()) == 7 && refuses<pauskern::not_ordered>([&] { other.text({2, 1}); }), "its parts");
}

void types_of_positions()
{
    const position one = {1, 2}, other = {1, 3}, third = {2, 0};
    same(one == one && one != other && one < other && other < third && !(third < one), "positions");
    same(third > one && one <= one && one >= one && !(one >= third), "positions in order");
    same(range{one, other} == range{one, other} && range{one, other} != range{one, third}, "ranges");
    same(bytes{1, 4}.size() == 3 && bytes{1, 4} == bytes{1, 4} && bytes{1, 4} != bytes{1, 5}, "bytes");
}

} // namespace

int main()
{
    counts(rope(of_breaks));
    counts(text_index(of_breaks));
    positions(rope(of_lines));
    positions(text_index(of_lines));
    lines_by_kind(rope(of_breaks));
    lines_by_kind(text_index(of_breaks));
    the_empty_text(rope());
    the_empty_text(rope(std::string_view()));
    the_empty_text(text_index(std::string_view()));
    refused_changes();
    refused_reads();
    chunks();
    reading();
    comparisons();
    copies_and_moves();
    changes_by_positions();
    indexes();
    types_of_positions();
    std::printf("%zu passed, %zu failed\n", passed, failed);
    return failed != 0;
}
