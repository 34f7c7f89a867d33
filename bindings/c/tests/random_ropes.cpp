// Random programs over ropes and indexes beside plain strings, with each call of str_rope.hpp, str_index.hpp, str_rope.h and
// str_index.h. Each program has a few texts, which it changes, cuts, joins, copies, moves and drops in any order, by the
// classes and by the functions for C, also where a call is to be refused. After each step it asks one of them everything at
// random places, and an index of the same text; and the functions of str_indices_positions.h about lines and positions.
//
// random_ropes SEEDS STEPS FIRST says how many programs there are, of how many steps, and the number of the first. The last
// line printed is 'N passed, M failed'.
#include <array>
#include <cstdint>
#include <cstdio>
#include <cstdlib>
#include <iterator>
#include <limits>
#include <new>
#include <random>
#include <sstream>
#include <string>
#include <vector>

#include <str_index.hpp>
#include <str_rope.hpp>

#include "plain_text.hpp"

namespace {

using pauskern::bytes;
using pauskern::encoding;
using pauskern::line_type;
using pauskern::owned_index;
using pauskern::position;
using pauskern::range;
using pauskern::rope;
using pauskern::scheme;
using pauskern::text_index;
using plain::schemes;

constexpr std::size_t most = std::numeric_limits<std::size_t>::max();
constexpr encoding encodings[] = {encoding::utf16, encoding::utf8, encoding::utf32};
constexpr line_type types[] = {line_type::crlf, line_type::lf, line_type::lines};

std::size_t passed, failed, seed, step;

bool same(bool right, const char *call)
{
    passed += right;
    failed += !right;
    if (!right && failed < 20)
        std::printf("%s, program %zu, step %zu\n", call, seed, step);
    return right;
}

//
// What is random.
//

// How many chunks a leaf of the tree has at most.
constexpr std::size_t chunks_of_leaf = 32;
// The sizes about which a text is cut into chunks and leaves in another way.
constexpr std::size_t edges[] = {STR_ROPE_MAX_CHUNK / 2, STR_ROPE_MAX_CHUNK, 2 * STR_ROPE_MAX_CHUNK,
                                 chunks_of_leaf *STR_ROPE_MAX_CHUNK};
// How long a text becomes in some programs, and from where on one is asked seldom.
constexpr std::size_t longest = 400000, seldom_asked = 100000;
// What texts are made of: a char of each size, breaks of each kind, bytes that are like theirs, and NUL.
constexpr std::string_view pieces[] = {
    "a",     "\303\251", "\346\274\242", "\360\237\220\270", "\r",
    "\n",    "\r\n",     "\302\205",     "\342\200\250",     "\342\200\251",
    "\v",    "\f",       {"", 1},        "\302\204",         "\342\200\247",
    "word ", "\n\r",     "e\314\201",
};
// Bytes that are no UTF-8.
constexpr std::string_view wrong[] = {"\200",         "\300\200",         "\303", "\343\201",
                                      "\355\240\200", "\364\220\200\200", "\377"};

// A text to put in.
struct piece {
    std::string text;
    bool is_utf8 = true;
};

class numbers {
public:
    explicit numbers(std::size_t first) : random_(static_cast<std::mt19937::result_type>(first)) {}

    std::size_t below(std::size_t limit) { return static_cast<std::size_t>(random_()) % limit; }
    bool once_in(std::size_t turns) { return below(turns) == 0; }
    template <class Items> auto one_of(const Items &items) { return items[below(std::size(items))]; }

    // Returns the size of a text: of a few bytes, or about an edge.
    std::size_t size()
    {
        switch (below(16)) {
        case 0: return one_of(edges) - 6 + below(13);
        case 1: return below(3 * STR_ROPE_MAX_CHUNK);
        default: return below(below(4) == 0 ? 200 : 9);
        }
    }
    // Returns a text of that size: of any pieces, mostly of letters, or of one piece again and again.
    std::string text(std::size_t size)
    {
        const std::size_t style = below(3);
        std::string made;
        std::string_view next = one_of(pieces);
        while (made.size() + next.size() <= size) {
            made += next;
            if (style < 2)
                next = style == 0 || once_in(20) ? one_of(pieces) : "a";
        }
        return made.append(size - made.size(), 'b');
    }
    // Returns a text to put in, and now and then one that is no UTF-8, wherever the wrong bytes stand in it.
    piece put()
    {
        piece made = {text(size()), !once_in(30)};
        if (!made.is_utf8)
            made.text.insert(below(made.text.size() + 1), one_of(wrong));
        return made;
    }
    // Returns a byte index: mostly a boundary, now and then one inside a char or past the end.
    std::size_t byte(std::string_view plain)
    {
        const std::size_t at = below(plain.size() + 4);
        if (once_in(40))
            return most - below(3);
        return once_in(10) ? at : plain::boundary_before(plain, at);
    }
    // Returns a part: mostly in order, and mostly short.
    bytes part(std::string_view plain)
    {
        const std::size_t one = byte(plain), other = once_in(4) ? byte(plain) : one + below(60);
        if (once_in(20))
            return {one, other};
        const std::size_t from = std::min(one, other), to = std::max(one, other);
        return {from, once_in(20) ? to : plain::boundary_before(plain, std::max(from, to))};
    }
    // Returns a position that names a place, or is near one, or is far away.
    position place(const plain::text &model, line_type type, encoding units)
    {
        position there = model.position_of(type, units, below(model.size() + 1));
        if (once_in(3))
            there.character += below(4);
        if (once_in(10))
            there.line += below(3);
        if (once_in(20))
            there = {once_in(2) ? most : there.line, once_in(2) ? most : 0};
        return there;
    }

private:
    std::mt19937 random_;
};

//
// Questions.
//

template <class Text> void ask_indices(const Text &text, const plain::text &model, numbers &draw)
{
    const std::size_t at = draw.once_in(20) ? most - draw.below(2) : draw.below(model.size() + 4);
    for (scheme what : schemes) {
        const std::size_t number = draw.once_in(20) ? most : draw.below(model.count(what) + 3);
        same(text.count(what) == model.count(what), "count");
        same(text.from_byte_idx(what, at) == model.from_byte_idx(what, at), "from_byte_idx");
        same(text.to_byte_idx(what, number) == model.to_byte_idx(what, number), "to_byte_idx");
    }
    const std::size_t number = draw.below(8);
    const auto what = schemes[std::min(number, std::size(schemes) - 1)];
    same(text.from_byte_idx(static_cast<scheme>(number), at) == model.from_byte_idx(what, at),
         "a scheme by its number");
    same(text.is_char_boundary(at) == model.is_char_boundary(at), "is_char_boundary");
}

// What ends a line, and the unit of an offset.
struct terms {
    line_type type;
    encoding units;
};

// Asks about lines and positions in the terms given, which are meant as others where a number is past those of an enum.
template <class Text>
void ask_in_terms(const Text &text, const plain::text &model, numbers &draw, terms given, terms meant)
{
    const auto [type, units] = meant;
    const std::size_t at = draw.once_in(20) ? most : draw.below(model.size() + 4);
    const std::size_t line = draw.once_in(20) ? most : draw.below(model.count(static_cast<scheme>(type)) + 3);
    const bytes span = {at, draw.below(model.size() + 4)};
    const position there = draw.place(model, type, units);
    const range part = {there, draw.place(model, type, units)};
    same(text.line(given.type, line) == model.line(type, line), "line");
    same(text.line_end(given.type, line) == model.line_end(type, line), "line_end");
    same(text.position_of(given.type, given.units, at) == model.position_of(type, units, at), "position_of");
    same(text.exact_position_of(given.type, given.units, at) == model.exact_position_of(type, units, at),
         "exact_position_of");
    same(text.range_of(given.type, given.units, span) == model.range_of(type, units, span), "range_of");
    same(text.byte_of(given.type, given.units, there) == model.byte_of(type, units, there), "byte_of");
    same(text.exact_byte_of(given.type, given.units, there) == model.exact_byte_of(type, units, there),
         "exact_byte_of");
    same(text.byte_range(given.type, given.units, part) == model.byte_range(type, units, part), "byte_range");
}

// Asks by each kind of line, and by any numbers, as a caller in C may hand them over.
template <class Text> void ask_positions(const Text &text, const plain::text &model, numbers &draw)
{
    const encoding units = draw.one_of(encodings);
    for (line_type type : types)
        ask_in_terms(text, model, draw, {type, units}, {type, units});
    const std::size_t number = draw.below(8), other = draw.below(8);
    const bool is_type = number == STR_INDICES_LINE_TYPE_LF || number == STR_INDICES_LINE_TYPE_CRLF;
    const bool is_encoding = other == STR_INDICES_ENCODING_UTF16 || other == STR_INDICES_ENCODING_UTF8;
    const terms given = {static_cast<line_type>(number), static_cast<encoding>(other)};
    ask_in_terms(text, model, draw, given,
                 {is_type ? given.type : line_type::lines, is_encoding ? given.units : encoding::utf32});
}

// Goes over lines from one of them on, to and fro.
template <class Text> void walk_lines(const Text &text, const plain::text &model, numbers &draw)
{
    const line_type type = draw.one_of(types);
    const auto lines = text.lines(type);
    const std::size_t size = model.count(static_cast<scheme>(type)) + 1;
    std::size_t number = draw.below(size);
    auto line = lines.from(number);
    for (std::size_t turns = 0; turns < 12; turns++) {
        if (draw.once_in(2) && number < size)
            number++, draw.once_in(2) ? ++line : line++;
        else if (number > 0)
            number--, draw.once_in(2) ? --line : line--;
        same(line.number() == number && (line == lines.end()) == (number == size), "a step over lines");
        same(*line == model.line(type, number) && lines[number] == *line, "a line");
    }
    same(lines.size() == size && (lines.begin() == lines.from(0)) && lines.from(size + 2) == lines.end(), "lines");
}

template <class Text> void ask(const Text &text, const plain::text &model, numbers &draw)
{
    same(text.size() == model.size() && text.empty() == (model.size() == 0), "size");
    for (std::size_t turns = 0; turns < 4; turns++) {
        ask_indices(text, model, draw);
        ask_positions(text, model, draw);
    }
    walk_lines(text, model, draw);
}

// Asks an index of the text: one over it, one that has a copy of it, or one in a room of its size.
void ask_indexes(const std::string &plain, const plain::text &model, numbers &draw)
{
    switch (draw.below(3)) {
    case 0: return ask(text_index(std::string_view(plain)), model, draw);
    case 1: return ask(*owned_index(plain).operator->(), model, draw);
    default: break;
    }
    const std::size_t size = str_index_size(plain.size());
    std::vector<std::max_align_t> room((size + sizeof(std::max_align_t) - 1) / sizeof(std::max_align_t));
    str_index *index = nullptr;
    same(str_index_make_in(&index, room.data(), size - 1, plain.data(), plain.size()) == STR_INDEX_NO_ROOM, "no room");
    if (!same(str_index_make_in(&index, room.data(), size, plain.data(), plain.size()) == STR_INDEX_OK, "make_in"))
        return;
    const std::size_t at = draw.below(plain.size() + 4);
    const str_indices_bytes line = str_index_line(index, STR_INDICES_LINE_TYPE_CRLF, at);
    same(bytes{line.start, line.end} == model.line(line_type::crlf, at), "line of an index");
    same(str_index_len(index) == plain.size(), "len of an index");
}

// A function of C that is handed a text, by a view of it.
template <auto function>
constexpr auto of_view =
    [](const std::string_view *text, auto... asked) { return function(text->data(), text->size(), asked...); };

struct view_calls {
    static constexpr auto line = of_view<str_indices_line>;
    static constexpr auto line_end = of_view<str_indices_line_end>;
    static constexpr auto position_of = of_view<str_indices_position_of>;
    static constexpr auto exact_position_of = of_view<str_indices_exact_position_of>;
    static constexpr auto range_of = of_view<str_indices_range_of>;
    static constexpr auto byte_of = of_view<str_indices_byte_of>;
    static constexpr auto exact_byte_of = of_view<str_indices_exact_byte_of>;
    static constexpr auto byte_range = of_view<str_indices_byte_range>;
};

// A plain text with those of the classes' questions that str_indices_positions.h has.
class text_view : public pauskern::detail::questions<text_view, view_calls> {
public:
    explicit text_view(std::string_view text) : text_(text) {}
    const std::string_view *get() const { return &text_; }

private:
    std::string_view text_;
};

//
// A text, and the plain string that it should be.
//

struct document {
    rope text;
    std::string plain;
};

bool operator==(const document &one, const document &other)
{
    const bool is_equal = one.text == other.text;
    same((one.text != other.text) != is_equal && (other.text == one.text) == is_equal, "comparisons of ropes");
    return is_equal;
}

// Returns the status that a call's refusal has in C.
template <class Call> str_rope_status status_of(Call call)
{
    try {
        call();
        return STR_ROPE_OK;
    } catch (const pauskern::not_ordered &) {
        return STR_ROPE_NOT_ORDERED;
    } catch (const pauskern::not_boundary &) {
        return STR_ROPE_NOT_BOUNDARY;
    } catch (const pauskern::too_long &) {
        return STR_ROPE_TOO_LONG;
    } catch (const pauskern::not_utf8 &) {
        return STR_ROPE_NOT_UTF8;
    } catch (const pauskern::same_rope &) {
        return STR_ROPE_SAME_HANDLE;
    }
}

// Returns what is to be answered to the change of a part.
str_rope_status wanted(std::string_view plain, bytes part, bool is_utf8 = true)
{
    if (!is_utf8)
        return STR_ROPE_NOT_UTF8;
    if (part.end < part.start)
        return STR_ROPE_NOT_ORDERED;
    const bool are_boundaries = plain::is_boundary(plain, part.start) && plain::is_boundary(plain, part.end);
    return are_boundaries ? STR_ROPE_OK : STR_ROPE_NOT_BOUNDARY;
}

//
// Reading.
//

// Goes over chunks from one of them on, to and fro. Where there are several, each has a half of the most bytes but for a char.
void walk_chunks(const rope &text, std::string_view plain, numbers &draw)
{
    constexpr std::size_t least = STR_ROPE_MAX_CHUNK / 2 - 3;
    const pauskern::chunk_range chunks = text.chunks();
    auto chunk = chunks.from(draw.below(plain.size() + 1));
    bool is_on = true;
    for (std::size_t turns = 0; turns < 30; turns++) {
        const std::size_t start = chunk.start(), end = start + (*chunk).size();
        same(*chunk == plain.substr(start, (*chunk).size()), "a chunk");
        same(plain::is_boundary(plain, start) && plain::is_boundary(plain, end), "the ends of a chunk");
        same((chunk == chunks.end()) == (start == plain.size()), "the end of the chunks");
        same((*chunk).size() <= STR_ROPE_MAX_CHUNK &&
                 ((*chunk).size() >= least || (*chunk).size() == plain.size() || start == plain.size()),
             "the size of a chunk");
        if (draw.once_in(8) || (is_on ? chunk == chunks.end() : start == 0))
            is_on = !is_on;
        if (is_on && chunk != chunks.end())
            draw.once_in(2) ? ++chunk : chunk++, same(chunk.start() == end, "the next chunk");
        else if (chunk != chunks.begin())
            draw.once_in(2) ? --chunk : chunk--, same(chunk.start() + (*chunk).size() == start, "the chunk before");
    }
}

// Whether a chunk that the functions for C lend has the bytes that stand where it starts.
bool is_lent(const str_rope_chunk &chunk, std::string_view plain)
{
    return chunk.len > 0 && std::string_view(chunk.text, chunk.len) == plain.substr(chunk.start, chunk.len);
}

// Lists of chunks from anywhere on and back.
void read_chunks(const rope &text, std::string_view plain, numbers &draw)
{
    std::vector<str_rope_chunk> chunks(draw.below(2 * chunks_of_leaf));
    const std::size_t at = draw.once_in(20) ? most : draw.below(plain.size() + 3);
    const std::size_t after = str_rope_chunks_at(text.get(), at, chunks.data(), chunks.size());
    std::size_t end = at, start = std::min(at, plain.size());
    for (std::size_t i = 0; i < after; i++) {
        const str_rope_chunk &chunk = chunks[i];
        same(is_lent(chunk, plain) && (i > 0 ? chunk.start == end : at - chunk.start < chunk.len), "a chunk after");
        end = chunk.start + chunk.len;
    }
    same(after == chunks.size() || end >= plain.size(), "how many chunks after");
    const std::size_t before = str_rope_chunks_before(text.get(), at, chunks.data(), chunks.size());
    for (std::size_t i = 0; i < before; i++) {
        const str_rope_chunk &chunk = chunks[i];
        const std::size_t left = start - chunk.start;
        same(is_lent(chunk, plain) && (i > 0 ? left == chunk.len : 0 < left && left <= chunk.len), "a chunk before");
        start = chunk.start;
    }
    same(before == chunks.size() || start == 0, "how many chunks before");
}

void read_part(const document &one, numbers &draw)
{
    const bytes part = draw.part(one.plain);
    const str_rope_status right = wanted(one.plain, part);
    const std::size_t size = right == STR_ROPE_OK ? part.size() : 3, room = size - (size > 0 && draw.once_in(4));
    std::string found;
    std::vector<char> out(room, '?');
    same(status_of([&] { found = one.text.text(part); }) == right, "text");
    same(found == (right == STR_ROPE_OK ? one.plain.substr(part.start, part.size()) : ""), "a part's text");
    const str_rope_status copied = right == STR_ROPE_OK && room < size ? STR_ROPE_TOO_LONG : right;
    same(str_rope_copy_to(one.text.get(), part.start, part.end, out.data(), room) == copied, "copy_to");
    same(std::string(out.begin(), out.end()) == (copied == STR_ROPE_OK ? found : std::string(room, '?')), "a copy");
    const std::size_t at = draw.byte(one.plain), left = at < one.plain.size() ? one.plain.size() - at : 0;
    out.assign(draw.below(3 * STR_ROPE_MAX_CHUNK), '?');
    const std::size_t number = one.text.read(at, out.data(), out.size());
    same(number == std::min(left, out.size()), "read");
    same(std::string_view(out.data(), number) == std::string_view(one.plain).substr(left != 0 ? at : 0, number),
         "what is read");
}

// All of a text, in each way that gives it at once.
void read_all(const document &one)
{
    std::ostringstream out;
    std::string joined;
    out << one.text;
    for (std::string_view chunk : one.text.chunks())
        joined += chunk;
    same(out.str() == one.plain && joined == one.plain && one.text.text() == one.plain, "all of a text");
}

// A chunk that a rope lends, which stays while others change that share it.
class lent {
public:
    lent(const document &of, numbers &draw)
        : of_(of), chunk_(of.text.chunks().from(draw.below(of.plain.size() + 1))), view_(*chunk_), copy_(view_)
    {
    }
    void look() const
    {
        same(view_ == copy_ && (*chunk_).data() == view_.data(), "a lent chunk");
        same(of_.text == of_.plain && of_.text.chunks().from(chunk_.start()) == chunk_, "the rope that lends it");
    }

private:
    const document &of_;
    pauskern::chunk_range::iterator chunk_;
    std::string_view view_;
    std::string copy_;
};

//
// A program.
//

class program {
public:
    // Begins with a long text where the number says so.
    explicit program(std::size_t first) : draw_(first), limit_(first % 10 == 0 ? longest : 3 * edges[3])
    {
        if (limit_ == longest)
            load(documents_[0], limit_ / 2);
    }

    void run(std::size_t steps)
    {
        for (step = 0; step < steps && failed == 0; step++) {
            const std::size_t held = draw_.below(documents_.size());
            const lent chunk(documents_[held], draw_);
            document &one = other_than(held), &other = other_than(held);
            if (one.plain.size() > limit_)
                remove(one, {plain::boundary_before(one.plain, limit_ / 2), one.plain.size()});
            change(one, other);
            chunk.look();
            if (one.plain.size() < seldom_asked || draw_.once_in(8))
                look_at(one);
            same(one.text == one.plain && other.text == other.plain, "two texts");
            same((one == other) == (one.plain == other.plain), "whether two texts are equal");
        }
        for (const document &one : documents_)
            read_all(one);
    }

private:
    document &other_than(std::size_t held)
    {
        return documents_[(held + 1 + draw_.below(documents_.size() - 1)) % documents_.size()];
    }

    // Asks a text everything, and now and then an index.
    void look_at(const document &one)
    {
        const plain::text model(one.plain);
        ask(one.text, model, draw_);
        ask_positions(text_view(one.plain), model, draw_);
        walk_chunks(one.text, one.plain, draw_);
        read_chunks(one.text, one.plain, draw_);
        read_part(one, draw_);
        if (draw_.once_in(4))
            ask_indexes(one.plain, model, draw_);
        if (draw_.once_in(20))
            read_all(one);
    }

    void change(document &one, document &other)
    {
        switch (draw_.below(16)) {
        case 0:
        case 1:
        case 2: return insert(one);
        case 3:
        case 4: return remove(one, draw_.part(one.plain));
        case 5:
        case 6: return replace(one, draw_.part(one.plain));
        case 7:
        case 8: return change_by_positions(one);
        case 9: return append(one, other);
        case 10: return split_off(one, other);
        case 11: return copy(one, other);
        case 12: return move(one, other);
        case 13: return assign(one);
        case 14: return load(one, draw_.size());
        default: return append_text(one);
        }
    }

    // Applies a change to the plain string, if it was made as it should be.
    void settle(document &one, str_rope_status found, str_rope_status right, bytes part, std::string_view put,
                const char *call)
    {
        if (same(found == right, call) && right == STR_ROPE_OK)
            one.plain.replace(part.start, part.size(), put);
    }

    void insert(document &one)
    {
        const std::size_t at = draw_.byte(one.plain);
        const piece put = draw_.put();
        const auto in_c = put.is_utf8 && draw_.once_in(2) ? str_rope_insert_utf8 : str_rope_insert;
        const str_rope_status found = draw_.once_in(2) ? status_of([&] { one.text.insert(at, put.text); })
                                                       : in_c(one.text.get(), at, put.text.data(), put.text.size());
        settle(one, found, wanted(one.plain, {at, at}, put.is_utf8), {at, at}, put.text, "insert");
    }

    void append_text(document &one)
    {
        const piece put = draw_.put();
        const bytes end = {one.plain.size(), one.plain.size()};
        const str_rope_status found = status_of([&] { one.text.append(put.text); });
        settle(one, found, wanted(one.plain, end, put.is_utf8), end, put.text, "append a text");
    }

    void remove(document &one, bytes part)
    {
        const str_rope_status found = draw_.once_in(2) ? status_of([&] { one.text.remove(part); })
                                                       : str_rope_remove(one.text.get(), part.start, part.end);
        settle(one, found, wanted(one.plain, part), part, "", "remove");
    }

    void replace(document &one, bytes part)
    {
        const piece put = draw_.put();
        const auto in_c = put.is_utf8 && draw_.once_in(2) ? str_rope_replace_utf8 : str_rope_replace;
        const str_rope_status found =
            draw_.once_in(2) ? status_of([&] { one.text.replace(part, put.text); })
                             : in_c(one.text.get(), part.start, part.end, put.text.data(), put.text.size());
        settle(one, found, wanted(one.plain, part, put.is_utf8), part, put.text, "replace");
    }

    // A change as a client of a language server sends it: a range, which bytes it means, and what is to be answered.
    struct sent {
        range part;
        bytes meant;
        str_rope_status right;
    };

    // Returns a change of a text, cut to what there is or refused.
    sent send(std::string_view plain, encoding units, bool is_exact)
    {
        const plain::text model(plain);
        range part = {draw_.place(model, line_type::crlf, units), draw_.place(model, line_type::crlf, units)};
        if (part.end < part.start && draw_.below(8) != 0)
            std::swap(part.start, part.end);
        const bytes meant = model.byte_range(line_type::crlf, units, part).value_or(bytes{1, 0});
        str_rope_status right = wanted(plain, meant);
        if (right == STR_ROPE_OK && is_exact &&
            !(model.exact_byte_of(line_type::crlf, units, part.start) &&
              model.exact_byte_of(line_type::crlf, units, part.end)))
            right = STR_ROPE_NOT_BOUNDARY;
        return {part, meant, right};
    }

    void change_by_positions(document &one)
    {
        const encoding units = draw_.one_of(encodings);
        const piece put = draw_.put();
        const bool is_exact = draw_.once_in(2);
        const sent made = send(one.plain, units, is_exact);
        const str_rope_status found = status_of([&] {
            is_exact ? one.text.change_exact(units, made.part, put.text) : one.text.change(units, made.part, put.text);
        });
        settle(one, found, put.is_utf8 ? made.right : STR_ROPE_NOT_UTF8, made.meant, put.text,
               is_exact ? "change_exact" : "change");
    }

    // Moves one text to the end of another, which may be the same.
    void append(document &one, document &other)
    {
        const bool is_same = &one == &other;
        const str_rope_status found = draw_.once_in(2) ? status_of([&] { one.text.append(std::move(other.text)); })
                                                       : str_rope_append(one.text.get(), other.text.get());
        if (same(found == (is_same ? STR_ROPE_SAME_HANDLE : STR_ROPE_OK), "append") && !is_same) {
            one.plain += other.plain;
            other.plain.clear();
        }
    }

    // Cuts a text in two, and puts the second part in the place of another text.
    void split_off(document &one, document &other)
    {
        const std::size_t at = draw_.byte(one.plain);
        str_rope_status right = wanted(one.plain, {at, at});
        if (draw_.once_in(2)) {
            if (&one == &other)
                right = STR_ROPE_SAME_HANDLE;
            same(str_rope_split_off(one.text.get(), at, other.text.get()) == right, "split_off in C");
        } else {
            rope rest;
            same(status_of([&] { rest = one.text.split_off(at); }) == right, "split_off");
            if (right == STR_ROPE_OK)
                other.text = std::move(rest);
        }
        if (right != STR_ROPE_OK)
            return;
        const std::string rest = one.plain.substr(at);
        one.plain.resize(at);
        other.plain = rest;
    }

    void copy(document &one, document &other)
    {
        if (draw_.once_in(3))
            one.text = other.text;
        else if (draw_.once_in(2))
            same(str_rope_snapshot(other.text.get(), one.text.get()) == STR_ROPE_OK, "snapshot");
        else
            one.text = rope(other.text);
        one.plain = other.plain;
    }

    void move(document &one, document &other)
    {
        if (draw_.once_in(2)) {
            swap(one.text, other.text);
            std::swap(one.plain, other.plain);
        } else if (&one != &other) {
            one.text = std::move(other.text);
            one.plain = std::move(other.plain);
            other.plain.clear();
        }
    }

    void assign(document &one)
    {
        const piece put = draw_.put();
        const bytes all = {0, one.plain.size()};
        if (draw_.once_in(4)) {
            one.text.clear();
            return settle(one, STR_ROPE_OK, STR_ROPE_OK, all, "", "clear");
        }
        const auto in_c = put.is_utf8 && draw_.once_in(2) ? str_rope_assign_utf8 : str_rope_assign;
        const str_rope_status found = draw_.once_in(2) ? status_of([&] { one.text.assign(put.text); })
                                                       : in_c(one.text.get(), put.text.data(), put.text.size());
        settle(one, found, wanted(one.plain, all, put.is_utf8), all, put.text, "assign");
    }

    // Loads a text in parts, of which each begins and ends at a boundary.
    void load(document &one, std::size_t size)
    {
        one.plain = draw_.text(size);
        one.text.clear();
        for (std::size_t at = 0; at < one.plain.size();) {
            const std::size_t end = plain::boundary_before(one.plain, at + 4 + draw_.below(2 * STR_ROPE_MAX_CHUNK));
            one.text.append(std::string_view(one.plain).substr(at, end - at));
            at = end;
        }
    }

    numbers draw_;
    std::size_t limit_;
    std::array<document, 5> documents_;
};

std::size_t word(int number, char **words, int at, std::size_t otherwise)
{
    return number > at ? std::strtoull(words[at], nullptr, 10) : otherwise;
}

} // namespace

int main(int number, char **words)
{
    const std::size_t seeds = word(number, words, 1, 100), steps = word(number, words, 2, 300);
    const std::size_t first = word(number, words, 3, 1);
    for (seed = first; seed < first + seeds && failed == 0; seed++)
        program(seed).run(steps);
    std::printf("%zu programs of %zu steps\n%zu passed, %zu failed\n", seeds, steps, passed, failed);
    return failed != 0;
}
