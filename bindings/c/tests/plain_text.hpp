// What a rope or an index of a text should answer: a plain string, and loops over its bytes. The calls have the names of the
// classes' own.
#ifndef PLAIN_TEXT_HPP
#define PLAIN_TEXT_HPP

#include <algorithm>
#include <cstddef>
#include <iterator>
#include <optional>
#include <string_view>
#include <utility>
#include <vector>

#include <str_indices_positions.hpp>

namespace plain {

using pauskern::bytes;
using pauskern::encoding;
using pauskern::line_type;
using pauskern::position;
using pauskern::range;
using pauskern::scheme;

// The schemes in the order of their numbers.
constexpr scheme schemes[] = {scheme::chars, scheme::utf16, scheme::lf, scheme::crlf, scheme::lines};

inline bool starts_with(std::string_view text, std::string_view part)
{
    return text.substr(0, part.size()) == part;
}

inline bool is_boundary(std::string_view text, std::size_t at)
{
    return at == text.size() || (at < text.size() && (text[at] & 0xC0) != 0x80);
}

// Returns the greatest boundary at a byte or before it.
inline std::size_t boundary_before(std::string_view text, std::size_t at)
{
    std::size_t found = std::min(at, text.size());
    while (!is_boundary(text, found))
        found--;
    return found;
}

inline std::size_t char_size(char first)
{
    const auto byte = static_cast<unsigned char>(first);
    return byte < 0x80 ? 1 : byte < 0xE0 ? 2 : byte < 0xF0 ? 3 : 4;
}

// Returns how many bytes the break has with which a text begins; 0 where it begins with none.
inline std::size_t break_size(std::string_view text, line_type type)
{
    if (starts_with(text, "\n"))
        return 1;
    if (type == line_type::lf)
        return 0;
    if (starts_with(text, "\r"))
        return starts_with(text, "\r\n") ? 2 : 1;
    if (type == line_type::crlf)
        return 0;
    for (std::string_view one : {"\v", "\f", "\302\205", "\342\200\250", "\342\200\251"})
        if (starts_with(text, one))
            return one.size();
    return 0;
}

// Returns where in a list a place of it is.
inline std::size_t index_of(const std::vector<std::size_t> &all, std::vector<std::size_t>::const_iterator place)
{
    return static_cast<std::size_t>(place - all.begin());
}

// A text that stays where it is, with how much of each scheme ends at each byte or before it.
class text {
public:
    explicit text(std::string_view all) : all_(all)
    {
        for (scheme what : schemes)
            walk(what);
    }

    std::size_t size() const { return all_.size(); }
    bool is_char_boundary(std::size_t at) const { return is_boundary(all_, at); }
    std::size_t count(scheme what) const { return ended(what).back(); }
    std::size_t from_byte_idx(scheme what, std::size_t at) const { return ended(what)[std::min(at, size())]; }
    std::size_t to_byte_idx(scheme what, std::size_t idx) const
    {
        const std::vector<std::size_t> &all = ended(what);
        if (what == scheme::chars || what == scheme::utf16)
            return boundary_before(all_, index_of(all, std::upper_bound(all.begin(), all.end(), idx)) - 1);
        return std::min(index_of(all, std::lower_bound(all.begin(), all.end(), idx)), size());
    }

    bytes line(line_type type, std::size_t number) const
    {
        const std::size_t start = to_byte_idx(static_cast<scheme>(type), number);
        std::size_t end = start;
        while (end < size() && break_size(all_.substr(end), type) == 0)
            end++;
        return {start, end};
    }
    std::size_t line_end(line_type type, std::size_t number) const { return line(type, number).end; }
    position position_of(line_type type, encoding units, std::size_t at) const
    {
        const std::size_t number = from_byte_idx(static_cast<scheme>(type), at);
        const bytes content = line(type, number);
        return {number, count_units(units, content.start, std::min(boundary_before(all_, at), content.end))};
    }
    std::optional<position> exact_position_of(line_type type, encoding units, std::size_t at) const
    {
        if (!is_char_boundary(at) || at > line_end(type, from_byte_idx(static_cast<scheme>(type), at)))
            return std::nullopt;
        return position_of(type, units, at);
    }
    range range_of(line_type type, encoding units, bytes part) const
    {
        return {position_of(type, units, part.start), position_of(type, units, part.end)};
    }
    std::size_t byte_of(line_type type, encoding units, position there) const
    {
        const bytes content = line(type, there.line);
        std::size_t found = content.start;
        for (std::size_t at = found; at <= content.end && count_units(units, content.start, at) <= there.character;
             at++)
            if (is_char_boundary(at))
                found = at;
        return found;
    }
    std::optional<std::size_t> exact_byte_of(line_type type, encoding units, position there) const
    {
        const std::size_t at = byte_of(type, units, there);
        return position_of(type, units, at) == there ? std::optional(at) : std::nullopt;
    }
    std::optional<bytes> byte_range(line_type type, encoding units, range part) const
    {
        if (part.end < part.start)
            return std::nullopt;
        return bytes{byte_of(type, units, part.start), byte_of(type, units, part.end)};
    }

private:
    const std::vector<std::size_t> &ended(scheme what) const { return ended_[static_cast<std::size_t>(what)]; }

    // Returns how many units lie between two bytes; of a char that ends past the second none.
    std::size_t count_units(encoding units, std::size_t from, std::size_t to) const
    {
        if (units == encoding::utf8)
            return boundary_before(all_, to) - from;
        const scheme what = units == encoding::utf16 ? scheme::utf16 : scheme::chars;
        return from_byte_idx(what, to) - from_byte_idx(what, from);
    }
    // Returns how many bytes the char or the break has that begins at a byte, and how much of the scheme ends with it. A byte
    // with which no break begins stands alone.
    std::pair<std::size_t, std::size_t> size_and_weight(scheme what, std::size_t at) const
    {
        const std::size_t size = char_size(all_[at]);
        if (what == scheme::chars)
            return {size, 1};
        if (what == scheme::utf16)
            return {size, size == 4 ? 2 : 1};
        const std::size_t found = break_size(all_.substr(at), static_cast<line_type>(what));
        return {std::max<std::size_t>(found, 1), found != 0};
    }
    void walk(scheme what)
    {
        std::vector<std::size_t> &all = ended_[static_cast<std::size_t>(what)];
        std::size_t number = 0;
        while (all.size() < size()) {
            const auto [size, weight] = size_and_weight(what, all.size());
            all.insert(all.end(), size, number);
            number += weight;
        }
        all.push_back(number);
    }

    std::string_view all_;
    std::vector<std::size_t> ended_[std::size(schemes)];
};

} // namespace plain

#endif
