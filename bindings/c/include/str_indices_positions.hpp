// The base of str_rope.hpp and str_index.hpp, for C++17 and later: schemes,
// positions, parts of a text, and the types that a refused call throws.
//
// The enums are those of str_indices_positions.h, each as a type of its own:
// one given for another is an error of the compiler. Each struct is the one of
// that header with the same fields, and can be compared.
//
// A call that is refused throws one of these, and leaves each text as it was:
//
//     std::bad_alloc           memory was refused
//     pauskern::not_ordered    the end of a part is before its start
//     pauskern::not_boundary   a byte index is inside a char or past the end,
//                              or a position names no place
//     pauskern::not_utf8       the bytes handed over are not UTF-8
//     pauskern::same_rope      two ropes that should differ are one
//     pauskern::too_long       the text would have more than PTRDIFF_MAX bytes,
//                              or a part has more than the room for it
//
// The last is a std::length_error, and those between are a
// std::invalid_argument each. The comment of a call says which of them it
// throws; where it says nothing, the call throws nothing.
#ifndef STR_INDICES_POSITIONS_HPP
#define STR_INDICES_POSITIONS_HPP

#include <cstddef>
#include <cstdint>
#include <iterator>
#include <optional>
#include <stdexcept>

#include <str_indices_positions.h>

namespace pauskern {

// A scheme: chars, UTF-16 code units or line breaks, by which a text is
// counted.
enum class scheme {
    chars = STR_INDICES_CHARS, // Unicode scalar values
    utf16 = STR_INDICES_UTF16, // UTF-16 code units
    lf = STR_INDICES_LF,       // line breaks: LF alone
    crlf = STR_INDICES_CRLF,   // line breaks: LF, CR, and CR LF as one
    lines = STR_INDICES_LINES  // line breaks: all those of Unicode
};

// The unit of an offset on a line. A language server has UTF-16 by default.
enum class encoding {
    utf32 = STR_INDICES_ENCODING_UTF32, // chars
    utf16 = STR_INDICES_ENCODING_UTF16, // UTF-16 code units
    utf8 = STR_INDICES_ENCODING_UTF8    // bytes
};

// A kind of line, by the breaks that end one. A language server has LF, CR and
// CR LF.
enum class line_type {
    lf = STR_INDICES_LINE_TYPE_LF,      // LF: a CR before it is of the line
    crlf = STR_INDICES_LINE_TYPE_CRLF,  // LF, CR, and CR LF as one break
    lines = STR_INDICES_LINE_TYPE_LINES // all line breaks of Unicode
};

// A place in a text: the line, and the offset on that line in the units of an
// encoding, both from 0.
struct position {
    std::size_t line = 0;
    std::size_t character = 0;

    friend constexpr bool operator==(position one, position other) noexcept
    {
        return one.line == other.line && one.character == other.character;
    }
    friend constexpr bool operator!=(position one, position other) noexcept
    {
        return !(one == other);
    }
    friend constexpr bool operator<(position one, position other) noexcept
    {
        return one.line != other.line ? one.line < other.line
                                      : one.character < other.character;
    }
    friend constexpr bool operator>(position one, position other) noexcept
    {
        return other < one;
    }
    friend constexpr bool operator<=(position one, position other) noexcept
    {
        return !(other < one);
    }
    friend constexpr bool operator>=(position one, position other) noexcept
    {
        return !(one < other);
    }
};

// A part of a text by positions, from its start up to its end.
struct range {
    position start;
    position end;

    friend constexpr bool operator==(range one, range other) noexcept
    {
        return one.start == other.start && one.end == other.end;
    }
    friend constexpr bool operator!=(range one, range other) noexcept
    {
        return !(one == other);
    }
};

// A part of a text by byte indices, from `start` up to `end`.
struct bytes {
    std::size_t start = 0;
    std::size_t end = 0;

    // Returns how many bytes it has, where its end is not before its start.
    constexpr std::size_t size() const noexcept { return end - start; }

    friend constexpr bool operator==(bytes one, bytes other) noexcept
    {
        return one.start == other.start && one.end == other.end;
    }
    friend constexpr bool operator!=(bytes one, bytes other) noexcept
    {
        return !(one == other);
    }
};

class not_ordered : public std::invalid_argument {
public:
    using std::invalid_argument::invalid_argument;
};

class not_boundary : public std::invalid_argument {
public:
    using std::invalid_argument::invalid_argument;
};

class not_utf8 : public std::invalid_argument {
public:
    using std::invalid_argument::invalid_argument;
};

class same_rope : public std::invalid_argument {
public:
    using std::invalid_argument::invalid_argument;
};

class too_long : public std::length_error {
public:
    using std::length_error::length_error;
};

// The lines of a rope or of an index in order, each as the bytes of its
// content, without its break. A text has a line more than breaks, so there is
// always one. `Text` has `line` and `count`; it stays where it is, and
// unchanged, while its lines are asked for. Each line takes one call of `line`.
template <class Text> class line_range {
public:
    class iterator {
    public:
        using iterator_category = std::bidirectional_iterator_tag;
        using value_type = bytes;
        using difference_type = std::ptrdiff_t;
        using pointer = const bytes *;
        using reference = bytes;

        iterator() noexcept = default;
        bytes operator*() const noexcept { return text_->line(type_, number_); }
        iterator &operator++() noexcept
        {
            number_++;
            return *this;
        }
        iterator operator++(int) noexcept
        {
            iterator before = *this;
            ++*this;
            return before;
        }
        iterator &operator--() noexcept
        {
            number_--;
            return *this;
        }
        iterator operator--(int) noexcept
        {
            iterator before = *this;
            --*this;
            return before;
        }
        friend bool operator==(const iterator &one,
                               const iterator &other) noexcept
        {
            return one.number_ == other.number_;
        }
        friend bool operator!=(const iterator &one,
                               const iterator &other) noexcept
        {
            return !(one == other);
        }

        // Returns the number of the line, from 0.
        std::size_t number() const noexcept { return number_; }

    private:
        friend class line_range;
        iterator(const Text &text, line_type type, std::size_t number) noexcept
            : text_(&text), type_(type), number_(number)
        {
        }

        const Text *text_ = nullptr;
        line_type type_ = line_type::crlf;
        std::size_t number_ = 0;
    };

    line_range(const Text &text, line_type type) noexcept
        : text_(&text), type_(type)
    {
    }

    iterator begin() const noexcept { return iterator(*text_, type_, 0); }
    iterator end() const noexcept { return iterator(*text_, type_, size()); }
    // Returns the line of that number; the end where there is no such line.
    iterator from(std::size_t number) const noexcept
    {
        return iterator(*text_, type_, number < size() ? number : size());
    }

    // Returns how many lines there are.
    std::size_t size() const noexcept
    {
        return text_->count(static_cast<scheme>(type_)) + 1;
    }
    // Returns the bytes of a line; past the last one none, at the end of the
    // text.
    bytes operator[](std::size_t number) const noexcept
    {
        return text_->line(type_, number);
    }

private:
    const Text *text_;
    line_type type_;
};

// Turns these types into those of C, and back. What is in `detail` is no part
// of what is promised, but for the questions below.
namespace detail {

inline str_indices_scheme to_c(scheme value) noexcept
{
    return static_cast<str_indices_scheme>(value);
}

inline str_indices_encoding to_c(encoding value) noexcept
{
    return static_cast<str_indices_encoding>(value);
}

inline str_indices_line_type to_c(line_type value) noexcept
{
    return static_cast<str_indices_line_type>(value);
}

inline str_indices_position to_c(position value) noexcept
{
    return {value.line, value.character};
}

inline str_indices_range to_c(range value) noexcept
{
    return {to_c(value.start), to_c(value.end)};
}

inline str_indices_bytes to_c(bytes value) noexcept
{
    return {value.start, value.end};
}

inline position from_c(str_indices_position value) noexcept
{
    return {value.line, value.character};
}

inline range from_c(str_indices_range value) noexcept
{
    return {from_c(value.start), from_c(value.end)};
}

inline bytes from_c(str_indices_bytes value) noexcept
{
    return {value.start, value.end};
}

// The questions that a rope and both kinds of index have alike, each for every
// index. `Text` has `get`, its handle for C, and `Calls` the functions of C.
template <class Text, class Calls> class questions {
public:
    // Returns how many bytes the text has.
    std::size_t size() const noexcept { return Calls::len(handle()); }
    bool empty() const noexcept { return size() == 0; }
    // Returns how many chars, UTF-16 code units or line breaks the text has.
    std::size_t count(scheme what) const noexcept
    {
        return Calls::count(handle(), to_c(what));
    }
    // Returns how many of them end at or before a byte.
    std::size_t from_byte_idx(scheme what, std::size_t byte_idx) const noexcept
    {
        return Calls::from_byte_idx(handle(), to_c(what), byte_idx);
    }
    // Returns the byte where a char, the char of a unit, or a line begins.
    std::size_t to_byte_idx(scheme what, std::size_t idx) const noexcept
    {
        return Calls::to_byte_idx(handle(), to_c(what), idx);
    }
    // Tells whether a byte index is between two chars, or at the beginning or
    // the end of the text.
    bool is_char_boundary(std::size_t byte_idx) const noexcept
    {
        return Calls::is_char_boundary(handle(), byte_idx);
    }

    //
    // Lines, and positions of a language server, by what ends a line.
    //

    // Returns the bytes of a line's content, without its break: past the last
    // line none, at the end of the text.
    bytes line(line_type type, std::size_t number) const noexcept
    {
        return from_c(Calls::line(handle(), to_c(type), number));
    }
    // Returns the byte where a line's content ends: before its break, or the
    // end of the text if it is the last line or past it.
    std::size_t line_end(line_type type, std::size_t number) const noexcept
    {
        return Calls::line_end(handle(), to_c(type), number);
    }
    // Returns the lines in order: those of a language server if no kind is
    // given.
    line_range<Text> lines(line_type type = line_type::crlf) const &noexcept
    {
        return {static_cast<const Text &>(*this), type};
    }
    line_range<Text> lines(line_type type = line_type::crlf) const && = delete;

    // Returns the position of a byte: its line, and the units from that line's
    // beginning to the byte.
    position position_of(line_type type, encoding units,
                         std::size_t byte_idx) const noexcept
    {
        return from_c(
            Calls::position_of(handle(), to_c(type), to_c(units), byte_idx));
    }
    // Returns the position of a byte that is a place on a line, and else none.
    std::optional<position>
    exact_position_of(line_type type, encoding units,
                      std::size_t byte_idx) const noexcept
    {
        const str_indices_position there = Calls::exact_position_of(
            handle(), to_c(type), to_c(units), byte_idx);
        return there.line != SIZE_MAX ? std::optional(from_c(there))
                                      : std::nullopt;
    }
    // Returns the positions of both ends of a part.
    range range_of(line_type type, encoding units, bytes part) const noexcept
    {
        return from_c(
            Calls::range_of(handle(), to_c(type), to_c(units), to_c(part)));
    }
    // Returns the byte where the char at a position begins, or the end of its
    // line or of the text where that comes first.
    std::size_t byte_of(line_type type, encoding units,
                        position there) const noexcept
    {
        return Calls::byte_of(handle(), to_c(type), to_c(units), to_c(there));
    }
    // Returns the byte of a position that names a place on a line, and else
    // none.
    std::optional<std::size_t> exact_byte_of(line_type type, encoding units,
                                             position there) const noexcept
    {
        const std::size_t byte_idx = Calls::exact_byte_of(
            handle(), to_c(type), to_c(units), to_c(there));
        return byte_idx != SIZE_MAX ? std::optional(byte_idx) : std::nullopt;
    }
    // Returns the bytes of a range, and none where its end is before its start.
    std::optional<bytes> byte_range(line_type type, encoding units,
                                    range part) const noexcept
    {
        const str_indices_bytes found =
            Calls::byte_range(handle(), to_c(type), to_c(units), to_c(part));
        return found.start != SIZE_MAX ? std::optional(from_c(found))
                                       : std::nullopt;
    }

protected:
    // no class of its own
    questions() noexcept = default;
    questions(const questions &) noexcept = default;
    questions &operator=(const questions &) noexcept = default;
    ~questions() = default;

private:
    auto handle() const noexcept
    {
        return static_cast<const Text *>(this)->get();
    }
};

} // namespace detail

} // namespace pauskern

#endif
