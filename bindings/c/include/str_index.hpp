// An index beside a UTF-8 text that does not change, for C++17 and later:
// classes over str_index.h, which says what each call answers and costs, and
// what may run at once.
//
//     pauskern::text_index index(text); // lives no longer than the text
//     using namespace pauskern;
//     auto there = index.position_of(line_type::crlf, encoding::utf16, byte);
//     std::cout << index.text(index.lines()[there.line]) << '\n';
//
// A text_index keeps no copy of its text, and an owned_index has a text of its
// own. Either is moved and not copied. Threads may ask one index at once.
//
// A refused call throws one of the types that str_indices_positions.hpp lists.
#ifndef STR_INDEX_HPP
#define STR_INDEX_HPP

#include <memory>
#include <new>
#include <string>
#include <string_view>
#include <type_traits>
#include <utility>

#include <str_index.h>
#include <str_indices_positions.hpp>

namespace pauskern {

namespace detail {

// The functions of C that the questions call.
struct index_calls {
    static constexpr auto len = str_index_len;
    static constexpr auto count = str_index_count;
    static constexpr auto from_byte_idx = str_index_from_byte_idx;
    static constexpr auto to_byte_idx = str_index_to_byte_idx;
    static constexpr auto is_char_boundary = str_index_is_char_boundary;
    static constexpr auto line = str_index_line;
    static constexpr auto line_end = str_index_line_end;
    static constexpr auto position_of = str_index_position_of;
    static constexpr auto exact_position_of = str_index_exact_position_of;
    static constexpr auto range_of = str_index_range_of;
    static constexpr auto byte_of = str_index_byte_of;
    static constexpr auto exact_byte_of = str_index_exact_byte_of;
    static constexpr auto byte_range = str_index_byte_range;
};

} // namespace detail

// An index. One that was moved from is assigned to or destroyed, and in no
// other call.
class text_index : public detail::questions<text_index, detail::index_calls> {
public:
    // Makes the index of a text, which stays where it is, and unchanged, as
    // long as the index. Takes time in the length of the text. Throws not_utf8,
    // too_long and std::bad_alloc.
    explicit text_index(std::string_view text) : text_(text)
    {
        str_index *made = nullptr;
        check(str_index_make(&made, text.data(), text.size()));
        index_.reset(made);
    }
    // A string that is gone after the call has no index.
    template <
        class String,
        std::enable_if_t<std::is_same_v<std::remove_cv_t<String>, std::string>,
                         int> = 0>
    explicit text_index(String &&) = delete;

    // Returns the text, lent.
    std::string_view text() const noexcept { return text_; }
    // Returns a part between two boundaries, lent. Throws not_ordered and
    // not_boundary.
    std::string_view text(bytes part) const
    {
        if (part.end < part.start)
            throw not_ordered("the end of a part is before its start");
        if (!is_char_boundary(part.start) || !is_char_boundary(part.end))
            throw not_boundary("a byte index is no boundary");
        return text_.substr(part.start, part.size());
    }

    // Returns the index, for the functions of str_index.h. It stays this one's.
    const str_index *get() const noexcept { return index_.get(); }

private:
    struct free_index {
        void operator()(str_index *index) const noexcept
        {
            str_index_free(index);
        }
    };

    static void check(str_index_status status)
    {
        switch (status) {
        case STR_INDEX_OK: return;
        case STR_INDEX_NO_MEMORY: throw std::bad_alloc();
        case STR_INDEX_TOO_LONG: throw too_long(str_index_status_text(status));
        case STR_INDEX_NOT_UTF8: throw not_utf8(str_index_status_text(status));
        case STR_INDEX_NO_ROOM: break;   // of str_index_make_in alone
        case STR_INDEX_NULL_TEXT: break; // of a view that is broken
        }
        throw std::invalid_argument(str_index_status_text(status));
    }

    std::string_view text_;
    std::unique_ptr<str_index, free_index> index_;
};

// An index that has its text: a pointer to a text_index.
class owned_index : public detail::questions<owned_index, detail::index_calls> {
public:
    // Takes the text over, and makes its index. Throws not_utf8, too_long and
    // std::bad_alloc.
    explicit owned_index(std::string text)
        : text_(std::make_unique<const std::string>(std::move(text))),
          index_(std::string_view(*text_))
    {
    }

    // Returns the text, lent, or a part between two boundaries. Throws
    // not_ordered and not_boundary.
    std::string_view text() const &noexcept { return *text_; }
    std::string_view text(bytes part) const & { return index_.text(part); }
    std::string_view text() const && = delete;
    std::string_view text(bytes part) const && = delete;

    // Returns the index, for the functions of str_index.h. It stays this one's.
    const str_index *get() const noexcept { return index_.get(); }

    const text_index &operator*() const &noexcept { return index_; }
    const text_index &operator*() const && = delete;
    const text_index *operator->() const noexcept { return &index_; }

private:
    std::unique_ptr<const std::string> text_;
    text_index index_;
};

} // namespace pauskern

#endif
