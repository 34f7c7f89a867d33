// A UTF-8 text that changes, for C++17 and later: a class over str_rope.h,
// which says what a rope is, what each call answers and costs, and what may run
// at once.
//
//     pauskern::rope text("one\ntwo\n");
//     text.insert(text.lines()[1].start, "and ");
//     pauskern::rope before = text; // a snapshot, in one step
//     for (pauskern::bytes line : text.lines())
//         std::cout << text.text(line) << '\n';
//
// A rope owns its text and frees it. Calls that are `const` may run at once in
// many threads; a call that is not runs beside no other of that rope. A copy is
// a rope of its own: one thread may save it while another one types into the
// first.
//
// A refused call throws one of the types that str_indices_positions.hpp lists,
// and leaves the rope as it was.
#ifndef STR_ROPE_HPP
#define STR_ROPE_HPP

#include <algorithm>
#include <cstdint>
#include <functional>
#include <iterator>
#include <new>
#include <ostream>
#include <string>
#include <string_view>
#include <utility>

#include <str_indices_positions.hpp>
#include <str_rope.h>

namespace pauskern {

namespace detail {

// The functions of C that the questions call.
struct rope_calls {
    static constexpr auto len = str_rope_len;
    static constexpr auto count = str_rope_count;
    static constexpr auto from_byte_idx = str_rope_from_byte_idx;
    static constexpr auto to_byte_idx = str_rope_to_byte_idx;
    static constexpr auto is_char_boundary = str_rope_is_char_boundary;
    static constexpr auto line = str_rope_line;
    static constexpr auto line_end = str_rope_line_end;
    static constexpr auto position_of = str_rope_position_of;
    static constexpr auto exact_position_of = str_rope_exact_position_of;
    static constexpr auto range_of = str_rope_range_of;
    static constexpr auto byte_of = str_rope_byte_of;
    static constexpr auto exact_byte_of = str_rope_exact_byte_of;
    static constexpr auto byte_range = str_rope_byte_range;
};

// Throws what a status says, if it is a refusal.
inline void check(str_rope_status status)
{
    const char *what = str_rope_status_text(status);
    switch (status) {
    case STR_ROPE_OK: return;
    case STR_ROPE_NOT_ORDERED: throw not_ordered(what);
    case STR_ROPE_NOT_BOUNDARY: throw not_boundary(what);
    case STR_ROPE_TOO_LONG: throw too_long(what);
    case STR_ROPE_NO_MEMORY: throw std::bad_alloc();
    case STR_ROPE_NOT_UTF8: throw not_utf8(what);
    case STR_ROPE_SAME_HANDLE: throw same_rope(what);
    case STR_ROPE_NULL_TEXT: break; // of a view that is broken
    }
    throw std::invalid_argument(what);
}

} // namespace detail

// The chunks of a rope in order, each lent as a std::string_view of 1 to
// STR_ROPE_MAX_CHUNK bytes, which begins and ends at a boundary. An iterator is
// lent up to 16 at a time, so most steps call nothing. Ranges, iterators and
// what they lend are used until the rope is changed, assigned to, moved or
// destroyed.
class chunk_range {
public:
    class iterator {
    public:
        using iterator_category = std::bidirectional_iterator_tag;
        using value_type = std::string_view;
        using difference_type = std::ptrdiff_t;
        using pointer = const std::string_view *;
        using reference = std::string_view;

        iterator() noexcept { stop(0); }
        iterator(const iterator &other) noexcept { *this = other; }
        iterator &operator=(const iterator &other) noexcept
        {
            rope_ = other.rope_;
            count_ = other.count_;
            at_ = other.at_;
            is_back_ = other.is_back_;
            std::copy_n(other.lent_, std::max<std::size_t>(count_, 1), lent_);
            return *this;
        }
        std::string_view operator*() const noexcept
        {
            return {lent_[at_].text, lent_[at_].len};
        }
        iterator &operator++() noexcept
        {
            const std::size_t next = start() + lent_[at_].len;
            if (!step(!is_back_))
                look_from(next);
            return *this;
        }
        iterator operator++(int) noexcept
        {
            iterator before = *this;
            ++*this;
            return before;
        }
        iterator &operator--() noexcept
        {
            if (!step(is_back_))
                look_before(start());
            return *this;
        }
        iterator operator--(int) noexcept
        {
            iterator before = *this;
            --*this;
            return before;
        }
        friend bool operator==(const iterator &one,
                               const iterator &other) noexcept
        {
            return one.start() == other.start();
        }
        friend bool operator!=(const iterator &one,
                               const iterator &other) noexcept
        {
            return !(one == other);
        }

        // Returns the byte index where the chunk starts; of the end the text's
        // length.
        std::size_t start() const noexcept { return lent_[at_].start; }

    private:
        friend class chunk_range;
        static constexpr std::size_t most = 16;

        explicit iterator(const str_rope *rope) noexcept : rope_(rope)
        {
            stop(0);
        }

        // Stands at the end of a text of so many bytes.
        void stop(std::size_t size) noexcept
        {
            lent_[0] = {"", 0, size};
            count_ = at_ = 0;
        }
        // Goes on or back in what is lent. Returns false at its end.
        bool step(bool is_on) noexcept
        {
            if (is_on ? at_ + 1 >= count_ : at_ == 0)
                return false;
            at_ = is_on ? at_ + 1 : at_ - 1;
            return true;
        }
        // Asks for one chunk, since most ways are short.
        void look_at(std::size_t byte_idx) noexcept
        {
            if (str_rope_chunk_at(rope_, byte_idx, lent_))
                count_ = 1;
            else
                stop(str_rope_len(rope_));
        }
        // Asks for chunks from where the last one ends.
        void look_from(std::size_t byte_idx) noexcept
        {
            if (byte_idx == str_rope_len(rope_))
                return stop(byte_idx);
            count_ = str_rope_chunks_at(rope_, byte_idx, lent_, most);
            at_ = 0;
            is_back_ = false;
        }
        void look_before(std::size_t byte_idx) noexcept
        {
            count_ = str_rope_chunks_before(rope_, byte_idx, lent_, most);
            at_ = 0;
            is_back_ = true;
        }

        const str_rope *rope_ = nullptr;
        // Chunks that follow each other, in order or backwards, and which of
        // them the iterator is at. At the end of the text there is none, and
        // the first place tells where it is.
        str_rope_chunk lent_[most];
        std::size_t count_;
        std::size_t at_;
        bool is_back_ = false;
    };

    explicit chunk_range(const str_rope *rope) noexcept : rope_(rope) {}

    iterator begin() const noexcept { return from(0); }
    iterator end() const noexcept
    {
        iterator place(rope_);
        place.stop(str_rope_len(rope_));
        return place;
    }
    // Returns the chunk that a byte is in; the end where the text has no such
    // byte.
    iterator from(std::size_t byte_idx) const noexcept
    {
        iterator place(rope_);
        place.look_at(byte_idx);
        return place;
    }

private:
    const str_rope *rope_;
};

// A text.
class rope : public detail::questions<rope, detail::rope_calls> {
public:
    // Makes the empty text, and takes no memory.
    rope() noexcept = default;
    // Makes a rope of a text. Throws not_utf8 and std::bad_alloc.
    explicit rope(std::string_view text) { assign(text); }
    // Makes a snapshot, in one step, whatever the text's length: a change of
    // either leaves the other. Throws std::bad_alloc.
    rope(const rope &other)
    {
        detail::check(str_rope_snapshot(&other.handle_, &handle_));
    }
    // Takes over the other's text, which is then the empty one.
    rope(rope &&other) noexcept { swap(*this, other); }
    // Makes this a snapshot of the other one. Throws std::bad_alloc.
    rope &operator=(const rope &other)
    {
        detail::check(str_rope_snapshot(&other.handle_, &handle_));
        return *this;
    }
    // Takes over the other's text, which is then the empty one.
    rope &operator=(rope &&other) noexcept
    {
        rope taken(std::move(other));
        swap(*this, taken);
        return *this;
    }
    ~rope() { str_rope_free(&handle_); }

    friend void swap(rope &one, rope &other) noexcept
    {
        std::swap(one.handle_, other.handle_);
    }

    // Makes the text another one. Throws not_utf8 and std::bad_alloc.
    void assign(std::string_view text)
    {
        detail::check(str_rope_assign(&handle_, text.data(), text.size()));
    }
    // Makes the text the empty one, and gives its memory back.
    void clear() noexcept { str_rope_free(&handle_); }

    //
    // Changes.
    //

    // Puts a text in at a boundary. Throws not_boundary, too_long, not_utf8 and
    // std::bad_alloc.
    void insert(std::size_t at, std::string_view text)
    {
        detail::check(str_rope_insert(&handle_, at, text.data(), text.size()));
    }
    // Takes a part out. Throws not_ordered, not_boundary and std::bad_alloc.
    void remove(bytes part)
    {
        detail::check(str_rope_remove(&handle_, part.start, part.end));
    }
    // Replaces a part by a text. Throws not_ordered, not_boundary, too_long,
    // not_utf8 and std::bad_alloc.
    void replace(bytes part, std::string_view text)
    {
        detail::check(str_rope_replace(&handle_, part.start, part.end,
                                       text.data(), text.size()));
    }
    // Puts a text at the end. Throws too_long, not_utf8 and std::bad_alloc.
    void append(std::string_view text) { insert(size(), text); }
    // Moves all of another rope to the end; that one is then the empty text.
    // Throws too_long, same_rope and std::bad_alloc.
    void append(rope &&other)
    {
        detail::check(str_rope_append(&handle_, &other.handle_));
    }
    // Cuts the text in two at a boundary, and returns the second part. Throws
    // not_boundary and std::bad_alloc.
    rope split_off(std::size_t at)
    {
        rope rest;
        detail::check(str_rope_split_off(&handle_, at, &rest.handle_));
        return rest;
    }

    //
    // The text's bytes.
    //

    // Returns the chunks in order, lent.
    chunk_range chunks() const &noexcept { return chunk_range(&handle_); }
    chunk_range chunks() const && = delete;
    // Returns a copy of the text. Throws std::bad_alloc.
    std::string text() const { return text({0, size()}); }
    // Returns a copy of a part between two boundaries. Throws not_ordered,
    // not_boundary and std::bad_alloc.
    std::string text(bytes part) const
    {
        std::string copy;
        if (part.start <= part.end && part.end <= size())
            copy.resize(part.size());
        copy_to(part, copy.data(), copy.size());
        return copy;
    }
    // Writes a part to the `room` bytes from `out` on, all of it or none.
    // Throws not_ordered, not_boundary and too_long.
    void copy_to(bytes part, char *out, std::size_t room) const
    {
        detail::check(
            str_rope_copy_to(&handle_, part.start, part.end, out, room));
    }
    // Writes the bytes from `at` on, as far as there is room, and returns how
    // many; the last char may be written in part.
    std::size_t read(std::size_t at, char *out, std::size_t room) const noexcept
    {
        return str_rope_read(&handle_, at, out, room);
    }

    // Compares two texts by their bytes: below 0 where the first comes first, 0
    // where they are equal.
    friend int compare(const rope &one, const rope &other) noexcept
    {
        chunk_range::iterator ours = one.chunks().begin(),
                              theirs = other.chunks().begin();
        std::string_view left = *ours, right = *theirs;
        while (!left.empty() && !right.empty()) {
            const std::size_t size = std::min(left.size(), right.size());
            const int found = std::char_traits<char>::compare(
                left.data(), right.data(), size);
            if (found != 0)
                return found;
            left.remove_prefix(size);
            right.remove_prefix(size);
            if (left.empty())
                left = *++ours;
            if (right.empty())
                right = *++theirs;
        }
        return static_cast<int>(right.empty()) - static_cast<int>(left.empty());
    }
    // Tells whether two texts have the same bytes.
    friend bool operator==(const rope &one, const rope &other) noexcept
    {
        return one.size() == other.size() && compare(one, other) == 0;
    }
    friend bool operator<(const rope &one, const rope &other) noexcept
    {
        return compare(one, other) < 0;
    }
    friend bool operator>(const rope &one, const rope &other) noexcept
    {
        return other < one;
    }
    friend bool operator<=(const rope &one, const rope &other) noexcept
    {
        return !(other < one);
    }
    friend bool operator>=(const rope &one, const rope &other) noexcept
    {
        return !(one < other);
    }
    friend bool operator==(const rope &one, std::string_view text) noexcept
    {
        if (one.size() != text.size())
            return false;
        for (std::string_view chunk : one.chunks()) {
            if (std::char_traits<char>::compare(chunk.data(), text.data(),
                                                chunk.size()) != 0)
                return false;
            text.remove_prefix(chunk.size());
        }
        return true;
    }
    friend bool operator==(std::string_view text, const rope &one) noexcept
    {
        return one == text;
    }
    friend bool operator!=(const rope &one, const rope &other) noexcept
    {
        return !(one == other);
    }
    friend bool operator!=(const rope &one, std::string_view text) noexcept
    {
        return !(one == text);
    }
    friend bool operator!=(std::string_view text, const rope &one) noexcept
    {
        return !(one == text);
    }

    // Writes the text without a copy of it. Width and fill of the stream are
    // left as they are.
    friend std::ostream &operator<<(std::ostream &out, const rope &text)
    {
        for (std::string_view chunk : text.chunks())
            out.write(chunk.data(), static_cast<std::streamsize>(chunk.size()));
        return out;
    }

    // Replaces the bytes of a range by a text. Throws not_ordered, too_long,
    // not_utf8 and std::bad_alloc.
    void change(encoding units, range part, std::string_view text)
    {
        detail::check(str_rope_change(&handle_, detail::to_c(units),
                                      detail::to_c(part), text.data(),
                                      text.size()));
    }
    // Does so for a range whose positions each name a place. Throws
    // not_boundary where one does not, and what change() throws.
    void change_exact(encoding units, range part, std::string_view text)
    {
        detail::check(str_rope_change_exact(&handle_, detail::to_c(units),
                                            detail::to_c(part), text.data(),
                                            text.size()));
    }

    // Returns the handle, for the functions of str_rope.h. It stays the rope's.
    str_rope *get() noexcept { return &handle_; }
    const str_rope *get() const noexcept { return &handle_; }

private:
    str_rope handle_ = {nullptr};
};

} // namespace pauskern

// Ropes of the same bytes have the same hash, however they are cut in chunks.
// It reads the whole text.
template <> struct std::hash<pauskern::rope> {
    std::size_t operator()(const pauskern::rope &text) const noexcept
    {
        // FNV-1a
        std::uint64_t sum = 14695981039346656037u;
        for (std::string_view chunk : text.chunks())
            for (char byte : chunk)
                sum = (sum ^ static_cast<unsigned char>(byte)) * 1099511628211u;
        return static_cast<std::size_t>(sum);
    }
};

#endif
