// A text that changes, in a buffer that people know. Each buffer has a source of its own. With main.cpp, calls.cpp and twin.cpp
// it makes a program for this buffer alone, so that no process has the libraries of two.
#ifndef PEER_H
#define PEER_H

#include <cstddef>
#include <cstdint>
#include <memory>
#include <string>
#include <string_view>
#include <vector>

// What is put in: so many of these letters.
constexpr std::string_view LETTERS = "abcdefghijklmnopqrst";

// How many lines are read together.
constexpr std::size_t LINES = 60;

// How many bytes are read together.
constexpr std::size_t ROOM = 4096;

// What a buffer counts places by.
enum class Unit { byte, character, utf16 };

// What is known of a buffer before there is one.
struct Way {
    const char *name;
    Unit unit;
    // Whether it finds a character, and a UTF-16 unit, by its number.
    bool finds_characters;
    bool finds_utf16;
};

extern const Way way;

// A text in the buffer. Places are in its own unit, and those of a change are between characters.
class Buffer {
public:
    virtual ~Buffer() = default;
    virtual std::size_t of_line(std::size_t line) = 0;
    virtual std::size_t line_of(std::size_t place) = 0;
    virtual std::size_t of_character(std::size_t) { return 0; }
    virtual std::size_t of_utf16(std::size_t) { return 0; }
    virtual void insert(std::size_t at, std::size_t letters) = 0;
    virtual void remove(std::size_t from, std::size_t to) = 0;
    // Copies lines, or all; answers how many bytes they are, or UTF-16 units where it counts by these.
    virtual std::size_t copy_lines(std::size_t line) = 0;
    virtual std::size_t copy_all() = 0;
    // All of it in UTF-8, for check sums.
    virtual std::string text() = 0;
};

// A new buffer with a text. There is one at a time.
std::unique_ptr<Buffer> buffer_of(const std::string &source);

// How many places of a unit begin in a text.
std::size_t places_in(std::string_view text, Unit unit);

// The bytes of a text that changes, and where each of them is for a buffer. It finds the places of the changes, before these
// are timed.
class Twin {
public:
    Twin(const std::string &source, Unit counted_by);
    std::size_t bytes() const { return len; }
    // Where the character begins that the byte is in.
    std::size_t floor(std::size_t byte) const;
    // The buffer's place of a byte.
    std::size_t place(std::size_t byte) const;
    void insert(std::size_t at, std::size_t letters);
    void remove(std::size_t from, std::size_t to);

private:
    // Whole characters.
    struct Part {
        std::string text;
        std::size_t places;
    };
    struct Found {
        std::size_t part;
        std::size_t at;
        std::size_t places_before;
    };
    Found find(std::size_t byte) const;

    std::vector<Part> parts;
    std::size_t len;
    Unit unit;
};

enum class Kind { of_line, line_of, of_character, of_utf16, lines, insert, remove };

// A call, and the places that it names; of an insert the place and how many letters.
struct Call {
    Kind kind;
    std::size_t from;
    std::size_t to;
};

// A change, at a random place or beside the one before.
enum class Change { remove, backspace, insert, type };

// Makes a call. Each question waits for the answer before it, whose lowest bit is part of its index.
std::uint64_t made(Buffer &buffer, const Call &call, std::uint64_t before);

// Calls of a kind, at pseudo-random places below `n`.
std::vector<Call> questions(Kind kind, std::size_t n, std::size_t calls);

// Changes, each in the text that those before it leave, by the buffer's places: they are made in the twin.
std::vector<Call> changes(Twin &twin, Change change, std::uint64_t seed, std::size_t calls);

#endif
