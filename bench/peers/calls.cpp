// The calls that are timed, at pseudo-random places.
#include "peer.h"

namespace {

// Pseudo-random numbers, the same in each program.
std::uint64_t next(std::uint64_t seed)
{
    return seed * 6364136223846793005U + 1442695040888963407U;
}

// The number as one of the first `n`.
std::size_t below(std::uint64_t seed, std::size_t n)
{
    return n == 0 ? 0 : (seed >> 33) % n;
}

// The next change, by bytes, where `last` is where the one before ended.
Call next_change(const Twin &twin, Change change, std::uint64_t seed, std::size_t last)
{
    const std::size_t place = below(seed, twin.bytes());
    const std::size_t some = below(next(seed), 20);
    switch (change) {
    case Change::remove: return {Kind::remove, twin.floor(place), twin.floor(place + 4 + some)};
    case Change::backspace: return {Kind::remove, twin.floor(last > 0 ? last - 1 : 0), last};
    case Change::insert: return {Kind::insert, twin.floor(place), some + 1};
    case Change::type: break;
    }
    return {Kind::insert, last, 1};
}

} // namespace

std::uint64_t made(Buffer &buffer, const Call &call, std::uint64_t before)
{
    const std::size_t place = call.from ^ (before & 1);
    switch (call.kind) {
    case Kind::of_line: return buffer.of_line(place);
    case Kind::line_of: return buffer.line_of(place);
    case Kind::of_character: return buffer.of_character(place);
    case Kind::of_utf16: return buffer.of_utf16(place);
    case Kind::lines: return buffer.copy_lines(place);
    case Kind::insert: buffer.insert(call.from, call.to); return 0;
    case Kind::remove: buffer.remove(call.from, call.to); return 0;
    }
    return 0;
}

std::vector<Call> questions(Kind kind, std::size_t n, std::size_t calls)
{
    std::vector<Call> found;
    std::uint64_t seed = 1;
    for (std::size_t i = 0; i < calls; i++) {
        seed = next(seed);
        found.push_back({kind, below(seed, n), 0});
    }
    return found;
}

std::vector<Call> changes(Twin &twin, Change change, std::uint64_t seed, std::size_t calls)
{
    std::vector<Call> found;
    std::size_t last = twin.floor(twin.bytes() / 2);
    for (std::size_t i = 0; i < calls; i++) {
        seed = next(next(seed));
        const Call call = next_change(twin, change, seed, last);
        const std::size_t from = twin.place(call.from);
        if (call.kind == Kind::insert) {
            found.push_back({call.kind, from, call.to});
            twin.insert(call.from, call.to);
            last = call.from + call.to;
        } else {
            found.push_back({call.kind, from, twin.place(call.to)});
            twin.remove(call.from, call.to);
            last = call.from;
        }
    }
    return found;
}
