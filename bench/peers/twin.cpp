// The bytes of a text in short parts, each with how many places it has. A place is found by going over the parts, which is
// slow enough to be left out of what is timed, and fast enough for 100 MB.
#include "peer.h"

#include <algorithm>

namespace {

// How many bytes a part has at first, at most.
constexpr std::size_t PART = 4096;

bool is_first(char byte)
{
    return (static_cast<unsigned char>(byte) & 0xc0) != 0x80;
}

// The end of the last character that ends at the byte or before it.
std::size_t boundary(std::string_view text, std::size_t byte)
{
    if (byte >= text.size())
        return text.size();
    while (!is_first(text[byte]))
        byte--;
    return byte;
}

} // namespace

std::size_t places_in(std::string_view text, Unit unit)
{
    if (unit == Unit::byte)
        return text.size();
    std::size_t places = 0;
    for (const char byte : text)
        places += is_first(byte) + (unit == Unit::utf16 && static_cast<unsigned char>(byte) >= 0xf0);
    return places;
}

Twin::Twin(const std::string &source, Unit counted_by) : len(source.size()), unit(counted_by)
{
    std::string_view rest = source;
    do {
        const std::string_view part = rest.substr(0, boundary(rest, PART));
        parts.push_back({std::string(part), places_in(part, unit)});
        rest.remove_prefix(part.size());
    } while (!rest.empty());
}

Twin::Found Twin::find(std::size_t byte) const
{
    Found found = {0, byte, 0};
    while (found.at > parts[found.part].text.size()) {
        found.at -= parts[found.part].text.size();
        found.places_before += parts[found.part].places;
        found.part++;
    }
    return found;
}

std::size_t Twin::floor(std::size_t byte) const
{
    const std::size_t within = std::min(byte, len);
    const Found found = find(within);
    return within - found.at + boundary(parts[found.part].text, found.at);
}

std::size_t Twin::place(std::size_t byte) const
{
    const Found found = find(byte);
    return found.places_before + places_in(std::string_view(parts[found.part].text).substr(0, found.at), unit);
}

void Twin::insert(std::size_t at, std::size_t letters)
{
    const Found found = find(at);
    parts[found.part].text.insert(found.at, LETTERS.substr(0, letters));
    parts[found.part].places += letters;
    len += letters;
}

void Twin::remove(std::size_t from, std::size_t to)
{
    Found found = find(from);
    len -= to - from;
    for (std::size_t left = to - from; left > 0; found.part++, found.at = 0) {
        Part &part = parts[found.part];
        const std::size_t here = std::min(left, part.text.size() - found.at);
        part.places -= places_in(std::string_view(part.text).substr(found.at, here), unit);
        part.text.erase(found.at, here);
        left -= here;
    }
}
