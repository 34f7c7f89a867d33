// Builds a text of so many lines by inserts at its middle, changes a line and prints what it has:
//     long_text LINES
// The lines are of 20 bytes, so 5,000,000 of them are 100 MB.
#include <cstdlib>
#include <iostream>
#include <string>

#include <str_rope.hpp>

using pauskern::scheme;

int main(int number, char **words)
{
    const std::string line = "line of text \360\237\220\270b\r\n";
    const std::size_t lines = number > 1 ? std::strtoull(words[1], nullptr, 10) : 0;
    if (lines == 0) {
        std::cerr << "usage: long_text LINES\n";
        return 2;
    }
    pauskern::rope rope;
    for (std::size_t at = 0; at < lines; at++)
        rope.insert(at / 2 * line.size(), line);

    const std::size_t begin = rope.lines()[lines / 2].start;
    rope.replace({begin, begin + 4}, "word");
    std::cout << rope.size() << " bytes, " << rope.count(scheme::utf16) << " UTF-16 code units, "
              << rope.count(scheme::crlf) << " line breaks; line " << lines / 2 << ": "
              << rope.text(rope.lines()[lines / 2]) << "\n";

    try {
        rope.insert(15, "inside a char");
    } catch (const pauskern::not_boundary &) {
        std::cout << "no text is put into a char\n";
    }
    return 0;
}
