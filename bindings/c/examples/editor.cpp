// The core of an editor over a large text: `editor [BYTES]`. It makes a text of that many bytes, 50,000,000 where none are
// given. It goes to a line and a UTF-16 column, types there, undoes by snapshots, and saves from a second thread while typing
// goes on. At the end it looks whether each text is as it should be, and prints one line.
#include <chrono>
#include <cstdio>
#include <cstdlib>
#include <cstring>
#include <future>
#include <iostream>
#include <string>
#include <string_view>
#include <vector>

#include <str_rope.hpp>

using pauskern::encoding;
using pauskern::line_type;
using pauskern::position;
using pauskern::rope;

// A text, a cursor in it, and what both were before each change.
class editor {
public:
    explicit editor(std::string_view text) : text_(text) {}

    const rope &text() const { return text_; }
    // The line and the UTF-16 column of the cursor, both from 0.
    position cursor() const { return text_.position_of(line_type::crlf, encoding::utf16, cursor_); }
    void go_to(position there) { cursor_ = text_.byte_of(line_type::crlf, encoding::utf16, there); }
    std::string line(std::size_t number) const { return text_.text(text_.lines()[number]); }

    // Puts letters in at the cursor, which then stands behind them. A refused change throws, and changes nothing.
    void type(std::string_view letters)
    {
        state before = {text_, cursor_};
        text_.insert(cursor_, letters);
        cursor_ += letters.size();
        before_.push_back(std::move(before));
    }
    // Takes the last change back, and returns whether there was one.
    bool undo()
    {
        if (before_.empty())
            return false;
        text_ = std::move(before_.back().text);
        cursor_ = before_.back().cursor;
        before_.pop_back();
        return true;
    }

private:
    struct state {
        rope text; // a snapshot: it shares its chunks with the text
        std::size_t cursor;
    };

    rope text_;
    std::size_t cursor_ = 0;
    std::vector<state> before_;
};

// Writes a text to a file, chunk by chunk.
static bool save(const rope &text, std::FILE *file)
{
    for (std::string_view chunk : text.chunks())
        if (std::fwrite(chunk.data(), 1, chunk.size(), file) != chunk.size())
            return false;
    return std::fflush(file) == 0;
}

// Whether a file has that text. A block may end inside a char, as read() does.
static bool has(std::FILE *file, const rope &text)
{
    static char block[1 << 16], wanted[sizeof block];
    std::size_t at = 0, number;
    std::rewind(file);
    while ((number = std::fread(block, 1, sizeof block, file)) != 0) {
        if (text.read(at, wanted, number) != number || std::memcmp(block, wanted, number) != 0)
            return false;
        at += number;
    }
    return at == text.size();
}

static const std::string a_line = "line of text \360\237\220\270b\r\n"; // a frog: two UTF-16 code units

static std::string made(std::size_t size)
{
    std::string text;
    text.reserve(size + a_line.size());
    while (text.size() < size)
        text += a_line;
    return text;
}

// Types before the frog of a line in the middle, and behind it.
static bool type_at_columns(editor &of)
{
    const std::size_t middle = of.text().lines().size() / 2;
    of.go_to({middle, 13});
    of.type("green ");
    of.go_to({middle, 21});
    of.type("!");
    return of.line(middle) == "line of text green \360\237\220\270!b" && of.cursor() == position{middle, 22};
}

// Types while another thread saves the text as it was, and returns how many letters; none where the file is not that text.
static std::size_t type_while_saving(editor &of)
{
    using namespace std::chrono_literals;
    std::FILE *file = std::tmpfile();
    if (file == nullptr)
        return 0;
    const rope saved = of.text();
    std::future<bool> is_saved = std::async(std::launch::async, [file, text = saved] { return save(text, file); });
    std::size_t letters = 0;
    do {
        of.type("x");
        letters++;
    } while (letters < 100 || is_saved.wait_for(1ms) != std::future_status::ready);
    const bool right = is_saved.get() && has(file, saved) && of.text().size() == saved.size() + letters;
    std::fclose(file);
    return right ? letters : 0;
}

int main(int number, char **words)
{
    const std::size_t size = number > 1 ? std::strtoull(words[1], nullptr, 10) : 50000000;
    if (number > 2 || size == 0) {
        std::cerr << "usage: editor [BYTES]\n";
        return 2;
    }
    const std::string text = made(size);
    editor of(text);
    bool right = type_at_columns(of);
    const std::size_t letters = type_while_saving(of);
    std::size_t undone = 0;
    while (of.undo())
        undone++;
    right = right && letters != 0 && undone == letters + 2 && of.text() == text && of.cursor().character == 13;
    std::cout << text.size() << " bytes, " << of.text().lines().size() << " lines, saved while typing, and "
              << (right ? "all as it should be" : "NOT as it should be") << "\n";
    return right ? 0 : 1;
}
