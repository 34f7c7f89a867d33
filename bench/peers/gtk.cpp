// GTK's GtkTextBuffer, which nothing shows. Its places are characters, and lines with a byte of each.
#include "peer.h"

#include <gtk/gtk.h>

#include <cstring>

const Way way = {"gtk", Unit::character, true, false};

namespace {

// The text between two places, which is freed with it.
class Slice {
public:
    Slice(GtkTextBuffer *buffer, const GtkTextIter &from, const GtkTextIter &to)
        : text(gtk_text_buffer_get_slice(buffer, &from, &to, TRUE))
    {
    }
    Slice(const Slice &) = delete;
    ~Slice() { g_free(text); }
    const char *get() const { return text; }
    std::size_t len() const { return std::strlen(text); }

private:
    char *text;
};

class Gtk : public Buffer {
public:
    explicit Gtk(const std::string &source) : buffer(gtk_text_buffer_new(nullptr))
    {
        gtk_text_buffer_set_text(buffer, source.data(), static_cast<int>(source.size()));
    }
    ~Gtk() override { g_object_unref(buffer); }

    std::size_t of_line(std::size_t line) override
    {
        const GtkTextIter found = at_line(line);
        return static_cast<std::size_t>(gtk_text_iter_get_offset(&found));
    }

    std::size_t line_of(std::size_t place) override
    {
        const GtkTextIter found = at(place);
        return static_cast<std::size_t>(gtk_text_iter_get_line(&found));
    }

    // A byte is one of its line here.
    std::size_t of_character(std::size_t character) override
    {
        const GtkTextIter found = at(character);
        return static_cast<std::size_t>(gtk_text_iter_get_line(&found) + gtk_text_iter_get_line_index(&found));
    }

    void insert(std::size_t place, std::size_t letters) override
    {
        GtkTextIter found = at(place);
        gtk_text_buffer_insert(buffer, &found, LETTERS.data(), static_cast<int>(letters));
    }

    void remove(std::size_t from, std::size_t to) override
    {
        GtkTextIter start = at(from);
        GtkTextIter end = at(to);
        gtk_text_buffer_delete(buffer, &start, &end);
    }

    std::size_t copy_lines(std::size_t line) override
    {
        return Slice(buffer, at_line(line), at_line(line + LINES)).len();
    }
    std::size_t copy_all() override { return all().len(); }
    std::string text() override { return all().get(); }

private:
    GtkTextIter at(std::size_t place)
    {
        GtkTextIter found;
        gtk_text_buffer_get_iter_at_offset(buffer, &found, static_cast<int>(place));
        return found;
    }

    GtkTextIter at_line(std::size_t line)
    {
        GtkTextIter found;
        gtk_text_buffer_get_iter_at_line(buffer, &found, static_cast<int>(line));
        return found;
    }

    Slice all()
    {
        GtkTextIter start;
        GtkTextIter end;
        gtk_text_buffer_get_bounds(buffer, &start, &end);
        return Slice(buffer, start, end);
    }

    GtkTextBuffer *buffer;
};

} // namespace

std::unique_ptr<Buffer> buffer_of(const std::string &source)
{
    return std::make_unique<Gtk>(source);
}
