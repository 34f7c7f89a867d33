// Scintilla, by the widget of QScintilla, which is never shown. Its places are bytes. A buffer is a document without undo and
// styles, with an index of the characters and of the UTF-16 units of its lines.
#include "peer.h"

#include <QApplication>
#include <Qsci/qsciscintillabase.h>

#include <algorithm>
#include <cstring>

const Way way = {"scintilla", Unit::byte, true, true};

namespace {

using Scintilla = QsciScintillaBase;

// What SCI_GETTEXTRANGE takes, which QScintilla has no header for.
struct TextRange {
    long from;
    long to;
    char *text;
};

// The widget's own function, which takes its messages without Qt.
class Direct {
public:
    Direct()
        : function(reinterpret_cast<Function>(widget.SendScintilla(Scintilla::SCI_GETDIRECTFUNCTION))),
          pointer(widget.SendScintilla(Scintilla::SCI_GETDIRECTPOINTER))
    {
        // Nobody listens, and nothing is shown.
        ask(Scintilla::SCI_SETMODEVENTMASK, 0);
        ask(Scintilla::SCI_SETWRAPMODE, Scintilla::SC_WRAP_NONE);
        ask(Scintilla::SCI_SETLAYOUTCACHE, Scintilla::SC_CACHE_NONE);
        ask(Scintilla::SCI_SETSCROLLWIDTHTRACKING, 0);
    }

    long ask(unsigned message, std::size_t one = 0, long other = 0) const
    {
        return function(pointer, message, static_cast<unsigned long>(one), other);
    }

    long ask(unsigned message, std::size_t one, const void *other) const
    {
        return ask(message, one, reinterpret_cast<long>(other));
    }

private:
    using Function = long (*)(long, unsigned, unsigned long, long);

    Scintilla widget;
    Function function;
    long pointer;
};

const Direct &direct()
{
    static int number = 1;
    static char name[] = "peers";
    static char *words[] = {name, nullptr};
    qputenv("QT_QPA_PLATFORM", "offscreen");
    static const QApplication application(number, words);
    static const Direct widget;
    return widget;
}

class Document : public Buffer {
public:
    explicit Document(const std::string &source) : widget(direct())
    {
        const long document =
            widget.ask(Scintilla::SCI_CREATEDOCUMENT, source.size(), Scintilla::SC_DOCUMENTOPTION_STYLES_NONE);
        // The widget alone keeps it, up to the next one.
        widget.ask(Scintilla::SCI_SETDOCPOINTER, 0, document);
        widget.ask(Scintilla::SCI_RELEASEDOCUMENT, 0, document);
        widget.ask(Scintilla::SCI_SETCODEPAGE, Scintilla::SC_CP_UTF8);
        widget.ask(Scintilla::SCI_SETUNDOCOLLECTION, 0);
        widget.ask(Scintilla::SCI_ALLOCATELINECHARACTERINDEX, CHARACTERS | UTF16);
        widget.ask(Scintilla::SCI_APPENDTEXT, source.size(), source.data());
    }

    std::size_t of_line(std::size_t line) override
    {
        // No line has a number that is too great.
        const long found = widget.ask(Scintilla::SCI_POSITIONFROMLINE, line);
        return found < 0 ? len() : static_cast<std::size_t>(found);
    }

    std::size_t line_of(std::size_t place) override
    {
        return static_cast<std::size_t>(widget.ask(Scintilla::SCI_LINEFROMPOSITION, place));
    }

    std::size_t of_character(std::size_t character) override
    {
        const auto [start, left] = on_line(character, CHARACTERS);
        return static_cast<std::size_t>(widget.ask(Scintilla::SCI_POSITIONRELATIVE, start, left));
    }

    // SCI_POSITIONRELATIVECODEUNITS goes on to the end of the text where a unit is the second one of its character, so the
    // units of the line are counted here.
    std::size_t of_utf16(std::size_t unit) override
    {
        const auto [start, left] = on_line(unit, UTF16);
        if (left == 0)
            return start;
        const std::size_t bytes = std::min(len() - start, 3 * static_cast<std::size_t>(left) + 3);
        const auto text =
            reinterpret_cast<const char *>(widget.ask(Scintilla::SCI_GETRANGEPOINTER, start, static_cast<long>(bytes)));
        return start + byte_of_unit({text, bytes}, static_cast<std::size_t>(left));
    }

    void insert(std::size_t at, std::size_t letters) override
    {
        // The message takes a text that ends in NUL.
        char ended[LETTERS.size() + 1];
        ended[LETTERS.copy(ended, letters)] = '\0';
        widget.ask(Scintilla::SCI_INSERTTEXT, at, ended);
    }

    void remove(std::size_t from, std::size_t to) override
    {
        widget.ask(Scintilla::SCI_DELETERANGE, from, static_cast<long>(to - from));
    }

    std::size_t copy_lines(std::size_t line) override { return copy(of_line(line), of_line(line + LINES)); }
    std::size_t copy_all() override { return copy(0, len()); }

    std::string text() override
    {
        return {reinterpret_cast<const char *>(widget.ask(Scintilla::SCI_GETCHARACTERPOINTER)), len()};
    }

private:
    static constexpr std::size_t CHARACTERS = Scintilla::SC_LINECHARACTERINDEX_UTF32;
    static constexpr std::size_t UTF16 = Scintilla::SC_LINECHARACTERINDEX_UTF16;

    // Where the line begins, and how many places after that one of an index is.
    struct OnLine {
        std::size_t start;
        long left;
    };

    OnLine on_line(std::size_t place, std::size_t index) const
    {
        const auto kind = static_cast<long>(index);
        const auto line = static_cast<std::size_t>(widget.ask(Scintilla::SCI_LINEFROMINDEXPOSITION, place, kind));
        const long first = widget.ask(Scintilla::SCI_INDEXPOSITIONFROMLINE, line, kind);
        const auto start = static_cast<std::size_t>(widget.ask(Scintilla::SCI_POSITIONFROMLINE, line));
        return {start, static_cast<long>(place) - first};
    }

    static std::size_t byte_of_unit(std::string_view text, std::size_t unit)
    {
        std::size_t units = 0;
        for (std::size_t at = 0; at < text.size(); at++) {
            units += places_in(text.substr(at, 1), Unit::utf16);
            if (unit < units)
                return at;
        }
        return text.size();
    }

    std::size_t len() const { return static_cast<std::size_t>(widget.ask(Scintilla::SCI_GETLENGTH)); }

    std::size_t copy(std::size_t from, std::size_t to)
    {
        for (std::size_t at = from; at < to; at += ROOM) {
            const TextRange range = {static_cast<long>(at), static_cast<long>(std::min(at + ROOM, to)), room};
            widget.ask(Scintilla::SCI_GETTEXTRANGE, 0, &range);
        }
        return to - from;
    }

    const Direct &widget;
    // With its NUL.
    char room[ROOM + 1];
};

} // namespace

std::unique_ptr<Buffer> buffer_of(const std::string &source)
{
    return std::make_unique<Document>(source);
}
