// Qt's QTextDocument without undo, which nothing lays out or shows. Its places are UTF-16 units, and its blocks are the lines.
#include "peer.h"

#include <QGuiApplication>
#include <QTextBlock>
#include <QTextCursor>
#include <QTextDocument>

#include <cstring>

const Way way = {"qt", Unit::utf16, false, false};

namespace {

// What a document wants to be there. It needs no screen.
void start()
{
    static int number = 1;
    static char name[] = "peers";
    static char *words[] = {name, nullptr};
    qputenv("QT_QPA_PLATFORM", "offscreen");
    static const QGuiApplication application(number, words);
}

class Qt5 : public Buffer {
public:
    explicit Qt5(const std::string &source)
    {
        document.setUndoRedoEnabled(false);
        document.setPlainText(QString::fromUtf8(source.data(), static_cast<int>(source.size())));
    }

    std::size_t of_line(std::size_t line) override
    {
        return static_cast<std::size_t>(document.findBlockByNumber(static_cast<int>(line)).position());
    }

    std::size_t line_of(std::size_t place) override
    {
        return static_cast<std::size_t>(document.findBlock(static_cast<int>(place)).blockNumber());
    }

    void insert(std::size_t at, std::size_t letters) override
    {
        QTextCursor cursor(&document);
        cursor.setPosition(static_cast<int>(at));
        cursor.insertText(all_letters.left(static_cast<int>(letters)));
    }

    void remove(std::size_t from, std::size_t to) override
    {
        QTextCursor cursor(&document);
        cursor.setPosition(static_cast<int>(from));
        cursor.setPosition(static_cast<int>(to), QTextCursor::KeepAnchor);
        cursor.removeSelectedText();
    }

    std::size_t copy_lines(std::size_t line) override
    {
        std::size_t units = 0;
        QTextBlock block = document.findBlockByNumber(static_cast<int>(line));
        for (std::size_t left = LINES; left > 0 && block.isValid(); left--, block = block.next()) {
            const QString text = block.text();
            const std::size_t here = std::min(static_cast<std::size_t>(text.size()), ROOM);
            std::memcpy(room, text.constData(), here * sizeof(QChar));
            units += here;
        }
        return units;
    }

    std::size_t copy_all() override { return static_cast<std::size_t>(document.toPlainText().size()); }
    std::string text() override { return document.toPlainText().toStdString(); }

private:
    QTextDocument document;
    const QString all_letters = QString::fromLatin1(LETTERS.data(), static_cast<int>(LETTERS.size()));
    QChar room[ROOM];
};

} // namespace

std::unique_ptr<Buffer> buffer_of(const std::string &source)
{
    start();
    return std::make_unique<Qt5>(source);
}
