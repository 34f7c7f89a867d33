"""A model of the positions of the Language Server Protocol, over Python's `str`: split at LF, CR and CR LF, and `encode`."""
import re

GREATEST = 2**64 - 1

# the three breaks of the protocol, the CR and the LF more often; characters of one to four bytes, and what is no break
CHARACTERS = "\n\n\r\r\r\nab\0é\u0085\u00a0せ\u2028\u2029\ufeff🐸\U0010ffff\x0b\x0c"
BREAK = re.compile("\r\n|\r|\n")

# each encoding's number, its codec in Python and the bytes of a unit
ENCODINGS = {8: ("utf-8", 1), 16: ("utf-16-le", 2), 32: ("utf-32-le", 4)}


def units(text, codec, size):
    return len(text.encode(codec)) // size


def line_before(data, byte):
    """The line of a byte and that line's text before it: what stands before the byte, split into lines."""
    before = data[:byte].decode("utf-8", "ignore")
    if data[byte - 1:byte + 1] == b"\r\n" and byte > 0:
        before = before[:-1]
    lines = BREAK.split(before)
    return len(lines) - 1, lines[-1]


def lines_of(text):
    """Each line's beginning and content, and after the last one the text's end."""
    start = 0
    for content, end in zip(BREAK.split(text), BREAK.findall(text) + [""]):
        yield start, content
        start += len((content + end).encode())
    yield start, ""


def byte_at(start, content, character, codec, size):
    """The byte of an offset on a line: a part of a character is left out."""
    before = content.encode(codec)[: size * character].decode(codec, "ignore")
    return start + len(before.encode())


class Lines:
    """The lines of a text, and what positions mean on them."""

    def __init__(self, text):
        self.data = text.encode()
        *self.lines, self.past = lines_of(text)

    def line(self, index):
        return self.lines[index] if index < len(self.lines) else self.past

    def end(self, index):
        start, content = self.line(index)
        return start + len(content.encode())

    def position(self, byte, encoding):
        line, before = line_before(self.data, byte)
        return line, units(before, *ENCODINGS[encoding])

    def byte(self, position, encoding):
        line, character = position
        return byte_at(*self.line(line), character, *ENCODINGS[encoding])

    def exact_byte(self, position, encoding):
        """The byte of a position that names a place, or None."""
        line, character = position
        byte = self.byte(position, encoding)
        start, content = self.line(line)
        before = content.encode()[: byte - start].decode()
        there = line < len(self.lines) and units(before, *ENCODINGS[encoding]) == character
        return byte if there else None

    def byte_range(self, start, end, encoding):
        """The bytes of a range, or None where its end is before its start."""
        return (self.byte(start, encoding), self.byte(end, encoding)) if start <= end else None

    def changed(self, start, end, encoding, text):
        """The text with that of a range exchanged, or None where the range's end is before its start."""
        found = self.byte_range(start, end, encoding)
        if found is None:
            return None
        return (self.data[:found[0]] + text.encode() + self.data[found[1]:]).decode()
