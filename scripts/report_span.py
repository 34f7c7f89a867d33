"""What the example report_span prints, in each language that has it."""
import subprocess

# a text: lines that end in LF and CR LF, with a tab, with a char of four bytes, an empty one, and one that no break ends
TEXT = "one\n\tlet é = \"🐸\";\r\nthree\r\n\nend"
# for some spans what the example prints, worked by hand: line and column from 1, and each line with carets below it
ROWS = {
    # one char; a word after a tab, which is four columns; chars of two bytes and of four
    (0, 1): "1:1\n1 | one\n  | ^\n",
    (5, 8): "2:2\n2 |     let é = \"🐸\";\n  |     ^^^\n",
    (9, 11): "2:6\n2 |     let é = \"🐸\";\n  |         ^\n",
    (14, 20): "2:10\n2 |     let é = \"🐸\";\n  |             ^^^\n",
    # the tab itself, and from inside the char of four bytes, which begins before
    (4, 5): "2:1\n2 |     let é = \"🐸\";\n  | ^^^^\n",
    (17, 19): "2:11\n2 |     let é = \"🐸\";\n  |              ^\n",
    # a break, a CR LF, and the LF of one: a caret past the end of the line
    (3, 4): "1:4\n1 | one\n  |    ^\n",
    (21, 23): "2:14\n2 |     let é = \"🐸\";\n  |                 ^\n",
    (29, 30): "3:6\n3 | three\n  |      ^\n",
    # several lines, up to a line's beginning, which is no part of it, and over an empty line
    (1, 4): "1:2\n1 | one\n  |  ^^\n",
    (2, 8): "1:3\n1 | one\n  |   ^\n2 |     let é = \"🐸\";\n  | ^^^^^^^\n",
    (25, 33): "3:3\n3 | three\n  |   ^^^\n4 | \n  | ^\n5 | end\n  | ^^\n",
    # empty: in a line, at the beginning of an empty one, and at the end; and past the end, and reversed
    (6, 6): "2:3\n2 |     let é = \"🐸\";\n  |      ^\n",
    (30, 30): "4:1\n4 | \n  | ^\n",
    (34, 34): "5:4\n5 | end\n  |    ^\n",
    (32, 99): "5:2\n5 | end\n  |  ^^\n",
    (99, 2**64 - 1): "5:4\n5 | end\n  |    ^\n",
    (7, 2): "2:4\n2 |     let é = \"🐸\";\n  |       ^\n",
}
# of a text of twelve lines two, whose numbers have different lengths
TWELVE = "".join(f"{number}\n" for number in range(1, 13)), (16, 19), "9:1\n 9 | 9\n   | ^\n10 | 10\n   | ^\n"
# of a text with a break of each kind, and for what ends a line, the last word; after the number of a line it is printed as it is
KINDS = "a\u2028b\fc\rd\r\ne\nf"
BY_KIND = {
    ((5, 6), "crlf"): "1:4\n1 | a\u2028b\fc\n  |    ^\n",
    ((5, 6), "lines"): "2:2\n2 | b\n  |  ^\n",
    ((11, 12), "lf"): "2:1\n2 | e\n  | ^\n",
    ((11, 12), "crlf"): "3:1\n3 | e\n  | ^\n",
    ((11, 12), "lines"): "5:1\n5 | e\n  | ^\n",
    ((8, 14), "lf"): "1:7\n1 | a\u2028b\fc\rd\r\n  |       ^^\n2 | e\n  | ^\n3 | f\n  | ^\n",
    ((8, 14), "lines"): "4:1\n4 | d\n  | ^\n5 | e\n  | ^\n6 | f\n  | ^\n",
}


def reports(command, text, span, **options):
    """What the program that the command starts prints of the span, None where it fails."""
    words = [*command, *map(str, span)]
    done = subprocess.run(words, input=text if isinstance(text, bytes) else text.encode(), capture_output=True, **options)
    return done.stdout.decode() if done.returncode == 0 else None


def check_reports(tally, command, how, **options):
    """All that it prints, and that it takes no bytes that are no UTF-8, and the empty text."""
    rows = [*((TEXT, span, wanted) for span, wanted in ROWS.items()), TWELVE, ("", (0, 0), "1:1\n1 | \n  | ^\n")]
    wrong = [span for text, span, wanted in rows if reports(command, text, span, **options) != wanted]
    wrong += [(span, kind) for (span, kind), wanted in BY_KIND.items()
              if reports(command, KINDS, (*span, kind), **options) != wanted]
    right = not wrong and reports(command, b"\xe3\x81", (0, 1), **options) is None
    number = len(rows) + len(BY_KIND)
    tally.result(right, f"report_span {how}: {number} reports, and none of bytes that are no UTF-8 {wrong or ''}")
