"""Draws tables of ratios as an SVG: for each call a bar of each table, and a line at 1.

    picture.py TABLES FILE.svg [COMMIT]

As a program it takes the ratios to the original that the benchmark printed into the file TABLES. It draws for each function the
mean of our time over the original's, by each half of the library that was measured, and writes all rows into FILE.csv. Both
name the commit that was measured, where one is given.
"""

import csv
import html
import pathlib
import sys
from typing import NamedTuple

WIDTH, BAR, GAP, TOP, LEFT, RIGHT = 800, 13, 8, 84, 220, 70
PLOT = WIDTH - LEFT - RIGHT
TITLE = "Our time / that of the original, "
# of the table that was measured first up to the last: in the row of a call, and in that of the mean
COLOURS = [("#c4dcd3", "#c9cad2"), ("#8fb8a8", "#9a9cab"), ("#2a7f62", "#44475a")]


class Ratios(NamedTuple):
    """A printed table of ratios to the original: how the library answered, and the rows, that of the headings first."""

    how: str
    rows: list

    def means(self):
        """The names and means of the functions, and that of all last. The mean stands before the spread."""
        last = [row[0] for row in self.rows].index("mean")
        return [(row[0], float(row[-2])) for row in self.rows[1:last + 1]]


def cells(line):
    """The cells of a row of a Markdown table."""
    return [cell.strip() for cell in line.strip().strip("|").split("|")]


def read(lines):
    """The line on top, which says what was measured on, and the tables of ratios to the original."""
    heading, tables, inside = "", [], False
    for line in lines:
        heading = heading or line.strip()
        if line.startswith(TITLE):
            tables.append(Ratios(line[len(TITLE):].split(",")[0], []))
        if line.strip() and not line.startswith("|"):
            inside = line.startswith(TITLE)
        elif inside and line.startswith("| "):
            tables[-1].rows.append(cells(line))
    return heading, tables


def write_rows(file, tables, commit):
    """All rows of the tables, as CSV."""
    writer = csv.writer(file, lineterminator="\n")
    function, *others = tables[0].rows[0]
    writer.writerow([function, "half", *others, "commit"])
    for how, (_, *rows) in tables:
        for name, *ratios, spread in rows:
            writer.writerow([name, how.removeprefix("by the "), *ratios, spread.removeprefix("±"), commit])


def scale(tables):
    """The number at the right end of the plot: the next quarter past the longest bar and past 1."""
    longest = max([1.0] + [mean for _, means in tables for _, mean in means])
    return (int(longest * 4) + 1) / 4


def text(x, y, words, **attributes):
    """A line of text; an attribute's name has `_` in place of `-`."""
    extra = "".join(f' {name.replace("_", "-")}="{value}"' for name, value in attributes.items())
    return f'<text x="{x:.1f}" y="{y:.1f}"{extra}>{html.escape(words)}</text>'


def bars(place, name, means, colours, end):
    """The name of a call, its bars, and a number after each."""
    y = TOP + place * (BAR * len(means) + GAP)
    weight = "bold" if name == "mean" else "normal"
    parts = [text(LEFT - 10, y + BAR * len(means) / 2 + 5, name, text_anchor="end", font_weight=weight)]
    for mean, colour in zip(means, colours):
        length = PLOT * mean / end
        fill = colour[name == "mean"]
        parts += [
            f'<rect x="{LEFT}" y="{y}" width="{length:.1f}" height="{BAR - 1}" fill="{fill}"/>',
            text(LEFT + length + 6, y + BAR - 3, f"{mean:.2f}", font_size=11, font_weight=weight),
        ]
        y += BAR
    return parts


def key(tables, colours):
    """Which colour is which table."""
    parts, x = [], LEFT
    for (how, _), colour in zip(tables, colours):
        parts += [
            f'<rect x="{x}" y="{TOP - 24}" width="{BAR}" height="{BAR - 1}" fill="{colour[0]}"/>',
            text(x + BAR + 6, TOP - 14, how, font_size=11),
        ]
        x += 150
    return parts


def draw(title, heading, tables, at_one):
    """The whole picture: a title and a line below it, the tables, each with its name, and what 1 stands for."""
    end = scale(tables)
    colours = COLOURS[-len(tables):]
    rows = list(zip(*(means for _, means in tables)))
    bottom = TOP + len(rows) * (BAR * len(tables) + GAP)
    one = LEFT + PLOT / end
    parts = [
        f'<svg xmlns="http://www.w3.org/2000/svg" role="img" viewBox="0 0 {WIDTH} {bottom + 34}" '
        'font-family="sans-serif" font-size="13" fill="#222222">',
        f"<title>{html.escape(title)}</title>",
        f'<rect width="{WIDTH}" height="{bottom + 34}" fill="#fafafa"/>',
        text(16, 26, title, font_size=16, font_weight="bold"),
        text(16, 46, heading, font_size=11, fill="#555555"),
        *key(tables, colours),
    ]
    for place, row in enumerate(rows):
        parts += bars(place, row[0][0], [mean for _, mean in row], colours, end)
    parts += [
        f'<line x1="{one:.1f}" x2="{one:.1f}" y1="{TOP - 4}" y2="{bottom + 6}" stroke="#222222" '
        'stroke-dasharray="4 3"/>',
        text(one, bottom + 22, f"1.0: {at_one}", text_anchor="middle", font_size=11),
        "</svg>",
    ]
    return "\n".join(parts)


def main(words):
    if len(words) not in (2, 3):
        sys.exit("usage: picture.py TABLES FILE.svg [COMMIT]")
    source, picture, commit = pathlib.Path(words[0]), pathlib.Path(words[1]), "".join(words[2:])
    heading, tables = read(source.read_text(encoding="utf-8").splitlines())
    if not tables:
        sys.exit("picture.py: no table of ratios to the original")
    heading = f"{heading}, commit {commit}" if commit else heading
    means = [(table.how, table.means()) for table in tables]
    drawn = draw("Our time / the original's, geometric means", heading, means, "as fast as the original")
    picture.write_text(f"{drawn}\n", encoding="utf-8")
    with picture.with_suffix(".csv").open("w", encoding="utf-8", newline="") as file:
        write_rows(file, tables, commit)


if __name__ == "__main__":
    main(sys.argv[1:])
