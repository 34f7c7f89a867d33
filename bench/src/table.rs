//! Tables in Markdown, with columns that are aligned as plain text too.

use std::fmt;

/// A table: a title, a heading for each column, and rows of as many cells.
pub struct Table {
    pub title: String,
    pub headings: Vec<String>,
    pub rows: Vec<Vec<String>>,
}

impl Table {
    /// The widest cell of each column.
    fn widths(&self) -> Vec<usize> {
        let mut widths = vec![0; self.headings.len()];
        for row in self.rows.iter().chain([&self.headings]) {
            for (width, cell) in widths.iter_mut().zip(row) {
                *width = cell.chars().count().max(*width);
            }
        }
        widths
    }
}

impl fmt::Display for Table {
    fn fmt(&self, out: &mut fmt::Formatter) -> fmt::Result {
        let widths = self.widths();
        writeln!(out, "{}\n", self.title)?;
        write_row(out, &self.headings, &widths)?;
        write!(out, "|{}|", "-".repeat(widths[0] + 2))?;
        for width in &widths[1..] {
            write!(out, "{}:|", "-".repeat(width + 1))?;
        }
        writeln!(out)?;
        for row in &self.rows {
            write_row(out, row, &widths)?;
        }
        Ok(())
    }
}

/// One row: the first cell to the left of its column, the others to the right.
fn write_row(out: &mut fmt::Formatter, row: &[String], widths: &[usize]) -> fmt::Result {
    write!(out, "| {:<1$} |", row[0], widths[0])?;
    for (cell, width) in row.iter().zip(widths).skip(1) {
        write!(out, " {cell:>width$} |")?;
    }
    writeln!(out)
}

#[cfg(test)]
mod tests {
    use super::*;

    #[test]
    fn columns_are_aligned() {
        let cells = |words: &str| words.split(' ').map(str::to_string).collect();
        let table = Table {
            title: "Lengths".to_string(),
            headings: cells("what m"),
            rows: vec![cells("bar 1.50"), cells("pole 12.00")],
        };
        let shown = "Lengths\n\n| what |     m |\n|------|------:|\n| bar  |  1.50 |\n| pole | 12.00 |\n";
        assert_eq!(table.to_string(), shown);
    }
}
