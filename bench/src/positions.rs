//! The table of positions: the position of a byte beside the line of the same byte.

use crate::options::Scale;
use crate::table::Table;
use crate::timing::{Best, Input, Work};
use original::Function;
use str_indices_positions::{position_of, Encoding, LineType};

/// A line, with its break.
const LINE: &str = "    let position = position_of(text, 7)\n";

/// What is timed, in the order of the columns.
const FUNCTIONS: [Function; 2] = [
    Function::Converting("position_of", position),
    Function::Converting("lines_crlf::from_byte_idx", str_indices::lines_crlf::from_byte_idx),
];

/// Measures and tells, in turns, by the library as it answers here.
pub fn table(library: &str, scale: &Scale, rounds: usize) -> Table {
    let texts = scale.positions.map(|size| LINE.repeat(size / LINE.len()));
    Table {
        title: format!("The position of a byte of the last line, {library}, beside that byte's line, in microseconds."),
        headings: ["text", "position_of", "lines_crlf::from_byte_idx", "ratio"]
            .map(str::to_string)
            .to_vec(),
        rows: texts.iter().map(|text| row(text, scale, rounds)).collect(),
    }
}

fn row(text: &str, scale: &Scale, rounds: usize) -> Vec<String> {
    let index = text.len() - LINE.len() / 2;
    let work = Work::with_duration(scale.timing, FUNCTIONS[1], vec![Input { text, index }]);
    let mut bests = [Best::NONE, Best::NONE];
    for _ in 0..rounds {
        for (best, function) in bests.iter_mut().zip(FUNCTIONS) {
            best.take(work.time(function));
        }
    }
    let [ours, beside] = bests.map(|best| best.nanoseconds() / f64::from(work.passes) / 1_000.0);
    let name = format!("{} KiB of lines of {} bytes", text.len().div_ceil(1024), LINE.len());
    vec![
        name,
        format!("{ours:.1}"),
        format!("{beside:.1}"),
        format!("{:.2}", ours / beside),
    ]
}

/// The position as one number, so that both functions are called in the same way.
fn position(text: &str, byte: usize) -> usize {
    let position = position_of(text, LineType::Crlf, Encoding::Utf16, byte);
    position.line ^ position.character
}

#[cfg(test)]
mod tests {
    use super::*;

    #[test]
    fn a_line_has_forty_bytes() {
        assert_eq!(LINE.len(), 40);
    }

    #[test]
    fn the_table_has_a_row_for_each_text() {
        let scale = Scale::of(true);
        let table = table("here", &scale, 1);
        assert_eq!(table.rows.len(), scale.positions.len());
        assert!(table.rows.iter().all(|row| row.len() == table.headings.len()));
    }
}
