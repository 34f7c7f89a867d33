//! The table of throughput: bytes a nanosecond of what counts a text, and of a plain read of it.

use crate::options::Scale;
use crate::table::Table;
use crate::texts::{Kind, Random, Sample};
use crate::timing::{Best, Input, Work};
use original::Function;

/// A column: what is timed, where it is there.
struct Contender {
    heading: &'static str,
    count: Option<fn(&str) -> usize>,
    /// What the cells say where it is not there.
    absent: &'static str,
}

/// One contender over one text; `None` where it is not there.
struct Cell<'a> {
    timed: Option<(Function, Work<'a>)>,
    best: Best,
    absent: &'static str,
}

impl Cell<'_> {
    fn round(&mut self) {
        if let Some((function, work)) = &self.timed {
            self.best.take(work.time(*function));
        }
    }

    fn show(&self) -> String {
        match &self.timed {
            Some((_, work)) => format!("{:.2}", work.bytes() as f64 / self.best.nanoseconds()),
            None => self.absent.to_string(),
        }
    }
}

/// Measures and tells.
pub fn table(scale: &Scale, rounds: usize) -> Table {
    let samples = samples(scale);
    let contenders = contenders();
    let mut rows: Vec<Vec<Cell>> = Vec::new();
    for sample in &samples {
        let cell = |contender| cell(contender, sample, scale);
        rows.push(contenders.iter().map(cell).collect());
    }
    for round in 0..rounds {
        for row in &mut rows {
            // Each in turn is the first, which finds a long text not yet in the cache.
            let first = round % row.len();
            let (before, from_first) = row.split_at_mut(first);
            from_first.iter_mut().chain(before).for_each(Cell::round);
        }
    }
    let columns = contenders.iter().map(|contender| contender.heading);
    Table {
        title: "Bytes a nanosecond. Above, more is faster.".to_string(),
        headings: ["text"].into_iter().chain(columns).map(str::to_string).collect(),
        rows: samples.iter().zip(&rows).map(row).collect(),
    }
}

fn row((sample, cells): (&Sample, &Vec<Cell>)) -> Vec<String> {
    let name = sample.name.clone();
    [name].into_iter().chain(cells.iter().map(Cell::show)).collect()
}

/// The texts, one in each sample.
fn samples(scale: &Scale) -> Vec<Sample> {
    let mut random = Random(0x6B65_726E);
    let mut samples = Vec::new();
    for kind in [Kind::Ascii, Kind::Mixed] {
        for size in scale.throughput {
            samples.push(Sample::of_one(&mut random, kind, size));
        }
    }
    samples
}

fn cell<'a>(contender: &Contender, sample: &'a Sample, scale: &Scale) -> Cell<'a> {
    let timed = contender.count.map(|count| {
        let function = Function::Counting(contender.heading, count);
        let inputs = sample.texts.iter().map(|text| Input { text, index: 0 });
        (function, Work::with_duration(scale.timing, function, inputs.collect()))
    });
    Cell {
        timed,
        best: Best::NONE,
        absent: contender.absent,
    }
}

/// The columns, from left to right.
fn contenders() -> Vec<Contender> {
    let contender = |heading, count, absent| Contender { heading, count, absent };
    vec![
        contender("chars::count, ours", Some(str_indices::chars::count), ""),
        contender("original's", originals("chars::count"), "not at hand"),
        contender("std chars", Some(|text| text.chars().count()), ""),
        contender("bytecount", bytecount(), "not installed"),
        contender("utf16::count, ours", Some(str_indices::utf16::count), ""),
        contender("original's", originals("utf16::count"), "not at hand"),
        contender("std utf16", Some(|text| text.encode_utf16().count()), ""),
        contender("a plain read", Some(read), ""),
    ]
}

/// The original's counting function of that name, where it is at hand.
fn originals(name: &str) -> Option<fn(&str) -> usize> {
    let functions = original::functions()?;
    functions.iter().find_map(|function| match function {
        Function::Counting(other, count) if *other == name => Some(*count),
        _ => None,
    })
}

#[cfg(bytecount_at_hand)]
fn bytecount() -> Option<fn(&str) -> usize> {
    Some(|text| bytecount::num_chars(text.as_bytes()))
}

#[cfg(not(bytecount_at_hand))]
fn bytecount() -> Option<fn(&str) -> usize> {
    None
}

/// The sum of the text as words of eight bytes, and of the bytes after them: a plain loop that looks at each byte.
fn read(text: &str) -> usize {
    let words = text.as_bytes().chunks_exact(8);
    let rest = words.remainder().iter().map(|byte| u64::from(*byte));
    let words = words.map(|word| u64::from_ne_bytes(word.try_into().expect("eight bytes")));
    words.chain(rest).fold(0, u64::wrapping_add) as usize
}

#[cfg(test)]
mod tests {
    use super::*;

    #[test]
    fn a_read_adds_words_and_the_bytes_behind_them() {
        let word = |byte: u8| u64::from_ne_bytes([byte; 8]);
        assert_eq!(read("aaaaaaaabbbbbbbbcd") as u64, word(b'a') + word(b'b') + 99 + 100);
        assert_eq!(read(""), 0);
    }

    #[test]
    fn the_contenders_agree() {
        let text = Random(9).text(Kind::Mixed, 1_000);
        let contenders = contenders();
        let answers: Vec<Option<usize>> = contenders.iter().map(|column| Some(column.count?(&text))).collect();
        let agree = |group: &[Option<usize>]| group.iter().flatten().all(|answer| Some(*answer) == group[0]);
        assert!(agree(&answers[..4]) && agree(&answers[4..7]), "{answers:?}");
    }

    #[test]
    fn the_table_has_a_row_for_each_text() {
        let table = table(&Scale::of(true), 1);
        assert_eq!(table.rows.len(), 8);
        assert!(table.rows.iter().all(|row| row.len() == table.headings.len()));
    }
}
