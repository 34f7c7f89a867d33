//! The tables of ratios: our time over another crate's, for each function and sample of texts.

use crate::options::Scale;
use crate::table::Table;
use crate::texts::{samples, Sample};
use crate::timing::{geometric_mean, spread, Best, Input, Work};
use original::Function;

/// The quarters of what an index counts at which a conversion is asked: one quarter, three, and the end.
const QUARTERS: [usize; 3] = [1, 3, 4];

/// What was measured: a row for each function, in it a ratio for each sample.
pub struct Ratios {
    /// The other crate, as `the original`.
    other: &'static str,
    functions: Vec<&'static str>,
    samples: Vec<String>,
    /// Ours over the other's.
    ours: Vec<Vec<f64>>,
    /// The other's second timings over its first ones, which a quiet machine makes 1.
    control: Vec<Vec<f64>>,
    /// How far the ratios of single rounds are spread.
    spreads: Vec<Vec<f64>>,
}

/// One function over one sample.
struct Cell<'a> {
    work: Work<'a>,
    ours: Timed,
    other: Timed,
    again: Timed,
    /// Ours over the other, in each round.
    rounds: Vec<f64>,
}

/// A function and its best time.
struct Timed {
    function: Function,
    best: Best,
}

impl Timed {
    fn new(function: Function) -> Self {
        let best = Best::NONE;
        Self { function, best }
    }

    fn over(&self, other: &Self) -> f64 {
        self.best.nanoseconds() / other.best.nanoseconds()
    }

    /// Times the function once more.
    fn take(&mut self, work: &Work) -> f64 {
        let time = work.time(self.function);
        self.best.take(time);
        time.as_secs_f64()
    }
}

impl Cell<'_> {
    /// Times ours, the other, and the other again.
    fn round(&mut self) {
        let ours = self.ours.take(&self.work);
        let other = self.other.take(&self.work);
        self.again.take(&self.work);
        self.rounds.push(ours / other);
    }
}

impl Ratios {
    /// Measures functions beside those in the same places of another crate's, where both answer the same for every text;
    /// else says where they differ.
    pub fn measure(
        ours: &[Function],
        (other, others): (&'static str, &[Function]),
        scale: &Scale,
        rounds: usize,
    ) -> Result<Self, String> {
        let samples = samples(scale);
        let mut rows = Vec::new();
        for (ours, function) in ours.iter().zip(others) {
            let row = samples.iter().map(|sample| {
                let inputs = inputs(function, others, sample);
                check(ours, (other, function), &sample.name, &inputs)?;
                Ok(cell(*ours, *function, inputs, scale))
            });
            rows.push(row.collect::<Result<Vec<Cell>, String>>()?);
        }
        // Each round goes over all cells, so that a disturbance of seconds cannot spoil all timings of one cell.
        for _ in 0..rounds {
            rows.iter_mut().flatten().for_each(Cell::round);
        }
        Ok(Self {
            other,
            functions: others.iter().map(Function::name).collect(),
            samples: samples.iter().map(|sample| sample.name.clone()).collect(),
            ours: by_cell(&rows, |cell| cell.ours.over(&cell.other)),
            control: by_cell(&rows, |cell| cell.again.over(&cell.other)),
            spreads: by_cell(&rows, |cell| spread(&cell.rounds)),
        })
    }

    /// The table that is printed, of the library as it answers now.
    pub fn table(&self, library: &str) -> Table {
        let mut rows = Vec::new();
        for ((name, ratios), spreads) in self.functions.iter().zip(&self.ours).zip(&self.spreads) {
            let mean = geometric_mean(ratios.iter().copied());
            rows.push(row(name, ratios.iter().copied(), mean, spreads));
        }
        for (name, ratios) in [("mean", &self.ours), (&format!("{}, twice", self.other), &self.control)] {
            let by_sample = (0..self.samples.len()).map(|place| geometric_mean(ratios.iter().map(|row| row[place])));
            let mean = geometric_mean(ratios.iter().flatten().copied());
            rows.push(row(name, by_sample, mean, &[]));
        }
        let samples = self.samples.iter().map(String::as_str);
        let headings = ["function"].into_iter().chain(samples).chain(["mean", "spread"]);
        Table {
            title: format!(
                "Our time / that of {}, {library}, with geometric means, and the widest spread of a row's rounds. Below 1, \
                 ours is the faster.",
                self.other
            ),
            headings: headings.map(str::to_string).collect(),
            rows,
        }
    }
}

fn by_cell(rows: &[Vec<Cell>], ratio: fn(&Cell) -> f64) -> Vec<Vec<f64>> {
    let of_row = |row: &Vec<Cell>| row.iter().map(ratio).collect();
    rows.iter().map(of_row).collect()
}

/// What the function is called with: each text of the sample, and where it converts an index, the indices at the quarters,
/// rounded up, of what its indices count, which are bytes, or what its module counts.
fn inputs<'a>(function: &Function, all: &[Function], sample: &'a Sample) -> Vec<Input<'a>> {
    let back = function.name().strip_suffix("to_byte_idx").map(|module| {
        let back = format!("{module}from_byte_idx");
        let named = all.iter().find(|other| other.name() == back);
        named.expect("each module has both conversions")
    });
    let quarters = match function {
        Function::Counting(..) => &QUARTERS[2..],
        Function::Converting(..) => &QUARTERS,
    };
    let of_text = |text: &'a String| {
        let whole = back.map_or(text.len(), |back| back.answer(text, text.len()));
        quarters.iter().map(move |quarter| Input {
            text,
            index: whole - whole / 4 * (4 - quarter),
        })
    };
    sample.texts.iter().flat_map(of_text).collect()
}

/// Says where the answers differ, if they do.
fn check(ours: &Function, (other, function): (&str, &Function), sample: &str, inputs: &[Input]) -> Result<(), String> {
    for (place, input) in inputs.iter().enumerate() {
        let [our_answer, answer] = [ours, function].map(|function| function.answer(input.text, input.index));
        if our_answer != answer {
            return Err(format!(
                "{} differs: {sample}, text {place}, index {}: ours {our_answer}, that of {other} {answer}",
                function.name(),
                input.index
            ));
        }
    }
    Ok(())
}

fn cell<'a>(ours: Function, other: Function, inputs: Vec<Input<'a>>, scale: &Scale) -> Cell<'a> {
    Cell {
        work: Work::with_duration(scale.timing, other, inputs),
        ours: Timed::new(ours),
        other: Timed::new(other),
        again: Timed::new(other),
        rounds: Vec::new(),
    }
}

/// A row: the name, the ratios, their mean, and the widest of the spreads, where there are some.
fn row(name: &str, ratios: impl Iterator<Item = f64>, mean: f64, spreads: &[f64]) -> Vec<String> {
    let cells = ratios.chain([mean]).map(|ratio| format!("{ratio:.2}"));
    let widest = spreads.iter().copied().reduce(f64::max);
    let spread = widest.map_or(String::new(), |widest| format!("±{widest:.2}"));
    [name.to_string()].into_iter().chain(cells).chain([spread]).collect()
}

#[cfg(test)]
mod tests {
    use super::*;

    fn measure(ours: &[Function]) -> Result<Ratios, String> {
        let functions = original::functions!(str_indices);
        Ratios::measure(ours, ("the other", &functions), &Scale::of(true), 1)
    }

    #[test]
    fn the_table_has_a_row_for_each_function_and_two_for_all() {
        let table = measure(&original::functions!(str_indices)).unwrap().table("here");
        assert_eq!(table.rows.len(), 16 + 2);
        let columns = table.headings.len();
        assert!(table.rows.iter().all(|row| row.len() == columns));
    }

    #[test]
    fn a_difference_is_told() {
        let mut wrong = original::functions!(str_indices);
        wrong[5] = Function::Converting("", |_, index| index + 1);
        let difference = measure(&wrong).err().unwrap();
        assert_eq!(
            difference,
            "utf16::from_byte_idx differs: 2 KiB ASCII, text 0, index 512: ours 513, that of the other 512"
        );
    }

    #[test]
    fn indices_are_at_quarters_of_what_is_counted() {
        let functions = original::functions!(str_indices);
        let sample = Sample {
            name: String::new(),
            texts: vec!["über\nüber\nüber\nüber\n".to_string()],
        };
        let indices = |place: usize| {
            let inputs = inputs(&functions[place], &functions, &sample);
            inputs.iter().map(|input| input.index).collect::<Vec<usize>>()
        };
        assert_eq!(indices(0).len(), 1); // chars::count
        assert_eq!(indices(1), [6, 18, 24]); // chars::from_byte_idx, of 24 bytes
        assert_eq!(indices(2), [5, 15, 20]); // chars::to_byte_idx, of 20 characters
        assert_eq!(indices(9), [1, 3, 4]); // lines_lf::to_byte_idx, of 4 breaks
    }
}
