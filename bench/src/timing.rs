//! Timing calls of a function over texts.

use original::Function;
use std::hint::black_box;
use std::time::{Duration, Instant};

/// One call's text, and the index for a call that takes one.
pub struct Input<'a> {
    pub text: &'a str,
    pub index: usize,
}

/// Calls over the inputs, so many passes of them that a timing is long enough to trust the clock.
pub struct Work<'a> {
    pub inputs: Vec<Input<'a>>,
    pub passes: u32,
}

impl<'a> Work<'a> {
    /// The inputs, in the least power of two of passes that takes the function at least the duration.
    pub fn with_duration(duration: Duration, function: Function, inputs: Vec<Input<'a>>) -> Self {
        let mut work = Self { inputs, passes: 1 };
        while work.time(function) < duration {
            work.passes *= 2;
        }
        work
    }

    /// How long the function takes for all passes.
    ///
    /// Every function is called through a pointer of the same kind which the compiler cannot see through, so none is
    /// inlined here and no call is left out.
    pub fn time(&self, function: Function) -> Duration {
        match black_box(function) {
            Function::Counting(_, count) => self.repeat(|input| count(input.text)),
            Function::Converting(_, convert) => self.repeat(|input| convert(input.text, input.index)),
        }
    }

    /// The time of all passes. They go twice and the first time does not count, so that the caches and what the
    /// processor predicts are as warm for each function, whichever came before it.
    fn repeat(&self, answer: impl Fn(&Input) -> usize) -> Duration {
        let mut start = Instant::now();
        for _ in 0..2 {
            start = Instant::now();
            for _ in 0..self.passes {
                let answers = black_box(&self.inputs).iter().map(&answer);
                black_box(answers.fold(0, usize::wrapping_add));
            }
        }
        start.elapsed()
    }

    /// The bytes of the texts in all passes.
    pub fn bytes(&self) -> usize {
        let texts = self.inputs.iter().map(|input| input.text.len());
        texts.sum::<usize>() * self.passes as usize
    }
}

/// The shortest of several timings.
pub struct Best(Duration);

impl Best {
    /// Before the first timing.
    pub const NONE: Self = Self(Duration::MAX);

    /// Takes one more timing.
    pub fn take(&mut self, time: Duration) {
        self.0 = self.0.min(time);
    }

    /// The shortest in nanoseconds.
    pub fn nanoseconds(&self) -> f64 {
        self.0.as_nanos() as f64
    }
}

/// The geometric mean, which is right for ratios: that of a ratio and its inverse is 1.
pub fn geometric_mean(ratios: impl Iterator<Item = f64>) -> f64 {
    let logarithms: Vec<f64> = ratios.map(f64::ln).collect();
    (logarithms.iter().sum::<f64>() / logarithms.len() as f64).exp()
}

/// How far numbers are spread: half the distance between their quartiles, so that a single one that is far off does not
/// tell.
pub fn spread(numbers: &[f64]) -> f64 {
    let mut sorted = numbers.to_vec();
    sorted.sort_by(f64::total_cmp);
    let quartile = |quarters: usize| sorted[(sorted.len() - 1) * quarters / 4];
    (quartile(3) - quartile(1)) / 2.0
}

#[cfg(test)]
mod tests {
    use super::*;

    #[test]
    fn work_lasts_as_long_as_asked() {
        let function = Function::Counting("std", |text| text.chars().count());
        let duration = Duration::from_micros(50);
        let work = Work::with_duration(
            duration,
            function,
            vec![Input {
                text: "könnte",
                index: 0,
            }],
        );
        assert!(work.passes > 1);
        assert_eq!(work.bytes(), 7 * work.passes as usize);
    }

    #[test]
    fn the_best_is_the_shortest() {
        let mut best = Best::NONE;
        for nanoseconds in [5, 3, 4] {
            best.take(Duration::from_nanos(nanoseconds));
        }
        assert_eq!(best.nanoseconds(), 3.0);
    }

    #[test]
    fn the_spread_is_half_the_distance_of_the_quartiles() {
        assert_eq!(spread(&[1.0]), 0.0);
        assert_eq!(spread(&[1.0, 99.0, 2.0, 4.0, 3.0]), 1.0);
    }

    #[test]
    fn a_ratio_and_its_inverse_have_the_mean_one() {
        assert!((geometric_mean([4.0, 0.25].into_iter()) - 1.0).abs() < 1e-9);
        assert!((geometric_mean([2.0, 8.0].into_iter()) - 4.0).abs() < 1e-9);
    }
}
