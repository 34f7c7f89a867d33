//! The words of the command, and the sizes that follow from them.

use std::time::Duration;

/// What the words of the command ask for.
#[derive(Debug, PartialEq)]
pub struct Options {
    /// How often everything is timed; of each the best time counts.
    pub rounds: usize,
    /// Whether all is scaled down, to see that it works and not how fast.
    pub small: bool,
}

impl Options {
    /// The options that the words mean, or what is wrong with them.
    pub fn from_words(mut words: impl Iterator<Item = String>) -> Result<Self, String> {
        let mut options = Self {
            rounds: 30,
            small: false,
        };
        while let Some(word) = words.next() {
            match word.as_str() {
                "--small" => options.small = true,
                "--rounds" => options.rounds = rounds(words.next())?,
                other => return Err(format!("unknown option '{other}'; there are --rounds N and --small")),
            }
        }
        Ok(options)
    }
}

/// The number of rounds that a word means.
fn rounds(word: Option<String>) -> Result<usize, String> {
    let word = word.ok_or("--rounds wants a number")?;
    match word.parse() {
        Ok(rounds) if rounds > 0 => Ok(rounds),
        _ => Err(format!("--rounds wants a number from 1 on, not '{word}'")),
    }
}

/// How long the texts and the timings are.
pub struct Scale {
    /// The bytes of a long text of the table of ratios.
    pub long: usize,
    /// The bytes of middling texts.
    pub middling: [usize; 2],
    /// How many short texts are timed together.
    pub short_texts: usize,
    /// The bytes of the texts of the table of throughput.
    pub throughput: [usize; 4],
    /// The bytes of the texts of the table of positions, at most.
    pub positions: [usize; 2],
    /// What a timing of the original takes at least, and at most about twice that where nothing disturbs it.
    pub timing: Duration,
}

impl Scale {
    /// The sizes to measure with, or small ones.
    pub fn of(small: bool) -> Self {
        let huge = if small { 20_000 } else { 10_000_000 };
        let long = if small { 2_048 } else { 65_536 };
        Self {
            long,
            middling: [1_000, 300],
            short_texts: if small { 20 } else { 2_000 },
            throughput: [43, 1_000, long, huge],
            positions: if small { [4_096, 8_192] } else { [1 << 20, 10 << 20] },
            timing: Duration::from_micros(if small { 10 } else { 1_000 }),
        }
    }
}

#[cfg(test)]
mod tests {
    use super::*;

    fn options(words: &str) -> Result<Options, String> {
        Options::from_words(words.split_whitespace().map(str::to_string))
    }

    #[test]
    fn words_are_understood() {
        assert_eq!(
            options(""),
            Ok(Options {
                rounds: 30,
                small: false
            })
        );
        assert_eq!(options("--small --rounds 1"), Ok(Options { rounds: 1, small: true }));
    }

    #[test]
    fn other_words_are_refused() {
        for words in ["--rounds", "--rounds 0", "--rounds x", "--fast"] {
            assert!(options(words).is_err(), "{words}");
        }
    }
}
