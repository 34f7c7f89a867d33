//! Random texts: the functions of this crate beside the original's, at every index up to past the end.
//!
//! The original is that of the folder which the environment variable `STR_INDICES_ORIGINAL` names. Without it nothing
//! is compared, and nothing judged. It is told for which texts the wide half of the library answers.
mod numbers;

use numbers::Numbers;
use original::Function;
use std::process::exit;

const TEXTS: u64 = 20_000;

/// A text has fewer chars than this.
const MOST_CHARS: u64 = 120;

/// What texts are made of: every kind of line break, chars of every length, and chars whose bytes look like a break's.
const CHARS: &str = "ab \n\n\r\r\u{B}\u{C}\u{85}\u{2028}\u{2029}é\u{84}\u{C5}\u{1028}\u{2027}\u{202A}\u{2068}\
                     せ\u{FFFD}🐸\u{10FFFF}\0";

impl Numbers {
    /// A text over a few of the chars, so that it has runs of alike ones.
    fn text(&mut self) -> String {
        let some = 1 + self.below(4);
        let pool: Vec<char> = (0..some).map(|_| self.char()).collect();
        let len = self.below(MOST_CHARS);
        (0..len)
            .map(|_| match self.below(16) {
                0 => self.char(),
                _ => pool[self.below(some) as usize],
            })
            .collect()
    }

    fn char(&mut self) -> char {
        let at = self.below(CHARS.chars().count() as u64);
        CHARS.chars().nth(at as usize).unwrap_or('a')
    }
}

/// Compares two functions on a text, and answers how many answers that were; or tells where they differ.
fn compare(ours: Function, originals: Function, text: &str) -> Result<u64, String> {
    match (ours, originals) {
        (Function::Counting(name, ours), Function::Counting(_, originals)) => {
            alike(name, text, None, ours(text), originals(text))?;
            Ok(1)
        }
        (Function::Converting(name, ours), Function::Converting(_, originals)) => {
            let indices = (0..text.len() + 2).chain([usize::MAX]);
            for index in indices.clone() {
                alike(name, text, Some(index), ours(text, index), originals(text, index))?;
            }
            Ok(indices.count() as u64)
        }
        _ => Err("the two tables differ".to_string()),
    }
}

fn alike(name: &str, text: &str, index: Option<usize>, ours: usize, originals: usize) -> Result<(), String> {
    if ours == originals {
        return Ok(());
    }
    Err(format!(
        "{name} of {text:?} at {index:?}: {ours}, and {originals} by the original"
    ))
}

extern "C" {
    /// Whether the wide half of the library answers for a text of this length.
    fn str_indices_is_wide(len: usize) -> bool;
}

/// The texts that the wide half of the library answers for.
fn answered_by_the_wide_half() -> &'static str {
    // SAFETY: it takes any number, and reads one of its own.
    let is_wide = |len| unsafe { str_indices_is_wide(len) };
    match [0, 256].map(is_wide) {
        [true, _] => "every text",
        [_, true] => "texts from 256 bytes on",
        _ => "no text",
    }
}

fn main() {
    println!(
        "random texts: the wide half answers for {}",
        answered_by_the_wide_half()
    );
    let Some(originals) = original::functions() else {
        println!("random texts: STR_INDICES_ORIGINAL names no folder, so nothing was compared");
        return;
    };
    let ours = original::functions!(str_indices);
    let mut numbers = Numbers(1);
    let mut answers = 0;
    for _ in 0..TEXTS {
        let text = numbers.text();
        // Two starts, so that the text also begins off the alignment of its allocation.
        let first_len = text.chars().next().map_or(0, char::len_utf8);
        for part in [&text[..], &text[first_len..]] {
            for (ours, originals) in ours.into_iter().zip(originals) {
                answers += compare(ours, originals, part).unwrap_or_else(|different| {
                    eprintln!("random texts: {different}");
                    exit(1);
                });
            }
        }
    }
    println!(
        "random texts: {} texts, {answers} answers, none differs from the original's",
        2 * TEXTS
    );
}
