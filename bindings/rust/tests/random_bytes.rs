//! Random bytes: whether they are UTF-8, by the library and by Rust's.
//!
//! Texts are changed in a few bytes, so that about half of them stay UTF-8. An argument that is a number says how many
//! are compared.
mod numbers;

use numbers::Numbers;
use std::process::exit;
// it links the library
use str_indices as _;

/// How many are compared without an argument.
const INPUTS: u64 = 1_000_000;

/// How many are made of one text.
const CHANGED: u64 = 16;

/// The least and the greatest char of each line of the Unicode Standard's table 3-7.
const CHARS: &str = "\0\u{7F}\u{80}\u{7FF}\u{800}\u{FFF}\u{1000}\u{CFFF}\u{D000}\u{D7FF}\u{E000}\u{FFFF}\
                     \u{10000}\u{3FFFF}\u{40000}\u{FFFFF}\u{100000}\u{10FFFF}";

/// The bounds of that table, and their neighbours.
const BYTES: [u8; 28] = [
    0x00, 0x7F, 0x80, 0x8F, 0x90, 0x9F, 0xA0, 0xBF, 0xC0, 0xC1, 0xC2, 0xDF, 0xE0, 0xE1, 0xEC, 0xED, 0xEE, 0xEF, 0xF0,
    0xF1, 0xF3, 0xF4, 0xF5, 0xF7, 0xF8, 0xFB, 0xFE, 0xFF,
];

impl Numbers {
    fn at_most(&mut self, most: usize) -> usize {
        self.below(most as u64 + 1) as usize
    }

    /// A text of a few runs, each of letters or of one char.
    fn text(&mut self) -> Vec<u8> {
        let mut text = String::new();
        for _ in 0..self.below(8) {
            let char = self.char();
            let times = self.at_most(40);
            let run = if self.below(3) == 0 { 'a' } else { char };
            text.extend((0..times).map(|_| run));
        }
        text.into_bytes()
    }

    fn char(&mut self) -> char {
        let at = self.below(CHARS.chars().count() as u64);
        CHARS.chars().nth(at as usize).unwrap_or('a')
    }

    fn byte(&mut self) -> u8 {
        match self.below(2) {
            0 => self.at_most(255) as u8,
            _ => BYTES[self.at_most(BYTES.len() - 1)],
        }
    }

    /// Changes a byte, puts in a char, or takes bytes away.
    fn change(&mut self, bytes: &mut Vec<u8>) {
        let at = self.at_most(bytes.len());
        match self.below(5) {
            0 if at < bytes.len() => bytes[at] = self.byte(),
            1 if at < bytes.len() => bytes.truncate(bytes.len() - at),
            2 => self.put_in(bytes, at),
            3 => {
                bytes.drain(..at);
            }
            _ => {
                bytes.drain(at..bytes.len().min(at + 1));
            }
        }
    }

    fn put_in(&mut self, bytes: &mut Vec<u8>, at: usize) {
        let char = self.char().to_string();
        bytes.splice(at..at, char.bytes());
    }
}

extern "C" {
    fn str_indices_is_utf8(text: *const u8, len: usize) -> bool;
}

fn is_utf8(bytes: &[u8]) -> bool {
    // SAFETY: it takes any bytes, at an address that is not null, which nobody writes to meanwhile.
    unsafe { str_indices_is_utf8(bytes.as_ptr(), bytes.len()) }
}

/// Compares the bytes, and answers whether they are UTF-8.
fn compare(bytes: &[u8]) -> bool {
    let by_rust = std::str::from_utf8(bytes).is_ok();
    if is_utf8(bytes) != by_rust {
        eprintln!("random bytes: {bytes:02X?}: {by_rust} by Rust's library");
        exit(1);
    }
    by_rust
}

/// Compares what a text becomes by up to two changes, and answers how often it is UTF-8.
fn compare_changed(numbers: &mut Numbers, text: &[u8], times: u64) -> u64 {
    let mut bytes = Vec::new();
    let mut right = 0;
    for _ in 0..times {
        bytes.clear();
        bytes.extend_from_slice(text);
        for _ in 0..numbers.below(3) {
            numbers.change(&mut bytes);
        }
        right += u64::from(compare(&bytes));
    }
    right
}

fn main() {
    let asked = std::env::args().find_map(|word| word.parse().ok());
    let inputs = asked.unwrap_or(INPUTS);
    let mut numbers = Numbers(1);
    let mut right = 0;
    for done in (0..inputs).step_by(CHANGED as usize) {
        let text = numbers.text();
        right += compare_changed(&mut numbers, &text, CHANGED.min(inputs - done));
    }
    println!("random bytes: {inputs} inputs, {right} of them UTF-8, none differs from Rust's library");
}
