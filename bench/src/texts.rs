//! The texts, all made here from a seed, so that each run has the same.

use crate::options::Scale;

/// What a text is made of.
#[derive(Clone, Copy, Debug)]
pub enum Kind {
    /// English-like prose of one byte a character, with a line feed now and then.
    Ascii,
    /// Words of several scripts, of one to four bytes a character, with every kind of break now and then.
    Mixed,
    /// Chinese characters of three bytes each, with their punctuation and a line feed now and then.
    Cjk,
    /// Lines of prose of varying length, each ended by CR LF.
    Crlf,
    /// Words as in `Mixed`, with a break after every second one, so that short texts have breaks too.
    Broken,
}

impl Kind {
    /// Its name in the tables.
    pub fn name(self) -> &'static str {
        match self {
            Self::Ascii => "ASCII",
            Self::Mixed => "mixed",
            Self::Cjk => "CJK",
            Self::Crlf => "CRLF",
            Self::Broken => "broken",
        }
    }
}

/// Texts that are timed together, under one heading.
pub struct Sample {
    pub name: String,
    pub texts: Vec<String>,
}

/// The texts of the table of ratios.
pub fn samples(scale: &Scale) -> Vec<Sample> {
    let mut random = Random(0x7061_7573);
    let mut samples = Vec::new();
    for kind in [Kind::Ascii, Kind::Mixed, Kind::Cjk, Kind::Crlf] {
        samples.push(Sample::of_one(&mut random, kind, scale.long));
    }
    for size in scale.middling {
        for kind in [Kind::Ascii, Kind::Mixed] {
            samples.push(Sample::of_one(&mut random, kind, size));
        }
    }
    let short = |_| {
        let size = 10 + random.below(91);
        random.text(Kind::Broken, size)
    };
    let texts: Vec<String> = (0..scale.short_texts).map(short).collect();
    let name = format!("{} of 10 to 100 B", texts.len());
    samples.push(Sample { name, texts });
    let texts: Vec<String> = (0..scale.short_texts).map(|_| random.text(Kind::Broken, 40)).collect();
    let name = format!("{} of 40 B", texts.len());
    samples.push(Sample { name, texts });
    samples
}

impl Sample {
    /// One text of that kind and size.
    pub fn of_one(random: &mut Random, kind: Kind, size: usize) -> Self {
        Self {
            name: format!("{} {}", size_name(size), kind.name()),
            texts: vec![random.text(kind, size)],
        }
    }
}

/// A number of bytes as the tables have it.
fn size_name(bytes: usize) -> String {
    if bytes % 1_024 == 0 {
        format!("{} KiB", bytes / 1_024)
    } else if bytes % 1_000_000 == 0 {
        format!("{} MB", bytes / 1_000_000)
    } else if bytes % 1_000 == 0 {
        format!("{} kB", bytes / 1_000)
    } else {
        format!("{bytes} B")
    }
}

/// The generator splitmix64: small, and even enough for texts.
pub struct Random(pub u64);

impl Random {
    fn next(&mut self) -> u64 {
        self.0 = self.0.wrapping_add(0x9E37_79B9_7F4A_7C15);
        let mixed = (self.0 ^ (self.0 >> 30)).wrapping_mul(0xBF58_476D_1CE4_E5B9);
        let mixed = (mixed ^ (mixed >> 27)).wrapping_mul(0x94D0_49BB_1331_11EB);
        mixed ^ (mixed >> 31)
    }

    /// A number below the limit.
    fn below(&mut self, limit: usize) -> usize {
        (self.next() % limit as u64) as usize
    }

    /// One of the choices.
    fn one_of<T: Copy>(&mut self, choices: &[T]) -> T {
        choices[self.below(choices.len())]
    }

    /// A text of that kind of exactly so many bytes.
    pub fn text(&mut self, kind: Kind, size: usize) -> String {
        let mut text = String::with_capacity(size + 256);
        while text.len() < size {
            match kind {
                Kind::Ascii => self.sentence(&mut text),
                Kind::Mixed => self.mixed_words(&mut text, 8, 3),
                Kind::Cjk => self.clause(&mut text),
                Kind::Crlf => self.line(&mut text),
                Kind::Broken => self.mixed_words(&mut text, 1, 2),
            }
        }
        while text.len() > size {
            text.pop();
        }
        while text.len() < size {
            text.push('.');
        }
        text
    }

    /// Between two and nine letters, the first and last of the alphabet given.
    fn word(&mut self, text: &mut String, first: char, letters: usize) {
        for _ in 0..2 + self.below(8) {
            let letter = char::from_u32(first as u32 + self.below(letters) as u32);
            text.push(letter.expect("the alphabets here have no gap"));
        }
    }

    /// Some words and a full stop, then a space or, every fourth time, a line feed.
    fn sentence(&mut self, text: &mut String) {
        for _ in 0..3 + self.below(10) {
            self.word(text, 'a', 26);
            text.push(' ');
        }
        text.pop();
        text.push_str(self.one_of(&[". ", ". ", ". ", ".\n"]));
    }

    /// Words of one script, at most so many, then a break once in so many times.
    fn mixed_words(&mut self, text: &mut String, words: usize, breaks: usize) {
        let scripts = [
            ('a', 26),
            ('à', 23),
            ('α', 25),
            ('а', 32),
            ('あ', 80),
            ('一', 20_000),
            ('😀', 64),
        ];
        let (first, letters) = self.one_of(&scripts);
        for _ in 0..1 + self.below(words) {
            self.word(text, first, letters);
            text.push(' ');
        }
        if self.below(breaks) == 0 {
            text.push_str(self.one_of(&["\n", "\n", "\r\n", "\r\n", "\r", "\u{B}", "\u{C}", "\u{85}", "\u{2028}"]));
        }
    }

    /// Chinese characters and their comma or full stop, with a line feed every eighth time.
    fn clause(&mut self, text: &mut String) {
        for _ in 0..1 + self.below(4) {
            self.word(text, '一', 20_000);
        }
        text.push(self.one_of(&['，', '。']));
        if self.below(8) == 0 {
            text.push('\n');
        }
    }

    /// A line of up to thirteen words, sometimes empty, and CR LF.
    fn line(&mut self, text: &mut String) {
        for _ in 0..self.below(14) {
            self.word(text, 'a', 26);
            text.push(' ');
        }
        text.push_str("\r\n");
    }
}

#[cfg(test)]
mod tests {
    use super::*;

    #[test]
    fn texts_have_their_size_and_stay_the_same() {
        for kind in [Kind::Ascii, Kind::Mixed, Kind::Cjk, Kind::Crlf] {
            for size in [0, 1, 10, 43, 1_000, 5_000] {
                let text = Random(3).text(kind, size);
                assert_eq!(text.len(), size);
                assert_eq!(text, Random(3).text(kind, size));
            }
        }
    }

    #[test]
    fn texts_are_of_their_kind() {
        let text = |kind| Random(5).text(kind, 5_000);
        assert!(text(Kind::Ascii).is_ascii() && text(Kind::Ascii).contains(".\n"));
        let mixed = text(Kind::Mixed);
        for bytes in 1..=4 {
            assert!(mixed.chars().any(|letter| letter.len_utf8() == bytes));
        }
        assert!(text(Kind::Cjk).chars().filter(|letter| letter.len_utf8() == 3).count() > 1_500);
        assert!(text(Kind::Crlf).matches("\r\n").count() > 50);
    }

    #[test]
    fn sizes_are_named() {
        let names = [43, 1_000, 2_048, 65_536, 10_000_000].map(size_name);
        assert_eq!(names, ["43 B", "1 kB", "2 KiB", "64 KiB", "10 MB"]);
    }
}
