//! An index beside a text that does not change: counts, conversions, lines and positions of a language server, without going
//! over the text for each.
//!
//! [`TextIndex::new`] goes over a text that is lent, and an [`OwnedIndex`] holds its text. Both have the same methods, whose
//! names and meanings are those of the crate `str_rope`, a text that changes:
//!
//! - **No index makes a call panic.** A conversion takes any index, and past the end it answers as at the end: a line past the
//!   last one begins at the length of the text. The first sentence on each method says so. `line` returns an `Option`.
//! - **Memory is taken once**, when an index is made, which may return [`NoMemory`]. A question takes none.
//! - **A clone shares the index**, in one step, and threads may ask one index at once.
//!
//! An index is a mark for each 1,024 bytes of the text, with the counts of what is before it. O(log n) stands for a search that
//! halves the n marks. A read is one of at most 1,028 bytes of the text, and a method says how many it takes at most.
//!
//! The index is proved: each question answers by a definition of what is counted, for every text and index. A question is one
//! call into a static library of proved functions, or a few. If the crate `str_indices` or `str_indices_positions` has the
//! question too, the answer is theirs for the whole text.
//!
//! A tool knows places by bytes, and tells them to people and to editors:
//!
//! ```
//! use str_index::{Encoding, LineType, NoMemory, Position, TextIndex};
//!
//! # fn main() -> Result<(), NoMemory> {
//! let text = "let x = 1;\r\n🐸.push(\"世界\");\r\n";
//! let index = TextIndex::new(text)?;
//! assert_eq!(index.len_lines(LineType::Crlf), 3);
//!
//! let byte = text.find("世").unwrap();
//! let position = index.position_of(LineType::Crlf, Encoding::Utf16, byte);
//! assert_eq!(position, Position { line: 1, character: 9 });
//! assert_eq!(index.byte_of(LineType::Crlf, Encoding::Utf16, position), byte);
//! assert_eq!(index.line(position.line, LineType::Crlf), Some("🐸.push(\"世界\");\r\n"));
//! assert_eq!(&text[index.line_content(LineType::Crlf, position.line)], "🐸.push(\"世界\");");
//! # Ok(())
//! # }
//! ```
#![no_std]

extern crate alloc;

mod index;
mod library;
mod lines;
mod methods;
mod owned;

pub use index::{NoMemory, TextIndex};
pub use lines::Lines;
pub use owned::OwnedIndex;
pub use str_indices_positions::{Encoding, LineType, Position, Range, Scheme};
