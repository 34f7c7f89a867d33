//! A text that changes, kept as a rope: a balanced tree of chunks of at most 1,024 bytes.
//!
//! Names and meanings are those of the crate `ropey` 2, whose index is the byte too: [`Rope::insert`], [`Rope::slice`],
//! [`Rope::lines`]. These things differ, and README.md has a table of all:
//!
//! - **No index makes a call panic.** A change or a slice that cannot be made returns an [`Error`], and leaves the text as it
//!   was. `byte`, `char`, `line` and `chunk_at` return an `Option`.
//! - **A conversion takes any index.** Past the end it answers as at the end: a line past the last one begins at the length of
//!   the text. The first sentence on each method says so.
//! - **Memory may be refused.** Changes, `parse`, [`Rope::from_str`], [`Rope::try_clone`], [`RopeSlice::to_rope`] and
//!   [`RopeBuilder`] return a `Result`. Traits that cannot, as `Clone`, `From` and `FromIterator`, end the program then, as the
//!   traits of a `String` do. A removal may be refused too, but not one that takes out the whole text.
//! - [`Rope::append`] takes the other rope by `&mut`, and leaves it empty.
//! - **`std` is a feature**, off by default, for `from_reader` and `write_to`.
//!
//! O(log n) stands for a number of steps that grows no faster than the logarithm of the number of chunks, n. The functions
//! below these calls count their steps in proved contracts; the calls themselves promise no cost.
//!
//! The rope is proved: each question answers by a definition of what is counted, for every text and index, and each change
//! makes of the text what it says, or leaves it as it was. A call asks a static library of proved functions once, or a few
//! times; slices, iterators, comparisons and the builder are Rust over such calls, and tested.
//!
//! An editor types at a place that it knows by line, and a language server hears of it:
//!
//! ```
//! use str_rope::{Encoding, LineType, Position, Range, Rope};
//!
//! # fn main() -> Result<(), str_rope::Error> {
//! let mut rope = Rope::from_str("fn main() {\n}\n")?;
//!
//! let at = rope.line_to_byte_idx(1, LineType::Crlf);
//! rope.insert(at, "    print!(\"🐸\");\n")?;
//! assert_eq!(rope.len_lines(LineType::Crlf), 4);
//! assert_eq!(rope.line(1, LineType::Crlf).unwrap().trim(), "print!(\"🐸\");");
//!
//! // The client writes "ln" before the exclamation mark; its offsets are UTF-16 code units.
//! let mark = Position { line: 1, character: 9 };
//! rope.change(Encoding::Utf16, Range { start: mark, end: mark }, "ln")?;
//! assert_eq!(rope, "fn main() {\n    println!(\"🐸\");\n}\n");
//! assert_eq!(rope.len_utf16(), 34);
//! # Ok(())
//! # }
//! ```
#![no_std]

extern crate alloc;
#[cfg(feature = "std")]
extern crate std;

mod builder;
mod chunks;
mod compare;
mod errors;
mod indices;
#[cfg(feature = "std")]
mod io;
mod iter;
mod library;
mod lines;
mod rope;
mod slice;
mod traits;
mod walk;

pub use builder::RopeBuilder;
pub use chunks::MAX_CHUNK;
pub use errors::Error;
#[cfg(feature = "std")]
pub use io::NotUtf8;
pub use iter::{Bytes, CharIndices, Chars, Chunks, Lines};
pub use rope::Rope;
pub use slice::RopeSlice;
pub use str_indices_positions::{Encoding, LineType, Position, Range, Scheme};
