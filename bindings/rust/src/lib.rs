//! Counts the chars, UTF-16 code units and line breaks of a text, and converts between those indices and byte indices.
//!
//! This is the surface of the crate `str_indices` 0.4.4, over functions that are proved to answer by their definitions:
//! each call here is one call into a static library of them. A module is one indexing scheme.
//!
//! Every text and every index has an answer: nothing panics, and nothing allocates. All indices begin at 0. A conversion
//! to a byte index answers a boundary of a char, so the text may be sliced there.
#![no_std]

pub mod chars;
mod library;
pub mod lines;
pub mod lines_crlf;
pub mod lines_lf;
pub mod utf16;
