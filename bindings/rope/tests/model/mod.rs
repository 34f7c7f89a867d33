//! A plain text beside a rope.
// Each file of tests takes what it needs.
#![allow(dead_code, unused_imports)]
#[path = "../../../positions/tests/plain/mod.rs"]
mod plain;
pub use plain::*;
use str_rope::{Rope, Scheme};

pub mod answers;
pub mod walks;

/// The text of a rope by its chunks.
pub fn joined(rope: &Rope) -> String {
    rope.chunks().inspect(|chunk| assert!(!chunk.is_empty())).collect()
}
