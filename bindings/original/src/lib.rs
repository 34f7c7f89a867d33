//! The original crate `str_indices`, to compare with: its sixteen functions and its own tests.
//!
//! Its source is no part of this repository. Where the environment variable `STR_INDICES_ORIGINAL` names its folder,
//! which has `src/lib.rs`, by an absolute path, the build script of this package compiles it with its default
//! features. Else this package builds too: then [`functions`] answers `None`, and [`own_tests!`] expands to nothing.
#![no_std]

#[cfg(original_at_hand)]
extern crate str_indices_original;

include!(concat!(env!("OUT_DIR"), "/own_tests.rs"));

/// One public function of a crate with the surface of `str_indices`: its name, as `chars::count`, and itself.
#[derive(Clone, Copy, Debug)]
pub enum Function {
    /// It takes a text and answers a count.
    Counting(&'static str, fn(&str) -> usize),
    /// It takes a text and an index and answers an index.
    Converting(&'static str, fn(&str, usize) -> usize),
}

impl Function {
    /// Its module and name, as `chars::count`.
    pub fn name(&self) -> &'static str {
        match self {
            Self::Counting(name, _) | Self::Converting(name, _) => name,
        }
    }

    /// Calls it for the text and the index. A counting function takes no index.
    pub fn answer(&self, text: &str, index: usize) -> usize {
        match self {
            Self::Counting(_, count) => count(text),
            Self::Converting(_, convert) => convert(text, index),
        }
    }
}

/// The sixteen functions of the crate of that name in scope, as `[Function; 16]`. For every crate their order is the
/// same, so the same places of two tables hold functions that should agree.
#[macro_export]
macro_rules! functions {
    ($krate:ident) => {
        [
            $crate::function!(Counting $krate::chars::count),
            $crate::function!(Converting $krate::chars::from_byte_idx),
            $crate::function!(Converting $krate::chars::to_byte_idx),
            $crate::function!(Counting $krate::utf16::count),
            $crate::function!(Counting $krate::utf16::count_surrogates),
            $crate::function!(Converting $krate::utf16::from_byte_idx),
            $crate::function!(Converting $krate::utf16::to_byte_idx),
            $crate::function!(Counting $krate::lines_lf::count_breaks),
            $crate::function!(Converting $krate::lines_lf::from_byte_idx),
            $crate::function!(Converting $krate::lines_lf::to_byte_idx),
            $crate::function!(Counting $krate::lines_crlf::count_breaks),
            $crate::function!(Converting $krate::lines_crlf::from_byte_idx),
            $crate::function!(Converting $krate::lines_crlf::to_byte_idx),
            $crate::function!(Counting $krate::lines::count_breaks),
            $crate::function!(Converting $krate::lines::from_byte_idx),
            $crate::function!(Converting $krate::lines::to_byte_idx),
        ]
    };
}

/// One row of [`functions!`].
#[doc(hidden)]
#[macro_export]
macro_rules! function {
    ($kind:ident $krate:ident :: $module:ident :: $name:ident) => {
        $crate::Function::$kind(
            concat!(stringify!($module), "::", stringify!($name)),
            $krate::$module::$name,
        )
    };
}

/// The original's functions; `None` where it is not at hand.
#[cfg(original_at_hand)]
pub fn functions() -> Option<[Function; 16]> {
    Some(functions!(str_indices_original))
}

/// The original's functions; `None` where it is not at hand.
#[cfg(not(original_at_hand))]
pub fn functions() -> Option<[Function; 16]> {
    None
}
