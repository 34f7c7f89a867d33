//! Iterators that go both ways, beside a list of what they go over.
use super::Numbers;
use std::fmt::Debug;
use str_rope::{Bytes, CharIndices, Chars, Chunks, Lines};

/// An iterator that turns round at its place.
pub trait Turning: DoubleEndedIterator + Clone {
    fn back(&mut self) -> Option<Self::Item>;
    fn turn(&mut self);
}

macro_rules! turning {
    ($($name:ident)*) => {$(
        impl Turning for $name<'_> {
            fn back(&mut self) -> Option<Self::Item> {
                self.prev()
            }

            fn turn(&mut self) {
                self.reverse();
            }
        }
    )*};
}

turning!(Bytes Chars CharIndices Chunks Lines);

/// A list, and a place in it: what an iterator should do.
struct Listed<'a, T> {
    items: &'a [T],
    start: usize,
    at: usize,
    end: usize,
    is_turned: bool,
}

impl<T: Clone> Listed<'_, T> {
    fn remaining(&self) -> usize {
        if self.is_turned {
            self.at - self.start
        } else {
            self.end - self.at
        }
    }

    /// Goes towards the end or the start of the list.
    fn go(&mut self, to_end: bool) -> Option<T> {
        if to_end && self.at < self.end {
            self.at += 1;
            return Some(self.items[self.at - 1].clone());
        }
        if !to_end && self.at > self.start {
            self.at -= 1;
            return Some(self.items[self.at].clone());
        }
        None
    }

    fn take_last(&mut self) -> Option<T> {
        if self.remaining() == 0 {
            return None;
        }
        if self.is_turned {
            self.start += 1;
            return Some(self.items[self.start - 1].clone());
        }
        self.end -= 1;
        Some(self.items[self.end].clone())
    }
}

/// Goes over the items in random directions, one of them more often than others, from a place among them.
pub fn assert_walk<W>(mut walk: W, items: &[W::Item], at: usize, numbers: &mut Numbers)
where
    W: Turning,
    W::Item: Clone + PartialEq + Debug,
{
    let mut listed = Listed {
        items,
        start: 0,
        at,
        end: items.len(),
        is_turned: false,
    };
    let often = numbers.below(9);
    for _ in 0..40 {
        let step = if numbers.below(2) == 0 { often } else { numbers.below(9) };
        let (found, wanted) = match step {
            0..=3 => (walk.next(), listed.go(!listed.is_turned)),
            4 | 5 => (walk.back(), listed.go(listed.is_turned)),
            6 | 7 => (walk.next_back(), listed.take_last()),
            _ => {
                walk.turn();
                listed.is_turned = !listed.is_turned;
                (None, None)
            }
        };
        assert_eq!(found, wanted);
        let (least, most) = walk.size_hint();
        assert!((least..=most.unwrap()).contains(&listed.remaining()));
    }
}

/// Goes over all items, in each way that there is.
pub fn assert_both_ways<W>(walk: W, items: &[W::Item])
where
    W: Turning,
    W::Item: Clone + PartialEq + Debug,
{
    assert!(walk.clone().eq(items.iter().cloned()));
    assert!(walk.clone().rev().eq(items.iter().rev().cloned()));
    let mut turned = walk;
    while turned.next().is_some() {}
    assert!(turned.next().is_none());
    turned.turn();
    assert!(turned.eq(items.iter().rev().cloned()));
}
