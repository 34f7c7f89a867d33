//! A rope as a plain B-tree, to compare with: nodes of up to sixteen children, leaves of up to a thousand bytes. Counts have
//! 32 bits, so a text has less than 2 GB. Nothing of it is proved.

use crate::leaf::{floor, Leaf, Summary, CRLF, KINDS, LF, ROOM};
use std::arch::x86_64::*;
use std::array;
use str_rope::Scheme;

const FANOUT: usize = 16;

/// How many bytes a leaf has after a load: there is room for the first changes.
const LOADED: usize = ROOM / 8 * 7;

/// How many children a node has after a load.
const LOADED_CHILDREN: usize = FANOUT / 4 * 3;

enum Child {
    Leaf(Box<Leaf>),
    Node(Box<Node>),
}

/// Its children, and of each the counts, and whether it starts with LF and ends in CR.
#[repr(align(64))]
struct Node {
    counts: [[u32; FANOUT]; KINDS],
    children: [Option<Child>; FANOUT],
    len: usize,
    starts_lf: u16,
    ends_cr: u16,
}

/// A text in a B-tree.
pub struct BTree {
    root: Child,
    whole: Summary,
}

/// What a change leaves: a node with another summary, or two with theirs.
enum Left {
    One(Summary),
    Two(Summary, Child, Summary),
}

/// Which of the counts of a summary a scheme asks for.
fn kind_of(scheme: Scheme) -> usize {
    match scheme {
        Scheme::Chars => 1,
        Scheme::Utf16 => 2,
        Scheme::Lf => LF,
        Scheme::Crlf => CRLF,
        _ => unreachable!("the tree counts no other"),
    }
}

/// The masks of children with room for one at `i`.
fn open_slot(mask: u16, i: usize) -> u16 {
    let low = (1 << i) - 1;
    mask & low | (mask & !low) << 1
}

/// The masks of children without the one at `i`.
fn close_slot(mask: u16, i: usize) -> u16 {
    let low = (1 << i) - 1;
    mask & low | mask >> 1 & !low
}

impl Node {
    fn empty() -> Box<Node> {
        Box::new(Node {
            counts: [[0; FANOUT]; KINDS],
            children: array::from_fn(|_| None),
            len: 0,
            starts_lf: 0,
            ends_cr: 0,
        })
    }

    fn child(&self, i: usize) -> &Child {
        self.children[i].as_ref().expect("there are so many")
    }

    fn child_mut(&mut self, i: usize) -> &mut Child {
        self.children[i].as_mut().expect("there are so many")
    }

    fn summary(&self, i: usize) -> Summary {
        Summary {
            counts: array::from_fn(|kind| self.counts[kind][i]),
            starts_lf: self.starts_lf >> i & 1 == 1,
            ends_cr: self.ends_cr >> i & 1 == 1,
        }
    }

    fn set(&mut self, i: usize, summary: Summary) {
        for (counts, count) in self.counts.iter_mut().zip(summary.counts) {
            counts[i] = count;
        }
        self.starts_lf = self.starts_lf & !(1 << i) | u16::from(summary.starts_lf) << i;
        self.ends_cr = self.ends_cr & !(1 << i) | u16::from(summary.ends_cr) << i;
    }

    /// The children whose CR and the LF of the next one are one break.
    fn seams(&self) -> u16 {
        self.ends_cr & self.starts_lf >> 1
    }

    fn whole(&self) -> Summary {
        let mut counts = self.counts.map(|counts| counts.iter().sum());
        counts[CRLF] -= self.seams().count_ones();
        self.ends(counts)
    }

    /// The summary with these counts.
    fn ends(&self, counts: [u32; KINDS]) -> Summary {
        Summary {
            counts,
            starts_lf: self.starts_lf & 1 == 1,
            ends_cr: self.len > 0 && self.ends_cr >> (self.len - 1) & 1 == 1,
        }
    }

    /// The first child with which a count is above `k`, or where `reached` at least `k`, and the count before it.
    #[inline(always)]
    fn find(&self, kind: usize, k: u32, reached: bool) -> (usize, u32) {
        let mut sums = [0; FANOUT + 1];
        let mut above = 0;
        // SAFETY: x86-64 has these instructions, and what they read and write is in the arrays.
        unsafe {
            let k = _mm_set1_epi32(k as i32 - i32::from(reached));
            let mut before = _mm_setzero_si128();
            for j in 0..FANOUT / 4 {
                let mut sum = _mm_loadu_si128(self.counts[kind].as_ptr().add(4 * j).cast());
                sum = _mm_add_epi32(sum, _mm_slli_si128(sum, 4));
                sum = _mm_add_epi32(_mm_add_epi32(sum, _mm_slli_si128(sum, 8)), before);
                before = _mm_shuffle_epi32(sum, 0xff);
                _mm_storeu_si128(sums.as_mut_ptr().add(1 + 4 * j).cast(), sum);
                above |= (_mm_movemask_ps(_mm_castsi128_ps(_mm_cmpgt_epi32(sum, k))) as u32) << (4 * j);
            }
        }
        let i = (above.trailing_zeros() as usize).min(FANOUT);
        (i, sums[i])
    }

    /// The first child with which so many are reached, and how many before it, where a break that goes over two children
    /// is in the second.
    #[inline(always)]
    fn reach(&self, kind: usize, k: u32) -> (usize, u32) {
        let seams = self.seams();
        if kind < CRLF || seams == 0 {
            return self.find(kind, k, LF <= kind);
        }
        let mut before = 0;
        for i in 0..self.len - 1 {
            let own = self.counts[kind][i] - u32::from(seams >> i & 1);
            if k <= before + own {
                return (i, before);
            }
            before += own;
        }
        (self.len - 1, before)
    }

    /// How many are in the children before one.
    #[inline(always)]
    fn before(&self, kind: usize, i: usize) -> usize {
        let counts = self.counts[kind].iter().enumerate();
        let sum: u32 = counts.map(|(j, count)| if j < i { *count } else { 0 }).sum();
        match kind {
            CRLF => (sum - (self.seams() & ((1 << i) - 1) as u16).count_ones()) as usize,
            _ => sum as usize,
        }
    }

    fn put(&mut self, i: usize, child: Child, summary: Summary) {
        for counts in &mut self.counts {
            counts.copy_within(i..self.len, i + 1);
        }
        self.children[i..=self.len].rotate_right(1);
        self.children[i] = Some(child);
        self.starts_lf = open_slot(self.starts_lf, i);
        self.ends_cr = open_slot(self.ends_cr, i);
        self.len += 1;
        self.set(i, summary);
    }

    fn take(&mut self, i: usize) -> Option<Child> {
        for counts in &mut self.counts {
            counts.copy_within(i + 1..self.len, i);
            counts[self.len - 1] = 0;
        }
        let child = self.children[i].take();
        self.children[i..self.len].rotate_left(1);
        self.starts_lf = close_slot(self.starts_lf, i);
        self.ends_cr = close_slot(self.ends_cr, i);
        self.len -= 1;
        child
    }

    /// Moves the children from one on to the end of another node.
    fn move_to(&mut self, from: usize, other: &mut Node) {
        for i in from..self.len {
            let summary = self.summary(i);
            let child = self.children[i].take().expect("there are so many");
            other.put(other.len, child, summary);
        }
        while from < self.len {
            self.take(self.len - 1);
        }
    }

    fn insert(&mut self, at: usize, more: &str, whole: Summary) -> Left {
        let (i, before) = self.find(0, at as u32, true);
        let i = i.min(self.len - 1);
        let (old, seams) = (self.summary(i), self.seams());
        match self.child_mut(i).insert(at - before as usize, more, old) {
            Left::One(new) => {
                self.set(i, new);
                Left::One(self.update(whole, old, new, seams))
            }
            Left::Two(new, child, summary) => {
                self.set(i, new);
                self.put_or_split(i + 1, child, summary)
            }
        }
    }

    fn put_or_split(&mut self, i: usize, child: Child, summary: Summary) -> Left {
        if self.len < FANOUT {
            self.put(i, child, summary);
            return Left::One(self.whole());
        }
        let mut right = Node::empty();
        self.move_to(FANOUT / 2, &mut right);
        if i <= FANOUT / 2 {
            self.put(i, child, summary);
        } else {
            right.put(i - FANOUT / 2, child, summary);
        }
        let whole = right.whole();
        Left::Two(self.whole(), Child::Node(right), whole)
    }

    /// The summary after that of one child has changed.
    fn update(&self, whole: Summary, old: Summary, new: Summary, seams: u16) -> Summary {
        let mut counts = whole.less(old).plus(new).counts;
        counts[CRLF] = counts[CRLF]
            .wrapping_add(seams.count_ones())
            .wrapping_sub(self.seams().count_ones());
        self.ends(counts)
    }

    /// Takes bytes out. It may be left empty.
    fn remove(&mut self, from: usize, to: usize, whole: Summary) -> Summary {
        let (first, before) = self.find(0, from as u32, false);
        let (mut i, mut at) = (first, before as usize);
        let mut changed = whole;
        let mut is_kept = true;
        while i < self.len && at < to {
            let (old, seams) = (self.summary(i), self.seams());
            let (start, end) = (from.max(at) - at, (to - at).min(old.len()));
            at += old.len();
            if end - start == old.len() {
                self.take(i);
                is_kept = false;
                continue;
            }
            let new = self.child_mut(i).remove(start, end, old);
            self.set(i, new);
            changed = self.update(changed, old, new, seams);
            i += 1;
        }
        if self.join_small(first) || !is_kept {
            return self.whole();
        }
        changed
    }

    /// Joins small children beside one, and says whether it did.
    fn join_small(&mut self, first: usize) -> bool {
        let mut joined = false;
        let mut i = first.saturating_sub(1);
        while i + 1 < self.len && i <= first + 1 {
            if self.join(i) {
                joined = true;
            } else {
                i += 1;
            }
        }
        joined
    }

    /// Whether a child and the next one are small, as far as is known without a look at them.
    fn are_small(&self, i: usize) -> bool {
        let (one, other) = (self.counts[0][i] as usize, self.counts[0][i + 1] as usize);
        match self.child(i) {
            Child::Leaf(_) => one + other <= ROOM / 2,
            Child::Node(_) => one.min(other) <= 4 * ROOM,
        }
    }

    /// Joins a child and the next one, where both are small.
    fn join(&mut self, i: usize) -> bool {
        if !self.are_small(i) {
            return false;
        }
        let (one, other) = self.children.split_at_mut(i + 1);
        let summary = match (&mut one[i], &mut other[0]) {
            (Some(Child::Leaf(one)), Some(Child::Leaf(other))) => {
                one.insert(one.text().len(), other.text());
                one.summary()
            }
            (Some(Child::Node(one)), Some(Child::Node(other))) if one.len + other.len <= FANOUT => {
                other.move_to(0, one);
                one.whole()
            }
            _ => return false,
        };
        self.take(i + 1);
        self.set(i, summary);
        true
    }
}

impl Child {
    fn insert(&mut self, at: usize, more: &str, whole: Summary) -> Left {
        match self {
            Child::Node(node) => node.insert(at, more, whole),
            Child::Leaf(leaf) if leaf.text().len() + more.len() <= ROOM => {
                Left::One(leaf.insert_counted(at, more, whole))
            }
            Child::Leaf(leaf) => {
                let half = floor(leaf.text(), leaf.text().len() / 2);
                let mut right = leaf.split_off(half);
                if at <= half {
                    leaf.insert(at, more.as_bytes());
                } else {
                    right.insert(at - half, more.as_bytes());
                }
                let summary = right.summary();
                Left::Two(leaf.summary(), Child::Leaf(right), summary)
            }
        }
    }

    fn remove(&mut self, from: usize, to: usize, whole: Summary) -> Summary {
        match self {
            Child::Node(node) => node.remove(from, to, whole),
            Child::Leaf(leaf) => leaf.remove_counted(from, to, whole),
        }
    }

    /// Hands out the leaves between two bytes.
    fn read(&self, from: usize, to: usize, each: &mut impl FnMut(&[u8])) {
        match self {
            Child::Leaf(leaf) => each(&leaf.text()[from..to]),
            Child::Node(node) => {
                let (first, before) = node.find(0, from as u32, false);
                let mut at = before as usize;
                for i in first..node.len {
                    if to <= at {
                        break;
                    }
                    let len = node.counts[0][i] as usize;
                    node.child(i).read(from.max(at) - at, (to - at).min(len), each);
                    at += len;
                }
            }
        }
    }
}

/// Nodes over children, some to each.
fn nodes_over(children: Vec<(Child, Summary)>) -> Vec<(Child, Summary)> {
    let nodes = children.len().div_ceil(LOADED_CHILDREN);
    let each = children.len().div_ceil(nodes);
    let mut rest = children.into_iter();
    let above = (0..nodes).map(|_| {
        let mut node = Node::empty();
        for (child, summary) in rest.by_ref().take(each) {
            node.put(node.len, child, summary);
        }
        let whole = node.whole();
        (Child::Node(node), whole)
    });
    above.collect()
}

impl BTree {
    pub fn of(text: &str) -> BTree {
        let bytes = text.as_bytes();
        let leaves = bytes.len().div_ceil(LOADED).max(1);
        let each = bytes.len().div_ceil(leaves);
        let mut row = Vec::with_capacity(leaves + 1);
        let mut at = 0;
        while at < bytes.len() || row.is_empty() {
            let end = floor(bytes, (at + each).min(bytes.len()));
            let leaf = Leaf::of(&bytes[at..end]);
            let summary = leaf.summary();
            row.push((Child::Leaf(leaf), summary));
            at = end;
        }
        while row.len() > 1 {
            row = nodes_over(row);
        }
        let (root, whole) = row.swap_remove(0);
        BTree { root, whole }
    }

    pub fn len(&self) -> usize {
        self.whole.len()
    }

    /// The byte after the first `k` of a scheme; the text's length where it has fewer.
    pub fn byte_of(&self, scheme: Scheme, k: usize) -> usize {
        let kind = kind_of(scheme);
        let whole = self.whole.counts[kind] as usize;
        if k == 0 {
            return 0;
        }
        if whole < k + usize::from(kind < LF) {
            return self.len();
        }
        let (mut child, mut left, mut at) = (&self.root, k as u32, 0);
        loop {
            match child {
                Child::Leaf(leaf) => return at + leaf.byte_of(kind, left as usize),
                Child::Node(node) => {
                    let (i, before) = node.reach(kind, left);
                    at += node.before(0, i);
                    left -= before;
                    child = node.child(i);
                }
            }
        }
    }

    /// How many of a scheme are before a byte.
    pub fn index_of(&self, scheme: Scheme, byte: usize) -> usize {
        let kind = kind_of(scheme);
        if self.len() <= byte {
            return self.whole.counts[kind] as usize;
        }
        let (mut child, mut byte, mut count) = (&self.root, byte as u32, 0);
        loop {
            match child {
                Child::Leaf(leaf) => return count + leaf.index_of(kind, byte as usize),
                Child::Node(node) => {
                    let (i, before) = node.find(0, byte, false);
                    count += node.before(kind, i);
                    byte -= before;
                    child = node.child(i);
                }
            }
        }
    }

    fn is_boundary(&self, at: usize) -> bool {
        if self.len() <= at {
            return at == self.len();
        }
        let (mut child, mut at) = (&self.root, at as u32);
        loop {
            match child {
                Child::Leaf(leaf) => return floor(leaf.text(), at as usize) == at as usize,
                Child::Node(node) => {
                    let (i, before) = node.find(0, at, false);
                    at -= before;
                    child = node.child(i);
                }
            }
        }
    }

    /// Puts a short text in.
    pub fn insert(&mut self, at: usize, more: &str) {
        assert!(self.is_boundary(at) && more.len() < ROOM / 2);
        match self.root.insert(at, more, self.whole) {
            Left::One(whole) => self.whole = whole,
            Left::Two(left, right, summary) => {
                let mut node = Node::empty();
                let root = std::mem::replace(&mut self.root, right);
                node.put(0, root, left);
                let right = std::mem::replace(&mut self.root, Child::Leaf(Leaf::of(b"")));
                node.put(1, right, summary);
                self.whole = node.whole();
                self.root = Child::Node(node);
            }
        }
    }

    pub fn remove(&mut self, from: usize, to: usize) {
        assert!(self.is_boundary(from) && self.is_boundary(to));
        if to - from == self.len() {
            *self = BTree::of("");
            return;
        }
        self.whole = self.root.remove(from, to, self.whole);
        while let Child::Node(node) = &mut self.root {
            if node.len > 1 {
                break;
            }
            self.root = node.take(0).expect("it has one");
        }
    }

    /// Hands out the text between two bytes, leaf by leaf.
    pub fn read(&self, from: usize, to: usize, each: &mut impl FnMut(&[u8])) {
        if from < to {
            self.root.read(from, to, each);
        }
    }
}
