//! A leaf of the B-tree, and the counts of its text.

use std::arch::x86_64::*;
use std::array;

/// How many bytes a leaf has at most.
pub const ROOM: usize = 1000;

/// How many counts a summary has: bytes, characters, UTF-16 code units, LFs, and breaks by CR, LF and CRLF.
pub const KINDS: usize = 5;

pub const LF: usize = 3;

pub const CRLF: usize = 4;

/// How many bytes are looked at in one step.
pub const STEP: usize = 16;

/// How many steps are counted together.
const TOGETHER: usize = 4 * STEP;

/// What is known of a text.
#[derive(Clone, Copy)]
pub struct Summary {
    pub counts: [u32; KINDS],
    pub starts_lf: bool,
    pub ends_cr: bool,
}

impl Summary {
    fn of(text: &[u8]) -> Summary {
        let mut counts = [text.len() as u32, 0, 0, 0, 0];
        let mut ends_cr = 0;
        let mut add = |seen: Seen| {
            counts[1] += seen.starts.count_ones();
            counts[2] += seen.starts.count_ones() + seen.wide.count_ones();
            counts[LF] += seen.lf.count_ones();
            let pairs = seen.lf & (seen.cr << 1 | ends_cr);
            counts[CRLF] = (counts[CRLF] + seen.lf.count_ones() + seen.cr.count_ones()) - pairs.count_ones();
            ends_cr = seen.cr >> (STEP - 1);
        };
        let steps = text.chunks_exact(STEP);
        let rest = steps.remainder();
        for step in steps {
            add(Seen::of(load(step)));
        }
        if !rest.is_empty() {
            add(Seen::of_part(rest));
        }
        Summary {
            counts,
            starts_lf: text.first() == Some(&b'\n'),
            ends_cr: text.last() == Some(&b'\r'),
        }
    }

    pub fn len(self) -> usize {
        self.counts[0] as usize
    }

    pub fn plus(self, other: Summary) -> Summary {
        let counts = array::from_fn(|kind| self.counts[kind].wrapping_add(other.counts[kind]));
        Summary { counts, ..self }
    }

    pub fn less(self, other: Summary) -> Summary {
        let counts = array::from_fn(|kind| self.counts[kind].wrapping_sub(other.counts[kind]));
        Summary { counts, ..self }
    }
}

/// Which of sixteen bytes start characters, start characters of four bytes, are LF, and are CR.
pub struct Seen {
    starts: u32,
    wide: u32,
    pub lf: u32,
    pub cr: u32,
}

/// The mask of the first so many of sixteen bytes.
fn first(len: usize) -> u32 {
    if len < STEP {
        (1 << len) - 1
    } else {
        0xffff
    }
}

#[inline(always)]
fn load(bytes: &[u8]) -> __m128i {
    assert!(bytes.len() == STEP);
    // SAFETY: x86-64 has this instruction, and it reads so many bytes.
    unsafe { _mm_loadu_si128(bytes.as_ptr().cast()) }
}

impl Seen {
    #[inline(always)]
    fn of(bytes: __m128i) -> Seen {
        // SAFETY: x86-64 has these instructions.
        #[allow(unused_unsafe)]
        unsafe {
            let equal = |byte: u8| _mm_movemask_epi8(_mm_cmpeq_epi8(bytes, _mm_set1_epi8(byte as i8))) as u32;
            let wide = _mm_cmpeq_epi8(_mm_max_epu8(bytes, _mm_set1_epi8(-16)), bytes);
            Seen {
                starts: _mm_movemask_epi8(_mm_cmpgt_epi8(bytes, _mm_set1_epi8(-65))) as u32,
                wide: _mm_movemask_epi8(wide) as u32,
                lf: equal(b'\n'),
                cr: equal(b'\r'),
            }
        }
    }

    /// The same of sixteen bytes or fewer, most often of sixteen.
    #[inline(always)]
    pub fn of_any(part: &[u8]) -> Seen {
        if part.len() == STEP {
            Seen::of(load(part))
        } else {
            Seen::of_part(part)
        }
    }

    /// The same of fewer.
    fn of_part(part: &[u8]) -> Seen {
        let mut bytes = [0; STEP];
        bytes[..part.len()].copy_from_slice(part);
        Seen::of(load(&bytes)).of_first(part.len())
    }

    fn of_first(self, len: usize) -> Seen {
        let kept = first(len);
        Seen {
            starts: self.starts & kept,
            wide: self.wide & kept,
            lf: self.lf & kept,
            cr: self.cr & kept,
        }
    }
}

/// Where the character begins that a byte is in.
pub fn floor(text: &[u8], mut at: usize) -> usize {
    while at < text.len() && text[at] & 0xc0 == 0x80 {
        at -= 1;
    }
    at
}

/// A text of up to `ROOM` bytes. Steps may go over its end, but not over that of its memory.
pub struct Leaf {
    len: u16,
    bytes: [u8; ROOM + STEP - 2],
}

impl Leaf {
    pub fn of(text: &[u8]) -> Box<Leaf> {
        let mut leaf = Box::new(Leaf {
            len: text.len() as u16,
            bytes: [0; ROOM + STEP - 2],
        });
        leaf.bytes[..text.len()].copy_from_slice(text);
        leaf
    }

    pub fn text(&self) -> &[u8] {
        &self.bytes[..usize::from(self.len)]
    }

    pub fn summary(&self) -> Summary {
        Summary::of(self.text())
    }

    pub fn split_off(&mut self, at: usize) -> Box<Leaf> {
        let right = Leaf::of(&self.text()[at..]);
        self.len = at as u16;
        right
    }

    pub fn insert(&mut self, at: usize, more: &[u8]) {
        let len = self.text().len();
        self.bytes.copy_within(at..len, at + more.len());
        self.bytes[at..at + more.len()].copy_from_slice(more);
        self.len += more.len() as u16;
    }

    /// Puts a text in; answers the summary after that.
    pub fn insert_counted(&mut self, at: usize, more: &str, whole: Summary) -> Summary {
        let difference = self.difference(at, more.as_bytes());
        self.insert(at, more.as_bytes());
        self.with_ends(whole.plus(difference))
    }

    /// Takes bytes out; answers the summary after that.
    pub fn remove_counted(&mut self, from: usize, to: usize, whole: Summary) -> Summary {
        let out = Leaf::of_short(&self.text()[from..to]);
        let len = self.text().len();
        self.bytes.copy_within(to..len, from);
        self.len -= (to - from) as u16;
        match out {
            None => self.summary(),
            Some(out) => self.with_ends(whole.less(self.difference(from, &out[..to - from]))),
        }
    }

    /// A copy of a short text.
    fn of_short(text: &[u8]) -> Option<[u8; 128]> {
        let mut copy = [0; 128];
        copy.get_mut(..text.len())?.copy_from_slice(text);
        Some(copy)
    }

    fn with_ends(&self, whole: Summary) -> Summary {
        Summary {
            starts_lf: self.text().first() == Some(&b'\n'),
            ends_cr: self.text().last() == Some(&b'\r'),
            ..whole
        }
    }

    /// What the counts of a text grow by where another one is put in.
    fn difference(&self, at: usize, more: &[u8]) -> Summary {
        let text = self.text();
        let mut own = Summary::of(more);
        let before = at > 0 && text[at - 1] == b'\r';
        let after = text.get(at) == Some(&b'\n');
        let lost = u32::from(before && own.starts_lf) + u32::from(own.ends_cr && after);
        own.counts[CRLF] = (own.counts[CRLF].wrapping_sub(lost)).wrapping_add(u32::from(before && after));
        own
    }

    /// The sixteen bytes from one of the text on.
    #[inline(always)]
    fn step_at(&self, at: usize) -> __m128i {
        debug_assert!(at <= ROOM - 2);
        // SAFETY: x86-64 has this instruction, and what it reads is in the leaf's memory.
        unsafe { _mm_loadu_si128(self.bytes.as_ptr().add(at).cast()) }
    }

    /// How many of a kind are in some steps from a byte on. The byte after them is looked at for an LF.
    #[inline(always)]
    fn count_together<const KIND: usize>(&self, at: usize) -> usize {
        // SAFETY: x86-64 has these instructions.
        #[allow(unused_unsafe)]
        unsafe {
            let mut sum = _mm_setzero_si128();
            let equal = |bytes, byte: u8| _mm_cmpeq_epi8(bytes, _mm_set1_epi8(byte as i8));
            for j in 0..TOGETHER / STEP {
                let bytes = self.step_at(at + STEP * j);
                sum = match KIND {
                    1 => _mm_sub_epi8(sum, _mm_cmpgt_epi8(bytes, _mm_set1_epi8(-65))),
                    2 => {
                        let starts = _mm_sub_epi8(sum, _mm_cmpgt_epi8(bytes, _mm_set1_epi8(-65)));
                        _mm_sub_epi8(starts, _mm_cmpeq_epi8(_mm_max_epu8(bytes, _mm_set1_epi8(-16)), bytes))
                    }
                    LF => _mm_sub_epi8(sum, equal(bytes, b'\n')),
                    _ => {
                        let next = self.step_at(at + STEP * j + 1);
                        let lone = _mm_andnot_si128(equal(next, b'\n'), equal(bytes, b'\r'));
                        _mm_sub_epi8(sum, _mm_or_si128(equal(bytes, b'\n'), lone))
                    }
                };
            }
            let sum = _mm_sad_epu8(sum, _mm_setzero_si128());
            (_mm_cvtsi128_si64(sum) + _mm_cvtsi128_si64(_mm_unpackhi_epi64(sum, sum))) as usize
        }
    }

    /// Which of the next sixteen bytes count one, and which one more. A CR counts where no LF is after it.
    #[inline(always)]
    fn seen_at<const KIND: usize>(&self, at: usize, end: usize) -> (u32, u32) {
        let seen = Seen::of(self.step_at(at)).of_first(self.text().len() - at);
        let kept = first(end - at);
        match KIND {
            1 => (kept & seen.starts, 0),
            2 => (kept & seen.starts, kept & seen.wide),
            LF => (kept & seen.lf, 0),
            _ => {
                let after = self.text().get(at + STEP) == Some(&b'\n');
                let followed = seen.lf >> 1 | u32::from(after) << (STEP - 1);
                (kept & (seen.lf | seen.cr & !followed), 0)
            }
        }
    }

    /// How many of a kind end before a byte.
    fn count_to<const KIND: usize>(&self, end: usize) -> usize {
        let (mut sum, mut at) = (0, 0);
        while at + TOGETHER < end {
            sum += self.count_together::<KIND>(at);
            at += TOGETHER;
        }
        while at < end {
            let (one, more) = self.seen_at::<KIND>(at, end);
            sum += (one.count_ones() + more.count_ones()) as usize;
            at += STEP;
        }
        sum
    }

    /// Where character or unit `k` begins, or the byte after break `k`.
    fn place_of<const KIND: usize>(&self, k: usize) -> usize {
        let end = self.text().len();
        let (mut left, mut at) = (k + usize::from(KIND < LF), 0);
        while at + TOGETHER < end {
            let here = self.count_together::<KIND>(at);
            if left <= here {
                break;
            }
            left -= here;
            at += TOGETHER;
        }
        while at < end {
            let (mut one, more) = self.seen_at::<KIND>(at, end);
            let here = (one.count_ones() + more.count_ones()) as usize;
            if here < left {
                left -= here;
                at += STEP;
                continue;
            }
            loop {
                let i = one.trailing_zeros();
                let own = 1 + (more >> i & 1) as usize;
                if left <= own {
                    return at + i as usize + usize::from(LF <= KIND);
                }
                left -= own;
                one &= one - 1;
            }
        }
        end
    }

    pub fn byte_of(&self, kind: usize, k: usize) -> usize {
        match kind {
            1 => self.place_of::<1>(k),
            2 => self.place_of::<2>(k),
            LF => self.place_of::<LF>(k),
            _ => self.place_of::<CRLF>(k),
        }
    }

    pub fn index_of(&self, kind: usize, byte: usize) -> usize {
        match kind {
            1 => self.count_to::<1>(floor(self.text(), byte)),
            2 => self.count_to::<2>(floor(self.text(), byte)),
            LF => self.count_to::<LF>(byte),
            _ => self.count_to::<CRLF>(byte),
        }
    }
}
