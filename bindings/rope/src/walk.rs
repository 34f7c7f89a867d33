//! A place in a part of a text, which goes from item to item in both directions.

/// How a walk finds the item beside a place. Places are byte indices, or for lines their numbers.
pub(crate) trait Steps: Clone {
    /// An item of the walk.
    type Item;

    /// How far apart the two ends of an item are at most.
    const MOST: usize;

    /// The item that begins at a place, and the place where it ends, at `end` at most.
    fn after(&mut self, at: usize, end: usize) -> Option<(Self::Item, usize)>;

    /// The item that ends at a place, and the place where it begins, at `start` at least.
    fn before(&mut self, at: usize, start: usize) -> Option<(Self::Item, usize)>;
}

/// A part from `start` to `end`, and a place in it. The items that remain lie from the place to the end, or if the walk is
/// reversed from the place back to the start.
#[derive(Clone)]
pub(crate) struct Walk<S> {
    /// Finds items at the place.
    near: S,
    /// Finds items at the far end of what remains.
    far: S,
    start: usize,
    at: usize,
    end: usize,
    is_reversed: bool,
}

impl<S: Steps> Walk<S> {
    /// A walk at a place between the start and the end.
    pub fn new(steps: S, start: usize, at: usize, end: usize) -> Walk<S> {
        Walk {
            near: steps.clone(),
            far: steps,
            start,
            at,
            end,
            is_reversed: false,
        }
    }

    /// The place.
    pub fn at(&self) -> usize {
        self.at
    }

    /// How far it is from the place to the end of what remains.
    pub fn distance(&self) -> usize {
        if self.is_reversed {
            self.at - self.start
        } else {
            self.end - self.at
        }
    }

    /// The fewest and the most items that remain.
    pub fn size_hint(&self) -> (usize, Option<usize>) {
        let distance = self.distance();
        (distance.div_ceil(S::MOST), Some(distance))
    }

    /// Turns the walk round: items behind the place remain then, and those that remained lie behind it.
    pub fn reverse(&mut self) {
        self.is_reversed = !self.is_reversed;
    }

    /// Goes over the next item.
    #[inline]
    pub fn next(&mut self) -> Option<S::Item> {
        if self.is_reversed {
            self.go_back()
        } else {
            self.go_on()
        }
    }

    /// Goes back over the item before.
    #[inline]
    pub fn prev(&mut self) -> Option<S::Item> {
        if self.is_reversed {
            self.go_on()
        } else {
            self.go_back()
        }
    }

    /// Takes off the last item that remains.
    #[inline]
    pub fn next_back(&mut self) -> Option<S::Item> {
        if self.distance() == 0 {
            return None;
        }
        if self.is_reversed {
            let (item, start) = self.far.after(self.start, self.at)?;
            self.start = start;
            Some(item)
        } else {
            let (item, end) = self.far.before(self.end, self.at)?;
            self.end = end;
            Some(item)
        }
    }

    #[inline]
    fn go_on(&mut self) -> Option<S::Item> {
        if self.at == self.end {
            return None;
        }
        let (item, at) = self.near.after(self.at, self.end)?;
        self.at = at;
        Some(item)
    }

    #[inline]
    fn go_back(&mut self) -> Option<S::Item> {
        if self.at == self.start {
            return None;
        }
        let (item, at) = self.near.before(self.at, self.start)?;
        self.at = at;
        Some(item)
    }
}
