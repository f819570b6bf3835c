//! Boxes: n sides of whole counts, both edges included, and "Split. A side
//! a..b with a < b becomes a..m and m+1..b, m the floor of (a+b)/2. A box
//! splits along all such sides at once; a one-count side stays. Children are
//! ordered by a binary number, dimension 1 the lowest bit, lower half 0. A box
//! with no side to split cannot be split." Or, in request 2026-06, along its
//! longest side alone; "the midpoint rule stays".

use crate::MOST_ROOMS;
use std::ops::Range;

/// A side lo..hi, ends included.
#[derive(Clone, Copy, Debug, PartialEq, Eq, Default)]
pub struct Side {
    pub lo: i64,
    pub hi: i64,
}

impl Side {
    /// The two halves of a side of more than one count; None for one count.
    pub fn halves(&self) -> Option<(Side, Side)> {
        if self.lo >= self.hi {
            return None;
        }
        let middle = (self.lo + self.hi).div_euclid(2);
        Some((Side { lo: self.lo, hi: middle }, Side { lo: middle + 1, hi: self.hi }))
    }
}

/// A box of one to four sides.
#[derive(Clone, Copy, Debug, PartialEq, Eq)]
pub struct Box {
    n: usize,
    sides: [Side; MOST_ROOMS],
}

impl FromIterator<Side> for Box {
    /// The box of these sides, at most four.
    #[inline]
    fn from_iter<Sides: IntoIterator<Item = Side>>(sides: Sides) -> Box {
        let mut made = Box { n: 0, sides: [Side::default(); MOST_ROOMS] };
        for (slot, side) in made.sides.iter_mut().zip(sides) {
            *slot = side;
            made.n += 1;
        }
        made
    }
}

impl Box {
    /// The box with these low and high edges, as many sides as both have.
    pub fn new(lo: &[i64], hi: &[i64]) -> Box {
        lo.iter().zip(hi).map(|(lo, hi)| Side { lo: *lo, hi: *hi }).collect()
    }

    /// Its sides, in order of dimension.
    pub fn sides(&self) -> &[Side] {
        &self.sides[..self.n]
    }

    /// The first dimension, from 0, in which a reading is outside the box;
    /// "numbers of the reading beyond n are ignored".
    pub fn first_outside(&self, reading: &[i64; MOST_ROOMS]) -> Option<usize> {
        let mut pairs = self.sides().iter().zip(reading);
        pairs.position(|(side, count)| *count < side.lo || *count > side.hi)
    }

    /// Whether a reading lies in the box.
    pub fn contains(&self, reading: &[i64; MOST_ROOMS]) -> bool {
        self.first_outside(reading).is_none()
    }

    /// Whether the box lies in another.
    pub fn lies_in(&self, outer: &Box) -> bool {
        let mut pairs = self.sides().iter().zip(outer.sides());
        pairs.all(|(inner, outer)| inner.lo >= outer.lo && inner.hi <= outer.hi)
    }

    /// The children along all sides at once; None where no side can be split.
    pub fn split(&self) -> Option<Children> {
        self.children(0..self.n)
    }

    /// The two children along the longest side, "the lowest dimension where
    /// several are equal"; None where no side can be split.
    pub fn halve(&self) -> Option<Children> {
        let counts = |i: usize| self.sides[i].hi - self.sides[i].lo;
        let mut longest = 0;
        for i in 1..self.n {
            // An equal one does not take its place, so the lowest of them stays.
            if counts(i) > counts(longest) {
                longest = i;
            }
        }
        self.children(longest..longest + 1)
    }

    /// The children along those of these dimensions whose side is more than one
    /// count; None where there is none.
    fn children(&self, dimensions: Range<usize>) -> Option<Children> {
        let along = dimensions.filter(|i| self.sides[*i].halves().is_some()).map(|i| 1 << i).sum();
        (along != 0).then_some(Children { parent: *self, along, next: Some(0) })
    }
}

/// The children of a box, in order of their binary number, which has a bit for
/// each side that is split: bit i, of those in `along`, for dimension i.
pub struct Children {
    parent: Box,
    along: usize,
    next: Option<usize>,
}

impl Children {
    /// How many there are.
    pub fn how_many(&self) -> usize {
        1 << self.along.count_ones()
    }

    /// The child with this number, bit i choosing the half in dimension i.
    fn child(&self, number: usize) -> Box {
        let mut child = self.parent;
        for (i, side) in child.sides[..child.n].iter_mut().enumerate() {
            if let (1, Some((low, high))) = (self.along >> i & 1, side.halves()) {
                *side = if number >> i & 1 == 0 { low } else { high };
            }
        }
        child
    }
}

impl Iterator for Children {
    type Item = Box;

    fn next(&mut self) -> Option<Box> {
        let number = self.next?;
        // One more, counted in the bits of the split sides alone; 0 again behind the last.
        let after = number.wrapping_sub(self.along) & self.along;
        self.next = (after != 0).then_some(after);
        Some(self.child(number))
    }
}
