//! Boxes: a side for each room, document 01's split, and request 2026-06's. Relies on nothing.

use std::fmt;

/// Whole counts from lo to hi, ends included. Bands are such sides too.
#[derive(Clone, Copy, Debug, PartialEq, Eq)]
pub struct Side {
    pub lo: i64,
    pub hi: i64,
}

impl Side {
    pub fn holds(&self, other: Side) -> bool {
        self.lo <= other.lo && other.hi <= self.hi
    }
}

impl fmt::Display for Side {
    fn fmt(&self, f: &mut fmt::Formatter) -> fmt::Result {
        write!(f, "{} .. {}", self.lo, self.hi)
    }
}

/// A box, a side for each room.
pub type Sides = Vec<Side>;

/// A box in words: its sides, "by" between them.
pub fn words(sides: &[Side]) -> String {
    sides.iter().map(Side::to_string).collect::<Vec<_>>().join(" by ")
}

/// The children of a box along all its sides at once, in their order; none where no side has more than one count.
pub fn split(sides: &[Side]) -> Vec<Sides> {
    if sides.iter().all(|side| side.lo == side.hi) {
        return Vec::new();
    }
    let mut children = vec![Vec::new()];
    // the first split side is a child's lowest bit, so that each later one doubles what stands
    for side in sides {
        let halves = halves(*side);
        children = halves.iter().flat_map(|half| children.iter().map(|child| [child.as_slice(), &[*half]].concat())).collect();
    }
    children
}

/// The lower and the upper half of a box along its longest side, by counts; none where that has one count.
pub fn halve(sides: &[Side]) -> Vec<Sides> {
    // the last of equals is taken, which from behind is the lowest room
    let longest = (0..sides.len()).rev().max_by_key(|&room| sides[room].hi - sides[room].lo).expect("a box has a side");
    match halves(sides[longest])[..] {
        [lower, upper] => [lower, upper].map(|half| [&sides[..longest], &[half], &sides[longest + 1..]].concat()).into(),
        _ => Vec::new(),
    }
}

/// The lower and the upper half of a side; a side of one count stays.
fn halves(side: Side) -> Vec<Side> {
    if side.lo == side.hi {
        return vec![side];
    }
    let middle = (side.lo + side.hi).div_euclid(2);
    vec![Side { lo: side.lo, hi: middle }, Side { lo: middle + 1, hi: side.hi }]
}
