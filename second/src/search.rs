//! The search for "the shortest pattern that works, and among equal lengths
//! the first in mode order, compared from the first mode".
//!
//! Beginnings are shared: the boxes along the present beginning are kept, and
//! a beginning whose image leaves S is dropped with every pattern that starts
//! so. The last step tests the image against the goal without dividing: for q > 0,
//! ceil(v/q) >= lo exactly when v > q*(lo-1), floor(v/q) <= hi exactly when
//! v < q*(hi+1). Everything is kept doubled, so that the least and greatest of
//! a row come from the box's middle and reach without asking for any sign:
//! twice the least is 2b + A*(lo+hi) - |A|*(hi-lo), twice the greatest the same
//! with +. A mode's band is part of its rows: w lo + w hi is added to the middle,
//! w hi - w lo to the reach, so that the limits are the same for every mode.
//! Memory: the rows of the plant's modes, and one box for each step of the
//! beginning.

use crate::boxes::Box;
use crate::image::{ceil_div, floor_div};
use crate::plant::Plant;
use crate::LONGEST_PATTERN;

/// One row of a mode: A_i1..A_in, their sizes, 2*b_i + w lo_i + w hi_i, and
/// w hi_i - w lo_i.
#[derive(Clone, Copy)]
struct Row<const N: usize> {
    a: [i64; N],
    size: [i64; N],
    middle: i64,
    reach: i64,
}

/// A box as lo+hi and hi-lo of each side.
#[derive(Clone, Copy)]
struct Spread<const N: usize> {
    sum: [i64; N],
    width: [i64; N],
}

/// A row's doubled least and greatest, its band added, lie above `above` and
/// below `below` exactly when the image lies in the box these limits were made
/// of.
#[derive(Clone, Copy)]
struct Limits<const N: usize> {
    above: [i64; N],
    below: [i64; N],
}

/// The plant of N rooms, laid out for the search.
pub struct Search<const N: usize> {
    modes: Vec<[Row<N>; N]>,
    longest: usize,
    q: i64,
    in_goal: Limits<N>,
    in_s: Limits<N>,
}

impl<const N: usize> Search<N> {
    /// Lays a judged plant of N rooms out, for patterns that end in `goal`.
    pub fn new(plant: &Plant, goal: &Box) -> Search<N> {
        Search {
            modes: (0..plant.mode_count()).map(|u| std::array::from_fn(|i| Row::new(plant, u, i))).collect(),
            longest: plant.k as usize,
            q: plant.q as i64,
            in_goal: limits(plant.q, goal),
            in_s: limits(plant.q, &plant.s()),
        }
    }

    /// The first pattern that works for a box, written to `pattern`; its
    /// length, or None where none works.
    pub fn first_pattern(&self, of: &Box, pattern: &mut [u8; LONGEST_PATTERN]) -> Option<usize> {
        let sides = of.sides();
        let start = Spread {
            sum: std::array::from_fn(|i| sides[i].lo + sides[i].hi),
            width: std::array::from_fn(|i| sides[i].hi - sides[i].lo),
        };
        (1..=self.longest).find(|length| self.extend(&start, &mut pattern[..*length]))
    }

    /// Whether some pattern of exactly this length works from here; the first
    /// such is left in `pattern`.
    fn extend(&self, here: &Spread<N>, pattern: &mut [u8]) -> bool {
        let Some((first, rest)) = pattern.split_first_mut() else {
            return false;
        };
        if rest.is_empty() {
            return match self.last_mode(here) {
                Some(mode) => {
                    *first = mode as u8;
                    true
                }
                None => false,
            };
        }
        for (mode, rows) in self.modes.iter().enumerate() {
            let Some(next) = self.image_in_s(here, rows) else {
                continue;
            };
            if self.extend(&next, rest) {
                *first = mode as u8;
                return true;
            }
        }
        false
    }

    /// The first mode whose image lies in the goal, which lies in S.
    fn last_mode(&self, here: &Spread<N>) -> Option<usize> {
        self.modes.iter().position(|rows| {
            (0..N).all(|i| {
                let (least, greatest) = rows[i].twice_least_and_greatest(here);
                least > self.in_goal.above[i] && greatest < self.in_goal.below[i]
            })
        })
    }

    /// The image under a mode of these rows, where it lies in S.
    fn image_in_s(&self, here: &Spread<N>, rows: &[Row<N>; N]) -> Option<Spread<N>> {
        let mut least = [0; N];
        let mut greatest = [0; N];
        for (i, row) in rows.iter().enumerate() {
            (least[i], greatest[i]) = row.twice_least_and_greatest(here);
            if least[i] <= self.in_s.above[i] || greatest[i] >= self.in_s.below[i] {
                return None;
            }
        }
        let mut next = Spread { sum: [0; N], width: [0; N] };
        for i in 0..N {
            let lo = ceil_div(least[i] / 2, self.q);
            let hi = floor_div(greatest[i] / 2, self.q);
            next.sum[i] = lo + hi;
            next.width[i] = hi - lo;
        }
        Some(next)
    }
}

impl<const N: usize> Row<N> {
    /// Row i of mode u, its band in it.
    fn new(plant: &Plant, u: usize, i: usize) -> Row<N> {
        let numbers = plant.row(u, i);
        let a: [i64; N] = std::array::from_fn(|j| numbers[j]);
        let (w_lo, w_hi) = (plant.bands[u].lo[i], plant.bands[u].hi[i]);
        Row { a, size: a.map(i64::abs), middle: 2 * numbers[N] + w_lo + w_hi, reach: w_hi - w_lo }
    }

    /// Twice the least and twice the greatest of the row over a box, its band
    /// added: both even.
    #[inline(always)]
    fn twice_least_and_greatest(&self, over: &Spread<N>) -> (i64, i64) {
        let mut middle = self.middle;
        let mut reach = self.reach;
        for j in 0..N {
            middle += self.a[j] * over.sum[j];
            reach += self.size[j] * over.width[j];
        }
        (middle - reach, middle + reach)
    }
}

/// The doubled limits between which an image lies in `target`.
fn limits<const N: usize>(q: u64, target: &Box) -> Limits<N> {
    let sides = target.sides();
    Limits {
        above: std::array::from_fn(|i| 2 * q as i64 * (sides[i].lo - 1)),
        below: std::array::from_fn(|i| 2 * q as i64 * (sides[i].hi + 1)),
    }
}
