//! Rooms that do what the plant allows, for the tests that drive them.

use crate::common::Random;
use second::plant::Plant;

/// Which of the readings that may follow does.
#[derive(Clone, Copy, Debug)]
pub enum Next {
    Lowest,
    Highest,
    ByTurns,
    Any,
}

pub const EVERY_NEXT: [Next; 4] = [Next::Lowest, Next::Highest, Next::ByTurns, Next::Any];

/// A reading that may follow, by q·y − (A·x + b) in the mode's w lo .. w hi.
pub fn following(random: &mut Random, next: Next, sample: usize, plant: &Plant, mode: u64, x: &[i64; 4]) -> [i64; 4] {
    let (n, q, band) = (plant.n as usize, plant.q as i64, &plant.bands[mode as usize]);
    let mut y = [0; 4];
    for i in 0..n {
        let row = plant.row(mode as usize, i);
        let sum = row[n] + (0..n).map(|j| row[j] * x[j]).sum::<i64>();
        let (least, greatest) = (sum + band.lo[i], sum + band.hi[i]);
        let lo = least.div_euclid(q) + i64::from(least.rem_euclid(q) > 0);
        let hi = greatest.div_euclid(q);
        y[i] = match next {
            Next::Lowest => lo,
            Next::Highest => hi,
            Next::ByTurns if (sample + i) % 2 == 0 => lo,
            Next::ByTurns => hi,
            Next::Any => random.within(lo, hi),
        };
    }
    y
}
