//! "Image of a box under a mode: in dimension i the least and greatest of
//! A*x + b over the box, each A_ij taking the low or high edge by its sign;
//! add w lo to the least, w hi to the greatest; divide by q, rounding the low
//! edge up and the high edge down." The band is that of the mode applied (request
//! 2026-09).

use crate::boxes::{Box, Side};
use crate::plant::Plant;

/// The greatest whole number not above value / divisor, divisor above 0.
pub fn floor_div(value: i64, divisor: i64) -> i64 {
    value.div_euclid(divisor)
}

/// The least whole number not below value / divisor, divisor above 0.
pub fn ceil_div(value: i64, divisor: i64) -> i64 {
    -(-value).div_euclid(divisor)
}

/// The image of a box under a mode of a judged plant.
pub fn image(plant: &Plant, mode: usize, from: &Box) -> Box {
    let q = plant.q as i64;
    let band = &plant.bands[mode];
    let ends = band.lo.iter().zip(&band.hi);
    plant.rows(mode).zip(ends).map(|(row, (w_lo, w_hi))| {
        let (least, greatest) = least_and_greatest(row, from.sides());
        Side { lo: ceil_div(least + w_lo, q), hi: floor_div(greatest + w_hi, q) }
    }).collect()
}

/// The least and greatest of one row over a box.
fn least_and_greatest(row: &[i64], sides: &[Side]) -> (i64, i64) {
    let offset = row.last().copied().unwrap_or(0);
    let mut least = offset;
    let mut greatest = offset;
    for (a, side) in row.iter().zip(sides) {
        let (low, high) = if *a >= 0 { (side.lo, side.hi) } else { (side.hi, side.lo) };
        least += a * low;
        greatest += a * high;
    }
    (least, greatest)
}
