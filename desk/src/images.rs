//! The image of a box under a mode (document 01, "Tiles and images"), by the mode's own band: to explain 7 and 8, which are the library's to tell, and to
//! say what may follow a reading. Every box here lies in S or is the tile of an accepted shape, so that no sum passes 64 bits.

use crate::files::{Plant, Side, Sides};

pub fn image(plant: &Plant, mode: u64, sides: &[Side]) -> Sides {
    let q = plant.q as i64;
    let image = plant.modes[mode as usize].iter().map(|row| {
        let terms = || row.a.iter().zip(sides);
        let least: i64 = terms().map(|(&a, side)| a * if a < 0 { side.hi } else { side.lo }).sum();
        let most: i64 = terms().map(|(&a, side)| a * if a < 0 { side.lo } else { side.hi }).sum();
        // the low edge is rounded up and the high edge down
        Side { lo: -(-(least + row.b + row.w.lo)).div_euclid(q), hi: (most + row.b + row.w.hi).div_euclid(q) }
    });
    image.collect()
}
