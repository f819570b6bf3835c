//! A band, w lo and w hi of each dimension: "w within +-1,000,000,000 ... Every
//! lo <= its hi"; "each band needs w hi - w lo >= q - 1, so some reading always
//! follows." A sheet and a plant of form 1 hold one, and request 2026-09: "Plant
//! form 2 holds w lo and w hi for each dimension inside each mode, before its A
//! rows."

use crate::edges::read_pair;
use crate::file::{Draft, File};
use crate::refusal::{Refusal, BAND_TOO_NARROW};
use crate::MOST_ROOMS;

/// Ends of the band lie within this much of 0.
pub const BAND_LIMIT: i64 = 1_000_000_000;

/// w lo and w hi of each dimension; zeros beyond n.
#[derive(Clone, Copy, Debug, PartialEq, Eq, Default)]
pub struct Band {
    pub lo: [i64; MOST_ROOMS],
    pub hi: [i64; MOST_ROOMS],
}

impl Band {
    /// All zeros.
    pub const ZEROS: Band = Band { lo: [0; MOST_ROOMS], hi: [0; MOST_ROOMS] };

    /// The ends of n dimensions, in file order.
    pub fn read(file: &mut File, n: usize) -> Result<Band, Refusal> {
        let mut band = Band::ZEROS;
        for i in 0..n {
            (band.lo[i], band.hi[i]) = read_pair(file, BAND_LIMIT)?;
        }
        Ok(band)
    }

    /// The same numbers, put in file order.
    pub fn draft(&self, draft: &mut Draft, n: usize) {
        for i in 0..n {
            draft.signed(self.lo[i]);
            draft.signed(self.hi[i]);
        }
    }

    /// 5 at the first dimension that is too narrow: "5's place is the mode, its
    /// step the dimension".
    pub fn judge(&self, mode: usize, n: usize, q: u64) -> Result<(), Refusal> {
        for i in 0..n {
            if self.hi[i] - self.lo[i] < q as i64 - 1 {
                return Err(Refusal::at_step(BAND_TOO_NARROW, mode as u64, i as u64));
            }
        }
        Ok(())
    }
}
