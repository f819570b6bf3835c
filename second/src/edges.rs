//! The edges of R and S, which plant and sheet hold alike: "for each dimension
//! R lo, R hi, S lo, S hi"; "edges of R and S within +-1,000,000 ... Every lo <=
//! its hi. R lies within S".

use crate::boxes::Box;
use crate::file::{Draft, File};
use crate::refusal::{Refusal, R_NOT_IN_S};
use crate::MOST_ROOMS;

/// Edges of R and S lie within this much of 0.
pub const EDGE_LIMIT: i64 = 1_000_000;

/// R and S of each dimension; zeros beyond n.
#[derive(Clone, Copy, Debug, PartialEq, Eq, Default)]
pub struct Edges {
    pub r_lo: [i64; MOST_ROOMS],
    pub r_hi: [i64; MOST_ROOMS],
    pub s_lo: [i64; MOST_ROOMS],
    pub s_hi: [i64; MOST_ROOMS],
}

/// A lo and its hi: 3 at lo where lo is out of range, 3 at hi where hi is out
/// of range or below lo.
pub fn read_pair(file: &mut File, limit: i64) -> Result<(i64, i64), Refusal> {
    let lo = file.signed_in(-limit, limit)?;
    let hi = file.signed_in(lo, limit)?;
    Ok((lo, hi))
}

impl Edges {
    /// All zeros.
    pub const ZEROS: Edges = Edges {
        r_lo: [0; MOST_ROOMS],
        r_hi: [0; MOST_ROOMS],
        s_lo: [0; MOST_ROOMS],
        s_hi: [0; MOST_ROOMS],
    };

    /// The edges of n dimensions, in file order.
    pub fn read(file: &mut File, n: usize) -> Result<Edges, Refusal> {
        let mut edges = Edges::ZEROS;
        for i in 0..n {
            (edges.r_lo[i], edges.r_hi[i]) = read_pair(file, EDGE_LIMIT)?;
            (edges.s_lo[i], edges.s_hi[i]) = read_pair(file, EDGE_LIMIT)?;
        }
        Ok(edges)
    }

    /// The same numbers, put in file order.
    pub fn draft(&self, draft: &mut Draft, n: usize) {
        for i in 0..n {
            for edge in [self.r_lo[i], self.r_hi[i], self.s_lo[i], self.s_hi[i]] {
                draft.signed(edge);
            }
        }
    }

    /// 4 at the first dimension in which R is not in S.
    pub fn judge(&self, n: usize) -> Result<(), Refusal> {
        for i in 0..n {
            if self.r_lo[i] < self.s_lo[i] || self.r_hi[i] > self.s_hi[i] {
                return Err(Refusal::at(R_NOT_IN_S, i as u64));
            }
        }
        Ok(())
    }

    /// The box R.
    pub fn r(&self, n: usize) -> Box {
        Box::new(&self.r_lo[..n], &self.r_hi[..n])
    }

    /// The box S.
    pub fn s(&self, n: usize) -> Box {
        Box::new(&self.s_lo[..n], &self.s_hi[..n])
    }
}
