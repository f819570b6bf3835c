//! The chain: "a chain of boxes R = R0, R1, .. Rm (m up to 8), each holding the
//! one before, all in S." It is a start file's beginning, "form 1, m, then the
//! edges of R1..Rm as signed numbers", and all that the maker is given of one.

use crate::boxes::Box;
use crate::edges::{read_pair, EDGE_LIMIT};
use crate::file::File;
use crate::plant::Plant;
use crate::refusal::{Refusal, BOX_AT_FAULT};
use crate::{MOST_BOXES, MOST_ROOMS};

/// R0, the plant's R, and the m boxes around it.
pub struct Chain {
    boxes: [Box; MOST_BOXES + 1],
    m: usize,
}

impl Chain {
    /// Form, m and the edges, box by box and in each by dimension lo, hi: 1,
    /// 2 and 3 number by number.
    pub fn read(plant: &Plant, file: &mut File) -> Result<Chain, Refusal> {
        file.form(&[1])?;
        let m = file.unsigned_in(0, MOST_BOXES as u64)? as usize;
        let mut chain = Chain { boxes: [plant.r(); MOST_BOXES + 1], m };
        for slot in &mut chain.boxes[1..=m] {
            *slot = read_box(file, plant.rooms())?;
        }
        Ok(chain)
    }

    /// 15 at the first index whose box does not hold the one before or is not
    /// in S.
    pub fn judge(&self, plant: &Plant) -> Result<(), Refusal> {
        let s = plant.s();
        for index in 1..=self.m {
            let here = self.root(index);
            if !self.goal(index).lies_in(here) || !here.lies_in(&s) {
                return Err(Refusal::at(BOX_AT_FAULT, index as u64));
            }
        }
        Ok(())
    }

    /// The index of the last box.
    pub fn m(&self) -> usize {
        self.m
    }

    /// The box that a table covers: "for each of R0..Rm".
    pub fn root(&self, index: usize) -> &Box {
        &self.boxes[index]
    }

    /// The box that a table's patterns end in: "box Ri gets a table whose
    /// patterns end in the box below it; R0 keeps its own".
    pub fn goal(&self, index: usize) -> &Box {
        &self.boxes[index.saturating_sub(1)]
    }

    /// "The smallest box that holds the reading, of equal ones the lowest
    /// index", for a reading in Rm: of boxes that hold one another the smallest
    /// is the first.
    pub fn smallest_holding(&self, reading: &[i64; MOST_ROOMS]) -> usize {
        (0..self.m).find(|index| self.root(*index).contains(reading)).unwrap_or(self.m)
    }
}

/// The edges of one box: 3 as for R and S.
fn read_box(file: &mut File, n: usize) -> Result<Box, Refusal> {
    let mut lo = [0; MOST_ROOMS];
    let mut hi = [0; MOST_ROOMS];
    for i in 0..n {
        (lo[i], hi[i]) = read_pair(file, EDGE_LIMIT)?;
    }
    Ok(Box::new(&lo[..n], &hi[..n]))
}
