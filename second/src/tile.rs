//! "Tile rule. A pattern works for a box when each successive image lies in S
//! and the last lies in R." R is the goal of a plant's own table; where a chain
//! of boxes is given, a table's patterns end in another.

use crate::boxes::Box;
use crate::image::image;
use crate::plant::Plant;
use crate::refusal::{Refusal, IMAGE_LEAVES_S, LAST_NOT_IN_R};

/// Whether the pattern works for the tile whose first byte is at `place`:
/// "7: an image leaves S ... step from 1; 8: last image not in R ... last
/// step"; "S before R at the last step".
pub fn tile_rule(
    plant: &Plant,
    goal: &Box,
    tile: &Box,
    pattern: &[u8],
    place: u64,
) -> Result<(), Refusal> {
    let s = plant.s();
    let mut here = *tile;
    let mut step = 0;
    for mode in pattern {
        here = image(plant, usize::from(*mode), &here);
        step += 1;
        if !here.lies_in(&s) {
            return Err(Refusal::at_step(IMAGE_LEAVES_S, place, step));
        }
    }
    if !here.lies_in(goal) {
        return Err(Refusal::at_step(LAST_NOT_IN_R, place, step));
    }
    Ok(())
}
