//! Idle calls the slow way, on any bytes, the reading in the root: by the full
//! walk, and in form 2 by the sums of the lengths.

use super::{inside, r_of, slow_children, slow_header, slow_number_or_1, slow_tile_at, slow_walk, wide, SlowTile, Told, Wide};
use second::plant::Plant;

/// The first tile that holds the reading, everything before it read and judged.
pub fn slow_full_walk(plant: &Plant, root: &Wide, table: &[u8], x: &[i64; 4]) -> Result<SlowTile, Told> {
    let here = wide(x, x, plant.n as usize);
    let mut last = None;
    slow_walk(plant, root, table, |tile| {
        let holds = inside(&here, &tile.of);
        last = Some(tile);
        Ok(holds)
    })?;
    Ok(last.expect("the reading lies in the root"))
}

/// The tile that an idle call finds, or what it tells of the table.
pub fn slow_call(plant: &Plant, root: &Wide, table: &[u8], x: &[i64; 4]) -> Result<SlowTile, Told> {
    let (form, tree) = slow_header(plant, table)?;
    if form == 2 { slow_down(plant, root, table, tree, 0, x) } else { slow_full_walk(plant, root, table, x) }
}

/// By the lengths, from a node of this box and depth on.
fn slow_down(plant: &Plant, of: &Wide, table: &[u8], place: usize, depth: u64, x: &[i64; 4]) -> Result<SlowTile, Told> {
    let (node, behind) = slow_number_or_1(table, place)?;
    if node != 0 {
        return slow_tile_at(plant, table, place, of, depth);
    }
    let children = slow_children(of);
    if depth == plant.d || children.len() == 1 {
        return Err((6, place as u64, 0));
    }
    let (lengths, at) = slow_lengths(table, behind, children.len() - 1)?;
    let sum = |count: usize| lengths[..count].iter().map(|(_, length)| u128::from(*length)).sum::<u128>();
    for (i, (place, _)) in lengths.iter().enumerate() {
        if at as u128 + sum(i + 1) > table.len() as u128 {
            return Err((6, *place as u64, 0));
        }
    }
    let here = wide(x, x, plant.n as usize);
    let chosen = children.iter().position(|child| inside(&here, child)).expect("a child");
    slow_down(plant, &children[chosen], table, at + sum(chosen) as usize, depth + 1, x)
}

/// So many lengths from a place on, each with its own, and where they end.
pub fn slow_lengths(table: &[u8], mut at: usize, count: usize) -> Result<(Vec<(usize, u64)>, usize), Told> {
    let mut lengths = vec![];
    for _ in 0..count {
        let (length, next) = slow_number_or_1(table, at)?;
        lengths.push((at, length));
        at = next;
    }
    Ok((lengths, at))
}

/// An idle call in R: mode, place and left.
pub fn slow_idle(plant: &Plant, table: &[u8], x: &[i64; 4]) -> Result<(u8, u64, u64), Told> {
    slow_call(plant, &r_of(plant), table, x).map(|tile| tile.answer())
}
