//! The checker: "plant, then the table in order; a tile's modes are all read
//! before its images; S before R at the last step; leftover last." Request
//! 2026-01: "a length that differs from the child's is 6 at that number, in the
//! checker, after the child is read".

use crate::boxes::Box;
use crate::file::File;
use crate::plant::read_plant;
use crate::refusal::{Refusal, TABLE_RULE};
use crate::table::{Length, Node, Table};
use crate::tile::tile_rule;

/// Whether a table is one for this plant, in one pass over its bytes.
pub fn check(plant_bytes: &[u8], table_bytes: &[u8]) -> Result<(), Refusal> {
    let plant = read_plant(plant_bytes)?;
    let mut table = Table::open(&plant, File::new(table_bytes))?;
    check_tree(&mut table, &plant.r(), &plant.r())?;
    table.file.end(TABLE_RULE)
}

/// Checks a table whose tree starts at box `root` and whose patterns end in
/// `goal`, up to its last tile; what is left over is the caller's to tell.
pub fn check_tree(table: &mut Table, root: &Box, goal: &Box) -> Result<(), Refusal> {
    check_box(table, goal, root, table.depth())
}

/// Checks the part of the tree that stands for this box.
fn check_box(table: &mut Table, goal: &Box, here: &Box, depth_left: u64) -> Result<(), Refusal> {
    let place = table.file.place();
    match table.node(here, depth_left)? {
        Node::Tile(pattern) => tile_rule(table.plant, goal, here, pattern.modes(), place),
        Node::Split(children) => {
            let lengths = table.lengths(&children)?;
            for (number, child) in children.enumerate() {
                let first = table.file.place();
                check_box(table, goal, &child, depth_left - 1)?;
                is_its_length(lengths.get(number), table.file.place() - first)?;
            }
            Ok(())
        }
    }
}

/// 6 at a child's length that differs from this one; the last child has none told.
fn is_its_length(length: Option<&Length>, its: u64) -> Result<(), Refusal> {
    match length {
        Some(length) if length.told != its => Err(Refusal::at(TABLE_RULE, length.place)),
        _ => Ok(()),
    }
}
