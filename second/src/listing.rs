//! The listing: "Header: n, tiles, longest pattern. Then each tile in file
//! order: lo and hi for each dimension, a colon, its modes. A refusal prints
//! one line, number and place."

use crate::boxes::Box;
use crate::file::File;
use crate::maker::make;
use crate::plant::{read_plant, Plant};
use crate::refusal::Refusal;
use crate::table::{Node, Table};
use crate::LARGEST_TABLE;

/// What the listing program prints for a plant's file: its table in this form.
pub fn listing(plant_bytes: &[u8], form: u64) -> String {
    list(plant_bytes, form).unwrap_or_else(|refusal| refused_line(&refusal))
}

/// "refused", number and place, in one line.
pub fn refused_line(refusal: &Refusal) -> String {
    format!("refused {} {}\n", refusal.number, refusal.place)
}

fn list(plant_bytes: &[u8], form: u64) -> Result<String, Refusal> {
    let plant = read_plant(plant_bytes)?;
    let mut table = vec![0; LARGEST_TABLE];
    let length = make(plant_bytes, form, &mut table)?;
    let tiles = Tiles::of(&plant, &plant.r(), File::new(&table[..length]))?;
    Ok(format!("table {} {} {}\n{}", plant.n, tiles.count, tiles.longest, tiles.lines))
}

/// The tiles listed so far.
pub(crate) struct Tiles {
    pub lines: String,
    pub count: usize,
    pub longest: usize,
}

impl Tiles {
    /// The tiles of the table that `file` is, whose tree starts at box `root`.
    pub fn of(plant: &Plant, root: &Box, file: File) -> Result<Tiles, Refusal> {
        let mut table = Table::open(plant, file)?;
        let mut tiles = Tiles { lines: String::new(), count: 0, longest: 0 };
        let depth = table.depth();
        tiles.list_box(&mut table, root, depth)?;
        Ok(tiles)
    }

    fn list_box(&mut self, table: &mut Table, here: &Box, depth_left: u64) -> Result<(), Refusal> {
        match table.node(here, depth_left)? {
            Node::Tile(pattern) => self.list_tile(here, pattern.modes()),
            Node::Split(children) => {
                table.lengths(&children)?;
                for child in children {
                    self.list_box(table, &child, depth_left - 1)?;
                }
            }
        }
        Ok(())
    }

    fn list_tile(&mut self, tile: &Box, modes: &[u8]) {
        self.lines.push_str(&format!("{} :", edges_of(tile)));
        for mode in modes {
            self.lines.push_str(&format!(" {mode}"));
        }
        self.lines.push('\n');
        self.count += 1;
        self.longest = self.longest.max(modes.len());
    }
}

/// "Lo and hi for each dimension", single blanks between them.
pub(crate) fn edges_of(of: &Box) -> String {
    let sides: Vec<String> = of.sides().iter().map(|side| format!("{} {}", side.lo, side.hi)).collect();
    sides.join(" ")
}
