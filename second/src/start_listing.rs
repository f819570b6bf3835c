//! The listing of a start file: for each of R0..Rm a header, "box", its index,
//! its edges, a colon, the tiles of its table and the longest pattern; then the
//! tiles, each as in the listing of a plant. A refusal is printed as there.

use crate::file::File;
use crate::listing::{edges_of, refused_line, Tiles};
use crate::plant::read_plant;
use crate::refusal::Refusal;
use crate::start::{next_table, read_beginning, start_check};

/// What is printed for a plant's and a start file's bytes.
pub fn start_listing(plant_bytes: &[u8], start_bytes: &[u8]) -> String {
    list(plant_bytes, start_bytes).unwrap_or_else(|refusal| refused_line(&refusal))
}

/// Only an accepted file is listed, so that a refusal stands alone.
fn list(plant_bytes: &[u8], start_bytes: &[u8]) -> Result<String, Refusal> {
    start_check(plant_bytes, start_bytes)?;
    let plant = read_plant(plant_bytes)?;
    let mut file = File::new(start_bytes);
    let chain = read_beginning(&plant, &mut file)?;
    let mut lines = String::new();
    for index in 0..=chain.m() {
        let root = chain.root(index);
        let tiles = Tiles::of(&plant, root, next_table(&mut file)?)?;
        lines += &format!("box {index} {} : {} {}\n", edges_of(root), tiles.count, tiles.longest);
        lines += &tiles.lines;
    }
    Ok(lines)
}
