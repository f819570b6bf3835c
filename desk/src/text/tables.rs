//! Tables and start files as text, shown only: nobody writes one by hand, and the library makes them.

use super::chains;
use super::shown::Shown;
use super::values::box_words;
use crate::files::tables::counted;
use crate::files::{House, Start, Table, Tile};

/// A table of so many bytes for a house.
pub fn show(table: &Table, length: usize, house: &House, shown: &mut Shown) {
    shown.line(format!("table form {}", table.form.number()));
    shown.line(format!("rooms {}", house.plant.rooms.len()));
    shown.line(with_bytes(table.sizes(), length));
    shown.gap();
    show_tiles(table, house, shown);
}

/// A start file: its chain, then the tables of R and of each box, whose places are the file's.
pub fn show_start(start: &Start, house: &House, shown: &mut Shown) {
    shown.line("start form 1");
    chains::show_boxes(&start.chain, house, shown);
    for (index, inner) in start.tables.iter().enumerate() {
        shown.gap();
        shown.noted(format!("table {index} at byte {}", inner.place), format!("patterns end in {}", below(index)));
        shown.line(summary(&inner.table, inner.length));
        show_tiles(&inner.table, house, shown);
    }
}

/// What `make` says of a table, too.
pub fn summary(table: &Table, length: usize) -> String {
    with_bytes(table.words(), length)
}

fn with_bytes(words: String, length: usize) -> String {
    format!("{words}, {}", counted(length as u64, "byte"))
}

fn below(index: usize) -> String {
    match index {
        0 | 1 => "R".into(),
        _ => format!("box {}", index - 1),
    }
}

fn show_tiles(table: &Table, house: &House, shown: &mut Shown) {
    let lines: Vec<_> = table.tiles.iter().map(|tile| tile_words(tile, house.counts())).collect();
    shown.list(&lines);
}

/// A tile's box and modes; as a comment its place, its depth and its box in the other unit.
fn tile_words(tile: &Tile, counts: Option<i64>) -> (String, String) {
    let modes: Vec<String> = tile.modes.iter().map(u64::to_string).collect();
    let (words, other) = box_words(&tile.sides, counts);
    let place = format!("byte {}, depth {}{}{other}", tile.place, tile.depth, if other.is_empty() { "" } else { ", " });
    (format!("tile {words} modes {}", modes.join(" ")), place)
}
