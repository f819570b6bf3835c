//! The largest files that the exported functions can meet, for the figures of
//! firmware/figures: written to the folder that is named.
//!
//! - `table`: the plant with the largest tables there are, of form 1 and, `table_lengths` and `table_halved`, of forms 2 and 3;
//! - `plant`: the plant of the largest length and a table for it;
//! - `sheet`: the largest sheet;
//! - `start`: a plant, its chain of eight boxes, and the start files of them, with tables of form 1 and, `start_lengths` and
//!   `start_halved`, of forms 2 and 3.

use second::checker::check;
use side::common::{file, Field, F, S, U};
use side::largest::{self, CENTRE, Q, ROOMS};
use side::{longest_table_plant, starts::turning, tables::made_table};
use std::path::Path;

/// Four rooms, each with three exchanges and a heater.
fn largest_sheet() -> Vec<u8> {
    let mut fields: Vec<Field> = [1, ROOMS as u64, 1_000, Q as u64, second::LONGEST_PATTERN as u64, 3].map(U).to_vec();
    for _ in 0..ROOMS {
        fields.extend([CENTRE - 4, CENTRE + 3, -1_000_000, 1_000_000].map(S));
    }
    fields.extend([500_000_000, 500_000_000 + Q - 1].repeat(ROOMS).into_iter().map(S));
    fields.extend([F(0.1), F(8.3)]);
    for _ in 0..ROOMS {
        fields.extend([F(0.7), F(0.11), F(0.13), F(0.17), U(1), F(0.19), F(41.7)]);
    }
    file(&fields)
}

fn main() -> std::io::Result<()> {
    let folder = std::env::args().nth(1).expect("a folder");
    let write = |name: &str, bytes: &[u8]| {
        println!("{name}: {} bytes", bytes.len());
        std::fs::write(Path::new(&folder).join(name), bytes)
    };
    let plant = longest_table_plant();
    write("table.plant", &plant)?;
    for (name, form) in [("table.table", 1), ("table_lengths.table", 2), ("table_halved.table", 3)] {
        write(name, &made_table(&plant, form).expect("a table"))?;
    }
    let (plant, table) = (largest::plant(), largest::table());
    assert_eq!((plant.len(), check(&plant, &table)), (second::LARGEST_PLANT, Ok(())));
    write("plant.plant", &plant)?;
    write("plant.table", &table)?;
    write("sheet.sheet", &largest_sheet())?;
    let (plant, chain) = turning();
    for (name, form) in [("start.start", 1), ("start_lengths.start", 2), ("start_halved.start", 3)] {
        write(name, &second::start::start_make(&plant, &chain, form).expect("a start file"))?;
    }
    write("start.plant", &plant)?;
    write("start.chain", &chain)
}
