//! Chains of boxes, and start files, which begin with one (request 2026-03): form, m, the edges of R1..Rm, then a table for each of R0..Rm.

use super::boxes::Sides;
use super::numbers::{self, Reader, Writer};
use super::plants::{form, ranged, side, Plant, FORM_1};
use super::ranges::{MOST_BOXES, MOST_EDGE};
use super::tables::{counted, Table};

/// The boxes R1..Rm.
#[derive(Clone, Debug, PartialEq, Eq)]
pub struct Chain {
    pub boxes: Vec<Sides>,
}

impl Chain {
    /// The chain of a file that the library accepted for a plant of so many rooms.
    pub fn read(bytes: &[u8], rooms: usize) -> Option<Chain> {
        Chain::follow(&mut Reader::new(bytes), rooms)
    }

    /// Form, m and edges in file order.
    pub fn follow(file: &mut Reader, rooms: usize) -> Option<Chain> {
        form(file, FORM_1)?;
        let m = ranged(file, "m, the number of boxes,", 0, MOST_BOXES)?;
        let mut boxes = Vec::new();
        for index in 1..=m {
            let edge = |room| side(file, format_args!("box {index}, room {room},"), MOST_EDGE);
            boxes.push((1..=rooms).map(edge).collect::<Option<_>>()?);
        }
        Some(Chain { boxes })
    }

    pub fn write(&self) -> Vec<u8> {
        let mut file = Writer::default();
        file.number(1);
        file.number(self.boxes.len() as u64);
        file.sides(self.boxes.iter().flatten().copied());
        file.0
    }
}

/// A start file: its chain, and a table for R = R0 and for each box of the chain.
#[derive(Clone, Debug, PartialEq, Eq)]
pub struct Start {
    pub chain: Chain,
    pub tables: Vec<Inner>,
}

/// A table within a start file; its tiles' places are the start file's.
#[derive(Clone, Debug, Default, PartialEq, Eq)]
pub struct Inner {
    /// Where the table begins, behind its length.
    pub place: usize,
    /// How many bytes it has.
    pub length: usize,
    pub table: Table,
}

impl Start {
    /// The start file that the library accepted for this plant.
    pub fn read(bytes: &[u8], plant: &Plant) -> Option<Start> {
        let mut file = Reader::new(bytes);
        let mut start = Start { chain: Chain::follow(&mut file, plant.rooms.len())?, tables: Vec::new() };
        start.follow(&mut file, plant)?;
        Some(start)
    }

    /// R = R0, then the boxes of the chain.
    pub fn boxes(&self, plant: &Plant) -> Vec<Sides> {
        [vec![plant.r()], self.chain.boxes.clone()].concat()
    }

    /// The lengths and the tables in file order. What was read before the reader ended stays.
    pub fn follow(&mut self, file: &mut Reader, plant: &Plant) -> Option<()> {
        for (index, sides) in self.boxes(plant).iter().enumerate() {
            let left = file.left();
            let length = file.number(|| format!("the length of table {index}"), |length| length_cause(index, length, left))? as usize;
            self.tables.push(Inner { place: file.place(), length, table: Table::default() });
            let table = &mut self.tables[index].table;
            file.within(length, |file| table.follow(file, plant, sides))?;
        }
        Some(())
    }
}

/// Why a length cannot be, of `left` bytes with its own: it passes the end, or its table ends before.
fn length_cause(index: usize, length: u64, left: usize) -> String {
    let behind = left - numbers::size(length);
    match length > behind as u64 {
        true => format!("table {index} is to have {}, {behind} are left", counted(length, "byte")),
        false => format!("table {index} is to have {} and ends before", counted(length, "byte")),
    }
}
