//! A control file: a table or a start file that the library accepted for a house. Which of them a file is, is found elsewhere (`kinds`).

use crate::files::houses::accepted;
use crate::files::{House, Sides, Start, Table};
use crate::kinds::Kind;
use crate::runs::Controller;

/// What an accepted control file holds.
#[derive(Clone, Debug)]
pub enum Control {
    Table(Table),
    Start(Start),
}

impl Control {
    /// What a table's file holds that the library accepted for this house.
    pub fn table(house: &House, bytes: &[u8]) -> Control {
        Control::Table(accepted(Table::read(bytes, &house.plant)))
    }

    /// The same of a start file.
    pub fn start(house: &House, bytes: &[u8]) -> Control {
        Control::Start(accepted(Start::read(bytes, &house.plant)))
    }

    pub fn kind(&self) -> Kind {
        match self {
            Control::Table(_) => Kind::Table,
            Control::Start(_) => Kind::Start,
        }
    }

    /// What answers the calls of a room that runs by this file, whose bytes these are.
    pub fn controller<'a>(&self, bytes: &'a [u8]) -> Controller<'a> {
        match self {
            Control::Table(_) => Controller::Table(bytes),
            Control::Start(_) => Controller::Start(bytes),
        }
    }

    /// R = R0, then the boxes of the chain, where there is one.
    pub fn boxes(&self, house: &House) -> Vec<Sides> {
        match self {
            Control::Table(_) => vec![house.plant.r()],
            Control::Start(start) => start.boxes(&house.plant),
        }
    }

    /// The table of each box.
    pub fn tables(&self) -> Vec<&Table> {
        match self {
            Control::Table(table) => vec![table],
            Control::Start(start) => start.tables.iter().map(|inner| &inner.table).collect(),
        }
    }

    /// Within how many samples a room is home that begins in box `index`: the longest patterns of tables 1..index, added up.
    pub fn home(&self, index: usize) -> usize {
        self.tables()[1..=index].iter().map(|table| table.longest()).sum()
    }
}
