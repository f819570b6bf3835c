//! A room that follows a plant (document 01, "The plant and its readings"), and the controller that drives it. Which readings may follow is worked out
//! here from equation and band; each mode comes from the library.

use crate::files::{Plant, Side, Sides};
use crate::images::image;
use crate::library::{self, Reading, State};
use crate::refusals::Refusal;

/// What answers the calls: a table's file, or a start file's.
#[derive(Clone, Copy)]
pub enum Controller<'a> {
    Table(&'a [u8]),
    Start(&'a [u8]),
}

impl Controller<'_> {
    /// One call: the mode and the next state.
    pub fn call(&self, plant: &[u8], state: State, x: Reading) -> Result<(u64, State), Refusal> {
        match self {
            Controller::Table(table) => library::control(plant, table, state, x),
            Controller::Start(start) => library::start_control(plant, start, state, x),
        }
    }
}

/// The readings that may follow a reading in a mode, a side for each room: the image of that reading alone.
pub fn allowed(plant: &Plant, mode: u64, x: Reading) -> Sides {
    let alone: Sides = plant.rooms.iter().zip(x).map(|(_, x)| Side { lo: x, hi: x }).collect();
    image(plant, mode, &alone)
}

/// What a run is drawn from: three shifts, which run through every number but 0; 0 draws the lowest always.
pub struct Draws(pub u64);

impl Draws {
    /// A reading of a box: in each room a third of the draws take the lowest, a third the highest, the others one between. Four draws, whatever the rooms.
    pub fn reading(&mut self, sides: &[Side]) -> Reading {
        let draws = [(); 4].map(|()| self.next());
        let mut reading = [0; 4];
        for ((slot, &side), draw) in reading.iter_mut().zip(sides).zip(draws) {
            *slot = pick(side, draw);
        }
        reading
    }

    fn next(&mut self) -> u64 {
        let a = self.0 ^ (self.0 << 13);
        let b = a ^ (a >> 7);
        self.0 = b ^ (b << 17);
        self.0
    }
}

fn pick(side: Side, draw: u64) -> i64 {
    match draw % 3 {
        0 => side.lo,
        1 => side.hi,
        _ => side.lo + (side.hi - side.lo) * (draw / 3 % 1_001) as i64 / 1_000,
    }
}
