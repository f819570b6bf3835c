//! Runs to be drawn: the course of a room that follows a plant, sample by sample, and the one of extreme readings. Each mode comes from the library, or
//! from whatever answers the calls; what may follow is `runs::allowed`.

use crate::controls::Control;
use crate::files::{House, Plant, Side, Table, Tile};
use crate::library::{Reading, State};
use crate::refusals::Refusal;
use crate::runs::allowed;

/// A call of the controller: the reading, the mode that it answered, and whether a tile was chosen.
#[derive(Clone, Copy, Debug, PartialEq, Eq)]
pub struct Sample {
    pub reading: Reading,
    pub mode: u64,
    pub idle: bool,
}

/// What answers a call: the library's controller of a table or of a start file.
pub type Call<'a> = &'a dyn Fn(State, Reading) -> Result<(u64, State), Refusal>;

/// A room from a first reading on, for so many samples; `next` takes one of the readings that may follow.
pub fn course(plant: &Plant, first: Reading, count: usize, call: Call, mut next: impl FnMut(&[Side]) -> Reading) -> Result<Vec<Sample>, Refusal> {
    let (mut state, mut reading) = (State::default(), first);
    let mut samples = Vec::new();
    for _ in 0..count {
        let (mode, then) = call(state, reading)?;
        samples.push(Sample { reading, mode, idle: state.is_idle() });
        reading = next(&allowed(plant, mode, reading));
        state = then;
    }
    Ok(samples)
}

/// How many samples are shown behind the last one at which a room has to be home.
const BEYOND: usize = 24;

/// A course of extreme readings: each next one is in every room the lowest or the highest that equation and band allow, whichever is further from the
/// middle of R. By a table it begins in a corner of a longest tile, the one from which it comes nearest an edge of S on that pattern; by a start file in
/// the corner of the largest box from which it is home last.
pub fn extreme(house: &House, control: &Control, call: Call) -> Result<Vec<Sample>, Refusal> {
    let plant = &house.plant;
    let boxes = control.boxes(house);
    let run = |first: Reading| course(plant, first, control.home(boxes.len() - 1) + BEYOND, call, |sides| outermost(plant, sides));
    if let Control::Table(table) = control {
        return run(worst_corner(plant, table));
    }
    let runs = corners(&boxes[boxes.len() - 1]).into_iter().map(run).collect::<Result<Vec<_>, _>>()?;
    // of equals the first corner, which is the coldest
    let latest = runs.into_iter().rev().max_by_key(|run| home(plant, run));
    Ok(latest.expect("a box has corners"))
}

/// The sample at which a room has come home: the first at which a tile is chosen on a reading in R.
pub fn home(plant: &Plant, samples: &[Sample]) -> Option<usize> {
    let r = plant.r();
    samples.iter().position(|sample| sample.idle && holds(&r, &sample.reading))
}

/// The corner of a longest tile from which a room comes nearest an edge of S; of equals the first.
fn worst_corner(plant: &Plant, table: &Table) -> Reading {
    let longest = table.tiles.iter().filter(|tile| tile.modes.len() == table.longest());
    let corners = longest.flat_map(|tile| corners(&tile.sides).into_iter().map(move |corner| (tile, corner)));
    let worst = corners.min_by_key(|(tile, corner)| nearest(plant, tile, *corner));
    worst.expect("a table has a tile, and a tile has corners").1
}

/// How near an edge of S a room comes on a tile's pattern, the readings being the outermost.
fn nearest(plant: &Plant, tile: &Tile, first: Reading) -> i64 {
    let mut reading = first;
    let mut nearest = space(plant, &reading);
    for &mode in &tile.modes {
        reading = outermost(plant, &allowed(plant, mode, reading));
        nearest = nearest.min(space(plant, &reading));
    }
    nearest
}

/// The counts between a reading and the edge of S that is nearest.
pub fn space(plant: &Plant, reading: &Reading) -> i64 {
    let spaces = plant.rooms.iter().zip(reading).map(|(room, x)| (x - room.s.lo).min(room.s.hi - x));
    spaces.min().expect("a plant has a room")
}

/// In each room the end of what is allowed that is further from the middle of R.
fn outermost(plant: &Plant, sides: &[Side]) -> Reading {
    let mut reading = [0; 4];
    for ((x, side), room) in reading.iter_mut().zip(sides).zip(&plant.rooms) {
        let middle = room.r.lo + room.r.hi;
        *x = if middle - 2 * side.lo >= 2 * side.hi - middle { side.lo } else { side.hi };
    }
    reading
}

/// The readings at a box's corners.
fn corners(sides: &[Side]) -> Vec<Reading> {
    let corner = |bits: usize| {
        let mut reading = [0; 4];
        for (room, side) in sides.iter().enumerate() {
            reading[room] = if bits >> room & 1 == 0 { side.lo } else { side.hi };
        }
        reading
    };
    (0..1 << sides.len()).map(corner).collect()
}

/// Whether a box holds a reading.
pub fn holds(sides: &[Side], reading: &Reading) -> bool {
    sides.iter().zip(reading).all(|(side, x)| (side.lo..=side.hi).contains(x))
}
