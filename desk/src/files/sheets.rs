//! A sheet's file. Its beginning is a plant's of form 1 (`plants`).

use super::boxes::Side;
use super::numbers::{Reader, Writer};
use super::plants::{bands, bounds, Bounds, Head, FORM_1};
use super::ranges::MOST_COUNTS;

/// A sheet's values.
#[derive(Clone, Debug, PartialEq)]
pub struct Sheet {
    /// r, counts a degree.
    pub counts: u64,
    pub q: u64,
    /// K, the longest pattern.
    pub longest: u64,
    /// D, the depth.
    pub depth: u64,
    /// The sample time.
    pub time: f64,
    /// The outside temperature.
    pub outside: f64,
    pub rooms: Vec<Room>,
}

/// A room's record, with its R, S and w.
#[derive(Clone, Debug, PartialEq)]
pub struct Room {
    pub bounds: Bounds,
    pub w: Side,
    pub loss: f64,
    /// The exchanges with the other rooms, in their order.
    pub exchanges: Vec<f64>,
    pub emitter: Emitter,
}

#[derive(Clone, Copy, Debug, PartialEq)]
pub enum Emitter {
    None,
    Heater { p: f64, water: f64 },
    Steady { rate: f64 },
}

impl Sheet {
    /// The sheet of a file that the library accepted, or of one that it refused with 4, 5 or 14.
    pub fn read(bytes: &[u8]) -> Option<Sheet> {
        Sheet::follow(&mut Reader::new(bytes))
    }

    /// The sheet's numbers and floats in file order.
    pub fn follow(file: &mut Reader) -> Option<Sheet> {
        let head = Head::follow(file, FORM_1, "r, counts a degree,", MOST_COUNTS)?;
        let (bounds, bands) = (bounds(file, head.rooms)?, bands(file, head.rooms, "")?);
        let time = float(file, || "the sample time".into(), "above 0")?;
        let outside = float(file, || "the outside temperature".into(), "a finite float")?;
        let mut rooms = Vec::new();
        for (room, (bounds, w)) in (1..).zip(bounds.into_iter().zip(bands)) {
            rooms.push(self::room(file, room, head.rooms, bounds, w)?);
        }
        Some(Sheet { counts: head.second, q: head.q, longest: head.longest, depth: head.depth, time, outside, rooms })
    }

    pub fn write(&self) -> Vec<u8> {
        let mut file = Writer::default();
        for number in [1, self.rooms.len() as u64, self.counts, self.q, self.longest, self.depth] {
            file.number(number);
        }
        self.rooms.iter().for_each(|room| file.sides([room.bounds.r, room.bounds.s]));
        file.sides(self.rooms.iter().map(|room| room.w));
        file.float(self.time);
        file.float(self.outside);
        for room in &self.rooms {
            file.float(room.loss);
            room.exchanges.iter().for_each(|&g| file.float(g));
            write_emitter(&mut file, room.emitter);
        }
        file.0
    }
}

/// A float, and what it has to be.
fn float(file: &mut Reader, name: impl Fn() -> String, wanted: &str) -> Option<f64> {
    file.float(&name, |value| format!("{} is {value:?}, wanted {wanted}", name()))
}

const NOT_BELOW: &str = "a finite float not below 0";

/// The room's record.
fn room(file: &mut Reader, room: u64, rooms: u64, bounds: Bounds, w: Side) -> Option<Room> {
    let loss = float(file, || format!("the loss of room {room}"), NOT_BELOW)?;
    let mut exchanges = Vec::new();
    for other in (1..=rooms).filter(|&other| other != room) {
        exchanges.push(float(file, || format!("the exchange of room {room} with room {other}"), NOT_BELOW)?);
    }
    let emitter = file.number(
        || format!("the emitter number of room {room}"),
        |kind| format!("the emitter number of room {room} is {kind}, wanted 0 (none), 1 (heater) or 2 (steady)"),
    )?;
    let emitter = match emitter {
        0 => Emitter::None,
        1 => Emitter::Heater {
            p: float(file, || format!("the coefficient p of room {room}'s heater"), NOT_BELOW)?,
            water: float(file, || format!("the water temperature of room {room}'s heater"), "a finite float")?,
        },
        2 => Emitter::Steady { rate: float(file, || format!("the rate of room {room}'s steady emitter"), "a finite float")? },
        _ => return None,
    };
    Some(Room { bounds, w, loss, exchanges, emitter })
}

fn write_emitter(file: &mut Writer, emitter: Emitter) {
    match emitter {
        Emitter::None => file.number(0),
        Emitter::Heater { p, water } => {
            file.number(1);
            file.float(p);
            file.float(water);
        }
        Emitter::Steady { rate } => {
            file.number(2);
            file.float(rate);
        }
    }
}
