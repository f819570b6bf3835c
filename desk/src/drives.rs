//! The controller driven from the command line: a line a sample with the reading, a colon, the mode and the state (place and left; of a start file index,
//! place and left), or the refusal. A whole drive ends in "driven COUNT samples".

use crate::causes;
use crate::commands::{plant_at, refused, say, Outcome, Ran, USAGE};
use crate::files::{Chain, Plant, Sides};
use crate::kinds::Kind;
use crate::library::{Reading, State};
use crate::papers;
use crate::progress;
use crate::refusals::Refusal;
use crate::runs::{allowed, Controller, Draws};
use std::io::{IsTerminal, Write};

/// A table or start file that drives a room of a plant.
struct Drive<'a> {
    bytes: &'a [u8],
    plant: &'a Plant,
    controller: Controller<'a>,
    state: State,
}

/// What the words behind the files ask for.
enum Asked {
    Readings(Vec<Reading>),
    Any { count: u64, seed: u64 },
}

/// `X..`, readings of n numbers each, or `any COUNT SEED`, a room that does what the plant allows.
pub fn drive(kind: Kind, plant: &str, file: &str, words: &[&str], out: &mut dyn Write) -> Ran {
    let file = papers::read(file)?;
    let Some(house) = plant_at(plant, out)? else {
        return Ok(Outcome::Refused);
    };
    let asked = asked(words, house.plant.rooms.len()).ok_or(USAGE)?;
    let controller = if kind == Kind::Start { Controller::Start(&file) } else { Controller::Table(&file) };
    let mut drive = Drive { bytes: &house.bytes, plant: &house.plant, controller, state: State::default() };
    match asked {
        Asked::Readings(readings) => drive.through(&readings, out),
        // on a terminal the lines themselves show how far it is
        Asked::Any { count, seed } if std::io::stdout().is_terminal() => drive.any(count, Draws(seed), out),
        Asked::Any { count, seed } => progress::during("driving", || drive.any(count, Draws(seed), out)),
    }
}

fn asked(words: &[&str], rooms: usize) -> Option<Asked> {
    if let ["any", count, seed] = *words {
        return Some(Asked::Any { count: count.parse().ok()?, seed: seed.parse().ok()? });
    }
    let reading = |words: &[&str]| {
        let mut reading = [0; 4];
        for (slot, word) in reading.iter_mut().zip(words) {
            *slot = word.parse().ok()?;
        }
        Some(reading)
    };
    let readings = words.chunks_exact(rooms);
    let whole = readings.remainder().is_empty();
    readings.map(reading).collect::<Option<_>>().filter(|_| whole).map(Asked::Readings)
}

impl Drive<'_> {
    fn through(&mut self, readings: &[Reading], out: &mut dyn Write) -> Ran {
        for &x in readings {
            if let Err(refusal) = self.sample(x, out)? {
                return refused(out, refusal, &self.cause(x, refusal));
            }
        }
        driven(readings.len() as u64, out)
    }

    fn any(&mut self, count: u64, mut draws: Draws, out: &mut dyn Write) -> Ran {
        let mut x = draws.reading(&self.largest());
        for _ in 0..count {
            match self.sample(x, out)? {
                Err(refusal) => return refused(out, refusal, &self.cause(x, refusal)),
                Ok(mode) => x = draws.reading(&allowed(self.plant, mode, x)),
            }
        }
        driven(count, out)
    }

    /// One call, told where it was answered.
    fn sample(&mut self, x: Reading, out: &mut dyn Write) -> Result<Result<u64, Refusal>, String> {
        let (mode, next) = match self.controller.call(self.bytes, self.state, x) {
            Ok(answer) => answer,
            Err(refusal) => return Ok(Err(refusal)),
        };
        let reading: Vec<String> = x[..self.plant.rooms.len()].iter().map(i64::to_string).collect();
        let index = if let Controller::Start(_) = self.controller { format!("{} ", next.index) } else { String::new() };
        say(out, &format!("{} : {mode} {index}{} {}", reading.join(" "), next.place, next.left))?;
        self.state = next;
        Ok(Ok(mode))
    }

    /// The largest box that an idle call may begin in: R, and of a start file the last of its chain.
    fn largest(&self) -> Sides {
        let chain = match self.controller {
            Controller::Table(_) => None,
            Controller::Start(start) => Chain::read(start, self.plant.rooms.len()),
        };
        chain.and_then(|mut chain| chain.boxes.pop()).unwrap_or(self.plant.r())
    }

    fn cause(&self, x: Reading, refusal: Refusal) -> String {
        match (refusal.number, self.controller) {
            (11, _) => causes::reading(self.plant, &self.largest(), self.state, x, refusal),
            (_, Controller::Table(table)) => causes::table(self.plant, table, refusal),
            (_, Controller::Start(start)) => causes::start(self.plant, start, refusal),
        }
    }
}

fn driven(count: u64, out: &mut dyn Write) -> Ran {
    say(out, &format!("driven {count} samples"))?;
    Ok(Outcome::Done)
}
