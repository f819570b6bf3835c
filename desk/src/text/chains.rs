//! A chain as text: its boxes R1..Rm from the one around R on. Whether each holds the one before is the library's to judge, for a plant.

use super::lines::{Fault, Lines};
use super::plants::{count, counts_if, COUNTS};
use super::shown::Shown;
use super::values::{box_words, side};
use crate::files::ranges::{MOST_BOXES, MOST_EDGE, MOST_ROOMS};
use crate::files::{Chain, House, Sides};

/// The chain that a text says, behind its first line.
pub fn read(lines: &mut Lines) -> Result<Chain, Fault> {
    let rooms = count(lines, "rooms", 1, MOST_ROOMS)?;
    let counts = counts_if(lines)?;
    let boxes = count(lines, "boxes", 0, MOST_BOXES)?;
    let boxes = (1..=boxes).map(|index| read_box(lines, index, rooms, counts)).collect::<Result<_, _>>()?;
    Ok(Chain { boxes })
}

/// The canonical text of a chain for a house.
pub fn show(chain: &Chain, house: &House, shown: &mut Shown) {
    shown.line("chain form 1");
    show_boxes(chain, house, shown);
}

/// The boxes, in a start file's text too.
pub fn show_boxes(chain: &Chain, house: &House, shown: &mut Shown) {
    shown.line(format!("rooms {}", house.plant.rooms.len()));
    if let Some(counts) = house.counts() {
        shown.line(format!("{COUNTS} {counts}"));
    }
    shown.line(format!("boxes {}", chain.boxes.len()));
    for (sides, index) in chain.boxes.iter().zip(1..) {
        shown.gap();
        shown.line(format!("box {index}"));
        for (&side, room) in sides.iter().zip(1..) {
            let (words, other) = box_words(&[side], house.counts());
            shown.noted(format!("room {room} {words}"), other);
        }
    }
}

fn read_box(lines: &mut Lines, index: i64, rooms: i64, counts: Option<i64>) -> Result<Sides, Fault> {
    lines.line(&format!("box {index}"))?.end()?;
    let room = |room| {
        let mut line = lines.line(&format!("room {room}"))?;
        let side = side(&mut line, "the box", counts, MOST_EDGE)?;
        line.end()?;
        Ok(side)
    };
    (1..=rooms).map(room).collect()
}
