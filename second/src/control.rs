//! The controller: "State: idle (place 0, left 0), or the place of the next
//! mode and how many are left. A call takes plant, table, state and reading
//! ... Idle: the reading must be in R; its tile is found, its first mode
//! answered. Running: the reading must be in S; the mode at the place is
//! answered. With modes left the state moves one on, else it is idle." A mode of
//! 128 and above takes two bytes (request 2026-08), so one on is the byte behind
//! its number.
//! "Controller: plant, table header, 12, 11, then the tree; the walk tells 1
//! and 6 of what it reads, passed tiles too, ... and tests no image." Where splits
//! tell lengths (request 2026-01), "a call then reads only the splits on the way
//! down and the tile".

use crate::boxes::Box;
use crate::file::File;
use crate::numbers::{groups_of, read_unsigned};
use crate::plant::{read_past_modes, Plant};
use crate::refusal::{Refusal, READING_OUTSIDE, STATE_CANNOT_BE};
use crate::table::{Node, Pattern, Table};
use crate::MOST_ROOMS;

/// Idle, or the place of the next mode in the table and how many are left.
#[derive(Clone, Copy, Debug, PartialEq, Eq, Default)]
pub struct State {
    pub place: u64,
    pub left: u64,
}

impl State {
    /// Place 0, left 0.
    pub const IDLE: State = State { place: 0, left: 0 };

    /// The state with this many modes left, the next at this place.
    fn after(place: u64, left: u64) -> State {
        if left == 0 { State::IDLE } else { State { place, left } }
    }
}

/// One call: a mode with its state, or a refusal.
pub fn control(
    plant_bytes: &[u8],
    table_bytes: &[u8],
    state: State,
    reading: [i64; MOST_ROOMS],
) -> Result<(u8, State), Refusal> {
    let plant = read_past_modes(plant_bytes)?;
    call(&plant, &plant.r(), File::new(table_bytes), state, &reading)
}

/// One call on the table that `file` is, whose tree starts at box `root`. The
/// state's place counts within the table.
pub fn call(
    plant: &Plant,
    root: &Box,
    file: File,
    state: State,
    reading: &[i64; MOST_ROOMS],
) -> Result<(u8, State), Refusal> {
    let mut table = Table::open(plant, file)?;
    match mode_there(plant, table.file.own_bytes(), state)? {
        Some((mode, next)) => {
            reading_in(&plant.s(), reading)?;
            Ok((mode, State::after(next, state.left - 1)))
        }
        None => {
            reading_in(root, reading)?;
            start_tile(&mut table, root, reading)
        }
    }
}

/// The mode at a running state's place and the place behind it, None for idle.
/// 12: "left over K; left 0 with a place other than 0; left above 0 with place
/// below 2", and "when reading the modes left from that place runs off the table,
/// meets a broken number, or meets a mode not below N".
fn mode_there(plant: &Plant, table: &[u8], state: State) -> Result<Option<(u8, u64)>, Refusal> {
    let cannot_be = Refusal::at(STATE_CANNOT_BE, 0);
    if state == State::IDLE {
        return Ok(None);
    }
    if state.left == 0 || state.left > plant.k || state.place < 2 {
        return Err(cannot_be);
    }
    let mode_at = |place| match read_unsigned(table, place) {
        Ok((mode, next)) if mode < plant.modes => Ok((mode as u8, next)),
        _ => Err(cannot_be),
    };
    let (mode, next) = mode_at(usize::try_from(state.place).map_err(|_| cannot_be)?)?;
    let mut place = next;
    for _ in 1..state.left {
        (_, place) = mode_at(place)?;
    }
    Ok(Some((mode, next as u64)))
}

/// 11 at the first dimension in which the reading is outside.
pub fn reading_in(allowed: &Box, reading: &[i64; MOST_ROOMS]) -> Result<(), Refusal> {
    match allowed.first_outside(reading) {
        Some(dimension) => Err(Refusal::at(READING_OUTSIDE, dimension as u64)),
        None => Ok(()),
    }
}

/// The first mode of the reading's tile and the state behind it.
fn start_tile(
    table: &mut Table,
    root: &Box,
    reading: &[i64; MOST_ROOMS],
) -> Result<(u8, State), Refusal> {
    let find = if table.form.tells_lengths() { go_down } else { walk };
    let found = find(table, root, table.depth(), reading)?;
    // The reading lies in the root and children cover their parent, so a tile is found.
    let (place, pattern) = found.ok_or(Refusal::at(READING_OUTSIDE, 0))?;
    let (first, left) = (pattern.modes()[0], pattern.modes().len() as u64 - 1);
    // The tile's number is one byte, being at most K: the second mode stands behind the first's.
    let second = place + 1 + groups_of(first.into()).1 as u64;
    Ok((first, State::after(second - table.file.first(), left)))
}

/// Goes by the lengths to the tile that holds the reading: the tile's first byte
/// and its pattern, or None when the box does not hold it.
fn go_down(
    table: &mut Table,
    here: &Box,
    depth_left: u64,
    reading: &[i64; MOST_ROOMS],
) -> Result<Option<(u64, Pattern)>, Refusal> {
    let place = table.file.place();
    match table.node(here, depth_left)? {
        Node::Tile(pattern) => Ok(Some((place, pattern))),
        Node::Split(children) => {
            let lengths = table.lengths(&children)?;
            let Some((before, child)) = children.enumerate().find(|(_, child)| child.contains(reading)) else {
                return Ok(None);
            };
            table.pass_children(&lengths, before)?;
            go_down(table, &child, depth_left - 1, reading)
        }
    }
}

/// Walks the tree of a box, where no lengths are told, up to the tile that holds
/// the reading, as above.
fn walk(
    table: &mut Table,
    here: &Box,
    depth_left: u64,
    reading: &[i64; MOST_ROOMS],
) -> Result<Option<(u64, Pattern)>, Refusal> {
    let place = table.file.place();
    match table.node(here, depth_left)? {
        Node::Tile(pattern) => Ok(here.contains(reading).then_some((place, pattern))),
        Node::Split(children) => {
            for child in children {
                let found = walk(table, &child, depth_left - 1, reading)?;
                if found.is_some() {
                    return Ok(found);
                }
            }
            Ok(None)
        }
    }
}
