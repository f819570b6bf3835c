//! What a sheet comes to (document 01, "The sheet"), number by number of the plant file, to explain 14. The floats are multiplied as floats, so a value
//! here is about the one that the library rounds; that it does not fit is the library's word.

use crate::files::ranges::{MOST_A, MOST_B, MOST_BAND};
use crate::files::sheets::{Emitter, Room};
use crate::files::Sheet;

/// The cause of 14 at a number of the plant file, the form being 0.
pub fn cause(sheet: &Sheet, number: usize) -> String {
    let n = sheet.rooms.len();
    let bands = 6 + 4 * n;
    if number < bands + 2 * n {
        return band_cause(sheet, (number - bands) / 2, (number - bands) % 2 == 1);
    }
    let entry = number - bands - 2 * n;
    let (mode, row, column) = (entry / (n * (n + 1)), entry / (n + 1) % n, entry % (n + 1));
    let of = format!("of mode {mode}, room {}", row + 1);
    let q = sheet.q as f64;
    if column == n {
        let b = q * sheet.counts as f64 * offset(sheet, mode, row);
        return format!("b {of}, comes to about {b:.3e}, wanted {} .. {MOST_B}", -MOST_B);
    }
    let a = q * coefficient(sheet, mode, row, column);
    format!("A {of}, column {}, comes to about {a:.3e}, wanted {} .. {MOST_A}", column + 1, -MOST_A)
}

/// An end of a band, widened.
fn band_cause(sheet: &Sheet, room: usize, is_hi: bool) -> String {
    let edges = sheet.rooms.iter().flat_map(|room| [room.bounds.s.lo.abs(), room.bounds.s.hi.abs()]);
    let widening = (sheet.rooms.len() as i64 * edges.max().unwrap_or(0) + 2) / 2;
    let w = sheet.rooms[room].w;
    let (end, value) = if is_hi { ("hi", w.hi + widening) } else { ("lo", w.lo - widening) };
    format!("w {end} of room {}, widened by {widening}, comes to {value}, wanted {} .. {MOST_BAND}", room + 1, -MOST_BAND)
}

/// Row i, column j of the step's matrix in a mode: a heater that is on takes its p off its own room's diagonal.
fn coefficient(sheet: &Sheet, mode: usize, i: usize, j: usize) -> f64 {
    let room = &sheet.rooms[i];
    let shared = room.exchanges.iter().fold(room.loss, |s, g| s + g);
    match on(sheet, mode, i) {
        _ if j < i => sheet.time * room.exchanges[j],
        _ if j > i => sheet.time * room.exchanges[j - 1],
        Emitter::Heater { p, .. } => 1.0 - sheet.time * (shared + p),
        _ => 1.0 - sheet.time * shared,
    }
}

/// The step's offset in a room in a mode.
fn offset(sheet: &Sheet, mode: usize, i: usize) -> f64 {
    let c = sheet.time * (sheet.rooms[i].loss * sheet.outside);
    match on(sheet, mode, i) {
        Emitter::None => c,
        Emitter::Heater { p, water } => c + sheet.time * (p * water),
        Emitter::Steady { rate } => c + sheet.time * rate,
    }
}

/// A room's emitter where the mode switches it on, else none: bit t is the t-th room that has one.
fn on(sheet: &Sheet, mode: usize, i: usize) -> Emitter {
    let has = |room: &&Room| room.emitter != Emitter::None;
    let bit = sheet.rooms[..i].iter().filter(has).count();
    if mode >> bit & 1 == 1 { sheet.rooms[i].emitter } else { Emitter::None }
}
