//! The plant of a sheet: "Every operation is f64, rounded once, in this order.
//! s = loss, then s + g_ij for j ascending. Diagonal 1 - time*s; off it
//! time*g_ij. Offset c = time*(loss*outside); with a heater on, c +
//! time*(p*water); with a steady one on, c + time*rate. Mode bit t ...
//! switches the t-th room that has an emitter ... Each dimension's band is
//! widened by the ceiling of (n*M + 1)/2 at each end, M the largest absolute
//! edge of S." 14: "which number of the plant file, its form being 0". And
//! request 2026-02: "For a heater that is on, s gains p after the exchanges, so
//! A depends on the mode. Steady emitters stay."

use crate::band::{Band, BAND_LIMIT};
use crate::nearest::nearest;
use crate::plant::{Plant, A_LIMIT, B_LIMIT};
use crate::refusal::{Refusal, SHEET_RESULT};
use crate::sheet::{Emitter, Room, Sheet};

/// The plant of a sheet whose file was judged; 14, first in plant order.
pub(crate) fn step_coefficients(sheet: &Sheet) -> Result<Plant, Refusal> {
    let n = sheet.room_count();
    let emitters = sheet.rooms[..n].iter().filter(|room| has_emitter(room)).count();
    let mut plant = Plant::zeros(sheet.n, 1 << emitters);
    plant.form = 1;
    plant.q = sheet.q;
    plant.k = sheet.k;
    plant.d = sheet.d;
    plant.edges = sheet.edges;
    plant.bands.fill(widened(sheet)?);
    for mode in 0..plant.modes as usize {
        for i in 0..n {
            fill_row(sheet, mode, i, &mut plant)?;
        }
    }
    Ok(plant)
}

/// Whether the room has an emitter.
fn has_emitter(room: &Room) -> bool {
    room.emitter != Emitter::None
}

/// The band widened at both ends; 14 at an end out of range.
fn widened(sheet: &Sheet) -> Result<Band, Refusal> {
    let n = sheet.room_count();
    let of_s = sheet.edges.s_lo[..n].iter().chain(&sheet.edges.s_hi[..n]);
    let largest = of_s.map(|edge| edge.abs()).max().unwrap_or(0);
    // The ceiling of a whole number's half is the floor of one more's half.
    let by = (n as i64 * largest + 2) / 2;
    let mut wide = sheet.band;
    for i in 0..n {
        wide.lo[i] -= by;
        wide.hi[i] += by;
        let place = (6 + 4 * n + 2 * i) as u64;
        if wide.lo[i] < -BAND_LIMIT {
            return Err(Refusal::at(SHEET_RESULT, place));
        }
        if wide.hi[i] > BAND_LIMIT {
            return Err(Refusal::at(SHEET_RESULT, place + 1));
        }
    }
    Ok(wide)
}

/// Row i of a mode, its n entries of A and then b_i.
fn fill_row(sheet: &Sheet, mode: usize, i: usize, plant: &mut Plant) -> Result<(), Refusal> {
    let n = sheet.room_count();
    let first = mode * n * (n + 1) + i * (n + 1);
    let q = sheet.q as u32;
    for j in 0..=n {
        let whole = if j < n {
            within(nearest(q, step_entry(sheet, mode, i, j)), A_LIMIT)
        } else {
            within(nearest(q * sheet.r as u32, step_offset(sheet, mode, i)), B_LIMIT)
        };
        let place = (6 + 6 * n + first + j) as u64;
        plant.coefficients[first + j] = whole.ok_or(Refusal::at(SHEET_RESULT, place))?;
    }
    Ok(())
}

/// The rounded whole number where it lies within the limit.
fn within(whole: Option<i128>, limit: i64) -> Option<i64> {
    let whole = i64::try_from(whole?).ok()?;
    (-limit..=limit).contains(&whole).then_some(whole)
}

/// The emitter of room i where the mode switches it on, else none.
fn emitter_on(sheet: &Sheet, mode: usize, i: usize) -> Emitter {
    let bit = sheet.rooms[..i].iter().filter(|room| has_emitter(room)).count();
    if mode >> bit & 1 == 1 { sheet.rooms[i].emitter } else { Emitter::None }
}

/// The float a_ij in a mode: the diagonal 1 - time*s, off it time*g_ij.
fn step_entry(sheet: &Sheet, mode: usize, i: usize, j: usize) -> f64 {
    let room = &sheet.rooms[i];
    if j != i {
        let packed = if j < i { j } else { j - 1 };
        return sheet.time * room.exchange[packed];
    }
    let mut s = room.loss;
    for exchange in &room.exchange[..sheet.room_count() - 1] {
        s += exchange;
    }
    if let Emitter::Heater { p, .. } = emitter_on(sheet, mode, i) {
        s += p;
    }
    1.0 - sheet.time * s
}

/// The float c_i in a mode.
fn step_offset(sheet: &Sheet, mode: usize, i: usize) -> f64 {
    let c = sheet.time * (sheet.rooms[i].loss * sheet.outside);
    match emitter_on(sheet, mode, i) {
        Emitter::None => c,
        Emitter::Heater { p, water } => c + sheet.time * (p * water),
        Emitter::Steady { rate } => c + sheet.time * rate,
    }
}
