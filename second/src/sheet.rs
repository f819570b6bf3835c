//! The sheet: "Form 1, n, counts per degree r (1..1,000), q, K, D; R, S and w
//! as above; then floats as 8 bytes, low byte first: sample time, outside
//! temperature; for each room its loss, then its exchanges g_ij for j
//! ascending, j != i; then an emitter number ... Each emitter kind carries
//! only its own values."

use crate::band::Band;
use crate::edges::Edges;
use crate::file::{Draft, File};
use crate::lent::{deliver, zero_if_refused};
use crate::plant::{most_depth, write_plant, Plant, MOST_Q};
use crate::refusal::{Refusal, OUT_OF_RANGE, SHEET_FLOAT};
use crate::sheet_plant::step_coefficients;
use crate::{LONGEST_PATTERN, MOST_ROOMS};

/// "Counts per degree r (1..1,000)".
pub const MOST_COUNTS: u64 = 1_000;

/// A room's emitter: "0 none, 1 heater (coefficient p, water temperature), 2
/// steady (degrees per unit of time)".
#[derive(Clone, Copy, Debug, PartialEq)]
pub enum Emitter {
    None,
    Heater { p: f64, water: f64 },
    Steady { rate: f64 },
}

/// A room's record.
#[derive(Clone, Copy, Debug, PartialEq)]
pub struct Room {
    pub loss: f64,
    /// g_ij packed, j ascending, j != i; zeros beyond n - 1.
    pub exchange: [f64; MOST_ROOMS - 1],
    pub emitter: Emitter,
}

impl Room {
    /// All zeros, no emitter.
    pub const ZEROS: Room = Room { loss: 0.0, exchange: [0.0; 3], emitter: Emitter::None };
}

/// A sheet as plain values. Nothing about them is promised until they are judged.
#[derive(Clone, Copy, Debug, PartialEq)]
pub struct Sheet {
    pub n: u64,
    /// Counts per degree.
    pub r: u64,
    pub q: u64,
    /// The longest pattern.
    pub k: u64,
    /// The depth.
    pub d: u64,
    pub edges: Edges,
    pub band: Band,
    /// The sample time.
    pub time: f64,
    /// The outside temperature.
    pub outside: f64,
    pub rooms: [Room; MOST_ROOMS],
}

impl Sheet {
    /// How many rooms, never over the most there can be.
    pub fn room_count(&self) -> usize {
        self.n.min(MOST_ROOMS as u64) as usize
    }
}

/// A sheet's file, judged whole: 1, 2, 3 and 13 number by number, leftover,
/// 4, 5, then 14.
pub fn read_sheet(bytes: &[u8]) -> Result<Sheet, Refusal> {
    let sheet = judge_file(bytes)?;
    step_coefficients(&sheet)?;
    Ok(sheet)
}

/// Writes a sheet: its values judged as the file it would be, 14, then 10.
pub fn write_sheet(sheet: &Sheet, buffer: &mut [u8]) -> Result<usize, Refusal> {
    let draft = draft_sheet(sheet);
    let answer = read_sheet(draft.bytes()).and_then(|_| deliver(draft.bytes(), buffer));
    zero_if_refused(answer, buffer)
}

/// Turns a sheet's file into its plant's file: the sheet's refusals, then 10.
pub fn sheet_to_plant(sheet_bytes: &[u8], buffer: &mut [u8]) -> Result<usize, Refusal> {
    let plant = judge_file(sheet_bytes).and_then(|sheet| step_coefficients(&sheet));
    let answer = plant.and_then(|plant| write_plant(&plant, buffer));
    zero_if_refused(answer, buffer)
}

/// The plant made of a sheet's values, which are judged first.
pub fn plant_of_sheet(sheet: &Sheet) -> Result<Plant, Refusal> {
    let judged = judge_file(draft_sheet(sheet).bytes())?;
    step_coefficients(&judged)
}

/// Everything but 14.
fn judge_file(bytes: &[u8]) -> Result<Sheet, Refusal> {
    let mut file = File::new(bytes);
    file.form(&[1])?;
    let n = file.unsigned_in(1, MOST_ROOMS as u64)?;
    let r = file.unsigned_in(1, MOST_COUNTS)?;
    let q = file.unsigned_in(1, MOST_Q)?;
    let k = file.unsigned_in(1, LONGEST_PATTERN as u64)?;
    let d = file.unsigned_in(0, most_depth(n))?;
    let edges = Edges::read(&mut file, n as usize)?;
    let band = Band::read(&mut file, n as usize)?;
    let time = float_where(&mut file, |time| time > 0.0)?;
    let outside = float_where(&mut file, |_| true)?;
    let mut rooms = [Room::ZEROS; MOST_ROOMS];
    for room in &mut rooms[..n as usize] {
        *room = read_room(&mut file, n as usize)?;
    }
    file.end(OUT_OF_RANGE)?;
    edges.judge(n as usize)?;
    band.judge(0, n as usize, q)?;
    Ok(Sheet { n, r, q, k, d, edges, band, time, outside, rooms })
}

/// A float that must be finite and as asked: 1, then 13, at its first byte.
fn float_where(file: &mut File, allowed: impl Fn(f64) -> bool) -> Result<f64, Refusal> {
    let place = file.place();
    let float = file.float()?;
    if !float.is_finite() || !allowed(float) {
        return Err(Refusal::at(SHEET_FLOAT, place));
    }
    Ok(float)
}

/// A float that may not be below 0; minus zero is not.
fn float_not_below_zero(file: &mut File) -> Result<f64, Refusal> {
    float_where(file, |float| float >= 0.0)
}

/// A room's loss, its n - 1 exchanges, its emitter.
fn read_room(file: &mut File, n: usize) -> Result<Room, Refusal> {
    let mut room = Room::ZEROS;
    room.loss = float_not_below_zero(file)?;
    for exchange in &mut room.exchange[..n - 1] {
        *exchange = float_not_below_zero(file)?;
    }
    room.emitter = match file.unsigned_in(0, 2)? {
        0 => Emitter::None,
        1 => {
            let p = float_not_below_zero(file)?;
            Emitter::Heater { p, water: float_where(file, |_| true)? }
        }
        _ => Emitter::Steady { rate: float_where(file, |_| true)? },
    };
    Ok(room)
}

/// The file any values would be; what they hold beyond n rooms is ignored.
fn draft_sheet(sheet: &Sheet) -> Draft {
    let n = sheet.room_count();
    let mut draft = Draft::new(1);
    for number in [sheet.n, sheet.r, sheet.q, sheet.k, sheet.d] {
        draft.unsigned(number);
    }
    sheet.edges.draft(&mut draft, n);
    sheet.band.draft(&mut draft, n);
    draft.float(sheet.time);
    draft.float(sheet.outside);
    for room in &sheet.rooms[..n] {
        draft_room(room, n, &mut draft);
    }
    draft
}

/// A room's record in file order; called with n at least 1.
fn draft_room(room: &Room, n: usize, draft: &mut Draft) {
    draft.float(room.loss);
    for exchange in &room.exchange[..n - 1] {
        draft.float(*exchange);
    }
    match room.emitter {
        Emitter::None => draft.unsigned(0),
        Emitter::Heater { p, water } => {
            draft.unsigned(1);
            draft.float(p);
            draft.float(water);
        }
        Emitter::Steady { rate } => {
            draft.unsigned(2);
            draft.float(rate);
        }
    }
}
