//! A plant as text, and what it shares with a sheet's and a chain's. In form 1 the line `w` stands in each room, in form 2 (request 2026-09) in each mode,
//! for each room, before its row. The edges are shown in counts: a plant does not know how many a degree has.
//! A text may say so in a line `counts a degree R` behind `rooms`, and then give edges in degrees; no file keeps that line.

use super::lines::{Fault, Line, Lines};
use super::shown::Shown;
use super::values::{band, box_words, side, whole};
use crate::files::plants::{Bounds, Row};
use crate::files::ranges::{most_depth, MOST_A, MOST_B, MOST_BAND, MOST_COUNTS, MOST_EDGE, MOST_LONGEST, MOST_MODES, MOST_Q, MOST_ROOMS};
use crate::files::{Plant, Side, Sides};

/// The form that a plant's first line says.
pub fn form(line: &mut Line) -> Result<u64, Fault> {
    line.words("form")?;
    whole(line, "the form", 1, 2).map(|form| form as u64)
}

/// The plant of a form that a text says, behind its first line.
pub fn read(lines: &mut Lines, form: u64) -> Result<Plant, Fault> {
    let rooms = count(lines, "rooms", 1, MOST_ROOMS)?;
    let counts = counts_if(lines)?;
    let modes = count(lines, "modes", 1, MOST_MODES)?;
    let (q, longest, depth) = limits(lines, rooms)?;
    let (mut bounds, mut shared) = (Vec::new(), Sides::new());
    for room in 1..=rooms {
        lines.line(&format!("room {room}"))?.end()?;
        bounds.push(self::bounds(lines, counts)?);
        if form == 1 {
            shared.push(read_band(lines)?);
        }
    }
    let modes = (0..modes).map(|mode| read_mode(lines, mode, bounds.len(), &shared)).collect::<Result<_, _>>()?;
    Ok(Plant { form, q, longest, depth, rooms: bounds, modes })
}

/// The canonical text of a plant.
pub fn show(plant: &Plant, shown: &mut Shown) {
    shown.line(format!("plant form {}", plant.form));
    shown.line(format!("rooms {}", plant.rooms.len()));
    shown.line(format!("modes {}", plant.modes.len()));
    show_limits(plant.q, plant.longest, plant.depth, shown);
    for (room, bounds) in plant.rooms.iter().enumerate() {
        shown.gap();
        shown.line(format!("room {}", room + 1));
        show_bounds(bounds, None, shown);
        if plant.form == 1 {
            show_band(plant.modes[0][room].w, plant.q, shown);
        }
    }
    for (rows, mode) in plant.modes.iter().zip(0..) {
        shown.gap();
        shown.line(format!("mode {mode}"));
        for row in rows {
            if plant.form == 2 {
                show_band(row.w, plant.q, shown);
            }
            let a: Vec<String> = row.a.iter().map(i64::to_string).collect();
            shown.line(format!("A {} b {}", a.join(" "), row.b));
        }
    }
}

/// A mode with the bands that the rooms have said, or else with its own.
fn read_mode(lines: &mut Lines, mode: i64, rooms: usize, shared: &[Side]) -> Result<Vec<Row>, Fault> {
    lines.line(&format!("mode {mode}"))?.end()?;
    let row = |room| {
        let w = shared.get(room).map_or_else(|| read_band(lines), |&w| Ok(w))?;
        read_row(lines, rooms, w)
    };
    (0..rooms).map(row).collect()
}

fn read_row(lines: &mut Lines, rooms: usize, w: Side) -> Result<Row, Fault> {
    let mut line = lines.line("A")?;
    let a = (0..rooms).map(|_| whole(&mut line, "an entry of A", -MOST_A, MOST_A)).collect::<Result<_, _>>()?;
    line.words("b")?;
    let b = whole(&mut line, "b", -MOST_B, MOST_B)?;
    line.end()?;
    Ok(Row { w, a, b })
}

/// A line with one whole number.
pub fn count(lines: &mut Lines, name: &str, lo: i64, hi: i64) -> Result<i64, Fault> {
    let mut line = lines.line(name)?;
    let value = whole(&mut line, name, lo, hi)?;
    line.end()?;
    Ok(value)
}

/// How many counts a degree has, where the text says so.
pub fn counts_if(lines: &mut Lines) -> Result<Option<i64>, Fault> {
    let Some(mut line) = lines.line_if(COUNTS) else {
        return Ok(None);
    };
    let counts = whole(&mut line, COUNTS, 1, MOST_COUNTS)?;
    line.end()?;
    Ok(Some(counts))
}

pub const COUNTS: &str = "counts a degree";

/// q, the longest pattern and the depth.
pub fn limits(lines: &mut Lines, rooms: i64) -> Result<(u64, u64, u64), Fault> {
    let q = count(lines, "q", 1, MOST_Q)?;
    let longest = count(lines, "longest pattern", 1, MOST_LONGEST)?;
    let depth = count(lines, "depth", 0, most_depth(rooms))?;
    Ok((q as u64, longest as u64, depth as u64))
}

pub fn show_limits(q: u64, longest: u64, depth: u64, shown: &mut Shown) {
    shown.line(format!("q {q}"));
    shown.noted(format!("longest pattern {longest}"), "K".into());
    shown.noted(format!("depth {depth}"), "D".into());
}

/// R and S of a room.
pub fn bounds(lines: &mut Lines, counts: Option<i64>) -> Result<Bounds, Fault> {
    let mut edges = |name: &str| {
        let mut line = lines.line(name)?;
        let side = side(&mut line, name, counts, MOST_EDGE)?;
        line.end()?;
        Ok(side)
    };
    Ok(Bounds { r: edges("R")?, s: edges("S")? })
}

/// The line `w`.
pub fn read_band(lines: &mut Lines) -> Result<Side, Fault> {
    let mut line = lines.line("w")?;
    let w = band(&mut line, "w", MOST_BAND)?;
    line.end()?;
    Ok(w)
}

pub fn show_band(w: Side, q: u64, shown: &mut Shown) {
    shown.noted(format!("w {w}"), format!("in 1/{q} counts"));
}

pub fn show_bounds(bounds: &Bounds, counts: Option<i64>, shown: &mut Shown) {
    for (name, side) in [("R", bounds.r), ("S", bounds.s)] {
        let (words, comment) = box_words(&[side], counts);
        shown.noted(format!("{name} {words}"), comment);
    }
}
