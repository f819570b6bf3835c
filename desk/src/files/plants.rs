//! A plant's file in either form (request 2026-09), and what it shares with a sheet's: form, n, N or r, q, K, D, then R and S, and the bands w.

use super::boxes::{Side, Sides};
use super::numbers::{Reader, Writer};
use super::ranges::{most_depth, MOST_A, MOST_B, MOST_BAND, MOST_EDGE, MOST_LONGEST, MOST_MODES, MOST_Q, MOST_ROOMS};
use std::fmt::Display;

/// A plant's values, under document 01's letters.
#[derive(Clone, Debug, PartialEq)]
pub struct Plant {
    /// 1, one band for all modes, or 2, a band in each.
    pub form: u64,
    /// q, the denominator of A and b.
    pub q: u64,
    /// K, the longest pattern.
    pub longest: u64,
    /// D, the depth.
    pub depth: u64,
    pub rooms: Vec<Bounds>,
    /// For each mode a row for each room.
    pub modes: Vec<Vec<Row>>,
}

/// R and S of a room.
#[derive(Clone, Copy, Debug, PartialEq, Eq)]
pub struct Bounds {
    pub r: Side,
    pub s: Side,
}

/// A room in a mode: its band, which is the same in all modes of form 1, an entry of A for each room, and b.
#[derive(Clone, Debug, PartialEq, Eq)]
pub struct Row {
    pub w: Side,
    pub a: Vec<i64>,
    pub b: i64,
}

impl Plant {
    /// Box R.
    pub fn r(&self) -> Sides {
        self.rooms.iter().map(|room| room.r).collect()
    }

    /// Box S.
    pub fn s(&self) -> Sides {
        self.rooms.iter().map(|room| room.s).collect()
    }

    /// The plant of a file that the library accepted, or of one that it refused with 4 or 5.
    pub fn read(bytes: &[u8]) -> Option<Plant> {
        Plant::follow(&mut Reader::new(bytes))
    }

    /// The plant's numbers in file order.
    pub fn follow(file: &mut Reader) -> Option<Plant> {
        let head = Head::follow(file, PLANT_FORMS, "N", MOST_MODES)?;
        let rooms = bounds(file, head.rooms)?;
        let shared = if head.form == 1 { Some(bands(file, head.rooms, "")?) } else { None };
        let mode = |mode| {
            let own = || bands(file, head.rooms, &format!(" mode {mode},"));
            let bands = shared.clone().or_else(own)?;
            rows(file, mode, &bands)
        };
        let modes = (0..head.second).map(mode).collect::<Option<_>>()?;
        Some(Plant { form: head.form, q: head.q, longest: head.longest, depth: head.depth, rooms, modes })
    }

    pub fn write(&self) -> Vec<u8> {
        let mut file = Writer::default();
        for number in [self.form, self.rooms.len() as u64, self.modes.len() as u64, self.q, self.longest, self.depth] {
            file.number(number);
        }
        self.rooms.iter().for_each(|room| file.sides([room.r, room.s]));
        for (mode, rows) in self.modes.iter().enumerate() {
            if mode == 0 || self.form == 2 {
                file.sides(rows.iter().map(|row| row.w));
            }
            for row in rows {
                row.a.iter().for_each(|&a| file.signed(a));
                file.signed(row.b);
            }
        }
        file.0
    }
}

/// What plants and sheets begin with; `second` is N of a plant, r of a sheet.
pub struct Head {
    pub form: u64,
    pub rooms: u64,
    pub second: u64,
    pub q: u64,
    pub longest: u64,
    pub depth: u64,
}

impl Head {
    pub fn follow(file: &mut Reader, forms: &str, second: &str, most: i64) -> Option<Head> {
        let form = form(file, forms)?;
        let rooms = ranged(file, "n", 1, MOST_ROOMS)?;
        let second = ranged(file, second, 1, most)?;
        let q = ranged(file, "q", 1, MOST_Q)?;
        let longest = ranged(file, "K", 1, MOST_LONGEST)?;
        let most = most_depth(rooms as i64);
        let product = if most < most_depth(1) { ", as n·D is at most 12" } else { "" };
        let depth = file.number(|| "D".into(), |value| format!("D is {value}, wanted 0 .. {most}{product}"))?;
        Some(Head { form, rooms, second, q, longest, depth })
    }
}

/// The forms of a plant, and of every other file but a table (`forms`).
const PLANT_FORMS: &str = "1 or 2";
pub const FORM_1: &str = "1";

/// The form, of those that the file may have.
pub fn form(file: &mut Reader, forms: &str) -> Option<u64> {
    file.number(|| "the form".into(), |value| format!("the form is {value}, wanted {forms}"))
}

/// A number with the range that it may have.
pub fn ranged(file: &mut Reader, name: &str, lo: i64, hi: i64) -> Option<u64> {
    file.number(|| name.into(), |value| format!("{name} is {value}, wanted {lo} .. {hi}"))
}

/// A signed number within ±most.
fn signed(file: &mut Reader, name: impl Fn() -> String, most: i64) -> Option<i64> {
    file.signed(&name, |value| format!("{} is {value}, wanted {} .. {most}", name(), -most))
}

/// The two ends of a side within ±most, named by what the side is.
pub fn side(file: &mut Reader, what: impl Display, most: i64) -> Option<Side> {
    let lo = signed(file, || format!("{what} lo"), most)?;
    let hi = file.signed(|| format!("{what} hi"), |hi| format!("{what} hi is {hi}, wanted {lo}, which is its lo, .. {most}"))?;
    Some(Side { lo, hi })
}

/// R and S of each room.
pub fn bounds(file: &mut Reader, rooms: u64) -> Option<Vec<Bounds>> {
    let mut edges = |name: &str, room: u64| side(file, format_args!("{name} of room {room},"), MOST_EDGE);
    (1..=rooms).map(|room| Some(Bounds { r: edges("R", room)?, s: edges("S", room)? })).collect()
}

/// w of each room; `of` says the mode where it is one's own.
pub fn bands(file: &mut Reader, rooms: u64, of: &str) -> Option<Sides> {
    (1..=rooms).map(|room| side(file, format_args!("w of{of} room {room},"), MOST_BAND)).collect()
}

/// The rows of a mode with these bands.
fn rows(file: &mut Reader, mode: u64, bands: &[Side]) -> Option<Vec<Row>> {
    let row = |file: &mut Reader, i: usize, w: Side| {
        let entry = |j| signed(file, || format!("A of mode {mode}, room {i}, column {j},"), MOST_A);
        let a = (1..=bands.len()).map(entry).collect::<Option<_>>()?;
        Some(Row { w, a, b: signed(file, || format!("b of mode {mode}, room {i},"), MOST_B)? })
    };
    (1..).zip(bands).map(|(i, &w)| row(file, i, w)).collect()
}
