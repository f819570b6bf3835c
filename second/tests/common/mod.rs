//! What the tests share: files put together field by field with an encoder of
//! their own, the paper's examples, and a small seeded generator.
#![allow(dead_code)]

use second::band::Band;
use second::edges::Edges;
use second::plant::Plant;
use second::refusal::Refusal;
use second::sheet::{Emitter, Room, Sheet};
use std::fmt::Debug;

/// One number of a file, or bytes as they are.
#[derive(Clone, Debug, PartialEq)]
pub enum Field {
    U(u64),
    S(i64),
    F(f64),
    Raw(Vec<u8>),
}
pub use Field::{Raw, F, S, U};

/// Shortest seven-bit groups, by division.
pub fn groups(mut number: u128) -> Vec<u8> {
    let mut bytes = Vec::new();
    loop {
        let (rest, group) = (number / 128, (number % 128) as u8);
        if rest == 0 {
            bytes.push(group);
            return bytes;
        }
        bytes.push(group + 128);
        number = rest;
    }
}

/// A field's bytes.
pub fn field_bytes(field: &Field) -> Vec<u8> {
    match field {
        U(number) => groups(u128::from(*number)),
        S(number) => {
            let wide = i128::from(*number);
            groups(if wide >= 0 { 2 * wide } else { -2 * wide - 1 } as u128)
        }
        F(float) => float.to_bits().to_le_bytes().to_vec(),
        Raw(bytes) => bytes.clone(),
    }
}

/// A number made a group longer, one of six bytes, one without an end.
pub fn broken(field: &Field) -> [Field; 3] {
    let mut longer = field_bytes(field);
    *longer.last_mut().expect("a byte") |= 0x80;
    longer.push(0);
    [Raw(longer), Raw(vec![0x80, 0x80, 0x80, 0x80, 0x80, 1]), Raw(vec![0xFF; 5])]
}

/// The file and the place of each field, with the end's place last.
pub fn encode(fields: &[Field]) -> (Vec<u8>, Vec<u64>) {
    let mut bytes = Vec::new();
    let mut places = vec![0];
    for field in fields {
        bytes.extend(field_bytes(field));
        places.push(bytes.len() as u64);
    }
    (bytes, places)
}

/// The file alone.
pub fn file(fields: &[Field]) -> Vec<u8> {
    encode(fields).0
}

/// The same fields with one replaced.
pub fn with(fields: &[Field], index: usize, field: Field) -> Vec<Field> {
    let mut changed = fields.to_vec();
    changed[index] = field;
    changed
}

/// Number, place and step told; zeros when done.
pub fn told<T: Debug>(answer: Result<T, Refusal>) -> (u64, u64, u64) {
    match answer {
        Ok(_) => (0, 0, 0),
        Err(refusal) => (refusal.number.into(), refusal.place, refusal.step),
    }
}

/// The paper's bytes of plant P.
pub const P: [u8; 22] = [
    0x01, 0x01, 0x02, 0x0A, 0x02, 0x01, 0x86, 0x03, 0xC2, 0x03, 0xFC, 0x02, 0xCC, 0x03, 0x09, 0x08,
    0x12, 0xC8, 0x01, 0x12, 0xD8, 0x04,
];

/// P as fields: form, n, N, q, K, D, R, S, w, mode 0, mode 1.
pub fn p_fields() -> Vec<Field> {
    let mut fields = vec![U(1), U(1), U(2), U(10), U(2), U(1)];
    fields.extend([195, 225, 190, 230, -5, 4, 9, 100, 9, 300].map(S));
    fields
}

/// P', "P with S 180..240".
pub fn p_prime() -> Vec<u8> {
    file(&with(&with(&p_fields(), 8, S(180)), 9, S(240)))
}

/// P's table, line 1.
pub const T1: [u8; 7] = [1, 1, 0, 1, 1, 1, 0];
/// P's other table, line 5.
pub const T5: [u8; 5] = [1, 1, 2, 0, 1];

/// A plant of two rooms and two modes that is in order: fields 6..14 the
/// edges, 14..18 the bands, 18..30 the coefficients.
pub fn two_rooms() -> Vec<Field> {
    let mut fields = vec![U(1), U(2), U(2), U(4), U(3), U(2)];
    fields.extend([0, 9, -5, 14, 10, 19, 5, 24].map(S));
    fields.extend([-2, 2, -3, 3].map(S));
    fields.extend([2, 0, 9, 0, 2, 29].map(S));
    fields.extend([3, -1, 15, 1, 2, 23].map(S));
    fields
}

/// A chain's fields: form, m, then the edges of R1..Rm, box by box.
pub fn chain_fields<Sides: AsRef<[(i64, i64)]>>(boxes: &[Sides]) -> Vec<Field> {
    let edges = boxes.iter().flat_map(Sides::as_ref).flat_map(|(lo, hi)| [S(*lo), S(*hi)]);
    [U(1), U(boxes.len() as u64)].into_iter().chain(edges).collect()
}

/// A start file's fields: a chain's, then for each table its byte length and
/// the table as it is.
pub fn start_fields(chain: &[Field], tables: &[&[u8]]) -> Vec<Field> {
    let lengths = tables.iter().flat_map(|table| [U(table.len() as u64), Raw(table.to_vec())]);
    chain.iter().cloned().chain(lengths).collect()
}

/// P with S 150..240, the plant of a room that starts far under R.
pub fn cold_p() -> Vec<u8> {
    file(&with(&with(&p_fields(), 8, S(150)), 9, S(240)))
}

/// Its chain: R1 180..225, R2 160..230.
pub fn cold_chain() -> Vec<Field> {
    chain_fields(&[[(180, 225)], [(160, 230)]])
}

/// Line 13's sheet: fields 6..10 the edges, 10, 11 the band, 12 time, 13
/// outside, 14 loss, 15 the emitter number, 16 p, 17 water.
pub fn line_13() -> Vec<Field> {
    let mut fields = vec![U(1), U(1), U(10), U(8), U(2), U(1)];
    fields.extend([195, 225, 190, 230, -4, 3].map(S));
    fields.extend([F(1.0), F(8.0), F(0.125), U(1), F(0.125), F(40.0)]);
    fields
}

/// A sheet of two rooms, a heater in the first and a steady one in the second:
/// 6..14 edges, 14..18 bands, 18 time, 19 outside, 20 loss, 21 exchange, 22
/// emitter, 23 p, 24 water, 25 loss, 26 exchange, 27 emitter, 28 rate.
pub fn two_room_sheet() -> Vec<Field> {
    let mut fields = vec![U(1), U(2), U(10), U(8), U(2), U(1)];
    fields.extend([195, 225, 190, 230, 195, 225, 180, 231].map(S));
    fields.extend([-4, 3, -5, 6].map(S));
    fields.extend([F(0.5), F(8.0)]);
    fields.extend([F(0.25), F(0.125), U(1), F(0.5), F(40.0)]);
    fields.extend([F(0.125), F(0.25), U(2), F(3.0)]);
    fields
}

fn unsigned(field: &Field) -> u64 {
    let U(number) = field else { panic!("{field:?} is no unsigned number") };
    *number
}

fn signed(field: &Field) -> i64 {
    let S(number) = field else { panic!("{field:?} is no signed number") };
    *number
}

fn float(field: &Field) -> f64 {
    let F(float) = field else { panic!("{field:?} is no float") };
    *float
}

/// Edges of n rooms from the fields at 6 on.
fn edge_values(fields: &[Field], n: usize) -> Edges {
    let mut edges = Edges::default();
    for i in 0..n {
        let at = 6 + 4 * i;
        edges.r_lo[i] = signed(&fields[at]);
        edges.r_hi[i] = signed(&fields[at + 1]);
        edges.s_lo[i] = signed(&fields[at + 2]);
        edges.s_hi[i] = signed(&fields[at + 3]);
    }
    edges
}

/// The band that stands in these fields: w lo, w hi of each room.
fn band_values(fields: &[Field]) -> Band {
    let mut band = Band::default();
    for (i, ends) in fields.chunks(2).enumerate() {
        (band.lo[i], band.hi[i]) = (signed(&ends[0]), signed(&ends[1]));
    }
    band
}

/// The values a plant file of n rooms stands for, judged or not. Behind the
/// edges form 1 has one band and then the modes' rows, form 2 in each mode a band
/// and its rows.
pub fn plant_values(fields: &[Field], n: usize) -> Plant {
    let mut plant = Plant { n: unsigned(&fields[1]), modes: unsigned(&fields[2]), ..Plant::ZEROS };
    plant.form = unsigned(&fields[0]);
    plant.q = unsigned(&fields[3]);
    plant.k = unsigned(&fields[4]);
    plant.d = unsigned(&fields[5]);
    plant.edges = edge_values(fields, n);
    let own_band = plant.form == 2;
    let (shared, modes) = fields[6 + 4 * n..].split_at(if own_band { 0 } else { 2 * n });
    let rows = n * (n + 1);
    for mode in modes.chunks(if own_band { 2 * n + rows } else { rows }) {
        let (own, mode) = mode.split_at(if own_band { 2 * n } else { 0 });
        plant.bands.push(band_values(if own_band { own } else { shared }));
        plant.coefficients.extend(mode.iter().map(signed));
    }
    plant
}

/// The same plant in form 2: its one band inside each mode, before the rows.
pub fn in_form_2(fields: &[Field]) -> Vec<Field> {
    let n = unsigned(&fields[1]) as usize;
    let (head, rest) = fields.split_at(6 + 4 * n);
    let (band, modes) = rest.split_at(2 * n);
    let modes = modes.chunks(n * (n + 1)).flat_map(|rows| [band, rows].concat());
    with(head, 0, U(2)).into_iter().chain(modes).collect()
}

/// The values a sheet file of n rooms stands for, judged or not.
pub fn sheet_values(fields: &[Field], n: usize) -> Sheet {
    let mut rooms = [Room { loss: 0.0, exchange: [0.0; 3], emitter: Emitter::None }; 4];
    let mut rest = fields[8 + 6 * n..].iter();
    let mut next = || rest.next().expect("a field");
    for room in &mut rooms[..n] {
        room.loss = float(next());
        for slot in &mut room.exchange[..n - 1] {
            *slot = float(next());
        }
        room.emitter = match unsigned(next()) {
            0 => Emitter::None,
            1 => Emitter::Heater { p: float(next()), water: float(next()) },
            2 => Emitter::Steady { rate: float(next()) },
            kind => panic!("emitter {kind}"),
        };
    }
    Sheet {
        n: unsigned(&fields[1]),
        r: unsigned(&fields[2]),
        q: unsigned(&fields[3]),
        k: unsigned(&fields[4]),
        d: unsigned(&fields[5]),
        edges: edge_values(fields, n),
        band: band_values(&fields[6 + 4 * n..6 + 6 * n]),
        time: float(&fields[6 + 6 * n]),
        outside: float(&fields[7 + 6 * n]),
        rooms,
    }
}

/// A buffer of 0xAA, to see which bytes a write touches.
pub fn marked(length: usize) -> Vec<u8> {
    vec![0xAA; length]
}

/// Splitmix64.
pub struct Random(pub u64);

impl Random {
    pub fn next(&mut self) -> u64 {
        self.0 = self.0.wrapping_add(0x9E37_79B9_7F4A_7C15);
        let mut mixed = self.0;
        mixed = (mixed ^ (mixed >> 30)).wrapping_mul(0xBF58_476D_1CE4_E5B9);
        mixed = (mixed ^ (mixed >> 27)).wrapping_mul(0x94D0_49BB_1331_11EB);
        mixed ^ (mixed >> 31)
    }

    /// A whole number in lo ..= hi.
    pub fn within(&mut self, lo: i64, hi: i64) -> i64 {
        assert!(lo <= hi);
        let span = (hi as i128 - lo as i128 + 1) as u128;
        (lo as i128 + (u128::from(self.next()) % span) as i128) as i64
    }
}
