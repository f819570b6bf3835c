//! The inputs of the tests of start files, request 2026-03: seeded chains for
//! the plants of `inputs`, start files over them with the made tables, with
//! other sound ones and with any trees, each number of a chain and each byte
//! length spoiled with the refusal that is told of it, and states and readings
//! about the boxes.

use crate::common::{broken, chain_fields, encode, file, start_fields, with, Field, Random, Raw, S, U};
use crate::inputs::{outside, signed, EDGE};
use crate::tables::{any_form, any_tree, other_table_of, FORMS};
use crate::{Standing, Told};
use second::chain::Chain;
use second::file::File;
use second::numbers::read_unsigned;
use second::plant::Plant;
use second::start::start_make;

/// A start file in its parts: the chain's fields, and the tables.
#[derive(Clone, PartialEq)]
pub struct Start {
    pub chain: Vec<Field>,
    pub tables: Vec<Vec<u8>>,
}

impl Start {
    /// A whole start file taken apart.
    pub fn of(chain: &[Field], bytes: &[u8]) -> Start {
        let mut at = file(chain).len();
        let mut tables = Vec::new();
        while at < bytes.len() {
            let (length, first) = read_unsigned(bytes, at).expect("a byte length");
            at = first + length as usize;
            tables.push(bytes[first..at].to_vec());
        }
        Start { chain: chain.to_vec(), tables }
    }

    /// The chain's fields, then for each table its byte length and the table.
    pub fn fields(&self) -> Vec<Field> {
        start_fields(&self.chain, &self.tables.iter().map(|table| &table[..]).collect::<Vec<_>>())
    }

    pub fn bytes(&self) -> Vec<u8> {
        file(&self.fields())
    }

    /// The same with another table at an index.
    pub fn with_table(&self, index: usize, table: &[u8]) -> Start {
        let mut other = self.clone();
        other.tables[index] = table.to_vec();
        other
    }

    /// How many forms its tables are of.
    pub fn forms(&self) -> usize {
        FORMS.iter().filter(|form| self.tables.iter().any(|table| u64::from(table[0]) == **form)).count()
    }

    /// Where the byte length of a table stands among the fields.
    pub fn length_field(&self, index: usize) -> usize {
        self.chain.len() + 2 * index
    }

    /// The places of a table's byte length and of its first byte.
    pub fn places(&self, index: usize) -> (u64, u64) {
        let (_, places) = encode(&self.fields());
        (places[self.length_field(index)], places[self.length_field(index) + 1])
    }
}

/// A sound chain: up to 8 boxes that grow from R towards S by some counts, some of them not at all.
pub fn any_chain(random: &mut Random, plant: &Plant) -> Vec<Field> {
    let e = &plant.edges;
    let (mut lo, mut hi) = (e.r_lo, e.r_hi);
    let m = random.one(&[0, 1, 1, 2, 2, 3, 5, 8]);
    let mut boxes = Vec::new();
    for _ in 0..m {
        let reach = random.one(&[0, 1, 3, 10]);
        for i in 0..plant.rooms() {
            lo[i] = (lo[i] - random.within(0, reach)).max(e.s_lo[i]);
            hi[i] = (hi[i] + random.within(0, reach)).min(e.s_hi[i]);
        }
        boxes.push((0..plant.rooms()).map(|i| (lo[i], hi[i])).collect::<Vec<_>>());
    }
    chain_fields(&boxes)
}

/// The made start file, its tables of a form, where there is one.
pub fn made_start(plant: &[u8], chain: &[Field], form: u64) -> Option<Start> {
    start_make(plant, &file(chain), form).ok().map(|bytes| Start::of(chain, &bytes))
}

/// The made start files of all forms, as far as there are any, and one with tables of several.
pub fn made_starts(random: &mut Random, plant: &[u8], chain: &[Field]) -> Vec<Start> {
    with_mixed(random, FORMS.iter().filter_map(|form| made_start(plant, chain, *form)).collect())
}

/// Start files of one plant and chain; where there are several, also one that has each table from any of them by chance.
pub fn with_mixed(random: &mut Random, mut all: Vec<Start>) -> Vec<Start> {
    if let [one, _, ..] = &all[..] {
        let any = |index: usize| all[random.within(0, all.len() as i64 - 1) as usize].tables[index].clone();
        let tables = (0..one.tables.len()).map(any).collect();
        all.push(Start { chain: one.chain.clone(), tables });
    }
    all
}

/// A start file that keeps every rule, with tables of any form that chance came upon; None where it does not for some box.
pub fn other_start(random: &mut Random, plant: &Plant, chain: &[Field]) -> Option<Start> {
    let boxes = boxes_of(plant, chain);
    let table = |index| {
        let form = any_form(random);
        other_table_of(random, plant, form, boxes.root(index), boxes.goal(index))
    };
    let tables: Option<Vec<_>> = (0..=boxes.m()).map(table).collect();
    tables.map(|tables| Start { chain: chain.to_vec(), tables })
}

/// A start file whose tables are any trees.
pub fn any_start(random: &mut Random, plant: &Plant, chain: &[Field]) -> Start {
    let tables = (0..=boxes_of(plant, chain).m()).map(|_| any_tree(random, plant.n as u8)).collect();
    Start { chain: chain.to_vec(), tables }
}

/// A sound chain's boxes, R first.
pub fn boxes_of(plant: &Plant, chain: &[Field]) -> Chain {
    Chain::read(plant, &mut File::new(&file(chain))).expect("a sound chain")
}

/// A sound chain with each of its numbers made wrong in every way, and each edge of each box moved to where 15 is told; what is told of each.
pub fn spoiled_chain(plant: &Plant, chain: &[Field]) -> Vec<(Vec<Field>, Told)> {
    let (_, places) = encode(chain);
    let mut all = Vec::new();
    for (at, place) in places[..chain.len()].iter().enumerate() {
        let (least, greatest, unfit) = match at {
            0 => (1, 1, 2),
            1 => (0, 8, 3),
            _ if at % 2 == 0 => (-EDGE, EDGE, 3),
            _ => (signed(&chain[at - 1]), EDGE, 3),
        };
        let broken = broken(&chain[at]).into_iter().map(|field| (field, 1));
        let outside = outside(&chain[at], least, greatest).into_iter().map(|field| (field, unfit));
        all.extend(broken.chain(outside).map(|(field, number)| (with(chain, at, field), (number, *place, 0))));
    }
    all.extend(boxes_at_fault(plant, chain));
    all
}

/// Each edge of each box, drawn inside the box below it and pushed out of S, where that can be.
fn boxes_at_fault(plant: &Plant, chain: &[Field]) -> Vec<(Vec<Field>, Told)> {
    let boxes = boxes_of(plant, chain);
    let s = plant.s();
    let mut all = Vec::new();
    for index in 1..=boxes.m() {
        for (i, below) in boxes.goal(index).sides().iter().enumerate() {
            let at = 2 + 2 * (plant.rooms() * (index - 1) + i);
            let (here, s) = (boxes.root(index).sides()[i], s.sides()[i]);
            let edges = [(at, below.lo + 1), (at, s.lo - 1), (at + 1, below.hi - 1), (at + 1, s.hi + 1)];
            for (at, edge) in edges {
                let lo = if at % 2 == 0 { edge } else { here.lo };
                let hi = if at % 2 == 0 { here.hi } else { edge };
                if -EDGE <= lo && lo <= hi && hi <= EDGE {
                    all.push((with(chain, at, S(edge)), (15, index as u64, 0)));
                }
            }
        }
    }
    all
}

/// An accepted start file with each byte length broken, past the end, short by one and over by one; what the checker tells of each.
pub fn spoiled_lengths(start: &Start) -> Vec<(Vec<u8>, Told)> {
    let fields = start.fields();
    let (bytes, places) = encode(&fields);
    let mut all = Vec::new();
    for (index, table) in start.tables.iter().enumerate() {
        let at = start.length_field(index);
        let (place, first) = (places[at], places[at + 1]);
        let mut spoil = |fields: &[Field], told| all.push((file(fields), told));
        for field in broken(&fields[at]) {
            spoil(&with(&fields, at, field), (1, place, 0));
        }
        let left = bytes.len() as u64 - first;
        for length in [left + 1, (1 << 32) + table.len() as u64, (1 << 35) - 1] {
            spoil(&with(&fields, at, U(length)), (3, place, 0));
        }
        for length in [1 << 35, (1 << 35) + table.len() as u64, u64::MAX] {
            spoil(&with(&fields, at, U(length)), (1, place, 0));
        }
        // the last mode ends early, be it of one byte or of two; a shorter number moves what stands behind it
        let last = table.len() - if table[table.len() - 2] < 128 { 1 } else { 2 };
        let short = with(&fields, at, U(table.len() as u64 - 1));
        let (_, moved) = encode(&short);
        spoil(&short, (1, moved[at + 1] + last as u64, 0));
        let surplus = start.with_table(index, &[&table[..], &[0x80]].concat());
        spoil(&surplus.fields(), (3, place, 0));
    }
    all.push((file(&[&fields[..], &[Raw(vec![0x80])]].concat()), (3, bytes.len() as u64, 0)));
    all
}

/// Idle, a state that may be, or one that cannot.
pub fn any_standing(random: &mut Random, start: &Start) -> Standing {
    let m = start.tables.len() as i64 - 1;
    let index = random.within(0, m) as u64;
    let length = start.tables[index as usize].len() as i64;
    let left = random.within(0, 7) as u64;
    match random.within(0, 11) {
        0 => [index, u64::MAX - random.within(0, 7) as u64, left],
        1 => [index, 2, random.one(&[u64::MAX, 1 << 32, left])],
        2 => [random.one(&[m as u64 + 1, u64::MAX, (1 << 32) + index]), random.within(0, length) as u64, left],
        3 => [index, 0, 0],
        4..=7 => [index, random.within(0, length + 1) as u64, left],
        _ => [0, 0, 0],
    }
}

/// A reading at, beside or between the edges of some box of the chain or of S, now and then as far off as can be.
pub fn any_reading_about(random: &mut Random, plant: &Plant, chain: &[Field]) -> [i64; 4] {
    let boxes = boxes_of(plant, chain);
    let far = random.chance(20);
    let index = random.within(0, boxes.m() as i64 + 1) as usize;
    let of = if index > boxes.m() { plant.s() } else { *boxes.root(index) };
    let mut x = [i64::MIN; 4];
    for (slot, side) in x.iter_mut().zip(of.sides()) {
        *slot = match random.within(0, 9) {
            0 if far => random.one(&[i64::MIN, i64::MAX, 1 << 32, -1 << 32]),
            0 => side.lo - random.within(0, 1),
            1 => side.hi + random.within(0, 1),
            2 => side.lo,
            3 => side.hi,
            _ => random.within(side.lo, side.hi),
        };
    }
    x
}

/// A plant and a chain of eight growing boxes whose tables are all but the largest. Two rooms, and no tile of more than one count: mode 0 turns a
/// reading by a sixth, six times round it is back, and mode 1 adds one count of room 1 to the turn. R8 is 64 by 64 counts; each box below it lacks one
/// column, R7 the last, R6 the first, and so on; R is 56 by 64.
pub fn turning() -> (Vec<u8>, Vec<u8>) {
    let limit = 1_000_000;
    let (room_1, room_2) = (|index: i64| (1004 - (index + 1) / 2, 1059 + index / 2), (1000, 1063));
    let mut fields = vec![U(1), U(2), U(2), U(1), U(6), U(6)];
    for (lo, hi) in [room_1(0), room_2] {
        fields.extend([lo, hi, -limit, limit].map(S));
    }
    fields.extend([0, 0, 0, 0, 4, -13, 0, 1, -3, 0, 4, -13, 1, 1, -3, 0].map(S));
    let boxes: Vec<_> = (1..=8).map(|index| [room_1(index), room_2]).collect();
    (file(&fields), file(&chain_fields(&boxes)))
}
