//! Plants for which every table is right, and seeded tables for them: tables of all forms and of every shape and size, which no maker would make.

use hoachulim::files::numbers::Writer;
use hoachulim::files::plants::{Bounds, Row};
use hoachulim::files::{Form, House, Plant, Side};

/// A seeded generator: three shifts.
pub struct Random(pub u64);

impl Random {
    pub fn below(&mut self, end: u64) -> u64 {
        self.0 ^= self.0 << 13;
        self.0 ^= self.0 >> 7;
        self.0 ^= self.0 << 17;
        self.0 % end
    }
}

/// A plant whose every mode leads to the middle of R whatever the reading, so that every table of sound shape is accepted for it.
pub fn steady(rooms: usize, modes: usize, longest: u64, depth: u64, r: Side, s: Side) -> House {
    steady_in(vec![Bounds { r, s }; rooms], modes, longest, depth)
}

/// The same with R and S of each room.
pub fn steady_in(rooms: Vec<Bounds>, modes: usize, longest: u64, depth: u64) -> House {
    let row = |room: &Bounds| Row { w: Side { lo: 0, hi: 0 }, a: vec![0; rooms.len()], b: (room.r.lo + room.r.hi).div_euclid(2) };
    let mode = rooms.iter().map(row).collect();
    House::of(Plant { form: 1, q: 1, longest, depth, rooms, modes: vec![mode; modes] }.write(), None)
}

/// R of rooms of which the last is the longest, each other one 2^`narrower` times as narrow as the next.
pub fn lengthening(rooms: u32, narrower: u32) -> Vec<Bounds> {
    let (lo, s) = (-1_000_000, Side { lo: -1_000_000, hi: 1_000_000 });
    (0..rooms).rev().map(|behind| Bounds { r: Side { lo, hi: lo + (2_000_000 >> (narrower * behind)).max(1) - 1 }, s }).collect()
}

/// A table for such a plant: a box with depth left is split in `split` of four cases, and patterns are drawn.
pub fn table(random: &mut Random, house: &House, form: Form, split: u64) -> Vec<u8> {
    let head = [form.number() as u8, house.plant.rooms.len() as u8];
    [&head[..], &node(random, house, form, &house.plant.r(), split, 0)].concat()
}

fn node(random: &mut Random, house: &House, form: Form, sides: &[Side], split: u64, depth: u64) -> Vec<u8> {
    let children = form.split(sides);
    let mut bytes = Writer(Vec::new());
    if depth < form.depth(&house.plant) && !children.is_empty() && random.below(4) < split {
        let trees: Vec<_> = children.iter().map(|child| node(random, house, form, child, split, depth + 1)).collect();
        let told = if form.tells_lengths() { trees.len() - 1 } else { 0 };
        bytes.number(0);
        trees[..told].iter().for_each(|tree| bytes.number(tree.len() as u64));
        return [bytes.0, trees.concat()].concat();
    }
    let length = 1 + random.below(house.plant.longest);
    bytes.number(length);
    (0..length).for_each(|_| bytes.number(random.below(house.plant.modes.len() as u64)));
    bytes.0
}

/// Plants of one to four rooms with tables of all forms and every depth.
pub fn many() -> Vec<(House, Vec<u8>)> {
    [split_at_once(), halved()].concat()
}

/// Of form 1 and of form 2 by turns: narrow and wide R, S far and near.
fn split_at_once() -> Vec<(House, Vec<u8>)> {
    let mut random = Random(20_261_116);
    let boxes = [((2_000, 2_200), (1_900, 2_300)), ((-7, 8), (-7, 8)), ((0, 3), (-1_000_000, 1_000_000)), ((-1_000_000, 1_000_000), (-1_000_000, 1_000_000)), ((5, 5), (5, 6))];
    let mut many = Vec::new();
    for (r, s) in boxes.map(|(r, s)| (Side { lo: r.0, hi: r.1 }, Side { lo: s.0, hi: s.1 })) {
        for rooms in 1..=4 {
            for depth in 0..=(12 / rooms as u64).min(if rooms == 1 { 6 } else { 3 }) {
                for (modes, form) in [(16, Form::One), (256, Form::Two), (256, Form::One)] {
                    let house = steady(rooms, 1 + random.below(modes) as usize, 1 + random.below(6), depth, r, s);
                    let bytes = table(&mut random, &house, form, 3);
                    many.push((house, bytes));
                }
            }
        }
    }
    many
}

/// Of form 3: rooms as long as each other, all but one or all, and ones of which one is cut far more often than the others, or alone.
fn halved() -> Vec<(House, Vec<u8>)> {
    let mut random = Random(20_261_117);
    let mut many = Vec::new();
    for rooms in 1..=4 {
        let mut all_but_one = lengthening(rooms, 0);
        all_but_one[0].r.hi = all_but_one[0].r.lo;
        for depth in 0..=(12 / u64::from(rooms)).min(6) {
            for bounds in [0, 1, 4, 20].map(|narrower| lengthening(rooms, narrower)).into_iter().chain([all_but_one.clone()]) {
                let house = steady_in(bounds, 1 + random.below(256) as usize, 1 + random.below(6), depth);
                let bytes = table(&mut random, &house, Form::Three, 3);
                many.push((house, bytes));
            }
        }
    }
    many
}

/// The largest tables there are: 4,096 tiles of six modes, in two, three and four rooms, of sixteen modes and of 256; of forms 1 and 2, and of form 3 with
/// rooms as long as each other, longer ones, and one that alone is cut.
pub fn largest() -> Vec<(House, Vec<u8>)> {
    let mut random = Random(4_096);
    let mut largest = Vec::new();
    for (form, narrower) in [(Form::One, 0), (Form::Two, 0), (Form::Three, 0), (Form::Three, 4), (Form::Three, 20)] {
        for (rooms, modes) in [(2, 16), (3, 16), (4, 16), (2, 256), (3, 256), (4, 256)] {
            let house = steady_in(lengthening(rooms, narrower), modes, 6, 12 / u64::from(rooms));
            let bytes = table(&mut random, &house, form, 4);
            largest.push((house, bytes));
        }
    }
    largest
}
