//! Over a million comparisons over every exported function of document 01:
//! seeded files, each number of them spoiled, cut at every length, damaged at
//! every byte, extreme; and every kind of place that a refusal can name. Each
//! number that a function can tell is seen, and no other.
//!
//!     HOACHULIM_SEED=7 HOACHULIM_ROUNDS=100 cargo test --release --test many -- --nocapture

use second::plant::read_plant;
use side::common::{file, Field, Random, S, U};
use side::inputs::{any_reading, any_state, damaged, other_forms, plant_fields, random, rounds, sheet_fields, spoiled};
use side::seen::{each_came, Seen};
use side::tables::{any_form, any_told_form, any_tree, in_no_form, in_other_forms, made_table, other_table, wrong_lengths, FORMS};
use side::NO_MODE;

/// The numbers that each function can tell.
const CAN_BE_TOLD: [&[usize]; 5] = [
    &[0, 1, 2, 3, 4, 5],
    &[0, 1, 2, 3, 4, 5, 10, 13, 14],
    &[0, 1, 2, 3, 4, 5, 9, 10],
    &[0, 1, 2, 3, 4, 5, 6, 7, 8],
    &[0, 1, 2, 3, 4, 5, 6, 11, 12],
];

#[test]
fn many_comparisons() {
    let (mut random, mut seen) = (random(7), Seen::default());
    for form in FORMS {
        every_kind_of_place_in_tables(&mut seen, form as u8);
        every_kind_of_state_and_reading(&mut seen, form as u8);
    }
    for _ in 0..rounds(400) {
        let fields = plant_fields(&mut random);
        plants(&mut random, &mut seen, &fields);
        tables(&mut random, &mut seen, &file(&fields));
        let fields = sheet_fields(&mut random);
        sheets(&mut random, &mut seen, &fields);
        for _ in 0..20 {
            let length = random.one(&[0, 3, 20, second::LARGEST_TABLE]);
            let form = any_told_form(&mut random);
            seen.make(&file(&plant_fields(&mut random)), form, length);
            seen.sheet(&file(&sheet_fields(&mut random)), second::LARGEST_PLANT);
        }
    }
    println!("{} comparisons", seen.total());
    for ((name, numbers), can_be) in seen.functions().into_iter().zip(CAN_BE_TOLD) {
        each_came(name, numbers, can_be, 20);
    }
    assert!(seen.total() >= 1_000_000);
}

/// What is told of a plant is told by every function that takes one.
fn plants(random: &mut Random, seen: &mut Seen, fields: &[Field]) {
    for (bytes, wanted) in spoiled(fields) {
        let form = any_form(random);
        assert_eq!(seen.plant(&bytes), wanted);
        assert_eq!(seen.make(&bytes, form, 9), wanted);
        assert_eq!(seen.check(&bytes, &[form as u8, 1, 1, 0]), wanted);
        assert_eq!(seen.control(&bytes, &[form as u8, 1, 1, 0], 0, 0, [0; 4]), (NO_MODE, [wanted.0, wanted.1, wanted.2, 0, 0]));
    }
    for bytes in other_forms(fields) {
        seen.plant(&bytes);
        seen.control(&bytes, &[1, 1, 1, 0], 0, 0, [0; 4]);
    }
    let sound = file(fields);
    assert_eq!(seen.plant(&sound), (0, 0, 0));
    damaged(random, &sound, |other| {
        seen.plant(other);
    });
}

/// The made table, another one and a tree of any bytes, in the maker, the checker and the controller.
fn tables(random: &mut Random, seen: &mut Seen, bytes: &[u8]) {
    let (plant, form) = (read_plant(bytes).expect("a sound plant"), any_form(random));
    let (number, made, _) = seen.make(bytes, form, second::LARGEST_TABLE);
    let mut all = vec![any_tree(random, bytes[1])];
    if number == 0 {
        for length in [0, 1, made as usize - 1, made as usize, made as usize + 1] {
            seen.make(bytes, form, length);
        }
        all.extend(made_table(bytes, form));
    }
    all.extend(other_table(random, &plant, form));
    let mut others = Vec::new();
    for table in &all[1..] {
        assert_eq!(seen.check(bytes, table), (0, 0, 0), "{bytes:?} {table:?}");
        for (other, wanted) in wrong_lengths(&plant, &plant.r(), table) {
            assert_eq!(seen.check(bytes, &other), wanted, "{bytes:?} {other:?}");
            others.push(other);
        }
    }
    for table in all {
        others.extend([vec![table.clone(); 20], in_other_forms(&table), in_other_forms(&table)].concat());
        others.extend(in_no_form(&table).into_iter().map(|(other, _)| other));
        damaged(random, &table, |other| others.push(other.to_vec()));
        for other in others.drain(..) {
            seen.check(bytes, &other);
            let (place, left) = any_state(random, &other);
            let x = any_reading(random, &plant);
            let (_, out) = seen.control(bytes, &other, place, left, x);
            seen.control(bytes, &other, out[3], out[4], any_reading(random, &plant));
        }
    }
}

fn sheets(random: &mut Random, seen: &mut Seen, fields: &[Field]) {
    let bytes = file(fields);
    let (number, made, _) = seen.sheet(&bytes, second::LARGEST_PLANT);
    if number == 0 {
        for length in [0, made as usize - 1, made as usize, made as usize + 1] {
            seen.sheet(&bytes, length);
        }
    }
    for (bytes, wanted) in spoiled(fields) {
        assert_eq!(seen.sheet(&bytes, 30), wanted);
    }
    damaged(random, &bytes, |other| {
        seen.sheet(other, second::LARGEST_PLANT);
    });
}

/// n rooms, R 0..1 and S -10..10, q 1, no band, K 6; the modes add 0, 5 and 100.
fn adding(n: usize, depth: u64) -> Vec<u8> {
    let mut fields = vec![U(1), U(n as u64), U(3), U(1), U(6), U(depth)];
    fields.extend([0, 1, -10, 10].map(S).into_iter().cycle().take(4 * n));
    fields.extend(vec![S(0); 2 * n]);
    for b in [0, 5, 100] {
        for i in 0..n {
            fields.extend((0..n).map(|j| S(i64::from(i == j))).chain([S(b)]));
        }
    }
    file(&fields)
}

/// Tables of form 1 for one room, each with its fault and the place of it, 1, 2 and 6.
const FAULTS: [(&[u8], (u64, u64)); 21] = [
    (&[], (1, 0)),
    (&[0x81, 0], (1, 0)),
    (&[0x83, 0], (1, 0)),
    (&[1], (1, 1)),
    (&[1, 0x80], (1, 1)),
    (&[1, 1], (1, 2)),
    (&[1, 1, 0x81, 0], (1, 2)),
    (&[1, 1, 2, 0], (1, 4)),
    (&[1, 1, 1, 0x80, 0x80, 0x80, 0x80, 0x80, 1], (1, 3)),
    (&[0], (2, 0)),
    (&[4, 1, 1, 0], (2, 0)),
    (&[0x81, 1], (2, 0)),
    (&[0x83, 1, 1, 1, 0], (2, 0)),
    (&[1, 0], (6, 1)),
    (&[1, 2], (6, 1)),
    (&[1, 0x81, 1], (6, 1)),
    (&[1, 1, 7], (6, 2)),
    (&[1, 1, 2, 0, 3], (6, 4)),
    (&[1, 1, 2, 0x80, 1, 0], (6, 3)),
    (&[1, 1, 0, 0], (6, 3)),
    (&[1, 1, 0, 1, 0, 0], (6, 5)),
];

/// A table of form 1 and the place of its fault as one of another form: in one room all split alike, form 2 with a length behind the 0, here one that
/// leads to the fault; a form that is not known stays as it is.
fn of_form(form: u8, table: &[u8], place: u64) -> (Vec<u8>, u64) {
    let mut other: Vec<u8> = table.iter().enumerate().map(|(at, byte)| if (at, *byte) == (0, 1) { form } else { *byte }).collect();
    if other.starts_with(&[2, 1, 0]) {
        other.insert(3, place as u8 - 3);
        return (other, place + 1);
    }
    (other, place)
}

/// 1, 2, 6, 7 and 8 of a table: each cause, place and step.
fn every_kind_of_place_in_tables(seen: &mut Seen, form: u8) {
    every_step(seen, form);
    for (table, (number, place)) in FAULTS {
        let (table, place) = of_form(form, table, place);
        // the same of a split with no depth left and of one with no side left; and by the controller, idle
        for plant in [adding(1, 1), adding(1, 2)] {
            assert_eq!(seen.check(&plant, &table), (number, place, 0), "{table:?}");
            assert_eq!(seen.control(&plant, &table, 0, 0, [1; 4]), (NO_MODE, [number, place, 0, 0, 0]), "{table:?}");
        }
    }
    // what is behind the tile is told by the checker alone; a tile that is passed is read, but where lengths lead past it
    let plant = adding(1, 1);
    assert_eq!(seen.check(&plant, &[form, 1, 1, 0, 9]), (6, 4, 0));
    assert_eq!(seen.control(&plant, &[form, 1, 1, 0, 9], 0, 0, [0; 4]), (0, [0; 5]));
    if form == 2 {
        assert_eq!(seen.control(&plant, &[2, 1, 0, 2, 1, 3, 1, 0], 0, 0, [1; 4]), (0, [0; 5]));
    } else {
        assert_eq!(seen.control(&plant, &[form, 1, 0, 1, 3, 1, 0], 0, 0, [1; 4]), (NO_MODE, [6, 4, 0, 0, 0]));
    }
}

/// 7 at every step of patterns of every length, and 8, in the first tile and behind another.
fn every_step(seen: &mut Seen, form: u8) {
    let plant = adding(1, 1);
    let upper: &[u8] = if form == 2 { &[2, 1, 0, 2, 1, 0] } else { &[form, 1, 0, 1, 0] };
    let behind = upper.len() as u64;
    for length in 1..=6 {
        for step in 1..=length {
            let mut pattern = vec![0; length];
            pattern[step - 1] = 2;
            let tile = [&[length as u8], &pattern[..]].concat();
            assert_eq!(seen.check(&plant, &[&upper[..2], &tile].concat()), (7, 2, step as u64));
            assert_eq!(seen.check(&plant, &[upper, &tile].concat()), (7, behind, step as u64));
            pattern[step - 1] = 1;
            let tile = [&[length as u8], &pattern[..]].concat();
            assert_eq!(seen.check(&plant, &[&upper[..2], &tile].concat()), (8, 2, length as u64));
            assert_eq!(seen.check(&plant, &[upper, &tile].concat()), (8, behind, length as u64));
        }
    }
}

/// 11 at each dimension, idle and running; 12 of each cause.
fn every_kind_of_state_and_reading(seen: &mut Seen, form: u8) {
    for n in 1..=4 {
        let (plant, table) = (adding(n, 0), [form, n as u8, 3, 0, 1, 2]);
        for (place, left, last) in [(0, 0, [0, 1]), (4, 2, [-10, 10])] {
            for i in 0..4 {
                for (end, beyond) in [(last[0], -1), (last[1], 1)] {
                    let mut x = [0; 4];
                    x[i] = end;
                    let (mode, _) = seen.control(&plant, &table, place, left, x);
                    assert_ne!(mode, NO_MODE);
                    x[i..].fill(end + beyond);
                    let (mode, out) = seen.control(&plant, &table, place, left, x);
                    assert!(if i < n { (mode, out) == (NO_MODE, [11, i as u64, 0, 0, 0]) } else { mode != NO_MODE });
                }
            }
        }
        assert_eq!(seen.control(&plant, &table, 5, 1, [0; 4]), (2, [0; 5]));
        let cannot_be = [(2, 7), (1, 0), (2, 0), (6, 0), (0, 1), (1, 1), (5, 2), (6, 1), (2, 5), (u64::MAX, 1), (u64::MAX - 1, 6), (2, u64::MAX)];
        for (place, left) in cannot_be {
            assert_eq!(seen.control(&plant, &table, place, left, [0; 4]), (NO_MODE, [12, 0, 0, 0, 0]), "{place} {left}");
        }
        // the mode there is no mode: the tile's own 3, and a byte with the high bit set
        assert_eq!(seen.control(&plant, &table, 2, 1, [0; 4]), (NO_MODE, [12, 0, 0, 0, 0]));
        assert_eq!(seen.control(&plant, &[form, n as u8, 1, 0x80], 3, 1, [0; 4]), (NO_MODE, [12, 0, 0, 0, 0]));
    }
}
