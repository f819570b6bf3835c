//! The controller's call with a start file side by side: readings about every
//! box, states that can be and cannot, start files whole, spoiled and damaged,
//! of tables of all forms.

use second::plant::read_plant;
use side::common::{chain_fields, cold_chain, cold_p, encode, file, p_fields, start_fields, two_rooms, with, Field, Random, Raw, T1, U};
use side::inputs::{any_reading, any_state, damaged, plant_fields, random, rounds, spoiled};
use side::seen::{each_came, Seen};
use side::starts::{
    any_chain, any_reading_about, any_standing, any_start, boxes_of, made_start, made_starts, other_start, spoiled_chain, spoiled_lengths, turning, Start,
};
use side::tables::{any_form, any_tree, in_no_form, in_other_forms, made_table, wrong_lengths, FORMS};
use side::{Standing, NO_MODE};

const IDLE: Standing = [0, 0, 0];

/// A refused call as the face shows it: no mode, the refusal, idle.
fn refused(number: u64, place: u64) -> (u64, [u64; 6]) {
    (NO_MODE, [number, place, 0, 0, 0, 0])
}

#[test]
fn a_cold_room_comes_home() {
    let (mut seen, plant) = (Seen::default(), cold_p());
    for form in FORMS {
        // tables 1 and 2 split, so that in form 2 a length stands before their tiles
        let second = if form == 2 { 6 } else { 5 };
        let samples = [(160, IDLE, 1), (174, [2, second, 1], 1), (187, IDLE, 1), (198, [1, second, 1], 1), (208, IDLE, 0), (197, [0, 4, 1], 1)];
        let start = made_start(&plant, &cold_chain(), form).expect("a start file").bytes();
        for (at, (x, standing, mode)) in samples.into_iter().enumerate() {
            let next = samples.get(at + 1).map_or(IDLE, |sample| sample.1);
            assert_eq!(seen.start_control(&plant, &start, standing, [x, 0, 0, 0]), (mode, [0, 0, 0, next[0], next[1], next[2]]));
        }
        assert_eq!(seen.start_control(&plant, &start, IDLE, [159, 0, 0, 0]), refused(11, 0));
    }
}

/// A start file's fields, the state and the reading of a call, and the answer.
type Case = (Vec<Field>, Standing, [i64; 4], (u64, [u64; 6]));

/// Each fault of a call with P beside all that are told after it.
fn every_fault() -> [Case; 36] {
    let start = |tables: [&[u8]; 2]| start_fields(&chain_fields(&[[(190, 230)]]), &tables);
    let whole = start([&T1, &T1]);
    let (_, places) = encode(&whole);
    assert_eq!(places[4..8], [6, 7, 14, 15]);
    let (nowhere, outside, in_r1, in_r) = ([9, 9, 9], [0; 4], [190, 0, 0, 0], [225, 0, 0, 0]);
    // table 0 of form 2 with this length, its first byte at 7
    let by_length = |length: u8| start([&[2, 1, 0, length, 1, 1, 1, 0], &T1]);
    let apart = start_fields(&chain_fields(&[[(196, 230)]]), &[&T1, &T1]);
    [
        (apart, nowhere, outside, refused(15, 1)),
        (with(&whole, 4, U(99)), nowhere, outside, refused(12, 0)),
        (with(&whole, 4, U(99)), [2, 2, 1], outside, refused(12, 0)),
        (with(&whole, 4, U(99)), [1, 0, 0], outside, refused(12, 0)),
        (with(&whole, 4, U(99)), [(1 << 32) + 1, 3, 1], outside, refused(12, 0)),
        (with(&whole, 4, U(99)), IDLE, outside, refused(11, 0)),
        (with(&with(&whole, 4, U(99)), 6, U(99)), IDLE, in_r1, refused(3, 6)),
        (with(&whole, 4, Raw(vec![0x87, 0])), IDLE, in_r1, refused(1, 6)),
        (with(&whole, 6, U(99)), IDLE, in_r1, refused(3, 14)),
        (with(&whole, 6, U((1 << 32) + 7)), IDLE, in_r1, refused(3, 14)),
        (with(&whole, 6, U((1 << 35) + 7)), IDLE, in_r1, refused(1, 14)),
        (with(&whole, 6, U(99)), [1, 5, 0], outside, refused(3, 14)),
        (start([&T1, &[5, 2, 7]]), [1, 5, 0], outside, refused(2, 15)),
        (start([&T1, &[4, 2, 7]]), IDLE, in_r1, refused(2, 15)),
        (start([&T1, &[0x83, 0]]), IDLE, in_r1, refused(1, 15)),
        (start([&T1, &[1, 2, 7]]), [1, 5, 0], outside, refused(6, 16)),
        (start([&T1, &[2, 2, 7]]), [1, 5, 0], outside, refused(6, 16)),
        (start([&T1, &[3, 2, 7]]), [1, 5, 0], outside, refused(6, 16)),
        (start([&T1, &[1]]), [1, 5, 0], outside, refused(1, 16)),
        (start([&T1, &[3, 1, 7]]), [1, 5, 0], outside, refused(12, 0)),
        (start([&T1, &[1, 1, 7]]), [1, 5, 0], outside, refused(12, 0)),
        (start([&T1, &[1, 1, 7]]), [1, 2, 2], outside, refused(12, 0)),
        (start([&T1, &[1, 1, 7]]), [1, u64::MAX, 1], outside, refused(12, 0)),
        (start([&T1, &[1, 1, 7]]), [1, 2, u64::MAX], outside, refused(12, 0)),
        (start([&T1, &[1, 1, 1, 0]]), [1, 3, 1], outside, refused(11, 0)),
        (start([&T1, &[1, 1, 7]]), IDLE, in_r1, refused(6, 17)),
        (start([&T1, &[1, 1, 0, 1]]), IDLE, in_r1, refused(1, 19)),
        // a length past the table's own end, though not the file's; just at that end; to a running call it is nothing
        (by_length(5), IDLE, in_r, refused(6, 10)),
        (by_length(4), IDLE, in_r, refused(1, 15)),
        (by_length(2), IDLE, in_r, (0, [0; 6])),
        (by_length(5), IDLE, in_r1, (1, [0; 6])),
        (by_length(99), [0, 5, 1], in_r, (1, [0; 6])),
        (start([&T1, &[2, 1, 0, 0x82, 0, 1, 1, 1, 0]]), IDLE, in_r1, refused(1, 18)),
        // nothing of table 0 but its length is read, nothing behind the tile, no surplus, no leftover
        (start([&[9; 7], &[1, 1, 0, 1, 1, 9, 9]]), IDLE, in_r1, (1, [0; 6])),
        (start([&[9; 7], &[3, 1, 0, 1, 1, 9, 9]]), IDLE, in_r1, (1, [0; 6])),
        ([&start([&T1, &[1, 1, 1, 0, 0]])[..], &[Raw(vec![0x81])]].concat(), IDLE, in_r1, (0, [0; 6])),
    ]
}

#[test]
fn every_kind_of_refusal_in_its_order() {
    let (mut seen, plant) = (Seen::default(), file(&p_fields()));
    for (fields, standing, x, told) in every_fault() {
        assert_eq!(seen.start_control(&plant, &file(&fields), standing, x), told, "{fields:?} {standing:?} {x:?}");
    }
}

/// 11 at each dimension: idle outside the last box, running outside S.
#[test]
fn every_dimension_of_a_reading() {
    let (mut seen, plant) = (Seen::default(), file(&two_rooms()));
    let start = file(&start_fields(&chain_fields(&[[(-1, 10), (9, 20)]]), &[&[1, 2, 1, 0], &[1, 2, 2, 0, 1]]));
    for (standing, sides) in [(IDLE, [(-1, 10), (9, 20)]), ([1, 4, 1], [(-5, 14), (5, 24)])] {
        for i in 0..2 {
            for (end, beyond) in [(sides[i].0, -1), (sides[i].1, 1)] {
                let mut x = [sides[0].0, sides[1].0, i64::MIN, i64::MAX];
                x[i] = end;
                assert_ne!(seen.start_control(&plant, &start, standing, x).0, NO_MODE, "{x:?}");
                x[i] += beyond;
                assert_eq!(seen.start_control(&plant, &start, standing, x), refused(11, i as u64), "{x:?}");
            }
        }
    }
}

/// With m 0 the library's own answers are those of its controller with the table alone.
#[test]
fn without_boxes_the_answers_are_the_tables() {
    let (mut random, mut seen) = (random(33), Seen::default());
    for _ in 0..rounds(1_000) {
        let bytes = file(&plant_fields(&mut random));
        let plant = read_plant(&bytes).expect("a sound plant");
        let Some(table) = made_table(&bytes, any_form(&mut random)) else { continue };
        let start = Start { chain: vec![U(1), U(0)], tables: vec![table.clone()] }.bytes();
        for _ in 0..20 {
            let ((place, left), x) = (any_state(&mut random, &table), any_reading(&mut random, &plant));
            let (mode, [number, at, step, next_place, next_left]) = seen.control(&bytes, &table, place, left, x);
            let shown = (mode, [number, at, step, 0, next_place, next_left]);
            assert_eq!(seen.start_control(&bytes, &start, [0, place, left], x), shown);
        }
    }
    each_came("start control, m 0", &seen.start_control, &[0, 11, 12], 100);
}

/// Every corner of the largest tables, through their patterns.
#[test]
fn the_largest_tables() {
    let (plant, chain) = turning();
    for form in FORMS {
        let start = second::start::start_make(&plant, &chain, form).expect("a start file");
        let met = boxes_met(&plant, &start);
        assert!(met[0] > 0 && met[8] > 0, "{met:?}");
    }
}

/// How many calls stood in each box's table.
fn boxes_met(plant: &[u8], start: &[u8]) -> [usize; 9] {
    let (mut seen, mut met) = (Seen::default(), [0; 9]);
    for (a, b) in [(1000, 1000), (1063, 1063), (1000, 1063), (1062, 1000), (1001, 1001), (1031, 1032), (1004, 1000), (999, 1000), (1063, 1064)] {
        let (mut standing, mut x) = (IDLE, [a, b, 0, 0]);
        for _ in 0..20 {
            let (mode, out) = seen.start_control(plant, start, standing, x);
            if mode == NO_MODE {
                break;
            }
            standing = [out[3], out[4], out[5]];
            met[standing[0] as usize] += 1;
            // the plant's own equation, q being 1 and the band 0
            x = [4 * x[0] - 13 * x[1] + mode as i64, x[0] - 3 * x[1], 0, 0];
        }
    }
    met
}

/// Calls of every kind on one file, the second of two from the state that the first left; how many such states ran on in a table above R0's.
fn calls(random: &mut Random, seen: &mut Seen, bytes: &[u8], start: &Start, file: &[u8], times: usize) -> usize {
    let plant = read_plant(bytes).expect("a sound plant");
    let mut ran_on = 0;
    for _ in 0..times {
        let standing = any_standing(random, start);
        let x = any_reading_about(random, &plant, &start.chain);
        let (_, out) = seen.start_control(bytes, file, standing, x);
        let x = any_reading_about(random, &plant, &start.chain);
        let (mode, _) = seen.start_control(bytes, file, [out[3], out[4], out[5]], x);
        ran_on += usize::from(out[3] > 0 && mode != NO_MODE);
    }
    ran_on
}

/// Calls on a start file whole, with its chain and its lengths spoiled, its tables others and under other forms, and damaged; how many ran on.
fn calls_on(random: &mut Random, seen: &mut Seen, bytes: &[u8], start: &Start) -> usize {
    let plant = read_plant(bytes).expect("a sound plant");
    let (whole, boxes) = (start.bytes(), boxes_of(&plant, &start.chain));
    let rest = &whole[file(&start.chain).len()..];
    for (other, wanted) in spoiled_chain(&plant, &start.chain).into_iter().step_by(5) {
        let other = [&file(&other)[..], rest].concat();
        assert_eq!(seen.start_control(bytes, &other, [9, 9, 9], [0; 4]), refused(wanted.0, wanted.1));
    }
    for (other, _) in spoiled_lengths(start) {
        calls(random, seen, bytes, start, &other, 1);
    }
    let sound = second::start::start_check(bytes, &whole).is_ok();
    for (index, table) in start.tables.iter().enumerate() {
        let mut others = [vec![any_tree(random, bytes[1])], in_other_forms(table)].concat();
        if sound {
            others.extend(wrong_lengths(&plant, boxes.root(index), table).into_iter().map(|(other, _)| other));
        }
        others.extend(in_no_form(table).into_iter().step_by(7).map(|(other, _)| other));
        for spoilt in others.iter().map(|other| start.with_table(index, other)) {
            calls(random, seen, bytes, &spoilt, &spoilt.bytes(), 3);
        }
    }
    let mut others = Vec::new();
    damaged(random, &whole, |other| others.push(other.to_vec()));
    for other in others.into_iter().step_by(5) {
        calls(random, seen, bytes, start, &other, 1);
    }
    calls(random, seen, bytes, start, &whole, 60)
}

#[test]
fn many_calls() {
    let (mut random, mut seen) = (random(34), Seen::default());
    let (mut ran_on, mut mixed) = (0, 0);
    for _ in 0..rounds(300) {
        let fields = plant_fields(&mut random);
        let bytes = file(&fields);
        let plant = read_plant(&bytes).expect("a sound plant");
        let chain = any_chain(&mut random, &plant);
        for (plant, wanted) in spoiled(&fields) {
            if random.chance(20) {
                let shown = (NO_MODE, [wanted.0, wanted.1, wanted.2, 0, 0, 0]);
                assert_eq!(seen.start_control(&plant, &[2], [9, 9, 9], [0; 4]), shown);
            }
        }
        let mut all = vec![any_start(&mut random, &plant, &chain)];
        all.extend(made_starts(&mut random, &bytes, &chain));
        all.extend(other_start(&mut random, &plant, &chain));
        for start in &all {
            let on = calls_on(&mut random, &mut seen, &bytes, start);
            ran_on += on;
            mixed += if start.forms() > 1 { on } else { 0 };
        }
    }
    println!("{ran_on} running states above R0's table, {mixed} in files with tables of several forms");
    assert!(ran_on > 200 && mixed > 50, "{ran_on} {mixed}");
    each_came("start control", &seen.start_control, &[0, 1, 2, 3, 4, 5, 6, 11, 12, 15], 20);
    assert!(seen.start_control.iter().sum::<usize>() >= 100_000);
}
