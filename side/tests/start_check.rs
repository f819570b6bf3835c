//! The checker of start files side by side: start files whole, spoiled in each
//! number of the beginning and in each byte length, damaged in each byte, cut
//! at each length, with every fault of a table at every index, with tables of
//! several forms in one file and under other forms. Every answer is number,
//! place and step.

use second::plant::read_plant;
use second::MOST_BOXES;
use side::common::{chain_fields, cold_chain, cold_p, file, p_fields, start_fields, Field, Random, T1};
use side::inputs::{damaged, plant_fields, random, rounds, spoiled};
use side::seen::{each_came, Seen};
use side::starts::{any_chain, any_start, boxes_of, made_start, made_starts, other_start, spoiled_chain, spoiled_lengths, turning, Start};
use side::tables::{any_tree, in_no_form, in_other_forms, wrong_lengths, FORMS};

/// Faults of a table of P in S, with the number of each.
const FAULTS: [(&[u8], u64); 28] = [
    (&[], 1),
    (&[1, 0x80], 1),
    (&[1, 1], 1),
    (&[2, 1], 1),
    (&[3, 1], 1),
    (&[1, 1, 2, 0], 1),
    (&[2, 1, 0], 1),
    (&[2, 1, 0, 0x82, 0, 1, 1, 1, 0], 1),
    (&[2, 1, 0, 2, 1, 1], 1),
    (&[1, 1, 0, 1, 0x81, 0, 1, 0], 1),
    (&[0, 1], 2),
    (&[4, 1, 1, 0], 2),
    (&[0x81, 1], 2),
    (&[1, 2], 6),
    (&[2, 2], 6),
    (&[3, 2], 6),
    (&[1, 1, 3], 6),
    (&[1, 1, 0, 0], 6),
    (&[2, 1, 0, 2, 0], 6),
    (&[3, 1, 0, 0], 6),
    (&[2, 1, 0, 1, 1, 1, 1, 0], 6),
    (&[2, 1, 0, 3, 1, 1, 1, 0], 6),
    (&[2, 1, 0, 99, 1, 1, 1, 0], 6),
    (&[1, 1, 2, 0, 2], 6),
    (&[1, 1, 1, 1], 7),
    (&[3, 1, 0, 1, 1, 1, 1], 7),
    (&[1, 1, 0, 1, 1, 2, 0, 0], 8),
    (&[2, 1, 0, 99, 2, 1, 0, 1, 0], 8),
];

/// Each of them in each of nine tables: told as of the table alone, its place moved.
#[test]
fn every_fault_of_a_table_at_every_index() {
    let mut seen = Seen::default();
    let plant = file(&p_fields());
    let chain = chain_fields(&[[(195, 225)]; MOST_BOXES]);
    for start in FORMS.map(|form| made_start(&plant, &chain, form).expect("a start file")) {
        for (index, (table, number)) in (0..=MOST_BOXES).flat_map(|index| FAULTS.map(|fault| (index, fault))) {
            let alone = seen.check(&plant, table);
            assert_eq!(alone.0, number, "{table:?}");
            let other = start.with_table(index, table);
            let (_, first) = other.places(index);
            assert_eq!(seen.start_check(&plant, &other.bytes()), (alone.0, first + alone.1, alone.2), "{table:?} at {index}");
        }
        for index in 0..=MOST_BOXES {
            // bytes that a table leaves are told at its length and not, as of a table alone, at the first of them
            let other = start.with_table(index, &[&T1[..], &[0]].concat());
            assert_eq!(seen.start_check(&plant, &other.bytes()), (3, other.places(index).0, 0));
        }
    }
}

/// The goal of table i is the box below Ri, whatever R is.
#[test]
fn patterns_end_in_the_box_below() {
    let (mut seen, plant) = (Seen::default(), cold_p());
    // 180..225 by 1, 0 ends in 183..218, which is in 180..225 and not in R
    let (to_r, to_below): (&[u8], &[u8]) = (&[1, 1, 0, 2, 1, 1, 2, 0, 1], &[1, 1, 2, 1, 0]);
    let chain = chain_fields(&[[(180, 225)]; 2]);
    let check = |seen: &mut Seen, tables: [&[u8]; 3]| seen.start_check(&plant, &file(&start_fields(&chain, &tables)));
    let own: &[u8] = &[1, 1, 2, 0, 1];
    assert_eq!(check(&mut seen, [own, to_r, to_r]), (0, 0, 0));
    assert_eq!(check(&mut seen, [own, to_r, to_below]), (0, 0, 0));
    assert_eq!(check(&mut seen, [own, to_below, to_r]), (8, 19, 2));
}

/// The largest tables, damaged and cut here and there and about every length.
#[test]
fn the_largest_tables() {
    let mut seen = Seen::default();
    let (plant, chain) = turning();
    for form in FORMS {
        let start = second::start::start_make(&plant, &chain, form).expect("a start file");
        assert_eq!(seen.start_check(&plant, &start), (0, 0, 0));
        let end = start.len();
        for at in (0..end).step_by(9_973).chain(end - 5..end) {
            let mut other = start.clone();
            other[at] ^= 1;
            seen.start_check(&plant, &other);
            seen.start_check(&plant, &start[..at]);
        }
    }
}

/// What is told of a plant and of a start file's beginning.
fn beginnings(random: &mut Random, seen: &mut Seen, fields: &[Field], chain: &[Field], rest: &[u8]) {
    for (plant, wanted) in spoiled(fields) {
        if random.chance(5) {
            assert_eq!(seen.start_check(&plant, &[2]), wanted);
        }
    }
    let plant = read_plant(&file(fields)).expect("a sound plant");
    for (other, wanted) in spoiled_chain(&plant, chain) {
        assert_eq!(seen.start_check(&file(fields), &[&file(&other)[..], rest].concat()), wanted);
    }
}

/// An accepted start file, its lengths spoiled, its tables under other forms, and each byte of it.
fn accepted(random: &mut Random, seen: &mut Seen, plant: &[u8], start: &Start) {
    assert_eq!(seen.start_check(plant, &start.bytes()), (0, 0, 0));
    for (other, wanted) in spoiled_lengths(start) {
        assert_eq!(seen.start_check(plant, &other), wanted);
    }
    for index in 0..start.tables.len() {
        for table in in_other_forms(&start.tables[index]) {
            seen.start_check(plant, &start.with_table(index, &table).bytes());
        }
        for (table, wanted) in in_no_form(&start.tables[index]).into_iter().step_by(random.within(1, 9) as usize) {
            let other = start.with_table(index, &table);
            assert_eq!(seen.start_check(plant, &other.bytes()), (wanted.0, other.places(index).1, 0));
        }
    }
    damaged(random, &start.bytes(), |other| {
        seen.start_check(plant, other);
    });
}

/// An accepted start file with each length of the first split of each of its tables of form 2 made wrong; how many there were.
fn lengths_made_wrong(seen: &mut Seen, bytes: &[u8], start: &Start) -> usize {
    let plant = read_plant(bytes).expect("a sound plant");
    let boxes = boxes_of(&plant, &start.chain);
    let mut wrong = 0;
    for (index, table) in start.tables.iter().enumerate() {
        for (table, (number, place, _)) in wrong_lengths(&plant, boxes.root(index), table) {
            let other = start.with_table(index, &table);
            assert_eq!(seen.start_check(bytes, &other.bytes()), (number, other.places(index).1 + place, 0), "{bytes:?} {table:?} at {index}");
            wrong += 1;
        }
    }
    wrong
}

/// What was accepted: made, others, and those with tables of several forms; and how many lengths of a split were made wrong.
#[derive(Default, Debug)]
struct Came {
    made: usize,
    others: usize,
    mixed: usize,
    wrong: usize,
}

/// A plant's start files over a chain, whole and spoiled.
fn start_files(random: &mut Random, seen: &mut Seen, came: &mut Came) {
    let fields = plant_fields(random);
    let bytes = file(&fields);
    let plant = read_plant(&bytes).expect("a sound plant");
    let chain = any_chain(random, &plant);
    let any = any_start(random, &plant, &chain);
    beginnings(random, seen, &fields, &chain, &any.bytes()[file(&chain).len()..]);
    seen.start_check(&bytes, &any.bytes());
    let mut all = made_starts(random, &bytes, &chain);
    came.made += usize::from(!all.is_empty());
    let other = other_start(random, &plant, &chain).filter(|other| !all.contains(other));
    came.others += usize::from(other.is_some());
    all.extend(other);
    for start in all {
        came.mixed += usize::from(start.forms() > 1);
        came.wrong += lengths_made_wrong(seen, &bytes, &start);
        accepted(random, seen, &bytes, &start);
        for index in 0..start.tables.len() {
            let spoilt = start.with_table(index, &any_tree(random, bytes[1]));
            seen.start_check(&bytes, &spoilt.bytes());
        }
    }
}

#[test]
fn many_start_files() {
    let (mut random, mut seen, mut came) = (random(32), Seen::default(), Came::default());
    for form in FORMS {
        accepted(&mut random, &mut seen, &cold_p(), &made_start(&cold_p(), &cold_chain(), form).expect("a start file"));
    }
    for _ in 0..rounds(500) {
        start_files(&mut random, &mut seen, &mut came);
    }
    println!("{came:?}");
    assert!(came.made > 60 && came.others > 30 && came.mixed > 50 && came.wrong > 1_000, "{came:?}");
    each_came("start check", &seen.start_check, &[0, 1, 2, 3, 4, 5, 6, 7, 8, 15], 20);
    assert!(seen.start_check.iter().sum::<usize>() >= 100_000);
}
