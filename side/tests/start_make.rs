//! The maker of start files side by side: answer and every byte of the buffer,
//! on chains in order and spoiled, with and without a table for every box, of
//! all forms and of numbers that are none, in buffers long enough, just long
//! enough and too short.

use second::plant::read_plant;
use second::{LARGEST_START, MOST_BOXES};
use side::common::{chain_fields, cold_chain, cold_p, file, p_fields, with, Field, Random, S, U};
use side::inputs::{damaged, plant_fields, random, rounds, spoiled};
use side::seen::{each_came, Seen};
use side::starts::{any_chain, spoiled_chain, turning};
use side::tables::{any_form, any_told_form, FORMS, NO_FORMS};
use side::turn_as_mode;

/// The whole file, and every buffer at the ends of its parts and beside them.
fn every_buffer(seen: &mut Seen, plant: &[u8], chain: &[u8], form: u64) {
    let (number, made, _) = seen.start_make(plant, chain, form, LARGEST_START + 1);
    if number != 0 {
        seen.start_make(plant, chain, form, 0);
        return;
    }
    let (made, chain_length) = (made as usize, chain.len());
    for length in [0, 1, chain_length - 1, chain_length, chain_length + 1, made / 2, made - 1, made, made + 1] {
        seen.start_make(plant, chain, form, length);
    }
}

#[test]
fn the_worked_examples_in_every_buffer() {
    let mut seen = Seen::default();
    let (p, chain) = (file(&p_fields()), file(&chain_fields(&[[(190, 230)]])));
    for form in FORMS {
        let whole = if form == 2 { 24 } else { 22 };
        assert_eq!(seen.start_make(&p, &chain, form, whole), (0, whole as u64, 0));
        for (plant, chain) in [(p.clone(), chain.clone()), (cold_p(), file(&cold_chain())), (cold_p(), vec![1, 0])] {
            let (_, made, _) = seen.start_make(&plant, &chain, form, LARGEST_START);
            for length in 0..made as usize + 3 {
                let wanted = if length < made as usize { (10, 0, 0) } else { (0, made, 0) };
                assert_eq!(seen.start_make(&plant, &chain, form, length), wanted);
            }
            for length in 0..chain.len() {
                seen.start_make(&plant, &chain[..length], form, 40);
            }
        }
    }
}

/// 9 at each index: up to it the boxes are R, from it on no pattern leads back to R.
#[test]
fn every_index_without_a_table() {
    let mut seen = Seen::default();
    let wide = with(&with(&p_fields(), 8, S(100)), 9, S(300));
    let (without, with_one) = (file(&with(&p_fields(), 5, U(0))), file(&with(&wide, 5, U(0))));
    for form in FORMS {
        assert_eq!(seen.start_make(&without, &file(&chain_fields(&[[(195, 225)]])), form, 40), (9, 0, 0));
        for index in 1..=MOST_BOXES {
            let boxes: Vec<_> = (1..=MOST_BOXES).map(|i| [(if i < index { 195 } else { 120 }, 225)]).collect();
            for length in [0, 20, 200] {
                assert_eq!(seen.start_make(&with_one, &file(&chain_fields(&boxes)), form, length), (9, index as u64, 0));
            }
        }
    }
}

/// 2 at 0 after all that is told of plant and chain, 15 too, and before 9 and 10.
#[test]
fn forms_that_are_not_known() {
    let mut seen = Seen::default();
    let (p, without, narrow) = (file(&p_fields()), file(&with(&p_fields(), 5, U(0))), file(&with(&p_fields(), 11, S(3))));
    let (sound, apart) = (file(&chain_fields(&[[(190, 230)]])), file(&chain_fields(&[[(196, 230)]])));
    let behind = [&sound[..], &[0]].concat();
    for (plant, chain, wanted) in [
        (&p[..3], &sound[..], (1, 3, 0)),
        (&narrow, &[1, 9], (5, 0, 0)),
        (&p, &[2], (2, 0, 0)),
        (&p, &[1, 9], (3, 1, 0)),
        (&p, &behind, (3, 6, 0)),
        (&p, &apart, (15, 1, 0)),
        (&p, &sound, (2, 0, 0)),
        (&without, &sound, (2, 0, 0)),
    ] {
        for form in NO_FORMS {
            for length in [0, 20, 22, LARGEST_START] {
                assert_eq!(seen.start_make(plant, chain, form, length), wanted, "{form} {plant:?} {chain:?}");
            }
        }
    }
    assert_eq!(seen.start_make(&without, &sound, 3, 0), (9, 0, 0));
}

/// The largest file of each form, and the largest of modes of one byte, every edge in 3 bytes, of which four rooms have twice as many; and eight boxes
/// that grow.
#[test]
fn the_largest_start_files() {
    let mut seen = Seen::default();
    for (rooms, mode, form, length) in [
        (2, 0, 1, 270_476),
        (2, 128, 1, 491_660),
        (2, 0, 2, 309_626),
        (2, 128, 2, LARGEST_START),
        (4, 0, 3, 295_142),
        (4, 128, 3, 516_326),
    ] {
        let plant = turn_as_mode(rooms, mode, 9000);
        let side = (9000, if rooms == 2 { 9063 } else { 9007 });
        let equal = file(&chain_fields(&vec![vec![side; rooms]; MOST_BOXES]));
        assert_eq!(seen.start_make(&plant, &equal, form, length), (0, length as u64, 0));
        assert_eq!(seen.start_make(&plant, &equal, form, length - 1), (10, 0, 0));
    }
    let (plant, chain) = turning();
    for form in FORMS {
        let (number, made, _) = seen.start_make(&plant, &chain, form, LARGEST_START);
        assert_eq!(number, 0);
        assert_eq!(seen.start_make(&plant, &chain, form, made as usize - 1), (10, 0, 0));
    }
}

/// What is told of a plant is told before anything of the chain and of the form.
fn plants(random: &mut Random, seen: &mut Seen, fields: &[Field]) {
    for (plant, wanted) in spoiled(fields) {
        if random.chance(5) {
            assert_eq!(seen.start_make(&plant, &[2], any_told_form(random), 9), wanted);
        }
    }
}

#[test]
fn many_chains() {
    let (mut random, mut seen) = (random(31), Seen::default());
    for _ in 0..rounds(500) {
        let fields = plant_fields(&mut random);
        plants(&mut random, &mut seen, &fields);
        let bytes = file(&fields);
        let plant = read_plant(&bytes).expect("a sound plant");
        let chain = any_chain(&mut random, &plant);
        for (other, wanted) in spoiled_chain(&plant, &chain) {
            let form = any_told_form(&mut random);
            assert_eq!(seen.start_make(&bytes, &file(&other), form, 30), wanted);
            // leftover bytes come before 15, and after all that is told of a number
            let behind = [&file(&other)[..], &[0x80]].concat();
            let wanted = if wanted.0 == 15 { (3, behind.len() as u64 - 1, 0) } else { wanted };
            assert_eq!(seen.start_make(&bytes, &behind, form, 30), wanted);
        }
        let form = any_told_form(&mut random);
        damaged(&mut random, &file(&chain), |other| {
            seen.start_make(&bytes, other, form, 30);
        });
        every_buffer(&mut seen, &bytes, &file(&chain), any_form(&mut random));
        for _ in 0..5 {
            let bytes = file(&plant_fields(&mut random));
            let chain = any_chain(&mut random, &read_plant(&bytes).expect("a sound plant"));
            every_buffer(&mut seen, &bytes, &file(&chain), any_form(&mut random));
        }
    }
    each_came("start make", &seen.start_make, &[0, 1, 2, 3, 4, 5, 9, 10, 15], 100);
    assert!(seen.start_make.iter().sum::<usize>() >= 100_000);
}
