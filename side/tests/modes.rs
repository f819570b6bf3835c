//! Request 2026-08, up to 256 modes, side by side: N and modes about 128 and
//! 256, the state behind a mode of two bytes and inside one, tables cut inside
//! one, and 12 over all the modes left, on old tables too; seeded plants of over
//! a hundred modes, their tables whole and damaged, and rooms driven by them.

use second::plant::read_plant;
use side::common::{chain_fields, encode, file, groups, p_prime, with, Field, Random, S, T5, U};
use side::inputs::{any_reading, any_state, damaged, plant_fields, random, rounds};
use side::rooms::{following, EVERY_NEXT};
use side::seen::{each_came, Seen};
use side::tables::{any_form, made_table, other_table, FORMS};
use side::NO_MODE;

/// One room, R 0..9, S 0..30, q 1, no band; the modes named have this A and b, and every other leads out of S.
fn one_room(modes: usize, k: u64, rows: &[(usize, i64, i64)]) -> Vec<Field> {
    let mut fields = vec![U(1), U(1), U(modes as u64), U(1), U(k), U(1)];
    fields.extend([0, 9, 0, 30, 0, 0].map(S));
    for mode in 0..modes {
        let (a, b) = rows.iter().find(|row| row.0 == mode).map_or((0, 100), |row| (row.1, row.2));
        fields.extend([a, b].map(S));
    }
    fields
}

/// The one pattern that works: `first` leads to 20, `then` 15 down, which from R leads out of S.
fn two_steps(modes: usize, first: usize, then: usize) -> Vec<u8> {
    file(&one_room(modes, 2, &[(first, 0, 20), (then, 1, -15)]))
}

/// A call on the reading 5, which is in R and in S: the mode and the next state, or the refusal.
fn call(seen: &mut Seen, plant: &[u8], table: &[u8], place: u64, left: u64) -> (u64, [u64; 5]) {
    seen.control(plant, table, place, left, [5, 0, 0, 0])
}

const TWELVE: (u64, [u64; 5]) = (NO_MODE, [12, 0, 0, 0, 0]);

#[test]
fn n_about_128_and_256() {
    let mut seen = Seen::default();
    for modes in [127, 128, 129, 255, 256] {
        let fields = one_room(modes, 1, &[(modes - 1, 0, 4)]);
        let (bytes, places) = encode(&fields);
        assert_eq!(places[3], if modes < 128 { 3 } else { 4 });
        assert_eq!(seen.plant(&bytes), (0, 0, 0));
        for form in FORMS {
            let table = [&[form as u8, 1, 1], &groups(modes as u128 - 1)[..]].concat();
            assert_eq!(seen.make(&bytes, form, table.len()), (0, table.len() as u64, 0));
            assert_eq!(seen.make(&bytes, form, table.len() - 1), (10, 0, 0));
            assert_eq!(seen.check(&bytes, &table), (0, 0, 0));
            assert_eq!(call(&mut seen, &bytes, &table, 0, 0), (modes as u64 - 1, [0; 5]));
        }
        // a mode more or fewer than N says
        assert_eq!(seen.plant(&file(&with(&fields, 2, U(modes as u64 - 1)))).0, 3);
        assert_eq!(seen.plant(&file(&with(&fields, 2, U(modes as u64 + 1)))).0, if modes == 256 { 3 } else { 1 });
    }
    assert_eq!(file(&one_room(256, 1, &[]))[2..4], [0x80, 0x02]);
    for modes in [0, 257, 258, 512, 1 << 32, (1 << 32) + 256, (1 << 35) - 1] {
        assert_eq!(seen.plant(&file(&with(&one_room(256, 1, &[]), 2, U(modes)))), (3, 2, 0));
    }
}

#[test]
fn modes_of_one_byte_and_of_two() {
    let mut seen = Seen::default();
    for (mode, bytes) in [(0, vec![0]), (127, vec![127]), (128, vec![0x80, 1]), (200, vec![0xC8, 1]), (255, vec![0xFF, 1])] {
        let plant = file(&one_room(256, 1, &[(mode, 0, 4)]));
        for form in FORMS {
            let table = [&[form as u8, 1, 1], &bytes[..]].concat();
            assert_eq!(made_table(&plant, form).as_ref(), Some(&table));
            assert_eq!(seen.make(&plant, form, 9), (0, table.len() as u64, 0));
            assert_eq!(seen.check(&plant, &table), (0, 0, 0));
            for (place, left) in [(0, 0), (3, 1)] {
                assert_eq!(call(&mut seen, &plant, &table, place, left), (mode as u64, [0; 5]));
            }
        }
    }
    // not below N: 6 at the mode's first byte, and 12 of a running state
    for (modes, mode) in [(127, 127), (128, 128), (129, 129), (255, 255), (256, 256), (256, 1 << 32), (256, (1 << 32) + 4)] {
        let plant = file(&one_room(modes, 1, &[(modes - 1, 0, 4)]));
        for form in FORMS {
            let table = file(&[form, 1, 1, mode].map(U));
            assert_eq!(seen.check(&plant, &table), (6, 3, 0));
            assert_eq!(call(&mut seen, &plant, &table, 0, 0), (NO_MODE, [6, 3, 0, 0, 0]));
            assert_eq!(call(&mut seen, &plant, &table, 3, 1), TWELVE);
        }
    }
}

#[test]
fn the_state_moves_behind_the_mode() {
    let mut seen = Seen::default();
    let modes = [(127, 128, 4), (128, 127, 5), (128, 255, 5), (255, 128, 5), (3, 200, 4), (200, 3, 5)];
    for (form, (first, then, behind)) in FORMS.into_iter().flat_map(|form| modes.map(|modes| (form, modes))) {
        let plant = two_steps(256, first, then);
        let table = file(&[form, 1, 2, first as u64, then as u64].map(U));
        assert_eq!(seen.make(&plant, form, 9), (0, table.len() as u64, 0));
        assert_eq!(seen.check(&plant, &table), (0, 0, 0));
        for (place, left) in [(0, 0), (3, 2)] {
            assert_eq!(call(&mut seen, &plant, &table, place, left), (first as u64, [0, 0, 0, behind, 1]));
        }
        assert_eq!(call(&mut seen, &plant, &table, behind, 1), (then as u64, [0; 5]));
        assert_eq!(call(&mut seen, &plant, &table, behind, 2), TWELVE);
    }
}

/// A place inside a mode cannot be told: what stands there is read as it is.
#[test]
fn states_inside_a_mode() {
    let (mut seen, plant) = (Seen::default(), two_steps(256, 200, 3));
    let table = [1, 1, 2, 0xC8, 1, 3];
    assert_eq!(call(&mut seen, &plant, &table, 4, 1), (1, [0; 5]));
    assert_eq!(call(&mut seen, &plant, &table, 4, 2), (1, [0, 0, 0, 5, 1]));
    // 328 is no mode, and its second byte is mode 2
    let table = [1, 1, 2, 0xC8, 2, 3];
    assert_eq!(call(&mut seen, &plant, &table, 3, 1), TWELVE);
    assert_eq!(call(&mut seen, &plant, &table, 4, 1), (2, [0; 5]));
    // of two modes that stand behind one another: the end of one and the other
    let table = [1, 1, 2, 0x80, 1, 0xFF, 1];
    let plant = two_steps(256, 128, 255);
    assert_eq!(call(&mut seen, &plant, &table, 4, 2), (1, [0, 0, 0, 5, 1]));
    assert_eq!(call(&mut seen, &plant, &table, 6, 1), (1, [0; 5]));
}

#[test]
fn tables_cut_inside_a_mode() {
    let (mut seen, plant) = (Seen::default(), two_steps(256, 3, 200));
    let whole = [1, 1, 2, 3, 0xC8, 1];
    assert_eq!(seen.check(&plant, &whole), (0, 0, 0));
    for broken in [&[0xC8][..], &[0x80, 0], &[0xC8, 0x80, 0], &[0x80, 0x80, 0x80, 0x80, 0x80, 1]] {
        let table = [&whole[..4], broken].concat();
        assert_eq!(seen.check(&plant, &table), (1, 4, 0));
        assert_eq!(call(&mut seen, &plant, &table, 0, 0), (NO_MODE, [1, 4, 0, 0, 0]));
        // the next mode is whole, the one behind it is not
        assert_eq!(call(&mut seen, &plant, &table, 3, 2), TWELVE);
        assert_eq!(call(&mut seen, &plant, &table, 3, 1), (3, [0; 5]));
        assert_eq!(call(&mut seen, &plant, &table, 4, 1), TWELVE);
    }
}

/// Tables of old: a running state whose later mode is not below N, or beyond the table; 12 comes before 11.
#[test]
fn all_the_modes_left_are_tested() {
    let (mut seen, plant) = (Seen::default(), p_prime());
    let mut at = |table: &[u8], place, left, x| seen.control(&plant, table, place, left, [x, 0, 0, 0]);
    assert_eq!(at(&T5, 3, 2, 200), (0, [0, 0, 0, 4, 1]));
    assert_eq!(at(&[1, 1, 2, 0, 2], 3, 2, 200), TWELVE);
    assert_eq!(at(&[1, 1, 2, 0, 2], 3, 1, 200), (0, [0; 5]));
    assert_eq!(at(&[1, 1, 2, 0, 2], 3, 2, 999), TWELVE);
    assert_eq!(at(&[1, 1, 2, 0], 3, 2, 200), TWELVE);
    assert_eq!(at(&[1, 1, 2, 0, 0x80], 3, 2, 200), TWELVE);
    for place in [u64::MAX, u64::MAX - 1, 1 << 63, 1 << 32, (1 << 32) + 3] {
        assert_eq!(at(&T5, place, 2, 200), TWELVE);
    }
    // each of six modes by turns, from each place
    let plant = file(&one_room(3, 6, &[(0, 1, 0)]));
    for wrong in 0..6 {
        let mut table = vec![1, 1, 6, 0, 0, 0, 0, 0, 0];
        table[3 + wrong] = 3;
        for first in 0..6 {
            for left in 1..=6 - first as u64 {
                let (mode, _) = call(&mut seen, &plant, &table, 3 + first as u64, left);
                assert_eq!(mode == NO_MODE, first <= wrong && wrong < first + left as usize);
            }
        }
    }
}

/// The modes left are read within the table's length: the next table's bytes are none of it.
#[test]
fn start_files() {
    let (mut seen, plant) = (Seen::default(), two_steps(256, 128, 255));
    let chain = file(&chain_fields(&[[(0, 9)]]));
    for form in FORMS {
        in_a_start_file(&mut seen, &plant, &chain, form);
    }
}

fn in_a_start_file(seen: &mut Seen, plant: &[u8], chain: &[u8], form: u64) {
    let table = [form as u8, 1, 2, 0x80, 1, 0xFF, 1];
    let start = [chain, &[7], &table, &[7], &table].concat();
    assert_eq!(seen.start_make(plant, chain, form, start.len()), (0, start.len() as u64, 0));
    assert_eq!(seen.start_check(plant, &start), (0, 0, 0));
    let mut at = |start: &[u8], standing| seen.start_control(plant, start, standing, [5, 0, 0, 0]);
    let twelve = (NO_MODE, [12, 0, 0, 0, 0, 0]);
    assert_eq!(at(&start, [0, 0, 0]), (128, [0, 0, 0, 0, 5, 1]));
    assert_eq!(at(&start, [1, 3, 2]), (128, [0, 0, 0, 1, 5, 1]));
    assert_eq!(at(&start, [1, 5, 1]), (255, [0; 6]));
    assert_eq!(at(&start, [0, 5, 2]), twelve);
    assert_eq!(at(&start, [0, 6, 1]), (1, [0; 6]));
    let cut = [chain, &[6], &table[..6], &[1, 7], &table].concat();
    assert_eq!(at(&cut, [0, 3, 2]), twelve);
    assert_eq!(at(&cut, [0, 3, 1]), (128, [0; 6]));
    assert_eq!(seen.start_check(plant, &cut), (1, chain.len() as u64 + 1 + 5, 0));
}

/// A seeded plant of over a hundred modes.
fn many_modes(random: &mut Random) -> Vec<u8> {
    loop {
        let fields = plant_fields(random);
        if matches!(fields[2], U(modes) if modes > 100) {
            return file(&fields);
        }
    }
}

/// How many samples of rooms that an accepted table drives are in a mode of two bytes.
fn two_byte_samples(random: &mut Random, seen: &mut Seen, bytes: &[u8], table: &[u8]) -> usize {
    let (plant, mut samples) = (read_plant(bytes).expect("a sound plant"), 0);
    for next in EVERY_NEXT {
        let (mut x, mut place, mut left) = (plant.edges.r_lo, 0, 0);
        for sample in 0..20 {
            let (mode, out) = seen.control(bytes, table, place, left, x);
            assert_ne!(mode, NO_MODE);
            samples += usize::from(mode >= 128);
            (place, left) = (out[3], out[4]);
            x = following(random, next, sample, &plant, mode, &x);
        }
    }
    samples
}

/// Tables whole, damaged and other ones, calls from any state and from the state that a call left; rooms driven by the made ones.
#[test]
fn seeded_plants_of_many_modes() {
    let (mut random, mut seen) = (random(40), Seen::default());
    let (mut two_bytes, mut driven) = (0, 0);
    for _ in 0..rounds(150) {
        let bytes = many_modes(&mut random);
        let plant = read_plant(&bytes).expect("a sound plant");
        damaged(&mut random, &bytes, |other| {
            seen.plant(other);
        });
        let form = any_form(&mut random);
        seen.make(&bytes, form, 3);
        seen.make(&bytes, form, second::LARGEST_TABLE);
        let made = made_table(&bytes, form);
        for table in [made.clone(), other_table(&mut random, &plant, form)].into_iter().flatten() {
            assert_eq!(seen.check(&bytes, &table), (0, 0, 0));
            two_bytes += usize::from(table.iter().any(|byte| *byte >= 128));
            damaged(&mut random, &table, |other| {
                seen.check(&bytes, other);
            });
            let mut others = vec![table.clone(); 20];
            damaged(&mut random, &table, |other| others.push(other.to_vec()));
            for other in others {
                let (place, left) = any_state(&mut random, &other);
                let x = any_reading(&mut random, &plant);
                let (_, out) = seen.control(&bytes, &other, place, left, x);
                seen.control(&bytes, &other, out[3], out[4], any_reading(&mut random, &plant));
            }
        }
        driven += made.map_or(0, |table| two_byte_samples(&mut random, &mut seen, &bytes, &table));
    }
    println!("{two_bytes} tables with a mode of two bytes, {driven} samples in one");
    assert!(two_bytes > 20 && driven > 500, "{two_bytes} {driven}");
    each_came("check", &seen.check, &[0, 1, 2, 6, 7, 8], 20);
    each_came("control", &seen.control, &[0, 1, 2, 6, 11, 12], 20);
}
