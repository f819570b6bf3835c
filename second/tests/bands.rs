//! Request 2026-09, a band for each mode: the readings' example, the places of 5,
//! the order inside a mode, the record's form, and plants whose modes have bands
//! of their own by the slow ways.

mod common;
mod slow;
use common::*;
use second::band::Band;
use second::checker::check;
use second::control::{control, State};
use second::image::image;
use second::boxes::Box;
use second::listing::listing;
use second::maker::make;
use second::plant::{read_plant, write_plant, Plant};
use second::refusal::row_words;
use second::sheet::sheet_to_plant;
use second::start::{start_check, start_control, start_make, StartState};
use slow::plants::slow_plant;
use slow::*;

/// P in form 2, as the readings have it.
const P2: [u8; 24] = [
    0x02, 0x01, 0x02, 0x0A, 0x02, 0x01, 0x86, 0x03, 0xC2, 0x03, 0xFC, 0x02, 0xCC, 0x03, 0x09, 0x08,
    0x12, 0xC8, 0x01, 0x09, 0x08, 0x12, 0xD8, 0x04,
];

/// P in form 2 by fields: 10, 11 mode 0's band, 14, 15 mode 1's.
fn p2_fields() -> Vec<Field> {
    in_form_2(&p_fields())
}

/// Every function that takes a plant's bytes tells this of them.
fn every_function_tells(bytes: &[u8], wanted: Told) {
    assert_eq!(told(read_plant(bytes)), wanted);
    assert_eq!(told(make(bytes, 1, &mut marked(9))), wanted);
    assert_eq!(told(check(bytes, &[9])), wanted);
    assert_eq!(told(control(bytes, &[9], State { place: 1, left: 9 }, [i64::MAX; 4])), wanted);
    assert_eq!(told(start_make(bytes, &[9], 1)), wanted);
    assert_eq!(told(start_check(bytes, &[9])), wanted);
    assert_eq!(told(start_control(bytes, &[9], StartState { index: 9, place: 1, left: 9 }, [0; 4])), wanted);
    assert_eq!(listing(bytes, 1), format!("refused {} {}\n", wanted.0, wanted.1));
}

fn written(plant: &Plant) -> Result<Vec<u8>, Told> {
    let mut buffer = marked(second::LARGEST_PLANT);
    match write_plant(plant, &mut buffer) {
        Ok(length) => Ok(buffer[..length].to_vec()),
        Err(refusal) => {
            assert!(buffer.iter().all(|byte| *byte == 0));
            Err(told::<()>(Err(refusal)))
        }
    }
}

// ---- the readings' words

#[test]
fn p_in_form_2() {
    assert_eq!(file(&p2_fields()), P2);
    let (one, two) = (read_plant(&P).expect("P"), read_plant(&P2).expect("P in form 2"));
    assert_eq!((one.form, two.form), (1, 2));
    assert_eq!(Plant { form: 1, ..two.clone() }, one);
    assert_eq!(one.bands, [Band { lo: [-5, 0, 0, 0], hi: [4, 0, 0, 0] }; 2]);
    assert_eq!((written(&one), written(&two)), (Ok(P.to_vec()), Ok(P2.to_vec())));
    let mut table = marked(9);
    assert_eq!(make(&P2, 1, &mut table), Ok(7));
    assert_eq!(table[..7], T1);
    assert_eq!(check(&P2, &T1), Ok(()));
    assert_eq!(listing(&P2, 1), listing(&P, 1));
    for x in [194, 195, 210, 211, 225, 226] {
        let reading = [x, 0, 0, 0];
        assert_eq!(control(&P2, &T1, State::IDLE, reading), control(&P, &T1, State::IDLE, reading));
    }
}

#[test]
fn the_form_byte_changed() {
    // Form 1's bytes read as form 2: the second mode's band is 9..300, its rows are missing.
    every_function_tells(&[&[2], &P[1..]].concat(), (1, 22, 0));
    // Form 2's read as form 1: mode 1 is (-5, 4), and the rest is left over.
    every_function_tells(&[&[1], &P2[1..]].concat(), (3, 21, 0));
    for form in [0, 3, 127, 130, (1 << 35) - 1] {
        every_function_tells(&file(&with(&p2_fields(), 0, U(form))), (2, 0, 0));
        assert_eq!(written(&Plant { form, ..plant_values(&p2_fields(), 1) }), Err((2, 0, 0)));
    }
    every_function_tells(&[0x82, 0x00], (1, 0, 0));
    assert_eq!(written(&Plant { form: 1 << 35, ..plant_values(&p2_fields(), 1) }), Err((1, 0, 0)));
    assert_eq!(row_words(2), "form is not known");
}

#[test]
fn a_form_1_record_is_written_with_mode_0s_band() {
    let mut plant = read_plant(&P).expect("P");
    plant.bands[1..].fill(Band { lo: [i64::MIN; 4], hi: [i64::MAX; 4] });
    assert_eq!(written(&plant), Ok(P.to_vec()));
    plant.bands.swap(0, 1);
    assert_eq!(written(&plant), Err((1, 14, 0)));
    // In form 2 each counts, and those beyond N do not.
    let mut plant = read_plant(&P2).expect("P in form 2");
    plant.bands.push(Band { lo: [i64::MIN; 4], hi: [i64::MAX; 4] });
    plant.bands[0].lo[1..].fill(i64::MIN);
    assert_eq!(written(&plant), Ok(P2.to_vec()));
    plant.bands[1].lo[0] = -1_000_000_001;
    assert_eq!(written(&plant), Err((3, 19, 0)));
}

#[test]
fn sheets_go_on_writing_form_1() {
    let mut plant = marked(99);
    let length = sheet_to_plant(&file(&line_13()), &mut plant).expect("a plant");
    let read = read_plant(&plant[..length]).expect("a plant");
    assert_eq!((plant[0], read.form), (1, 1));
    assert_eq!(read.bands, [Band { lo: [-120, 0, 0, 0], hi: [119, 0, 0, 0] }; 2]);
}

// ---- 5, and 3 inside a mode

/// Where w lo of a dimension of a mode stands among the fields of form 2.
fn band_field(n: usize, mode: usize, i: usize) -> usize {
    6 + 4 * n + mode * (2 * n + n * (n + 1)) + 2 * i
}

/// A plant of n rooms and N modes in form 2, q 4, each band 0..3, just enough.
fn narrow_plant(n: usize, modes: usize) -> Vec<Field> {
    let mut fields = vec![U(2), U(n as u64), U(modes as u64), U(4), U(1), U(0)];
    (0..n).for_each(|_| fields.extend([0, 9, 0, 9].map(S)));
    for _ in 0..modes {
        (0..n).for_each(|_| fields.extend([0, 3].map(S)));
        (0..n * (n + 1)).for_each(|_| fields.push(S(1)));
    }
    fields
}

#[test]
fn five_at_each_mode_and_dimension() {
    for (n, modes) in [(1, 1), (1, 3), (2, 2), (3, 5), (4, 16)] {
        let fields = narrow_plant(n, modes);
        assert_eq!(told(read_plant(&file(&fields))), (0, 0, 0));
        for mode in 0..modes {
            for i in 0..n {
                let at = band_field(n, mode, i);
                for narrow in [with(&fields, at, S(1)), with(&fields, at + 1, S(2))] {
                    let wanted = (5, mode as u64, i as u64);
                    every_function_tells(&file(&narrow), wanted);
                    assert_eq!(written(&plant_values(&narrow, n)), Err(wanted));
                }
            }
        }
    }
}

#[test]
fn five_at_the_first_mode_then_the_first_dimension() {
    let fields = narrow_plant(2, 3);
    let narrow = |faults: &[(usize, usize)]| {
        faults.iter().fold(fields.clone(), |fields, (mode, i)| with(&fields, band_field(2, *mode, *i), S(1)))
    };
    assert_eq!(told(read_plant(&file(&narrow(&[(1, 0), (2, 0), (0, 1)])))), (5, 0, 1));
    assert_eq!(told(read_plant(&file(&narrow(&[(2, 0), (1, 1)])))), (5, 1, 1));
    assert_eq!(told(read_plant(&file(&narrow(&[(1, 1), (1, 0)])))), (5, 1, 0));
    // Leftover, then 4, then 5.
    let both = with(&narrow(&[(0, 0)]), 10, S(-1));
    assert_eq!(told(read_plant(&file(&both))), (4, 1, 0));
    let (bytes, places) = encode(&both);
    assert_eq!(told(read_plant(&[&bytes[..], &[0x80]].concat())), (3, *places.last().expect("its end"), 0));
}

#[test]
fn numbers_of_a_mode_in_file_order() {
    let fields = narrow_plant(2, 2);
    let places = encode(&fields).1;
    for mode in 0..2 {
        for i in 0..2 {
            let at = band_field(2, mode, i);
            for (index, value) in [
                (at, -1_000_000_001),
                (at, 1_000_000_001),
                (at + 1, 1_000_000_001),
                (at + 1, -1),
                (at, -(1 << 33)),
            ] {
                let wrong = with(&fields, index, S(value));
                every_function_tells(&file(&wrong), (3, places[index], 0));
                assert_eq!(written(&plant_values(&wrong, 2)), Err((3, places[index], 0)));
            }
            for index in [at, at + 1] {
                let wrong = with(&fields, index, S(1 << 34));
                every_function_tells(&file(&wrong), (1, places[index], 0));
            }
        }
    }
    // Mode 0's rows are judged before mode 1's band, and that before its rows.
    let (row_0, band_1, row_1) = (band_field(2, 0, 2), band_field(2, 1, 0), band_field(2, 1, 2));
    let wrong = [(row_0, 20_001), (band_1 + 1, -1), (row_1, 20_001)];
    for first in 0..3 {
        let fields = wrong[first..].iter().fold(fields.clone(), |fields, (at, value)| with(&fields, *at, S(*value)));
        assert_eq!(told(read_plant(&file(&fields))), (3, encode(&fields).1[wrong[first].0], 0));
    }
}

#[test]
fn cut_and_broken_at_every_number() {
    for fields in [p2_fields(), in_form_2(&two_rooms())] {
        let (bytes, places) = encode(&fields);
        for cut in 0..bytes.len() {
            let place = *places.iter().filter(|place| **place <= cut as u64).max().expect("0");
            assert_eq!(told(read_plant(&bytes[..cut])), (1, place, 0), "cut at {cut}");
        }
        for (at, field) in fields.iter().enumerate() {
            for broken in broken(field) {
                assert_eq!(told(read_plant(&file(&with(&fields, at, broken)))), (1, places[at], 0));
            }
        }
    }
}

/// Sixteen modes of four rooms, every number as long as it can be.
#[test]
fn the_largest_plant_of_form_2() {
    let mut fields = vec![U(2), U(4), U(16), U(10_000), U(6), U(3)];
    fields.extend([-1_000_000, 1_000_000].repeat(8).into_iter().map(S));
    let mut mode = [-1_000_000_000, 1_000_000_000].repeat(4);
    mode.extend([20_000, -20_000, 20_000, -20_000, -10_000_000_000].repeat(4));
    fields.extend(mode.repeat(16).into_iter().map(S));
    let bytes = file(&fields);
    assert_eq!(bytes.len(), 1_783);
    let plant = read_plant(&bytes).expect("the largest plant");
    assert_eq!(plant, plant_values(&fields, 4));
    let mut buffer = marked(1_784);
    assert_eq!(write_plant(&plant, &mut buffer), Ok(1_783));
    assert_eq!((&buffer[..1_783], buffer[1_783]), (&bytes[..], 0xAA));
    assert_eq!(told(write_plant(&plant, &mut buffer[..1_782])), (10, 0, 0));
    assert!(buffer[..1_782].iter().all(|byte| *byte == 0));
}

// ---- the band of the mode applied

/// P with another band in one mode.
fn p_with(mode: usize, lo: i64, hi: i64) -> Vec<u8> {
    let at = band_field(1, mode, 0);
    file(&with(&with(&p2_fields(), at, S(lo)), at + 1, S(hi)))
}

/// The same of P', which has S 180..240.
fn p_prime_with(mode: usize, lo: i64, hi: i64) -> Vec<u8> {
    let at = band_field(1, mode, 0);
    let wide = with(&with(&p2_fields(), 8, S(180)), 9, S(240));
    file(&with(&with(&wide, at, S(lo)), at + 1, S(hi)))
}

#[test]
fn a_band_that_differs_in_one_mode_only() {
    // 195..210 by mode 1: 9*210 + 300 + 69 is 2259, 225 counts; with 70 it is 226, in S and outside R.
    assert_eq!(check(&p_with(1, -5, 69), &T1), Ok(()));
    assert_eq!(told(check(&p_with(1, -5, 70), &T1)), (8, 3, 1));
    assert_eq!(told(make(&p_with(1, -5, 70), 1, &mut marked(9))), (9, 0, 0));
    // With 120 it is 231, outside S.
    assert_eq!(told(check(&p_with(1, -5, 120), &T1)), (7, 3, 1));
    // Mode 0's is another: 9*225 + 100 + 70 is 2195.
    assert_eq!(check(&p_with(0, -5, 70), &T1), Ok(()));
    let mut table = marked(7);
    assert_eq!(make(&p_with(0, -5, 70), 1, &mut table), Ok(7));
    assert_eq!(table, T1);
    // 211..225 by mode 0: 9*211 + 100 - 54 is 1945, rounded up 195; with -60 it is 1939, 194.
    assert_eq!(check(&p_with(0, -54, 4), &T1), Ok(()));
    assert_eq!(told(check(&p_with(0, -60, 4), &T1)), (8, 5, 1));
    assert_eq!(check(&p_with(1, -60, 4), &T1), Ok(()));
}

#[test]
fn each_step_has_its_own_modes_band() {
    // T5 is mode 0, then mode 1: 185..212, then 9*185 + 300 - 24 is 1941, 195; with -25 it is 194.
    assert_eq!(check(&p_prime_with(1, -24, 4), &T5), Ok(()));
    assert_eq!(told(check(&p_prime_with(1, -25, 4), &T5)), (8, 2, 2));
    // The same width in mode 0 lowers the first image to 183, and 9*183 + 300 - 5 is 1942, 195.
    assert_eq!(check(&p_prime_with(0, -25, 4), &T5), Ok(()));
    let plant = read_plant(&p_prime_with(0, -25, 4)).expect("a plant");
    assert_eq!(image(&plant, 0, &Box::new(&[195], &[225])), Box::new(&[183], &[212]));
    assert_eq!(image(&plant, 1, &Box::new(&[183], &[212])), Box::new(&[195], &[221]));
}

/// P's start file over form 2, and over one whose mode 1 can end outside R.
#[test]
fn start_files_over_form_2() {
    let chain = file(&chain_fields(&[[(190, 230)]]));
    let start = start_make(&P, &chain, 1).expect("a start file");
    assert_eq!(start_make(&P2, &chain, 1).as_ref(), Ok(&start));
    assert_eq!(start_check(&P2, &start), Ok(()));
    for x in 189..=231 {
        let (one, two) = [P.as_slice(), &P2].map(|plant| start_control(plant, &start, StartState::IDLE, [x; 4])).into();
        assert_eq!(one, two);
    }
    let wide = p_with(1, -5, 70);
    assert_eq!(told(start_check(&wide, &start)), (8, 10, 1));
    assert_eq!(told(start_make(&wide, &chain, 1)), (9, 0, 0));
}

// ---- by the slow ways

#[test]
fn the_maker_agrees_over_own_bands() {
    let mut random = Random(21);
    let (mut none, mut split, mut long, mut moved) = (0, 0, 0, 0);
    for _ in 0..5_000 {
        let one = pulling_plant(&mut random);
        let plant = with_own_bands(&one, &mut random);
        let bytes = plant_bytes(&plant);
        assert_eq!(read_plant(&bytes).as_ref(), Ok(&plant));
        let mut buffer = marked(4_000);
        let answer = make(&bytes, 1, &mut buffer);
        let slow = slow_table(&plant, &r_of(&plant), &r_of(&plant));
        moved += usize::from(slow != slow_table(&one, &r_of(&one), &r_of(&one)));
        match slow {
            None => {
                assert_eq!(told(answer), (9, 0, 0), "{plant:?}");
                none += 1;
            }
            Some(table) => {
                assert_eq!(answer, Ok(table.len()), "{plant:?}");
                assert_eq!(buffer[..table.len()], table, "{plant:?}");
                assert_eq!(check(&bytes, &table), Ok(()));
                split += usize::from(table[2] == 0);
                long += usize::from(table[2] > 1);
            }
        }
    }
    assert!(none > 100 && split > 100 && long > 100 && moved > 100, "{none} {split} {long} {moved}");
}

#[test]
fn the_maker_agrees_at_the_limits_of_own_bands() {
    let mut random = Random(25);
    let (mut made, mut none) = (0, 0);
    for _ in 0..20_000 {
        let plant = extreme_plant(&mut random, 2);
        let Ok(bytes) = written(&plant) else { continue };
        let mut buffer = marked(200);
        let answer = make(&bytes, 1, &mut buffer);
        match slow_table(&plant, &r_of(&plant), &r_of(&plant)) {
            None => {
                assert_eq!(told(answer), (9, 0, 0));
                none += 1;
            }
            Some(table) => {
                assert_eq!(answer, Ok(table.len()));
                assert_eq!(buffer[..table.len()], table);
                made += 1;
            }
        }
    }
    assert!(made > 20 && none > 1_000, "{made} {none}");
}

/// Tables of the plant with one band, judged for the one with its own.
#[test]
fn the_checker_agrees_over_own_bands() {
    let mut random = Random(22);
    let mut seen = [0; 9];
    for _ in 0..3_000 {
        let one = pulling_plant(&mut random);
        let Some(table) = slow_table(&one, &r_of(&one), &r_of(&one)) else { continue };
        let plant = with_own_bands(&one, &mut random);
        let answer = told(check(&plant_bytes(&plant), &table));
        assert_eq!(answer, slow_check(&plant, &table), "{plant:?} {table:?}");
        seen[answer.0 as usize] += 1;
    }
    assert!([0, 7, 8].iter().all(|number| seen[*number] > 50), "{seen:?}");
}

#[test]
fn rooms_with_own_bands_are_kept() {
    let mut random = Random(23);
    let mut driven = 0;
    while driven < 150 {
        let plant = with_own_bands(&pulling_plant(&mut random), &mut random);
        let bytes = plant_bytes(&plant);
        let mut table = vec![0; second::LARGEST_TABLE];
        let Ok(length) = make(&bytes, 1, &mut table) else { continue };
        let (edges, n) = (plant.edges, plant.n as usize);
        let mut reading = reading_in(&edges.r_lo, &edges.r_hi, n, &mut random);
        let (mut state, mut since_r) = (State::IDLE, 0);
        for _ in 0..60 {
            let (mode, next) = control(&bytes, &table[..length], state, reading).expect("an answer");
            reading = next_reading(&plant, mode, &reading, &mut random);
            since_r += 1;
            assert!((0..n).all(|i| edges.s_lo[i] <= reading[i] && reading[i] <= edges.s_hi[i]), "left S");
            assert!(since_r <= plant.k, "not back in time");
            if next == State::IDLE {
                since_r = 0;
            }
            state = next;
        }
        driven += 1;
    }
}

/// A plant's file with a byte changed, put in, taken out or behind, or cut.
fn damaged(random: &mut Random, bytes: &[u8]) -> Vec<u8> {
    let mut other = bytes.to_vec();
    let at = random.within(0, bytes.len() as i64 - 1) as usize;
    let near = other[at].wrapping_add([1, 2, 254, 255][random.within(0, 3) as usize]);
    let byte = [0, 1, 2, near, near, 0x80, random.next() as u8][random.within(0, 6) as usize];
    match random.within(0, 7) {
        0 => other.truncate(at),
        1 => other.insert(at, byte),
        2 => drop(other.remove(at)),
        3 => other.push(byte),
        _ => other[at] = byte,
    }
    other
}

#[test]
fn the_reader_agrees_on_damaged_plants_of_both_forms() {
    let mut random = Random(24);
    let (mut seen, mut fives) = ([0; 6], [0; 2]);
    for round in 0..2_000 {
        let one = pulling_plant(&mut random);
        let plant = if round % 3 == 0 { one } else { with_own_bands(&one, &mut random) };
        let bytes = plant_bytes(&plant);
        assert_eq!(slow_plant(&bytes), (0, 0, 0));
        for _ in 0..60 {
            let other = damaged(&mut random, &bytes);
            let answer = told(read_plant(&other));
            assert_eq!(answer, slow_plant(&other), "{other:02X?}");
            seen[answer.0 as usize] += 1;
            fives[0] += usize::from(answer.0 == 5 && answer.1 > 0);
            fives[1] += usize::from(answer.0 == 5 && answer.2 > 0);
        }
    }
    assert!(seen.iter().all(|times| *times > 100), "{seen:?}");
    assert!(fives.iter().all(|times| *times > 50), "{fives:?}");
}
