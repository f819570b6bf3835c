//! Request 2026-08, 256 modes: N about 128 and 256, modes of two bytes in tables
//! and in states, tables cut inside one, 12 over all the modes left, the largest
//! files, and plants of many modes by the slow ways.

mod common;
mod slow;
use common::*;
use second::checker::check;
use second::control::{control, State};
use second::listing::listing;
use second::maker::make;
use second::plant::{read_plant, write_plant, Plant};
use second::sheet::plant_of_sheet;
use second::start::{start_check, start_control, start_make, start_make_into, StartState};
use second::{COEFFICIENTS, LARGEST_PLANT, LARGEST_TABLE, MOST_BOXES};
use slow::plants::slow_plant;
use slow::*;

/// One room, R 0..9, S 0..30, q 1, no disturbance, so many modes; each (A, b) as
/// given, the others leading out of S.
fn one_room(modes: usize, k: u64, rows: &[(usize, i64, i64)]) -> Vec<Field> {
    let mut fields = vec![U(1), U(1), U(modes as u64), U(1), U(k), U(1)];
    fields.extend([0, 9, 0, 30, 0, 0].map(S));
    for mode in 0..modes {
        let row = rows.iter().find(|row| row.0 == mode).map_or((0, 100), |row| (row.1, row.2));
        fields.extend([row.0, row.1].map(S));
    }
    fields
}

/// The one pattern that works is these two modes: the first leads to 20, the
/// second 15 down, which from R leads out of S.
fn two_steps(modes: usize, first: usize, second: usize) -> Vec<u8> {
    file(&one_room(modes, 2, &[(first, 0, 20), (second, 1, -15)]))
}

fn made(plant: &[u8]) -> Vec<u8> {
    let mut table = marked(LARGEST_TABLE);
    let length = make(plant, 1, &mut table).expect("a table");
    table.truncate(length);
    table
}

fn call(plant: &[u8], table: &[u8], place: u64, left: u64) -> Result<(u8, (u64, u64)), Told> {
    let answer = control(plant, table, State { place, left }, [5, 0, 0, 0]);
    answer.map(|(mode, next)| (mode, (next.place, next.left))).map_err(|refusal| told::<()>(Err(refusal)))
}

// ---- N

#[test]
fn n_about_128_and_256() {
    for modes in [1, 16, 17, 127, 128, 129, 255, 256] {
        let fields = one_room(modes, 1, &[(modes - 1, 0, 4)]);
        let (bytes, places) = encode(&fields);
        assert_eq!(places[3], if modes < 128 { 3 } else { 4 });
        let plant = read_plant(&bytes).expect("a plant");
        assert_eq!(plant, plant_values(&fields, 1));
        assert_eq!((plant.modes, plant.bands.len()), (modes as u64, modes));
        assert_eq!(plant_bytes(&plant), bytes);
        assert_eq!(made(&bytes), [&[1, 1, 1], &groups(modes as u128 - 1)[..]].concat());
    }
    assert_eq!(file(&one_room(256, 1, &[]))[2..4], [0x80, 0x02]);
    for modes in [0, 257, 258, 512, 1 << 32, (1 << 35) - 1] {
        let fields = with(&one_room(256, 1, &[]), 2, U(modes));
        assert_eq!(told(read_plant(&file(&fields))), (3, 2, 0));
        assert_eq!(told(write_plant(&plant_values(&fields, 1), &mut marked(9))), (3, 2, 0));
    }
}

/// Every number as long as it can be, in either form.
fn longest_plant(form: u64) -> Vec<Field> {
    let mut fields = vec![U(1), U(4), U(256), U(10_000), U(6), U(3)];
    fields.extend([-1_000_000, 1_000_000].repeat(8).into_iter().map(S));
    fields.extend([-1_000_000_000, 1_000_000_000].repeat(4).into_iter().map(S));
    fields.extend([20_000, -20_000, 20_000, -20_000, -10_000_000_000].repeat(1_024).into_iter().map(S));
    if form == 1 { fields } else { in_form_2(&fields) }
}

#[test]
fn the_largest_plants() {
    assert_eq!((LARGEST_PLANT, COEFFICIENTS), (27_704, 5_120));
    for (form, length) in [(1, 17_504), (2, 27_704)] {
        let fields = longest_plant(form);
        let bytes = file(&fields);
        assert_eq!(bytes.len(), length);
        let plant = read_plant(&bytes).expect("the largest plant");
        assert_eq!(plant, plant_values(&fields, 4));
        assert_eq!(plant.coefficients.len(), COEFFICIENTS);
        let mut buffer = marked(length + 1);
        assert_eq!(write_plant(&plant, &mut buffer), Ok(length));
        assert_eq!((&buffer[..length], buffer[length]), (&bytes[..], 0xAA));
        assert_eq!(told(write_plant(&plant, &mut buffer[..length - 1])), (10, 0, 0));
        assert_eq!(told(read_plant(&bytes[..length - 1])), (1, length as u64 - 5, 0));
        assert_eq!(told(read_plant(&[&bytes[..], &[0]].concat())), (3, length as u64, 0));
    }
    // 5 at the last mode and dimension; a call, which keeps no mode, tells it too.
    let fields = longest_plant(2);
    let narrow = file(&with(&fields, fields.len() - 21, S(-1_000_000_000 + 9_998)));
    assert_eq!(told(read_plant(&narrow)), (5, 255, 3));
    assert_eq!(told(control(&narrow, &[], State::IDLE, [0; 4])), (5, 255, 3));
    assert_eq!(told(start_control(&narrow, &[], StartState::IDLE, [0; 4])), (5, 255, 3));
}

/// What a record lacks is written as zeros, what it holds beyond is not written.
#[test]
fn records_of_other_lengths() {
    let plant = read_plant(&P).expect("P");
    let mut longer = plant.clone();
    longer.coefficients.resize(COEFFICIENTS, i64::MAX);
    assert_eq!(plant_bytes(&longer), P);
    let shorter = Plant { coefficients: vec![9, 100, 9], ..plant };
    assert_eq!(plant_bytes(&shorter), file(&with(&p_fields(), 15, S(0))));
    let none = Plant { bands: vec![], q: 1, ..shorter };
    assert_eq!(read_plant(&plant_bytes(&none)).expect("a plant").bands[1].hi, [0; 4]);
}

#[test]
fn sheets_reach_16_modes_at_most() {
    let mut fields = vec![U(1), U(4), U(10), U(8), U(2), U(1)];
    fields.extend([195, 225, 190, 230].repeat(4).into_iter().map(S));
    fields.extend([-4, 3].repeat(4).into_iter().map(S));
    fields.extend([F(0.5), F(8.0)]);
    (0..4).for_each(|_| fields.extend([F(0.125), F(0.0), F(0.0), F(0.0), U(2), F(3.0)]));
    let plant = plant_of_sheet(&sheet_values(&fields, 4)).expect("a plant");
    assert_eq!((plant.modes, plant.coefficients.len()), (16, 320));
}

// ---- modes of two bytes

#[test]
fn modes_127_and_128_in_a_table() {
    for (mode, bytes) in [(0, vec![0]), (127, vec![127]), (128, vec![0x80, 1]), (200, vec![0xC8, 1]), (255, vec![0xFF, 1])] {
        let plant = file(&one_room(256, 1, &[(mode, 0, 4)]));
        let table = [&[1, 1, 1], &bytes[..]].concat();
        assert_eq!(made(&plant), table);
        assert_eq!(check(&plant, &table), Ok(()));
        assert_eq!(call(&plant, &table, 0, 0), Ok((mode as u8, (0, 0))));
        assert_eq!(call(&plant, &table, 3, 1), Ok((mode as u8, (0, 0))));
        assert_eq!(listing(&plant, 1), format!("table 1 1 1\n0 9 : {mode}\n"));
        let short = table.len() - 1;
        assert_eq!(told(make(&plant, 1, &mut marked(short))), (10, 0, 0));
    }
    // Not below N: 6 at the mode's first byte, and 12 of a running state.
    for (modes, mode) in [(127, 127), (128, 128), (129, 129), (255, 255), (256, 256), (256, 1 << 34)] {
        let plant = file(&one_room(modes, 1, &[(modes - 1, 0, 4)]));
        let table = file(&[U(1), U(1), U(1), U(mode)]);
        assert_eq!(told(check(&plant, &table)), (6, 3, 0));
        assert_eq!(call(&plant, &table, 0, 0), Err((6, 3, 0)));
        assert_eq!(call(&plant, &table, 3, 1), Err((12, 0, 0)));
    }
}

#[test]
fn the_state_moves_behind_the_mode() {
    for (first, second, table) in [
        (200, 3, vec![1, 1, 2, 0xC8, 1, 3]),
        (3, 200, vec![1, 1, 2, 3, 0xC8, 1]),
        (128, 255, vec![1, 1, 2, 0x80, 1, 0xFF, 1]),
    ] {
        let plant = two_steps(256, first, second);
        assert_eq!(made(&plant), table);
        assert_eq!(check(&plant, &table), Ok(()));
        let next = 3 + groups(first as u128).len() as u64;
        assert_eq!(call(&plant, &table, 0, 0), Ok((first as u8, (next, 1))));
        assert_eq!(call(&plant, &table, 3, 2), Ok((first as u8, (next, 1))));
        assert_eq!(call(&plant, &table, next, 1), Ok((second as u8, (0, 0))));
        assert_eq!(call(&plant, &table, next, 2), Err((12, 0, 0)));
    }
}

/// "A place inside a two-byte mode cannot be told and is read as it stands."
#[test]
fn a_state_inside_a_mode_of_two_bytes() {
    let plant = two_steps(256, 200, 3);
    let table = [1, 1, 2, 0xC8, 1, 3];
    assert_eq!(call(&plant, &table, 4, 1), Ok((1, (0, 0))));
    assert_eq!(call(&plant, &table, 4, 2), Ok((1, (5, 1))));
    // 0xC8 01 is 200, with 02 in place of 01 it would be 328, and 2 from the inside.
    let table = [1, 1, 2, 0xC8, 2, 3];
    assert_eq!(call(&plant, &table, 3, 1), Err((12, 0, 0)));
    assert_eq!(call(&plant, &table, 4, 1), Ok((2, (0, 0))));
    // With N 129 it is 200 that is not below N.
    assert_eq!(call(&two_steps(129, 128, 3), &[1, 1, 2, 0xC8, 1, 3], 3, 1), Err((12, 0, 0)));
}

#[test]
fn cut_inside_a_mode_of_two_bytes() {
    let plant = two_steps(256, 3, 200);
    let whole = [1, 1, 2, 3, 0xC8, 1];
    assert_eq!(told(check(&plant, &whole[..5])), (1, 4, 0));
    assert_eq!(call(&plant, &whole[..5], 0, 0), Err((1, 4, 0)));
    // 12: the mode behind the next runs off the table, or is a broken number.
    assert_eq!(call(&plant, &whole[..5], 3, 2), Err((12, 0, 0)));
    assert_eq!(call(&plant, &whole[..5], 3, 1), Ok((3, (0, 0))));
    assert_eq!(call(&plant, &whole[..5], 4, 1), Err((12, 0, 0)));
    for broken in [&[0x80, 0][..], &[0xC8, 0x80, 0], &[0x80, 0x80, 0x80, 0x80, 0x80, 1]] {
        let table = [&whole[..4], broken].concat();
        assert_eq!(told(check(&plant, &table)), (1, 4, 0));
        assert_eq!(call(&plant, &table, 3, 2), Err((12, 0, 0)));
        assert_eq!(call(&plant, &table, 3, 1), Ok((3, (0, 0))));
    }
    // Behind the tile the table may end anywhere.
    assert_eq!(call(&plant, &whole, 0, 0), Ok((3, (4, 1))));
}

/// "On old tables too": a later mode not below N, and one that is cut off.
#[test]
fn old_tables_with_a_wrong_later_mode() {
    let plant = p_prime();
    let at = |table: &[u8], place, left| told(control(&plant, table, State { place, left }, [200; 4]));
    assert_eq!(at(&[1, 1, 2, 0, 2], 3, 2), (12, 0, 0));
    assert_eq!(at(&[1, 1, 2, 0, 2], 3, 1), (0, 0, 0));
    assert_eq!(at(&[1, 1, 2, 0], 3, 2), (12, 0, 0));
    assert_eq!(at(&[1, 1, 2, 0, 1], 3, 2), (0, 0, 0));
    // 12 before 11.
    assert_eq!(told(control(&plant, &[1, 1, 2, 0, 2], State { place: 3, left: 2 }, [999; 4])), (12, 0, 0));
    // Places that would wrap.
    for place in [u64::MAX, u64::MAX - 1, 1 << 63, 1 << 32] {
        assert_eq!(at(&T5, place, 2), (12, 0, 0));
    }
}

// ---- start files

#[test]
fn start_files_with_modes_of_two_bytes() {
    let plant = two_steps(256, 128, 255);
    let chain = file(&chain_fields(&[[(0, 9)]]));
    let start = start_make(&plant, &chain, 1).expect("a start file");
    let table = [1, 1, 2, 0x80, 1, 0xFF, 1];
    assert_eq!(start, [&chain[..], &[7], &table, &[7], &table].concat());
    assert_eq!(start_check(&plant, &start), Ok(()));
    let standing = |index, place, left| StartState { index, place, left };
    let at = |start: &[u8], state| start_control(&plant, start, state, [5, 0, 0, 0]);
    assert_eq!(at(&start, StartState::IDLE), Ok((128, standing(0, 5, 1))));
    assert_eq!(at(&start, standing(1, 5, 1)), Ok((255, StartState::IDLE)));
    // The modes left are read within the table's length: the next table's bytes are none of it.
    assert_eq!(told(at(&start, standing(0, 5, 2))), (12, 0, 0));
    let cut = [&chain[..], &[6], &table[..6], &[1, 7], &table].concat();
    assert_eq!(told(at(&cut, standing(0, 3, 2))), (12, 0, 0));
    assert_eq!(told(start_check(&plant, &cut)), (1, 4 + 1 + 5, 0));
}

// ---- the largest tables

/// The turn by a sixth as mode 128, behind modes that lead out of S at once: each
/// reading its own tile of six modes of two bytes.
fn far_turning(at: i64) -> Vec<u8> {
    let limit = 1_000_000;
    let mut fields = vec![U(1), U(2), U(129), U(1), U(6), U(6)];
    fields.extend([at, at + 63, -limit, limit, at, at + 63, -limit, limit, 0, 0, 0, 0].map(S));
    (0..128).for_each(|_| fields.extend([0, 0, 2 * limit, 0, 0, 0].map(S)));
    fields.extend([4, -13, 0, 1, -3, 0].map(S));
    file(&fields)
}

#[test]
fn the_largest_table_of_form_1() {
    let plant = far_turning(1000);
    let mut table = marked(LARGEST_TABLE + 1);
    assert_eq!(make(&plant, 1, &mut table), Ok(54_615));
    assert_eq!(table[54_615], 0xAA);
    assert_eq!(table[..10], [1, 2, 0, 0, 0, 0, 0, 0, 6, 0x80]);
    table.truncate(54_615);
    assert_eq!(check(&plant, &table), Ok(()));
    assert_eq!(told(check(&plant, &table[..54_614])), (1, 54_613, 0));
    assert_eq!(told(make(&plant, 1, &mut marked(54_614))), (10, 0, 0));
    let last = [1063, 1063, 0, 0];
    let (mode, state) = control(&plant, &table, State::IDLE, last).expect("an answer");
    assert_eq!((mode, state), (128, State { place: 54_605, left: 5 }));
    assert_eq!(control(&plant, &table, State { place: 54_613, left: 1 }, last), Ok((128, State::IDLE)));
    assert_eq!(told(control(&plant, &table, State { place: 54_613, left: 2 }, last)), (12, 0, 0));
}

#[test]
fn the_largest_start_file_of_form_1() {
    let plant = far_turning(9000);
    let chain = chain_fields(&[[(9000, 9063), (9000, 9063)]; MOST_BOXES]);
    let table = made(&plant);
    let start = file(&start_fields(&chain, &[&table[..]; MOST_BOXES + 1]));
    assert_eq!(start.len(), 491_660);
    assert_eq!(start_make(&plant, &file(&chain), 1).as_ref(), Ok(&start));
    assert_eq!(told(start_make_into(&plant, &file(&chain), 1, &mut marked(491_659))), (10, 0, 0));
    assert_eq!(start_check(&plant, &start), Ok(()));
    let last = StartState { index: 8, place: 54_613, left: 1 };
    assert_eq!(start_control(&plant, &start, last, [9063; 4]), Ok((128, StartState::IDLE)));
}

// ---- by the slow ways

/// Plants of many modes with the slow maker's table, patterns of one and of two.
fn many(seed: u64, ones: usize, twos: usize) -> Vec<(Plant, Option<Vec<u8>>)> {
    let mut random = Random(seed);
    let mut all = vec![];
    while all.len() < ones + twos {
        let k = if all.len() < ones { 1 } else { 2 };
        let mut plant = many_modes_plant(&mut random, k);
        if k == 2 && plant.n > 1 {
            continue;
        }
        plant.d = plant.d.min(3 - k);
        let table = slow_table(&plant, &r_of(&plant), &r_of(&plant));
        all.push((plant, table));
    }
    all
}

#[test]
fn the_maker_agrees_over_many_modes() {
    let (mut none, mut far, mut split, mut long) = (0, 0, 0, 0);
    for (plant, slow) in many(31, 1_200, 500) {
        let bytes = plant_bytes(&plant);
        let mut buffer = marked(4_000);
        let answer = make(&bytes, 1, &mut buffer);
        match slow {
            None => {
                assert_eq!(told(answer), (9, 0, 0), "{plant:?}");
                none += 1;
            }
            Some(table) => {
                assert_eq!(answer, Ok(table.len()), "{plant:?}");
                assert_eq!(buffer[..table.len()], table, "{plant:?}");
                assert_eq!(check(&bytes, &table), Ok(()));
                far += usize::from(table.iter().any(|byte| *byte >= 128));
                split += usize::from(table[2] == 0);
                long += usize::from(table[2] > 1);
            }
        }
    }
    assert!(none > 50 && far > 50 && split > 20 && long > 5, "{none} {far} {split} {long}");
}

/// A number of a table made another: near it, near 128 and 256, broken or cut.
fn damaged(random: &mut Random, table: &[u8]) -> Vec<u8> {
    let mut other = table.to_vec();
    let at = random.within(0, table.len() as i64 - 1) as usize;
    let near = other[at].wrapping_add([1, 2, 254, 255][random.within(0, 3) as usize]);
    let byte = [0, 1, 2, near, 0x7F, 0x80, 0x81, 0xFF][random.within(0, 7) as usize];
    match random.within(0, 5) {
        0 => other.truncate(at),
        1 => other.insert(at, byte),
        2 => drop(other.remove(at)),
        3 => other.push(byte),
        _ => other[at] = byte,
    }
    other
}

/// 12 by reading the modes one after another, with document 01's other tests.
fn slow_state(plant: &Plant, table: &[u8], state: State) -> Result<(u64, u64), Told> {
    if state.left == 0 || state.left > plant.k || state.place < 2 || state.place > table.len() as u64 {
        return Err((12, 0, 0));
    }
    let (mut at, mut modes, mut ends) = (state.place as usize, vec![], vec![]);
    for _ in 0..state.left {
        let (mode, next) = slow_number(table, at).filter(|(mode, _)| *mode < plant.modes).ok_or((12, 0, 0))?;
        modes.push(mode);
        ends.push(next as u64);
        at = next;
    }
    Ok((modes[0], ends[0]))
}

#[test]
fn checker_and_states_agree_over_many_modes() {
    let mut random = Random(32);
    let (mut seen, mut states) = ([0; 9], [0; 2]);
    for (plant, slow) in many(33, 600, 30) {
        let Some(table) = slow else { continue };
        let bytes = plant_bytes(&plant);
        for _ in 0..40 {
            let other = damaged(&mut random, &table);
            let answer = told(check(&bytes, &other));
            assert_eq!(answer, slow_check(&plant, &other), "{plant:?} {other:?}");
            seen[answer.0 as usize] += 1;
            if other.len() < 2 || other[..2] != table[..2] {
                continue;
            }
            let state = State { place: random.within(1, other.len() as i64 + 1) as u64, left: random.within(1, 3) as u64 };
            let reading = reading_in(&plant.edges.s_lo, &plant.edges.s_hi, plant.n as usize, &mut random);
            let answer = control(&bytes, &other, state, reading).map_err(|refusal| told::<()>(Err(refusal)));
            let wanted = slow_state(&plant, &other, state).map(|(mode, next)| {
                let left = state.left - 1;
                (mode as u8, State { place: if left == 0 { 0 } else { next }, left })
            });
            assert_eq!(answer, wanted, "{plant:?} {other:?} {state:?}");
            states[usize::from(wanted.is_err())] += 1;
        }
    }
    assert!([0, 1, 2, 6, 7, 8].iter().all(|number| seen[*number] > 20), "{seen:?}");
    assert!(states.iter().all(|times| *times > 200), "{states:?}");
}

/// Rooms driven from tile to tile, by the states that come.
#[test]
fn rooms_of_many_modes_are_kept() {
    let mut random = Random(34);
    let mut far = 0;
    for (plant, slow) in many(35, 500, 200) {
        let Some(table) = slow else { continue };
        let (bytes, edges, n) = (plant_bytes(&plant), plant.edges, plant.n as usize);
        let mut reading = reading_in(&edges.r_lo, &edges.r_hi, n, &mut random);
        let (mut state, mut since_r) = (State::IDLE, 0);
        for _ in 0..40 {
            let (mode, next) = control(&bytes, &table, state, reading).expect("an answer");
            far += usize::from(mode >= 128);
            reading = next_reading(&plant, mode, &reading, &mut random);
            since_r += 1;
            assert!((0..n).all(|i| edges.s_lo[i] <= reading[i] && reading[i] <= edges.s_hi[i]), "left S");
            assert!(since_r <= plant.k, "not back in time");
            since_r = if next == State::IDLE { 0 } else { since_r };
            state = next;
        }
    }
    assert!(far > 500, "{far}");
}

#[test]
fn the_reader_agrees_on_damaged_plants_of_many_modes() {
    let mut random = Random(36);
    let mut seen = [0; 6];
    for round in 0..300 {
        let one = many_modes_plant(&mut random, 1);
        let plant = if round % 2 == 0 { one } else { with_own_bands(&one, &mut random) };
        let bytes = plant_bytes(&plant);
        for _ in 0..100 {
            let other = damaged(&mut random, &bytes);
            let answer = told(read_plant(&other));
            assert_eq!(answer, slow_plant(&other));
            // A call, which keeps no mode, tells the same.
            let called = told(control(&other, &[], State::IDLE, [0; 4]));
            assert_eq!(called, if answer.0 == 0 { (1, 0, 0) } else { answer });
            seen[answer.0 as usize] += 1;
        }
    }
    assert!([0, 1, 3, 5].iter().all(|number| seen[*number] > 50) && seen[2] > 0, "{seen:?}");
}
