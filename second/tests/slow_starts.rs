//! Start files against slow ways of saying the same: the maker's tables one by
//! one from the slow maker, the checker by cutting each table out, judging it
//! alone and moving what is told of it, the call as that of the table alone for
//! a plant whose R is the chosen box.

mod common;
mod slow;
use common::*;
use second::control::{control, State};
use second::plant::{read_plant, Plant};
use second::start::{start_check, start_control, start_make, StartState};
use slow::*;

fn edge(bytes: &[u8], place: usize, least: i128) -> Result<(i128, usize), Told> {
    let (stored, next) = slow_number_or_1(bytes, place)?;
    let value = if stored % 2 == 0 { i128::from(stored) / 2 } else { -i128::from(stored + 1) / 2 };
    if value < least || value > 1_000_000 { Err((3, place as u64, 0)) } else { Ok((value, next)) }
}

/// R0..Rm and where the edges end.
fn slow_chain(plant: &Plant, bytes: &[u8]) -> Result<(Vec<Wide>, usize), Told> {
    let (form, m_place) = slow_number_or_1(bytes, 0)?;
    if form != 1 {
        return Err((2, 0, 0));
    }
    let (m, mut at) = slow_number_or_1(bytes, m_place)?;
    if m > 8 {
        return Err((3, m_place as u64, 0));
    }
    let mut boxes = vec![r_of(plant)];
    for _ in 0..m {
        let mut here = (vec![], vec![]);
        for _ in 0..plant.n {
            let (lo, next) = edge(bytes, at, -1_000_000)?;
            let (hi, next) = edge(bytes, next, lo)?;
            here.0.push(lo);
            here.1.push(hi);
            at = next;
        }
        boxes.push(here);
    }
    Ok((boxes, at))
}

/// 15, by the pairs.
fn slow_fault(plant: &Plant, boxes: &[Wide]) -> Result<(), Told> {
    let sound = |pair: &[Wide]| inside(&pair[0], &pair[1]) && inside(&pair[1], &s_of(plant));
    match boxes.windows(2).position(|pair| !sound(pair)) {
        Some(before) => Err((15, before as u64 + 1, 0)),
        None => Ok(()),
    }
}

fn slow_start_make(plant: &Plant, chain: &[u8], form: u64) -> Result<Vec<u8>, Told> {
    let (boxes, end) = slow_chain(plant, chain)?;
    if end < chain.len() {
        return Err((3, end as u64, 0));
    }
    slow_fault(plant, &boxes)?;
    slow_start(plant, &boxes[1..], &[form; 9]).map_err(|index| (9, index, 0))
}

/// The table whose length stands at a place: its own place and its bytes.
fn slow_part(start: &[u8], place: usize) -> Result<(usize, &[u8]), Told> {
    let (length, first) = slow_number_or_1(start, place)?;
    if u128::from(length) > (start.len() - first) as u128 {
        return Err((3, place as u64, 0));
    }
    Ok((first, &start[first..first + length as usize]))
}

/// What a table alone tells, as its start file tells it.
fn moved((number, place, step): Told, by: usize) -> Told {
    let in_bytes = [1, 2, 6, 7, 8].contains(&number);
    (number, if in_bytes { place + by as u64 } else { place }, step)
}

fn slow_start_check(plant: &Plant, start: &[u8]) -> Result<(), Told> {
    let (boxes, mut at) = slow_chain(plant, start)?;
    slow_fault(plant, &boxes)?;
    for (root, goal) in tasks(plant, &boxes[1..]) {
        let (first, table) = slow_part(start, at)?;
        let end = slow_verdict(plant, &root, &goal, table).map_err(|told| moved(told, first))?;
        if end < table.len() {
            return Err((3, at as u64, 0));
        }
        at = first + table.len();
    }
    if at < start.len() { Err((3, at as u64, 0)) } else { Ok(()) }
}

/// The call by the table alone: it knows no goal, so the plant may have Ri for R.
fn slow_start_control(
    plant: &Plant,
    start: &[u8],
    state: StartState,
    reading: [i64; 4],
) -> Result<(u8, StartState), Told> {
    let (boxes, mut at) = slow_chain(plant, start)?;
    slow_fault(plant, &boxes)?;
    let StartState { index, place, left } = state;
    let idle = place == 0 && left == 0;
    if index >= boxes.len() as u64 || idle && index > 0 {
        return Err((12, 0, 0));
    }
    let n = plant.n as usize;
    let holds = |of: &Wide| inside(&wide(&reading, &reading, n), of);
    let index = if idle {
        // for a reading outside Rm the last is as good as any: 11 comes before its table
        boxes.iter().position(holds).unwrap_or(boxes.len() - 1)
    } else {
        index as usize
    };
    let mut other = plant.clone();
    for i in 0..n {
        (other.edges.r_lo[i], other.edges.r_hi[i]) = (boxes[index].0[i] as i64, boxes[index].1[i] as i64);
    }
    let other = plant_bytes(&other);
    if idle && !holds(&boxes[index]) {
        return Err(told(control(&other, &[1, plant.n as u8, 1, 0], State::IDLE, reading)));
    }
    for _ in 0..index {
        let (first, table) = slow_part(start, at)?;
        at = first + table.len();
    }
    let (first, table) = slow_part(start, at)?;
    match control(&other, table, State { place, left }, reading) {
        Err(refusal) => Err(moved(told::<()>(Err(refusal)), first)),
        Ok((mode, State::IDLE)) => Ok((mode, StartState::IDLE)),
        Ok((mode, next)) => Ok((mode, StartState { index: index as u64, place: next.place, left: next.left })),
    }
}

/// How often each number came, 0 for done.
type Numbers = [usize; 16];

fn came(numbers: &Numbers, wanted: &[usize], often: usize) {
    for (number, times) in numbers.iter().enumerate() {
        assert_eq!(*times > often, wanted.contains(&number), "{number}: {numbers:?}");
        assert!(*times == 0 || wanted.contains(&number), "{number}: {numbers:?}");
    }
}

fn checked(numbers: &mut Numbers, plant: &Plant, bytes: &[u8], start: &[u8]) {
    let answer = told(start_check(bytes, start));
    let slow = slow_start_check(plant, start).map_or_else(|told| told, |()| (0, 0, 0));
    assert_eq!(answer, slow, "{plant:?} {start:02X?}");
    numbers[answer.0 as usize] += 1;
}

fn called(numbers: &mut Numbers, plant: &Plant, bytes: &[u8], start: &[u8], state: StartState, x: [i64; 4]) {
    let answer = start_control(bytes, start, state, x).map_err(|refusal| told::<()>(Err(refusal)));
    assert_eq!(answer, slow_start_control(plant, start, state, x), "{plant:?} {start:02X?} {state:?} {x:?}");
    numbers[answer.map_or_else(|told| told.0, |_| 0) as usize] += 1;
}

/// How many of a start file's tables are split, and how many begin with a longer
/// pattern.
fn shapes(start: &[u8], mut at: usize) -> (usize, usize) {
    let (mut split, mut long) = (0, 0);
    while at < start.len() {
        let (first, table) = slow_part(start, at).expect("a table");
        split += usize::from(table[2] == 0);
        long += usize::from(table[2] > 1);
        at = first + table.len();
    }
    (split, long)
}

fn the_start_maker_agrees(form: u64, seed: u64, times: usize) {
    let mut random = Random(seed);
    let (mut none, mut deep, mut split, mut long) = ([0; 9], 0, 0, 0);
    for _ in 0..times {
        let (plant, chain) = cold_plant(&mut random);
        let (bytes, chain) = (plant_bytes(&plant), chain_bytes(&chain));
        let answer = start_make(&bytes, &chain, form).map_err(|refusal| told::<()>(Err(refusal)));
        assert_eq!(answer, slow_start_make(&plant, &chain, form), "{plant:?} {chain:?}");
        match answer {
            Err((number, index, _)) => {
                assert_eq!(number, 9);
                none[index as usize] += 1;
            }
            Ok(start) => {
                assert_eq!(start_check(&bytes, &start), Ok(()));
                deep += usize::from(start[1] > 1);
                let (more_split, more_long) = shapes(&start, chain.len());
                (split, long) = (split + more_split, long + more_long);
            }
        }
    }
    assert!(none[..4].iter().all(|times| *times > 20), "{none:?}");
    assert!(deep > 100 && split > 100 && long > 100, "{deep} {split} {long}");
}

#[test]
fn the_start_maker_agrees_with_the_slow_one() {
    the_start_maker_agrees(1, 11, 6_000);
}

#[test]
fn the_start_maker_agrees_with_the_slow_one_in_form_3() {
    the_start_maker_agrees(3, 45, 4_000);
}

#[test]
fn the_start_maker_agrees_with_the_slow_one_in_form_2() {
    the_start_maker_agrees(2, 53, 4_000);
}

/// A start file with a byte changed, put in, taken out or behind, or cut.
fn damaged(random: &mut Random, start: &[u8]) -> Vec<u8> {
    let mut other = start.to_vec();
    let at = random.within(0, start.len() as i64 - 1) as usize;
    let near = other[at].wrapping_add([1, 2, 254, 255][random.within(0, 3) as usize]);
    let byte = [0, 1, 2, 3, near, near, 0x80, 0x81, random.next() as u8][random.within(0, 8) as usize];
    match random.within(0, 6) {
        0 => other.truncate(at),
        1 => other.insert(at, byte),
        2 => drop(other.remove(at)),
        3 => other.push(byte),
        _ => other[at] = byte,
    }
    other
}

#[test]
fn the_start_checker_agrees_on_damaged_files() {
    let mut random = Random(12);
    let mut numbers = [0; 16];
    for (plant, bytes, _, start) in made_starts(120, 150).into_iter().chain(mixed_starts(121, 150)) {
        checked(&mut numbers, &plant, &bytes, &start);
        for _ in 0..120 {
            let mut other = damaged(&mut random, &start);
            if random.within(0, 3) == 0 && !other.is_empty() {
                other = damaged(&mut random, &other);
            }
            checked(&mut numbers, &plant, &bytes, &other);
        }
    }
    came(&numbers, &[0, 1, 2, 3, 6, 7, 8, 15], 20);
}

/// Any reading about the boxes and any state, on whole and on damaged files.
#[test]
fn the_call_agrees_with_that_of_the_table_alone() {
    let mut random = Random(13);
    let mut numbers = [0; 16];
    for (plant, bytes, chain, start) in made_starts(130, 150).into_iter().chain(mixed_starts(131, 150)) {
        for _ in 0..150 {
            let index = [0, random.within(0, chain.len() as i64 + 1) as u64, random.next()];
            let place = [0, random.within(2, 14) as u64, random.within(2, start.len() as i64) as u64, random.next()];
            let start = if random.within(0, 2) == 0 { damaged(&mut random, &start) } else { start.clone() };
            let left = [0, 1, random.within(1, 7) as u64, random.next()];
            let state = match random.within(0, 5) {
                0..=2 => StartState::IDLE,
                kind => StartState {
                    index: index[random.within(0, 2).min(kind - 3) as usize],
                    place: place[random.within(0, 3) as usize],
                    left: left[random.within(0, 3) as usize],
                },
            };
            let mut x = [i64::MAX; 4];
            for i in 0..plant.n as usize {
                let of = [&r_of(&plant), &chain[chain.len() - 1], &s_of(&plant)][random.within(0, 2) as usize].clone();
                let near = random.within(0, 5) / 5;
                x[i] = random.within(of.0[i] as i64 - near, of.1[i] as i64 + near);
            }
            called(&mut numbers, &plant, &bytes, &start, state, x);
        }
    }
    came(&numbers, &[0, 1, 2, 3, 6, 11, 12, 15], 20);
}

/// Every byte of the two worked examples with every value, checked and called
/// with every reading about R1 and with running states.
#[test]
fn every_damage_of_the_worked_examples() {
    let examples = [
        (P.to_vec(), file(&chain_fields(&[[(190, 230)]]))),
        (cold_p(), file(&cold_chain())),
    ];
    let (mut verdicts, mut calls) = ([0; 16], [0; 16]);
    for (form, (bytes, chain)) in [1, 2].into_iter().flat_map(|form| examples.iter().map(move |example| (form, example))) {
        let plant = read_plant(bytes).expect("a plant");
        let start = start_make(bytes, chain, form).expect("a start file");
        for at in 0..start.len() {
            for byte in 0..=255 {
                let mut other = start.clone();
                other[at] = byte;
                checked(&mut verdicts, &plant, bytes, &other);
                for x in [149, 159, 160, 179, 180, 189, 190, 194, 195, 210, 211, 225, 226, 230, 231, 240] {
                    called(&mut calls, &plant, bytes, &other, StartState::IDLE, [x, 0, 0, 0]);
                }
                for (index, place, left) in [(0, 4, 1), (1, 5, 1), (1, 6, 1), (2, 5, 1), (1, 5, 2), (2, 7, 1)] {
                    called(&mut calls, &plant, bytes, &other, StartState { index, place, left }, [200; 4]);
                }
            }
        }
    }
    came(&verdicts, &[0, 1, 2, 3, 6, 7, 8, 15], 5);
    came(&calls, &[0, 1, 2, 3, 6, 11, 12, 15], 5);
}
