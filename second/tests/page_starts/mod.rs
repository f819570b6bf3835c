//! Start files (request 2026-03) on the page: a small plant of one room and one of two, each with a chain and the file made of
//! it; then these files are spoilt and buffers, states and readings drawn until each number has been told that can be.

use super::{bytes, left, refused, verdict, wholes, Page, FORM};
use crate::common::{chain_fields, file, marked, start_fields, Field, Random, P, S, U};
use second::refusal::Refusal;
use second::start::{start_check, start_control, start_make, start_make_into, StartState};
use std::collections::HashSet;

/// What checker, maker and call can tell, 0 being done. A number that stands twice is told with two answers.
const CHECKER: [u8; 11] = [0, 1, 2, 3, 3, 4, 5, 6, 7, 8, 15];
const MAKER: [u8; 9] = [0, 1, 2, 3, 4, 5, 9, 10, 15];
const CALL: [u8; 10] = [0, 1, 2, 3, 4, 5, 6, 11, 12, 15];

/// Both sides of an equation, and the number that is told.
struct Said {
    number: u8,
    left: String,
    right: String,
}

impl Said {
    fn put(self, page: &mut Page) {
        page.equation(&self.left, &self.right);
    }
}

fn number<T>(answer: &Result<T, Refusal>) -> u8 {
    answer.as_ref().err().map_or(0, |refusal| refusal.number)
}

fn check(plant: &[u8], start: &[u8]) -> Said {
    let answer = start_check(plant, start);
    let left = format!("start_checked ({}) ({})", bytes(plant), bytes(start));
    Said { number: number(&answer), left, right: verdict(&answer) }
}

fn make(plant: &[u8], chain: &[u8], length: usize) -> Said {
    let mut buffer = marked(length);
    let answer = start_make_into(plant, chain, FORM, &mut buffer);
    let lent = format!("start_left ({}) ({}) {FORM} (lent {length})", bytes(plant), bytes(chain));
    Said { number: number(&answer), left: lent, right: left(&answer, &buffer) }
}

fn standing(state: &StartState) -> String {
    format!("record {{ index = {}; state = record {{ place = {}; left = {} }} }}", state.index, state.place, state.left)
}

fn call(plant: &[u8], start: &[u8], state: StartState, reading: [i64; 4]) -> Said {
    let answer = start_control(plant, start, state, reading);
    let right = match &answer {
        Ok((mode, next)) => format!("Ok ({mode}, {})", standing(next)),
        Err(refusal) => refused(refusal),
    };
    let reading = wholes(&reading.map(i128::from));
    let left = format!("start_controlled ({}) ({}) ({}) ({reading})", bytes(plant), bytes(start), standing(&state));
    Said { number: number(&answer), left, right }
}

/// Draws until all these numbers have been told, each time with another answer; the equations stand in their order.
fn telling(page: &mut Page, numbers: &[u8], mut draw: impl FnMut() -> Said) {
    let mut wanted = numbers.to_vec();
    let mut answers = HashSet::new();
    let mut all = Vec::new();
    for said in (0..1_000_000).map(|_| draw()) {
        let place = wanted.iter().position(|number| *number == said.number);
        if let Some(place) = place.filter(|_| answers.insert(said.right.clone())) {
            wanted.remove(place);
            all.push(said);
        }
        if wanted.is_empty() {
            break;
        }
    }
    assert_eq!(wanted, [], "never told");
    all.sort_by_key(|said| said.number);
    all.into_iter().for_each(|said| said.put(page));
}

// ---- the inputs

/// A plant of n rooms, a chain for it and the start file made of both; Rm's low corner, and the running state that the idle call
/// there leaves, whose index is m.
struct Cold {
    n: usize,
    plant: Vec<u8>,
    chain: Vec<u8>,
    start: Vec<u8>,
    corner: [i64; 4],
    running: StartState,
}

/// A box that holds the one before with some counts to spare on both sides.
fn wider(random: &mut Random, sides: &[(i64, i64)]) -> Vec<(i64, i64)> {
    sides.iter().map(|(lo, hi)| (lo - random.within(1, 6), hi + random.within(1, 6))).collect()
}

/// A plant with K 2 and D 1, each of its modes drawing towards a point about R.
fn small_plant(random: &mut Random, r: &[(i64, i64)], s: &[(i64, i64)]) -> Vec<Field> {
    let (modes, q) = (random.within(2, 3), random.within(4, 9));
    let mut fields = vec![U(1), U(r.len() as u64), U(modes as u64), U(q as u64), U(2), U(1)];
    fields.extend(r.iter().zip(s).flat_map(|(r, s)| [r.0, r.1, s.0, s.1].map(S)));
    for _ in r {
        let lo = random.within(-q, 0);
        fields.extend([lo, lo + q - 1].map(S));
    }
    for _ in 0..modes {
        let towards: Vec<i64> = r.iter().map(|(lo, hi)| random.within(lo - 3, hi + 3)).collect();
        for i in 0..r.len() {
            let row: Vec<i64> = (0..r.len()).map(|j| if j == i { random.within(1, q) } else { random.within(-1, 1) }).collect();
            let drawn: i64 = row.iter().zip(&towards).map(|(a, x)| a * x).sum();
            fields.extend(row.into_iter().chain([q * towards[i] - drawn]).map(S));
        }
    }
    fields
}

/// One drawn plant and chain, S the box behind Rm. None where there is no start file, none of its tables splits (24 bytes and
/// less), it is long, or the call in Rm's low corner leaves the room idle.
fn drawn(random: &mut Random, n: usize, m: usize) -> Option<Cold> {
    let r: Vec<(i64, i64)> = (0..n).map(|_| random.within(-20, 20)).map(|lo| (lo, lo + 12)).collect();
    let mut boxes = vec![r.clone()];
    for _ in 0..=m {
        boxes.push(wider(random, &boxes[boxes.len() - 1]));
    }
    let plant = file(&small_plant(random, &r, &boxes[m + 1]));
    let chain = file(&chain_fields(&boxes[1..=m]));
    let start = start_make(&plant, &chain, FORM).ok().filter(|start| (25..48).contains(&start.len()))?;
    let mut corner = [0; 4];
    boxes[m].iter().zip(&mut corner).for_each(|(side, x)| *x = side.0);
    let (_, running) = start_control(&plant, &start, StartState::IDLE, corner).expect("an answer in Rm");
    (running != StartState::IDLE).then_some(Cold { n, plant, chain, start, corner, running })
}

/// A file with a byte changed, cut off or put behind; now and then as it is.
fn spoilt(random: &mut Random, bytes: &[u8]) -> Vec<u8> {
    let mut other = bytes.to_vec();
    let at = random.within(0, bytes.len() as i64 - 1) as usize;
    match random.within(0, 6) {
        0 => other.truncate(at),
        1 => other.push(random.within(0, 255) as u8),
        2 => other[at] = random.within(0, 9) as u8,
        3 => other[at] ^= 0x80,
        4 | 5 => other[at] = other[at].wrapping_add(random.within(-9, 9) as u8),
        _ => {}
    }
    other
}

impl Cold {
    /// The plant and the other file, one of them spoilt: seldom the plant, whose refusals stand on the page already.
    fn files(&self, random: &mut Random, other: &[u8]) -> (Vec<u8>, Vec<u8>) {
        match random.within(0, 99) {
            0 => (spoilt(random, &self.plant), other.to_vec()),
            _ => (self.plant.clone(), spoilt(random, other)),
        }
    }

    /// Idle, or a state about those that can be.
    fn state(&self, random: &mut Random) -> StartState {
        if random.within(0, 1) == 0 {
            return StartState::IDLE;
        }
        let mut up_to = |most: usize| random.within(0, most as i64) as u64;
        StartState { index: up_to(self.running.index as usize + 1), place: up_to(9), left: up_to(3) }
    }
}

/// The equations of a plant of n rooms and a chain of m boxes around R.
pub fn starts(page: &mut Page, seed: u64, n: usize, m: usize) {
    page.section(&format!("start files, rooms and boxes around R: {n} and {m}"));
    let random = &mut Random(seed);
    let cold = std::iter::repeat_with(|| drawn(random, n, m)).flatten().next().expect("a start file");
    telling(page, &CHECKER, || {
        let (plant, start) = cold.files(random, &cold.start);
        check(&plant, &start)
    });
    telling(page, &MAKER, || {
        let (plant, chain) = cold.files(random, &cold.chain);
        make(&plant, &chain, cold.start.len() - 1 + random.within(0, 3) as usize)
    });
    call(&cold.plant, &cold.start, StartState::IDLE, cold.corner).put(page);
    call(&cold.plant, &cold.start, cold.running, cold.corner).put(page);
    telling(page, &CALL, || {
        let (plant, start) = cold.files(random, &cold.start);
        let mut reading = [0; 4];
        reading[..cold.n].fill_with(|| random.within(-45, 45));
        call(&plant, &start, cold.state(random), reading)
    });
}

/// P and R1 190..230 with inner tables of form 2: "past the file" is past the table's own length. 4 is no form.
pub fn starts_by_lengths(page: &mut Page) {
    page.section("form 2 in start files");
    let chain = chain_fields(&[[(190, 230)]]);
    let table = |length: u8| [2, 1, 0, length, 1, 1, 1, 0];
    let start = |first: &[u8]| file(&start_fields(&chain, &[first, &[1, 1, 0, 1, 1, 1, 0]]));
    check(&P, &start(&table(2))).put(page);
    check(&P, &start(&table(3))).put(page);
    check(&P, &start(&[4, 1, 0, 2, 1, 1, 1, 0])).put(page);
    for (length, x) in [(2, 225), (5, 225), (5, 190)] {
        call(&P, &start(&table(length)), StartState::IDLE, [x, 0, 0, 0]).put(page);
    }
}
