//! What 2026-03 wants of a start file: "started idle on any reading in Ri, an
//! idle call meets a reading in R within the sum of the longest patterns of
//! tables 1..i, no call is refused, every reading is in S, and demand 3 holds
//! from that call on, with R0's table." On one-room plants over all readings
//! that may follow, on others over the lowest, the highest and any.

mod common;
mod slow;
use common::*;
use second::control::{control, State};
use second::plant::Plant;
use second::start::{start_check, start_control, start_make, StartState};
use slow::*;
use std::collections::HashMap;

/// A plant, its chain with R first, and a start file for it.
struct Cold {
    plant: Plant,
    bytes: Vec<u8>,
    boxes: Vec<Wide>,
    start: Vec<u8>,
    tables: Vec<Vec<u8>>,
}

impl Cold {
    fn new(plant: Plant, bytes: Vec<u8>, chain: &[Wide], start: Vec<u8>) -> Cold {
        assert_eq!(start_check(&bytes, &start), Ok(()));
        let mut at = chain_bytes(chain).len();
        let mut tables = vec![];
        while at < start.len() {
            let (length, first) = slow_number(&start, at).expect("a length");
            at = first + length as usize;
            tables.push(start[first..at].to_vec());
        }
        Cold { boxes: [&[r_of(&plant)], chain].concat(), plant, bytes, start, tables }
    }

    fn holds(&self, of: &Wide, x: &[i64; 4]) -> bool {
        inside(&wide(x, x, self.plant.n as usize), of)
    }

    /// The sum of the longest patterns of tables 1..i, i the lowest index that
    /// holds the reading.
    fn bound(&self, x: &[i64; 4]) -> usize {
        let index = self.boxes.iter().position(|of| self.holds(of, x)).expect("a box");
        self.tables[1..=index].iter().map(|table| longest_pattern(table)).sum()
    }

    fn arrived(&self, state: StartState, x: &[i64; 4]) -> bool {
        state == StartState::IDLE && self.holds(&self.boxes[0], x)
    }

    /// A call that must be answered, on a reading that must lie in S.
    fn answer(&self, state: StartState, x: &[i64; 4]) -> (u8, StartState) {
        assert!(self.holds(&s_of(&self.plant), x), "{x:?} outside S: {:?}", self.plant);
        start_control(&self.bytes, &self.start, state, *x).expect("an answer")
    }

    /// From arrival on, the call is table 0's.
    fn answer_after_arrival(&self, state: StartState, x: &[i64; 4]) -> (u8, StartState) {
        let (mode, next) = self.answer(state, x);
        let alone = State { place: state.place, left: state.left };
        let wanted = control(&self.bytes, &self.tables[0], alone, *x).expect("an answer");
        assert_eq!((mode, State { place: next.place, left: next.left }), wanted);
        assert_eq!((state.index, next.index), (0, 0));
        (mode, next)
    }
}

/// Tiles and splits stand in a row, a byte for each number.
fn longest_pattern(table: &[u8]) -> usize {
    let (mut at, mut longest) = (2, 0);
    while at < table.len() {
        longest = longest.max(table[at].into());
        at += 1 + usize::from(table[at]);
    }
    longest
}

/// One room under every reading that may follow.
struct Everywhere<'a> {
    cold: &'a Cold,
    /// The most samples until an idle call in R; None while it is being found.
    worst: HashMap<(u64, u64, u64, i64), Option<usize>>,
}

impl Everywhere<'_> {
    /// A state and reading met again on the way to themselves never arrive.
    fn worst(&mut self, state: StartState, x: i64) -> usize {
        let reading = [x, 0, 0, 0];
        if self.cold.arrived(state, &reading) {
            return 0;
        }
        let key = (state.index, state.place, state.left, x);
        if let Some(known) = self.worst.get(&key) {
            return known.unwrap_or_else(|| panic!("{key:?} comes round again"));
        }
        self.worst.insert(key, None);
        let (mode, next) = self.cold.answer(state, &reading);
        let (lowest, highest) = following(&self.cold.plant, mode, &reading);
        let most = (lowest[0] as i64..=highest[0] as i64).map(|y| self.worst(next, y)).max();
        let worst = 1 + most.expect("some reading follows");
        self.worst.insert(key, Some(worst));
        worst
    }

    /// Everything that can follow an arrival, whatever is read.
    fn after_arrival(&self) -> usize {
        let r = &self.cold.boxes[0];
        let mut to_come: Vec<(StartState, i64)> =
            (r.0[0] as i64..=r.1[0] as i64).map(|x| (StartState::IDLE, x)).collect();
        let mut seen = HashMap::new();
        while let Some((state, x)) = to_come.pop() {
            if seen.insert((state.place, state.left, x), ()).is_some() {
                continue;
            }
            assert!(state != StartState::IDLE || self.cold.arrived(state, &[x, 0, 0, 0]));
            let (mode, next) = self.cold.answer_after_arrival(state, &[x, 0, 0, 0]);
            let (lowest, highest) = following(&self.cold.plant, mode, &[x, 0, 0, 0]);
            to_come.extend((lowest[0] as i64..=highest[0] as i64).map(|y| (next, y)));
        }
        seen.len()
    }
}

/// Every reading of Rm as the first, every run from it; how many first readings
/// reached their bound, in boxes 2 and up too.
fn every_run(cold: &Cold) -> (usize, usize) {
    let mut everywhere = Everywhere { cold, worst: HashMap::new() };
    let last = cold.boxes.last().expect("R");
    let (mut sharp, mut far) = (0, 0);
    for x in last.0[0] as i64..=last.1[0] as i64 {
        let (worst, bound) = (everywhere.worst(StartState::IDLE, x), cold.bound(&[x, 0, 0, 0]));
        assert!(worst <= bound, "{worst} samples from {x}, {bound} promised: {:?}", cold.plant);
        sharp += usize::from(worst == bound && bound > 0);
        far += usize::from(worst > cold.plant.k as usize);
    }
    assert!(everywhere.after_arrival() > 0);
    (sharp, far)
}

#[test]
fn every_run_of_the_worked_example() {
    let bytes = cold_p();
    let plant = second::plant::read_plant(&bytes).expect("a plant");
    let chain: Vec<Wide> = vec![(vec![180], vec![225]), (vec![160], vec![230])];
    let start = start_make(&bytes, &chain_bytes(&chain), 1).expect("a start file");
    let cold = Cold::new(plant.clone(), bytes, &chain, start);
    assert_eq!([0, 1, 2].map(|index| longest_pattern(&cold.tables[index])), [2, 2, 2]);
    assert_eq!(cold.bound(&[160, 0, 0, 0]), 4);
    let mut everywhere = Everywhere { cold: &cold, worst: HashMap::new() };
    assert_eq!(everywhere.worst(StartState::IDLE, 160), 4);
    assert_eq!(everywhere.worst(StartState::IDLE, 195), 0);
    // passing through R in mid-pattern is no arrival: 198 is met there, and 1 sample is still to come
    assert_eq!(everywhere.worst[&(1, 5, 1, 198)], Some(1));
    let (sharp, far) = every_run(&cold);
    assert!(sharp > 10 && far > 5, "{sharp} {far}");
}

#[test]
fn every_run_of_small_rooms() {
    let (mut rooms, mut sharp, mut far) = (0, 0, 0);
    for (plant, bytes, chain, start) in made_starts(210, 1_200) {
        if plant.n == 1 {
            let (more_sharp, more_far) = every_run(&Cold::new(plant.clone(), bytes, &chain, start));
            (rooms, sharp, far) = (rooms + 1, sharp + more_sharp, far + more_far);
        }
    }
    assert!(rooms > 200 && sharp > 1_000 && far > 50, "{rooms} {sharp} {far}");
}

/// Runs from any reading of Rm, the next readings lowest, highest or any.
#[test]
fn rooms_that_do_what_the_plant_allows() {
    let mut random = Random(22);
    let (mut late, mut last_box) = (0, 0);
    for (plant, bytes, chain, start) in made_starts(220, 300).into_iter().chain(mixed_starts(221, 150)) {
        let cold = Cold::new(plant.clone(), bytes, &chain, start);
        let rm = cold.boxes.last().expect("R").clone();
        for _ in 0..12 {
            let mut x = [i64::MIN; 4];
            for i in 0..plant.n as usize {
                let (lo, hi) = (rm.0[i] as i64, rm.1[i] as i64);
                x[i] = [lo, hi, random.within(lo, hi)][random.within(0, 2) as usize];
            }
            let bound = cold.bound(&x);
            last_box += usize::from(!cold.holds(&cold.boxes[cold.boxes.len() - 2], &x));
            let (mut state, mut sample) = (StartState::IDLE, 0);
            while !cold.arrived(state, &x) {
                assert!(sample < bound, "{sample} samples, {bound} promised");
                let (mode, next) = cold.answer(state, &x);
                x = next_reading(&plant, mode, &x, &mut random);
                state = next;
                sample += 1;
            }
            late += usize::from(sample > 1);
            for _ in 0..40 {
                let (mode, next) = cold.answer_after_arrival(state, &x);
                x = next_reading(&plant, mode, &x, &mut random);
                state = next;
            }
        }
    }
    assert!(late > 300 && last_box > 300, "{late} {last_box}");
}
