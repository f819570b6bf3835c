//! The comparing functions, one for each exported function: the library's
//! answer and every lent byte against the second program's. What was compared
//! is counted, by function and by number.

use crate::common::{marked, told};
use crate::{Standing, Told, NO_MODE};
use second::control::State;
use second::refusal::Refusal;
use second::start::StartState;
use std::fmt::Debug;

/// How often each number came, 0 for done.
pub type Numbers = [usize; 16];

#[derive(Default, Debug)]
pub struct Seen {
    pub plant: Numbers,
    pub sheet: Numbers,
    pub make: Numbers,
    pub relay: Numbers,
    pub check: Numbers,
    pub control: Numbers,
    pub start_make: Numbers,
    pub start_check: Numbers,
    pub start_control: Numbers,
}

/// Every number that a function can tell came more than so often, and no other came at all.
pub fn each_came(name: &str, numbers: &Numbers, can_be: &[usize], often: usize) {
    println!("{name}: {numbers:?}");
    for (number, times) in numbers.iter().enumerate() {
        let wanted = if can_be.contains(&number) { *times > often } else { *times == 0 };
        assert!(wanted, "{name} told {number} {times} times");
    }
}

/// Bytes behind a lent buffer, which no write may change.
const BEHIND: usize = 16;

/// Both writers on marked buffers of one length.
pub fn written<Input: Debug + ?Sized>(
    input: &Input,
    length: usize,
    ours: fn(&Input, &mut [u8]) -> Told,
    theirs: fn(&Input, &mut [u8]) -> Result<usize, Refusal>,
) -> Told {
    let (mut left, mut wanted) = (marked(length + BEHIND), marked(length + BEHIND));
    let answer = ours(input, &mut left[..length]);
    let expected = match theirs(input, &mut wanted[..length]) {
        Ok(written) => (0, written as u64, 0),
        refused => told(refused),
    };
    assert_eq!(answer, expected, "{input:?}, a buffer of {length}");
    assert!(left == wanted, "{input:?}, a buffer of {length}: other bytes");
    answer
}

impl Seen {
    pub fn plant(&mut self, plant: &[u8]) -> Told {
        let answer = crate::plant(plant);
        assert_eq!(answer, told(second::plant::read_plant(plant)), "plant {plant:?}");
        self.plant[answer.0 as usize] += 1;
        answer
    }

    pub fn sheet(&mut self, sheet: &[u8], length: usize) -> Told {
        let answer = written(sheet, length, crate::sheet, second::sheet::sheet_to_plant);
        self.sheet[answer.0 as usize] += 1;
        answer
    }

    pub fn make(&mut self, plant: &[u8], form: u64, length: usize) -> Told {
        let answer = written(
            &(plant, form),
            length,
            |(plant, form), buffer| crate::make(plant, *form, buffer),
            |(plant, form), buffer| second::maker::make(plant, *form, buffer),
        );
        self.make[answer.0 as usize] += 1;
        answer
    }

    pub fn relay(&mut self, plant: &[u8], table: &[u8], form: u64, length: usize) -> Told {
        let answer = written(
            &(plant, table, form),
            length,
            |(plant, table, form), buffer| crate::relay(plant, table, *form, buffer),
            |(plant, table, form), buffer| second::relay::relay(plant, table, *form, buffer),
        );
        self.relay[answer.0 as usize] += 1;
        answer
    }

    pub fn check(&mut self, plant: &[u8], table: &[u8]) -> Told {
        let answer = crate::check(plant, table);
        assert_eq!(answer, told(second::checker::check(plant, table)), "check {plant:?} {table:?}");
        self.check[answer.0 as usize] += 1;
        answer
    }

    /// The second program's answer is taken as the face shows it.
    pub fn control(&mut self, plant: &[u8], table: &[u8], place: u64, left: u64, x: [i64; 4]) -> (u64, [u64; 5]) {
        let answer = crate::control(plant, table, place, left, x);
        let shown = match second::control::control(plant, table, State { place, left }, x) {
            Ok((mode, state)) => (mode.into(), [0, 0, 0, state.place, state.left]),
            Err(refusal) => (NO_MODE, [refusal.number.into(), refusal.place, refusal.step, 0, 0]),
        };
        assert_eq!(answer, shown, "control {plant:?} {table:?} {place} {left} {x:?}");
        self.control[answer.1[0] as usize] += 1;
        answer
    }

    pub fn start_make(&mut self, plant: &[u8], chain: &[u8], form: u64, length: usize) -> Told {
        let answer = written(
            &(plant, chain, form),
            length,
            |(plant, chain, form), buffer| crate::start_make(plant, chain, *form, buffer),
            |(plant, chain, form), buffer| second::start::start_make_into(plant, chain, *form, buffer),
        );
        self.start_make[answer.0 as usize] += 1;
        answer
    }

    pub fn start_check(&mut self, plant: &[u8], start: &[u8]) -> Told {
        let answer = crate::start_check(plant, start);
        assert_eq!(answer, told(second::start::start_check(plant, start)), "start check {plant:?} {start:?}");
        self.start_check[answer.0 as usize] += 1;
        answer
    }

    /// The second program's answer is taken as the face shows it.
    pub fn start_control(&mut self, plant: &[u8], start: &[u8], standing: Standing, x: [i64; 4]) -> (u64, [u64; 6]) {
        let answer = crate::start_control(plant, start, standing, x);
        let [index, place, left] = standing;
        let shown = match second::start::start_control(plant, start, StartState { index, place, left }, x) {
            Ok((mode, next)) => (mode.into(), [0, 0, 0, next.index, next.place, next.left]),
            Err(refusal) => (NO_MODE, [refusal.number.into(), refusal.place, refusal.step, 0, 0, 0]),
        };
        assert_eq!(answer, shown, "start control {plant:?} {start:?} {standing:?} {x:?}");
        self.start_control[answer.1[0] as usize] += 1;
        answer
    }

    /// Each function of document 01 with how often each number came.
    pub fn functions(&self) -> [(&'static str, &Numbers); 5] {
        [
            ("plant", &self.plant),
            ("sheet", &self.sheet),
            ("make", &self.make),
            ("check", &self.check),
            ("control", &self.control),
        ]
    }

    /// How many comparisons were made.
    pub fn total(&self) -> usize {
        self.functions().iter().map(|(_, numbers)| numbers.iter().sum::<usize>()).sum()
    }
}
