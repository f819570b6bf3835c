//! The second program's answers to seeded calls of every exported function,
//! written to the file that is named, for side/foreign. Nothing of the proved
//! library is called here.
//!
//! A case is a row of numbers of 8 bytes, low byte first, and of bytes behind
//! their length: the function (its place in FUNCTIONS); two files (plant, table
//! and so on; empty where there is none); index, place, left and the reading;
//! the form that a maker is told; the length of the lent buffer. Then the answer, in the papers' terms and not
//! in the layout of the face: number, place or length written, step, mode (all
//! ones: none), next index, next place, next left; and the bytes of the buffer
//! afterwards, but for a run of one byte at its end, and that byte.

use second::control::{control, State};
use second::plant::read_plant;
use second::refusal::Refusal;
use second::start::{start_check, start_control, start_make_into, StartState};
use side::common::{file, marked, Field, Random};
use side::inputs::{any_reading, any_state, damaged, other_forms, plant_fields, random, sheet_fields, spoiled};
use side::seen::{each_came, Numbers};
use side::starts::{any_chain, any_reading_about, any_standing, any_start, made_start, other_start, spoiled_chain, spoiled_lengths, turning, Start};
use side::tables::{any_form, any_told_form, any_tree, in_no_form, in_other_forms, made_table, other_table, wrong_lengths, FORMS, NO_FORMS};
use side::{largest_table_plant, longest_table_plant, Standing};
use std::fs::File;
use std::io::{BufWriter, Write};

/// The functions with the numbers that each can tell.
const FUNCTIONS: [(&str, &[usize]); 8] = [
    ("plant", &[0, 1, 2, 3, 4, 5]),
    ("sheet", &[0, 1, 2, 3, 4, 5, 10, 13, 14]),
    ("make", &[0, 1, 2, 3, 4, 5, 9, 10]),
    ("check", &[0, 1, 2, 3, 4, 5, 6, 7, 8]),
    ("control", &[0, 1, 2, 3, 4, 5, 6, 11, 12]),
    ("start_make", &[0, 1, 2, 3, 4, 5, 9, 10, 15]),
    ("start_check", &[0, 1, 2, 3, 4, 5, 6, 7, 8, 15]),
    ("start_control", &[0, 1, 2, 3, 4, 5, 6, 11, 12, 15]),
];

/// A round has at least so many cases of each function.
const EACH: usize = 20;
const ROUNDS: usize = 1_000;
const NO_MODE: u64 = u64::MAX;

struct Cases {
    to: BufWriter<File>,
    seen: [Numbers; 8],
}

/// What a function is called with, but for its lent buffer.
#[derive(Default)]
struct Call<'a> {
    function: usize,
    files: [&'a [u8]; 2],
    standing: Standing,
    x: [i64; 4],
    form: u64,
}

/// Number, place or length, step, mode, next index, next place, next left.
type Answer = [u64; 7];

fn refused(refusal: &Refusal, mode: u64) -> Answer {
    [refusal.number.into(), refusal.place, refusal.step, mode, 0, 0, 0]
}

impl Cases {
    fn numbers(&mut self, numbers: &[u64]) {
        for number in numbers {
            self.to.write_all(&number.to_le_bytes()).expect("written");
        }
    }

    fn bytes(&mut self, bytes: &[u8]) {
        self.numbers(&[bytes.len() as u64]);
        self.to.write_all(bytes).expect("written");
    }

    fn case(&mut self, call: Call, answer: Answer, buffer: &[u8]) {
        self.numbers(&[call.function as u64]);
        self.bytes(call.files[0]);
        self.bytes(call.files[1]);
        self.numbers(&call.standing);
        self.numbers(&call.x.map(|x| x as u64));
        self.numbers(&[call.form, buffer.len() as u64]);
        self.numbers(&answer);
        let last = buffer.last().copied().unwrap_or(0);
        self.bytes(&buffer[..buffer.iter().rposition(|byte| *byte != last).map_or(0, |at| at + 1)]);
        self.numbers(&[last.into()]);
        self.seen[call.function][answer[0] as usize] += 1;
    }

    fn judged<T>(&mut self, function: usize, files: [&[u8]; 2], told: Result<T, Refusal>) {
        let answer = told.map_or_else(|refusal| refused(&refusal, 0), |_| [0; 7]);
        self.case(Call { function, files, ..Call::default() }, answer, &[]);
    }

    /// The length written, where there is one.
    fn written(&mut self, call: Call, length: usize, by: impl Fn(&mut [u8]) -> Result<usize, Refusal>) -> Option<usize> {
        let mut buffer = marked(length);
        let told = by(&mut buffer);
        let answer = told.as_ref().map_or_else(|refusal| refused(refusal, 0), |length| [0, *length as u64, 0, 0, 0, 0, 0]);
        self.case(call, answer, &buffer);
        told.ok()
    }

    fn plant(&mut self, plant: &[u8]) {
        self.judged(0, [plant, &[]], read_plant(plant));
    }

    fn sheet(&mut self, sheet: &[u8], length: usize) -> Option<usize> {
        let call = Call { function: 1, files: [sheet, &[]], ..Call::default() };
        self.written(call, length, |buffer| second::sheet::sheet_to_plant(sheet, buffer))
    }

    fn make(&mut self, plant: &[u8], form: u64, length: usize) -> Option<usize> {
        let call = Call { function: 2, files: [plant, &[]], form, ..Call::default() };
        self.written(call, length, |buffer| second::maker::make(plant, form, buffer))
    }

    fn check(&mut self, plant: &[u8], table: &[u8]) {
        self.judged(3, [plant, table], second::checker::check(plant, table));
    }

    fn control(&mut self, plant: &[u8], table: &[u8], place: u64, left: u64, x: [i64; 4]) -> (u64, u64) {
        let answer = match control(plant, table, State { place, left }, x) {
            Ok((mode, next)) => [0, 0, 0, mode.into(), 0, next.place, next.left],
            Err(refusal) => refused(&refusal, NO_MODE),
        };
        self.case(Call { function: 4, files: [plant, table], standing: [0, place, left], x, form: 0 }, answer, &[]);
        (answer[5], answer[6])
    }

    fn start_make(&mut self, plant: &[u8], chain: &[u8], form: u64, length: usize) -> Option<usize> {
        let call = Call { function: 5, files: [plant, chain], form, ..Call::default() };
        self.written(call, length, |buffer| start_make_into(plant, chain, form, buffer))
    }

    fn start_check(&mut self, plant: &[u8], start: &[u8]) {
        self.judged(6, [plant, start], start_check(plant, start));
    }

    fn start_control(&mut self, plant: &[u8], start: &[u8], standing: Standing, x: [i64; 4]) -> Standing {
        let [index, place, left] = standing;
        let answer = match start_control(plant, start, StartState { index, place, left }, x) {
            Ok((mode, next)) => [0, 0, 0, mode.into(), next.index, next.place, next.left],
            Err(refusal) => refused(&refusal, NO_MODE),
        };
        self.case(Call { function: 7, files: [plant, start], standing, x, form: 0 }, answer, &[]);
        [answer[4], answer[5], answer[6]]
    }
}

/// Some of many, in no order.
fn some<T>(random: &mut Random, mut of: Vec<T>, count: usize) -> Vec<T> {
    (0..count.min(of.len())).map(|_| of.swap_remove(random.within(0, of.len() as i64 - 1) as usize)).collect()
}

fn some_damaged(random: &mut Random, bytes: &[u8], count: usize) -> Vec<Vec<u8>> {
    let mut all = Vec::new();
    damaged(random, bytes, |other| all.push(other.to_vec()));
    some(random, all, count)
}

fn some_spoiled(random: &mut Random, fields: &[Field], count: usize) -> Vec<Vec<u8>> {
    some(random, spoiled(fields), count).into_iter().map(|(bytes, _)| bytes).collect()
}

/// Plants whole, spoiled and damaged; what is told of one is told by every function that takes it.
fn plants(random: &mut Random, cases: &mut Cases, fields: &[Field]) {
    let bytes = file(fields);
    cases.plant(&bytes);
    for other in [some_damaged(random, &bytes, EACH / 2), other_forms(fields)].concat() {
        cases.plant(&other);
    }
    for (at, other) in some_spoiled(random, fields, EACH / 2).iter().enumerate() {
        cases.plant(other);
        if at < 3 {
            let form = any_told_form(random);
            cases.make(other, form, 9);
            cases.check(other, &[1, 1, 1, 0]);
            cases.control(other, &[1, 1, 1, 0], 0, 0, [0; 4]);
            cases.start_make(other, &[1, 0], form, 9);
            cases.start_check(other, &[1, 0]);
            cases.start_control(other, &[1, 0], [0; 3], [0; 4]);
        }
    }
}

fn sheets(random: &mut Random, cases: &mut Cases) {
    for _ in 0..EACH / 4 {
        let fields = sheet_fields(random);
        let bytes = file(&fields);
        let made = cases.sheet(&bytes, second::LARGEST_PLANT).unwrap_or(30);
        cases.sheet(&bytes, made - random.within(0, 1) as usize);
        for other in [some_damaged(random, &bytes, 1), some_spoiled(random, &fields, 1)].concat() {
            cases.sheet(&other, random.one(&[30, second::LARGEST_PLANT]));
        }
    }
}

fn tables(random: &mut Random, cases: &mut Cases, bytes: &[u8]) {
    let (plant, form) = (read_plant(bytes).expect("a sound plant"), any_form(random));
    let mut made = cases.make(bytes, form, second::LARGEST_TABLE).unwrap_or(1);
    for _ in 0..EACH / 2 {
        let (other, form) = (file(&plant_fields(random)), any_told_form(random));
        made = cases.make(&other, form, made + random.within(0, 4) as usize).unwrap_or(made);
        cases.make(&other, form, random.one(&[0, 3, 20, 200, second::LARGEST_TABLE]));
    }
    let all = [Some(any_tree(random, bytes[1])), made_table(bytes, form), other_table(random, &plant, form)];
    // of the made one, which is accepted
    let wrong = all[1].iter().flat_map(|table| wrong_lengths(&plant, &plant.r(), table)).collect();
    for (other, _) in some(random, wrong, EACH / 2) {
        cases.check(bytes, &other);
        cases.control(bytes, &other, 0, 0, any_reading(random, &plant));
    }
    for table in all.iter().flatten() {
        let mut others = [vec![table.clone(); 4], in_other_forms(table), some_damaged(random, table, EACH)].concat();
        others.extend(some(random, in_no_form(table), 2).into_iter().map(|(other, _)| other));
        for other in others {
            cases.check(bytes, &other);
            let ((place, left), x) = (any_state(random, &other), any_reading(random, &plant));
            let (place, left) = cases.control(bytes, &other, place, left, x);
            cases.control(bytes, &other, place, left, any_reading(random, &plant));
        }
    }
}

fn starts(random: &mut Random, cases: &mut Cases, bytes: &[u8]) {
    let plant = read_plant(bytes).expect("a sound plant");
    let (chain, form) = (any_chain(random, &plant), any_form(random));
    let made = cases.start_make(bytes, &file(&chain), form, second::LARGEST_START).unwrap_or(20);
    for length in [0, 3, made - 1, made, made + 1] {
        cases.start_make(bytes, &file(&chain), form, length);
    }
    for (other, _) in some(random, spoiled_chain(&plant, &chain), 5) {
        cases.start_make(bytes, &file(&other), any_told_form(random), 40);
    }
    for other in some_damaged(random, &file(&chain), 10) {
        cases.start_make(bytes, &other, any_told_form(random), 200);
    }
    let all = [Some(any_start(random, &plant, &chain)), made_start(bytes, &chain, form), other_start(random, &plant, &chain)];
    for start in all.iter().flatten() {
        let whole = start.bytes();
        let lengths = spoiled_lengths(start).into_iter().map(|(bytes, _)| bytes).collect();
        let moved = spoiled_chain(&plant, &chain).into_iter().map(|(chain, _)| Start { chain, tables: start.tables.clone() }.bytes()).collect();
        let others = [vec![whole.clone(); 4], some(random, lengths, 4), some(random, moved, 4), some_damaged(random, &whole, 12)].concat();
        for other in others {
            cases.start_check(bytes, &other);
            let (standing, x) = (any_standing(random, start), any_reading_about(random, &plant, &chain));
            let standing = cases.start_control(bytes, &other, standing, x);
            cases.start_control(bytes, &other, standing, any_reading_about(random, &plant, &chain));
        }
    }
}

/// The largest tables of modes of one byte and of two, in all forms, and eight large boxes, as far as a call reaches.
fn largest(cases: &mut Cases) {
    for plant in [largest_table_plant(), longest_table_plant()] {
        for form in FORMS {
            cases.make(&plant, form, second::LARGEST_TABLE);
            let table = made_table(&plant, form).expect("a table");
            cases.check(&plant, &table);
            for x in [1000, 1031, 1063] {
                let (place, left) = cases.control(&plant, &table, 0, 0, [x, 1063, 0, 0]);
                cases.control(&plant, &table, place, left, [x, 1063, 0, 0]);
            }
        }
    }
    let (plant, chain) = turning();
    for form in FORMS {
        let start = second::start::start_make(&plant, &chain, form).expect("a start file");
        cases.start_make(&plant, &chain, form, second::LARGEST_START);
        cases.start_check(&plant, &start);
        for x in [1004, 1031, 1063] {
            cases.start_control(&plant, &start, [0; 3], [x, 1063, 0, 0]);
        }
    }
}

/// Every number that is no form, of which a processor may lose bits.
fn no_forms(cases: &mut Cases) {
    let (plant, chain) = turning();
    for form in NO_FORMS {
        cases.make(&plant, form, 20);
        cases.start_make(&plant, &chain, form, 20);
    }
}

fn main() {
    let to = std::env::args().nth(1).expect("the file to write");
    let mut cases = Cases { to: BufWriter::new(File::create(to).expect("a file")), seen: Default::default() };
    let mut random = random(22);
    for _ in 0..ROUNDS {
        let fields = plant_fields(&mut random);
        plants(&mut random, &mut cases, &fields);
        tables(&mut random, &mut cases, &file(&fields));
        starts(&mut random, &mut cases, &file(&fields));
        sheets(&mut random, &mut cases);
    }
    largest(&mut cases);
    no_forms(&mut cases);
    cases.to.flush().expect("written");
    for ((name, can_be), numbers) in FUNCTIONS.iter().zip(&cases.seen) {
        each_came(name, numbers, can_be, 5);
        assert!(numbers.iter().sum::<usize>() >= EACH * ROUNDS, "{name}");
    }
}
