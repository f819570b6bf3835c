//! Start files for cold rooms, request 2026-03: "A start file is form 1, m,
//! then the edges of R1..Rm as signed numbers, then for each of R0..Rm the byte
//! length of its table and the table." The tables are document 01's, each with
//! a root and a goal of its own, so maker, checker and call are document 01's
//! too; here stand the chain around them, the lengths, and the index.

use crate::chain::Chain;
use crate::checker::check_tree;
use crate::control::{call, reading_in, State};
use crate::file::File;
use crate::form::Form;
use crate::lent::{zero_if_refused, Lent};
use crate::maker::make_table;
use crate::plant::{read_past_modes, read_plant, Plant};
use crate::refusal::{Refusal, NO_TABLE, OUT_OF_RANGE, STATE_CANNOT_BE};
use crate::table::Table;
use crate::{LARGEST_START, MOST_ROOMS};

/// Idle, or the index of the box whose table answers, the place of the next
/// mode within that table, and how many are left.
#[derive(Clone, Copy, Debug, PartialEq, Eq, Default)]
pub struct StartState {
    pub index: u64,
    pub place: u64,
    pub left: u64,
}

impl StartState {
    /// Index 0, place 0, left 0.
    pub const IDLE: StartState = StartState { index: 0, place: 0, left: 0 };

    /// What the table's own controller knows of the state.
    fn within_table(&self) -> State {
        State { place: self.place, left: self.left }
    }

    /// The state after a call of table `index`.
    fn after(index: usize, next: State) -> StartState {
        if next == State::IDLE {
            return StartState::IDLE;
        }
        StartState { index: index as u64, place: next.place, left: next.left }
    }
}

/// The start file of a plant's and a chain's bytes, all its tables in one form.
pub fn start_make(plant_bytes: &[u8], chain_bytes: &[u8], form: u64) -> Result<Vec<u8>, Refusal> {
    let mut start = vec![0; LARGEST_START];
    let length = start_make_into(plant_bytes, chain_bytes, form, &mut start)?;
    start.truncate(length);
    Ok(start)
}

/// The start file, written to the buffer; its length.
pub fn start_make_into(
    plant_bytes: &[u8],
    chain_bytes: &[u8],
    form: u64,
    buffer: &mut [u8],
) -> Result<usize, Refusal> {
    let answer = read_plant(plant_bytes).and_then(|plant| make_tables(&plant, chain_bytes, form, buffer));
    zero_if_refused(answer, buffer)
}

/// "Maker: plant, chain, 15, 9, 10", and 2 for the form before 9. The chain's
/// bytes are the file's own beginning.
fn make_tables(plant: &Plant, chain_bytes: &[u8], form: u64, buffer: &mut [u8]) -> Result<usize, Refusal> {
    let chain = read_chain_alone(plant, chain_bytes)?;
    let form = Form::of(form, 0)?;
    let mut start = Lent::new(buffer);
    start.put(chain_bytes);
    for index in 0..=chain.m() {
        let first = start.length();
        if !make_table(plant, form, chain.root(index), chain.goal(index), &mut start) {
            return Err(Refusal::at(NO_TABLE, index as u64));
        }
        start.put_lengths_before(&[first, start.length()]);
    }
    start.end()
}

/// A chain with "nothing behind": leftover bytes are told before 15.
fn read_chain_alone(plant: &Plant, chain_bytes: &[u8]) -> Result<Chain, Refusal> {
    let mut file = File::new(chain_bytes);
    let chain = Chain::read(plant, &mut file)?;
    file.end(OUT_OF_RANGE)?;
    chain.judge(plant)?;
    Ok(chain)
}

/// Whether a start file is one for this plant, in one pass over its bytes.
pub fn start_check(plant_bytes: &[u8], start_bytes: &[u8]) -> Result<(), Refusal> {
    let plant = read_plant(plant_bytes)?;
    let mut file = File::new(start_bytes);
    let chain = read_beginning(&plant, &mut file)?;
    for index in 0..=chain.m() {
        let length_place = file.place();
        let mut table = Table::open(&plant, next_table(&mut file)?)?;
        check_tree(&mut table, chain.root(index), chain.goal(index))?;
        table.file.end_or(Refusal::at(OUT_OF_RANGE, length_place))?;
    }
    file.end(OUT_OF_RANGE)
}

/// "Controller: plant, file up to 15, the index, 11 if idle, lengths up to
/// that table, then as before."
pub fn start_control(
    plant_bytes: &[u8],
    start_bytes: &[u8],
    state: StartState,
    reading: [i64; MOST_ROOMS],
) -> Result<(u8, StartState), Refusal> {
    let plant = read_past_modes(plant_bytes)?;
    let mut file = File::new(start_bytes);
    let chain = read_beginning(&plant, &mut file)?;
    let index = answering(&chain, state, &reading)?;
    for _ in 0..index {
        next_table(&mut file)?;
    }
    let table = next_table(&mut file)?;
    let (mode, next) = call(&plant, chain.root(index), table, state.within_table(), &reading)?;
    Ok((mode, StartState::after(index, next)))
}

/// A start file up to 15.
pub(crate) fn read_beginning(plant: &Plant, file: &mut File) -> Result<Chain, Refusal> {
    let chain = Chain::read(plant, file)?;
    chain.judge(plant)?;
    Ok(chain)
}

/// A byte length, and the table within it: 1, then 3 where it passes the end.
pub(crate) fn next_table<'a>(file: &mut File<'a>) -> Result<File<'a>, Refusal> {
    let place = file.place();
    let length = file.unsigned()?;
    file.inner(length).ok_or(Refusal::at(OUT_OF_RANGE, place))
}

/// The index of the table that answers: a running state's own; when idle that
/// of the smallest box that holds the reading. 12 for an index that cannot be,
/// 11 when idle outside Rm.
fn answering(
    chain: &Chain,
    state: StartState,
    reading: &[i64; MOST_ROOMS],
) -> Result<usize, Refusal> {
    let idle = state.within_table() == State::IDLE;
    if state.index > chain.m() as u64 || (idle && state.index != 0) {
        return Err(Refusal::at(STATE_CANNOT_BE, 0));
    }
    if !idle {
        return Ok(state.index as usize);
    }
    reading_in(chain.root(chain.m()), reading)?;
    Ok(chain.smallest_holding(reading))
}
