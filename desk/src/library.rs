//! The proved library (`include/hoachulim.h`) as Rust calls it: every plant, table, start file, verdict and mode of this tool comes from here.
//! Relies on `target/library/TARGET/libface.a`, which `build.rs` links. Leaves out what a refusal means (`refusals`, `causes`).
//! The only unsafe code of the tool: each pointer leads to as many bytes as its length says, and what is lent apart is apart, since it is a slice.

use crate::refusals::Refusal;

/// The largest file of each kind, in bytes (docs/FORMATS.md, "Lengths").
pub const LARGEST_PLANT: usize = 27_704;
pub const LARGEST_TABLE: usize = 58_965;
pub const LARGEST_START: usize = 530_810;

/// What a controller keeps from call to call; idle is zeros. `index` is 0 wherever a table alone is called.
#[derive(Clone, Copy, Debug, Default, PartialEq, Eq)]
pub struct State {
    pub index: u64,
    pub place: u64,
    pub left: u64,
}

impl State {
    pub fn is_idle(&self) -> bool {
        self.place == 0 && self.left == 0
    }
}

/// A reading: n counts, zeros behind them.
pub type Reading = [i64; 4];

mod face {
    extern "C" {
        pub fn hoachulim_plant(plant: *const u8, plant_length: u64, out: *mut u64) -> u64;
        pub fn hoachulim_sheet(sheet: *const u8, sheet_length: u64, buffer: *mut u8, buffer_length: u64, out: *mut u64) -> u64;
        pub fn hoachulim_check(plant: *const u8, plant_length: u64, table: *const u8, table_length: u64, out: *mut u64) -> u64;
        pub fn hoachulim_make(plant: *const u8, plant_length: u64, form: u64, buffer: *mut u8, buffer_length: u64, out: *mut u64) -> u64;
        pub fn hoachulim_relay(
            plant: *const u8,
            plant_length: u64,
            table: *const u8,
            table_length: u64,
            form: u64,
            buffer: *mut u8,
            buffer_length: u64,
            out: *mut u64,
        ) -> u64;
        pub fn hoachulim_control(
            plant: *const u8,
            plant_length: u64,
            table: *const u8,
            table_length: u64,
            place: u64,
            left: u64,
            x0: i64,
            x1: i64,
            x2: i64,
            x3: i64,
            out: *mut u64,
        ) -> u64;
        pub fn hoachulim_start_make(
            plant: *const u8,
            plant_length: u64,
            chain: *const u8,
            chain_length: u64,
            form: u64,
            buffer: *mut u8,
            buffer_length: u64,
            out: *mut u64,
        ) -> u64;
        pub fn hoachulim_start_check(plant: *const u8, plant_length: u64, start: *const u8, start_length: u64, out: *mut u64) -> u64;
        pub fn hoachulim_start_control(
            plant: *const u8,
            plant_length: u64,
            start: *const u8,
            start_length: u64,
            index: u64,
            place: u64,
            left: u64,
            x0: i64,
            x1: i64,
            x2: i64,
            x3: i64,
            out: *mut u64,
        ) -> u64;
    }
}

/// The mode that stands for none.
const NO_MODE: u64 = 65_535;

/// 0, or the refusal that `out` tells.
fn verdict(number: u64, out: [u64; 2]) -> Result<(), Refusal> {
    match number {
        0 => Ok(()),
        _ => Err(Refusal { number, place: out[0], step: out[1] }),
    }
}

/// A buffer as long as the largest file, cut to what a maker wrote into it.
fn made(largest: usize, by: impl FnOnce(&mut [u8], &mut [u64; 2]) -> u64) -> Result<Vec<u8>, Refusal> {
    let mut buffer = vec![0; largest];
    let mut out = [0; 2];
    let number = by(&mut buffer, &mut out);
    verdict(number, out)?;
    buffer.truncate(out[0] as usize);
    Ok(buffer)
}

/// A plant's file, judged.
pub fn plant(plant: &[u8]) -> Result<(), Refusal> {
    let mut out = [0; 2];
    let number = unsafe { face::hoachulim_plant(plant.as_ptr(), plant.len() as u64, out.as_mut_ptr()) };
    verdict(number, out)
}

/// The plant's file of a sheet's.
pub fn sheet(sheet: &[u8]) -> Result<Vec<u8>, Refusal> {
    made(LARGEST_PLANT, |buffer, out| unsafe {
        face::hoachulim_sheet(sheet.as_ptr(), sheet.len() as u64, buffer.as_mut_ptr(), buffer.len() as u64, out.as_mut_ptr())
    })
}

/// The table's file of a plant's, of the form with this number; whether there is such a form is the library's to say.
pub fn make(plant: &[u8], form: u64) -> Result<Vec<u8>, Refusal> {
    made(LARGEST_TABLE, |buffer, out| unsafe {
        face::hoachulim_make(plant.as_ptr(), plant.len() as u64, form, buffer.as_mut_ptr(), buffer.len() as u64, out.as_mut_ptr())
    })
}

/// A table's file in another form of the same tree, where the library accepts the table; whether it can be of that form is the library's to say.
pub fn relay(plant: &[u8], table: &[u8], form: u64) -> Result<Vec<u8>, Refusal> {
    made(LARGEST_TABLE, |buffer, out| unsafe {
        face::hoachulim_relay(
            plant.as_ptr(),
            plant.len() as u64,
            table.as_ptr(),
            table.len() as u64,
            form,
            buffer.as_mut_ptr(),
            buffer.len() as u64,
            out.as_mut_ptr(),
        )
    })
}

/// A table's file, judged for a plant's.
pub fn check(plant: &[u8], table: &[u8]) -> Result<(), Refusal> {
    let mut out = [0; 2];
    let number = unsafe {
        face::hoachulim_check(plant.as_ptr(), plant.len() as u64, table.as_ptr(), table.len() as u64, out.as_mut_ptr())
    };
    verdict(number, out)
}

/// One call of the controller on a table's file: the mode and the next state.
pub fn control(plant: &[u8], table: &[u8], state: State, x: Reading) -> Result<(u64, State), Refusal> {
    let mut out = [0; 5];
    let mode = unsafe {
        face::hoachulim_control(
            plant.as_ptr(),
            plant.len() as u64,
            table.as_ptr(),
            table.len() as u64,
            state.place,
            state.left,
            x[0],
            x[1],
            x[2],
            x[3],
            out.as_mut_ptr(),
        )
    };
    match mode {
        NO_MODE => Err(Refusal { number: out[0], place: out[1], step: out[2] }),
        _ => Ok((mode, State { index: 0, place: out[3], left: out[4] })),
    }
}

/// A chain's file, judged for a plant's by a call that reads form, m and edges, tells 15, and then refuses the index, which is over any m: 12 says that
/// all before it is right. Bytes behind the edges are a call's to pass over, so they are left to who reads the chain.
pub fn chain(plant: &[u8], chain: &[u8]) -> Result<(), Refusal> {
    match start_control(plant, chain, State { index: 9, place: 0, left: 0 }, [0; 4]) {
        Err(refusal) if refusal.number != 12 => Err(refusal),
        _ => Ok(()),
    }
}

/// The start file of a plant's file and a chain's, all its tables of one form.
pub fn start_make(plant: &[u8], chain: &[u8], form: u64) -> Result<Vec<u8>, Refusal> {
    made(LARGEST_START, |buffer, out| unsafe {
        face::hoachulim_start_make(
            plant.as_ptr(),
            plant.len() as u64,
            chain.as_ptr(),
            chain.len() as u64,
            form,
            buffer.as_mut_ptr(),
            buffer.len() as u64,
            out.as_mut_ptr(),
        )
    })
}

/// A start file, judged for a plant's file.
pub fn start_check(plant: &[u8], start: &[u8]) -> Result<(), Refusal> {
    let mut out = [0; 2];
    let number = unsafe {
        face::hoachulim_start_check(plant.as_ptr(), plant.len() as u64, start.as_ptr(), start.len() as u64, out.as_mut_ptr())
    };
    verdict(number, out)
}

/// One call of the controller on a start file: the mode and the next state.
pub fn start_control(plant: &[u8], start: &[u8], state: State, x: Reading) -> Result<(u64, State), Refusal> {
    let mut out = [0; 6];
    let mode = unsafe {
        face::hoachulim_start_control(
            plant.as_ptr(),
            plant.len() as u64,
            start.as_ptr(),
            start.len() as u64,
            state.index,
            state.place,
            state.left,
            x[0],
            x[1],
            x[2],
            x[3],
            out.as_mut_ptr(),
        )
    };
    match mode {
        NO_MODE => Err(Refusal { number: out[0], place: out[1], step: out[2] }),
        _ => Ok((mode, State { index: out[3], place: out[4], left: out[5] })),
    }
}
