//! The proved library's exported functions, called the way C calls them, with
//! the answers in the second program's shape: number, place, step.

#[path = "../../second/tests/common/mod.rs"]
pub mod common;
pub mod inputs;
pub mod largest;
pub mod rooms;
pub mod seen;
pub mod starts;
pub mod tables;

/// Number, place, step.
pub type Told = (u64, u64, u64);

/// What a refused call of a controller answers in place of a mode.
pub const NO_MODE: u64 = 65_535;

extern "C" {
    fn hoachulim_plant(plant: *const u8, plant_length: u64, out: *mut u64) -> u64;
    fn hoachulim_sheet(
        sheet: *const u8,
        sheet_length: u64,
        buffer: *mut u8,
        buffer_length: u64,
        out: *mut u64,
    ) -> u64;
    fn hoachulim_check(
        plant: *const u8,
        plant_length: u64,
        table: *const u8,
        table_length: u64,
        out: *mut u64,
    ) -> u64;
    fn hoachulim_make(
        plant: *const u8,
        plant_length: u64,
        form: u64,
        buffer: *mut u8,
        buffer_length: u64,
        out: *mut u64,
    ) -> u64;
    fn hoachulim_relay(
        plant: *const u8,
        plant_length: u64,
        table: *const u8,
        table_length: u64,
        form: u64,
        buffer: *mut u8,
        buffer_length: u64,
        out: *mut u64,
    ) -> u64;
    fn hoachulim_control(
        plant: *const u8,
        plant_length: u64,
        table: *const u8,
        table_length: u64,
        place: u64,
        left: u64,
        x0: i64,
        x1: i64,
        x2: i64,
        x3: i64,
        out: *mut u64,
    ) -> u64;
    fn hoachulim_start_make(
        plant: *const u8,
        plant_length: u64,
        chain: *const u8,
        chain_length: u64,
        form: u64,
        buffer: *mut u8,
        buffer_length: u64,
        out: *mut u64,
    ) -> u64;
    fn hoachulim_start_check(
        plant: *const u8,
        plant_length: u64,
        start: *const u8,
        start_length: u64,
        out: *mut u64,
    ) -> u64;
    fn hoachulim_start_control(
        plant: *const u8,
        plant_length: u64,
        start: *const u8,
        start_length: u64,
        index: u64,
        place: u64,
        left: u64,
        x0: i64,
        x1: i64,
        x2: i64,
        x3: i64,
        out: *mut u64,
    ) -> u64;
}

/// What the library says of a plant's bytes.
pub fn plant(plant: &[u8]) -> Told {
    let mut out = [u64::MAX; 2];
    let number = unsafe { hoachulim_plant(plant.as_ptr(), plant.len() as u64, out.as_mut_ptr()) };
    (number, out[0], out[1])
}

/// The plant that the library makes of a sheet's bytes: number, and length written or place, and step.
pub fn sheet(sheet: &[u8], buffer: &mut [u8]) -> Told {
    let mut out = [u64::MAX; 2];
    let number = unsafe {
        hoachulim_sheet(sheet.as_ptr(), sheet.len() as u64, buffer.as_mut_ptr(), buffer.len() as u64, out.as_mut_ptr())
    };
    (number, out[0], out[1])
}

/// What the library says of a table's bytes for a plant's bytes.
pub fn check(plant: &[u8], table: &[u8]) -> Told {
    let mut out = [u64::MAX; 2];
    let number = unsafe {
        hoachulim_check(plant.as_ptr(), plant.len() as u64, table.as_ptr(), table.len() as u64, out.as_mut_ptr())
    };
    (number, out[0], out[1])
}

/// The table of a form that the library makes of a plant's bytes: number, and length written or place, and step.
pub fn make(plant: &[u8], form: u64, buffer: &mut [u8]) -> Told {
    let mut out = [u64::MAX; 2];
    let number = unsafe {
        hoachulim_make(plant.as_ptr(), plant.len() as u64, form, buffer.as_mut_ptr(), buffer.len() as u64, out.as_mut_ptr())
    };
    (number, out[0], out[1])
}

/// A table's bytes that the library turns into another form of the same tree: number, and length written or place, and step.
pub fn relay(plant: &[u8], table: &[u8], form: u64, buffer: &mut [u8]) -> Told {
    let mut out = [u64::MAX; 2];
    let number = unsafe {
        hoachulim_relay(
            plant.as_ptr(),
            plant.len() as u64,
            table.as_ptr(),
            table.len() as u64,
            form,
            buffer.as_mut_ptr(),
            buffer.len() as u64,
            out.as_mut_ptr(),
        )
    };
    (number, out[0], out[1])
}

/// One call of the controller: the mode, and number, place, step, next place, next left.
pub fn control(plant: &[u8], table: &[u8], place: u64, left: u64, x: [i64; 4]) -> (u64, [u64; 5]) {
    let mut out = [u64::MAX; 5];
    let mode = unsafe {
        hoachulim_control(
            plant.as_ptr(),
            plant.len() as u64,
            table.as_ptr(),
            table.len() as u64,
            place,
            left,
            x[0],
            x[1],
            x[2],
            x[3],
            out.as_mut_ptr(),
        )
    };
    (mode, out)
}

/// The start file that the library makes of a plant's and a chain's bytes, its tables of a form: number, and length written or place, and step.
pub fn start_make(plant: &[u8], chain: &[u8], form: u64, buffer: &mut [u8]) -> Told {
    let mut out = [u64::MAX; 2];
    let number = unsafe {
        hoachulim_start_make(
            plant.as_ptr(),
            plant.len() as u64,
            chain.as_ptr(),
            chain.len() as u64,
            form,
            buffer.as_mut_ptr(),
            buffer.len() as u64,
            out.as_mut_ptr(),
        )
    };
    (number, out[0], out[1])
}

/// What the library says of a start file's bytes for a plant's bytes.
pub fn start_check(plant: &[u8], start: &[u8]) -> Told {
    let mut out = [u64::MAX; 2];
    let number = unsafe {
        hoachulim_start_check(plant.as_ptr(), plant.len() as u64, start.as_ptr(), start.len() as u64, out.as_mut_ptr())
    };
    (number, out[0], out[1])
}

/// Index, place, left: the state of a controller with a start file.
pub type Standing = [u64; 3];

/// One call of the controller with a start file: the mode, and number, place, step, next index, next place, next left.
pub fn start_control(plant: &[u8], start: &[u8], [index, place, left]: Standing, x: [i64; 4]) -> (u64, [u64; 6]) {
    let mut out = [u64::MAX; 6];
    let mode = unsafe {
        hoachulim_start_control(
            plant.as_ptr(),
            plant.len() as u64,
            start.as_ptr(),
            start.len() as u64,
            index,
            place,
            left,
            x[0],
            x[1],
            x[2],
            x[3],
            out.as_mut_ptr(),
        )
    };
    (mode, out)
}

/// The plant whose defined table has the most bytes there can be of modes of one byte: 30,039 in form 1, 34,389 in form 2, 32,769 in
/// form 3.
pub fn largest_table_plant() -> Vec<u8> {
    turn_as_mode(2, 0, 1000)
}

/// The plant whose defined table has the most bytes there can be: 54,615 in form 1, 58,965 in form 2, 57,345 in form 3.
pub fn longest_table_plant() -> Vec<u8> {
    turn_as_mode(2, 128, 1000)
}

/// R is 64 by 64 counts from `lo` on, or in four rooms 8 counts in each. The last mode turns a reading by a sixth, in each pair of rooms, so that six
/// times it is back, and no larger tile works; each mode before it leads out of S at once.
pub fn turn_as_mode(rooms: usize, mode: usize, lo: i64) -> Vec<u8> {
    use common::{file, S, U};
    let (n, limit, counts) = (rooms as u64, 1_000_000, if rooms == 2 { 64 } else { 8 });
    let mut fields = [1, n, mode as u64 + 1, 1, 6, 12 / n].map(U).to_vec();
    let away = [vec![0; rooms], vec![2 * limit], vec![0; (rooms - 1) * (rooms + 1)]].concat();
    let row = |i: usize| {
        let turn = [[4, -13], [1, -3]][i % 2];
        (0..rooms).map(move |j| if j / 2 == i / 2 { turn[j % 2] } else { 0 }).chain([0])
    };
    fields.extend([lo, lo + counts - 1, -limit, limit].repeat(rooms).into_iter().map(S));
    fields.extend(vec![S(0); 2 * rooms]);
    fields.extend(away.repeat(mode).into_iter().map(S));
    fields.extend((0..rooms).flat_map(row).map(S));
    file(&fields)
}

/// Four rooms, sixteen modes, patterns of six: every image stays in S and none ends in R, so that the first box costs all the images it can.
pub fn four_rooms_without_a_table() -> Vec<u8> {
    four_rooms(16, 6)
}

/// The same of so many modes and so long a pattern: a valve for each bit of the mode's number, the first four of them the rooms' heaters, each further
/// one a little more heat in a room.
pub fn four_rooms(modes: i64, k: u64) -> Vec<u8> {
    use common::{file, S, U};
    let limit = 1_000_000;
    let mut fields = vec![U(1), U(4), U(modes as u64), U(1000), U(k), U(0)];
    for (lo, hi) in [(2000, 2250), (2000, 2250), (2000, 2250), (9000, 9100)] {
        fields.extend([lo, hi, -limit, limit].map(S));
    }
    fields.extend([-500, 499].repeat(4).into_iter().map(S));
    for mode in 0..modes {
        for i in 0..4 {
            fields.extend((0..4).map(|j| S(if i == j { 900 } else { 30 - 3 * ((i + j) % 3) })));
            fields.push(S(20_000 + 30_000 * (mode >> i & 1) + 5_000 * (mode >> (i + 4) & 1)));
        }
    }
    file(&fields)
}
