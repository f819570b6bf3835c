//! The benchmark: the proved library against the second program, the same
//! inputs in one run, by turns, the best of several rounds each. A ratio below 1
//! says that the proved library is the faster.

use second::control::State;
use second::plant::read_plant;
use second::start::StartState;
use side::starts::turning;
use side::tables::{made_table, read_by_a_call};
use side::{
    check, common, control, four_rooms, four_rooms_without_a_table, largest, largest_table_plant, make, plant, sheet, start_check, start_control,
    start_make,
};
use std::hint::black_box;
use std::time::Instant;

/// The largest tables of form 1, of modes of one byte and of two. Buffers have the length that they had before 2026-08 and before 2026-06, since a refused
/// write zeros all of one.
const USUAL_TABLE: usize = 30_039;
const LONGEST_TABLE: usize = 54_615;

/// Seconds of one call: the best round of `rounds`, each of `calls` calls.
fn best(rounds: usize, calls: usize, mut one: impl FnMut()) -> f64 {
    (0..rounds)
        .map(|_| {
            let began = Instant::now();
            (0..calls).for_each(|_| one());
            began.elapsed().as_secs_f64() / calls as f64
        })
        .fold(f64::INFINITY, f64::min)
}

/// Both by turns, so that neither has the quieter half of the run.
fn compare(name: &str, calls: usize, mut ours: impl FnMut(), mut theirs: impl FnMut()) {
    let (mut a, mut b) = (f64::INFINITY, f64::INFINITY);
    for _ in 0..10 {
        a = a.min(best(3, calls, &mut ours));
        b = b.min(best(3, calls, &mut theirs));
    }
    println!("{name}: proved {:.0} ns, second {:.0} ns, ratio {:.2}", a * 1e9, b * 1e9, a / b);
}

/// A plant read and judged.
fn compare_plant(name: &str, calls: usize, bytes: &[u8]) {
    compare(
        name,
        calls,
        || {
            black_box(plant(black_box(bytes)));
        },
        || {
            black_box(second::plant::read_plant(black_box(bytes))).unwrap();
        },
    );
}

/// A table that both accept.
fn compare_check(name: &str, calls: usize, bytes: &[u8], table: &[u8]) {
    assert_eq!(check(bytes, table), (0, 0, 0));
    compare(
        name,
        calls,
        || {
            black_box(check(black_box(bytes), black_box(table)));
        },
        || {
            black_box(second::checker::check(black_box(bytes), black_box(table))).unwrap();
        },
    );
}

/// A table made or refused, in buffers of one length.
fn compare_make(name: &str, calls: usize, bytes: &[u8], form: u64, length: usize) {
    let (mut ours, mut theirs) = (vec![0; length], vec![0; length]);
    assert_eq!(make(bytes, form, &mut ours).0, common::told(second::maker::make(bytes, form, &mut theirs)).0);
    assert_eq!(ours, theirs);
    compare(
        name,
        calls,
        || {
            black_box(make(black_box(bytes), black_box(form), black_box(&mut ours)));
        },
        || {
            black_box(second::maker::make(black_box(bytes), black_box(form), black_box(&mut theirs))).ok();
        },
    );
}

/// A call that both answer, of a state and a reading.
fn compare_control(name: &str, calls: usize, bytes: &[u8], table: &[u8], state: State, x: [i64; 4]) {
    compare(
        name,
        calls,
        || {
            black_box(control(black_box(bytes), black_box(table), state.place, state.left, x));
        },
        || {
            black_box(second::control::control(black_box(bytes), black_box(table), state, x)).unwrap();
        },
    );
}

/// The last reading of the largest tables.
const LAST: [i64; 4] = [1063, 1063, 0, 0];

/// The state that an idle call on it leaves in one of `length` bytes: of the last six modes five are left.
fn running(length: usize) -> State {
    State { place: length as u64 - 5, left: 5 }
}

fn main() {
    let bytes = largest_table_plant();
    let table = made_table(&bytes, 1).unwrap();
    assert_eq!(table.len(), USUAL_TABLE);
    compare_check("check, a table of 30,039 bytes", 20, &bytes, &table);
    for (name, bytes, calls) in [
        ("make, the sample house of two rooms", &include_bytes!("../../../samples/house.plant")[..], 100),
        ("make, four rooms whose first box fails (19,088,736 images)", &four_rooms_without_a_table(), 1),
        ("make, a table of 30,039 bytes", &bytes, 2),
    ] {
        compare_make(name, calls, bytes, 1, USUAL_TABLE);
    }
    assert_eq!(control(&bytes, &table, 0, 0, LAST), (0, [0, 0, 0, 30_034, 5]));
    compare_control("control, the last tile of that table", 100, &bytes, &table, State::IDLE, LAST);
    compare_control("control, the next mode of its pattern", 2000, &bytes, &table, running(USUAL_TABLE), LAST);
    the_sheet();
    compare_plant("plant, read and judged", 2000, &bytes);
    starts();
    either_form();
    many_modes();
    by_lengths();
    longest_side_alone();
}

fn the_sheet() {
    let house = &include_bytes!("../../../samples/house.sheet")[..];
    let (mut ours, mut theirs) = (vec![0; second::LARGEST_PLANT], vec![0; second::LARGEST_PLANT]);
    assert_eq!(sheet(house, &mut ours).0, 0);
    assert!(second::sheet::sheet_to_plant(house, &mut theirs).is_ok());
    assert_eq!(ours, theirs);
    compare(
        "sheet, the sample house's plant",
        1000,
        || {
            black_box(sheet(black_box(house), black_box(&mut ours)));
        },
        || {
            black_box(second::sheet::sheet_to_plant(black_box(house), black_box(&mut theirs))).unwrap();
        },
    );
}

/// Form 2 on the plant of the largest table: 4,096 tiles of one count, six splits each. An idle call on the last tile reads those six and the tile, and
/// should take little more than the running call behind it.
fn by_lengths() {
    let bytes = largest_table_plant();
    let table = made_table(&bytes, 2).unwrap();
    assert_eq!(table.len(), 34_389);
    compare_make("make, form 2, a table of 34,389 bytes", 2, &bytes, 2, table.len());
    compare_check("check, form 2, that table", 20, &bytes, &table);
    assert_eq!(control(&bytes, &table, 0, 0, LAST), (0, [0, 0, 0, 34_384, 5]));
    compare_control("control, form 2, idle call on the last tile of that table", 2000, &bytes, &table, State::IDLE, LAST);
    compare_control("control, form 2, running call, the next mode of its pattern", 2000, &bytes, &table, running(table.len()), LAST);
    let read = read_by_a_call(&read_plant(&bytes).unwrap(), &table, &LAST).iter().map(|(from, to)| to - from).sum::<usize>();
    println!("control, form 2: that idle call reads {read} of {} bytes, in form 1 all {USUAL_TABLE}", table.len());
}

/// Form 3 on the plant of the largest table: 4,096 tiles of one count, twelve halvings each.
fn longest_side_alone() {
    let bytes = largest_table_plant();
    let table = made_table(&bytes, 3).unwrap();
    assert_eq!(table.len(), 32_769);
    compare_make("make, form 3, a table of 32,769 bytes", 2, &bytes, 3, table.len());
    compare_check("check, form 3, that table", 20, &bytes, &table);
    assert_eq!(control(&bytes, &table, 0, 0, LAST), (0, [0, 0, 0, 32_764, 5]));
    compare_control("control, form 3, the last tile of that table", 100, &bytes, &table, State::IDLE, LAST);
    compare_control("control, form 3, the next mode of its pattern", 2000, &bytes, &table, running(table.len()), LAST);
}

/// 256 modes: a plant read in either form, a first box that fails on patterns of two, and the largest plant with a table of 53,523 bytes.
fn many_modes() {
    let four = four_rooms(256, 2);
    for (form, bytes) in either(&four) {
        compare_plant(&format!("plant of form {form}, four rooms and 256 modes, read and judged"), 50, &bytes);
    }
    assert_eq!(make(&four, 1, &mut []), (9, 0, 0));
    compare_make("make, 256 modes, K 2, four rooms whose first box fails (65,792 images)", 10, &four, 1, LONGEST_TABLE);
    let (bytes, table) = (largest::plant(), largest::table());
    compare_check(&format!("check, 256 modes, {} bytes of plant, {} of table", bytes.len(), table.len()), 10, &bytes, &table);
    let last = [largest::CENTRE + 3; 4];
    let (mode, out) = control(&bytes, &table, 0, 0, last);
    assert_eq!((mode, out[4]), (255, 5));
    let running = State { place: out[3], left: out[4] };
    compare_control("control, 256 modes, the last tile of that table", 20, &bytes, &table, State::IDLE, last);
    compare_control("control, 256 modes, the next mode of its pattern", 50, &bytes, &table, running, last);
}

/// A plant in form 1, and in form 2 with its band in every mode.
fn either(bytes: &[u8]) -> [(u64, Vec<u8>); 2] {
    let mut plant = second::plant::read_plant(bytes).unwrap();
    plant.form = 2;
    let mut other = vec![0; second::LARGEST_PLANT];
    let length = second::plant::write_plant(&plant, &mut other).unwrap();
    other.truncate(length);
    [(1, bytes.to_vec()), (2, other)]
}

/// A plant read, tables made and calls answered, in form 1 and right behind it in form 2 with equal bands.
fn either_form() {
    let (four, house) = (four_rooms_without_a_table(), &include_bytes!("../../../samples/house.plant")[..]);
    for (form, bytes) in either(&four) {
        compare_plant(&format!("plant of form {form}, four rooms and sixteen modes, read and judged"), 500, &bytes);
    }
    for (name, bytes, calls) in [("the sample house", house, 100), ("four rooms whose first box fails", &four, 1)] {
        for (form, bytes) in either(bytes) {
            compare_make(&format!("make, {name}, plant of form {form}"), calls, &bytes, 1, USUAL_TABLE);
        }
    }
    calls_in_either_form();
}

fn calls_in_either_form() {
    let table = made_table(&largest_table_plant(), 1).unwrap();
    for (name, calls, state) in [
        ("the last tile of the largest table", 100, State::IDLE),
        ("the next mode of its pattern", 2000, running(USUAL_TABLE)),
    ] {
        for (form, bytes) in either(&largest_table_plant()) {
            compare_control(&format!("control, {name}, plant of form {form}"), calls, &bytes, &table, state, LAST);
        }
    }
}

/// A start file of nine tables, each all but the largest: the last tile of the last one, and the next mode of its pattern.
fn starts() {
    let (plant, chain) = turning();
    let (mut ours, mut theirs) = (vec![0; second::LARGEST_START], vec![0; second::LARGEST_START]);
    let length = second::start::start_make_into(&plant, &chain, 1, &mut theirs).unwrap();
    assert_eq!(start_make(&plant, &chain, 1, &mut ours), (0, length as u64, 0));
    assert_eq!(ours, theirs);
    let start = theirs[..length].to_vec();
    let name = |what: &str| format!("{what}, m 8, {length} bytes");
    compare(
        &name("start make"),
        1,
        || {
            black_box(start_make(black_box(&plant), black_box(&chain), black_box(1), black_box(&mut ours)));
        },
        || {
            black_box(second::start::start_make_into(black_box(&plant), black_box(&chain), black_box(1), black_box(&mut theirs))).unwrap();
        },
    );
    compare(
        &name("start check"),
        1,
        || {
            black_box(start_check(black_box(&plant), black_box(&start)));
        },
        || {
            black_box(second::start::start_check(black_box(&plant), black_box(&start))).unwrap();
        },
    );
    start_calls(&plant, &start);
}

fn start_calls(plant: &[u8], start: &[u8]) {
    assert_eq!(start_control(plant, start, [0, 0, 0], LAST), (0, [0, 0, 0, 8, 30_034, 5]));
    for (what, calls, standing) in [("idle in R8", 100, [0, 0, 0]), ("running", 2000, [8, 30_034, 5])] {
        let [index, place, left] = standing;
        compare(
            &format!("start call {what}, m 8, {} bytes", start.len()),
            calls,
            || {
                black_box(start_control(black_box(plant), black_box(start), standing, LAST));
            },
            || {
                let state = StartState { index, place, left };
                black_box(second::start::start_control(black_box(plant), black_box(start), state, LAST)).unwrap();
            },
        );
    }
}
