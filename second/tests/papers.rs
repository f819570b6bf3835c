//! The cases of documents 001 and 002 that docs/PAPERS.md sets beside what the
//! papers report: the files in samples/, what is made of them byte for byte,
//! and rooms driven by them.

mod common;
mod papers_cases;
mod slow;
use common::*;
use papers_cases::*;
use second::checker::check;
use second::control::{control, State};
use second::listing::listing;
use second::maker::make;
use second::plant::{read_plant, Plant};
use second::sheet::{sheet_to_plant, write_sheet, Sheet};
use second::start::{start_check, start_control, start_make, StartState};
use second::start_listing::start_listing;
use slow::*;

fn sample(name: &str) -> Vec<u8> {
    let path = format!("{}/../samples/{name}", env!("CARGO_MANIFEST_DIR"));
    std::fs::read(&path).unwrap_or_else(|error| panic!("{path}: {error}"))
}

fn sheet_bytes(sheet: &Sheet) -> Vec<u8> {
    let mut bytes = vec![0; 308];
    let length = write_sheet(sheet, &mut bytes).expect("a sheet in order");
    bytes.truncate(length);
    bytes
}

/// The plant made of a sheet by way of its bytes.
fn plant_of(sheet: &Sheet) -> Vec<u8> {
    let mut plant = vec![0; second::LARGEST_PLANT];
    let length = sheet_to_plant(&sheet_bytes(sheet), &mut plant).expect("a plant");
    plant.truncate(length);
    plant
}

/// The sample is the paper's sheet; the plant made of it.
fn plant_of_sample(name: &str, sheet: &Sheet) -> Vec<u8> {
    assert_eq!(sample(name), sheet_bytes(sheet), "{name}");
    plant_of(sheet)
}

/// The sample is the plant of the paper's integrated equation.
fn integrated_sample(name: &str, sheet: &Sheet) -> Vec<u8> {
    assert_eq!(sample(name), plant_bytes(&integrated(sheet)), "{name}");
    sample(name)
}

/// The plant's table is this one, is accepted, and drives the room.
fn holds(plant: &[u8], table: &[u8]) {
    let mut made = vec![0; second::LARGEST_TABLE];
    let length = make(plant, 1, &mut made).expect("a table");
    assert_eq!(made[..length], *table);
    assert_eq!(check(plant, table), Ok(()));
    let read = read_plant(plant).expect("a plant");
    for next in [lowest, highest, next_reading] {
        for seed in 0..5 {
            drive(plant, &read, table, next, &mut Random(seed));
        }
    }
}

/// A way to choose a reading that may follow.
type Next = fn(&Plant, u8, &[i64; 4], &mut Random) -> [i64; 4];

fn lowest(plant: &Plant, mode: u8, x: &[i64; 4], _: &mut Random) -> [i64; 4] {
    edge_reading(&following(plant, mode, x).0)
}

fn highest(plant: &Plant, mode: u8, x: &[i64; 4], _: &mut Random) -> [i64; 4] {
    edge_reading(&following(plant, mode, x).1)
}

fn edge_reading(edges: &[i128]) -> [i64; 4] {
    std::array::from_fn(|i| edges.get(i).map_or(0, |edge| *edge as i64))
}

/// A thousand samples from a reading in R, never refused, idle in R only.
fn drive(bytes: &[u8], plant: &Plant, table: &[u8], next: Next, random: &mut Random) {
    let (n, edges) = (plant.n as usize, &plant.edges);
    let mut x = reading_in(&edges.r_lo, &edges.r_hi, n, random);
    let mut state = State::IDLE;
    for _ in 0..1_000 {
        let zone = if state == State::IDLE { r_of(plant) } else { s_of(plant) };
        assert!(inside(&wide(&x, &x, n), &zone), "{x:?} outside {zone:?}");
        let mode;
        (mode, state) = control(bytes, table, state, x).expect("an answer");
        x = next(plant, mode, &x, random);
    }
}

fn header(plant: &[u8]) -> String {
    listing(plant, 1).lines().next().expect("a line").to_string()
}

/// 002 figure 2, left: "four different tiles with patterns of length 1".
#[test]
fn four_tiles_of_length_1() {
    let plant = plant_of_sample("002-example-1-four-tiles.sheet", &of_002_example_1(10, 1));
    assert_eq!(header(&plant), "table 2 4 1");
    holds(&plant, &[1, 2, 0, 1, 3, 1, 0, 1, 0, 1, 0]);
    let exact = of_002_example_1(100, 1);
    let plant = integrated_sample("002-example-1-four-tiles-integrated.plant", &exact);
    assert_eq!(header(&plant), "table 2 4 1");
    holds(&plant, &[1, 2, 0, 1, 3, 1, 0, 1, 1, 1, 0]);
}

/// 002 figure 2, right: "a single uniform pattern of length 5".
#[test]
fn one_tile_of_length_5() {
    let plant = plant_of_sample("002-example-1-one-tile.sheet", &of_002_example_1(10, 6));
    assert_eq!(header(&plant), "table 2 1 5");
    holds(&plant, &[1, 2, 5, 0, 0, 2, 1, 0]);
    let exact = of_002_example_1(100, 6);
    let plant = integrated_sample("002-example-1-one-tile-integrated.plant", &exact);
    assert_eq!(header(&plant), "table 2 1 5");
    holds(&plant, &[1, 2, 5, 0, 0, 2, 1, 0]);
}

/// The equation of example 1 as printed gives neither: no four tiles of length
/// 1 at any of its depths, no single pattern of up to 6.
#[test]
fn example_1_as_printed() {
    let printed = of_002_example_1_printed;
    let plant = plant_of_sample("002-example-1-printed.sheet", &printed(10, 6));
    assert_eq!(header(&plant), "table 2 4 2");
    holds(&plant, &[1, 2, 0, 2, 1, 0, 1, 0, 1, 0, 1, 0]);
    let short = plant_of(&printed(10, 1));
    assert_eq!(listing(&short, 1), "refused 9 0\n");
    assert_eq!(header(&plant_bytes(&integrated(&printed(100, 6)))), "table 2 4 3");
    assert_eq!(header(&plant_bytes(&integrated(&printed(100, 1)))), "refused 9 0");
}

/// The step at 100 counts a degree sees what 10 do not: room 2 goes from 21.00
/// to 22.02 degrees with its heater on.
#[test]
fn example_1_by_the_step_at_100_counts() {
    let four = plant_of(&of_002_example_1(100, 1));
    assert_eq!(header(&four), "table 2 7 1");
    let one = plant_of(&of_002_example_1(100, 6));
    assert_eq!(header(&one), "table 2 1 5");
}

/// 002 example 2: "16 tiles ... and patterns of up to three steps".
#[test]
fn sixteen_tiles_of_up_to_three_steps() {
    let plant = plant_of_sample("002-example-2.sheet", &of_002_example_2(10));
    assert_eq!(header(&plant), "table 4 16 3");
    let table = [
        &[1, 4, 0, 2, 3, 0, 2, 3, 0, 2, 2, 0, 2, 2, 0, 2, 3, 0, 1, 0, 1, 0, 1, 0][..],
        &[2, 1, 0, 1, 0, 1, 0, 1, 0, 3, 1, 0, 0, 3, 0, 1, 0, 3, 0, 0, 0, 3, 0, 0, 0],
    ];
    holds(&plant, &table.concat());
    let plant = integrated_sample("002-example-2-integrated.plant", &of_002_example_2(100));
    assert_eq!(header(&plant), "table 4 16 3");
    let table = [
        &[1, 4, 0, 3, 3, 1, 0, 2, 3, 0, 1, 2, 1, 2, 3, 1, 1, 2, 2, 3, 0, 1, 0, 1, 0][..],
        &[3, 1, 1, 0, 2, 1, 0, 1, 0, 1, 0, 3, 1, 1, 0, 3, 0, 1, 0, 3, 0, 0, 0, 3, 0, 0, 0],
    ];
    holds(&plant, &table.concat());
    // by the step at 100 counts a degree one pattern is a sample longer
    assert_eq!(header(&plant_of(&of_002_example_2(100))), "table 4 16 4");
}

/// A plant, a start file for it, and the samples it promises from Rm.
struct Cold {
    bytes: Vec<u8>,
    plant: Plant,
    start: Vec<u8>,
    promised: usize,
}

/// The samples of that name: the chain has these low edges, the start file is
/// made of it and accepted.
fn cold(name: &str, bytes: Vec<u8>, lows: &[i64], promised: usize) -> Cold {
    assert_eq!(sample(&format!("{name}.plant")), bytes);
    let chain = sample(&format!("{name}.chain"));
    assert_eq!(chain, chain_of(lows));
    let start = sample(&format!("{name}.start"));
    assert_eq!(start_make(&bytes, &chain, 1), Ok(start.clone()));
    assert_eq!(start_check(&bytes, &start), Ok(()));
    Cold { plant: read_plant(&bytes).expect("a plant"), bytes, start, promised }
}

/// 001 example 1 by the step and by the integrated equation.
fn cold_cases() -> [Cold; 2] {
    let sheet = of_001_example_1();
    let step = plant_of_sample("001-example-1.sheet", &sheet);
    let exact = plant_bytes(&integrated(&sheet));
    [
        cold("001-example-1", step, &CHAIN_001, 32),
        cold("001-example-1-integrated", exact, &CHAIN_001_INTEGRATED, 33),
    ]
}

/// Square boxes with R's high edge.
fn chain_of(lows: &[i64]) -> Vec<u8> {
    let boxes: Vec<_> = lows.iter().map(|lo| [(*lo, 2_200); 2]).collect();
    file(&chain_fields(&boxes))
}

/// Of each box of a start file the low edge, the tiles, the longest pattern.
fn boxes_of(plant: &[u8], start: &[u8]) -> Vec<[i64; 3]> {
    let lines = start_listing(plant, start);
    let headers = lines.lines().filter(|line| line.starts_with("box"));
    let numbers = |line: &str| -> Vec<i64> {
        line.split(' ').filter_map(|word| word.parse().ok()).collect()
    };
    headers.map(numbers).map(|of| [of[1], of[5], of[6]]).collect()
}

/// 001 example 1: "any element of S can thus be driven to R within 15 control
/// patterns of length (at most) 4", 60 samples; here within 6 patterns.
#[test]
fn a_chain_from_35_degrees_of_frost() {
    let [step, exact] = cold_cases();
    let wanted =
        [[1850, 1, 2], [1490, 4, 6], [950, 4, 6], [130, 4, 6], [-630, 4, 4], [-1630, 4, 4], [-3500, 4, 6]];
    assert_eq!(boxes_of(&step.bytes, &step.start), wanted);
    assert_eq!(step.start.len(), 179);
    assert_eq!(sum_of_longest(&step.bytes, &step.start), 32);
    assert_eq!(sum_of_longest(&exact.bytes, &exact.start), 33);
}

/// Of the tables 1..m.
fn sum_of_longest(plant: &[u8], start: &[u8]) -> i64 {
    boxes_of(plant, start)[1..].iter().map(|[_, _, longest]| longest).sum()
}

/// The paper's own K 4 will do, with eight boxes.
#[test]
fn patterns_of_the_papers_length() {
    let plant = plant_of(&Sheet { k: 4, ..of_001_example_1() });
    let start = start_make(&plant, &chain_of(&CHAIN_001_K_4), 1).expect("a start file");
    assert_eq!(sum_of_longest(&plant, &start), 32);
}

/// Both heaters always on, from -35 degrees in both rooms: 32 samples by the
/// step and 33 by the integrated equation. No mode heats more, so no chain can
/// promise less than 32.
#[test]
fn heaters_always_on_need_32_samples() {
    assert_eq!(cold_cases().map(|cold| always_on(&cold.plant)), [32, 33]);
}

/// Samples until the nearest counts lie in R, mode 3 throughout.
fn always_on(plant: &Plant) -> usize {
    let (mut x, mut samples) = (vec![-3_500; 2], 0);
    while x[0] < 1_850 || x[1] < 1_850 {
        let values = [0, 1].map(|i| row_value(plant, 3, i, &x));
        x = values.map(|value| (value + 5_000).div_euclid(10_000)).to_vec();
        samples += 1;
    }
    samples
}

/// From the low corner and other readings of each box: home in as many samples
/// as the tables up to that box promise, then driven on. Some run takes all.
#[test]
fn cold_rooms_come_home() {
    for cold in cold_cases() {
        let (mut promised, mut latest) = (0, 0);
        for (index, [lo, _, longest]) in boxes_of(&cold.bytes, &cold.start).into_iter().enumerate() {
            promised += if index == 0 { 0 } else { longest as usize };
            let samples = latest_of_box(&cold, lo);
            assert!(samples <= promised, "{samples} from box {index}, {promised} promised");
            latest = latest.max(samples);
        }
        assert_eq!((promised, latest), (cold.promised, cold.promised));
    }
}

/// The latest arrival of some runs from a box.
fn latest_of_box(cold: &Cold, lo: i64) -> usize {
    let mut latest = 0;
    for next in [lowest, highest, next_reading] {
        for seed in 0..10 {
            let mut random = Random(seed);
            let any = reading_in(&[lo; 4], &[2_200; 4], 2, &mut random);
            let first = if seed == 0 { [lo; 4] } else { any };
            latest = latest.max(arrival(cold, next, first, &mut random));
        }
    }
    latest
}

/// Samples until an idle call meets a reading in R, of a thousand that are
/// driven: none refused, every reading in S, R0's table alone from then on.
fn arrival(cold: &Cold, next: Next, mut x: [i64; 4], random: &mut Random) -> usize {
    let (mut state, mut home) = (StartState::IDLE, None);
    for sample in 0..1_000 {
        let here = wide(&x, &x, 2);
        assert!(inside(&here, &s_of(&cold.plant)), "{x:?} outside S");
        if state == StartState::IDLE && inside(&here, &r_of(&cold.plant)) {
            home = home.or(Some(sample));
        }
        assert!(home.is_none() || state.index == 0, "away again at {x:?}");
        assert!(home.is_none() || state != StartState::IDLE || inside(&here, &r_of(&cold.plant)));
        let mode;
        (mode, state) = start_control(&cold.bytes, &cold.start, state, x).expect("an answer");
        x = next(&cold.plant, mode, &x, random);
    }
    home.expect("an arrival")
}

/// Hundredths of a degree, to the nearest, that a mode leads to in a room.
fn leads_to(plant: &Plant, mode: usize, room: usize, from: [i128; 2]) -> i128 {
    (row_value(plant, mode, room, &from) + 5_000).div_euclid(10_000)
}

/// The temperatures that docs/PAPERS.md names to say why example 1 differs.
#[test]
fn temperatures_that_tell_the_equations_apart() {
    let step = read_plant(&plant_of(&of_002_example_1(100, 1))).expect("a plant");
    let exact = integrated(&of_002_example_1(100, 1));
    assert_eq!(leads_to(&step, 3, 1, [2_100; 2]), 2_202);
    assert_eq!(leads_to(&exact, 3, 1, [2_100; 2]), 2_198);
    let printed = integrated(&of_002_example_1_printed(100, 1));
    assert_eq!(leads_to(&printed, 0, 0, [2_000; 2]), 1_976);
    assert_eq!(leads_to(&printed, 2, 0, [2_000; 2]), 1_998);
    assert_eq!(leads_to(&printed, 1, 0, [2_100; 2]), 2_257);
}

/// The most that the step and the integrated equation differ over a box, in
/// hundredths of a degree, room by room; both are affine, so at a corner.
fn departures(sheet: &Sheet, of: impl Fn(&Plant) -> Wide) -> Vec<i128> {
    let (step, exact) = (read_plant(&plant_of(sheet)).expect("a plant"), integrated(sheet));
    let (lo, hi) = of(&step);
    let mut most = vec![0; lo.len()];
    for corner in 0..1 << lo.len() {
        let x: Vec<i128> = (0..lo.len()).map(|i| if corner >> i & 1 == 1 { hi[i] } else { lo[i] }).collect();
        for mode in 0..step.modes as usize {
            for (i, most) in most.iter_mut().enumerate() {
                let apart = row_value(&step, mode, i, &x) - row_value(&exact, mode, i, &x);
                *most = apart.abs().max(*most);
            }
        }
    }
    most.into_iter().map(|apart| (apart + 5_000) / 10_000).collect()
}

#[test]
fn departures_of_the_step() {
    assert_eq!(departures(&of_002_example_1(100, 1), r_of), [27, 29]);
    assert_eq!(departures(&of_002_example_2(100), r_of), [481, 21, 480, 20]);
    assert_eq!(departures(&of_001_example_1(), r_of), [30, 30]);
    assert_eq!(departures(&of_001_example_1(), s_of), [399, 399]);
}
