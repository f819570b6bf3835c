//! The examples of documents 001 and 002 as this product's values, in the
//! papers' letters, and the step of their equations integrated over the sample
//! time, as the papers take it. docs/PAPERS.md tells the figures and why.

use second::band::Band;
use second::edges::Edges;
use second::plant::Plant;
use second::sheet::{plant_of_sheet, Emitter, Room, Sheet};

/// Both papers: "tau = 5", "T_e = 10".
const SAMPLE_TIME: f64 = 5.0;
const OUTSIDE: f64 = 10.0;
/// All that a coefficient's rounding can be made small by.
const Q: u64 = 10_000;
/// No paper gives a disturbance: what is left is the reading, the nearest whole
/// count, halves down. It is the narrowest band that document 01 allows.
const HALF_A_COUNT: (i64, i64) = (-5_000, 4_999);

/// One room's R and S in tenths of a degree.
type Zones = (i64, i64, i64, i64);

/// Edges at r counts a degree.
fn edges(r: u64, zones: &[Zones]) -> Edges {
    let counts = |tenths: i64| tenths * r as i64 / 10;
    let mut edges = Edges::default();
    for (i, (r_lo, r_hi, s_lo, s_hi)) in zones.iter().enumerate() {
        (edges.r_lo[i], edges.r_hi[i]) = (counts(*r_lo), counts(*r_hi));
        (edges.s_lo[i], edges.s_hi[i]) = (counts(*s_lo), counts(*s_hi));
    }
    edges
}

/// The same band in each of so many rooms.
fn half_a_count(rooms: usize) -> Band {
    let mut band = Band::default();
    band.lo[..rooms].fill(HALF_A_COUNT.0);
    band.hi[..rooms].fill(HALF_A_COUNT.1);
    band
}

/// Two rooms beside each other, "alpha_12 = alpha_21 = 0.05", in both papers.
fn two_rooms(losses: [f64; 2], emitter: Emitter) -> [Room; 4] {
    let room = |loss| Room { loss, exchange: [0.05, 0.0, 0.0], emitter };
    [room(losses[0]), room(losses[1]), Room::ZEROS, Room::ZEROS]
}

fn example_1(r: u64, k: u64, emitter: Emitter) -> Sheet {
    let edges = edges(r, &[(200, 220, 190, 230); 2]);
    let rooms = two_rooms([0.005, 0.0033], emitter);
    Sheet { n: 2, r, q: Q, k, d: 3, edges, band: half_a_count(2), time: SAMPLE_TIME, outside: OUTSIDE, rooms }
}

/// 002 example 1, its heaters fading as in example 2.
pub fn of_002_example_1(r: u64, k: u64) -> Sheet {
    example_1(r, k, Emitter::Heater { p: 0.0083, water: 50.0 })
}

/// 002 example 1 as printed: a heater's push, alpha_f T_f, ignores the room.
pub fn of_002_example_1_printed(r: u64, k: u64) -> Sheet {
    example_1(r, k, Emitter::Steady { rate: 0.0083 * 50.0 })
}

/// 002 example 2, X = (H1, T1, H2, T2): a floor is a room without loss that
/// holds the heater and exchanges with its own room alone.
pub fn of_002_example_2(r: u64) -> Sheet {
    let (floor, room) = ((200, 300, 150, 400), (200, 220, 190, 230));
    let heater = Emitter::Heater { p: 0.12, water: 40.0 };
    let (beta, gamma, alpha) = (0.083, 0.0083, 0.006);
    let rooms = [
        Room { loss: 0.0, exchange: [beta, 0.0, 0.0], emitter: heater },
        Room { loss: 0.005, exchange: [gamma, 0.0, alpha], emitter: Emitter::None },
        Room { loss: 0.0, exchange: [0.0, 0.0, beta], emitter: heater },
        Room { loss: 0.0033, exchange: [0.0, alpha, gamma], emitter: Emitter::None },
    ];
    let edges = edges(r, &[floor, room, floor, room]);
    Sheet { n: 4, r, q: Q, k: 6, d: 3, edges, band: half_a_count(4), time: SAMPLE_TIME, outside: OUTSIDE, rooms }
}

/// 001 example 1, with S down to the paper's -35 degrees and up by its epsilon.
pub fn of_001_example_1() -> Sheet {
    let edges = edges(100, &[(185, 220, -350, 225); 2]);
    let rooms = two_rooms([0.005, 0.005], Emitter::Heater { p: 0.0083, water: 35.0 });
    Sheet { n: 2, r: 100, q: Q, k: 6, d: 1, edges, band: half_a_count(2), time: SAMPLE_TIME, outside: OUTSIDE, rooms }
}

/// The low edges of its boxes R1..R6; the high edge is R's own, 22 degrees.
pub const CHAIN_001: [i64; 6] = [1_490, 950, 130, -630, -1_630, -3_500];
/// The same for the integrated equation.
pub const CHAIN_001_INTEGRATED: [i64; 6] = [1_580, 1_100, 390, -270, -1_650, -3_500];
/// With the paper's own K 4 it takes all eight boxes.
pub const CHAIN_001_K_4: [i64; 8] = [1_630, 1_340, 960, 460, -200, -1_070, -2_210, -3_500];

/// A matrix with the offsets as a column behind the rooms.
type Affine = [[f64; 5]; 5];

/// dX/dt = A X + B in one mode, times the sample time.
fn equation(sheet: &Sheet, mode: usize) -> Affine {
    let mut flow = [[0.0; 5]; 5];
    let mut emitters = 0;
    for i in 0..sheet.n as usize {
        let room = &sheet.rooms[i];
        let others = (0..sheet.n as usize).filter(|j| *j != i);
        for (j, exchange) in others.zip(room.exchange) {
            flow[i][j] = exchange;
            flow[i][i] -= exchange;
        }
        flow[i][i] -= room.loss;
        flow[i][4] = room.loss * sheet.outside;
        let on = mode >> emitters & 1 == 1;
        match room.emitter {
            Emitter::Heater { p, water } if on => {
                flow[i][i] -= p;
                flow[i][4] += p * water;
            }
            Emitter::Steady { rate } if on => flow[i][4] += rate,
            _ => {}
        }
        emitters += usize::from(room.emitter != Emitter::None);
    }
    flow.map(|row| row.map(|entry| entry * sheet.time))
}

fn product(a: &Affine, b: &Affine) -> Affine {
    let entry = |i: usize, j: usize| (0..5).map(|k| a[i][k] * b[k][j]).sum();
    std::array::from_fn(|i| std::array::from_fn(|j| entry(i, j)))
}

/// The exponential: the series of a 1,024th, squared ten times.
fn exponential(flow: &Affine) -> Affine {
    let part = flow.map(|row| row.map(|entry| entry / 1_024.0));
    let one: Affine = std::array::from_fn(|i| std::array::from_fn(|j| f64::from(i == j)));
    let (mut sum, mut term) = (one, one);
    for k in 1..20 {
        term = product(&term, &part).map(|row| row.map(|entry| entry / f64::from(k)));
        sum = std::array::from_fn(|i| std::array::from_fn(|j| sum[i][j] + term[i][j]));
    }
    (0..10).fold(sum, |power, _| product(&power, &power))
}

/// "The integration of the continuous equation for mode u during tau": the
/// sheet's plant, band and all, with these coefficients in place of the step's.
pub fn integrated(sheet: &Sheet) -> Plant {
    let mut plant = plant_of_sheet(sheet).expect("a sheet in order");
    let n = sheet.n as usize;
    for mode in 0..plant.modes as usize {
        let step = exponential(&equation(sheet, mode));
        for i in 0..n {
            let at = (mode * n + i) * (n + 1);
            for j in 0..n {
                plant.coefficients[at + j] = (sheet.q as f64 * step[i][j]).round() as i64;
            }
            let offset = (sheet.q * sheet.r) as f64 * step[i][4];
            plant.coefficients[at + n] = offset.round() as i64;
        }
    }
    plant
}
