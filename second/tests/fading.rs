//! Request 2026-02: "For a heater that is on, s gains p after the exchanges, so
//! A depends on the mode. Steady emitters stay."

mod common;
use common::*;
use second::plant::Plant;
use second::sheet::{plant_of_sheet, read_sheet, sheet_to_plant, write_sheet};

/// A sheet with r 1, R and S 0..0, outside 0; of each room the loss, the
/// exchanges and the emitter's fields.
fn rooms(q: u64, time: f64, records: &[(f64, &[f64], &[Field])]) -> Vec<Field> {
    let n = records.len();
    let mut fields = vec![U(1), U(n as u64), U(1), U(q), U(1), U(0)];
    fields.extend(vec![S(0); 4 * n]);
    fields.extend(vec![[S(0), S(q as i64 - 1)]; n].concat());
    fields.extend([F(time), F(0.0)]);
    for (loss, exchanges, emitter) in records {
        fields.extend([*loss].iter().chain(*exchanges).map(|float| F(*float)));
        fields.extend_from_slice(emitter);
    }
    fields
}

fn heater(p: f64, water: f64) -> [Field; 3] {
    [U(1), F(p), F(water)]
}

fn steady(rate: f64) -> [Field; 2] {
    [U(2), F(rate)]
}

const NONE: [Field; 1] = [U(0)];

fn plant_of(fields: &[Field]) -> Plant {
    plant_of_sheet(&read_sheet(&file(fields)).expect("a sheet")).expect("a plant")
}

/// A of a mode, row by row, without b.
fn a(plant: &Plant, mode: usize) -> Vec<i64> {
    let n = plant.rooms();
    (0..n).flat_map(|i| plant.row(mode, i)[..n].to_vec()).collect()
}

/// 14 at this number, in every function that judges a sheet.
fn refused_at(fields: &[Field], n: usize, place: u64) {
    let values = sheet_values(fields, n);
    assert_eq!(told(read_sheet(&file(fields))), (14, place, 0));
    assert_eq!(told(sheet_to_plant(&file(fields), &mut [])), (14, place, 0));
    assert_eq!(told(write_sheet(&values, &mut [])), (14, place, 0));
    assert_eq!(told(plant_of_sheet(&values)), (14, place, 0));
}

/// Line 13 with this p and water: numbers 12 and 13 are mode 0, 14 and 15 mode 1.
fn one_room(p: f64, water: f64) -> Vec<Field> {
    with(&with(&line_13(), 16, F(p)), 17, F(water))
}

/// q 8, time 1, loss 0.125: with the heater on 7 - 8 p, which rounds out of range
/// from p = 2,500.9375 on, -20,000.5.
#[test]
fn a_diagonal_out_of_range_in_one_mode_only() {
    let below = f64::from_bits(2_500.937_5_f64.to_bits() - 1);
    assert_eq!(plant_of(&one_room(below, 1.0)).coefficients[..4], [7, 80, -20_000, 200_155]);
    refused_at(&one_room(2_500.937_5, 1.0), 1, 14);
    // before that row's b, out of range or not finite; in range it is b's turn
    refused_at(&one_room(2_500.937_5, 1e10), 1, 14);
    refused_at(&one_room(2_500.937_5, f64::MAX), 1, 14);
    refused_at(&one_room(below, 1e10), 1, 15);
    // mode 0 comes first: its b, out of range by the outside temperature
    refused_at(&with(&one_room(2_500.937_5, 1.0), 13, F(1e10)), 1, 13);
}

/// s and p are finite and their sum is not: in mode 0 the diagonal is 1 - 1.5.
#[test]
fn a_diagonal_not_finite_in_one_mode_only() {
    let sheet = |p: f64| rooms(8, 1e-308, &[(1.5e308, &[], &heater(p, 0.0))]);
    assert_eq!(plant_of(&sheet(0.25e308)).coefficients[..4], [-4, 0, -6, 0]);
    refused_at(&sheet(1.5e308), 1, 14);
}

/// The heater in room 1, bit 1: mode 2, row 1, column 1, which is 18 + 2 * 6 + 4.
/// Column 0 of that row comes before it, the row of room 0 too.
#[test]
fn the_place_of_a_diagonal_in_its_mode() {
    let sheet = |g: f64, rate: f64, p: f64| {
        rooms(10_000, 1.0, &[(0.0, &[0.0], &steady(rate)), (0.0, &[g], &heater(p, 1e300))])
    };
    refused_at(&sheet(1.0, 0.0, 3.5), 2, 34);
    refused_at(&sheet(1.0, 1e300, 3.5), 2, 18 + 6 + 2);
    refused_at(&sheet(2.5, 0.0, 3.5), 2, 18 + 3);
    // 1 - 2 - 1 is in range, so b is told, one further on
    refused_at(&sheet(2.0, 0.0, 1.0), 2, 35);
}

/// ((loss + g) + p), p last: with this time s = 2^53 gives the diagonal -0.5 +
/// 2^-52, so 0, and s = 2^53 + 2 gives -0.5, so -1; 2^53 + 1 rounds to 2^53.
#[test]
fn the_order_of_the_sum() {
    let big = 2.0_f64.powi(53);
    let time = f64::from_bits((1.5 / big).to_bits() - 1);
    let diagonals = |loss: f64, g: f64, p: f64| {
        let plant = plant_of(&rooms(1, time, &[(loss, &[g], &heater(p, 0.0)), (0.0, &[0.0], &NONE)]));
        [a(&plant, 0)[0], a(&plant, 1)[0]]
    };
    assert_eq!(diagonals(big, 0.0, 1.0), [0, 0]);
    assert_eq!(diagonals(big, 0.0, 2.0), [0, -1]);
    // (2^53 + 1) + 1, not 2^53 + (1 + 1)
    assert_eq!(diagonals(big, 1.0, 1.0), [0, 0]);
    // (1 + 2^53) + 1, not (1 + 1) + 2^53: p comes after the exchanges
    assert_eq!(diagonals(1.0, big, 1.0), [0, 0]);
    // (1 + 1) + 2^53, not (1 + 2^53) + 1 by any other order
    assert_eq!(diagonals(1.0, 1.0, big), [1, -1]);
}

/// One product, 1 - time * (s + p), here -6.5, so -7; a product for each of s
/// and p would leave it just above that, so -6.
#[test]
fn time_times_the_whole_sum() {
    let (time, loss, p) = (0.3, 1.0, 24.0);
    assert!((1.0 - time * loss) - time * p > -6.5 && 1.0 - (time * loss + time * p) > -6.5);
    let plant = plant_of(&rooms(1, time, &[(loss, &[], &heater(p, 0.0))]));
    assert_eq!([a(&plant, 0), a(&plant, 1)], [[1], [-7]]);
}

/// A steady emitter's modes differ in b alone, and so do those of a heater with p 0.
#[test]
fn a_steady_emitter_does_not_fade() {
    let plant = plant_of(&rooms(8, 0.5, &[(0.25, &[0.5], &steady(3.0)), (0.5, &[0.25], &heater(2.0, 1.0))]));
    let (cool, faded) = ([5, 2, 1, 5], [5, 2, 1, -3]);
    assert_eq!([a(&plant, 0), a(&plant, 1), a(&plant, 2), a(&plant, 3)], [cool, cool, faded, faded]);
    assert_eq!([0, 1, 2, 3].map(|mode| [plant.row(mode, 0)[2], plant.row(mode, 1)[2]]), [[0, 0], [12, 0], [0, 8], [12, 8]]);
    for p in [0.0, -0.0] {
        let plant = plant_of(&rooms(8, 0.5, &[(0.25, &[], &heater(p, 40.0))]));
        assert_eq!(plant.coefficients[..4], [7, 0, 7, 0]);
    }
}

/// Heaters of p 1, 2 and 4 in rooms 0, 2 and 3, none in room 1: each is taken off
/// its own diagonal, in the modes that have its bit.
#[test]
fn modes_with_several_heaters() {
    let g: &[f64] = &[0.5, 0.5, 0.5];
    let heaters = [heater(1.0, 0.5), heater(2.0, 0.5), heater(4.0, 0.5)];
    let [first, third, fourth] = &heaters;
    let plant = plant_of(&rooms(8, 1.0, &[(0.5, g, first), (0.5, g, &NONE), (0.5, g, third), (0.5, g, fourth)]));
    assert_eq!(plant.modes, 8);
    for mode in 0..8 {
        let on = |bit: usize| (mode >> bit & 1) as i64;
        let p = [on(0), 0, 2 * on(1), 4 * on(2)];
        for (i, p) in p.into_iter().enumerate() {
            let mut row = [4, 4, 4, 4, 4 * p];
            row[i] = 8 * (1 - 2 - p);
            assert_eq!(plant.row(mode, i), row, "mode {mode}, room {i}");
        }
    }
}
