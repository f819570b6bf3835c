//! The sheet side by side: answer and every byte of the plant's buffer. The
//! paper's and the sample sheet spoiled, cut and damaged; near halves; 14 at
//! every number of the plant where it can be told; seeded sheets.

use side::common::{file, line_13, two_room_sheet, with, Field, Random, F, S, U};
use side::inputs::{damaged, random, rounds, sheet_fields, spoiled, BAND};
use side::seen::Seen;
use side::Told;

const HOUSE: &[u8] = include_bytes!("../../samples/house.sheet");
const HOUSE_PLANT: &[u8] = include_bytes!("../../samples/house.plant");

/// Buffers of every kind; the answer in the longest.
fn every_buffer(seen: &mut Seen, sheet: &[u8]) -> Told {
    let answer = seen.sheet(sheet, second::LARGEST_PLANT + 1);
    if answer.0 == 0 {
        let made = answer.1 as usize;
        for length in [0, 1, made - 1, made, made + 1] {
            assert_eq!(seen.sheet(sheet, length).0, if length < made { 10 } else { 0 });
        }
    } else {
        assert_eq!(seen.sheet(sheet, 0), answer);
    }
    answer
}

fn spoiled_and_damaged(seen: &mut Seen, random: &mut Random, fields: &[Field]) {
    for (bytes, wanted) in spoiled(fields) {
        assert_eq!(seen.sheet(&bytes, 100), wanted, "{bytes:?}");
    }
    damaged(random, &file(fields), |other| {
        seen.sheet(other, second::LARGEST_PLANT);
    });
}

#[test]
fn the_papers_and_the_sample_sheets() {
    let (mut random, mut seen) = (random(5), Seen::default());
    for fields in [line_13(), two_room_sheet()] {
        assert_eq!(every_buffer(&mut seen, &file(&fields)).0, 0);
        spoiled_and_damaged(&mut seen, &mut random, &fields);
    }
    assert_eq!(every_buffer(&mut seen, HOUSE), (0, HOUSE_PLANT.len() as u64, 0));
    let mut made = vec![0; HOUSE_PLANT.len()];
    side::sheet(HOUSE, &mut made);
    assert_eq!(made, HOUSE_PLANT);
    damaged(&mut random, HOUSE, |other| {
        seen.sheet(other, 200);
    });
}

/// n rooms at rest: q 10,000, r 1, time 1, nothing lost or exchanged, steady emitters of rate 0; room i's record is at 8 + 6n + i(n + 2).
fn at_rest(n: usize) -> Vec<Field> {
    let mut fields = vec![U(1), U(n as u64), U(1), U(10_000), U(1), U(0)];
    fields.extend([0, 9, -5, 14].map(S).into_iter().cycle().take(4 * n));
    fields.extend([-5_000, 4_999].map(S).into_iter().cycle().take(2 * n));
    fields.extend([F(1.0), F(0.0)]);
    for _ in 0..n {
        fields.extend((0..n).map(|_| F(0.0)).chain([U(2), F(0.0)]));
    }
    fields
}

/// The same with a heater of this p and water temperature in the room whose record is at `room`.
fn heated(fields: &[Field], n: usize, room: usize, p: f64, water: f64) -> Vec<Field> {
    let mut other = with(&with(fields, room + n, U(1)), room + n + 1, F(p));
    other.insert(room + n + 2, F(water));
    other
}

/// q·a and q·r·c a few ulps around every kind of half, on the diagonal, with a heater off and on, off it, and in the offset; the largest float below one
/// half is among them.
#[test]
fn near_halves() {
    let mut seen = Seen::default();
    for (q, r) in [(1, 1), (1, 3), (2, 10), (3, 7), (999, 1_000), (1_024, 1), (9_999, 7), (10_000, 1_000)] {
        for whole in [0_u64, 1, 2, 1_000, 19_999, 20_000, 9_999_999_999, 10_000_000_000] {
            for ulps in -4..=4 {
                let near = |factor: u64| f64::from_bits(((whole as f64 + 0.5) / factor as f64).to_bits().wrapping_add_signed(ulps));
                let (a, c) = (near(q), near(q * r));
                let mut fields = at_rest(2);
                (fields[2], fields[3]) = (U(r), U(q));
                for (at, float) in [(21, a), (20, 1.0 + a), (20, (1.0 - a).abs()), (23, c), (23, -c)] {
                    seen.sheet(&file(&with(&fields, at, F(float))), 100);
                }
                for p in [1.0 + a, (1.0 - a).abs()] {
                    seen.sheet(&file(&heated(&fields, 2, 20, p, 0.0)), 100);
                }
                // c as the outside temperature of a room that loses 1
                seen.sheet(&file(&with(&with(&fields, 19, F(-c)), 24, F(1.0))), 100);
            }
        }
    }
    let below = file(&with(&with(&at_rest(2), 3, U(1)), 21, F(0.49999999999999994)));
    let half = file(&with(&with(&at_rest(2), 3, U(1)), 21, F(0.5)));
    let plant_of = |sheet: &[u8]| {
        let mut plant = vec![0; 100];
        assert_eq!(side::sheet(sheet, &mut plant).0, 0);
        plant
    };
    assert_ne!(plant_of(&below), plant_of(&half));
}

/// 14 with its place, at every number of the plant where it can stand first: each end of a band, each entry of A and each b of mode 0, and the
/// diagonal and b of the first mode that switches a room on. Results beyond the range and results that are not finite.
#[test]
fn out_of_the_plants_range_at_every_place() {
    let mut seen = Seen::default();
    for n in 1..=4 {
        let sound = at_rest(n);
        let (bands, rows, first_room) = (6 + 4 * n, 6 + 6 * n, 8 + 6 * n);
        let mut told_at = |place: usize, fields: &[Field]| {
            assert_eq!(every_buffer(&mut seen, &file(fields)), (14, place as u64, 0), "{fields:?}");
        };
        for i in 0..n {
            told_at(bands + 2 * i, &with(&sound, bands + 2 * i, S(-BAND)));
            told_at(bands + 2 * i + 1, &with(&sound, bands + 2 * i + 1, S(BAND)));
            let (row, room) = (rows + i * (n + 1), first_room + i * (n + 2));
            // exchanges of 2.5: q·a is 25,000 off the diagonal and -15,000 on it
            for j in (0..n).filter(|j| *j != i) {
                told_at(row + j, &with(&sound, room + 1 + j - usize::from(j > i), F(2.5)));
            }
            // a loss of 3.5: -25,000 on the diagonal
            told_at(row + i, &with(&sound, room, F(3.5)));
            let hot = with(&with(&sound, room, F(1.0)), rows + 1, F(1e6 + 1.0));
            told_at(row + n, &hot);
            let mode = n * (n + 1) << i;
            for rate in [1e6 + 1.0, -1e6 - 1.0, f64::MAX] {
                told_at(row + n + mode, &with(&sound, room + n + 1, F(rate)));
            }
            // a p of 3.5: the same with the heater on alone, before its b
            for (p, water) in [(3.5, 0.0), (3.5, 1e300), (f64::MAX, 0.0), (f64::MAX, f64::MAX)] {
                told_at(row + i + mode, &heated(&sound, n, room, p, water));
            }
            told_at(row + n + mode, &heated(&sound, n, room, 1.0, 1e300));
            // not finite: time·loss, time·exchange, time·rate of infinity, and infinity less infinity
            let long = with(&sound, rows, F(4.0));
            told_at(row + i, &with(&long, room, F(f64::MAX)));
            told_at(row + n + mode, &with(&long, room + n + 1, F(f64::MAX)));
            let both = with(&with(&long, room, F(0.5)), rows + 1, F(-f64::MAX));
            told_at(row + n, &with(&both, room + n + 1, F(f64::MAX)));
        }
    }
    assert!(seen.sheet[14] > 150, "{:?}", seen.sheet);
}

#[test]
fn seeded_sheets() {
    let (mut random, mut seen) = (random(6), Seen::default());
    for round in 0..rounds(8_000) {
        let fields = sheet_fields(&mut random);
        every_buffer(&mut seen, &file(&fields));
        if round % 100 == 0 {
            spoiled_and_damaged(&mut seen, &mut random, &fields);
        }
    }
    println!("{} sheets: {:?}", seen.total(), seen.sheet);
    for number in [0, 1, 2, 3, 4, 5, 10, 13, 14] {
        assert!(seen.sheet[number] > 100, "{number}: {:?}", seen.sheet);
    }
}
