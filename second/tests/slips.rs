//! "Slips that look right": each would be told by one of these.

mod common;
use common::*;
use second::boxes::{Box, Side};
use second::checker::check;
use second::image::{ceil_div, floor_div, image};
use second::maker::make;
use second::nearest::nearest;
use second::plant::Plant;
use second::sheet::plant_of_sheet;

#[test]
fn the_low_corner_is_not_the_least_whatever_the_sign() {
    // Line 7: 3*10 - 2*5 = 20 would be taken for the least, giving 10; it is 3*10 - 2*8 = 14.
    let mut plant = Plant { q: 2, ..Plant::zeros(2, 1) };
    (plant.bands[0].lo[0], plant.bands[0].hi[0]) = (-1, 0);
    plant.coefficients[..3].copy_from_slice(&[3, -2, 0]);
    let made = image(&plant, 0, &Box::new(&[10, 5], &[20, 8]));
    assert_eq!(made.sides()[0], Side { lo: 7, hi: 25 });
}

#[test]
fn the_maker_too_minds_the_sign() {
    // n 1, q 1, w 0..0, D 0, R 1..3, S -10..10: x -> 4 - x keeps 1..3.
    let mut fields = vec![U(1), U(1), U(1), U(1), U(1), U(0)];
    fields.extend([1, 3, -10, 10, 0, 0, -1, 4].map(S));
    let mut buffer = marked(4);
    assert_eq!(make(&file(&fields), 1, &mut buffer), Ok(4));
    assert_eq!(buffer, [1, 1, 1, 0]);
    // x -> 6 - 2x takes 1..3 to 0..4, outside R; with the corners mixed up
    // its edges would be 4 and 0, and 4 >= 1 and 0 <= 3 would pass.
    let fields = with(&with(&fields, 12, S(-2)), 13, S(6));
    assert_eq!(told(make(&file(&fields), 1, &mut buffer)), (9, 0, 0));
    assert_eq!(told(check(&file(&fields), &[1, 1, 1, 0])), (8, 2, 1));
}

#[test]
fn division_is_not_towards_zero() {
    // Line 6: the high edge is floor(-77/10) = -8, towards zero -7; the low
    // edge is ceil(-149/10) = -14.
    let mut plant = Plant { q: 10, ..Plant::zeros(1, 1) };
    (plant.bands[0].lo[0], plant.bands[0].hi[0]) = (-9, 0);
    plant.coefficients[..2].copy_from_slice(&[7, 0]);
    let made = image(&plant, 0, &Box::new(&[-20], &[-11]));
    assert_eq!(made.sides()[0], Side { lo: -14, hi: -8 });
    for value in -40_i64..=40 {
        for divisor in 1_i64..=11 {
            let (up, down) = (ceil_div(value, divisor), floor_div(value, divisor));
            assert!(up * divisor >= value && (up - 1) * divisor < value);
            assert!(down * divisor <= value && (down + 1) * divisor > value);
        }
    }
}

#[test]
fn not_only_the_last_image_is_tested() {
    // Line 4: the second image of line 5's table lies in P's R, the first leaves S.
    assert_eq!(told(check(&P, &T5)), (7, 2, 1));
    // So the maker may not answer it for P with D 0 either.
    assert_eq!(told(make(&file(&with(&p_fields(), 5, U(0))), 1, &mut marked(9))), (9, 0, 0));
}

#[test]
fn nearest_is_not_add_a_half_and_cut() {
    let below_half = 0.499_999_999_999_999_94_f64;
    assert_eq!(below_half.to_bits(), 0.5_f64.to_bits() - 1);
    assert_eq!(nearest(1, below_half), Some(0));
    assert_eq!(nearest(1, -below_half), Some(0));
    assert_eq!(nearest(1, 0.5), Some(1));
    assert_eq!(nearest(1, -0.5), Some(-1));
    // Through a sheet: time 1, q 1, the exchange is the entry off the diagonal.
    let fields = with(&with(&two_room_sheet(), 3, U(1)), 18, F(1.0));
    let entry = |exchange| {
        let fields = with(&fields, 21, F(exchange));
        plant_of_sheet(&sheet_values(&fields, 2)).expect("a plant").coefficients[1]
    };
    assert_eq!(entry(below_half), 0);
    assert_eq!(entry(0.5), 1);
}

#[test]
fn the_upper_tile_begins_at_m_plus_1() {
    let children: Vec<Box> = Box::new(&[195], &[225]).split().expect("sides").collect();
    assert_eq!(children, [Box::new(&[195], &[210]), Box::new(&[211], &[225])]);
    // With floors below zero: (-4 + -1)/2 = -2.5, floor -3.
    let children: Vec<Box> = Box::new(&[-4], &[-1]).split().expect("sides").collect();
    assert_eq!(children, [Box::new(&[-4], &[-3]), Box::new(&[-2], &[-1])]);
    let halves = Side { lo: 10, hi: 13 }.halves();
    assert_eq!(halves, Some((Side { lo: 10, hi: 11 }, Side { lo: 12, hi: 13 })));
}
