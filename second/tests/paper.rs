//! The thirteen numbered lines of "Readings and tables on both sides" and the
//! listing, every number in them.

mod common;
use common::*;
use second::boxes::Box;
use second::checker::check;
use second::control::{control, State};
use second::image::image;
use second::listing::listing;
use second::maker::make;
use second::nearest::nearest;
use second::plant::{read_plant, write_plant, Plant};
use second::sheet::{plant_of_sheet, read_sheet, sheet_to_plant, write_sheet};

/// The low and high edges of a box, dimension by dimension.
fn sides(of: &Box) -> Vec<(i64, i64)> {
    of.sides().iter().map(|side| (side.lo, side.hi)).collect()
}

#[test]
fn the_bytes_of_p() {
    assert_eq!(file(&p_fields()), P);
    let plant = read_plant(&P).expect("P is a plant");
    assert_eq!((plant.n, plant.modes, plant.q, plant.k, plant.d), (1, 2, 10, 2, 1));
    assert_eq!((plant.edges.r_lo[0], plant.edges.r_hi[0]), (195, 225));
    assert_eq!((plant.edges.s_lo[0], plant.edges.s_hi[0]), (190, 230));
    assert_eq!((plant.bands[0].lo[0], plant.bands[0].hi[0]), (-5, 4));
    assert_eq!(plant.coefficients[..4], [9, 100, 9, 300]);
    let mut buffer = marked(22);
    assert_eq!(write_plant(&plant, &mut buffer), Ok(22));
    assert_eq!(buffer, P);
}

#[test]
fn line_1() {
    let mut buffer = marked(7);
    assert_eq!(make(&P, 1, &mut buffer), Ok(7));
    assert_eq!(buffer, T1);
    assert_eq!(check(&P, &T1), Ok(()));
    assert_eq!(told(make(&P, 1, &mut marked(6))), (10, 0, 0));
    let shallow = file(&with(&p_fields(), 5, U(0)));
    assert_eq!(told(make(&shallow, 1, &mut marked(7))), (9, 0, 0));
}

#[test]
fn line_2() {
    let plant = read_plant(&P).expect("P is a plant");
    let r = Box::new(&[195], &[225]);
    assert_eq!(sides(&image(&plant, 1, &r)), [(205, 232)]);
    assert_eq!(sides(&image(&plant, 0, &r)), [(185, 212)]);
}

#[test]
fn line_3() {
    let plant = read_plant(&P).expect("P is a plant");
    assert_eq!(sides(&image(&plant, 1, &Box::new(&[195], &[210]))), [(205, 219)]);
    assert_eq!(sides(&image(&plant, 0, &Box::new(&[211], &[225]))), [(200, 212)]);
}

#[test]
fn line_4() {
    assert_eq!(told(check(&P, &[1, 1, 1, 1])), (7, 2, 1));
    assert_eq!(told(check(&p_prime(), &[1, 1, 1, 1])), (8, 2, 1));
    assert_eq!(told(check(&P, &T5)), (7, 2, 1));
}

#[test]
fn line_5() {
    let mut buffer = marked(5);
    assert_eq!(make(&p_prime(), 1, &mut buffer), Ok(5));
    assert_eq!(buffer, T5);
    assert_eq!(check(&p_prime(), &T5), Ok(()));
    let plant = read_plant(&p_prime()).expect("P' is a plant");
    let first = image(&plant, 0, &Box::new(&[195], &[225]));
    assert_eq!(sides(&first), [(185, 212)]);
    assert_eq!(sides(&image(&plant, 1, &first)), [(196, 221)]);
}

#[test]
fn line_6() {
    let mut plant = Plant { q: 10, ..Plant::zeros(1, 1) };
    (plant.bands[0].lo[0], plant.bands[0].hi[0]) = (-9, 0);
    plant.coefficients[..2].copy_from_slice(&[7, 0]);
    assert_eq!(sides(&image(&plant, 0, &Box::new(&[-20], &[-11]))), [(-14, -8)]);
}

#[test]
fn line_7() {
    let mut plant = Plant { q: 2, ..Plant::zeros(2, 1) };
    (plant.bands[0].lo, plant.bands[0].hi) = ([-1; 4], [0; 4]);
    plant.coefficients[..3].copy_from_slice(&[3, -2, 0]);
    let made = image(&plant, 0, &Box::new(&[10, 5], &[20, 8]));
    assert_eq!(sides(&made)[0], (7, 25));
    // The same row as the second dimension's.
    plant.coefficients[..6].copy_from_slice(&[0, 0, 0, 3, -2, 0]);
    let made = image(&plant, 0, &Box::new(&[10, 5], &[20, 8]));
    assert_eq!(sides(&made)[1], (7, 25));
}

#[test]
fn line_8() {
    let children: Vec<Box> = Box::new(&[7], &[8]).split().expect("two counts").collect();
    assert_eq!(children, [Box::new(&[7], &[7]), Box::new(&[8], &[8])]);
    assert!(Box::new(&[7], &[7]).split().is_none());
}

#[test]
fn line_9() {
    let idle = State { place: 0, left: 0 };
    let first = control(&p_prime(), &T5, idle, [200, 0, 0, 0]);
    assert_eq!(first, Ok((0, State { place: 4, left: 1 })));
    let second = control(&p_prime(), &T5, State { place: 4, left: 1 }, [186, 0, 0, 0]);
    assert_eq!(second, Ok((1, idle)));
}

#[test]
fn line_10() {
    let idle = State { place: 0, left: 0 };
    let call = |count| control(&P, &T1, idle, [count, 0, 0, 0]);
    assert_eq!(call(195), Ok((1, idle)));
    assert_eq!(call(225), Ok((0, idle)));
    assert_eq!(told(call(194)), (11, 0, 0));
    assert_eq!(told(call(226)), (11, 0, 0));
}

#[test]
fn line_11() {
    assert_eq!(nearest(1, 1.5), Some(2));
    assert_eq!(nearest(1, -1.5), Some(-2));
    assert_eq!(nearest(2, 0.75), Some(2));
    assert_eq!(nearest(2, -0.75), Some(-2));
    // In a sheet: q 1, time 1, an exchange of 1.5 and a loss of 1 make the
    // diagonal 1 - 2.5 = -1.5 and the entry beside it 1.5.
    let mut fields = with(&two_room_sheet(), 3, U(1));
    fields = with(&with(&fields, 18, F(1.0)), 20, F(1.0));
    fields = with(&fields, 21, F(1.5));
    let plant = plant_of_sheet(&sheet_values(&fields, 2)).expect("a plant");
    assert_eq!(plant.coefficients[..2], [-2, 2]);
}

#[test]
fn line_12() {
    assert_eq!(told(read_plant(&[])), (1, 0, 0));
    let narrow = with(&p_fields(), 11, S(3));
    assert_eq!(told(read_plant(&file(&narrow))), (5, 0, 0));
    assert_eq!(told(write_plant(&plant_values(&narrow, 1), &mut marked(30))), (5, 0, 0));
}

#[test]
fn line_13_of_the_paper() {
    let bytes = file(&line_13());
    let sheet = read_sheet(&bytes).expect("a sheet");
    assert_eq!(sheet, sheet_values(&line_13(), 1));
    let mut expected = vec![U(1), U(1), U(2), U(8), U(2), U(1)];
    expected.extend([195, 225, 190, 230, -120, 119, 7, 80, 6, 480].map(S));
    assert_eq!(plant_of_sheet(&sheet), Ok(plant_values(&expected, 1)));
    let expected = file(&expected);
    let mut buffer = marked(expected.len());
    assert_eq!(sheet_to_plant(&bytes, &mut buffer), Ok(expected.len()));
    assert_eq!(buffer, expected);
    let mut buffer = marked(bytes.len());
    assert_eq!(write_sheet(&sheet, &mut buffer), Ok(bytes.len()));
    assert_eq!(buffer, bytes);
}

#[test]
fn the_listing() {
    assert_eq!(listing(&P, 1), "table 1 2 1\n195 210 : 1\n211 225 : 0\n");
    assert_eq!(listing(&file(&with(&p_fields(), 5, U(0))), 1), "refused 9 0\n");
}
