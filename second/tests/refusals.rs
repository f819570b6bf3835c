//! "What each number says", row by row: every cause a row names, with its
//! number, place and step, in each function that can tell it; the sentences
//! on the order of judgement; and what a finished or refused write leaves.

mod common;
use common::*;
use second::checker::check;
use second::control::{control, State};
use second::listing::listing;
use second::maker::make;
use second::numbers::{read_signed, read_unsigned};
use second::plant::{read_plant, write_plant};
use second::refusal::row_words;
use second::sheet::{plant_of_sheet, read_sheet, sheet_to_plant, write_sheet};

const IDLE: State = State { place: 0, left: 0 };

/// A refused write leaves zeros everywhere, whatever the buffer's length.
fn zeroed_by(write: impl Fn(&mut [u8]) -> (u64, u64, u64)) -> (u64, u64, u64) {
    let answers = [0, 3, 40_000].map(|length| {
        let mut buffer = marked(length);
        let answer = write(&mut buffer);
        assert_ne!(answer.0, 0, "was to be refused");
        assert!(buffer.iter().all(|byte| *byte == 0), "{answer:?} left bytes");
        answer
    });
    assert!(answers.iter().all(|answer| *answer == answers[0]));
    answers[0]
}

/// Every function that takes a plant's bytes tells the same of them.
fn plant_told(bytes: &[u8]) -> (u64, u64, u64) {
    let read = told(read_plant(bytes));
    assert_eq!(zeroed_by(|buffer| told(make(bytes, 1, buffer))), read);
    // The plant comes first: the table, state and reading are wrong as well.
    assert_eq!(told(check(bytes, &[9])), read);
    assert_eq!(told(control(bytes, &[9], State { place: 1, left: 9 }, [i64::MAX; 4])), read);
    assert_eq!(listing(bytes, 1), format!("refused {} {}\n", read.0, read.1));
    read
}

/// Every function that takes a sheet's bytes tells the same of them.
fn sheet_told(bytes: &[u8]) -> (u64, u64, u64) {
    let read = told(read_sheet(bytes));
    assert_eq!(zeroed_by(|buffer| told(sheet_to_plant(bytes, buffer))), read);
    read
}

/// One field of a plant of n rooms replaced by a value: reader and writer tell
/// this number at the field's place.
fn plant_field(fields: &[Field], n: usize, index: usize, value: Field, number: u64) {
    let changed = with(fields, index, value.clone());
    let place = encode(fields).1[index];
    assert_eq!(plant_told(&file(&changed)), (number, place, 0), "{index} {value:?}");
    let values = plant_values(&changed, n);
    let written = zeroed_by(|buffer| told(write_plant(&values, buffer)));
    assert_eq!(written, (number, place, 0), "written {index} {value:?}");
}

/// The same for a sheet's field.
fn sheet_field(fields: &[Field], n: usize, index: usize, value: Field, number: u64) {
    let changed = with(fields, index, value.clone());
    let place = encode(fields).1[index];
    assert_eq!(sheet_told(&file(&changed)), (number, place, 0), "{index} {value:?}");
    let values = sheet_values(&changed, n);
    let written = zeroed_by(|buffer| told(write_sheet(&values, buffer)));
    assert_eq!(written, (number, place, 0), "written {index} {value:?}");
    assert_eq!(told(plant_of_sheet(&values)), (number, place, 0));
}

/// Bytes that are no number: ended early only where nothing follows.
fn broken_numbers() -> Vec<Vec<u8>> {
    vec![
        vec![0x80, 0x00],                               // zero in two bytes
        vec![0x81, 0x00],                               // one in two bytes
        vec![0x85, 0x80, 0x00],                         // five in three
        vec![0x81, 0x80, 0x80, 0x80, 0x00],             // one in five
        vec![0x80, 0x80, 0x80, 0x80, 0x80, 0x01],       // 2^35
        vec![0xFF; 10],                                 // never ends in time
        vec![0x81, 0x80, 0x80, 0x80, 0x80, 0x00],       // six bytes, not shortest either
    ]
}

// ---- rows 0 and 1 ----

#[test]
fn row_0_done() {
    assert_eq!(told(read_plant(&P)), (0, 0, 0));
    assert_eq!(told(check(&P, &T1)), (0, 0, 0));
    assert_eq!(told(read_sheet(&file(&line_13()))), (0, 0, 0));
    assert_eq!(told(read_sheet(&file(&two_room_sheet()))), (0, 0, 0));
    assert_eq!(told(read_plant(&file(&two_rooms()))), (0, 0, 0));
    assert_eq!(row_words(0), "done");
    let rows: Vec<&str> = (0..=15).map(row_words).collect();
    assert!(rows.iter().all(|words| *words != row_words(16)));
    assert_eq!((rows[9], rows[10], rows[12]), ("no table", "buffer too short", "state cannot be"));
}

#[test]
fn row_1_single_numbers() {
    for position in [0_usize, 1, 7, usize::MAX - 3, usize::MAX] {
        assert_eq!(told(read_unsigned(&[], position)), (1, position as u64, 0));
        assert_eq!(told(read_signed(&[], position)), (1, position as u64, 0));
    }
    assert_eq!(told(read_unsigned(&[5], 1)), (1, 1, 0));
    assert_eq!(told(read_unsigned(&[0x85], 0)), (1, 0, 0));
    assert_eq!(told(read_unsigned(&[5, 0xFF, 0xFF, 0xFF, 0xFF], 1)), (1, 1, 0));
    for broken in broken_numbers() {
        assert_eq!(told(read_unsigned(&broken, 0)), (1, 0, 0), "{broken:?}");
        assert_eq!(told(read_signed(&broken, 0)), (1, 0, 0), "{broken:?}");
    }
    assert_eq!(read_unsigned(&[0xFF, 0xFF, 0xFF, 0xFF, 0x7F], 0), Ok(((1 << 35) - 1, 5)));
    assert_eq!(read_unsigned(&[9, 0x80, 0x80, 0x80, 0x80, 0x01, 7], 1), Ok((1 << 28, 6)));
}

#[test]
fn row_1_files_that_end_early() {
    let (plant, places) = encode(&p_fields());
    for cut in 0..plant.len() {
        let place = *places.iter().filter(|place| **place <= cut as u64).max().expect("0");
        assert_eq!(plant_told(&plant[..cut]), (1, place, 0), "cut at {cut}");
    }
    for fields in [line_13(), two_room_sheet()] {
        let (sheet, places) = encode(&fields);
        for cut in 0..sheet.len() {
            let place = *places.iter().filter(|place| **place <= cut as u64).max().expect("0");
            assert_eq!(sheet_told(&sheet[..cut]), (1, place, 0), "cut at {cut}");
        }
    }
}

#[test]
fn row_1_broken_numbers_at_every_number() {
    for fields in [p_fields(), two_rooms()] {
        for index in 0..fields.len() {
            for broken in broken_numbers() {
                let place = encode(&fields).1[index];
                let bytes = file(&with(&fields, index, Raw(broken)));
                assert_eq!(plant_told(&bytes), (1, place, 0));
            }
        }
    }
    let fields = two_room_sheet();
    for index in (0..fields.len()).filter(|index| !matches!(fields[*index], F(_))) {
        for broken in broken_numbers() {
            let place = encode(&fields).1[index];
            assert_eq!(sheet_told(&file(&with(&fields, index, Raw(broken)))), (1, place, 0));
        }
    }
}

#[test]
fn row_1_values_over_five_bytes() {
    for index in 1..=5 {
        for value in [1 << 35, (1 << 35) + 7, 1 << 63, u64::MAX] {
            plant_field(&two_rooms(), 2, index, U(value), 1);
            sheet_field(&two_room_sheet(), 2, index, U(value), 1);
        }
        plant_field(&two_rooms(), 2, index, U((1 << 35) - 1), 3);
        sheet_field(&two_room_sheet(), 2, index, U((1 << 35) - 1), 3);
    }
    for value in [1 << 34, -(1 << 34) - 1, i64::MAX, i64::MIN] {
        (6..30).for_each(|index| plant_field(&two_rooms(), 2, index, S(value), 1));
        (6..18).for_each(|index| sheet_field(&two_room_sheet(), 2, index, S(value), 1));
    }
    for value in [(1 << 34) - 1, -(1 << 34)] {
        (6..30).for_each(|index| plant_field(&two_rooms(), 2, index, S(value), 3));
        (6..18).for_each(|index| sheet_field(&two_room_sheet(), 2, index, S(value), 3));
    }
}

// ---- rows 2 and 3 ----

#[test]
fn row_2_form_is_not_known() {
    for form in [0, 2, 3, 4, 127, 128, 129, (1 << 35) - 1] {
        if form != 2 {
            assert_eq!(plant_told(&file(&with(&p_fields(), 0, U(form)))), (2, 0, 0));
        }
        assert_eq!(sheet_told(&file(&with(&line_13(), 0, U(form)))), (2, 0, 0));
        if ![2, 3].contains(&form) {
            let table = file(&[U(form), U(1), U(1), U(1)]);
            assert_eq!(told(check(&P, &table)), (2, 0, 0));
            assert_eq!(told(control(&P, &table, State { place: 1, left: 9 }, [0; 4])), (2, 0, 0));
        }
    }
    assert_eq!(plant_told(&[3]), (2, 0, 0));
}

#[test]
fn row_3_header_numbers_out_of_range() {
    for index in 1..=4 {
        plant_field(&two_rooms(), 2, index, U(0), 3);
        sheet_field(&two_room_sheet(), 2, index, U(0), 3);
    }
    for n in [5, 6, 128] {
        plant_field(&two_rooms(), 2, 1, U(n), 3);
        sheet_field(&two_room_sheet(), 2, 1, U(n), 3);
    }
    for (index, value) in [(2, 257), (3, 10_001), (4, 7), (5, 7)] {
        plant_field(&two_rooms(), 2, index, U(value), 3);
    }
    for (index, value) in [(2, 1_001), (3, 10_001), (4, 7), (5, 7)] {
        sheet_field(&two_room_sheet(), 2, index, U(value), 3);
    }
}

#[test]
fn row_3_depth_by_rooms() {
    for (n, most) in [(1, 6), (2, 6), (3, 4), (4, 3)] {
        for d in 0..=8 {
            // Cut behind D: a depth in order is followed by 1 at the next number.
            let expected = if d <= most { (1, 6, 0) } else { (3, 5, 0) };
            assert_eq!(plant_told(&file(&[U(1), U(n), U(1), U(1), U(1), U(d)])), expected);
            assert_eq!(sheet_told(&file(&[U(1), U(n), U(1), U(1), U(1), U(d)])), expected);
        }
    }
    let mut four = plant_values(&two_rooms(), 2);
    (four.n, four.d) = (4, 4);
    assert_eq!(zeroed_by(|buffer| told(write_plant(&four, buffer))), (3, 5, 0));
    let mut three = sheet_values(&two_room_sheet(), 2);
    (three.n, three.d) = (3, 5);
    assert_eq!(zeroed_by(|buffer| told(write_sheet(&three, buffer))), (3, 5, 0));
}

#[test]
fn row_3_edges_and_bands_out_of_range() {
    for index in 6..14 {
        for value in [1_000_001, -1_000_001] {
            plant_field(&two_rooms(), 2, index, S(value), 3);
            sheet_field(&two_room_sheet(), 2, index, S(value), 3);
        }
    }
    for index in 14..18 {
        for value in [1_000_000_001, -1_000_000_001] {
            plant_field(&two_rooms(), 2, index, S(value), 3);
            sheet_field(&two_room_sheet(), 2, index, S(value), 3);
        }
    }
}

#[test]
fn row_3_hi_below_lo() {
    // Each hi one below its lo: told at hi.
    for (hi, lo) in [(7, 0), (9, -5), (11, 10), (13, 5), (15, -2), (17, -3)] {
        plant_field(&two_rooms(), 2, hi, S(lo - 1), 3);
    }
    for (hi, lo) in [(7, 195), (9, 190), (11, 195), (13, 180), (15, -4), (17, -5)] {
        sheet_field(&two_room_sheet(), 2, hi, S(lo - 1), 3);
    }
}

#[test]
fn row_3_coefficients_out_of_range() {
    for index in 18..30 {
        let offset = (index - 18) % 3 == 2;
        let limit = if offset { 10_000_000_000 } else { 20_000 };
        plant_field(&two_rooms(), 2, index, S(limit + 1), 3);
        plant_field(&two_rooms(), 2, index, S(-limit - 1), 3);
        for value in [limit, -limit] {
            let fields = with(&two_rooms(), index, S(value));
            assert_eq!(told(read_plant(&file(&fields))), (0, 0, 0));
            let values = plant_values(&fields, 2);
            assert_eq!(told(write_plant(&values, &mut marked(99))), (0, 0, 0));
        }
    }
}

#[test]
fn row_3_emitter_kind_over_2() {
    for kind in [3, 4, 127, 128, (1 << 35) - 1] {
        for (fields, index) in [(line_13(), 15), (two_room_sheet(), 22), (two_room_sheet(), 27)] {
            let place = encode(&fields).1[index];
            assert_eq!(sheet_told(&file(&with(&fields, index, U(kind)))), (3, place, 0));
        }
    }
}

#[test]
fn row_3_bytes_left_over() {
    for left_over in [vec![0], vec![1, 2, 3], vec![0x80], vec![0x81, 0x00], vec![0xFF; 9]] {
        let bytes = file(&[Raw(P.to_vec()), Raw(left_over.clone())]);
        assert_eq!(plant_told(&bytes), (3, 22, 0));
        let (sheet, places) = encode(&line_13());
        let bytes = file(&[Raw(sheet), Raw(left_over)]);
        assert_eq!(sheet_told(&bytes), (3, places[18], 0));
    }
    // N 1 leaves mode 1 of P over, at its first byte.
    assert_eq!(plant_told(&file(&with(&p_fields(), 2, U(1)))), (3, 19, 0));
    // Emitter 0 leaves p over, emitter 2 leaves the water temperature over.
    let (_, places) = encode(&line_13());
    assert_eq!(sheet_told(&file(&with(&line_13(), 15, U(0)))), (3, places[16], 0));
    assert_eq!(sheet_told(&file(&with(&line_13(), 15, U(2)))), (3, places[17], 0));
}

// ---- rows 4 and 5 ----

#[test]
fn row_4_r_not_in_s() {
    for (index, value, dimension) in [(8, 1, 0), (9, 8, 0), (12, 11, 1), (13, 18, 1)] {
        let fields = with(&two_rooms(), index, S(value));
        assert_eq!(plant_told(&file(&fields)), (4, dimension, 0));
        let values = plant_values(&fields, 2);
        assert_eq!(zeroed_by(|buffer| told(write_plant(&values, buffer))), (4, dimension, 0));
    }
    for (index, value, dimension) in [(8, 196, 0), (9, 224, 0), (12, 196, 1), (13, 224, 1)] {
        let fields = with(&two_room_sheet(), index, S(value));
        assert_eq!(sheet_told(&file(&fields)), (4, dimension, 0));
        let values = sheet_values(&fields, 2);
        assert_eq!(zeroed_by(|buffer| told(write_sheet(&values, buffer))), (4, dimension, 0));
    }
    // R equal to S is within it.
    let mut equal = two_rooms();
    for (index, value) in [(8, 0), (9, 9), (12, 10), (13, 19)] {
        equal = with(&equal, index, S(value));
    }
    assert_eq!(told(read_plant(&file(&equal))), (0, 0, 0));
}

#[test]
fn row_5_band_too_narrow() {
    // q 4 needs a width of 3.
    for (lo, hi, dimension) in [(14, 15, 0), (16, 17, 1)] {
        let narrow = with(&with(&two_rooms(), lo, S(0)), hi, S(2));
        assert_eq!(plant_told(&file(&narrow)), (5, 0, dimension));
        let values = plant_values(&narrow, 2);
        assert_eq!(zeroed_by(|buffer| told(write_plant(&values, buffer))), (5, 0, dimension));
        let enough = with(&with(&two_rooms(), lo, S(0)), hi, S(3));
        assert_eq!(told(read_plant(&file(&enough))), (0, 0, 0));
    }
    // The sheet's own band, q 8: the widened one would do.
    for (lo, hi, dimension) in [(14, 15, 0), (16, 17, 1)] {
        let narrow = with(&with(&two_room_sheet(), lo, S(0)), hi, S(6));
        assert_eq!(sheet_told(&file(&narrow)), (5, 0, dimension));
        let values = sheet_values(&narrow, 2);
        assert_eq!(zeroed_by(|buffer| told(write_sheet(&values, buffer))), (5, 0, dimension));
        let enough = with(&with(&two_room_sheet(), lo, S(0)), hi, S(7));
        assert_eq!(told(read_sheet(&file(&enough))), (0, 0, 0));
    }
}

#[test]
fn files_are_judged_in_order() {
    let (p, _) = encode(&p_fields());
    // A number out of range before a cut is told before the cut, and so on.
    assert_eq!(plant_told(&[1, 9]), (3, 1, 0));
    assert_eq!(plant_told(&[3, 0x80]), (2, 0, 0));
    assert_eq!(plant_told(&[1, 1, 2, 0, 0x80]), (3, 3, 0));
    // 1 at a number before 3 at a later one.
    assert_eq!(plant_told(&[1, 1, 0x81, 0x00, 0]), (1, 2, 0));
    // lo out of range is told before hi is read.
    let cut = file(&[Raw(p[..6].to_vec()), S(1_000_001), Raw(vec![0x80])]);
    assert_eq!(plant_told(&cut), (3, 6, 0));
    // Leftover before 4 and 5; 4 over all dimensions before 5.
    let four = with(&two_rooms(), 13, S(18));
    let both = with(&with(&four, 14, S(0)), 15, S(0));
    assert_eq!(plant_told(&file(&both)), (4, 1, 0));
    let mut left_over = both.clone();
    left_over.push(Raw(vec![0x80]));
    assert_eq!(plant_told(&file(&left_over)), (3, encode(&both).1[30], 0));
    let values = plant_values(&both, 2);
    assert_eq!(zeroed_by(|buffer| told(write_plant(&values, buffer))), (4, 1, 0));
    // A narrow band is told only after the coefficients behind it.
    let late = with(&with(&both, 29, S(10_000_000_001)), 13, S(24));
    assert_eq!(plant_told(&file(&late)), (3, encode(&late).1[29], 0));
}

#[test]
fn writers_judge_in_order_and_tell_10_last() {
    let narrow = plant_values(&with(&p_fields(), 11, S(3)), 1);
    assert_eq!(told(write_plant(&narrow, &mut marked(0))), (5, 0, 0));
    let p = plant_values(&p_fields(), 1);
    for length in 0..22 {
        let mut buffer = marked(length);
        assert_eq!(told(write_plant(&p, &mut buffer)), (10, 0, 0));
        assert!(buffer.iter().all(|byte| *byte == 0));
    }
    for length in [22, 23, 400] {
        let mut buffer = marked(length);
        assert_eq!(write_plant(&p, &mut buffer), Ok(22));
        assert_eq!(buffer[..22], P);
        assert!(buffer[22..].iter().all(|byte| *byte == 0xAA));
    }
}

// ---- rows 6, 7 and 8: the checker ----

/// What the checker tells of a table for P.
fn checked(table: &[u8]) -> (u64, u64, u64) {
    told(check(&P, table))
}

#[test]
fn row_1_in_tables() {
    assert_eq!(checked(&[]), (1, 0, 0));
    assert_eq!(checked(&[1]), (1, 1, 0));
    assert_eq!(checked(&[1, 1]), (1, 2, 0));
    for cut in 0..T1.len() {
        assert_eq!(checked(&T1[..cut]), (1, cut as u64, 0));
    }
    for broken in broken_numbers() {
        for place in 0..=3 {
            let mut table = [1, 1, 1, 1][..place].to_vec();
            table.extend(&broken);
            assert_eq!(checked(&table), (1, place as u64, 0));
            assert_eq!(told(control(&P, &table, IDLE, [200; 4])), (1, place as u64, 0));
        }
    }
}

#[test]
fn row_6_of_the_table() {
    for n in [0, 2, 3, 4, 5, 127, 128, (1 << 35) - 1] {
        let table = file(&[U(1), U(n), U(1), U(1)]);
        assert_eq!(checked(&table), (6, 1, 0), "n {n}");
        assert_eq!(told(control(&P, &table, State { place: 9, left: 9 }, [0; 4])), (6, 1, 0));
    }
    // A node over K 2, its modes unread.
    assert_eq!(checked(&[1, 1, 3]), (6, 2, 0));
    assert_eq!(checked(&[1, 1, 3, 0, 0, 0]), (6, 2, 0));
    assert_eq!(checked(&[1, 1, 0x80, 0x01]), (6, 2, 0));
    assert_eq!(checked(&[1, 1, 0, 1, 1, 7]), (6, 5, 0));
    // A mode not below N 2.
    assert_eq!(checked(&[1, 1, 1, 2]), (6, 3, 0));
    assert_eq!(checked(&[1, 1, 2, 2]), (6, 3, 0));
    assert_eq!(checked(&[1, 1, 2, 0, 2]), (6, 4, 0));
    assert_eq!(checked(&[1, 1, 1, 0x80, 0x01]), (6, 3, 0));
    // A split too deep: D is 1, and with D 0 the first.
    assert_eq!(checked(&[1, 1, 0, 0]), (6, 3, 0));
    assert_eq!(checked(&[1, 1, 0, 1, 1, 0]), (6, 5, 0));
    let shallow = file(&with(&p_fields(), 5, U(0)));
    assert_eq!(told(check(&shallow, &T1)), (6, 2, 0));
    // A split not possible: R of one count, depth left.
    let one_count = file(&with(&p_fields(), 7, S(195)));
    assert_eq!(told(check(&one_count, &T1)), (6, 2, 0));
    // Two counts, D 2: the children cannot be split though depth is left.
    let two_counts = file(&with(&with(&p_fields(), 7, S(196)), 5, U(2)));
    assert_eq!(told(check(&two_counts, &[1, 1, 0, 0])), (6, 3, 0));
    // Bytes left over, whatever they are.
    for left_over in [vec![0], vec![0x80], vec![0x81, 0], vec![1, 1, 1]] {
        assert_eq!(checked(&file(&[Raw(T1.to_vec()), Raw(left_over)])), (6, 7, 0));
    }
}

#[test]
fn row_7_an_image_leaves_s() {
    // 195..225 by mode 0 gives 185..212, below 190; by mode 1 205..232, above 230.
    assert_eq!(checked(&[1, 1, 1, 0]), (7, 2, 1));
    assert_eq!(checked(&[1, 1, 1, 1]), (7, 2, 1));
    // 211..225 by mode 1: ceil(2194/10) = 220, floor(2329/10) = 232.
    assert_eq!(checked(&[1, 1, 0, 1, 1, 1, 1]), (7, 5, 1));
    // P': 185..212 by mode 0 again: (9*185 + 100 - 5)/10 = 176, below 180, at the last step.
    assert_eq!(told(check(&p_prime(), &[1, 1, 2, 0, 0])), (7, 2, 2));
}

#[test]
fn row_8_last_image_not_in_r() {
    assert_eq!(told(check(&p_prime(), &[1, 1, 1, 0])), (8, 2, 1));
    // P': 205..232 by mode 1: ceil(2140/10) = 214, floor(2392/10) = 239.
    assert_eq!(told(check(&p_prime(), &[1, 1, 2, 1, 1])), (8, 2, 2));
    // P: 195..210 by mode 1 gives 205..219, then by mode 0 194..207, in S and below R.
    assert_eq!(checked(&[1, 1, 0, 2, 1, 0, 1, 0]), (8, 3, 2));
    // The upper tile 211..225 by mode 0 gives 200..212; by mode 1 then 210..221, in R.
    assert_eq!(checked(&[1, 1, 0, 1, 1, 2, 0, 1]), (0, 0, 0));
    // By mode 0 again 190..201: ceil(1895/10) = 190, in S, below R.
    assert_eq!(checked(&[1, 1, 0, 1, 1, 2, 0, 0]), (8, 5, 2));
}

#[test]
fn the_checker_goes_in_order() {
    // A tile's modes are all read before its images.
    assert_eq!(checked(&[1, 1, 2, 0, 2]), (6, 4, 0));
    assert_eq!(checked(&[1, 1, 2, 0]), (1, 4, 0));
    assert_eq!(checked(&[1, 1, 2, 0, 0x81, 0x00]), (1, 4, 0));
    // An earlier tile's image is told before a later tile's broken byte.
    assert_eq!(checked(&[1, 1, 0, 1, 0, 0x81, 0x00]), (7, 3, 1));
    assert_eq!(checked(&[1, 1, 0, 1, 0]), (7, 3, 1));
    assert_eq!(checked(&[1, 1, 0, 1, 0, 9]), (7, 3, 1));
    // Leftover comes last.
    assert_eq!(checked(&[1, 1, 1, 0, 0]), (7, 2, 1));
    assert_eq!(checked(&[1, 1, 0, 1, 1, 1, 1, 0x80]), (7, 5, 1));
}

// ---- rows 9 and 10: the maker ----

#[test]
fn row_9_no_table() {
    let shallow = file(&with(&p_fields(), 5, U(0)));
    assert_eq!(zeroed_by(|buffer| told(make(&shallow, 1, buffer))), (9, 0, 0));
    // Depth left, no side left: R and S 195..195, which every mode leaves.
    let mut one_count = with(&with(&p_fields(), 7, S(195)), 5, U(6));
    one_count = with(&with(&one_count, 8, S(195)), 9, S(195));
    assert_eq!(zeroed_by(|buffer| told(make(&file(&one_count), 1, buffer))), (9, 0, 0));
    // 9 comes before 10: the buffer of 0 bytes above told 9 as well.
    assert_eq!(told(make(&shallow, 1, &mut [])), (9, 0, 0));
    // No table though the first tile has one: mode 0 alone serves 211..225
    // and not 195..210; P with b of mode 1 as mode 0's.
    let one_sided = file(&with(&p_fields(), 15, S(100)));
    assert_eq!(zeroed_by(|buffer| told(make(&one_sided, 1, buffer))), (9, 0, 0));
    // And the other way about: 195..210 is written before 211..225 fails.
    let one_sided = file(&with(&p_fields(), 13, S(300)));
    assert_eq!(zeroed_by(|buffer| told(make(&one_sided, 1, buffer))), (9, 0, 0));
}

#[test]
fn row_10_buffer_too_short() {
    for length in 0..7 {
        let mut buffer = marked(length);
        assert_eq!(told(make(&P, 1, &mut buffer)), (10, 0, 0));
        assert!(buffer.iter().all(|byte| *byte == 0));
    }
    for length in [7, 8, 300] {
        let mut buffer = marked(length);
        assert_eq!(make(&P, 1, &mut buffer), Ok(7));
        assert_eq!(buffer[..7], T1);
        assert!(buffer[7..].iter().all(|byte| *byte == 0xAA));
    }
    let (sheet, values) = (file(&line_13()), sheet_values(&line_13(), 1));
    // Line 13's plant: 6 header bytes, 4 edges and band ends and b 480 of 2 bytes
    // each (-120 is 239, 119 is 238, 80 is 160, 480 is 960), two A of 1.
    let plant_length = 6 + 4 * 2 + 2 * 2 + 2 * (1 + 2);
    for length in 0..plant_length {
        let mut buffer = marked(length);
        assert_eq!(told(sheet_to_plant(&sheet, &mut buffer)), (10, 0, 0));
        assert!(buffer.iter().all(|byte| *byte == 0));
    }
    for length in 0..sheet.len() {
        let mut buffer = marked(length);
        assert_eq!(told(write_sheet(&values, &mut buffer)), (10, 0, 0));
        assert!(buffer.iter().all(|byte| *byte == 0));
    }
    let mut buffer = marked(90);
    assert_eq!(sheet_to_plant(&sheet, &mut buffer), Ok(plant_length));
    assert!(buffer[plant_length..].iter().all(|byte| *byte == 0xAA));
    let mut buffer = marked(90);
    assert_eq!(write_sheet(&values, &mut buffer), Ok(sheet.len()));
    assert_eq!(buffer[..sheet.len()], sheet);
    assert!(buffer[sheet.len()..].iter().all(|byte| *byte == 0xAA));
}

// ---- rows 11 and 12: the controller ----

#[test]
fn row_11_reading_outside() {
    let idle = |count| told(control(&p_prime(), &T5, IDLE, [count, 0, 0, 0]));
    assert_eq!([194, 226, 180, 240, i64::MIN, i64::MAX].map(idle), [(11, 0, 0); 6]);
    assert_eq!([195, 225].map(idle), [(0, 0, 0); 2]);
    let running = |count| {
        told(control(&p_prime(), &T5, State { place: 4, left: 1 }, [count, 0, 0, 0]))
    };
    assert_eq!([179, 241, i64::MIN, i64::MAX].map(running), [(11, 0, 0); 4]);
    assert_eq!([180, 194, 226, 240].map(running), [(0, 0, 0); 4]);
    // Two rooms: the first dimension outside; beyond n nothing counts.
    let plant = file(&two_rooms());
    let table = [1, 2, 1, 0];
    let call = |reading| told(control(&plant, &table, IDLE, reading));
    assert_eq!(call([0, 10, 0, 0]), (0, 0, 0));
    assert_eq!(call([9, 19, i64::MIN, i64::MAX]), (0, 0, 0));
    assert_eq!(call([0, 9, 0, 0]), (11, 1, 0));
    assert_eq!(call([10, 20, 0, 0]), (11, 0, 0));
    assert_eq!(call([-1, 10, 0, 0]), (11, 0, 0));
    let call = |reading| told(control(&plant, &table, State { place: 3, left: 1 }, reading));
    assert_eq!(call([-5, 24, 0, 0]), (0, 0, 0));
    assert_eq!(call([-5, 25, 0, 0]), (11, 1, 0));
    assert_eq!(call([15, 25, 0, 0]), (11, 0, 0));
}

/// What a call on P' and line 5's table tells in this state, the reading right.
fn in_state(place: u64, left: u64) -> (u64, u64, u64) {
    told(control(&p_prime(), &T5, State { place, left }, [200, 0, 0, 0]))
}

#[test]
fn row_12_state_cannot_be() {
    let refused = (12, 0, 0);
    // Left over K 2.
    assert_eq!([3, 4, u64::MAX].map(|left| in_state(2, left)), [refused; 3]);
    assert_eq!(in_state(0, 3), refused);
    // Nothing else wrong: eight bytes, mode 0 at the place.
    let longer = [1, 1, 2, 0, 1, 1, 1, 1];
    let over = |left| told(control(&p_prime(), &longer, State { place: 3, left }, [200; 4]));
    assert_eq!([over(2), over(3), over(5)], [(0, 0, 0), refused, refused]);
    // Left 0 with a place other than 0.
    assert_eq!([1, 2, 4, 5, u64::MAX].map(|place| in_state(place, 0)), [refused; 5]);
    // Left above 0 with place below 2.
    assert_eq!([in_state(0, 1), in_state(1, 1), in_state(0, 2), in_state(1, 2)], [refused; 4]);
    // Place plus left beyond the table, whose length is 5; the sum never wraps.
    assert_eq!([in_state(5, 1), in_state(4, 2), in_state(6, 1)], [refused; 3]);
    assert_eq!([1, 2].map(|left| in_state(u64::MAX, left)), [refused; 2]);
    assert_eq!([in_state(u64::MAX - 1, 2), in_state(1 << 63, 2)], [refused; 2]);
    // The mode there not below N: byte 2 of the table is 2.
    assert_eq!([in_state(2, 1), in_state(2, 2)], [refused; 2]);
    for byte in [2, 3, 0x7F, 0x80, 0x81, 0xFF] {
        let table = [1, 1, 2, byte, 1];
        let state = State { place: 3, left: 2 };
        assert_eq!(told(control(&p_prime(), &table, state, [200; 4])), refused);
    }
    // What can be.
    let call = |place, left| control(&p_prime(), &T5, State { place, left }, [200; 4]);
    assert_eq!(call(3, 2), Ok((0, State { place: 4, left: 1 })));
    assert_eq!(call(3, 1), Ok((0, IDLE)));
    assert_eq!(call(4, 1), Ok((1, IDLE)));
}

#[test]
fn the_controller_goes_in_order() {
    let wrong_state = State { place: 0, left: 1 };
    // Header before 12.
    assert_eq!(told(control(&P, &[], wrong_state, [0; 4])), (1, 0, 0));
    assert_eq!(told(control(&P, &[1], wrong_state, [0; 4])), (1, 1, 0));
    assert_eq!(told(control(&P, &[1, 2], wrong_state, [0; 4])), (6, 1, 0));
    // 12 before 11 before the tree.
    assert_eq!(told(control(&P, &[1, 1, 9], wrong_state, [0; 4])), (12, 0, 0));
    assert_eq!(told(control(&P, &[1, 1, 9], IDLE, [0; 4])), (11, 0, 0));
    assert_eq!(told(control(&P, &[1, 1, 9], IDLE, [200; 4])), (6, 2, 0));
    assert_eq!(told(control(&P, &[1, 1], IDLE, [0; 4])), (11, 0, 0));
    assert_eq!(told(control(&P, &[1, 1], IDLE, [200; 4])), (1, 2, 0));
}

#[test]
fn the_walk_tells_1_and_6_of_what_it_reads() {
    let call = |table: &[u8], count| told(control(&P, table, IDLE, [count, 0, 0, 0]));
    // In a passed tile and in the tile itself.
    assert_eq!(call(&[1, 1, 0, 1, 2, 1, 0], 225), (6, 4, 0));
    assert_eq!(call(&[1, 1, 0, 3, 0, 1, 0], 225), (6, 3, 0));
    assert_eq!(call(&[1, 1, 0, 1, 0x81, 0x00, 1, 0], 225), (1, 4, 0));
    assert_eq!(call(&[1, 1, 0, 0, 1, 1, 1, 0], 225), (6, 3, 0));
    assert_eq!(call(&[1, 1, 0, 1, 2, 1, 0], 195), (6, 4, 0));
    assert_eq!(call(&[1, 1, 0, 1, 1, 1, 2], 225), (6, 6, 0));
    assert_eq!(call(&[1, 1, 0, 2, 1, 2, 1, 0], 195), (6, 5, 0));
    // All modes of the chosen tile are read though only the first is answered.
    assert_eq!(call(&[1, 1, 0, 2, 1], 195), (1, 5, 0));
    assert_eq!(call(&[1, 1, 0, 1, 1], 225), (1, 5, 0));
    // Nothing behind the chosen tile is, and no image is tested.
    assert_eq!(call(&[1, 1, 0, 1, 1, 1, 2], 195), (0, 0, 0));
    assert_eq!(call(&[1, 1, 0, 1, 1], 195), (0, 0, 0));
    assert_eq!(call(&[1, 1, 0, 1, 0, 1, 1], 225), (0, 0, 0));
    assert_eq!(call(&[1, 1, 1, 0, 0x80, 0xFF], 195), (0, 0, 0));
    // A split not possible, met on the way.
    let one_count = file(&with(&p_fields(), 7, S(195)));
    assert_eq!(told(control(&one_count, &T1, IDLE, [195; 4])), (6, 2, 0));
}

// ---- rows 13 and 14: the sheet ----

#[test]
fn row_13_sheet_floats() {
    for (fields, n) in [(line_13(), 1), (two_room_sheet(), 2)] {
        for index in (0..fields.len()).filter(|index| matches!(fields[*index], F(_))) {
            for wrong in [f64::NAN, -f64::NAN, f64::INFINITY, f64::NEG_INFINITY] {
                sheet_field(&fields, n, index, F(wrong), 13);
            }
        }
    }
    for wrong in [0.0, -0.0, -1.0, -f64::from_bits(1), f64::MIN] {
        sheet_field(&line_13(), 1, 12, F(wrong), 13);
        sheet_field(&two_room_sheet(), 2, 18, F(wrong), 13);
    }
    for wrong in [-1.0, -f64::from_bits(1), f64::MIN] {
        for index in [14, 16] {
            sheet_field(&line_13(), 1, index, F(wrong), 13);
        }
        // Losses, exchanges and p.
        for index in [20, 21, 23, 25, 26] {
            sheet_field(&two_room_sheet(), 2, index, F(wrong), 13);
        }
    }
    // Outside, water and rate may be below 0; loss, exchange and p may be 0.
    for (index, value) in [(19, -8.0), (24, -40.0), (28, -3.0), (20, 0.0), (21, 0.0), (23, 0.0)] {
        let fields = with(&two_room_sheet(), index, F(value));
        assert_eq!(told(read_sheet(&file(&fields))), (0, 0, 0));
    }
}

#[test]
fn row_13_stands_in_file_order() {
    let (_, places) = encode(&two_room_sheet());
    // A float before an emitter number, an emitter number before a float.
    let fields = with(&with(&two_room_sheet(), 20, F(-1.0)), 22, U(3));
    assert_eq!(sheet_told(&file(&fields)), (13, places[20], 0));
    let fields = with(&with(&two_room_sheet(), 25, F(-1.0)), 22, U(3));
    assert_eq!(sheet_told(&file(&fields)), (3, places[22], 0));
    // A bad float before the cut behind it.
    let bytes = file(&with(&two_room_sheet(), 18, F(0.0)));
    assert_eq!(sheet_told(&bytes[..places[19] as usize + 3]), (13, places[18], 0));
    // 13 before 4, 5 and 14; leftover before 4.
    let four = with(&two_room_sheet(), 8, S(196));
    assert_eq!(sheet_told(&file(&with(&four, 28, F(f64::NAN)))), (13, places[28], 0));
    let mut left_over = four.clone();
    left_over.push(U(0));
    assert_eq!(sheet_told(&file(&left_over)), (3, places[29], 0));
    // 5 before 14.
    let late = with(&with(&two_room_sheet(), 28, F(1e300)), 15, S(0));
    assert_eq!(sheet_told(&file(&late)), (5, 0, 0));
}

/// A sheet refused with 14 at this number of the plant file, everywhere.
fn result_at(fields: &[Field], n: usize, place: u64) {
    assert_eq!(sheet_told(&file(fields)), (14, place, 0));
    let values = sheet_values(fields, n);
    assert_eq!(zeroed_by(|buffer| told(write_sheet(&values, buffer))), (14, place, 0));
    assert_eq!(told(plant_of_sheet(&values)), (14, place, 0));
}

#[test]
fn row_14_widened_bands() {
    // Line 13 widens by 116: numbers 10 and 11 of the plant file.
    let lowest = -1_000_000_000 + 116;
    assert_eq!(told(read_sheet(&file(&with(&line_13(), 10, S(lowest))))), (0, 0, 0));
    result_at(&with(&line_13(), 10, S(lowest - 1)), 1, 10);
    assert_eq!(told(read_sheet(&file(&with(&line_13(), 11, S(-lowest))))), (0, 0, 0));
    result_at(&with(&line_13(), 11, S(-lowest + 1)), 1, 11);
    // Two rooms, M 231: by 232. Bands at 14 .. 17.
    let lowest = -1_000_000_000 + 232;
    result_at(&with(&two_room_sheet(), 14, S(lowest - 1)), 2, 14);
    result_at(&with(&two_room_sheet(), 15, S(-lowest + 1)), 2, 15);
    result_at(&with(&two_room_sheet(), 16, S(lowest - 1)), 2, 16);
    result_at(&with(&two_room_sheet(), 17, S(-lowest + 1)), 2, 17);
    for (index, value) in [(14, lowest), (15, -lowest), (16, lowest), (17, -lowest)] {
        let fields = with(&two_room_sheet(), index, S(value));
        assert_eq!(told(read_sheet(&file(&fields))), (0, 0, 0));
    }
    // First in plant order: the band before the coefficients.
    result_at(&with(&with(&two_room_sheet(), 17, S(-lowest + 1)), 20, F(1e300)), 2, 17);
}

#[test]
fn row_14_coefficients() {
    // Two rooms: number 18 begins mode 0; mode u, row i, column j is 18 + 6u + 3i + j.
    // Not finite: time 0.5, s and the offset overflow.
    result_at(&with(&with(&two_room_sheet(), 20, F(1.7e308)), 21, F(1.7e308)), 2, 18);
    // Out of range: q 8, time 0.5, so an entry is over 20,000 from g = 5,000.125 on
    // (4 g is 20,000.5, rounded away). Its diagonal stays: 8 - 4 (0.125 + g).
    result_at(&with(&two_room_sheet(), 26, F(5_000.125)), 2, 21);
    result_at(&with(&two_room_sheet(), 21, F(5_002.0)), 2, 18);
    // Only off the diagonal: loss 0 and g = 5,001.5 give 8 - 20,006 = -19,998 and 20,006.
    let fields = with(&with(&two_room_sheet(), 20, F(0.0)), 21, F(5_001.5));
    result_at(&fields, 2, 19);
    // The offset: q r c = 80 * 0.5 * 0.25 * outside, 10 times outside.
    result_at(&with(&two_room_sheet(), 19, F(1_000_000_000.1)), 2, 20);
    result_at(&with(&two_room_sheet(), 19, F(-1_000_000_000.1)), 2, 20);
    result_at(&with(&two_room_sheet(), 19, F(1e308)), 2, 20);
    // Loss times outside overflows: not finite.
    let huge = with(&with(&two_room_sheet(), 19, F(1e308)), 20, F(400.0));
    result_at(&huge, 2, 20);
    // The second room's offset alone: with loss 0 in the first.
    let fields = with(&with(&two_room_sheet(), 20, F(0.0)), 19, F(2_000_000_000.5));
    result_at(&fields, 2, 23);
    // The heater on, mode 1 row 0: 18 + 6 + 2; the steady one, mode 2 row 1: 18 + 12 + 5.
    result_at(&with(&two_room_sheet(), 24, F(1e10)), 2, 26);
    result_at(&with(&two_room_sheet(), 24, F(f64::MAX)), 2, 26);
    result_at(&with(&with(&two_room_sheet(), 23, F(2.0)), 24, F(f64::MAX)), 2, 26);
    result_at(&with(&two_room_sheet(), 28, F(-1e10)), 2, 35);
    result_at(&with(&two_room_sheet(), 28, F(f64::MAX)), 2, 35);
    // Inf - inf: c is +inf only if mode 0 already tells it.
    let both = with(&with(&huge, 23, F(1e200)), 24, F(-1e200));
    result_at(&both, 2, 20);
    // Both emitters out of range: the heater's mode comes first.
    result_at(&with(&with(&two_room_sheet(), 24, F(1e10)), 28, F(1e10)), 2, 26);
    // One room: number 12 is A of mode 0, 13 its b, 14 and 15 those of mode 1.
    result_at(&with(&line_13(), 14, F(2_502.0)), 1, 12);
    result_at(&with(&line_13(), 13, F(1e10)), 1, 13);
    result_at(&with(&line_13(), 17, F(1e10)), 1, 15);
}

#[test]
fn row_14_comes_before_10() {
    let fields = with(&line_13(), 17, F(1e10));
    let values = sheet_values(&fields, 1);
    assert_eq!(told(write_sheet(&values, &mut marked(1))), (14, 15, 0));
    assert_eq!(told(sheet_to_plant(&file(&fields), &mut marked(1))), (14, 15, 0));
    assert_eq!(told(write_sheet(&sheet_values(&line_13(), 1), &mut marked(1))), (10, 0, 0));
}
