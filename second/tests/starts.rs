//! Start files, request 2026-03: the worked examples of its readings, every
//! refusal of maker, checker and call at every kind of place, their orders, and
//! numbers that would wrap in fewer bits.

mod common;
use common::*;
use second::checker::check;
use second::control::{control, State};
use second::maker::make;
use second::plant::read_plant;
use second::refusal::Refusal;
use second::start::{start_check, start_control, start_make, start_make_into, StartState};
use second::MOST_BOXES;

type Told = (u64, u64, u64);

/// "P with R1 190..230, 22 bytes": form, m, R1; 7 and table 0; 7 and table 1.
const EXAMPLE: [u8; 22] = [
    0x01, 0x01, 0xFC, 0x02, 0xCC, 0x03, 0x07, 0x01, 0x01, 0x00, 0x01, 0x01, 0x01, 0x00, 0x07, 0x01,
    0x01, 0x00, 0x01, 0x01, 0x01, 0x00,
];

fn example_chain() -> Vec<Field> {
    chain_fields(&[[(190, 230)]])
}

/// The fields of the example: form, m, lo, hi, length 0, table 0, length 1,
/// table 1, at places 0, 1, 2, 4, 6, 7, 14 and 15.
fn example_fields() -> Vec<Field> {
    start_fields(&example_chain(), &[&T1, &T1])
}

fn idle(plant: &[u8], start: &[u8], x: i64) -> Result<(u8, StartState), Refusal> {
    start_control(plant, start, StartState::IDLE, [x, 0, 0, 0])
}

fn state(index: u64, place: u64, left: u64) -> StartState {
    StartState { index, place, left }
}

/// What maker, checker and an idle call tell of a start file's beginning; the
/// maker takes the beginning alone.
fn all_tell(plant: &[u8], beginning: &[Field], wanted: Told) {
    let bytes = file(beginning);
    assert_eq!(told(start_make(plant, &bytes, 1)), wanted, "make {bytes:02X?}");
    let start = file(&start_fields(beginning, &[&T1, &T1]));
    assert_eq!(told(start_check(plant, &start)), wanted, "check {bytes:02X?}");
    assert_eq!(told(idle(plant, &start, 200)), wanted, "call {bytes:02X?}");
}

// ---- the worked examples ----

#[test]
fn the_example_of_22_bytes() {
    let chain = file(&example_chain());
    assert_eq!(chain, EXAMPLE[..6]);
    assert_eq!(start_make(&P, &chain, 1), Ok(EXAMPLE.to_vec()));
    assert_eq!(file(&example_fields()), EXAMPLE);
    assert_eq!(start_check(&P, &EXAMPLE), Ok(()));
    assert_eq!(idle(&P, &EXAMPLE, 190), Ok((1, StartState::IDLE)));
    assert_eq!(idle(&P, &EXAMPLE, 230), Ok((0, StartState::IDLE)));
    assert_eq!(idle(&P, &EXAMPLE, 210), Ok((1, StartState::IDLE)));
    assert_eq!(idle(&P, &EXAMPLE, 211), Ok((0, StartState::IDLE)));
    assert_eq!(told(idle(&P, &EXAMPLE, 189)), (11, 0, 0));
    assert_eq!(told(idle(&P, &EXAMPLE, 231)), (11, 0, 0));
}

/// From 160: the readings are possible, and 198 in mid-pattern is no arrival.
#[test]
fn a_cold_room_comes_home() {
    let plant = cold_p();
    let start = start_make(&plant, &file(&cold_chain()), 1).expect("a start file");
    let tables: [&[u8]; 3] = [&T5, &[1, 1, 0, 2, 1, 1, 2, 0, 1], &[1, 1, 0, 2, 1, 1, 1, 0]];
    assert_eq!(start, file(&start_fields(&cold_chain(), &tables)));
    assert_eq!(start_check(&plant, &start), Ok(()));
    let samples = [
        (160, state(0, 0, 0), 1),
        (174, state(2, 5, 1), 1),
        (187, state(0, 0, 0), 1),
        (198, state(1, 5, 1), 1),
        (208, state(0, 0, 0), 0),
    ];
    for pair in samples.windows(2) {
        let [(x, before, mode), (y, after, _)] = [pair[0], pair[1]];
        assert_eq!(start_control(&plant, &start, before, [x, 0, 0, 0]), Ok((mode, after)), "at {x}");
        let apart = 10 * y - (9 * x + [100, 300][usize::from(mode)]);
        assert!((-5..=4).contains(&apart), "{y} does not follow {x}");
    }
    let in_r = |x: &i64| (195..=225).contains(x);
    let arrived = samples.iter().position(|(x, state, _)| *state == StartState::IDLE && in_r(x));
    assert_eq!(arrived, Some(4));
    // R0's table from there on: its own pattern, 0 then 1.
    assert_eq!(idle(&plant, &start, 208), Ok((0, state(0, 4, 1))));
    assert_eq!(control(&plant, &T5, State::IDLE, [208, 0, 0, 0]), Ok((0, State { place: 4, left: 1 })));
    assert_eq!(start_control(&plant, &start, state(0, 4, 1), [197, 0, 0, 0]), Ok((1, StartState::IDLE)));
}

// ---- the beginning: form, m, edges, leftover, 15 ----

#[test]
fn every_number_of_the_beginning() {
    let chain = example_chain();
    let (_, places) = encode(&chain);
    for at in 0..chain.len() {
        for field in broken(&chain[at]) {
            all_tell(&P, &with(&chain, at, field), (1, places[at], 0));
        }
    }
    for form in [0, 2, 129, 1 << 32 | 1, (1 << 35) - 1] {
        all_tell(&P, &with(&chain, 0, U(form)), (2, 0, 0));
    }
    // "Nothing behind it is read": not even a broken edge.
    for m in [9, 10, 127, 128, 1 << 32, 1 << 32 | 1, (1 << 35) - 1] {
        all_tell(&P, &[U(1), U(m), Raw(vec![0x81, 0])], (3, 1, 0));
    }
    for lo in [-1_000_001, 1_000_001, -(1 << 34), (1 << 34) - 1, (1 << 32) + 190, 190 - (1 << 32)] {
        all_tell(&P, &with(&chain, 2, S(lo)), (3, 2, 0));
        // lo is told before hi is read
        all_tell(&P, &with(&with(&chain, 2, S(lo)), 3, Raw(vec![0x81, 0])), (3, 2, 0));
    }
    for hi in [189, -1_000_001, 1_000_001, -(1 << 34), (1 << 34) - 1, (1 << 32) + 230] {
        all_tell(&P, &with(&chain, 3, S(hi)), (3, 4, 0));
    }
}

#[test]
fn a_beginning_cut_at_every_length() {
    let chain = chain_fields(&[[(190, 230)], [(-1_000_000, 1_000_000)]]);
    let wide = file(&with(&with(&p_fields(), 8, S(-1_000_000)), 9, S(1_000_000)));
    let (bytes, places) = encode(&chain);
    // whole it is in order; no pattern leads from R2 to R1
    assert_eq!(told(start_make(&wide, &bytes, 1)), (9, 2, 0));
    for length in 0..bytes.len() {
        let cut = places.iter().rev().find(|place| **place <= length as u64).expect("a number");
        for answer in [
            told(start_make(&wide, &bytes[..length], 1)),
            told(start_check(&wide, &bytes[..length])),
            told(idle(&wide, &bytes[..length], 200)),
        ] {
            assert_eq!(answer, (1, *cut, 0), "cut at {length}");
        }
    }
}

#[test]
fn leftover_bytes_behind_a_chain() {
    let whole = example_chain();
    for behind in [vec![0], vec![1], vec![0x80], vec![0x81, 0], vec![7, 1, 1]] {
        let bytes = file(&[&whole[..], &[Raw(behind.clone())]].concat());
        assert_eq!(told(start_make(&P, &bytes, 1)), (3, 6, 0));
        // before 15
        let apart = chain_fields(&[[(196, 230)]]);
        let bytes = file(&[&apart[..], &[Raw(behind.clone())]].concat());
        assert_eq!(told(start_make(&P, &bytes, 1)), (3, 6, 0));
        // before 9
        let none = file(&with(&p_fields(), 5, U(0)));
        assert_eq!(told(start_make(&none, &file(&[&whole[..], &[Raw(behind)]].concat()), 1)), (3, 6, 0));
        // in a file a length stands there, and 15 comes before it
        assert_eq!(told(start_check(&P, &bytes)), (15, 1, 0));
        assert_eq!(told(idle(&P, &bytes, 200)), (15, 1, 0));
    }
}

/// 15 at the first index at fault, whichever edge is.
#[test]
fn boxes_that_do_not_hold_the_one_before_or_are_not_in_s() {
    for sides in [(196, 230), (190, 224), (196, 224), (189, 230), (190, 231), (100, 110)] {
        all_tell(&P, &chain_fields(&[[sides]]), (15, 1, 0));
    }
    for sides in [(195, 225), (190, 230), (195, 226), (194, 225)] {
        let start = file(&start_fields(&chain_fields(&[[sides]]), &[&T1, &T1]));
        assert_ne!(told(start_check(&P, &start)).0, 15, "{sides:?}");
    }
    let (r, s) = ((195, 225), (190, 230));
    let (small, large) = ((196, 225), (190, 231));
    for (boxes, index) in [
        (vec![r, s, large], 3),
        (vec![r, large, s], 2),
        (vec![s, r], 2),
        (vec![r, r, r, r, r, r, r, small], 8),
        (vec![r, r, small, large], 3),
        (vec![small, r], 1),
    ] {
        let boxes: Vec<_> = boxes.into_iter().map(|sides| [sides]).collect();
        all_tell(&P, &chain_fields(&boxes), (15, index, 0));
    }
}

/// In each dimension, each edge; two_rooms has R 0..9 by 10..19, S -5..14 by 5..24.
#[test]
fn each_dimension_of_a_box_is_judged() {
    let plant = file(&two_rooms());
    let sound = [(-1, 10), (9, 20)];
    let beginning = |sides: [(i64, i64); 2]| chain_fields(&[[(0, 9), (10, 19)], sides]);
    let start = file(&beginning(sound));
    assert_eq!(told(start_check(&plant, &start)), (1, start.len() as u64, 0));
    for (i, r, s) in [(0, (0, 9), (-5, 14)), (1, (10, 19), (5, 24))] {
        for (lo, hi) in [(r.0 + 1, sound[i].1), (sound[i].0, r.1 - 1), (s.0 - 1, sound[i].1), (sound[i].0, s.1 + 1)] {
            let mut sides = sound;
            sides[i] = (lo, hi);
            all_tell(&plant, &beginning(sides), (15, 2, 0));
        }
    }
}

#[test]
fn the_plant_comes_first() {
    let (_, places) = encode(&p_fields());
    let damaged = [
        (with(&p_fields(), 0, U(3)), (2, 0, 0)),
        (with(&p_fields(), 3, Raw(vec![0x8A, 0])), (1, places[3], 0)),
        (with(&p_fields(), 7, S(194)), (3, places[7], 0)),
        (with(&p_fields(), 8, S(196)), (4, 0, 0)),
        (with(&p_fields(), 11, S(3)), (5, 0, 0)),
    ];
    for (fields, wanted) in damaged {
        let plant = file(&fields);
        for start in [&EXAMPLE[..], &[], &[2], &[1, 9]] {
            assert_eq!(told(start_make(&plant, start, 1)), wanted);
            assert_eq!(told(start_check(&plant, start)), wanted);
            assert_eq!(told(start_control(&plant, start, state(9, 9, 9), [0; 4])), wanted);
        }
    }
}

#[test]
fn nought_to_eight_boxes_and_no_more() {
    for m in 0..=MOST_BOXES {
        let boxes: Vec<_> = (0..m as i64).map(|i| [(195 - i / 2, 225 + i / 2)]).collect();
        let start = start_make(&P, &file(&chain_fields(&boxes)), 1).expect("a start file");
        assert_eq!(start[1], m as u8);
        assert_eq!(start, file(&start_fields(&chain_fields(&boxes), &vec![&T1[..]; m + 1])));
        assert_eq!(start_check(&P, &start), Ok(()));
        // one table too few, one too many
        assert_eq!(told(start_check(&P, &start[..start.len() - 8])), (1, start.len() as u64 - 8, 0));
        assert_eq!(told(start_check(&P, &[&start[..], &[7], &T1].concat())), (3, start.len() as u64, 0));
    }
    all_tell(&P, &chain_fields(&[[(195, 225)]; 9]), (3, 1, 0));
}

// ---- the maker: 9, 10, the buffer ----

/// 9 gives the least index without a table, whether or not others have one.
#[test]
fn the_first_index_without_a_table() {
    let chain = |boxes: &[(i64, i64)]| {
        file(&chain_fields(&boxes.iter().map(|sides| [*sides]).collect::<Vec<_>>()))
    };
    // P with D 0 has no table; in a wider S it has, but none from 120..225 to R
    let none = file(&with(&p_fields(), 5, U(0)));
    let shallow = file(&with(&with(&with(&p_fields(), 8, S(100)), 9, S(300)), 5, U(0)));
    for (plant, boxes, index) in [
        (&none, vec![], 0),
        (&none, vec![(195, 225)], 0),
        (&none, vec![(190, 225), (190, 230)], 0),
        (&shallow, vec![(120, 225)], 1),
        (&shallow, vec![(195, 225), (120, 225)], 2),
        (&shallow, vec![(195, 225), (195, 225), (120, 225), (100, 300)], 3),
        (&shallow, vec![(120, 225), (120, 225)], 1),
    ] {
        // before 10, and the whole buffer is zeros
        for length in [0, 3, 8, 300] {
            let mut buffer = marked(length);
            let answer = told(start_make_into(plant, &chain(&boxes), 1, &mut buffer));
            assert_eq!(answer, (9, index, 0), "{boxes:?}");
            assert_eq!(buffer, vec![0; length]);
        }
        assert_eq!(told(start_make(plant, &chain(&boxes), 1)), (9, index, 0), "{boxes:?}");
    }
    // the table that is missing at 2 above is there without R2, and that of 1 with D 1
    assert!(start_make(&shallow, &chain(&[(195, 225)]), 1).is_ok());
    assert!(start_make(&file(&with(&with(&p_fields(), 8, S(150)), 9, S(240))), &chain(&[(180, 225)]), 1).is_ok());
}

/// 10 for every buffer too short, also one that ends within the beginning, a
/// length or a table; a buffer of the very length is enough.
#[test]
fn buffers_of_every_length() {
    for (plant, chain) in [(P.to_vec(), example_chain()), (cold_p(), cold_chain())] {
        let chain = file(&chain);
        let start = start_make(&plant, &chain, 1).expect("a start file");
        for length in 0..start.len() + 5 {
            let mut buffer = marked(length);
            let answer = start_make_into(&plant, &chain, 1, &mut buffer);
            if length < start.len() {
                assert_eq!(told(answer), (10, 0, 0), "{length}");
                assert_eq!(buffer, vec![0; length]);
            } else {
                assert_eq!(answer, Ok(start.len()));
                assert_eq!(buffer[..start.len()], start);
                assert_eq!(buffer[start.len()..], marked(length - start.len()));
            }
        }
    }
}

#[test]
fn a_refused_chain_zeros_the_buffer() {
    for chain in [&[][..], &[2], &[1, 9], &[1, 1, 0, 0]] {
        let mut buffer = marked(40);
        assert!(start_make_into(&P, chain, 1, &mut buffer).is_err());
        assert_eq!(buffer, [0; 40]);
    }
}

// ---- lengths ----

#[test]
fn byte_lengths_that_are_broken_or_pass_the_end() {
    let fields = example_fields();
    let (bytes, places) = encode(&fields);
    // 190 is only in R1, so the call reads both lengths.
    for at in [4, 6] {
        let place = places[at];
        for field in broken(&fields[at]) {
            let start = file(&with(&fields, at, field));
            assert_eq!(told(start_check(&P, &start)), (1, place, 0));
            assert_eq!(told(idle(&P, &start, 190)), (1, place, 0));
        }
        // what is left behind the length, in bytes; a longer number leaves as much
        let left = bytes.len() as u64 - places[at + 1];
        for length in [left + 1, left + 2, 127, 128, 1 << 32, 1 << 32 | 7, 1 << 34 | 7, (1 << 35) - 1] {
            let start = file(&with(&fields, at, U(length)));
            assert_eq!(told(start_check(&P, &start)), (3, place, 0), "{length}");
            assert_eq!(told(idle(&P, &start, 190)), (3, place, 0), "{length}");
        }
        // over 5 bytes: numbers that end in the right length once the rest is lost
        for length in [1 << 35 | 7, u64::MAX, u64::MAX - 6, 1 << 63 | 7] {
            let start = file(&with(&fields, at, U(length)));
            assert_eq!(told(start_check(&P, &start)), (1, place, 0), "{length}");
            assert_eq!(told(idle(&P, &start, 190)), (1, place, 0), "{length}");
        }
    }
}

/// A length too small cuts its table: 1 at the number that ends early. One too
/// large takes in what follows: 3 at the length, behind the table's own faults.
#[test]
fn byte_lengths_that_cut_a_table_or_leave_bytes() {
    for (at, place) in [(4, 6), (6, 14)] {
        for length in 0..7 {
            let start = file(&with(&example_fields(), at, U(length)));
            assert_eq!(told(start_check(&P, &start)), (1, place + 1 + length, 0), "{length}");
        }
        let mut fields = example_fields();
        fields[at] = U(8);
        fields[at + 1] = Raw([&T1[..], &[0x81]].concat());
        assert_eq!(told(start_check(&P, &file(&fields))), (3, place, 0));
        fields[at + 1] = Raw(vec![1, 1, 0, 1, 1, 1, 1, 9]);
        assert_eq!(told(start_check(&P, &file(&fields))), (7, place + 6, 1));
    }
    // the surplus of table 0 is told before any fault of length 1
    let surplus = start_fields(&example_chain(), &[&[1, 1, 0, 1, 1, 1, 0, 0]]);
    assert_eq!(told(start_check(&P, &file(&surplus))), (3, 6, 0));
    assert_eq!(told(start_check(&P, &file(&[&surplus[..], &[U(99)]].concat()))), (3, 6, 0));
    // table 0's fault comes before length 1's, and length 1's before leftover
    let fields = start_fields(&example_chain(), &[&[1, 1, 0, 1, 1, 1, 1], &T1]);
    assert_eq!(told(start_check(&P, &file(&with(&fields, 6, U(99))))), (7, 12, 1));
    let fields = [&with(&example_fields(), 6, U(9))[..], &[Raw(vec![0, 0, 0])]].concat();
    assert_eq!(told(start_check(&P, &file(&fields))), (3, 14, 0));
    for behind in [&[0][..], &[0x81, 0], &[7, 1]] {
        assert_eq!(told(start_check(&P, &[&EXAMPLE[..], behind].concat())), (3, 22, 0));
    }
}

#[test]
fn a_start_file_cut_at_every_length() {
    let plant = cold_p();
    let start = start_make(&plant, &file(&cold_chain()), 1).expect("a start file");
    // lengths at 10, 16 and 26, their tables behind them; 160 is only in R2
    for length in 10..start.len() {
        let (number, place) = match length {
            10 => (1, 10),
            11..=15 => (3, 10),
            16 => (1, 16),
            17..=25 => (3, 16),
            26 => (1, 26),
            _ => (3, 26),
        };
        assert_eq!(told(start_check(&plant, &start[..length])), (number, place, 0), "{length}");
        assert_eq!(told(idle(&plant, &start[..length], 160)), (number, place, 0), "{length}");
        // 187 needs the file up to table 1, 200 up to table 0
        let needs_one = if length < 26 { Err((number, place, 0)) } else { Ok((1, state(1, 5, 1))) };
        let tell = |answer: Result<_, Refusal>| answer.map_err(|refusal| told::<()>(Err(refusal)));
        assert_eq!(tell(idle(&plant, &start[..length], 187)), needs_one, "{length}");
        let needs_none = if length < 16 { Err((number, place, 0)) } else { Ok((0, state(0, 4, 1))) };
        assert_eq!(tell(idle(&plant, &start[..length], 200)), needs_none, "{length}");
    }
}

// ---- the inner tables ----

/// Each fault of a table, in table 0 and in table 1: the number and step that
/// the table alone has, the place moved by where the table stands.
#[test]
fn inner_tables_tell_the_start_files_places() {
    let faults: [(&[u8], Told); 16] = [
        (&[], (1, 0, 0)),
        (&[0x81, 0], (1, 0, 0)),
        (&[1], (1, 1, 0)),
        (&[1, 0x80], (1, 1, 0)),
        (&[1, 1], (1, 2, 0)),
        (&[1, 1, 2, 0], (1, 4, 0)),
        (&[0, 1], (2, 0, 0)),
        (&[4, 1], (2, 0, 0)),
        (&[1, 2], (6, 1, 0)),
        (&[1, 0x81, 1], (6, 1, 0)),
        (&[1, 1, 3], (6, 2, 0)),
        (&[1, 1, 0, 0], (6, 3, 0)),
        (&[1, 1, 2, 0, 2], (6, 4, 0)),
        (&[1, 1, 1, 1], (7, 2, 1)),
        (&[1, 1, 0, 1, 1, 2, 0, 0], (8, 5, 2)),
        (&[1, 1, 0, 1, 0, 1, 0], (7, 3, 1)),
    ];
    for (table, (number, place, step)) in faults {
        assert_eq!(told(check(&P, table)), (number, place, step), "{table:02X?}");
        let start = file(&start_fields(&example_chain(), &[table, &T1]));
        assert_eq!(told(start_check(&P, &start)), (number, 7 + place, step), "{table:02X?}");
        let start = file(&start_fields(&example_chain(), &[&T1, table]));
        assert_eq!(told(start_check(&P, &start)), (number, 15 + place, step), "{table:02X?}");
        if step == 0 {
            // a call tells 1, 2 and 6 of what it reads: 225 in table 0, 230 in table 1
            assert_eq!(told(idle(&P, &start, 230)), (number, 15 + place, 0), "{table:02X?}");
            let start = file(&start_fields(&example_chain(), &[table, &T1]));
            assert_eq!(told(idle(&P, &start, 225)), (number, 7 + place, 0), "{table:02X?}");
        }
    }
}

/// 8 is about the box below: R for tables 0 and 1, R1 for table 2.
#[test]
fn the_last_image_lies_in_the_box_below() {
    let plant = cold_p();
    // From 160..230 mode 1 leads to 174..237: outside R1 180..225 and in S.
    let one = [1, 1, 1, 1];
    let good: [&[u8]; 3] = [&T5, &[1, 1, 0, 2, 1, 1, 2, 0, 1], &[1, 1, 0, 2, 1, 1, 1, 0]];
    for (index, place) in [(0, 11), (1, 17), (2, 27)] {
        let mut tables = good;
        tables[index] = &one;
        let start = file(&start_fields(&cold_chain(), &tables));
        assert_eq!(told(start_check(&plant, &start)), (8, place + 2, 1), "table {index}");
    }
    // 180..202 by 1, 1 ends in 202..222, within R; so it does for table 2 of equal boxes
    let [_, table_1, _] = good;
    let equal = chain_fields(&[[(180, 225)], [(180, 225)]]);
    assert_eq!(start_check(&plant, &file(&start_fields(&equal, &[&T5, table_1, table_1]))), Ok(()));
    // mode 0 alone takes 180..225 to 172..212, mode 1 to 192..232: neither lies in R1
    // R1 180..225 by pattern 1, 0: 192..232, then 183..218: in R1, not in R
    let to_r1 = [1, 1, 2, 1, 0];
    let start = file(&start_fields(&equal, &[&T5, table_1, &to_r1]));
    assert_eq!(start_check(&plant, &start), Ok(()));
    let start = file(&start_fields(&equal, &[&T5, &to_r1, &to_r1]));
    assert_eq!(told(start_check(&plant, &start)), (8, 17 + 2, 2));
}

// ---- the call ----

/// "The lowest index that holds the reading", of equal boxes too.
#[test]
fn the_smallest_box_answers() {
    let plant = cold_p();
    let start = start_make(&plant, &file(&cold_chain()), 1).expect("a start file");
    for x in 150..=240 {
        let wanted = match x {
            195..=225 => Some(0),
            180..=194 => Some(1),
            160..=230 => Some(2),
            _ => None,
        };
        match (idle(&plant, &start, x), wanted) {
            (Err(refusal), None) => assert_eq!(refusal, Refusal::at(11, 0)),
            // 226..230 go home in one sample, by table 2's second tile
            (Ok((mode, next)), Some(2)) if x > 195 => assert_eq!((mode, next), (0, StartState::IDLE)),
            (Ok((_, next)), Some(index)) => assert_eq!((next.index, next.left), (index, 1), "{x}"),
            (answer, wanted) => panic!("{x}: {answer:?}, {wanted:?}"),
        }
    }
    // R1 = R: table 0 answers in R; R2 = R3: table 2 answers outside it
    let chain = chain_fields(&[[(195, 225)], [(180, 225)], [(180, 225)]]);
    let start = start_make(&plant, &file(&chain), 1).expect("a start file");
    assert_eq!(start_check(&plant, &start), Ok(()));
    assert_eq!(idle(&plant, &start, 195), Ok((0, state(0, 4, 1))));
    assert_eq!(idle(&plant, &start, 194), Ok((1, state(2, 5, 1))));
}

/// Idle outside Rm is 11, at the first dimension, before any length is read.
#[test]
fn eleven_when_idle_is_about_the_last_box() {
    let plant = file(&two_rooms());
    let beginning = file(&chain_fields(&[[(-1, 9), (10, 20)]]));
    for (x, wanted) in [
        ([-2, 10, 0, 0], (11, 0, 0)),
        ([10, 21, 0, 0], (11, 0, 0)),
        ([9, 21, 0, 0], (11, 1, 0)),
        ([0, 9, 0, 0], (11, 1, 0)),
        ([i64::MIN, 10, 0, 0], (11, 0, 0)),
        ([0, i64::MAX, 0, 0], (11, 1, 0)),
        // in R1: on to the length, which is missing
        ([-1, 20, i64::MIN, i64::MAX], (1, beginning.len() as u64, 0)),
        ([0, 10, 7, 7], (1, beginning.len() as u64, 0)),
    ] {
        assert_eq!(told(start_control(&plant, &beginning, StartState::IDLE, x)), wanted, "{x:?}");
    }
}

/// 12 for an index over m, or not 0 when idle: before 11 and before any length.
#[test]
fn an_index_that_cannot_be() {
    let over = [2, 3, 8, 9, 255, 256, 257, 1 << 32, 1 << 32 | 1, 1 << 35, 1 << 63, u64::MAX];
    for index in over {
        for (place, left) in [(0, 0), (5, 0), (5, 1), (0, 1), (u64::MAX, u64::MAX)] {
            for start in [&EXAMPLE[..], &EXAMPLE[..6]] {
                let answer = start_control(&P, start, state(index, place, left), [0; 4]);
                assert_eq!(told(answer), (12, 0, 0), "{index} {place} {left}");
            }
        }
    }
    for start in [&EXAMPLE[..], &EXAMPLE[..6]] {
        for x in [0, 200] {
            assert_eq!(told(start_control(&P, start, state(1, 0, 0), [x, 0, 0, 0])), (12, 0, 0));
        }
    }
    // the index is judged after 15
    let apart = file(&start_fields(&chain_fields(&[[(196, 230)]]), &[&T1, &T1]));
    assert_eq!(told(start_control(&P, &apart, state(9, 0, 0), [200, 0, 0, 0])), (15, 1, 0));
}

/// 12's other tests are the table's, after the lengths and the table's header.
#[test]
fn a_state_that_cannot_be_within_its_table() {
    let plant = cold_p();
    let start = start_make(&plant, &file(&cold_chain()), 1).expect("a start file");
    // table 2 is 01 01 00 02 01 01 01 00, K 2, N 2; a reading outside S tells that 12 comes first
    let outside = [0; 4];
    for (place, left) in [
        (5, 3),
        (5, 1 << 32 | 1),
        (5, u64::MAX),
        (5, 0),
        (1, 0),
        (u64::MAX, 0),
        (0, 1),
        (1, 1),
        (3, 1), // the node 2 is no mode
        (7, 2),
        (8, 1),
        (1 << 32 | 5, 1),
        (1 << 35 | 5, 1),
        (u64::MAX, 1),
        (u64::MAX - 1, 2),
        (u64::MAX - 26, 1),
    ] {
        let answer = start_control(&plant, &start, state(2, place, left), outside);
        assert_eq!(told(answer), (12, 0, 0), "{place} {left}");
    }
    for (place, left, mode, next) in [
        (4, 2, 1, state(2, 5, 1)),
        (5, 1, 1, StartState::IDLE),
        (6, 2, 1, state(2, 7, 1)),
        (7, 1, 0, StartState::IDLE),
        (2, 1, 0, StartState::IDLE), // a split's 0 is a mode to a running call
    ] {
        let call = |x: i64| start_control(&plant, &start, state(2, place, left), [x, 0, 0, 0]);
        // "a running call asks nothing of the box that the state names"
        for x in [150, 160, 200, 240] {
            assert_eq!(call(x), Ok((mode, next)));
        }
        assert_eq!(told(call(149)), (11, 0, 0));
        assert_eq!(told(call(241)), (11, 0, 0));
    }
    // place and left are measured against the table, not against the file behind it
    assert_eq!(told(start_control(&plant, &start, state(0, 5, 1), [200; 4])), (12, 0, 0));
    assert_eq!(start_control(&plant, &start, state(0, 4, 1), [200; 4]), Ok((1, StartState::IDLE)));
    assert_eq!(start_control(&plant, &start, state(1, 8, 1), [200; 4]), Ok((1, StartState::IDLE)));
    assert_eq!(told(start_control(&plant, &start, state(1, 9, 1), [200; 4])), (12, 0, 0));
}

/// Lengths before the header, the header before 12, 12 before 11, 11 before the tree.
#[test]
fn the_order_of_a_call() {
    let impossible = state(1, 5, 0);
    let outside = [0; 4];
    let call = |fields: &[Field], state, x| told(start_control(&P, &file(fields), state, x));
    let with_table = |table: &[u8]| start_fields(&example_chain(), &[&T1, table]);
    let fields = example_fields();
    assert_eq!(call(&with(&fields, 4, U(99)), impossible, outside), (3, 6, 0));
    assert_eq!(call(&with(&fields, 6, U(99)), impossible, outside), (3, 14, 0));
    assert_eq!(call(&with(&fields, 6, Raw(vec![0x87, 0])), impossible, outside), (1, 14, 0));
    assert_eq!(call(&with_table(&[4, 2, 7]), impossible, outside), (2, 15, 0));
    assert_eq!(call(&with_table(&[1, 2, 7]), impossible, outside), (6, 16, 0));
    assert_eq!(call(&with_table(&[1]), impossible, outside), (1, 16, 0));
    assert_eq!(call(&with_table(&[1, 1, 7]), impossible, outside), (12, 0, 0));
    assert_eq!(call(&with_table(&[1, 1, 7, 1]), state(1, 3, 1), outside), (11, 0, 0));
    assert_eq!(call(&with_table(&[1, 1, 7]), StartState::IDLE, [190; 4]), (6, 17, 0));
    // 11 of an idle call comes before all of it
    assert_eq!(call(&with(&fields, 4, U(99)), StartState::IDLE, outside), (11, 0, 0));
}

/// "Reads nothing of tables 0..i-1 but their lengths", and nothing behind its tile.
#[test]
fn a_call_reads_its_own_table_alone() {
    let plant = cold_p();
    let start = start_make(&plant, &file(&cold_chain()), 1).expect("a start file");
    // lengths, header, and the tree up to the tile's last mode or the modes left there
    let calls: [(StartState, i64, &[usize]); 5] = [
        (StartState::IDLE, 160, &[10, 16, 26, 27, 28, 29, 30, 31, 32]),
        (state(2, 5, 1), 174, &[10, 16, 26, 27, 28, 32]),
        (StartState::IDLE, 187, &[10, 16, 17, 18, 19, 20, 21, 22]),
        (state(1, 8, 1), 198, &[10, 16, 17, 18, 25]),
        (StartState::IDLE, 208, &[10, 11, 12, 13, 14, 15]),
    ];
    for (before, x, needed) in calls {
        let call = |start: &[u8]| start_control(&plant, start, before, [x, 0, 0, 0]);
        assert!(call(&start).is_ok());
        for at in 10..start.len() {
            let differs = [0, 1, 0x7F, 0xFF].map(|byte| {
                let mut other = start.clone();
                other[at] = byte;
                call(&other) != call(&start)
            });
            assert_eq!(differs.contains(&true), needed.contains(&at), "{x}: byte {at}");
        }
    }
    // surplus and leftover bytes are the checker's to tell
    let surplus = file(&start_fields(&example_chain(), &[&[1, 1, 0, 1, 1, 1, 0, 0x80], &[1, 1, 0, 1, 1, 1, 0, 9]]));
    let surplus = [&surplus[..], &[0x81]].concat();
    assert_eq!(told(start_check(&P, &surplus)), (3, 6, 0));
    assert_eq!(idle(&P, &surplus, 195), Ok((1, StartState::IDLE)));
    assert_eq!(idle(&P, &surplus, 230), Ok((0, StartState::IDLE)));
}

// ---- m 0 ----

/// "On an accepted file every answer is that of the table alone."
#[test]
fn without_boxes_the_answers_are_the_tables() {
    let shown = |answer: Result<(u8, State), Refusal>| {
        answer.map(|(mode, next)| (mode, state(0, next.place, next.left)))
    };
    for (plant, table) in [(P.to_vec(), &T1[..]), (p_prime(), &T5), (cold_p(), &T5)] {
        let start = start_make(&plant, &[1, 0], 1).expect("a start file");
        assert_eq!(start, [&[1, 0, table.len() as u8], table].concat());
        assert_eq!(start_check(&plant, &start), Ok(()));
        let mut numbers = [0; 16];
        for place in (0..=12).chain([1 << 32, u64::MAX - 1, u64::MAX]) {
            for left in (0..=3).chain([1 << 32, u64::MAX]) {
                for x in 140..=250 {
                    let alone = shown(control(&plant, table, State { place, left }, [x, 0, 0, 0]));
                    numbers[told(alone).0 as usize] += 1;
                    assert_eq!(start_control(&plant, &start, state(0, place, left), [x, 0, 0, 0]), alone);
                }
            }
        }
        assert!(numbers[0] > 40 && numbers[11] > 40 && numbers[12] > 40, "{numbers:?}");
        assert_eq!(numbers[..].iter().sum::<usize>(), numbers[0] + numbers[11] + numbers[12]);
        for at in 0..plant.len() {
            let mut damaged = plant.clone();
            damaged[at] ^= 0x40;
            if read_plant(&damaged).is_err() {
                assert_eq!(
                    start_control(&damaged, &start, StartState::IDLE, [200; 4]),
                    shown(control(&damaged, table, State::IDLE, [200; 4])),
                );
            }
        }
    }
    // a table that is not accepted tells the same numbers, the places 3 further on, but for surplus bytes
    for table in [&[1, 1, 0, 1, 1, 1, 1][..], &[1, 1, 0, 1, 1], &[2], &[]] {
        let start = [&[1, 0, table.len() as u8], table].concat();
        let (number, place, step) = told(check(&P, table));
        assert_eq!(told(start_check(&P, &start)), (number, place + 3, step));
    }
    assert_eq!(told(check(&P, &[&T1[..], &[0]].concat())), (6, 7, 0));
    assert_eq!(told(start_check(&P, &[&[1, 0, 8], &T1[..], &[0]].concat())), (3, 2, 0));
    assert_eq!(told(start_check(&P, &[&[1, 0, 7], &T1[..], &[0]].concat())), (3, 10, 0));
}

// ---- the largest ----

/// n 2, D 6, m 8, every edge 3 bytes and every table the largest of modes of one
/// byte: a turn by a sixth brings each reading back to itself and no larger tile
/// anywhere.
#[test]
fn the_largest_start_file_of_short_modes() {
    let limit = 1_000_000;
    let mut fields = vec![U(1), U(2), U(1), U(1), U(6), U(6)];
    fields.extend([9000, 9063, -limit, limit, 9000, 9063, -limit, limit, 0, 0, 0, 0].map(S));
    fields.extend([4, -13, 0, 1, -3, 0].map(S));
    let plant = file(&fields);
    let chain = chain_fields(&[[(9000, 9063), (9000, 9063)]; MOST_BOXES]);
    let start = start_make(&plant, &file(&chain), 1).expect("a start file");
    assert_eq!(start.len(), 270_476);
    assert_eq!(start_check(&plant, &start), Ok(()));
    let mut table = vec![0; 30_039];
    assert_eq!(make(&plant, 1, &mut table), Ok(30_039));
    assert_eq!(start, file(&start_fields(&chain, &[&table[..]; MOST_BOXES + 1])));
    let mut buffer = marked(270_476);
    assert_eq!(start_make_into(&plant, &file(&chain), 1, &mut buffer), Ok(270_476));
    assert_eq!(told(start_make_into(&plant, &file(&chain), 1, &mut buffer[1..])), (10, 0, 0));
    // the last mode of the last table
    let last = state(8, 30_038, 1);
    assert_eq!(start_control(&plant, &start, last, [9063; 4]), Ok((0, StartState::IDLE)));
    assert_eq!(told(start_control(&plant, &start, state(8, 30_039, 1), [9063; 4])), (12, 0, 0));
    assert_eq!(told(start_check(&plant, &start[..start.len() - 1])), (3, 270_476 - 30_042, 0));
    let mut damaged = start.clone();
    damaged[270_475] = 1;
    assert_eq!(told(start_check(&plant, &damaged)), (6, 270_475, 0));
}
