//! Request 2026-01, table form 2, side by side and by hand: lengths wrong in
//! every way in the checker and in calls, idle and running, what a call reads of
//! a table, the same tree in form 1, how deep it may be, and start files.

use second::plant::{read_plant, Plant};
use second::MOST_BOXES;
use side::common::{broken, chain_fields, encode, file, groups, p_prime, start_fields, Field, Random, Raw, P, S, T1, U};
use side::inputs::{any_reading, plant_fields, random, rounds};
use side::seen::{each_came, Seen};
use side::tables::{made_table, other_table, read_by_a_call, relaid_table, wrong_lengths};
use side::NO_MODE;

/// P's table of form 2.
const T2: [u8; 8] = [2, 1, 0, 2, 1, 1, 1, 0];

/// The same with another number for its length.
fn by_length(length: Field) -> Vec<u8> {
    file(&[U(2), U(1), U(0), length, Raw(vec![1, 1, 1, 0])])
}

/// Lengths past the file: by one, by far, and such that lose bits where they are kept in 32.
const PAST: [u64; 9] = [5, 6, 127, 128, 1 << 14, 1 << 32, (1 << 32) + 2, 1 << 34, (1 << 35) - 1];

/// P in its one room, idle.
fn idle(seen: &mut Seen, table: &[u8], x: i64) -> (u64, [u64; 5]) {
    seen.control(&P, table, 0, 0, [x, 0, 0, 0])
}

fn refused(number: u64, place: u64) -> (u64, [u64; 5]) {
    (NO_MODE, [number, place, 0, 0, 0])
}

#[test]
fn p_in_form_2() {
    let mut seen = Seen::default();
    assert_eq!(made_table(&P, 2), Some(T2.to_vec()));
    for length in 0..11 {
        assert_eq!(seen.make(&P, 2, length), if length < 8 { (10, 0, 0) } else { (0, 8, 0) });
    }
    assert_eq!(seen.check(&P, &T2), (0, 0, 0));
    for x in 194..=226 {
        assert_eq!(idle(&mut seen, &T2, x), idle(&mut seen, &T1, x), "{x}");
    }
}

/// 6 at the length, after its child and before the next one; the checker knows no end of the file.
#[test]
fn the_checker_compares_lengths() {
    let mut seen = Seen::default();
    for length in [0, 1, 3, 4].into_iter().chain(PAST) {
        assert_eq!(seen.check(&P, &by_length(U(length))), (6, 3, 0), "{length}");
    }
    for field in broken(&U(2)).into_iter().chain([1 << 35, (1 << 35) + 2, u64::MAX].map(U)) {
        assert_eq!(seen.check(&P, &by_length(field.clone())), (1, 3, 0), "{field:?}");
    }
    for (table, wanted) in [
        (&[2, 1, 0][..], (1, 3, 0)),
        (&[2, 1, 0, 99], (1, 4, 0)),
        (&[2, 1, 0, 99, 1], (1, 5, 0)),
        // of the child: a mode that is none, an image out of S, a last one out of R
        (&[2, 1, 0, 99, 1, 2, 1, 0], (6, 5, 0)),
        (&[2, 1, 0, 99, 1, 0, 1, 0], (7, 4, 1)),
        (&[2, 1, 0, 99, 2, 1, 0, 1, 0], (8, 4, 2)),
        // a split too deep, before its own lengths
        (&[2, 1, 0, 99, 0, 0x80, 0], (6, 4, 0)),
        (&[2, 1, 0, 3, 1, 1, 9], (6, 3, 0)),
        (&[2, 1, 0, 2, 1, 1, 9], (6, 6, 0)),
        (&[2, 1, 0, 2, 1, 1], (1, 6, 0)),
        (&[2, 1, 0, 2, 1, 1, 1, 0, 0], (6, 8, 0)),
    ] {
        assert_eq!(seen.check(&P, table), wanted, "{table:?}");
    }
}

/// To the upper half the call goes by the length, to the lower it does not; either way it is held against the file's end alone.
#[test]
fn a_call_goes_by_the_lengths() {
    let mut seen = Seen::default();
    // 0 has both halves at place 4; 1 takes mode 1 for a tile, of mode 1; 3 takes mode 0 for a split; 4 ends just where the file does
    let upper = [(1, [0; 5]), (1, [0; 5]), (0, [0; 5]), refused(6, 7), refused(1, 8)];
    for (length, wanted) in (0..).zip(upper) {
        assert_eq!(idle(&mut seen, &by_length(U(length)), 225), wanted, "{length}");
        assert_eq!(idle(&mut seen, &by_length(U(length)), 195), (1, [0; 5]), "{length}");
    }
    for x in [195, 225] {
        for length in PAST {
            assert_eq!(idle(&mut seen, &by_length(U(length)), x), refused(6, 3), "{length}");
        }
        for field in broken(&U(2)).into_iter().chain([1 << 35, (1 << 35) + 2, u64::MAX].map(U)) {
            assert_eq!(idle(&mut seen, &by_length(field.clone()), x), refused(1, 3), "{field:?}");
        }
    }
    // 11 comes before any length
    assert_eq!(idle(&mut seen, &by_length(U(99)), 226), refused(11, 0));
}

/// Cut behind the lower tile, which is whole; inside it, the length passes the end.
#[test]
fn cuts_behind_the_tile() {
    let mut seen = Seen::default();
    let lower = [(2, refused(1, 2)), (3, refused(1, 3)), (4, refused(6, 3)), (5, refused(6, 3)), (6, (1, [0; 5])), (7, (1, [0; 5]))];
    for (cut, wanted) in lower {
        assert_eq!(idle(&mut seen, &T2[..cut], 195), wanted, "{cut}");
    }
    for (cut, wanted) in [(5, refused(6, 3)), (6, refused(1, 6)), (7, refused(1, 7)), (8, (0, [0; 5]))] {
        assert_eq!(idle(&mut seen, &T2[..cut], 225), wanted, "{cut}");
    }
}

/// A running call looks at no length, be it right, wrong, past the file or broken.
#[test]
fn running_calls_look_at_no_length() {
    let (mut seen, plant) = (Seen::default(), p_prime());
    for length in [0, 3, 99, 0x80] {
        let table = [2, 1, 0, length, 2, 0, 1, 2, 0, 1];
        let mut at = |place, left| seen.control(&plant, &table, place, left, [200; 4]);
        assert_eq!(at(5, 2), (0, [0, 0, 0, 6, 1]));
        assert_eq!(at(6, 1), (1, [0; 5]));
        assert_eq!(at(8, 2), (0, [0, 0, 0, 9, 1]));
        assert_eq!(at(9, 1), (1, [0; 5]));
        assert_eq!(at(9, 2), refused(12, 0));
        assert_eq!(at(10, 1), refused(12, 0));
        // what stands at the length's place is read as a mode
        assert_eq!(at(3, 1), if length == 0 { (0, [0; 5]) } else { refused(12, 0) });
    }
}

/// Rooms of so many counts from 0 on, which S has too, every mode leading to 0 in all of them: every tile works.
fn rooms(n: usize, counts: i64, d: u64, modes: u64) -> Vec<u8> {
    let mut fields = [1, n as u64, modes, 1, 2, d].map(U).to_vec();
    fields.extend([0, counts - 1].repeat(2 * n).into_iter().map(S));
    fields.extend(vec![S(0); 2 * n + modes as usize * n * (n + 1)]);
    file(&fields)
}

/// A table of four rooms with fifteen lengths, tile k with mode k.
fn sixteen(lengths: &[u64]) -> Vec<u8> {
    let tiles = (0..16).flat_map(|mode| [1, mode]).collect();
    let lengths = lengths.iter().map(|length| U(*length));
    file(&[U(2), U(4), U(0)].into_iter().chain(lengths).chain([Raw(tiles)]).collect::<Vec<_>>())
}

/// The reading that child k of four rooms of two counts is.
fn child(k: usize) -> [i64; 4] {
    std::array::from_fn(|i| (k >> i & 1) as i64)
}

/// Fifteen lengths, whose sum may be far over 2^35 and over 2^32 where each is less.
#[test]
fn sums_of_fifteen_lengths() {
    let (mut seen, plant) = (Seen::default(), rooms(4, 2, 1, 16));
    let sound = sixteen(&[2; 15]);
    assert_eq!(seen.check(&plant, &sound), (0, 0, 0));
    for k in 0..16 {
        assert_eq!(seen.control(&plant, &sound, 0, 0, child(k)), (k as u64, [0; 5]));
    }
    for large in [(1 << 35) - 1, 1 << 34, 1 << 32, (1 << 32) / 15 + 1, (1 << 31) + 2] {
        for first in 0..15 {
            let mut lengths = [2; 15];
            lengths[first..].fill(large);
            let (place, table) = (3 + first as u64, sixteen(&lengths));
            assert_eq!(seen.check(&plant, &table), (6, place, 0));
            for k in [0, first, 15] {
                assert_eq!(seen.control(&plant, &table, 0, 0, child(k)), refused(6, place), "{large} from {first} on");
            }
        }
    }
    // one wrong among right ones: the checker tells it, and so does a call, whichever child it goes to, once an end is past the file
    for wrong in 0..15 {
        let mut lengths = [2; 15];
        lengths[wrong] = 5;
        let table = sixteen(&lengths);
        assert_eq!(seen.check(&plant, &table), (6, 3 + wrong as u64, 0));
        assert_eq!(seen.control(&plant, &table, 0, 0, child(0)), refused(6, 17));
    }
    // the last end, that of child 14, at the file's end and one past it
    let at_the_end = sixteen(&[&[2; 14][..], &[4]].concat());
    assert_eq!(seen.control(&plant, &at_the_end, 0, 0, child(14)), (14, [0; 5]));
    assert_eq!(seen.control(&plant, &at_the_end, 0, 0, child(15)), refused(1, 50));
    assert_eq!(seen.control(&plant, &sixteen(&[&[2; 14][..], &[5]].concat()), 0, 0, child(14)), refused(6, 17));
    // all of one child: the others are found at the file's end, and none at all leads each to the first tile
    assert_eq!(seen.control(&plant, &sixteen(&[&[32][..], &[0; 14]].concat()), 0, 0, child(9)), refused(1, 50));
    assert_eq!(seen.control(&plant, &sixteen(&[0; 15]), 0, 0, child(9)), (0, [0; 5]));
}

/// All lengths of a split are read before any is held against the end, and all are held against it before a child is read.
#[test]
fn all_lengths_of_a_split() {
    let (mut seen, plant) = (Seen::default(), rooms(2, 16, 2, 9));
    let tiles = Raw(vec![1, 0, 1, 1, 1, 2, 1, 3]);
    for broken in broken(&U(2)) {
        for lengths in [[U(99), broken.clone(), U(2)], [U(0), broken.clone(), U(99)], [U(2), broken.clone(), broken.clone()]] {
            let table = file(&[&[U(2), U(2), U(0)], &lengths[..], &[tiles.clone()]].concat());
            assert_eq!(seen.check(&plant, &table), (1, 4, 0));
            assert_eq!(seen.control(&plant, &table, 0, 0, [0; 4]), refused(1, 4));
        }
    }
    let cumulative = [([2, 2, 4], 0), ([2, 2, 5], 5), ([2, 6, 0], 0), ([2, 7, 0], 4), ([8, 0, 0], 0), ([9, 0, 0], 3), ([8, 0, 1], 5), ([8, 1, 9], 4)];
    for (lengths, wanted) in cumulative {
        let table = file(&[&[U(2), U(2), U(0)], &lengths.map(U)[..], &[tiles.clone()]].concat());
        let answer = if wanted == 0 { (0, [0; 5]) } else { refused(6, wanted) };
        assert_eq!(seen.control(&plant, &table, 0, 0, [0; 4]), answer, "{lengths:?}");
        // the first child is no tile
        let table = file(&[&[U(2), U(2), U(0)], &lengths.map(U)[..], &[Raw(vec![9; 8])]].concat());
        assert_eq!(seen.control(&plant, &table, 0, 0, [0; 4]), refused(6, if wanted == 0 { 6 } else { wanted }), "{lengths:?}");
    }
}

/// The parent's end counts for nothing, and a split that is passed is not looked at.
#[test]
fn ends_are_the_files() {
    let (mut seen, plant) = (Seen::default(), rooms(2, 16, 2, 9));
    let table = |last| [&[2, 2, 0, 12, 2, 2, 0, 2, 2, last][..], &[1, 0, 1, 1, 1, 2, 1, 3], &[1, 4, 1, 5, 1, 6]].concat();
    assert_eq!(seen.check(&plant, &table(2)), (0, 0, 0));
    let (first, last_of_first, second) = ([0; 4], [4, 4, 0, 0], [8, 0, 0, 0]);
    for (length, wanted) in [(2, (3, [0; 5])), (6, (5, [0; 5])), (10, refused(1, 24)), (11, refused(6, 9))] {
        assert_eq!(seen.control(&plant, &table(length), 0, 0, last_of_first), wanted, "{length}");
        assert_eq!(seen.control(&plant, &table(length), 0, 0, first), if length < 11 { (0, [0; 5]) } else { wanted });
        assert_eq!(seen.control(&plant, &table(length), 0, 0, second), (4, [0; 5]));
        assert_eq!(seen.check(&plant, &table(length)), if length == 2 { (0, 0, 0) } else { (6, 9, 0) });
    }
}

/// D splits and no more, as in form 1, and as many lengths as children but one.
#[test]
fn the_depth_bound() {
    let mut seen = Seen::default();
    for (n, d) in (1..=4_usize).flat_map(|n| (0..=6.min(12 / n as u64)).map(move |d| (n, d))) {
        let (plant, others) = (rooms(n, 128, d, 1), (1 << n) - 1);
        let (mut tree, mut lowest) = (vec![1, 0], 0);
        for splits in 0..=d {
            let table = [&[2, n as u8], &tree[..]].concat();
            assert_eq!(seen.check(&plant, &table), (0, 0, 0), "{n} rooms, {splits} splits");
            assert_eq!(seen.control(&plant, &table, 0, 0, [0; 4]), (0, [0; 5]));
            let head = [vec![0], groups(tree.len() as u128), vec![2; others - 1]].concat();
            lowest = if splits == 0 { 0 } else { lowest + head.len() as u64 };
            tree = [head, tree, [1, 0].repeat(others)].concat();
        }
        let deeper = [&[2, n as u8], &tree[..]].concat();
        assert_eq!(seen.check(&plant, &deeper), (6, 2 + lowest, 0), "{n} rooms, D {d}");
        assert_eq!(seen.control(&plant, &deeper, 0, 0, [0; 4]), refused(6, 2 + lowest));
        // where the first split is not the one too deep, it is passed
        assert_eq!(seen.control(&plant, &deeper, 0, 0, [127; 4]), if d == 0 { refused(6, 2) } else { (0, [0; 5]) });
    }
}

/// A reading in R.
fn in_r(random: &mut Random, plant: &Plant) -> [i64; 4] {
    let e = &plant.edges;
    std::array::from_fn(|i| if i < plant.rooms() { random.within(e.r_lo[i], e.r_hi[i]) } else { i64::MIN })
}

/// Seeded plants with a table of form 2 that splits, the made one or another.
fn split_tables(random: &mut Random, wanted: usize) -> Vec<(Vec<u8>, Plant, Vec<u8>)> {
    let mut all = Vec::new();
    while all.len() < wanted {
        let bytes = file(&plant_fields(random));
        let plant = read_plant(&bytes).expect("a sound plant");
        let tables = [made_table(&bytes, 2), other_table(random, &plant, 2)].into_iter().flatten();
        all.extend(tables.filter(|table| table[2] == 0).map(|table| (bytes.clone(), plant.clone(), table)));
    }
    all
}

/// With every other byte of the file made another, the answer stays.
#[test]
fn a_call_reads_only_its_way() {
    let (mut random, mut seen, mut spared) = (random(50), Seen::default(), 0);
    for (bytes, plant, table) in split_tables(&mut random, rounds(400)) {
        for _ in 0..10 {
            let x = in_r(&mut random, &plant);
            let mut other: Vec<u8> = table.iter().map(|byte| byte ^ random.within(1, 255) as u8).collect();
            for (from, to) in read_by_a_call(&plant, &table, &x) {
                other[from..to].copy_from_slice(&table[from..to]);
            }
            let answer = seen.control(&bytes, &table, 0, 0, x);
            assert_eq!(seen.control(&bytes, &other, 0, 0, x), answer, "{bytes:?} {table:?} {other:?} {x:?}");
            spared += other.iter().zip(&table).filter(|(other, byte)| other != byte).count();
        }
    }
    each_came("control", &seen.control, &[0], 1_000);
    assert!(spared > 20_000, "{spared}");
}

/// Mode and left are those of the same tree in form 1, from the idle call to the pattern's end.
#[test]
fn the_same_tree_in_form_1() {
    let (mut random, mut seen, mut running) = (random(51), Seen::default(), 0);
    for (bytes, plant, two) in split_tables(&mut random, rounds(400)) {
        let one = relaid_table(&bytes, &two, 1).expect("an accepted table");
        assert_eq!((seen.check(&bytes, &one), seen.check(&bytes, &two)), ((0, 0, 0), (0, 0, 0)));
        for _ in 0..10 {
            let x = in_r(&mut random, &plant);
            let mut states = [[0, 0]; 2];
            loop {
                let (mode, by_one) = seen.control(&bytes, &one, states[0][0], states[0][1], x);
                let (same, by_two) = seen.control(&bytes, &two, states[1][0], states[1][1], x);
                assert_eq!((mode, by_one[..3].to_vec(), by_one[4]), (same, vec![0; 3], by_two[4]), "{bytes:?} {two:?} {x:?}");
                states = [[by_one[3], by_one[4]], [by_two[3], by_two[4]]];
                if by_one[4] == 0 {
                    break;
                }
                running += 1;
            }
        }
    }
    assert!(running > 500, "{running}");
}

/// Lengths of the first split made wrong in every way: the checker's answer is known, the running call's stays, and the idle call is compared.
#[test]
fn wrong_lengths_of_seeded_tables() {
    let (mut random, mut seen, mut running) = (random(52), Seen::default(), 0);
    for (bytes, plant, table) in split_tables(&mut random, rounds(300)) {
        let x = in_r(&mut random, &plant);
        let (_, out) = seen.control(&bytes, &table, 0, 0, x);
        for (other, wanted) in wrong_lengths(&plant, &plant.r(), &table) {
            assert_eq!(seen.check(&bytes, &other), wanted, "{bytes:?} {other:?}");
            seen.control(&bytes, &other, 0, 0, x);
            seen.control(&bytes, &other, 0, 0, any_reading(&mut random, &plant));
            if out[4] > 0 {
                // the tiles stand as many bytes further on as the length takes more
                let moved = out[3] + other.len() as u64 - table.len() as u64;
                let (mode, next) = seen.control(&bytes, &table, out[3], out[4], x);
                let (same, then) = seen.control(&bytes, &other, moved, out[4], x);
                assert_eq!((mode, next[4]), (same, then[4]), "{bytes:?} {other:?}");
                running += 1;
            }
        }
    }
    each_came("check", &seen.check, &[1, 6], 1_000);
    each_came("control", &seen.control, &[0, 1, 6, 11], 100);
    assert!(running > 500, "{running}");
}

// ---- start files

/// P and R1 190..230, with tables of these bytes; table 0's first is at 7.
fn start_of(tables: [&[u8]; 2]) -> Vec<u8> {
    file(&start_fields(&chain_fields(&[[(190, 230)]]), &tables))
}

/// Of form 2, and of several forms in one file: the answers are those of form 1.
#[test]
fn start_files_of_form_2() {
    let mut seen = Seen::default();
    let (chain, halved) = (file(&chain_fields(&[[(190, 230)]])), [3, 1, 0, 1, 1, 1, 0]);
    let made = start_of([&T2, &T2]);
    assert_eq!(second::start::start_make(&P, &chain, 2).as_ref(), Ok(&made));
    for length in 0..made.len() + 2 {
        assert_eq!(seen.start_make(&P, &chain, 2, length), if length < made.len() { (10, 0, 0) } else { (0, made.len() as u64, 0) });
    }
    let plain = start_of([&T1, &T1]);
    for tables in [[&T2[..], &T2], [&T1, &T2], [&T2, &T1], [&T2, &halved], [&halved, &T2]] {
        let start = start_of(tables);
        assert_eq!(seen.start_check(&P, &start), (0, 0, 0));
        for x in 189..=231 {
            let answer = seen.start_control(&P, &plain, [0; 3], [x, 0, 0, 0]);
            assert_eq!(seen.start_control(&P, &start, [0; 3], [x, 0, 0, 0]), answer, "{tables:?} {x}");
        }
    }
}

/// In a start file the table ends where its byte length says, whatever stands behind it.
#[test]
fn past_the_tables_own_end() {
    let mut seen = Seen::default();
    let first = |length: u8| start_of([&[2, 1, 0, length, 1, 1, 1, 0], &T2]);
    let told = |number, place| (NO_MODE, [number, place, 0, 0, 0, 0]);
    let first_mode = |mode| (mode, [0; 6]);
    for (length, upper) in [
        (0, first_mode(1)),
        (1, first_mode(1)),
        (2, first_mode(0)),
        (3, told(6, 14)),
        (4, told(1, 15)),
        (5, told(6, 10)),
        (99, told(6, 10)),
    ] {
        let start = first(length);
        assert_eq!(seen.start_check(&P, &start), if length == 2 { (0, 0, 0) } else { (6, 10, 0) });
        assert_eq!(seen.start_control(&P, &start, [0; 3], [225, 0, 0, 0]), upper, "{length}");
        assert_eq!(seen.start_control(&P, &start, [0; 3], [200, 0, 0, 0]), if length < 5 { first_mode(1) } else { upper });
        // table 1 answers in R1, and of a running call no length is asked
        assert_eq!(seen.start_control(&P, &start, [0; 3], [190, 0, 0, 0]), first_mode(1));
        assert_eq!(seen.start_control(&P, &start, [0, 7, 1], [190, 0, 0, 0]), first_mode(0));
    }
}

/// At every index, its place moved.
#[test]
fn wrong_lengths_at_every_index() {
    let mut seen = Seen::default();
    let chain = chain_fields(&[[(195, 225)]; MOST_BOXES]);
    let differ = [1, 3, 0, 4, 5, (1 << 32) + 2].map(|length| (U(length), 6));
    let wrong: Vec<(Field, u64)> = differ.into_iter().chain(broken(&U(2)).map(|field| (field, 1))).collect();
    for index in 0..=MOST_BOXES {
        for (field, number) in &wrong {
            let (mut tables, wrong) = (vec![&T2[..]; MOST_BOXES + 1], by_length(field.clone()));
            tables[index] = &wrong;
            let fields = start_fields(&chain, &tables);
            let (start, places) = encode(&fields);
            let place = places[chain.len() + 2 * index + 1] + 3;
            assert_eq!(seen.start_check(&P, &start), (*number, place, 0));
            // R itself is the smallest box that holds a reading, so that table 0 answers
            let (mode, out) = seen.start_control(&P, &start, [0; 3], [225, 0, 0, 0]);
            assert!(index == 0 || (mode, out) == (0, [0; 6]), "{out:?}");
        }
    }
}
