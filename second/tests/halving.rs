//! Request 2026-06, table form 3: the longest side halved, its ties, its depth
//! bound, plants that it suits and does not suit, the form that a maker is told,
//! start files of one form and of several, the largest files. What all forms have
//! in common with the slow ways stands beside these: tests/slow_agrees.rs, and
//! tests/slow_starts.rs for start files.

mod common;
mod slow;
use common::*;
use second::boxes::Box;
use second::checker::check;
use second::control::{control, State};
use second::listing::listing;
use second::maker::make;
use second::plant::read_plant;
use second::refusal::Refusal;
use second::start::{start_check, start_control, start_make, start_make_into, StartState};
use second::start_listing::start_listing;
use second::{LARGEST_TABLE, MOST_BOXES};
use slow::*;

/// Numbers that are no form of a table, some of them one in their last byte or
/// four; a table can show those below 2^35.
const NO_FORM: [u64; 15] =
    [0, 4, 5, 127, 129, 130, 257, 258, 259, (1 << 32) + 1, (1 << 32) + 3, (1 << 35) - 1, 1 << 35, (1 << 35) + 3, u64::MAX];

fn made(plant: &[u8], form: u64) -> Vec<u8> {
    let mut table = marked(LARGEST_TABLE);
    let length = make(plant, form, &mut table).expect("a table");
    table.truncate(length);
    table
}

/// A plant with R as given, q 1, K 1 and no disturbance; each mode's rows.
fn rooms_in(r: &[(i64, i64)], s: &[(i64, i64)], d: u64, modes: &[Vec<i64>]) -> Vec<u8> {
    let mut fields = vec![U(1), U(r.len() as u64), U(modes.len() as u64), U(1), U(1), U(d)];
    fields.extend(r.iter().zip(s).flat_map(|(r, s)| [r.0, r.1, s.0, s.1].map(S)));
    fields.extend(vec![S(0); 2 * r.len()]);
    fields.extend(modes.iter().flatten().map(|number| S(*number)));
    file(&fields)
}

/// The same with S no larger than R.
fn rooms(r: &[(i64, i64)], d: u64, modes: &[Vec<i64>]) -> Vec<u8> {
    rooms_in(r, r, d, modes)
}

/// Rows by which every room stays as it is: a tile of any box works.
fn still(n: usize) -> Vec<i64> {
    (0..n).flat_map(|i| (0..=n).map(move |j| i64::from(i == j))).collect()
}

/// An idle call on a reading of R; numbers beyond n are far off.
fn idle(plant: &[u8], table: &[u8], reading: &[i64]) -> Told {
    told(idle_answer(plant, table, reading))
}

fn idle_answer(plant: &[u8], table: &[u8], reading: &[i64]) -> Result<(u8, State), Refusal> {
    let mut x = [i64::MIN; 4];
    x[..reading.len()].copy_from_slice(reading);
    control(plant, table, State::IDLE, x)
}

// ---- the split

fn boxed(sides: &[(i64, i64)]) -> Box {
    let (lo, hi): (Vec<i64>, Vec<i64>) = sides.iter().copied().unzip();
    Box::new(&lo, &hi)
}

/// That a box is halved in this dimension, at this count: lower half first.
fn halved(sides: &[(i64, i64)], dimension: usize, middle: i64) {
    let mut halves = [sides.to_vec(), sides.to_vec()];
    halves[0][dimension].1 = middle;
    halves[1][dimension].0 = middle + 1;
    let children: Vec<Box> = boxed(sides).halve().expect("halves").collect();
    assert_eq!(children, halves.map(|half| boxed(&half)), "{sides:?}");
}

#[test]
fn of_equal_sides_the_lowest_dimension() {
    halved(&[(0, 9), (10, 19)], 0, 4);
    halved(&[(0, 8), (10, 19), (0, 9)], 1, 14);
    halved(&[(0, 9), (10, 18), (0, 9)], 0, 4);
    halved(&[(0, 9), (0, 9), (0, 9)], 0, 4);
    halved(&[(5, 5), (-3, 2), (0, 5), (7, 12)], 1, -1);
    halved(&[(0, 1), (0, 2), (0, 3), (0, 3)], 2, 1);
    // Any of the sides the longest, the others one count shorter.
    for n in 2..=4 {
        for longest in 1..1_usize << n {
            let side = |i: usize| (7 * i as i64, 7 * i as i64 + if longest >> i & 1 == 1 { 11 } else { 10 });
            let lowest = longest.trailing_zeros() as usize;
            halved(&(0..n).map(side).collect::<Vec<_>>(), lowest, 7 * lowest as i64 + 5);
        }
    }
}

/// By hi - lo: neither the higher nor the lower edge counts, nor how far off zero.
#[test]
fn the_longest_side_by_counts() {
    halved(&[(900, 901), (0, 9)], 1, 4);
    halved(&[(-9, 0), (100, 103)], 0, -5);
    halved(&[(-1000, -998), (-9, -1)], 1, -5);
    halved(&[(-1000, -991), (-4, -1)], 0, -996);
    halved(&[(-3, 3), (-5, 0), (-10, -5)], 0, 0);
    halved(&[(-3, 2), (0, 6), (-20, -15)], 1, 3);
    halved(&[(0, 1_000_000), (-1_000_000, 1_000_000)], 1, 0);
    halved(&[(-1_000_000, 0), (1, 1_000_000), (-500_000, 499_999)], 0, -500_000);
    // The midpoint rule stays: the floor of half the sum.
    halved(&[(-4, -1)], 0, -3);
    halved(&[(7, 7), (7, 8)], 1, 7);
    halved(&[(-8, -7), (0, 0)], 0, -8);
}

#[test]
fn one_reading_has_no_halves() {
    assert!(boxed(&[(7, 7)]).halve().is_none());
    assert!(boxed(&[(-1, -1), (0, 0), (5, 5), (9, 9)]).halve().is_none());
}

#[test]
fn halves_agree_cover_and_are_apart() {
    let mut random = Random(41);
    for _ in 0..3_000 {
        let n = random.within(1, 4) as usize;
        let lo: Vec<i64> = (0..n).map(|_| random.within(-9, 9)).collect();
        let hi: Vec<i64> = lo.iter().map(|lo| lo + random.within(0, 4)).collect();
        let here = wide(&lo, &hi, n);
        let Some(children) = Box::new(&lo, &hi).halve() else {
            assert_eq!(slow_halves(&here), [here]);
            continue;
        };
        let children: Vec<Box> = children.collect();
        let edges = |of: &Box| -> Wide { of.sides().iter().map(|side| (side.lo as i128, side.hi as i128)).unzip() };
        assert_eq!(children.iter().map(edges).collect::<Vec<_>>(), slow_halves(&here));
        for point in points(&here) {
            let mut reading = [0; 4];
            reading.iter_mut().zip(&point).for_each(|(slot, x)| *slot = *x as i64);
            assert_eq!(children.iter().filter(|child| child.contains(&reading)).count(), 1);
        }
    }
}

// ---- P, and plants of two rooms

/// One room has one side to split: the tree is form 1's.
#[test]
fn p_in_form_3() {
    let table = [3, 1, 0, 1, 1, 1, 0];
    assert_eq!(made(&P, 3), table);
    assert_eq!(check(&P, &table), Ok(()));
    assert_eq!(listing(&P, 3), listing(&P, 1));
    for x in 194..=226 {
        assert_eq!(control(&P, &table, State::IDLE, [x; 4]), control(&P, &T1, State::IDLE, [x; 4]));
    }
    assert_eq!(told(make(&P, 3, &mut marked(6))), (10, 0, 0));
    assert_eq!(told(make(&file(&with(&p_fields(), 5, U(0))), 3, &mut marked(6))), (9, 0, 0));
    // Line 9 in form 3, the running call too.
    let table = [3, 1, 2, 0, 1];
    let running = State { place: 4, left: 1 };
    assert_eq!(made(&p_prime(), 3), table);
    assert_eq!(control(&p_prime(), &table, State::IDLE, [200; 4]), Ok((0, running)));
    assert_eq!(control(&p_prime(), &table, running, [186; 4]), Ok((1, State::IDLE)));
}

/// "Plant form and table form are independent."
#[test]
fn a_plant_of_form_2_has_tables_of_both_forms() {
    let two = file(&in_form_2(&p_fields()));
    assert_eq!((made(&two, 1), made(&two, 3)), (made(&P, 1), made(&P, 3)));
    assert_eq!((check(&two, &made(&P, 1)), check(&two, &made(&P, 3))), (Ok(()), Ok(())));
    assert_eq!(control(&two, &[3, 1, 0, 1, 1, 1, 0], State::IDLE, [200; 4]), Ok((1, State::IDLE)));
}

/// Room 2 has to be split, and is never the longest: mode 0 keeps 0 at 0 and
/// drives 1 to 2, mode 1 keeps 1 at 1 and drives 0 to -1.
#[test]
fn a_plant_with_a_table_of_form_1_and_none_of_form_3() {
    let modes = [vec![0, 0, 5, 0, 2, 0], vec![0, 0, 5, 0, 2, -1]];
    let plant = |d| rooms(&[(0, 15), (0, 1)], d, &modes);
    assert_eq!(made(&plant(1), 1), [1, 2, 0, 1, 0, 1, 0, 1, 1, 1, 1]);
    assert_eq!(told(make(&plant(1), 3, &mut marked(99))), (9, 0, 0));
    assert_eq!(listing(&plant(1), 3), "refused 9 0\n");
    // With D 2 there are four halvings: 16 by 2 is 8, 4, 2 by 2, and then the tie goes to room 1.
    assert_eq!(told(make(&plant(2), 3, &mut marked(99))), (9, 0, 0));
    assert_eq!(check(&plant(3), &made(&plant(3), 3)), Ok(()));
}

/// Rows by which mode k takes the k-th quarter of room 1, 64 counts long, over all
/// of R, and any more of it out of S. Room 2 stays.
fn quarters() -> Vec<Vec<i64>> {
    (0..4).map(|k| vec![4, 0, -64 * k, 0, 1, 0]).collect()
}

/// The other way round: with D 1, room 1 must be halved twice.
#[test]
fn a_plant_with_a_table_of_form_3_and_none_of_form_1() {
    let plant = rooms(&[(0, 63), (0, 3)], 1, &quarters());
    assert_eq!(made(&plant, 3), [3, 2, 0, 0, 1, 0, 1, 1, 0, 1, 2, 1, 3]);
    assert_eq!(told(make(&plant, 1, &mut marked(99))), (9, 0, 0));
    assert_eq!(listing(&plant, 1), "refused 9 0\n");
}

/// A long narrow room: sixteen tiles where four would do.
#[test]
fn a_long_narrow_room() {
    let plant = rooms(&[(0, 63), (0, 3)], 2, &quarters());
    assert_eq!(made(&plant, 3), [3, 2, 0, 0, 1, 0, 1, 1, 0, 1, 2, 1, 3]);
    let lines = "table 2 4 1\n0 15 0 3 : 0\n16 31 0 3 : 1\n32 47 0 3 : 2\n48 63 0 3 : 3\n";
    assert_eq!(listing(&plant, 3), lines);
    assert_eq!(listing(&plant, 1).lines().next(), Some("table 2 16 1"));
}

// ---- the checker and the call

/// A table that goes on splitting the first child, so many times.
fn chain_of_splits(form: u8, n: usize, splits: usize) -> Vec<u8> {
    let children = if form == 3 { 2 } else { 1 << n };
    let tiles = [1, 0].repeat(1 + splits * (children - 1));
    [vec![form, n as u8], vec![0; splits], tiles].concat()
}

/// "Its depth bound is n*D": so many halvings and no more. Form 1 keeps D.
#[test]
fn the_depth_bound() {
    for n in 1..=4 {
        for d in 0..=(12 / n).min(6) {
            // 128 counts a room, so that there is always a side to split.
            let plant = rooms(&vec![(-64, 63); n], d as u64, &[still(n)]);
            for (form, bound) in [(1, d), (3, n * d)] {
                let deepest = chain_of_splits(form, n, bound);
                assert_eq!(check(&plant, &deepest), Ok(()));
                let deeper = chain_of_splits(form, n, bound + 1);
                let wanted = (6, 2 + bound as u64, 0);
                assert_eq!(told(check(&plant, &deeper)), wanted, "{n} {d}");
                for corner in [vec![-64; n], vec![63; n]] {
                    assert_eq!(idle_answer(&plant, &deepest, &corner), Ok((0, State::IDLE)));
                    assert_eq!(idle(&plant, &deeper, &corner), wanted);
                }
            }
        }
    }
}

/// The maker's bound: R is halved n*D times, and the last halves still fail with
/// one D less. Mode k takes the k-th eighth of room 1 over all of R.
#[test]
fn the_depth_bound_of_the_maker() {
    let eighths: Vec<Vec<i64>> = (0..8).map(|k| vec![8, 0, 0, -64 * k, 0, 1, 0, 0, 0, 0, 1, 0]).collect();
    let plant = |d| rooms(&[(0, 63), (0, 3), (5, 5)], d, &eighths);
    assert_eq!(made(&plant(1), 3), [3, 3, 0, 0, 0, 1, 0, 1, 1, 0, 1, 2, 1, 3, 0, 0, 1, 4, 1, 5, 0, 1, 6, 1, 7]);
    assert_eq!(told(make(&plant(0), 3, &mut marked(99))), (9, 0, 0));
    let sixteenths: Vec<Vec<i64>> = (0..16).map(|k| vec![16, 0, 0, -64 * k, 0, 1, 0, 0, 0, 0, 1, 0]).collect();
    let finer = |d| rooms(&[(0, 63), (0, 3), (5, 5)], d, &sixteenths);
    assert_eq!(told(make(&finer(1), 3, &mut marked(99))), (9, 0, 0));
    assert_eq!(made(&finer(2), 3).len(), 2 + 15 + 2 * 16);
}

/// A box of one reading, with depth left: 6 at the split, 9 of the maker.
#[test]
fn a_box_of_one_reading_cannot_split() {
    let one = file(&with(&p_fields(), 7, S(195)));
    let table = [3, 1, 0, 1, 1, 1, 1];
    assert_eq!((told(check(&one, &table)), idle(&one, &table, &[195])), ((6, 2, 0), (6, 2, 0)));
    // 7..7 by 7..8 is halved in room 2, and then no more.
    let pair = rooms(&[(7, 7), (7, 8)], 2, &[still(2)]);
    assert_eq!(check(&pair, &[3, 2, 0, 1, 0, 1, 0]), Ok(()));
    for (table, place) in [(&[3, 2, 0, 0, 1, 0, 1, 0, 1, 0][..], 3), (&[3, 2, 0, 1, 0, 0, 1, 0, 1, 0], 5)] {
        assert_eq!(told(check(&pair, table)), (6, place, 0));
        assert_eq!(idle(&pair, table, &[7, 8]), (6, place, 0));
    }
    // The second of the tables above is wrong behind the first reading's tile only.
    assert_eq!(idle(&pair, &[3, 2, 0, 1, 0, 0, 1, 0, 1, 0], &[7, 7]), (0, 0, 0));
    let away = rooms(&[(7, 7), (7, 8)], 6, &[vec![1, 0, 1, 0, 1, 0]]);
    assert_eq!(told(make(&away, 3, &mut marked(99))), (9, 0, 0));
}

/// Children in order, lower half first: each reading's tile has its own mode.
#[test]
fn the_call_finds_its_half() {
    let plant = rooms(&[(0, 7), (0, 3)], 2, &vec![still(2); 5]);
    // 0..7 by 0..3: 0..3 is halved again, by the tie in room 1; 4..7 is whole.
    let table = [3, 2, 0, 0, 1, 0, 0, 1, 1, 1, 2, 1, 3];
    assert_eq!(told(check(&plant, &table)), (0, 0, 0));
    for x in 0..8 {
        for y in 0..4 {
            let wanted = match (x, y) {
                (0..=1, _) => 0,
                (2..=3, 0..=1) => 1,
                (2..=3, _) => 2,
                _ => 3,
            };
            assert_eq!(idle_answer(&plant, &table, &[x, y]), Ok((wanted, State::IDLE)), "{x} {y}");
        }
    }
    // What is passed is read, what stands behind the tile is not.
    assert_eq!(idle_answer(&plant, &table[..6], &[1, 3]), Ok((0, State::IDLE)));
    assert_eq!(idle(&plant, &table[..6], &[2, 0]), (1, 6, 0));
    let mut passed = table;
    passed[5] = 5;
    assert_eq!(idle(&plant, &passed, &[7, 3]), (6, 5, 0));
}

/// The same in three rooms and in four: the tie, and then the next of the equal
/// ones, by the call that reads a mode for each eighth or sixteenth.
#[test]
fn ties_in_three_and_four_rooms() {
    for n in [3, 4] {
        let tiles = 1 << n;
        let plant = rooms(&vec![(-2, 1); n], 1, &vec![still(n); tiles]);
        // Every box is split until each room has been halved once, room 1 first: a full tree.
        let splits = |mode: usize| if mode == 0 { n } else { mode.trailing_zeros() as usize };
        let tree = (0..tiles).flat_map(|mode| [vec![0; splits(mode)], vec![1, mode as u8]].concat());
        let table: Vec<u8> = [3, n as u8].into_iter().chain(tree).collect();
        assert_eq!(check(&plant, &table), Ok(()));
        for mode in 0..tiles {
            // Room 1 was halved first, so that it is the highest bit of the tile's number.
            let corner: Vec<i64> = (0..n).map(|i| if mode >> (n - 1 - i) & 1 == 1 { 0 } else { -1 }).collect();
            assert_eq!(idle_answer(&plant, &table, &corner), Ok((mode as u8, State::IDLE)), "{corner:?}");
        }
    }
}

// ---- the form that is told

#[test]
fn forms_that_are_not_known() {
    let plant = file(&two_rooms());
    let chain = file(&chain_fields::<[_; 2]>(&[]));
    for form in NO_FORM {
        for length in [0, 9, 99] {
            let mut buffer = marked(length);
            assert_eq!(told(make(&plant, form, &mut buffer)), (2, 0, 0));
            assert_eq!(buffer, vec![0; length]);
            let mut buffer = marked(length);
            assert_eq!(told(start_make_into(&plant, &chain, form, &mut buffer)), (2, 0, 0));
            assert_eq!(buffer, vec![0; length]);
        }
        assert_eq!(told(start_make(&plant, &chain, form)), (2, 0, 0));
        assert_eq!(listing(&plant, form), "refused 2 0\n");
    }
}

/// "2 means" none of the forms: the header's number, before n, 12, 11 and the tree.
#[test]
fn tables_of_no_form() {
    let plant = file(&two_rooms());
    let chain = chain_fields::<[_; 2]>(&[]);
    for form in NO_FORM.into_iter().filter(|form| *form < 1 << 35) {
        for behind in [&[U(2), U(1), U(0)][..], &[U(9), U(7)], &[]] {
            let table = file(&[&[U(form)], behind].concat());
            let start = file(&start_fields(&chain, &[&table]));
            assert_eq!(told(check(&plant, &table)), (2, 0, 0));
            assert_eq!(told(control(&plant, &table, State::IDLE, [0, 10, 0, 0])), (2, 0, 0));
            assert_eq!(told(control(&plant, &table, State { place: 0, left: 9 }, [0; 4])), (2, 0, 0));
            assert_eq!(told(start_check(&plant, &start)), (2, 3, 0));
            assert_eq!(told(start_control(&plant, &start, StartState::IDLE, [0, 10, 0, 0])), (2, 3, 0));
        }
    }
    // 1 before 2.
    assert_eq!(told(check(&plant, &[0x83, 0])), (1, 0, 0));
    assert_eq!(told(check(&plant, &[0x83])), (1, 0, 0));
}

/// "After the plant (and chain and 15) and before 9."
#[test]
fn two_of_the_maker_in_its_order() {
    let none = file(&with(&p_fields(), 5, U(0)));
    assert_eq!(told(make(&none, 1, &mut [])), (9, 0, 0));
    assert_eq!(told(make(&none, 4, &mut [])), (2, 0, 0));
    let narrow = file(&with(&p_fields(), 11, S(3)));
    for (plant, wanted) in [(&P[..3], (1, 3, 0)), (&[2], (1, 1, 0)), (&[3], (2, 0, 0)), (&narrow, (5, 0, 0))] {
        assert_eq!(told(make(plant, 4, &mut [])), wanted);
    }
    let outside = file(&chain_fields(&[[(189, 230)]]));
    let sound = file(&chain_fields(&[[(190, 230)]]));
    for (plant, chain, wanted) in [
        (&P[..3], &sound[..], (1, 3, 0)),
        (&narrow, &[1, 9], (5, 0, 0)),
        (&P, &[1, 9], (3, 1, 0)),
        (&P, &[&sound[..], &[0]].concat(), (3, sound.len() as u64, 0)),
        (&P, &outside, (15, 1, 0)),
        (&P, &sound, (2, 0, 0)),
        (&none, &sound, (2, 0, 0)),
    ] {
        assert_eq!(told(start_make(plant, chain, 4)), wanted);
    }
    assert_eq!(told(start_make(&none, &sound, 3)), (9, 0, 0));
}

// ---- start files

#[test]
fn inner_tables_have_their_own_forms() {
    let chain = chain_fields(&[[(190, 230)]]);
    let three: Vec<u8> = [&[3], &T1[1..]].concat();
    let start = start_make(&P, &file(&chain), 3).expect("a start file");
    assert_eq!(start, file(&start_fields(&chain, &[&three, &three])));
    let plain = start_make(&P, &file(&chain), 1).expect("a start file");
    for tables in [[&T1[..], &T1], [&T1, &three], [&three, &T1], [&three, &three]] {
        let start = file(&start_fields(&chain, &tables));
        assert_eq!(start_check(&P, &start), Ok(()));
        for (x, mode) in [(190, 1), (200, 1), (230, 0)] {
            assert_eq!(start_control(&P, &start, StartState::IDLE, [x, 0, 0, 0]), Ok((mode, StartState::IDLE)));
        }
        assert_eq!(start_listing(&P, &start), start_listing(&P, &plain));
    }
    // A wrong inner form is 2 at that byte; a call reads but its own table's.
    for (index, place) in [(0, 7), (1, 15)] {
        let mut tables = [three.clone(), three.clone()];
        tables[index][0] = 4;
        let start = file(&start_fields(&chain, &[&tables[0], &tables[1]]));
        assert_eq!(told(start_check(&P, &start)), (2, place, 0));
        let calls = [200, 190].map(|x| told(start_control(&P, &start, StartState::IDLE, [x; 4])));
        assert_eq!((calls[index], calls[1 - index]), ((2, place, 0), (0, 0, 0)));
    }
}

/// R 8 by 4 and R1 8 by 16 about it, so that form 3 halves room 1 of R and room 2
/// of R1, and form 1 both of both. Every mode leads to 0 by 0.
fn two_rooms_in_a_hall() -> (Vec<u8>, Vec<Field>) {
    let plant = rooms_in(&[(0, 7), (0, 3)], &[(0, 7), (0, 15)], 1, &vec![vec![0; 6]; 4]);
    (plant, chain_fields(&[[(0, 7), (0, 15)]]))
}

/// A tree of one split: four tiles in form 1, two in form 3, tile k with mode k.
const OF_FOUR: [u8; 11] = [1, 2, 0, 1, 0, 1, 1, 1, 2, 1, 3];
const OF_TWO: [u8; 7] = [3, 2, 0, 1, 0, 1, 1];

/// With two rooms the forms have other trees: each table is read by its own.
#[test]
fn inner_tables_of_mixed_forms() {
    let (plant, chain) = two_rooms_in_a_hall();
    for forms in [[1, 1], [1, 3], [3, 1], [3, 3]] {
        let tables = forms.map(|form| if form == 1 { &OF_FOUR[..] } else { &OF_TWO });
        let start = file(&start_fields(&chain, &tables));
        assert_eq!(start_check(&plant, &start), Ok(()));
        for (x, y) in (0..8).flat_map(|x| (0..16).map(move |y| (x, y))) {
            let index = usize::from(y > 3);
            let (upper_x, upper_y) = (u8::from(x > 3), u8::from(if index == 0 { y > 1 } else { y > 7 }));
            let mode = match (forms[index], index) {
                (1, _) => upper_x + 2 * upper_y,
                (_, 0) => upper_x,
                _ => upper_y,
            };
            let answer = start_control(&plant, &start, StartState::IDLE, [x, y, 0, 0]);
            assert_eq!(answer, Ok((mode, StartState::IDLE)), "{forms:?} {x} {y}");
        }
    }
    let listed = start_listing(&plant, &file(&start_fields(&chain, &[&OF_TWO, &OF_FOUR])));
    let lines = "box 0 0 7 0 3 : 2 1\n0 3 0 3 : 0\n4 7 0 3 : 1\nbox 1 0 7 0 15 : 4 1\n\
                 0 3 0 7 : 0\n4 7 0 7 : 1\n0 3 8 15 : 2\n4 7 8 15 : 3\n";
    assert_eq!(listed, lines);
}

/// A table under the other's number, and one that is halved once too often. Places
/// are the start file's: the lengths stand at 6 and, behind four tiles, at 18.
#[test]
fn inner_tables_are_judged_by_their_own_forms() {
    let (plant, chain) = two_rooms_in_a_hall();
    let judged = |first: &[u8], second: &[u8]| told(start_check(&plant, &file(&start_fields(&chain, &[first, second]))));
    let (three_of_four, one_of_two) = ([&[3], &OF_FOUR[1..]].concat(), [&[1], &OF_TWO[1..]].concat());
    // Two of the four tiles are left over; two more tiles would have to come.
    assert_eq!(judged(&three_of_four, &OF_TWO), (3, 6, 0));
    assert_eq!(judged(&OF_FOUR, &three_of_four), (3, 18, 0));
    assert_eq!(judged(&one_of_two, &OF_TWO), (1, 14, 0));
    assert_eq!(judged(&OF_FOUR, &one_of_two), (1, 26, 0));
    // D 1: form 1 has one split, form 3 two, each table counted from its own box.
    assert_eq!(judged(&OF_FOUR, &chain_of_splits(3, 2, 2)), (0, 0, 0));
    assert_eq!(judged(&chain_of_splits(3, 2, 2), &OF_FOUR), (0, 0, 0));
    assert_eq!(judged(&OF_FOUR, &chain_of_splits(3, 2, 3)), (6, 23, 0));
    assert_eq!(judged(&OF_FOUR, &chain_of_splits(1, 2, 2)), (6, 22, 0));
    assert_eq!(judged(&chain_of_splits(1, 2, 2), &OF_TWO), (6, 10, 0));
}

/// The maker's one form for all: two rooms, where the forms' files differ.
#[test]
fn the_start_maker_is_told_one_form_for_all() {
    // Mode k takes the k-th quarter of room 1 over all of it and leaves room 2 at 0.
    let modes: Vec<Vec<i64>> = (0..4).map(|k| vec![4, 0, -64 * k, 0, 0, 0]).collect();
    let plant = rooms_in(&[(0, 63), (0, 3)], &[(0, 63), (0, 7)], 2, &modes);
    let chain = chain_fields(&[[(0, 63), (0, 7)]]);
    let table = [3, 2, 0, 0, 1, 0, 1, 1, 0, 1, 2, 1, 3];
    let start = file(&start_fields(&chain, &[&table, &table]));
    assert_eq!(start_make(&plant, &file(&chain), 3).as_ref(), Ok(&start));
    assert_eq!(start_check(&plant, &start), Ok(()));
    let plain = start_make(&plant, &file(&chain), 1).expect("a start file");
    let tables = [made(&plant, 1), made(&plant, 1)];
    assert_eq!(plain, file(&start_fields(&chain, &[&tables[0], &tables[1]])));
    assert_eq!(tables[0].len(), 2 + 5 + 2 * 16);
}

// ---- the largest

/// The turn by a sixth in two rooms, and in each pair of four, as the last mode;
/// those before it lead out of S. R is 64 counts a room, or 8.
fn turning(n: usize, modes: usize, at: i64) -> (Vec<u8>, (i64, i64)) {
    let (limit, side) = (1_000_000, (at, at + if n == 2 { 63 } else { 7 }));
    let mut fields = vec![U(1), U(n as u64), U(modes as u64), U(1), U(6), U(12 / n as u64)];
    (0..n).for_each(|_| fields.extend([side.0, side.1, -limit, limit].map(S)));
    (0..2 * n).for_each(|_| fields.push(S(0)));
    for mode in 0..modes {
        for i in 0..n {
            let turn = if i % 2 == 0 { [4, -13] } else { [1, -3] };
            let last = mode + 1 == modes;
            fields.extend((0..n).map(|j| S(if last && j / 2 == i / 2 { turn[j % 2] } else { 0 })));
            fields.push(S(if last { 0 } else { 2 * limit }));
        }
    }
    (file(&fields), side)
}

/// 4,096 tiles of six modes, of one byte each or of two, and 4,095 splits.
#[test]
fn the_largest_tables() {
    for (n, modes, length) in [(2, 1, 32_769), (4, 1, 32_769), (2, 129, 57_345), (4, 129, 57_345)] {
        let (bytes, side) = turning(n, modes, 1000);
        let mut table = marked(length + 1);
        assert_eq!(make(&bytes, 3, &mut table), Ok(length));
        assert_eq!(table[length], 0xAA);
        assert_eq!(check(&bytes, &table[..length]), Ok(()));
        assert_eq!(told(check(&bytes, &table)), (6, length as u64, 0));
        assert_eq!(told(make(&bytes, 3, &mut marked(length - 1))), (10, 0, 0));
        let plant = read_plant(&bytes).expect("a plant");
        let tiles = slow_tiles(&plant, &r_of(&plant), &table[..length]);
        assert_eq!((tiles.len(), tiles[4_095].depth), (4_096, 12));
        let last = control(&bytes, &table[..length], State::IDLE, [side.1; 4]);
        let second = tiles[4_095].second as u64;
        assert_eq!(last, Ok((modes as u8 - 1, State { place: second, left: 5 })));
    }
}

/// Four rooms have twice the edges of two, 3 bytes each.
#[test]
fn the_largest_start_files_of_form_3() {
    for (modes, length) in [(1, 295_142), (129, 516_326)] {
        let (plant, side) = turning(4, modes, 9000);
        let chain = chain_fields(&[[side; 4]; MOST_BOXES]);
        let start = file(&start_fields(&chain, &[&made(&plant, 3)[..]; MOST_BOXES + 1]));
        assert_eq!(start.len(), length);
        let mut buffer = marked(length + 1);
        assert_eq!(start_make_into(&plant, &file(&chain), 3, &mut buffer), Ok(length));
        assert_eq!((&buffer[..length], buffer[length]), (&start[..], 0xAA));
        assert_eq!(told(start_make_into(&plant, &file(&chain), 3, &mut buffer[..length - 1])), (10, 0, 0));
        assert_eq!(start_check(&plant, &start), Ok(()));
    }
}

// ---- by the slow way

/// Many plants have a table of both forms, some of one alone, either of them.
#[test]
fn the_maker_agrees_in_form_3() {
    let mut random = Random(42);
    let (mut none, mut split, mut fewer, mut only_one, mut only_three) = (0, 0, 0, 0, 0);
    for _ in 0..5_000 {
        let plant = pulling_plant(&mut random);
        let (bytes, r) = (plant_bytes(&plant), r_of(&plant));
        let mut buffer = marked(4_000);
        let answer = make(&bytes, 3, &mut buffer);
        let one = slow_table(&plant, &r, &r);
        let Some(table) = slow_table_in(3, &plant, &r, &r) else {
            assert_eq!(told(answer), (9, 0, 0), "{plant:?}");
            none += 1;
            only_one += usize::from(one.is_some());
            continue;
        };
        assert_eq!(answer, Ok(table.len()), "{plant:?}");
        assert_eq!(buffer[..table.len()], table, "{plant:?}");
        assert_eq!(check(&bytes, &table), Ok(()));
        split += usize::from(table[2] == 0);
        only_three += usize::from(one.is_none());
        let tiles = |table: &[u8]| slow_tiles(&plant, &r, table).len();
        fewer += usize::from(one.is_some_and(|one| tiles(&table) < tiles(&one)));
    }
    assert!(none > 100 && split > 100 && fewer > 20, "{none} {split} {fewer}");
    assert!(only_one > 0 && only_three > 0, "{only_one} {only_three}");
}
