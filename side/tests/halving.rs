//! Request 2026-06, table form 3, side by side and by hand: which side is
//! halved and at which count, how often, what the maker makes of that, and start
//! files whose tables are of either form.

use second::MOST_BOXES;
use side::common::{chain_fields, file, start_fields, Field, S, U};
use side::seen::Seen;
use side::NO_MODE;

/// Rows by which every room stays as it is, so that any tile works.
fn still(n: usize) -> Vec<i64> {
    (0..n).flat_map(|i| (0..=n).map(move |j| i64::from(i == j))).collect()
}

/// A plant with this R and S, q 1, K 2 and no disturbance; each mode's rows.
fn rooms(r: &[(i64, i64)], s: &[(i64, i64)], d: u64, modes: &[Vec<i64>]) -> Vec<u8> {
    let mut fields = vec![U(1), U(r.len() as u64), U(modes.len() as u64), U(1), U(2), U(d)];
    fields.extend(r.iter().zip(s).flat_map(|(r, s)| [r.0, r.1, s.0, s.1].map(S)));
    fields.extend(vec![S(0); 2 * r.len()]);
    fields.extend(modes.iter().flatten().map(|number| S(*number)));
    file(&fields)
}

/// The place that an idle call leaves, two behind the tile that it found; numbers beyond n are far off.
fn left_at(seen: &mut Seen, plant: &[u8], table: &[u8], reading: &[i64]) -> u64 {
    let mut x = [i64::MIN; 4];
    x[..reading.len()].copy_from_slice(reading);
    let (mode, out) = seen.control(plant, table, 0, 0, x);
    assert_eq!((mode, out), (0, [0, 0, 0, out[3], 1]), "{reading:?}");
    out[3]
}

/// That R of these sides is halved in this dimension, at this count: the lower half has the first tile.
fn halved(seen: &mut Seen, sides: &[(i64, i64)], dimension: usize, middle: i64) {
    let n = sides.len();
    let plant = rooms(sides, sides, 1, &[still(n)]);
    let table = [&[3, n as u8, 0], &[2, 0, 0].repeat(2)[..]].concat();
    assert_eq!(seen.check(&plant, &table), (0, 0, 0));
    for corner in 0..1 << n {
        let mut reading: Vec<i64> = sides.iter().enumerate().map(|(i, (lo, hi))| if corner >> i & 1 == 0 { *lo } else { *hi }).collect();
        for (x, place) in [(sides[dimension].0, 5), (middle, 5), (middle + 1, 8), (sides[dimension].1, 8)] {
            reading[dimension] = x;
            assert_eq!(left_at(seen, &plant, &table, &reading), place, "{reading:?} of {sides:?}");
        }
    }
}

/// By hi − lo: neither edge counts, nor how far off zero, and the midpoint is the floor of half the sum.
#[test]
fn the_longest_side_by_counts() {
    let mut seen = Seen::default();
    for (sides, dimension, middle) in [
        (&[(900, 901), (0, 9)][..], 1, 4),
        (&[(-9, 0), (100, 103)], 0, -5),
        (&[(-1000, -998), (-9, -1)], 1, -5),
        (&[(-1000, -991), (-4, -1)], 0, -996),
        (&[(-3, 3), (-5, 0), (-10, -5)], 0, 0),
        (&[(-3, 2), (0, 6), (-20, -15)], 1, 3),
        (&[(5, 5), (9, 9), (7, 7), (-8, -7)], 3, -8),
        (&[(0, 1_000_000), (-1_000_000, 1_000_000)], 1, 0),
        (&[(-1_000_000, 0), (1, 1_000_000), (-500_000, 499_999)], 0, -500_000),
        (&[(-4, -1)], 0, -3),
        (&[(999_999, 1_000_000), (-1_000_000, -999_999)], 0, 999_999),
    ] {
        halved(&mut seen, sides, dimension, middle);
    }
}

/// Any of the sides the longest, the others one count shorter: the lowest dimension of the longest is halved.
#[test]
fn of_equal_sides_the_lowest_dimension() {
    let mut seen = Seen::default();
    for n in 1..=4_usize {
        for longest in 1..1_usize << n {
            let lo = |i: usize| 7 * i as i64 - 12;
            let sides: Vec<(i64, i64)> = (0..n).map(|i| (lo(i), lo(i) + 10 + (longest >> i & 1) as i64)).collect();
            let lowest = longest.trailing_zeros() as usize;
            halved(&mut seen, &sides, lowest, lo(lowest) + 5);
        }
    }
}

/// A table that goes on splitting the first child, so many times.
fn chain_of_splits(form: u64, n: usize, splits: u64) -> Vec<u8> {
    let children = if form == 3 { 2 } else { 1 << n };
    let tiles = [2, 0, 0].repeat(1 + splits as usize * (children - 1));
    [vec![form as u8, n as u8], vec![0; splits as usize], tiles].concat()
}

/// n·D halvings and no more, of R and of every box of a start file; form 1 keeps D.
#[test]
fn the_depth_bound() {
    let mut seen = Seen::default();
    let pairs = (1..=4).flat_map(|n| (0..=6.min(12 / n)).map(move |d| (n, d)));
    for (n, d, form) in pairs.flat_map(|(n, d)| [1, 3].map(|form| (n, d, form))) {
        // 128 counts a room, so that there is always a side to split
        let sides = vec![(-64, 63); n as usize];
        let plant = rooms(&sides, &sides, d, &[still(n as usize)]);
        let bound = if form == 1 { d } else { n * d };
        let [deepest, deeper] = [bound, bound + 1].map(|splits| chain_of_splits(form, n as usize, splits));
        assert_eq!(seen.check(&plant, &deepest), (0, 0, 0));
        assert_eq!(seen.check(&plant, &deeper), (6, 2 + bound, 0));
        for x in [-64, 63] {
            assert_eq!(seen.control(&plant, &deepest, 0, 0, [x; 4]).0, 0);
            assert_eq!(seen.control(&plant, &deeper, 0, 0, [x; 4]), (NO_MODE, [6, 2 + bound, 0, 0, 0]));
        }
        let chain = chain_fields(&vec![sides; MOST_BOXES]);
        let whole = vec![&deepest[..]; MOST_BOXES + 1];
        assert_eq!(seen.start_check(&plant, &file(&start_fields(&chain, &whole))), (0, 0, 0));
        for index in 0..=MOST_BOXES {
            let mut tables = whole.clone();
            tables[index] = &deeper;
            let first = file(&start_fields(&chain, &tables[..index])).len() + file(&[U(deeper.len() as u64)]).len();
            assert_eq!(seen.start_check(&plant, &file(&start_fields(&chain, &tables))), (6, first as u64 + 2 + bound, 0));
        }
    }
}

/// One reading, and what is left of two after a halving, cannot split, whatever depth is left.
#[test]
fn one_reading_has_no_halves() {
    let mut seen = Seen::default();
    for n in 1..=4 {
        let one: Vec<(i64, i64)> = (0..n).map(|i| (i - 2, i - 2)).collect();
        for room in 0..n as usize {
            let mut two = one.clone();
            two[room].1 += 1;
            for (sides, table, place) in [(&one, &[3, n as u8, 0][..], 2), (&two, &[3, n as u8, 0, 0], 3), (&two, &[3, n as u8, 0, 2, 0, 0, 0], 6)] {
                let plant = rooms(sides, sides, 3, &[still(n as usize)]);
                assert_eq!(seen.check(&plant, table), (6, place, 0));
                let x = std::array::from_fn(|i| sides.get(i).map_or(0, |side| side.1));
                assert_eq!(seen.control(&plant, table, 0, 0, x), (NO_MODE, [6, place, 0, 0, 0]));
            }
        }
    }
}

/// Rows by which mode k takes the k-th part of room 1, 64 counts long, over all of R; the others stay.
fn parts_of_room_1(n: usize, parts: i64) -> Vec<Vec<i64>> {
    let row = |k: i64| {
        let mut rows = still(n);
        (rows[0], rows[n]) = (parts, -64 * k);
        rows
    };
    (0..parts).map(row).collect()
}

/// The tree of tiles 0.. of one mode each, halved so often.
fn full_tree(halvings: u32, first: u8) -> Vec<u8> {
    if halvings == 0 {
        return vec![1, first];
    }
    [vec![0], full_tree(halvings - 1, first), full_tree(halvings - 1, first + (1 << (halvings - 1)))].concat()
}

/// A long narrow room: as many tiles as it has parts, as long as n·D suffices; form 1 needs that much D.
#[test]
fn the_maker_halves_to_its_bound() {
    let mut seen = Seen::default();
    for n in 1..=4_usize {
        let sides = [(0, 63), (-1, 1), (5, 5), (0, 1)][..n].to_vec();
        for halvings in 1..=4 {
            let modes = parts_of_room_1(n, 1 << halvings);
            for d in 0..=6.min(12 / n as u64) {
                let plant = rooms(&sides, &sides, d, &modes);
                let table = [vec![3, n as u8], full_tree(halvings, 0)].concat();
                let there_is = n as u64 * d >= u64::from(halvings);
                let wanted = if there_is { (0, table.len() as u64, 0) } else { (9, 0, 0) };
                assert_eq!(seen.make(&plant, 3, 99), wanted, "{n} rooms, {halvings} halvings, D {d}");
                assert_eq!(seen.check(&plant, &table), if there_is { (0, 0, 0) } else { (6, 2 + n as u64 * d, 0) });
                assert_eq!(seen.make(&plant, 1, 9_999).0, if d >= u64::from(halvings) { 0 } else { 9 });
            }
        }
    }
}

/// A side that has to be split and is never the longest: form 1 has a table and form 3 none, until n·D reaches it.
#[test]
fn a_short_side_comes_last() {
    let mut seen = Seen::default();
    // mode 0 keeps room 2 at 0 and drives 1 to 2, mode 1 keeps it at 1 and drives 0 to -1; room 1 comes to 5
    let modes = [vec![0, 0, 5, 0, 2, 0], vec![0, 0, 5, 0, 2, -1]];
    let plant = |d| rooms(&[(0, 15), (0, 1)], &[(0, 15), (0, 1)], d, &modes);
    for (d, of_form_3) in [(0, 9), (1, 9), (2, 9), (3, 0)] {
        assert_eq!(seen.make(&plant(d), 1, 9_999).0, if d == 0 { 9 } else { 0 });
        assert_eq!(seen.make(&plant(d), 3, 9_999).0, of_form_3, "D {d}");
    }
}

/// R 8 by 4 and R1 8 by 16 about it: form 3 halves room 1 of R and room 2 of R1, form 1 both of both. Every mode leads to 0 by 0.
fn hall() -> (Vec<u8>, Vec<Field>) {
    let plant = rooms(&[(0, 7), (0, 3)], &[(0, 7), (0, 15)], 1, &vec![vec![0; 6]; 4]);
    (plant, chain_fields(&[[(0, 7), (0, 15)]]))
}

/// A tree of one split, tile k with mode k: four tiles, or two.
const OF_FOUR: [u8; 11] = [1, 2, 0, 1, 0, 1, 1, 1, 2, 1, 3];
const OF_TWO: [u8; 7] = [3, 2, 0, 1, 0, 1, 1];

#[test]
fn tables_of_both_forms_in_one_file() {
    let (mut seen, (plant, chain)) = (Seen::default(), hall());
    for forms in [[1, 1], [1, 3], [3, 1], [3, 3]] {
        let tables = forms.map(|form| if form == 1 { &OF_FOUR[..] } else { &OF_TWO });
        let start = file(&start_fields(&chain, &tables));
        assert_eq!(seen.start_check(&plant, &start), (0, 0, 0));
        for (x, y) in (0..8).flat_map(|x| (0..16).map(move |y| (x, y))) {
            let index = usize::from(y > 3);
            let (upper_x, upper_y) = (u64::from(x > 3), u64::from(if index == 0 { y > 1 } else { y > 7 }));
            let mode = match (forms[index], index) {
                (1, _) => upper_x + 2 * upper_y,
                (_, 0) => upper_x,
                _ => upper_y,
            };
            assert_eq!(seen.start_control(&plant, &start, [0; 3], [x, y, 0, 0]), (mode, [0; 6]), "{forms:?} {x} {y}");
        }
    }
}

/// A table under the other's form, and one that is split once too often: the lengths stand at 6 and, behind four tiles, at 18.
#[test]
fn each_table_is_judged_by_its_own_form() {
    let (mut seen, (plant, chain)) = (Seen::default(), hall());
    let (three_of_four, one_of_two) = ([&[3], &OF_FOUR[1..]].concat(), [&[1], &OF_TWO[1..]].concat());
    let mut judged = |first: &[u8], second: &[u8]| seen.start_check(&plant, &file(&start_fields(&chain, &[first, second])));
    // two of the four tiles are left over; two more tiles would have to come
    assert_eq!(judged(&three_of_four, &OF_TWO), (3, 6, 0));
    assert_eq!(judged(&OF_FOUR, &three_of_four), (3, 18, 0));
    assert_eq!(judged(&one_of_two, &OF_TWO), (1, 14, 0));
    assert_eq!(judged(&OF_FOUR, &one_of_two), (1, 26, 0));
    // D 1: form 1 has one split, form 3 two, each table counted from its own box
    assert_eq!(judged(&OF_FOUR, &chain_of_splits(3, 2, 2)), (0, 0, 0));
    assert_eq!(judged(&chain_of_splits(3, 2, 2), &OF_FOUR), (0, 0, 0));
    assert_eq!(judged(&OF_FOUR, &chain_of_splits(3, 2, 3)), (6, 23, 0));
    assert_eq!(judged(&OF_FOUR, &chain_of_splits(1, 2, 2)), (6, 22, 0));
    assert_eq!(judged(&chain_of_splits(1, 2, 2), &OF_TWO), (6, 10, 0));
}
