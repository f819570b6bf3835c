//! Request 2026-01, table form 2: the readings' example, lengths wrong in every
//! way in the checker and in a call, what a call reads, the full walk, the same
//! tree in form 1, start files, the largest files, and the slow ways; those of start
//! files stand in tests/slow_starts.rs.

mod common;
mod slow;
use common::*;
use second::checker::check;
use second::control::{control, State};
use second::listing::listing;
use second::maker::make;
use second::plant::{read_plant, Plant};
use second::refusal::Refusal;
use second::relay::relay;
use second::start::{start_check, start_control, start_make, start_make_into, StartState};
use second::start_listing::start_listing;
use second::{LARGEST_START, LARGEST_TABLE, MOST_BOXES};
use slow::*;

/// P's table in form 2, as the readings have it.
const T2: [u8; 8] = [2, 1, 0, 2, 1, 1, 1, 0];

fn made(plant: &[u8], form: u64) -> Vec<u8> {
    let mut table = marked(LARGEST_TABLE);
    let length = make(plant, form, &mut table).expect("a table");
    table.truncate(length);
    table
}

/// The table laid out in another form, in a buffer that is long enough.
fn laid_out(plant: &[u8], table: &[u8], form: u64) -> Result<Vec<u8>, Refusal> {
    let mut other = marked(LARGEST_TABLE);
    let length = relay(plant, table, form, &mut other)?;
    other.truncate(length);
    Ok(other)
}

fn idle(plant: &[u8], table: &[u8], x: i64) -> Result<(u8, (u64, u64)), Told> {
    let answer = control(plant, table, State::IDLE, [x, 0, 0, 0]);
    answer.map(|(mode, next)| (mode, (next.place, next.left))).map_err(|refusal| told::<()>(Err(refusal)))
}

// ---- the example

#[test]
fn p_in_form_2() {
    assert_eq!(made(&P, 2), T2);
    assert_eq!(check(&P, &T2), Ok(()));
    assert_eq!(listing(&P, 2), listing(&P, 1));
    for x in 193..=227 {
        assert_eq!(control(&P, &T2, State::IDLE, [x; 4]), control(&P, &T1, State::IDLE, [x; 4]));
    }
    for length in 0..8 {
        let mut buffer = marked(length);
        assert_eq!(told(make(&P, 2, &mut buffer)), (10, 0, 0));
        assert_eq!(buffer, vec![0; length]);
    }
    let mut buffer = marked(10);
    assert_eq!(make(&P, 2, &mut buffer), Ok(8));
    assert_eq!(buffer[7..], [0, 0xAA, 0xAA]);
    assert_eq!(told(make(&file(&with(&p_fields(), 5, U(0))), 2, &mut buffer)), (9, 0, 0));
    // Without a split the two forms differ in the header alone.
    assert_eq!(made(&p_prime(), 2), [&[2], &T5[1..]].concat());
    assert_eq!(idle(&p_prime(), &[2, 1, 2, 0, 1], 200), Ok((0, (4, 1))));
}

// ---- the checker

/// "6 at the length", after the child, so that the child's own faults come first
/// and the next child's after.
#[test]
fn a_length_that_differs() {
    for length in [0, 1, 3, 4, 127] {
        assert_eq!(told(check(&P, &[2, 1, 0, length, 1, 1, 1, 0])), (6, 3, 0));
    }
    for length in [128, 1 << 14, 1 << 32, (1 << 32) + 2, (1 << 35) - 1] {
        assert_eq!(told(check(&P, &file(&[U(2), U(1), U(0), U(length), Raw(vec![1, 1, 1, 0])]))), (6, 3, 0));
    }
    // It knows no "past the file": the child is read first.
    assert_eq!(told(check(&P, &[2, 1, 0, 99, 1, 2, 1, 0])), (6, 5, 0));
    assert_eq!(told(check(&P, &[2, 1, 0, 99, 1, 0, 1, 0])), (7, 4, 1));
    assert_eq!(told(check(&P, &[2, 1, 0, 99, 2, 1, 0, 1, 0])), (8, 4, 2));
    assert_eq!(told(check(&P, &[2, 1, 0, 99, 1])), (1, 5, 0));
    // The next child's faults come after it.
    for next in [&[][..], &[9], &[1, 9], &[0x80, 0], &[1, 1], &[0]] {
        assert_eq!(told(check(&P, &[&[2, 1, 0, 3, 1, 1], next].concat())), (6, 3, 0));
        assert_ne!(told(check(&P, &[&[2, 1, 0, 2, 1, 1], next].concat())), (6, 3, 0));
    }
    assert_eq!(told(check(&P, &[&T2[..], &[0]].concat())), (6, 8, 0));
}

#[test]
fn a_length_that_is_no_number() {
    for broken in broken(&U(2)) {
        let table = file(&[U(2), U(1), U(0), broken, Raw(vec![1, 1, 1, 0])]);
        assert_eq!(told(check(&P, &table)), (1, 3, 0));
        assert_eq!(idle(&P, &table, 195), Err((1, 3, 0)));
        assert_eq!(idle(&P, &table, 225), Err((1, 3, 0)));
    }
    for length in [1 << 35, u64::MAX] {
        let table = file(&[U(2), U(1), U(0), U(length), Raw(vec![1, 1, 1, 0])]);
        assert_eq!((told(check(&P, &table)), idle(&P, &table, 225)), ((1, 3, 0), Err((1, 3, 0))));
    }
    assert_eq!(told(check(&P, &T2[..3])), (1, 3, 0));
    assert_eq!(idle(&P, &T2[..3], 195), Err((1, 3, 0)));
    // The split's own 6 comes before any length.
    for table in [&[2, 1, 0, 5, 0, 0x80, 0][..], &[2, 1, 0, 5, 0]] {
        assert_eq!(told(check(&P, table)), (6, 4, 0));
    }
    let flat = file(&with(&p_fields(), 5, U(0)));
    assert_eq!(told(check(&flat, &[2, 1, 0, 0x80, 0])), (6, 2, 0));
    let one_reading = file(&with(&p_fields(), 7, S(195)));
    assert_eq!(told(check(&one_reading, &[2, 1, 0])), (6, 2, 0));
    assert_eq!(told(control(&one_reading, &[2, 1, 0], State::IDLE, [195; 4])), (6, 2, 0));
}

/// All lengths of a split are read before any is compared, and before the children.
#[test]
fn all_lengths_are_read_first() {
    let plant = four_ways();
    let tiles = Raw(vec![1, 0, 1, 1, 1, 2, 1, 3]);
    for broken in broken(&U(2)) {
        for lengths in [[U(99), broken.clone(), U(2)], [U(0), broken.clone(), U(99)], [U(2), broken.clone(), broken.clone()]] {
            let table = file(&[&[U(2), U(2), U(0)], &lengths[..], &[tiles.clone()]].concat());
            assert_eq!(told(check(&plant, &table)), (1, 4, 0));
            assert_eq!(told(control(&plant, &table, State::IDLE, within(0, 0))), (1, 4, 0));
        }
        // The first child is no tile.
        let table = file(&[U(2), U(2), U(0), U(2), U(2), broken, Raw(vec![9; 8])]);
        assert_eq!(told(check(&plant, &table)), (1, 5, 0));
        assert_eq!(told(control(&plant, &table, State::IDLE, within(3, 0))), (1, 5, 0));
    }
    assert_eq!(told(check(&plant, &[2, 2, 0, 9, 9])), (1, 5, 0));
    assert_eq!(told(control(&plant, &[2, 2, 0, 9, 9], State::IDLE, [0; 4])), (1, 5, 0));
}

/// Each length with its own child, as soon as that is read: of two wrong ones the
/// first, and one of a child's own split before that child's.
#[test]
fn each_length_is_compared_with_its_child() {
    let plant = four_ways();
    let tiles = [1, 0, 1, 1, 1, 2, 1, 3];
    for (lengths, wanted) in [([3, 2, 2], 3), ([2, 3, 2], 4), ([2, 2, 3], 5), ([2, 1, 1], 4), ([3, 1, 2], 3), ([2, 4, 0], 4)] {
        assert_eq!(told(check(&plant, &[&[2, 2, 0], &lengths[..], &tiles].concat())), (6, wanted, 0));
        // The second child's mode is none: told before its own length and after the first's.
        let mut spoilt = tiles;
        spoilt[3] = 9;
        let wanted = if lengths[0] == 2 { 9 } else { 3 };
        assert_eq!(told(check(&plant, &[&[2, 2, 0], &lengths[..], &spoilt].concat())), (6, wanted, 0));
    }
    let table = |outer, inner| [&[2, 2, 0, outer, 2, 2, 0, 2, inner, 2][..], &tiles, &[1, 4, 1, 5, 1, 6]].concat();
    assert_eq!(check(&plant, &table(12, 2)), Ok(()));
    assert_eq!(told(check(&plant, &table(11, 2))), (6, 3, 0));
    assert_eq!(told(check(&plant, &table(11, 3))), (6, 8, 0));
    // A length counts the subtree with its own lengths: 8 bytes of tiles, 9 with the 0.
    assert_eq!((told(check(&plant, &table(8, 2))), told(check(&plant, &table(9, 2)))), ((6, 3, 0), (6, 3, 0)));
}

/// One length less than children, however many those are: sides of one count do
/// not split.
#[test]
fn as_many_lengths_as_children_but_one() {
    for n in 1..=4_usize {
        for longer in 1..1_usize << n {
            let mut fields = vec![U(1), U(n as u64), U(16), U(1), U(1), U(1)];
            let side = |i: usize| [0, (longer >> i & 1) as i64];
            (0..n).for_each(|i| fields.extend([side(i), side(i)].concat().into_iter().map(S)));
            fields.extend(vec![S(0); 2 * n + 16 * n * (n + 1)]);
            let (plant, children) = (file(&fields), 1 << longer.count_ones());
            let tiles: Vec<u8> = (0..children).flat_map(|mode| [1, mode]).collect();
            let table = [vec![2, n as u8, 0], vec![2; children as usize - 1], tiles.clone()].concat();
            assert_eq!(check(&plant, &table), Ok(()));
            assert_eq!(laid_out(&plant, &[vec![1, n as u8, 0], tiles].concat(), 2), Ok(table.clone()));
            for mode in 0..children {
                // The mode's bits go to the longer sides, dimension 1 the lowest.
                let mut bits = (0..children.trailing_zeros()).map(|bit| i64::from(mode >> bit & 1));
                let x = std::array::from_fn(|i| if longer >> i & 1 == 1 { bits.next().expect("a bit") } else { 0 });
                assert_eq!(control(&plant, &table, State::IDLE, x), Ok((mode, State::IDLE)));
            }
        }
    }
}

/// D as in form 1: so many splits, each of a first child, and no more.
#[test]
fn the_depth_bound() {
    for n in 1..=4_usize {
        let others = (1 << n) - 1;
        for d in 0..=(12 / n).min(6) {
            let mut fields = vec![U(1), U(n as u64), U(1), U(1), U(1), U(d as u64)];
            (0..n).for_each(|_| fields.extend([-64, 63, -64, 63].map(S)));
            fields.extend(vec![S(0); 2 * n + n * (n + 1)]);
            let plant = file(&fields);
            // The tree of so many splits, and where the lowest of them stands in it.
            let tree = |splits: usize| {
                let (mut tree, mut lowest) = (vec![1, 0], 0);
                for split in 0..splits {
                    let head = [vec![0], groups(tree.len() as u128), vec![2; others - 1]].concat();
                    lowest = if split == 0 { 0 } else { lowest + head.len() as u64 };
                    tree = [head, tree, [1, 0].repeat(others)].concat();
                }
                ([&[2, n as u8], &tree[..]].concat(), 2 + lowest)
            };
            assert_eq!(check(&plant, &tree(d).0), Ok(()));
            let (deeper, place) = tree(d + 1);
            assert_eq!(told(check(&plant, &deeper)), (6, place, 0), "{n} {d}");
            let call = |x| told(control(&plant, &deeper, State::IDLE, [x; 4]));
            // Passed without being read, where the first split is not the one too deep.
            assert_eq!((call(-64), call(63)), ((6, place, 0), if d == 0 { (6, 2, 0) } else { (0, 0, 0) }));
        }
    }
}

// ---- the call

/// P's split with another length: to the upper half the call goes by it, to the
/// lower it does not, and it is compared with nothing but the file's end.
#[test]
fn a_call_goes_by_the_lengths() {
    let with_length = |length: u64| file(&[U(2), U(1), U(0), U(length), Raw(vec![1, 1, 1, 0])]);
    for length in 0..=4 {
        assert_eq!(idle(&P, &with_length(length), 195), Ok((1, (0, 0))), "{length}");
    }
    // 2 is right; 0 has both at place 4; 1 takes the lower tile's mode for a tile, of mode 1;
    // 3 takes the upper tile's mode for a split; 4 ends just at the file's end.
    let upper = [Ok((1, (0, 0))), Ok((1, (0, 0))), Ok((0, (0, 0))), Err((6, 7, 0)), Err((1, 8, 0))];
    for (length, wanted) in upper.into_iter().enumerate() {
        assert_eq!(idle(&P, &with_length(length as u64), 225), wanted, "{length}");
    }
    // Past it by one, and far: 6 at the length, whichever child is wanted.
    for length in [5, 6, 127, 128, 1 << 14, 1 << 32, (1 << 32) + 2, (1 << 35) - 1] {
        for x in [195, 225] {
            assert_eq!(idle(&P, &with_length(length), x), Err((6, 3, 0)), "{length}");
        }
    }
}

/// Two rooms of sixteen readings, D 2, whatever modes; four children a split.
fn four_ways() -> Vec<u8> {
    let mut fields = vec![U(1), U(2), U(9), U(1), U(2), U(2)];
    fields.extend([0, 15, 0, 15, 0, 15, 0, 15, 0, 0, 0, 0].map(S));
    (0..9).for_each(|_| fields.extend([1, 0, 0, 0, 1, 0].map(S)));
    file(&fields)
}

/// A reading of the child with this number, and of that child's child.
fn within(child: i64, grandchild: i64) -> [i64; 4] {
    [8 * (child & 1) + 4 * (grandchild & 1), 8 * (child >> 1) + 4 * (grandchild >> 1), 0, 0]
}

#[test]
fn lengths_are_cumulative_and_all_are_judged() {
    let plant = four_ways();
    let tiles = [1, 0, 2, 1, 1, 1, 2, 1, 3];
    let table = |lengths: [u64; 3]| file(&[U(2), U(2), U(0), U(lengths[0]), U(lengths[1]), U(lengths[2]), Raw(tiles.to_vec())]);
    let sound = table([2, 3, 2]);
    assert_eq!(check(&plant, &sound), Ok(()));
    let call = |table: &[u8], child| control(&plant, table, State::IDLE, within(child, 0));
    for (child, mode, left) in [(0, 0, 0), (1, 1, 1), (2, 2, 0), (3, 3, 0)] {
        let next = if left == 0 { State::IDLE } else { State { place: 10, left } };
        assert_eq!(call(&sound, child), Ok((mode, next)));
    }
    // The tree takes 9 bytes from place 6 on: an end at 15 is not past the file, one at 16 is.
    for (lengths, wanted) in [
        ([2, 3, 4], (0, 0, 0)),
        ([2, 3, 5], (6, 5, 0)),
        ([2, 7, 0], (0, 0, 0)),
        ([2, 8, 0], (6, 4, 0)),
        ([9, 0, 0], (0, 0, 0)),
        ([10, 0, 0], (6, 3, 0)),
        ([9, 1, 0], (6, 4, 0)),
        ([9, 0, 1], (6, 5, 0)),
        ([10, 10, 10], (6, 3, 0)),
        ([0, 0, 9], (0, 0, 0)),
        ([0, 0, 10], (6, 5, 0)),
    ] {
        // The first child's tile stands at place 6 whatever the lengths are.
        assert_eq!(told(call(&table(lengths), 0)), wanted, "{lengths:?}");
        if wanted.0 == 6 {
            (1..4).for_each(|child| assert_eq!(told(call(&table(lengths), child)), wanted));
        }
    }
    // Lengths are judged before anything behind them is read.
    let broken = file(&[U(2), U(2), U(0), U(2), U(3), U(99), Raw(vec![9; 9])]);
    assert_eq!(told(call(&broken, 0)), (6, 5, 0));
}

/// Fifteen lengths of a split of four rooms, their sum far over 2^35.
#[test]
fn sums_of_fifteen_large_lengths() {
    let mut fields = vec![U(1), U(4), U(1), U(1), U(1), U(1)];
    (0..4).for_each(|_| fields.extend([0, 1, 0, 1].map(S)));
    (0..8).for_each(|_| fields.push(S(0)));
    (0..20).for_each(|_| fields.push(S(0)));
    let plant = file(&fields);
    let table = |lengths: &[u64]| {
        let lengths = lengths.iter().map(|length| U(*length));
        file(&[U(2), U(4), U(0)].into_iter().chain(lengths).chain([Raw([1, 0].repeat(16))]).collect::<Vec<_>>())
    };
    let call = |table: &[u8], x| told(control(&plant, table, State::IDLE, x));
    let sound = table(&[2; 15]);
    assert_eq!((check(&plant, &sound), call(&sound, [1; 4])), (Ok(()), (0, 0, 0)));
    assert_eq!(sound.len(), 3 + 15 + 32);
    let largest = (1 << 35) - 1;
    assert_eq!(call(&table(&[largest; 15]), [0; 4]), (6, 3, 0));
    assert_eq!(told(check(&plant, &table(&[largest; 15]))), (6, 3, 0));
    for first in 0..15 {
        let mut lengths = [2; 15];
        lengths[first..].fill(largest);
        assert_eq!(call(&table(&lengths), [0; 4]), (6, 3 + first as u64, 0));
        // 2^32 more than what would do.
        let mut lengths = [2; 15];
        lengths[first] += 1 << 32;
        assert_eq!(call(&table(&lengths), [1; 4]), (6, 3 + first as u64, 0));
    }
    // Fifteen zeros and fifteen that end just at the file's end.
    assert_eq!(call(&table(&[0; 15]), [1; 4]), (0, 0, 0));
    assert_eq!(call(&table(&[&[2; 14][..], &[4]].concat()), [0; 4]), (0, 0, 0));
    assert_eq!(call(&table(&[&[2; 14][..], &[4]].concat()), [1; 4]), (1, 50, 0));
    assert_eq!(call(&table(&[&[2; 14][..], &[5]].concat()), [0; 4]), (6, 17, 0));
}

/// A grandchild that ends past its parent's end, but not past the file's.
#[test]
fn a_parents_end_does_not_count() {
    let plant = four_ways();
    let inner = |lengths: [u8; 3]| [&[0][..], &lengths, &[1, 0, 1, 1, 1, 2, 1, 3]].concat();
    let outer = |inner: &[u8]| [&[2, 2, 0, 12, 2, 2][..], inner, &[1, 4, 1, 5, 1, 6]].concat();
    let sound = outer(&inner([2, 2, 2]));
    assert_eq!(check(&plant, &sound), Ok(()));
    let call = |table: &[u8], child, grandchild| control(&plant, table, State::IDLE, within(child, grandchild));
    assert_eq!(call(&sound, 0, 3), Ok((3, State::IDLE)));
    // The third grandchild told to be 4 longer: the fourth is found where the second child has its tile.
    let long = outer(&inner([2, 2, 6]));
    assert_eq!(call(&long, 0, 3), Ok((5, State::IDLE)));
    assert_eq!(told(check(&plant, &long)), (6, 9, 0));
    // 6 more bytes are left behind the inner split's: up to 8 the end is in the file.
    assert_eq!(told(call(&outer(&inner([2, 2, 10])), 0, 0)), (0, 0, 0));
    assert_eq!(told(call(&outer(&inner([2, 2, 11])), 0, 0)), (6, 9, 0));
    // A split that is passed is not looked at.
    assert_eq!(call(&outer(&inner([99, 99, 99])), 1, 0), Ok((4, State::IDLE)));
    assert_eq!(told(call(&outer(&inner([99, 99, 99])), 0, 0)), (6, 7, 0));
}

/// A running call looks at no length.
#[test]
fn running_calls() {
    let plant = p_prime();
    for length in [0, 2, 99, 0x80] {
        let table = [2, 1, 0, length, 2, 0, 1, 2, 0, 1];
        let at = |place, left| control(&plant, &table, State { place, left }, [200; 4]);
        assert_eq!(at(5, 2), Ok((0, State { place: 6, left: 1 })));
        assert_eq!(at(9, 1), Ok((1, State::IDLE)));
        assert_eq!(told(at(10, 1)), (12, 0, 0));
        // A length is no length to it: at its place it is a mode or none.
        assert_eq!(told(at(3, 1)), (if length == 0 { 0 } else { 12 }, 0, 0));
    }
}

/// Cut behind the tile: the lengths may point past the file then, and nothing
/// else is missed.
#[test]
fn cuts_behind_the_tile() {
    assert_eq!(idle(&P, &T2[..6], 195), Ok((1, (0, 0))));
    assert_eq!(idle(&P, &T2[..5], 195), Err((6, 3, 0)));
    assert_eq!(idle(&P, &T2[..4], 195), Err((6, 3, 0)));
    assert_eq!(idle(&P, &T2[..7], 195), Ok((1, (0, 0))));
    assert_eq!(idle(&P, &T2[..7], 225), Err((1, 7, 0)));
    assert_eq!(idle(&P, &T2[..6], 225), Err((1, 6, 0)));
    assert_eq!(idle(&P, &[2, 1, 0, 0, 1], 195), Err((1, 5, 0)));
}

// ---- the same tree in form 1

/// A table's tree laid out in another form of the same split.
fn relaid(plant: &Plant, table: &[u8], form: u64) -> Vec<u8> {
    fn tree(tiles: &mut std::vec::IntoIter<SlowTile>, of: &Wide, form: u64) -> Vec<u8> {
        if tiles.as_slice()[0].of == *of {
            let tile = tiles.next().expect("a tile");
            let modes = tile.pattern.iter().flat_map(|mode| groups(u128::from(*mode)));
            return [tile.pattern.len() as u8].into_iter().chain(modes).collect();
        }
        let trees: Vec<Vec<u8>> = slow_children(of).iter().map(|child| tree(tiles, child, form)).collect();
        slow_layout(form, &trees)
    }
    let mut tiles = slow_tiles(plant, &r_of(plant), table).into_iter();
    [&[form as u8, table[1]], &tree(&mut tiles, &r_of(plant), form)[..]].concat()
}

#[test]
fn forms_1_and_2_are_one_tree() {
    let mut random = Random(51);
    let mut split = 0;
    for _ in 0..4_000 {
        let plant = pulling_plant(&mut random);
        let (bytes, r, n) = (plant_bytes(&plant), r_of(&plant), plant.n as usize);
        let mut buffer = marked(LARGEST_TABLE);
        let Ok(length) = make(&bytes, 1, &mut buffer) else {
            assert_eq!(told(make(&bytes, 2, &mut buffer)), (9, 0, 0));
            continue;
        };
        let (one, two) = (buffer[..length].to_vec(), made(&bytes, 2));
        assert_eq!((relaid(&plant, &one, 2), relaid(&plant, &two, 1)), (two.clone(), one.clone()));
        assert_eq!((laid_out(&bytes, &one, 2), laid_out(&bytes, &two, 1)), (Ok(two.clone()), Ok(one.clone())));
        assert_eq!(Some(&two), slow_table_in(2, &plant, &r, &r).as_ref());
        assert_eq!(check(&bytes, &two), Ok(()));
        assert_eq!(listing(&bytes, 2), listing(&bytes, 1));
        for _ in 0..5 {
            let x = reading_in(&plant.edges.r_lo, &plant.edges.r_hi, n, &mut random);
            let (mode, in_one) = control(&bytes, &one, State::IDLE, x).expect("an answer");
            let (same, in_two) = control(&bytes, &two, State::IDLE, x).expect("an answer");
            assert_eq!((mode, in_one.left), (same, in_two.left));
            let tile = slow_full_walk(&plant, &r, &two, &x).expect("a tile");
            assert_eq!((same, in_two.place, in_two.left), tile.answer());
            // From there on the two answer alike, each by its own places.
            let (mut one_next, mut two_next) = (in_one, in_two);
            while one_next != State::IDLE {
                let (mode, next) = control(&bytes, &one, one_next, x).expect("an answer");
                let (same, other) = control(&bytes, &two, two_next, x).expect("an answer");
                assert_eq!((mode, next.left), (same, other.left));
                (one_next, two_next) = (next, other);
            }
            assert_eq!(two_next, State::IDLE);
        }
        split += usize::from(two[2] == 0);
    }
    assert!(split > 100, "{split}");
}

/// Lengths count bytes: modes of 128 and above have two.
#[test]
fn tables_of_many_modes() {
    let mut random = Random(55);
    let (mut split, mut long) = (0, 0);
    for k in [1; 400].into_iter().chain([2; 40]) {
        let plant = many_modes_plant(&mut random, k);
        let (bytes, r) = (plant_bytes(&plant), r_of(&plant));
        let mut table = marked(LARGEST_TABLE);
        let answer = make(&bytes, 2, &mut table);
        let Some(slow) = slow_table_in(2, &plant, &r, &r) else {
            assert_eq!(told(answer), (9, 0, 0));
            continue;
        };
        assert_eq!((answer, &table[..slow.len()]), (Ok(slow.len()), &slow[..]));
        assert_eq!(check(&bytes, &slow), Ok(()));
        assert_eq!(laid_out(&bytes, &slow, 1), Ok(made(&bytes, 1)));
        split += usize::from(slow[2] == 0);
        let two_bytes = |tile: &SlowTile| tile.pattern.iter().any(|mode| *mode > 127);
        long += usize::from(slow[2] == 0 && slow_tiles(&plant, &r, &slow).iter().any(two_bytes));
        for _ in 0..5 {
            let x = reading_in(&plant.edges.r_lo, &plant.edges.r_hi, plant.n as usize, &mut random);
            let (mode, next) = control(&bytes, &slow, State::IDLE, x).expect("an answer");
            assert_eq!(Ok((mode, next.place, next.left)), slow_full_walk(&plant, &r, &slow, &x).map(|tile| tile.answer()));
        }
    }
    assert!(split > 10 && long > 10, "{split} {long}");
}

/// Of accepted tables alone, and between the forms of one split.
#[test]
fn relay_refuses() {
    let two = four_ways();
    let one = [1, 2, 0, 1, 0, 1, 1, 1, 2, 1, 3];
    assert_eq!(laid_out(&two, &one, 2), Ok(vec![2, 2, 0, 2, 2, 2, 1, 0, 1, 1, 1, 2, 1, 3]));
    assert_eq!(laid_out(&two, &[2, 2, 0, 2, 2, 2, 1, 0, 1, 1, 1, 2, 1, 3], 1), Ok(one.to_vec()));
    assert_eq!(laid_out(&two, &[3, 2, 0, 1, 0, 1, 1], 3), Ok(vec![3, 2, 0, 1, 0, 1, 1]));
    for form in [0, 3, 4, 258, u64::MAX] {
        assert_eq!(told(laid_out(&two, &one, form)), (2, 0, 0));
    }
    assert_eq!(told(laid_out(&two, &[3, 2, 0, 1, 0, 1, 1], 2)), (2, 0, 0));
    assert_eq!(told(laid_out(&two, &[2, 2, 0, 2, 3, 2, 1, 0, 1, 1, 1, 2, 1, 3], 9)), (6, 4, 0));
    assert_eq!(told(laid_out(&P[..3], &T1, 2)), (1, 3, 0));
}

/// 10 comes last, a refused buffer is zeros, and a finished one is changed as far as
/// the table goes.
#[test]
fn relay_into_a_buffer() {
    for (table, form, wanted) in [(&T1[..], 2, &T2[..]), (&T2, 1, &T1), (&T1, 1, &T1), (&T2, 2, &T2)] {
        for length in 0..wanted.len() + 3 {
            let mut buffer = marked(length);
            let answer = relay(&P, table, form, &mut buffer);
            if length < wanted.len() {
                assert_eq!((told(answer), buffer), ((10, 0, 0), vec![0; length]));
            } else {
                assert_eq!((answer, buffer), (Ok(wanted.len()), [wanted, &marked(length - wanted.len())].concat()));
            }
        }
    }
    for (table, form, wanted) in [(&T1[..], 3, (2, 0, 0)), (&T2, 0, (2, 0, 0)), (&T2[..7], 3, (1, 7, 0)), (&[2, 1, 0, 3, 1, 1, 1, 0], 3, (6, 3, 0))] {
        for length in [0, 3, 20] {
            let mut buffer = marked(length);
            assert_eq!((told(relay(&P, table, form, &mut buffer)), buffer), (wanted, vec![0; length]));
        }
    }
}

/// Split tables of form 2 with their plants.
fn split_tables(seed: u64, wanted: usize) -> Vec<(Plant, Vec<u8>, Vec<u8>)> {
    let mut random = Random(seed);
    let mut all = vec![];
    while all.len() < wanted {
        let plant = pulling_plant(&mut random);
        let bytes = plant_bytes(&plant);
        let mut table = vec![0; LARGEST_TABLE];
        if let Ok(length) = make(&bytes, 2, &mut table) {
            if table[2] == 0 && (plant.n > 1 || all.len() % 4 == 0) {
                table.truncate(length);
                all.push((plant, bytes, table));
            }
        }
    }
    all
}

/// "For any two files of the same length that agree on the splits on the way and
/// on the tile, the same answer": every other byte is made another.
#[test]
fn what_a_call_depends_on() {
    let mut random = Random(52);
    let mut spared = 0;
    for (plant, bytes, table) in split_tables(520, 150) {
        let n = plant.n as usize;
        for _ in 0..10 {
            let x = reading_in(&plant.edges.r_lo, &plant.edges.r_hi, n, &mut random);
            let answer = control(&bytes, &table, State::IDLE, x);
            let found = slow_call(&plant, &r_of(&plant), &table, &x).expect("a tile");
            let mut other: Vec<u8> = table.iter().map(|byte| byte ^ random.within(1, 255) as u8).collect();
            assert_eq!(Ok(&found), slow_full_walk(&plant, &r_of(&plant), &table, &x).as_ref());
            for (from, to) in ways(&plant, &table, &x, &found) {
                other[from..to].copy_from_slice(&table[from..to]);
            }
            assert_eq!(control(&bytes, &other, State::IDLE, x), answer);
            spared += other.iter().zip(&table).filter(|(a, b)| a != b).count();
        }
    }
    assert!(spared > 10_000, "{spared}");
}

/// The header, the splits on the way with their lengths, and the tile.
fn ways(plant: &Plant, table: &[u8], x: &[i64; 4], found: &SlowTile) -> Vec<(usize, usize)> {
    let mut all = vec![(0, 2)];
    let (mut here, mut at) = (r_of(plant), 2);
    while table[at] == 0 {
        let children = slow_children(&here);
        let chosen = children.iter().position(|child| inside(&wide(x, x, plant.n as usize), child)).expect("a child");
        let (lengths, behind) = slow_lengths(table, at + 1, children.len() - 1).expect("lengths");
        all.push((at, behind));
        at = behind + lengths[..chosen].iter().map(|(_, length)| *length as usize).sum::<usize>();
        here = children[chosen].clone();
    }
    assert_eq!(at, found.place);
    all.push((at, found.end));
    all
}

// ---- start files

#[test]
fn start_files_in_form_2() {
    let chain = chain_fields(&[[(190, 230)]]);
    let start = start_make(&P, &file(&chain), 2).expect("a start file");
    assert_eq!(start, file(&start_fields(&chain, &[&T2, &T2])));
    let plain = start_make(&P, &file(&chain), 1).expect("a start file");
    for tables in [[&T2[..], &T2], [&T1, &T2], [&T2, &T1], [&T2, &[3, 1, 0, 1, 1, 1, 0]]] {
        let start = file(&start_fields(&chain, &tables));
        assert_eq!(start_check(&P, &start), Ok(()));
        assert_eq!(start_listing(&P, &start), start_listing(&P, &plain));
        for x in 189..=231 {
            let call = |start: &[u8]| start_control(&P, start, StartState::IDLE, [x, 0, 0, 0]);
            assert_eq!(call(&start), call(&plain));
        }
    }
    // "Past the file" reads past the table's length: table 0 begins at place 7, its length stands at 10.
    let wrong = [2, 1, 0, 5, 1, 1, 1, 0];
    let start = file(&start_fields(&chain, &[&wrong, &T2]));
    let call = |start: &[u8], x| told(start_control(&P, start, StartState::IDLE, [x, 0, 0, 0]));
    assert_eq!((call(&start, 200), call(&start, 225)), ((6, 10, 0), (6, 10, 0)));
    assert_eq!(call(&start, 190), (0, 0, 0));
    assert_eq!(told(start_check(&P, &start)), (6, 10, 0));
    let at_its_end = file(&start_fields(&chain, &[&[2, 1, 0, 4, 1, 1, 1, 0], &T2]));
    assert_eq!((call(&at_its_end, 200), call(&at_its_end, 225)), ((0, 0, 0), (1, 15, 0)));
    for length in 0..start.len() {
        let mut buffer = marked(length);
        assert_eq!(told(start_make_into(&P, &file(&chain), 2, &mut buffer)), (10, 0, 0));
        assert_eq!(buffer, vec![0; length]);
    }
    // A state's place counts within the table.
    let prime = file(&with(&with(&p_fields(), 8, S(180)), 9, S(240)));
    let long = [2, 1, 0, 3, 2, 0, 1, 2, 0, 1];
    let start = file(&start_fields(&chain_fields::<[_; 1]>(&[]), &[&long]));
    assert_eq!(start_check(&prime, &start), Ok(()));
    let next = StartState { index: 0, place: 9, left: 1 };
    assert_eq!(start_control(&prime, &start, StartState::IDLE, [225; 4]), Ok((0, next)));
    assert_eq!(start_control(&prime, &start, next, [200; 4]), Ok((1, StartState::IDLE)));
}

// ---- the largest

/// The turn by a sixth in two rooms as the last mode, those before it leading out
/// of S: each reading of 64 by 64 its own tile.
fn turning(modes: usize, at: i64) -> Vec<u8> {
    let limit = 1_000_000;
    let mut fields = vec![U(1), U(2), U(modes as u64), U(1), U(6), U(6)];
    fields.extend([at, at + 63, -limit, limit, at, at + 63, -limit, limit, 0, 0, 0, 0].map(S));
    (1..modes).for_each(|_| fields.extend([0, 0, 2 * limit, 0, 0, 0].map(S)));
    fields.extend([4, -13, 0, 1, -3, 0].map(S));
    file(&fields)
}

/// The bytes of a full tree of form 2 with tiles of this many.
fn full_tree(n: usize, depth: usize, tile: usize) -> usize {
    if depth == 0 {
        return tile;
    }
    let (child, children) = (full_tree(n, depth - 1, tile), 1 << n);
    1 + (children - 1) * groups(child as u128).len() + children * child
}

/// Two rooms have the largest tables, and start files too, though four have more
/// edges.
#[test]
fn the_largest_by_rooms() {
    let table = |n: usize, tile: usize| 2 + full_tree(n, (12 / n).min(6), tile);
    assert_eq!([2, 3, 4].map(|n| table(n, 7)), [34_389, 33_417, 33_297]);
    assert_eq!([2, 3, 4].map(|n| table(n, 13)), [58_965, 57_993, 57_873]);
    let start = |n: usize| 2 + MOST_BOXES * 6 * n + (MOST_BOXES + 1) * (3 + table(n, 13));
    assert_eq!((2..=4).map(start).max(), Some(LARGEST_START));
    assert_eq!((start(2), start(3), start(4)), (530_810, 522_110, 521_078));
}

#[test]
fn the_largest_tables() {
    assert_eq!(LARGEST_TABLE, 58_965);
    for (modes, length) in [(1, 34_389), (129, 58_965)] {
        let plant = turning(modes, 1000);
        let mut table = marked(length + 1);
        assert_eq!(make(&plant, 2, &mut table), Ok(length));
        assert_eq!(table[length], 0xAA);
        assert_eq!(check(&plant, &table[..length]), Ok(()));
        assert_eq!(told(check(&plant, &table)), (6, length as u64, 0));
        assert_eq!(told(make(&plant, 2, &mut marked(length - 1))), (10, 0, 0));
        table.truncate(length);
        assert_eq!(laid_out(&plant, &table, 1), Ok(made(&plant, 1)));
        assert_eq!(laid_out(&plant, &made(&plant, 1), 2).as_ref(), Ok(&table));
        let values = read_plant(&plant).expect("a plant");
        let tiles = slow_tiles(&values, &r_of(&values), &table);
        for at in [0, 1, 2_047, 4_095] {
            let mut x = [0; 4];
            x.iter_mut().zip(&tiles[at].of.0).for_each(|(slot, lo)| *slot = *lo as i64);
            let next = State { place: tiles[at].second as u64, left: 5 };
            assert_eq!(control(&plant, &table, State::IDLE, x), Ok((modes as u8 - 1, next)));
        }
    }
}

#[test]
fn the_largest_start_file() {
    let plant = turning(129, 9000);
    let chain = chain_fields(&[[(9000, 9063), (9000, 9063)]; MOST_BOXES]);
    let start = file(&start_fields(&chain, &[&made(&plant, 2)[..]; MOST_BOXES + 1]));
    assert_eq!((start.len(), LARGEST_START), (530_810, 530_810));
    assert_eq!(start_make(&plant, &file(&chain), 2).as_ref(), Ok(&start));
    assert_eq!(told(start_make_into(&plant, &file(&chain), 2, &mut marked(530_809))), (10, 0, 0));
    assert_eq!(start_check(&plant, &start), Ok(()));
}

// ---- by the slow ways

/// A table with a byte changed, put in, taken out or behind, cut, or a length
/// made another.
fn damaged(random: &mut Random, table: &[u8]) -> Vec<u8> {
    let mut other = table.to_vec();
    let at = random.within(0, table.len() as i64 - 1) as usize;
    let near = other[at].wrapping_add([1, 2, 254, 255][random.within(0, 3) as usize]);
    let byte = [0, 1, 2, 3, near, near, 0x80, 0x81, random.next() as u8][random.within(0, 8) as usize];
    match random.within(0, 7) {
        0 => other.truncate(at),
        1 => other.insert(at, byte),
        2 => drop(other.remove(at)),
        3 => other.push(byte),
        4 => other[0] = random.within(0, 4) as u8,
        // the first length: small, near the file's end, or far
        5 => {
            let Some((length, next)) = slow_number(table, 3) else { return other };
            let left = (table.len() - next) as u64;
            let lengths = [length + 1, length.saturating_sub(1), left, left + 1, left.saturating_sub(1), 0, 1 << 34];
            let number = groups(u128::from(lengths[random.within(0, 6) as usize]));
            other.splice(3..next, number);
        }
        _ => other[at] = byte,
    }
    other
}

#[test]
fn checker_and_call_agree_on_damaged_tables() {
    let mut random = Random(54);
    let (mut verdicts, mut calls, mut lengths) = ([0; 9], [0; 9], 0);
    for (plant, bytes, table) in split_tables(540, 250) {
        for _ in 0..80 {
            let mut other = damaged(&mut random, &table);
            if random.within(0, 3) == 0 && !other.is_empty() {
                other = damaged(&mut random, &other);
            }
            let answer = told(check(&bytes, &other));
            assert_eq!(answer, slow_check(&plant, &other), "{plant:?} {other:?}");
            verdicts[answer.0 as usize] += 1;
            let x = reading_in(&plant.edges.r_lo, &plant.edges.r_hi, plant.n as usize, &mut random);
            let called = control(&bytes, &other, State::IDLE, x).map_err(|refusal| told::<()>(Err(refusal)));
            let shown = called.map(|(mode, next)| (mode, next.place, next.left));
            assert_eq!(shown, slow_idle(&plant, &other, &x), "{plant:?} {other:?} {x:?}");
            if answer.0 == 0 && other[0] == 2 {
                let tile = slow_full_walk(&plant, &r_of(&plant), &other, &x).expect("a tile");
                assert_eq!(shown, Ok(tile.answer()), "{plant:?} {other:?} {x:?}");
                assert_eq!(laid_out(&bytes, &other, 1), Ok(relaid(&plant, &other, 1)));
            }
            let number = called.map_or_else(|told| told.0, |_| 0);
            calls[number as usize] += 1;
            lengths += usize::from(called == Err((6, 3, 0)) && other[0] == 2);
        }
    }
    assert!([0, 1, 2, 6, 7, 8].into_iter().all(|number: usize| verdicts[number] > 20), "{verdicts:?}");
    assert!([0, 1, 2, 6].iter().all(|number| calls[*number] > 100) && lengths > 50, "{calls:?} {lengths}");
}

/// Every byte of a small table of each form with every value, checked and called.
#[test]
fn every_damage_of_small_tables() {
    let two = four_ways();
    let tables = [
        (P.to_vec(), T2.to_vec()),
        (two.clone(), vec![2, 2, 0, 2, 3, 2, 1, 0, 2, 1, 1, 1, 2, 1, 3]),
        (two.clone(), vec![2, 2, 0, 12, 2, 2, 0, 2, 2, 2, 1, 0, 1, 1, 1, 2, 1, 3, 1, 4, 1, 5, 1, 6]),
        (two, vec![3, 2, 0, 0, 1, 0, 0, 1, 1, 1, 2, 1, 3]),
    ];
    let mut calls = [0; 9];
    for (bytes, table) in tables {
        let plant = read_plant(&bytes).expect("a plant");
        let r = r_of(&plant);
        assert_eq!(check(&bytes, &table), Ok(()));
        for at in 0..table.len() {
            for byte in 0..=255 {
                let mut other = table.clone();
                other[at] = byte;
                assert_eq!(told(check(&bytes, &other)), slow_check(&plant, &other), "{other:?}");
                for corner in 0..1 << plant.n {
                    let side = |i: usize| if corner >> i & 1 == 0 { plant.edges.r_lo[i] } else { plant.edges.r_hi[i] };
                    let x = std::array::from_fn(side);
                    let called = control(&bytes, &other, State::IDLE, x).map_err(|refusal| told::<()>(Err(refusal)));
                    let wanted = slow_call(&plant, &r, &other, &x).map(|found| found.pattern[0]);
                    assert_eq!(called.map(|(mode, _)| mode), wanted, "{other:?} {x:?}");
                    calls[called.map_or_else(|told| told.0, |_| 0) as usize] += 1;
                }
            }
        }
    }
    assert!([0, 1, 2, 6].iter().all(|number| calls[*number] > 100), "{calls:?}");
}
