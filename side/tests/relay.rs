//! Request 2026-01, a table turned into another form of the same tree, side by
//! side and by hand: forms 1 and 2 there and back, any table in its own form, forms
//! that split otherwise and numbers that are none, what is refused and in which
//! order, buffers of every kind, the largest tables, and modes of two bytes.

use second::plant::read_plant;
use second::LARGEST_TABLE;
use side::common::{file, groups, marked, p_prime, Random, P, S, T1, T5, U};
use side::inputs::{damaged, papers_plants, plant_fields, random, rounds, spoiled};
use side::seen::{each_came, Seen};
use side::tables::{any_form, any_told_form, any_tree, in_no_form, in_other_forms, made_table, made_tables, other_table, wrong_lengths, FORMS, NO_FORMS};
use side::{largest_table_plant, longest_table_plant, turn_as_mode, Told};

/// P's table of form 2 and of form 3.
const T2: [u8; 8] = [2, 1, 0, 2, 1, 1, 1, 0];
const T3: [u8; 7] = [3, 1, 0, 1, 1, 1, 0];

/// These bytes come of the table in this form, in buffers that are long enough, and 10 in those that are not.
fn gives(seen: &mut Seen, plant: &[u8], table: &[u8], form: u64, wanted: &[u8]) {
    let length = wanted.len();
    for short in [0, 1, length / 2, length - 1] {
        assert_eq!(seen.relay(plant, table, form, short), (10, 0, 0), "{form} {plant:?} {table:?}");
    }
    for enough in [length, length + 1, length + 300] {
        assert_eq!(seen.relay(plant, table, form, enough), (0, length as u64, 0), "{form} {plant:?} {table:?}");
    }
    let mut buffer = vec![0; length];
    side::relay(plant, table, form, &mut buffer);
    assert!(buffer == wanted, "{form} {plant:?} {table:?}: {buffer:?}, wanted {wanted:?}");
}

/// A table of form 1 and one of form 2 are one tree: there, back, each in its own form, and both accepted.
fn one_tree(seen: &mut Seen, plant: &[u8], one: &[u8], two: &[u8]) {
    for (table, form, wanted) in [(one, 2, two), (two, 1, one), (one, 1, one), (two, 2, two)] {
        assert_eq!(seen.check(plant, table), (0, 0, 0), "{plant:?} {table:?}");
        gives(seen, plant, table, form, wanted);
    }
}

/// The same refusal whatever is lent.
fn refused(seen: &mut Seen, plant: &[u8], table: &[u8], form: u64, wanted: Told) {
    for length in [0, 5, table.len(), 2 * table.len() + 30] {
        assert_eq!(seen.relay(plant, table, form, length), wanted, "{form} {plant:?} {table:?}");
    }
}

/// The forms that a table cannot have, and numbers that are no form: 2 at 0.
fn in_no_other_form(seen: &mut Seen, plant: &[u8], table: &[u8]) {
    let otherwise = if table[0] == 3 { &[1, 2][..] } else { &[3] };
    for form in otherwise.iter().chain(&NO_FORMS) {
        refused(seen, plant, table, *form, (2, 0, 0));
    }
}

#[test]
fn the_papers_tables() {
    let mut seen = Seen::default();
    for (table, form, wanted) in [(&T1[..], 2, &T2[..]), (&T2, 1, &T1), (&T1, 1, &T1), (&T2, 2, &T2), (&T3, 3, &T3)] {
        for length in 0..12 {
            let told = if length < wanted.len() { (10, 0, 0) } else { (0, wanted.len() as u64, 0) };
            assert_eq!(seen.relay(&P, table, form, length), told);
        }
        gives(&mut seen, &P, table, form, wanted);
    }
    for table in [&T1[..], &T2, &T3] {
        in_no_other_form(&mut seen, &P, table);
    }
    // a table of one tile differs in its header alone, and is still not of the other split
    one_tree(&mut seen, &p_prime(), &T5, &[&[2], &T5[1..]].concat());
    in_no_other_form(&mut seen, &p_prime(), &T5);
    in_no_other_form(&mut seen, &p_prime(), &[&[3], &T5[1..]].concat());
    for plant in papers_plants() {
        let made = FORMS.map(|form| made_table(&plant, form));
        if let [Some(one), Some(two), _] = &made {
            one_tree(&mut seen, &plant, one, two);
        }
        for table in made.into_iter().flatten() {
            gives(&mut seen, &plant, &table, table[0].into(), &table);
            in_no_other_form(&mut seen, &plant, &table);
        }
    }
    each_came("relay", &seen.relay, &[0, 2, 10], 100);
}

/// Finished, only the table's bytes are changed; refused, the whole buffer is zeros.
#[test]
fn what_is_left_of_a_buffer() {
    let left = |table: &[u8], form, length| {
        let mut buffer = marked(length);
        side::relay(&P, table, form, &mut buffer);
        buffer
    };
    for length in 0..20 {
        let behind = |wanted: &[u8]| [wanted, &marked(length - wanted.len())].concat();
        let zeros = vec![0; length];
        assert_eq!(left(&T1, 2, length), if length < T2.len() { zeros.clone() } else { behind(&T2) });
        assert_eq!(left(&T2, 1, length), if length < T1.len() { zeros.clone() } else { behind(&T1) });
        for (table, form) in [(&T1[..], 3), (&T2, 0), (&T2[..7], 1), (&[2, 1, 0, 3, 1, 1, 1, 0], 1), (&[1, 1, 1, 1], 2)] {
            assert_eq!(left(table, form, length), zeros, "{table:?} {form}");
        }
    }
}

/// The checker's answer, then the form's, then the buffer's.
#[test]
fn the_order_by_hand() {
    let mut seen = Seen::default();
    for (table, wanted) in [
        (&[][..], (1, 0, 0)),
        (&[2, 1, 0], (1, 3, 0)),
        (&[4, 1, 0, 1, 1, 1, 0], (2, 0, 0)),
        (&[2, 2, 0, 2, 1, 1, 1, 0], (6, 1, 0)),
        (&[2, 1, 0, 3, 1, 1, 1, 0], (6, 3, 0)),
        (&[2, 1, 0, 1, 1, 1, 1, 0], (6, 3, 0)),
        (&[2, 1, 0, 0x82, 0, 1, 1, 1, 0], (1, 3, 0)),
        (&[2, 1, 0, 2, 1, 1, 1, 0, 0], (6, 8, 0)),
        (&[2, 1, 0, 2, 1, 1, 1], (1, 7, 0)),
        (&[1, 1, 0, 1, 1, 1, 2], (6, 6, 0)),
        (&[1, 1, 1, 1], (7, 2, 1)),
        (&[1, 1, 0, 2, 1, 0, 1, 0], (8, 3, 2)),
    ] {
        for form in [1, 2, 3, 0, 258, u64::MAX] {
            refused(&mut seen, &P, table, form, wanted);
        }
        // the plant comes before the table
        refused(&mut seen, &P[..3], table, 9, (1, 3, 0));
    }
    for length in 0..9 {
        assert_eq!(seen.relay(&P, &T1, 3, length), (2, 0, 0));
    }
}

/// Rooms of so many counts from 0 on, which S has too, every mode leading to 0 in all of them: every tile works.
fn rooms(counts: &[i64], d: u64, modes: u64) -> Vec<u8> {
    let n = counts.len();
    let mut fields = [1, n as u64, modes, 1, 6, d].map(U).to_vec();
    fields.extend(counts.iter().flat_map(|counts| [0, counts - 1, 0, counts - 1]).map(S));
    fields.extend(vec![S(0); 2 * n + modes as usize * n * (n + 1)]);
    file(&fields)
}

/// Lengths count bytes, of which a mode from 128 on has two.
#[test]
fn modes_of_two_bytes() {
    let (mut seen, plant) = (Seen::default(), rooms(&[2], 1, 256));
    for (first, length) in [
        (&[1, 127][..], 2),
        (&[1, 0x80, 1], 3),
        (&[1, 0xFF, 1], 3),
        (&[2, 127, 0], 3),
        (&[2, 0x80, 1, 0x7F], 4),
        (&[2, 0x80, 1, 0xFF, 1], 5),
        (&[6, 0x80, 1, 5, 0xC8, 1, 5, 5, 0xFF, 1], 10),
    ] {
        for last in [&[1, 127][..], &[1, 0x80, 1], &[3, 0xFF, 1, 0, 0x80, 1]] {
            one_tree(&mut seen, &plant, &[&[1, 1, 0], first, last].concat(), &[&[2, 1, 0, length], first, last].concat());
        }
    }
    // 256 is no mode, and a mode is cut inside
    for form in [1, 2, 3, 7] {
        refused(&mut seen, &plant, &[2, 1, 0, 3, 1, 0x80, 2, 1, 0], form, (6, 5, 0));
        refused(&mut seen, &plant, &[2, 1, 0, 3, 1, 0x80, 1, 1, 0x80], form, (1, 8, 0));
    }
}

/// A tile of so many bytes, 2 to 13.
fn tile(bytes: usize) -> Vec<u8> {
    let (modes, of_two_bytes) = ((bytes - 1).min(6), (bytes - 1).saturating_sub(6));
    [vec![modes as u8], [0x80, 1].repeat(of_two_bytes), vec![0; modes - of_two_bytes]].concat()
}

/// Sixteen tiles of so many bytes in all.
fn sixteen_tiles(bytes: usize) -> Vec<Vec<u8>> {
    let longer = |at: usize| (bytes - 32).saturating_sub(11 * at).min(11);
    (0..16).map(|at| tile(2 + longer(at))).collect()
}

/// A child of 127 bytes has a length of one, a child of 128 one of two; the child's own fifteen lengths count.
#[test]
fn lengths_of_one_byte_and_of_two() {
    let (mut seen, plant, last) = (Seen::default(), rooms(&[4; 4], 2, 129), [1, 0].repeat(15));
    for (bytes, length) in [(48, vec![48]), (126, vec![126]), (127, vec![127]), (128, vec![0x80, 1]), (129, vec![0x81, 1]), (224, vec![0xE0, 1])] {
        let tiles = sixteen_tiles(bytes - 16);
        let lengths: Vec<u8> = tiles[..15].iter().map(|tile| tile.len() as u8).collect();
        let one = [&[1, 4, 0, 0][..], &tiles.concat(), &last].concat();
        let two = [&[2, 4, 0][..], &length, &[2; 14], &[0], &lengths, &tiles.concat(), &last].concat();
        one_tree(&mut seen, &plant, &one, &two);
    }
}

/// A tree of both forms, in a split whose other children are tiles: as the first child, and as the last, whose length no form tells.
fn deeper([one, two]: &[Vec<u8>; 2], others: usize, is_first: bool) -> [Vec<u8>; 2] {
    let tiles = [1, 0].repeat(others);
    if is_first {
        let lengths = [groups(two.len() as u128), vec![2; others - 1]].concat();
        [[&[0], &one[..], &tiles].concat(), [&[0], &lengths[..], two, &tiles].concat()]
    } else {
        [[&[0], &tiles[..], one].concat(), [&[0], &vec![2; others][..], &tiles, two].concat()]
    }
}

/// As many splits one inside the other as may be, and one more.
#[test]
fn the_depth_bound() {
    let mut seen = Seen::default();
    for (n, d) in (1..=4_usize).flat_map(|n| (0..=6.min(12 / n as u64)).map(move |d| (n, d))) {
        let plant = rooms(&vec![128; n], d, 1);
        let table = |form, tree: &[u8]| [&[form, n as u8], tree].concat();
        for is_first in [true, false] {
            let mut tree = [vec![1, 0], vec![1, 0]];
            for _ in 0..=d {
                one_tree(&mut seen, &plant, &table(1, &tree[0]), &table(2, &tree[1]));
                tree = deeper(&tree, (1 << n) - 1, is_first);
            }
            for (form, tree) in [1, 2].into_iter().zip(&tree) {
                let told = seen.check(&plant, &table(form, tree));
                assert_eq!((told.0, told.2), (6, 0), "{n} rooms, D {d}");
                FORMS.iter().for_each(|into| refused(&mut seen, &plant, &table(form, tree), *into, told));
            }
        }
    }
}

/// Two rooms and four, modes of one byte and of two: as long as a table of each form can be.
#[test]
fn the_largest_tables() {
    let mut seen = Seen::default();
    for (plant, lengths) in [
        (largest_table_plant(), [30_039, 34_389, 32_769]),
        (longest_table_plant(), [54_615, LARGEST_TABLE, 57_345]),
        (turn_as_mode(4, 0, 1000), [28_947, 33_297, 32_769]),
        (turn_as_mode(4, 128, 1000), [53_523, 57_873, 57_345]),
    ] {
        let made = FORMS.map(|form| made_table(&plant, form).expect("a plant with a table"));
        assert_eq!(made.each_ref().map(Vec::len), lengths);
        one_tree(&mut seen, &plant, &made[0], &made[1]);
        gives(&mut seen, &plant, &made[2], 3, &made[2]);
        for table in &made {
            refused(&mut seen, &plant, &[&table[..], &[0]].concat(), 2, (6, table.len() as u64, 0));
            refused(&mut seen, &plant, table, if table[0] == 3 { 2 } else { 3 }, (2, 0, 0));
            for at in (0..table.len()).step_by(2_997).chain(table.len() - 3..table.len()) {
                let mut other = table.clone();
                other[at] ^= 1;
                as_the_checker(&mut seen, &plant, &other, 2, LARGEST_TABLE);
                as_the_checker(&mut seen, &plant, &table[..at], 1, LARGEST_TABLE);
            }
        }
    }
}

/// What the checker refuses is refused alike, whatever the form and the buffer.
fn as_the_checker(seen: &mut Seen, plant: &[u8], table: &[u8], form: u64, length: usize) -> Told {
    let (checked, told) = (seen.check(plant, table), seen.relay(plant, table, form, length));
    assert!(told == checked || checked.0 == 0 && [0, 2, 10].contains(&told.0), "{form} {plant:?} {table:?}: {told:?}, {checked:?}");
    told
}

/// What the seeds came upon.
#[derive(Default, Debug)]
struct Came {
    split: [usize; 5],
    others: usize,
    halved: usize,
}

/// The same tree grown in form 1 and in form 2, since both are grown by the same chances.
fn grown_alike(random: &mut Random, plant: &[u8]) -> Option<[Vec<u8>; 2]> {
    let plant = read_plant(plant).expect("a sound plant");
    let one = other_table(&mut Random(random.0), &plant, 1);
    let two = other_table(random, &plant, 2);
    Some([one?, two?])
}

/// Made tables and others of seeded plants, in every form and in numbers that are none. The made table of form 1 is turned into the made one of form 2.
#[test]
fn seeded_tables() {
    let (mut random, mut seen, mut came) = (random(60), Seen::default(), Came::default());
    for _ in 0..rounds(3_000) {
        let plant = file(&plant_fields(&mut random));
        let made = made_table(&plant, 1).map(|one| [one, made_table(&plant, 2).expect("forms 1 and 2 are one tree")]);
        let other = grown_alike(&mut random, &plant);
        came.others += usize::from(made.is_some() && other.is_some() && made != other);
        for [one, two] in [made, other].into_iter().flatten() {
            one_tree(&mut seen, &plant, &one, &two);
            came.split[usize::from(plant[1])] += usize::from(one[2] == 0);
            in_no_other_form(&mut seen, &plant, random.one(&[&one[..], &two]));
        }
        if let Some(three) = made_table(&plant, 3) {
            gives(&mut seen, &plant, &three, 3, &three);
            in_no_other_form(&mut seen, &plant, &three);
            came.halved += usize::from(three[2] == 0);
        }
    }
    println!("{came:?}");
    each_came("relay", &seen.relay, &[0, 2, 10], 1_000);
    assert!(came.split[1..].iter().all(|times| *times > 20), "{came:?}");
    assert!(came.others > 100 && came.halved > 100, "{came:?}");
}

/// Any tree of rooms where every tile works: sides that do not split, lengths and modes of one byte and of two.
#[test]
fn any_tree_of_many_modes() {
    let (mut random, mut seen, mut two_bytes, mut long) = (random(63), Seen::default(), 0, 0);
    for _ in 0..rounds(3_000) {
        let n = random.within(1, 4);
        let counts: Vec<i64> = (0..n).map(|_| random.one(&[1, 3, 64, 64, 64])).collect();
        let plant = rooms(&counts, random.within(1, 6.min(12 / n)) as u64, random.one(&[1, 127, 129, 256]));
        let [one, two] = grown_alike(&mut random, &plant).expect("every tile works");
        one_tree(&mut seen, &plant, &one, &two);
        two_bytes += usize::from(one[2] == 0 && one.iter().any(|byte| *byte >= 128));
        long += usize::from(one[2] == 0 && one.iter().all(|byte| *byte < 128) && two.iter().any(|byte| *byte >= 128));
    }
    println!("{two_bytes} split tables with a mode of two bytes, {long} with a length of two alone");
    assert!(two_bytes > 100 && long > 20, "{two_bytes} {long}");
}

/// A length to lend: none, or about what a table takes, or enough for any.
fn any_length(random: &mut Random, table: &[u8]) -> usize {
    let about = table.len() + random.within(0, 20) as usize;
    random.one(&[0, about, LARGEST_TABLE])
}

/// Tables cut, damaged, with lengths made wrong, under another form or none, and of any bytes: the checker's number, place and step.
#[test]
fn refused_tables() {
    let (mut random, mut seen, mut accepted) = (random(61), Seen::default(), 0);
    for _ in 0..rounds(400) {
        let bytes = file(&plant_fields(&mut random));
        let plant = read_plant(&bytes).expect("a sound plant");
        let mut tables = vec![any_tree(&mut random, bytes[1])];
        for table in made_tables(&bytes) {
            tables.extend(in_other_forms(&table));
            damaged(&mut random, &table, |other| tables.push(other.to_vec()));
            for (other, wanted) in wrong_lengths(&plant, &plant.r(), &table).into_iter().chain(in_no_form(&table)) {
                let (form, length) = (any_told_form(&mut random), any_length(&mut random, &other));
                assert_eq!(seen.relay(&bytes, &other, form, length), wanted, "{form} {bytes:?} {other:?}");
            }
        }
        for table in tables {
            let (form, length) = (any_told_form(&mut random), any_length(&mut random, &table));
            let told = as_the_checker(&mut seen, &bytes, &table, form, length);
            accepted += usize::from(told.0 == 0);
        }
    }
    each_came("relay", &seen.relay, &[0, 1, 2, 6, 7, 8, 10], 100);
    assert!(accepted > 100, "{accepted}");
}

/// What is told of the plant comes before all else, be the table sound or not, the form known or not, the buffer long enough or not.
#[test]
fn the_plant_first() {
    let (mut random, mut seen) = (random(62), Seen::default());
    for _ in 0..rounds(150) {
        let fields = plant_fields(&mut random);
        let bytes = file(&fields);
        let table = made_table(&bytes, any_form(&mut random)).unwrap_or_else(|| any_tree(&mut random, bytes[1]));
        for (other, wanted) in spoiled(&fields) {
            let cut = random.within(0, table.len() as i64) as usize;
            let table = random.one(&[&table[..], &table[..cut]]);
            let (form, length) = (any_told_form(&mut random), any_length(&mut random, table));
            assert_eq!(seen.relay(&other, table, form, length), wanted, "{form} {other:?} {table:?}");
        }
    }
    each_came("relay, the plant", &seen.relay, &[1, 2, 3, 4, 5], 100);
}
