//! The maker side by side: answer and every byte of the buffer, on plants with
//! and without a table, of all forms and of numbers that are none, in buffers
//! long enough, just long enough and too short.

use second::plant::read_plant;
use side::common::{file, Random, S, U};
use side::inputs::{papers_plants, plant_fields, random, rounds, spoiled};
use side::seen::{each_came, Seen};
use side::tables::{any_form, deepest, made_table, FORMS, NO_FORMS};
use side::{largest_table_plant, longest_table_plant, turn_as_mode};

/// Whether there is a table.
fn every_buffer(seen: &mut Seen, plant: &[u8], form: u64) -> bool {
    let (number, made, _) = seen.make(plant, form, second::LARGEST_TABLE + 1);
    if number != 0 {
        seen.make(plant, form, 0);
        return false;
    }
    let made = made as usize;
    for length in [0, 1, made / 2, made - 1, made, made + 1] {
        seen.make(plant, form, length);
    }
    true
}

#[test]
fn the_papers_plants() {
    let mut seen = Seen::default();
    for plant in papers_plants() {
        for form in FORMS {
            every_buffer(&mut seen, &plant, form);
        }
        for length in 0..plant.len() {
            for form in FORMS {
                seen.make(&plant[..length], form, 40);
            }
        }
    }
}

/// Two rooms and four, and of each form as long as can be: what a table of that form has at most of modes of one byte, and of two.
#[test]
fn the_largest_tables() {
    let mut seen = Seen::default();
    let four_rooms = [turn_as_mode(4, 0, 1000), turn_as_mode(4, 128, 1000)];
    let (largest, longest) = (largest_table_plant(), longest_table_plant());
    for (plant, form, length) in [
        (&largest, 1, 30_039),
        (&longest, 1, 54_615),
        (&largest, 2, 34_389),
        (&longest, 2, second::LARGEST_TABLE),
        (&largest, 3, 32_769),
        (&longest, 3, 57_345),
        (&four_rooms[0], 1, 28_947),
        (&four_rooms[0], 2, 33_297),
        (&four_rooms[0], 3, 32_769),
        (&four_rooms[1], 2, 57_873),
        (&four_rooms[1], 3, 57_345),
    ] {
        assert_eq!(seen.make(plant, form, length), (0, length as u64, 0));
        assert_eq!(seen.make(plant, form, length - 1), (10, 0, 0));
    }
}

/// Which forms plants have a table of, and how many have one of form 3 that is as deep as may be.
#[derive(Default, Debug)]
struct Came {
    both: usize,
    one_alone: usize,
    three_alone: usize,
    fewer_tiles: usize,
    deepest: [usize; 5],
}

impl Came {
    fn count(&mut self, plant: &[u8], [one, two, three]: [bool; 3]) {
        assert_eq!(one, two, "forms 1 and 2 are one tree: {plant:?}");
        self.both += usize::from(one && three);
        self.one_alone += usize::from(one && !three);
        self.three_alone += usize::from(three && !one);
        let Some(table) = made_table(plant, 3) else { return };
        let plant_read = read_plant(plant).expect("a sound plant");
        self.fewer_tiles += usize::from(made_table(plant, 1).is_some_and(|other| other.len() > table.len()));
        self.deepest[plant_read.rooms()] += usize::from(plant_read.d > 0 && deepest(&plant_read, &table) == plant_read.n * plant_read.d);
    }
}

#[test]
fn seeded_plants() {
    let (mut random, mut seen, mut came) = (random(4), Seen::default(), Came::default());
    for _ in 0..rounds(5_000) {
        let plant = file(&plant_fields(&mut random));
        let made = FORMS.map(|form| every_buffer(&mut seen, &plant, form));
        came.count(&plant, made);
    }
    println!("{came:?}");
    for number in [0, 9, 10] {
        assert!(seen.make[number] > 100, "{number}: {:?}", seen.make);
    }
    assert!(came.both > 100 && came.one_alone > 10 && came.three_alone > 20 && came.fewer_tiles > 50, "{came:?}");
    assert!(came.deepest[1..].iter().all(|times| *times > 5), "{came:?}");
}

/// 2 at 0, whatever is lent, on plants with a table and without one; what is told of a plant comes before it.
#[test]
fn forms_that_are_not_known() {
    let (mut random, mut seen) = (random(12), Seen::default());
    let mut tables = [0; 2];
    for _ in 0..rounds(100) {
        let fields = plant_fields(&mut random);
        let plant = file(&fields);
        tables[usize::from(made_table(&plant, 1).is_some())] += 1;
        for form in NO_FORMS {
            for length in [0, 5, 300, second::LARGEST_TABLE] {
                assert_eq!(seen.make(&plant, form, length), (2, 0, 0), "{form} {plant:?}");
            }
        }
        for (other, wanted) in spoiled(&fields) {
            let form = random.one(&NO_FORMS);
            assert_eq!(seen.make(&other, form, 9), wanted, "{form} {other:?}");
        }
    }
    assert!(tables.iter().all(|times| *times > 10), "{tables:?}");
    each_came("make, no form", &seen.make, &[1, 2, 3, 4, 5], 100);
}

/// One room that each mode moves by some counts, one more than a multiple of `length`, so that no shorter pattern leads back to R, which is the one
/// count 0. S is wide, or narrow enough to drop some beginnings of patterns.
fn moving(random: &mut Random, modes: u64, length: i64) -> Vec<u8> {
    let s = random.one(&[2 * length, 1_000]);
    let mut fields = vec![U(1), U(1), U(modes), U(1), U(6), U(0)];
    fields.extend([0, 0, -s, s, 0, 0].map(S));
    for _ in 0..modes {
        fields.extend([1, 1 + length * random.within(-2, 1)].map(S));
    }
    file(&fields)
}

/// Patterns of every length among few modes and many, more than the library keeps beginnings of.
#[test]
fn patterns_of_every_length() {
    let (mut random, mut seen, mut lengths) = (random(9), Seen::default(), [0; 7]);
    for _ in 0..rounds(400) {
        let modes = random.within(1, 16);
        let length = random.within(1, 6);
        let plant = moving(&mut random, modes as u64, length);
        if let (0, made, _) = seen.make(&plant, any_form(&mut random), second::LARGEST_TABLE) {
            lengths[made as usize - 3] += usize::from(modes > 5);
        }
    }
    assert!(seen.make[9] > 10 && lengths[1..].iter().all(|times| *times > 10), "{:?}, {lengths:?}", seen.make);
}
