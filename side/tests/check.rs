//! The plant's reader and the checker side by side: the paper's plants and
//! tables, each cut at every length, damaged at every byte, under every other
//! form, and with bytes behind; seeded trees over seeded plants. Every answer is
//! number, place and step.

use side::common::file;
use side::inputs::{damaged, papers_plants, plant_fields, random, rounds};
use side::seen::{each_came, Seen};
use side::tables::{any_tree, in_no_form, in_other_forms, made_table, made_tables};
use side::{largest_table_plant, longest_table_plant};

#[test]
fn the_papers_plants_and_tables() {
    let (mut random, mut seen) = (random(1), Seen::default());
    for bytes in papers_plants() {
        damaged(&mut random, &bytes, |other| {
            seen.plant(other);
        });
        for table in made_tables(&bytes) {
            damaged(&mut random, &table, |other| {
                seen.check(&bytes, other);
            });
            damaged(&mut random, &bytes, |other| {
                seen.check(other, &table);
            });
        }
    }
}

#[test]
fn the_largest_tables() {
    let mut seen = Seen::default();
    let (largest, longest) = (largest_table_plant(), longest_table_plant());
    for (bytes, form, length) in [
        (&largest, 1, 30_039),
        (&longest, 1, 54_615),
        (&largest, 2, 34_389),
        (&longest, 2, second::LARGEST_TABLE),
        (&largest, 3, 32_769),
        (&longest, 3, 57_345),
    ] {
        let table = made_table(bytes, form).expect("a plant with a table");
        assert_eq!(table.len(), length);
        assert_eq!(seen.check(bytes, &table), (0, 0, 0));
        assert_eq!(seen.check(bytes, &[&table[..], &[0]].concat()), (6, length as u64, 0));
        for at in (0..length).step_by(997).chain(length - 9..length) {
            let mut other = table.clone();
            other[at] ^= 1;
            seen.check(bytes, &other);
            seen.check(bytes, &table[..at]);
        }
    }
}

/// Plants of 1 to 4 rooms; trees of any bytes, and made ones with a byte changed.
#[test]
fn seeded_plants_and_trees() {
    let (mut random, mut seen) = (random(2), Seen::default());
    for _ in 0..rounds(20_000) {
        let bytes = file(&plant_fields(&mut random));
        let tree = any_tree(&mut random, bytes[1]);
        seen.check(&bytes, &tree);
        for mut table in made_tables(&bytes) {
            assert_eq!(seen.check(&bytes, &table), (0, 0, 0));
            let at = random.within(0, table.len() as i64 - 1) as usize;
            table[at] = random.within(0, 5) as u8;
            seen.check(&bytes, &table);
        }
    }
    // the seeds reach what they are meant to reach
    each_came("check", &seen.check, &[0, 1, 2, 6, 7, 8], 20);
}

/// A table under another form is judged by that one: accepted where its tree is one of both, and else told of at every kind of place.
#[test]
fn tables_under_another_form() {
    let (mut random, mut seen, mut others) = (random(10), Seen::default(), Seen::default());
    for _ in 0..rounds(8_000) {
        let bytes = file(&plant_fields(&mut random));
        for table in made_tables(&bytes) {
            for other in in_other_forms(&table) {
                others.check(&bytes, &other);
            }
            for (other, wanted) in in_no_form(&table) {
                assert_eq!(seen.check(&bytes, &other), wanted, "{bytes:?} {other:?}");
            }
        }
    }
    each_came("check, another form", &others.check, &[0, 1, 6, 7, 8], 20);
    each_came("check, no form", &seen.check, &[1, 2], 1_000);
}
