//! The papers' cases of docs/PAPERS.md by the proved library: the same files in
//! samples/, which second/tests/papers.rs pins, give the second program's
//! bytes, are accepted, and drive rooms that do what the plant allows; tables
//! and start files of all forms.

use second::plant::{read_plant, Plant};
use side::common::{Random, Raw};
use side::rooms::{following, Next, EVERY_NEXT};
use side::starts::{boxes_of, Start};
use side::tables::{longest_pattern, FORMS};
use side::{check, control, make, sheet, start_check, start_control, start_make, Standing, Told, NO_MODE};

const SHEETS: [&str; 5] = [
    "002-example-1-four-tiles.sheet",
    "002-example-1-one-tile.sheet",
    "002-example-1-printed.sheet",
    "002-example-2.sheet",
    "001-example-1.sheet",
];

const INTEGRATED: [&str; 4] = [
    "002-example-1-four-tiles-integrated.plant",
    "002-example-1-one-tile-integrated.plant",
    "002-example-2-integrated.plant",
    "001-example-1-integrated.plant",
];

fn sample(name: &str) -> Vec<u8> {
    let path = format!("{}/../samples/{name}", env!("CARGO_MANIFEST_DIR"));
    std::fs::read(&path).unwrap_or_else(|error| panic!("{path}: {error}"))
}

/// What the library writes to a buffer that is long enough.
fn written(most: usize, by: impl Fn(&mut [u8]) -> Told) -> Vec<u8> {
    let mut buffer = vec![0; most];
    let (number, length, _) = by(&mut buffer);
    assert_eq!(number, 0);
    buffer.truncate(length as usize);
    buffer
}

/// What the second program writes.
fn second_written<E: std::fmt::Debug>(most: usize, by: impl Fn(&mut [u8]) -> Result<usize, E>) -> Vec<u8> {
    let mut buffer = vec![0; most];
    let length = by(&mut buffer).expect("a file");
    buffer.truncate(length);
    buffer
}

/// A thousand samples from the low corner of R, idle in R only.
fn drive(bytes: &[u8], plant: &Plant, table: &[u8], next: Next, random: &mut Random) {
    let (mut x, mut place, mut left) = (plant.edges.r_lo, 0, 0);
    for sample in 0..1_000 {
        let zone = if (place, left) == (0, 0) { plant.r() } else { plant.s() };
        assert!(zone.contains(&x), "{x:?} outside {zone:?}");
        let (mode, out) = control(bytes, table, place, left, x);
        assert!(mode != NO_MODE && out[..3] == [0; 3], "refused {out:?} at {x:?}");
        (place, left) = (out[3], out[4]);
        x = following(random, next, sample, plant, mode, &x);
    }
}

/// The library's tables are the second program's, are accepted, and drive.
fn holds(plant: &[u8]) {
    for form in FORMS {
        holds_in(plant, form);
    }
}

fn holds_in(plant: &[u8], form: u64) {
    let most = second::LARGEST_TABLE;
    let table = written(most, |buffer| make(plant, form, buffer));
    assert_eq!(table, second_written(most, |buffer| second::maker::make(plant, form, buffer)));
    assert_eq!(check(plant, &table), (0, 0, 0));
    let read = read_plant(plant).expect("a plant");
    for next in EVERY_NEXT {
        drive(plant, &read, &table, next, &mut Random(1));
    }
}

#[test]
fn the_papers_sheets() {
    for name in SHEETS {
        let bytes = sample(name);
        let most = second::LARGEST_PLANT;
        let plant = written(most, |buffer| sheet(&bytes, buffer));
        let wanted = second_written(most, |buffer| second::sheet::sheet_to_plant(&bytes, buffer));
        assert_eq!(plant, wanted, "{name}");
        holds(&plant);
    }
}

#[test]
fn the_papers_integrated_plants() {
    for name in INTEGRATED {
        holds(&sample(name));
    }
}

/// The start files of 001 and the samples that they promise from Rm.
const COLD: [(&str, usize); 2] = [("001-example-1", 32), ("001-example-1-integrated", 33)];

#[test]
fn the_start_files_of_001() {
    for (name, _) in COLD {
        let [plant, chain, start] = ["plant", "chain", "start"].map(|kind| sample(&format!("{name}.{kind}")));
        let made = |form| written(second::LARGEST_START, |buffer| start_make(&plant, &chain, form, buffer));
        assert_eq!(made(1), start, "{name}");
        for form in FORMS {
            assert_eq!(made(form), second::start::start_make(&plant, &chain, form).expect("a start file"), "{name}");
            assert_eq!(start_check(&plant, &made(form)), (0, 0, 0), "{name}");
        }
    }
}

/// From -35 degrees in both rooms: home within the samples that the start file
/// promises, whatever readings follow.
#[test]
fn home_from_35_degrees_of_frost() {
    for (name, promised) in COLD {
        let [plant, chain] = ["plant", "chain"].map(|kind| sample(&format!("{name}.{kind}")));
        for form in FORMS {
            let start = written(second::LARGEST_START, |buffer| start_make(&plant, &chain, form, buffer));
            let most = samples_promised(&plant, &chain, &start);
            assert!(form == 3 || most == promised, "{name} promises {most}");
            for next in EVERY_NEXT {
                let samples = arrival(&plant, &start, next);
                assert!(samples <= most, "{samples} samples, {most} promised");
            }
        }
    }
}

/// The sum of the longest patterns of the tables behind R0's.
fn samples_promised(plant: &[u8], chain: &[u8], start: &[u8]) -> usize {
    let whole = Start::of(&[Raw(chain.to_vec())], start);
    assert_eq!(start_check(plant, &whole.bytes()), (0, 0, 0));
    let read = read_plant(plant).expect("a plant");
    let boxes = boxes_of(&read, &whole.chain);
    (1..=boxes.m()).map(|index| longest_pattern(&read, boxes.root(index), &whole.tables[index])).sum()
}

/// Samples until an idle call meets a reading in R, of a thousand that are driven.
fn arrival(bytes: &[u8], start: &[u8], next: Next) -> usize {
    let (plant, mut random) = (read_plant(bytes).expect("a plant"), Random(2));
    let (mut x, mut standing): ([i64; 4], Standing) = ([-3_500; 4], [0; 3]);
    let mut home = None;
    for sample in 0..1_000 {
        if standing == [0; 3] && plant.r().contains(&x) {
            home = home.or(Some(sample));
        }
        assert!(plant.s().contains(&x) && (home.is_none() || standing[0] == 0), "{x:?}");
        let (mode, out) = start_control(bytes, start, standing, x);
        assert!(mode != NO_MODE && out[..3] == [0; 3], "refused {out:?} at {x:?}");
        standing = [out[3], out[4], out[5]];
        x = following(&mut random, next, sample, &plant, mode, &x);
    }
    home.expect("an arrival")
}
