//! Demand 3, run: an accepted table drives a plant whose next reading is the
//! lowest, the highest, one by turns or any that equation and band allow. No
//! call is refused, every reading lies in S, and from each reading at which a
//! tile is chosen the plant is back in R, the controller idle, within as many
//! samples as the table's longest pattern.

use second::plant::read_plant;
use side::common::{file, Random};
use side::inputs::{papers_plants, plant_fields, random, rounds};
use side::rooms::{following, Next, EVERY_NEXT};
use side::tables::{deepest, longest_pattern, other_table, FORMS};
use side::{check, control, largest_table_plant, longest_table_plant, make, NO_MODE};

/// One run from a reading in R.
fn run(random: &mut Random, next: Next, samples: usize, bytes: &[u8], table: &[u8], mut x: [i64; 4]) {
    let plant = read_plant(bytes).unwrap();
    let longest = longest_pattern(&plant, &plant.r(), table);
    let (mut place, mut left, mut since_idle) = (0, 0, 0);
    for sample in 0..samples {
        assert!(plant.s().contains(&x), "{x:?} outside S: {bytes:?} {table:?}");
        if (place, left) == (0, 0) {
            assert!(plant.r().contains(&x), "{x:?} outside R: {bytes:?} {table:?}");
            since_idle = 0;
        }
        let (mode, out) = control(bytes, table, place, left, x);
        assert!(mode != NO_MODE && out[..3] == [0; 3], "refused {out:?} at {x:?}: {bytes:?} {table:?}");
        since_idle += 1;
        assert!(since_idle <= longest, "{since_idle} samples: {bytes:?} {table:?}");
        (place, left) = (out[3], out[4]);
        x = following(random, next, sample, &plant, mode, &x);
    }
}

/// Runs of every kind from the corners of R and from any reading in it; how many samples.
fn runs(random: &mut Random, bytes: &[u8], table: &[u8]) -> usize {
    assert_eq!(check(bytes, table), (0, 0, 0), "{bytes:?} {table:?}");
    let plant = read_plant(bytes).unwrap();
    let (lo, hi) = (plant.edges.r_lo, plant.edges.r_hi);
    for next in EVERY_NEXT {
        let any = std::array::from_fn(|i| random.within(lo[i], hi[i]));
        for first in [lo, hi, any] {
            run(random, next, 50, bytes, table, first);
        }
    }
    4 * 3 * 50
}

/// The table of a form that the library makes.
fn made(bytes: &[u8], form: u64) -> Option<Vec<u8>> {
    let mut table = vec![0; second::LARGEST_TABLE];
    let (number, length, _) = make(bytes, form, &mut table);
    table.truncate(length as usize);
    (number == 0).then_some(table)
}

/// What drove: samples, tables, those not the made ones, those with a longer pattern than the made one, those of plants of form 2; and tables of form 3
/// in which some tile is the half of a half.
#[derive(Default, Debug)]
struct Came {
    samples: usize,
    tables: usize,
    others: usize,
    longer: usize,
    own_bands: usize,
    halved: usize,
}

/// The made table of a form and another one drive the plant.
fn driven(random: &mut Random, came: &mut Came, bytes: &[u8], form: u64) {
    let (made, plant) = (made(bytes, form), read_plant(bytes).unwrap());
    let other = other_table(random, &plant, form).filter(|other| Some(other) != made.as_ref());
    came.others += usize::from(other.is_some());
    let lengths = [&made, &other].map(|table| table.as_ref().map_or(0, |table| longest_pattern(&plant, &plant.r(), table)));
    came.longer += usize::from(lengths[0] < lengths[1]);
    for table in [made, other].into_iter().flatten() {
        came.tables += 1;
        came.own_bands += usize::from(bytes[0] == 2);
        came.halved += usize::from(form == 3 && deepest(&plant, &table) > 1);
        came.samples += runs(random, bytes, &table);
    }
}

#[test]
fn accepted_tables_keep_their_promise() {
    let mut random = random(8);
    let mut plants = papers_plants();
    plants.extend([include_bytes!("../../samples/house.plant").to_vec(), largest_table_plant(), longest_table_plant()]);
    plants.extend((0..rounds(2_000)).map(|_| file(&plant_fields(&mut random))));
    let mut by_form = FORMS.map(|_| Came::default());
    for bytes in plants {
        for (form, came) in FORMS.into_iter().zip(&mut by_form) {
            driven(&mut random, came, &bytes, form);
        }
    }
    println!("{by_form:?}");
    for came in &by_form {
        assert!(came.samples >= 100_000 && came.others > 30 && came.longer > 10 && came.own_bands > 100, "{came:?}");
    }
    assert!(by_form[2].halved > 30, "{by_form:?}");
}
