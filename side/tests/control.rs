//! The controller's call side by side: readings around R and S, states that
//! can be and cannot, tables of all forms whole, cut, damaged and under every
//! other form.

use second::plant::read_plant;
use side::common::file;
use side::inputs::{any_reading, any_state, papers_plants, plant_fields, random, rounds};
use side::seen::{each_came, Seen};
use side::tables::{in_no_form, in_other_forms, made_table, made_tables, FORMS};
use side::{largest_table_plant, longest_table_plant, NO_MODE};

#[test]
fn states_and_readings_of_the_papers_plants() {
    let (mut random, mut seen) = (random(3), Seen::default());
    let with_tables = papers_plants().into_iter().flat_map(|plant| made_tables(&plant).into_iter().map(move |table| (plant.clone(), table)));
    for (plant, table) in with_tables {
        let length = table.len() as i64;
        for _ in 0..rounds(10_000) {
            let mut other = table.clone();
            match random.within(0, 3) {
                0 => other.truncate(random.within(0, length) as usize),
                1 => other[random.within(0, length - 1) as usize] = random.within(0, 7) as u8,
                _ => {}
            }
            let (place, left) = match random.within(0, 3) {
                0 => (random.within(0, length + 2) as u64, random.within(0, 7) as u64),
                1 => (u64::MAX - random.within(0, 3) as u64, random.within(0, 7) as u64),
                _ => (0, 0),
            };
            let mut x = [0; 4].map(|_| random.within(-10, 240));
            if random.chance(2) {
                x = x.map(|v| v % 25);
            }
            seen.control(&plant, &other, place, left, x);
        }
    }
    for number in [0, 1, 2, 6, 11, 12] {
        assert!(seen.control[number] > 100, "{number}: {:?}", seen.control);
    }
}

#[test]
fn every_corner_of_the_largest_tables() {
    for plant in [largest_table_plant(), longest_table_plant()] {
        for form in FORMS {
            every_corner(&plant, form);
        }
    }
}

fn every_corner(plant: &[u8], form: u64) {
    let mut seen = Seen::default();
    let table = made_table(plant, form).expect("a plant with a table");
    for (a, b) in [(1000, 1000), (1063, 1063), (1000, 1063), (1031, 1032), (999, 1000), (1063, 1064)] {
        let (mut place, mut left) = (0, 0);
        let mut x = [a, b, 0, 0];
        for _ in 0..8 {
            let (mode, out) = seen.control(plant, &table, place, left, x);
            if mode == NO_MODE {
                break;
            }
            (place, left) = (out[3], out[4]);
            // the plant's own equation, q being 1 and the band 0
            x = [4 * x[0] - 13 * x[1], x[0] - 3 * x[1], 0, 0];
        }
    }
    assert!(seen.control[0] > 20 && seen.control[11] > 1, "{:?}", seen.control);
}

/// Under another form a call finds other tiles, and under none it tells so before the state and the reading.
#[test]
fn tables_under_another_form() {
    let (mut random, mut seen, mut others) = (random(11), Seen::default(), Seen::default());
    let mut otherwise = 0;
    for _ in 0..rounds(4_000) {
        let bytes = file(&plant_fields(&mut random));
        let plant = read_plant(&bytes).expect("a sound plant");
        for table in made_tables(&bytes) {
            let ((place, left), x) = (any_state(&mut random, &table), any_reading(&mut random, &plant));
            for (other, wanted) in in_no_form(&table) {
                assert_eq!(seen.control(&bytes, &other, place, left, x), (NO_MODE, [wanted.0, 0, 0, 0, 0]));
            }
            for x in [plant.edges.r_lo, plant.edges.r_hi, any_reading(&mut random, &plant)] {
                let own = others.control(&bytes, &table, 0, 0, x);
                for other in in_other_forms(&table) {
                    otherwise += usize::from(others.control(&bytes, &other, 0, 0, x) != own);
                }
            }
        }
    }
    println!("{otherwise} calls answered otherwise");
    assert!(otherwise > 100, "{otherwise}");
    each_came("control, another form", &others.control, &[0, 1, 6, 11], 20);
    each_came("control, no form", &seen.control, &[1, 2], 1_000);
}
