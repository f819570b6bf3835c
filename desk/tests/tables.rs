//! Tiles beside the second program's listing, runs beside the plant's equation, and the largest files in good time.

mod common;

use common::{sample, within_a_second};
use hoachulim::files::boxes::halve;
use hoachulim::files::{Form, House, Side, Table};
use hoachulim::kinds::As;
use hoachulim::library::{self, State};
use hoachulim::runs::{allowed, Controller, Draws};
use side::common::file;
use side::inputs::{plant_fields, random, rounds};
use side::tables::{any_form, made_table, FORMS};

/// The listing, of the tiles that are read here.
fn listing(table: &Table, rooms: usize) -> String {
    let mut lines = format!("table {rooms} {} {}\n", table.tiles.len(), table.longest());
    for tile in &table.tiles {
        let edges: Vec<String> = tile.sides.iter().map(|side| format!("{} {}", side.lo, side.hi)).collect();
        let modes: Vec<String> = tile.modes.iter().map(u64::to_string).collect();
        lines += &format!("{} : {}\n", edges.join(" "), modes.join(" "));
    }
    lines
}

#[test]
fn tiles_are_those_of_the_listing() {
    let mut random = random(27);
    for form in FORMS {
        let (mut made, mut otherwise) = (0, 0);
        for _ in 0..rounds(1_000) {
            let house = House::of(file(&plant_fields(&mut random)), None);
            if let Some(bytes) = made_table(&house.bytes, form) {
                let table = Table::read(&bytes, &house.plant).unwrap();
                assert_eq!(table.form.number(), form);
                assert_eq!(listing(&table, house.plant.rooms.len()), second::listing::listing(&house.bytes, form));
                for tile in &table.tiles {
                    assert_eq!(u64::from(bytes[tile.place]), tile.modes.len() as u64);
                }
                made += 1;
                otherwise += usize::from(second::listing::listing(&house.bytes, 1) != second::listing::listing(&house.bytes, 3));
            }
        }
        assert!(made > 100 && otherwise > 10, "only {made} tables of form {form}, {otherwise} of them not those of the other");
    }
}

/// The longest side by counts, of equals the lowest, the lower half first and larger by one where the counts are odd.
#[test]
fn the_longest_side_is_halved() {
    let halved = |sides: &[(i64, i64)]| -> Vec<Vec<(i64, i64)>> {
        let sides: Vec<_> = sides.iter().map(|&(lo, hi)| Side { lo, hi }).collect();
        halve(&sides).iter().map(|child| child.iter().map(|side| (side.lo, side.hi)).collect()).collect()
    };
    assert_eq!(halved(&[(0, 3), (10, 14)]), [[(0, 3), (10, 12)], [(0, 3), (13, 14)]]);
    assert_eq!(halved(&[(0, 4), (10, 14), (0, 4)]), [[(0, 2), (10, 14), (0, 4)], [(3, 4), (10, 14), (0, 4)]]);
    assert_eq!(halved(&[(5, 5), (-4, -1), (0, 3)]), [[(5, 5), (-4, -3), (0, 3)], [(5, 5), (-2, -1), (0, 3)]]);
    assert_eq!(halved(&[(-2, -1)]), [[(-2, -2)], [(-1, -1)]]);
    assert!(halved(&[(7, 7), (-3, -3)]).is_empty());
    // the forms, where they are not the same
    let sides = [Side { lo: 0, hi: 1 }, Side { lo: 0, hi: 2 }];
    assert_eq!([Form::One, Form::Two, Form::Three].map(|form| form.split(&sides).len()), [4, 4, 2]);
}

/// README's long and narrow house. The depth of a tile counts halvings.
#[test]
fn the_gallery_in_all_forms() {
    let house = House::of(sample("gallery.plant"), None);
    let tables = FORMS.map(|form| library::make(&house.bytes, form).unwrap());
    assert_eq!(tables.each_ref().map(Vec::len), [183, 237, 44]);
    let read = tables.each_ref().map(|bytes| Table::read(bytes, &house.plant).unwrap());
    let words = ["55 tiles, longest pattern 4", "form 2, 55 tiles, longest pattern 4", "form 3, 9 tiles, longest pattern 4"];
    assert_eq!(read.each_ref().map(Table::words), words);
    let without_places = |table: &Table| -> Vec<_> { table.tiles.iter().map(|tile| (tile.sides.clone(), tile.depth, tile.modes.clone())).collect() };
    assert_eq!(without_places(&read[0]), without_places(&read[1]));
    let text = As::Table(&tables[2], &house).text();
    assert!(text.starts_with("table form 3\nrooms 2\n9 tiles, longest pattern 4, 44 bytes\n\n"), "{text}");
    for tile in ["1400 .. 1550 by 2300 .. 2460 counts modes 3 3 3 2 # byte 5, depth 3", "2001 .. 2150 by 2381 .. 2460 counts modes 3 0     # byte 28, depth 4"] {
        assert!(text.contains(&format!("\ntile {tile}\n")), "{text}");
    }
    assert!(As::Table(&tables[0], &house).text().starts_with("table form 1\nrooms 2\n55 tiles, longest pattern 4, 183 bytes\n\n"));
    assert!(As::Table(&tables[1], &house).text().starts_with("table form 2\nrooms 2\n55 tiles, longest pattern 4, 237 bytes\n\n"));
}

#[test]
fn runs_keep_equation_and_band_and_are_never_refused() {
    let mut random = random(28);
    for _ in 0..rounds(200) {
        let house = House::of(file(&plant_fields(&mut random)), None);
        let Ok(table) = library::make(&house.bytes, any_form(&mut random)) else { continue };
        let mut draws = Draws(random.next());
        let (mut x, mut state) = (draws.reading(&house.plant.r()), State::default());
        for _ in 0..50 {
            let (mode, next) = Controller::Table(&table).call(&house.bytes, state, x).expect("an accepted table is never refused");
            let y = draws.reading(&allowed(&house.plant, mode, x));
            for (i, row) in house.plant.modes[mode as usize].iter().enumerate() {
                let sum: i64 = row.a.iter().zip(x).map(|(a, x)| a * x).sum::<i64>() + row.b;
                assert!((row.w.lo..=row.w.hi).contains(&(house.plant.q as i64 * y[i] - sum)));
            }
            (x, state) = (y, next);
        }
    }
}

#[test]
fn the_largest_table_is_shown_within_a_second() {
    let house = House::of(side::longest_table_plant(), None);
    for (form, bytes) in [(1, 54_615), (2, library::LARGEST_TABLE), (3, 57_345)] {
        let table = library::make(&house.bytes, form).unwrap();
        assert_eq!(table.len(), bytes);
        let text = within_a_second(|| As::Table(&table, &house).verdict().map(|()| As::Table(&table, &house).text())).unwrap();
        assert_eq!(text.lines().filter(|line| line.starts_with("tile ")).count(), 4_096);
    }
}
