//! A table in another form: what is printed and written, there and back, what is refused and why, and a wrong call.

mod common;

use common::{sample, sample_path, tool, Folder};
use hoachulim::causes;
use hoachulim::files::{House, Table};
use hoachulim::library;
use side::common::{file, P, T1};
use side::inputs::{damaged, plant_fields, random, rounds};
use side::tables::{any_told_form, made_table, made_tables, FORMS, NO_FORMS};

/// P's table of form 2.
const T2: [u8; 8] = [2, 1, 0, 2, 1, 1, 1, 0];

fn run(words: &[&str]) -> (i32, String) {
    let (status, out, trouble) = tool(words);
    assert_eq!(trouble.is_empty(), status != 2, "{trouble}");
    (status, out)
}

#[test]
fn there_and_back() {
    let folder = Folder::new("relay");
    let plant = sample_path("gallery.plant");
    let [one, two, three, again] = ["one", "two", "three", "again"].map(|name| folder.path(name));
    for (form, path) in [("1", &one), ("2", &two), ("3", &three)] {
        assert_eq!(run(&["make", &plant, path, form]).0, 0);
    }
    let told = |words: &str| (0, format!("done: {words}\n"));
    let words = ["55 tiles, longest pattern 4, 183 bytes", "form 2, 55 tiles, longest pattern 4, 237 bytes", "form 3, 9 tiles, longest pattern 4, 44 bytes"];
    for (table, form, wanted, words) in [
        (&one, "2", &two, words[1]),
        (&two, "1", &one, words[0]),
        (&one, "1", &one, words[0]),
        (&two, "002", &two, words[1]),
        (&three, "3", &three, words[2]),
    ] {
        assert_eq!(run(&["relay", &plant, table, form, &again]), told(words));
        assert_eq!(std::fs::read(&again).unwrap(), std::fs::read(wanted).unwrap());
        assert_eq!(run(&["check", &plant, &again]), (0, "accepted\n".into()));
    }
    // in its own place
    let kept = std::fs::read(&two).unwrap();
    assert_eq!(run(&["relay", &plant, &one, "2", &one]), told(words[1]));
    assert_eq!(std::fs::read(&one).unwrap(), kept);
    assert_eq!(folder.names(), ["again", "one", "three", "two"]);
}

#[test]
fn the_papers_table() {
    let folder = Folder::new("relay-P");
    let (plant, out) = (folder.put("P", P), folder.path("out"));
    assert_eq!(run(&["relay", &plant, &folder.put("T1", T1), "2", &out]), (0, "done: form 2, 2 tiles, longest pattern 1, 8 bytes\n".into()));
    assert_eq!(std::fs::read(&out).unwrap(), T2);
    assert_eq!(run(&["relay", &plant, &folder.put("T2", T2), "1", &out]), (0, "done: 2 tiles, longest pattern 1, 7 bytes\n".into()));
    assert_eq!(std::fs::read(&out).unwrap(), T1);
}

#[test]
fn refusals_come_with_their_cause_and_write_nothing() {
    let folder = Folder::new("relay-refused");
    let (plant, one, kept) = (folder.put("P", P), folder.put("T1", T1), folder.put("kept", "as it was"));
    let two = folder.put("T2", T2);
    let three = folder.put("T3", [3, 1, 0, 1, 1, 1, 0]);
    let wanted = |form: &str, own: &str, alike: &str| {
        let cause = format!("2: the form asked for is {form}, wanted {alike}: the table is of form {own}, and its boxes stay split as they are");
        (1, format!("refused 2 0 0: form is not known\n{cause}\n"))
    };
    for form in ["0", "3", "4", "258", "18446744073709551615"] {
        assert_eq!(run(&["relay", &plant, &one, form, &kept]), wanted(form, "1", "1 or 2"));
        assert_eq!(run(&["relay", &plant, &two, form, &kept]), wanted(form, "2", "1 or 2"));
    }
    for form in ["1", "2", "4"] {
        assert_eq!(run(&["relay", &plant, &three, form, &kept]), wanted(form, "3", "3"));
    }
    // what `check` says of the files comes first, in its words
    let cut = folder.put("cut", &P[..3]);
    for (plant, table) in [
        (&cut, &one),
        (&plant, &folder.put("no form", [&[4], &T1[1..]].concat())),
        (&plant, &folder.put("length", [2, 1, 0, 3, 1, 1, 1, 0])),
        (&plant, &folder.put("tile", [1, 1, 1, 1])),
        (&plant, &folder.put("ends", &T2[..7])),
        (&sample_path("house.plant"), &two),
    ] {
        let (status, told) = run(&["check", plant, table]);
        assert_eq!(status, 1);
        for form in ["1", "2", "3", "4"] {
            assert_eq!(run(&["relay", plant, table, form, &kept]), (1, told.clone()));
        }
    }
    assert_eq!(run(&["relay", &plant, &folder.put("short", &T2[..3]), "4", &kept]).1.lines().last(), Some("1 at byte 3: the length of box 195 .. 210 ends early"));
    assert_eq!(std::fs::read(&kept).unwrap(), b"as it was");
}

#[test]
fn a_wrong_call_is_2_and_changes_nothing() {
    let folder = Folder::new("relay-wrong");
    let (plant, table, kept) = (folder.put("P", P), folder.put("T", T1), folder.put("kept", "as it was"));
    let away = folder.path("no/such/folder/table");
    for words in [
        &["relay"][..],
        &["relay", &plant, &table, "2"],
        &["relay", &plant, &table, &kept],
        &["relay", &plant, &table, &kept, "2"],
        &["relay", &plant, &table, "2", &kept, "2"],
        &["relay", "start", &plant, &table, "2", &kept],
        &["relay", &plant, &away, "2", &kept],
        &["relay", &away, &table, "2", &kept],
        &["relay", &plant, &table, "2", &away],
    ] {
        assert_eq!(tool(words).0, 2, "{words:?}");
    }
    for word in ["", "x", "+2", "-1", "2.0", " 2", "0x2", "18446744073709551618"] {
        assert_eq!(tool(&["relay", &plant, &table, word, &kept]).0, 2, "{word}");
    }
    assert_eq!(std::fs::read(&kept).unwrap(), b"as it was");
    assert_eq!(folder.names(), ["P", "T", "kept"]);
    let usage = tool(&[]).2;
    assert!(usage.contains("relay PLANT TABLE FORM OUT ") && usage.contains("not the tables of a start file"), "{usage}");
}

/// Tiles and patterns stay, each at its own byte.
#[test]
fn tiles_stay() {
    let (mut random, mut split) = (random(64), 0);
    let mut plants = vec![sample("gallery.plant"), sample("house.plant"), sample("valves.plant"), side::longest_table_plant()];
    plants.extend((0..rounds(500)).map(|_| file(&plant_fields(&mut random))));
    for house in plants.into_iter().map(|bytes| House::of(bytes, None)) {
        let Some(one) = made_table(&house.bytes, 1) else { continue };
        let two = library::relay(&house.bytes, &one, 2).unwrap();
        assert_eq!(Ok(&two), library::make(&house.bytes, 2).as_ref());
        assert_eq!(Ok(&one), library::relay(&house.bytes, &two, 1).as_ref());
        let tiles = [&one, &two].map(|bytes| -> Vec<_> {
            let table = Table::read(bytes, &house.plant).unwrap();
            table.tiles.into_iter().map(|tile| (tile.sides, tile.depth, tile.modes)).collect()
        });
        assert_eq!(tiles[0], tiles[1]);
        split += usize::from(tiles[0].len() > 1);
    }
    assert!(split > 20, "{split}");
}

/// A cause that begins with its number, of the form that was asked for or of the table.
#[test]
fn whatever_is_refused_has_a_cause() {
    let (mut random, mut forms, mut tables) = (random(65), 0, 0);
    for _ in 0..rounds(100) {
        let house = House::of(file(&plant_fields(&mut random)), None);
        let mut asked = |table: &[u8], form: u64| {
            let Err(refusal) = library::relay(&house.bytes, table, form) else { return };
            let cause = causes::relaid(&house.plant, table, form, refusal);
            assert!(cause.starts_with(&format!("{}", refusal.number)) && !cause.contains("cannot be read"), "{refusal}: {cause}");
            let of_form = library::check(&house.bytes, table).is_ok();
            assert_eq!(cause.starts_with(&format!("2: the form asked for is {form}, wanted ")), of_form, "{refusal}: {cause}");
            *(if of_form { &mut forms } else { &mut tables }) += 1;
        };
        for table in made_tables(&house.bytes).into_iter().filter(|table| table.len() < 500) {
            FORMS.iter().chain(&NO_FORMS).for_each(|form| asked(&table, *form));
            let form = any_told_form(&mut random);
            damaged(&mut random, &table, |other| asked(other, form));
        }
    }
    assert!(forms > 500 && tables > 500, "{forms} {tables}");
}
