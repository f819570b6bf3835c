//! Texts and files both ways: samples, seeded files, faults by line and column, and texts that chance has written.

mod common;

use common::{goes_round, sample, sample_path};
use hoachulim::files::{Chain, House, Side};
use hoachulim::kinds::{self, As};
use hoachulim::library;
use hoachulim::text::{self, chains, shown::Shown, Said};
use side::common::{file, in_form_2, two_rooms, Random};
use side::inputs::{plant_fields, random, rounds, sheet_fields};

/// The sheet or plant, or what is for the plant of the same name.
#[test]
fn every_sample_goes_round() {
    let mut kinds_seen = std::collections::BTreeSet::new();
    for entry in std::fs::read_dir(sample_path("")).unwrap() {
        let name = entry.unwrap().file_name().into_string().unwrap();
        let (stem, kind) = name.rsplit_once('.').unwrap();
        let bytes = sample(&name);
        let house = || House::of(sample(&format!("{stem}.plant")), None);
        match kind {
            "sheet" => goes_round(As::Sheet(&bytes), &bytes),
            "plant" => goes_round(As::Plant(&bytes), &bytes),
            "chain" => {
                goes_round(As::Chain(&bytes, &house()), &bytes);
                // for a sheet its edges are shown in degrees
                if let Some(house) = std::fs::read(sample_path(&format!("{stem}.sheet"))).ok().map(|sheet| kinds::house(&sheet).unwrap()) {
                    goes_round(As::Chain(&bytes, &house), &bytes);
                    assert!(As::Chain(&bytes, &house).text().contains("degrees"));
                    kinds_seen.insert("chain in degrees".to_string());
                }
            }
            "start" => assert!(As::Start(&bytes, &house()).text().starts_with("start form 1")),
            _ => assert!(["txt", "svg", "html"].contains(&kind), "{name}"),
        }
        kinds_seen.insert(kind.to_string());
    }
    assert!(["sheet", "plant", "chain", "chain in degrees", "start"].iter().all(|kind| kinds_seen.contains(*kind)), "{kinds_seen:?}");
}

#[test]
fn texts_of_the_samples_are_their_files() {
    for (text, file) in [("P.txt", "P.plant"), ("fan.txt", "fan.plant"), ("house.txt", "house.sheet")] {
        assert_eq!(text::read(&sample(text)).unwrap().write(), sample(file), "{text}");
    }
}

#[test]
fn seeded_files_go_round() {
    let mut random = random(21);
    let (mut sheets, mut forms) = (0, [0; 3]);
    for _ in 0..rounds(4_000) {
        let plant = file(&plant_fields(&mut random));
        goes_round(As::Plant(&plant), &plant);
        forms[plant[0] as usize] += 1;
        let sheet = file(&sheet_fields(&mut random));
        if library::sheet(&sheet).is_ok() {
            goes_round(As::Sheet(&sheet), &sheet);
            sheets += 1;
        }
    }
    assert!(sheets > 500 && forms[1] > 500 && forms[2] > 500, "only {sheets} sheets, plants of forms {forms:?}");
}

#[test]
fn every_float_goes_round() {
    let mut sheet = hoachulim::files::Sheet::read(&sample("house.sheet")).unwrap();
    let mut random = random(22);
    for _ in 0..rounds(20_000) {
        let float = f64::from_bits(random.next());
        if float.is_finite() {
            sheet.outside = float;
            let mut shown = Shown::default();
            text::sheets::show(&sheet, &mut shown);
            assert_eq!(text::read(shown.0.as_bytes()).unwrap().write(), sheet.write(), "{float:?}");
        }
    }
}

/// A house of so many rooms and a chain of boxes around its R, not judged.
fn any_chain(random: &mut Random) -> (House, Chain) {
    let house = House::of(file(&plant_fields(random)), None);
    let mut sides = house.plant.r();
    let grow = |side: &Side, random: &mut Random| Side { lo: (side.lo - random.within(0, 9)).max(-1_000_000), hi: (side.hi + random.within(0, 9)).min(1_000_000) };
    let boxes = (0..random.within(0, 8)).map(|_| {
        sides = sides.iter().map(|side| grow(side, random)).collect();
        sides.clone()
    });
    let chain = Chain { boxes: boxes.collect() };
    (house, chain)
}

#[test]
fn seeded_chains_go_round() {
    let mut random = random(23);
    for _ in 0..rounds(2_000) {
        let (house, chain) = any_chain(&mut random);
        let bytes = chain.write();
        assert_eq!(Chain::read(&bytes, house.plant.rooms.len()).as_ref(), Some(&chain));
        let mut shown = Shown::default();
        chains::show(&chain, &house, &mut shown);
        assert_eq!(text::read(shown.0.as_bytes()).unwrap().write(), bytes, "{}", shown.0);
    }
}

/// The house's text with one piece replaced, and the fault.
fn fault(of: &str, by: &str) -> String {
    let text = As::Sheet(&sample("house.sheet")).text();
    assert!(text.contains(of), "{of}");
    text::read(text.replacen(of, by, 1).as_bytes()).unwrap_err().to_string()
}

#[test]
fn faults_say_line_column_and_what_was_expected() {
    let faults = [
        ("sheet form 1", "sheep form 1", "line 1, column 1: expected `sheet`, `plant` or `chain`, found `sheep`"),
        ("sheet form 1", "sheet form 2", "line 1, column 12: expected `1` of `form 1`, found `2`"),
        ("rooms 2", "rooms 5", "line 2, column 7: expected rooms, a whole number of 1 .. 4, found `5`"),
        ("rooms 2", "rooms", "line 2, column 6: expected rooms, a whole number of 1 .. 4, found the line's end"),
        ("rooms 2", "rooms 2 3", "line 2, column 9: expected the line's end, found `3`"),
        ("q 10000\n", "", "line 4, column 1: expected `q`, found `longest`"),
        ("depth 1", "depth 7", "line 6, column 7: expected depth, a whole number of 0 .. 6, found `7`"),
        ("sample time 5.0", "sample time 0", "line 7, column 13: expected sample time, a number above 0, found `0`"),
        ("sample time 5.0", "sample time inf", "line 7, column 13: expected sample time, a number above 0, found `inf`"),
        ("sample time 5.0", "sample time 1e999", "line 7, column 13: expected sample time, a number above 0, found `1e999`"),
        ("loss 0.005", "loss -1", "line 14, column 6: expected loss, a number not below 0, found `-1`"),
        ("20.00", "21.045", "line 11, column 3: 21.045 degrees is 2104.5 counts at 100 a degree"),
        ("20.00", "1e4", "line 11, column 3: expected R, a number, found `1e4`"),
        (".. 22.00", ".. 19.99", "line 11, column 12: R is 1999 counts, wanted 2000 .. 1000000"),
        ("22.00 degrees", "22.00", "line 11, column 17: expected `degrees` or `counts`, found the line's end"),
        ("22.00 degrees", "22.00 metres", "line 11, column 18: expected `degrees` or `counts`, found `metres`"),
        ("20.00 .. 22.00 degrees", "2000.5 .. 2200 counts", "line 11, column 3: 2000.5 is no whole number of counts"),
        ("w -10000", "w -1000000001", "line 13, column 3: expected w, a whole number of -1000000000 .. 1000000000, found `-1000000001`"),
        ("exchange with room 2", "exchange with room 3", "line 15, column 20: expected `2` of `exchange with room 2`, found `3`"),
        ("heater p", "fire p", "line 16, column 9: expected `none`, `heater` or `steady`, found `fire`"),
        ("room 2\nR", "R", "line 18, column 1: expected `room` of `room 2`, found `R`"),
    ];
    for (of, by, wanted) in faults {
        assert_eq!(fault(of, by), wanted, "{of} -> {by}");
    }
    let text = As::Sheet(&sample("house.sheet")).text();
    let last = text.trim_end().rsplit_once('\n').unwrap().0;
    assert_eq!(text::read(last.as_bytes()).unwrap_err().to_string(), "line 24, column 1: expected `emitter`, found the text's end");
    assert_eq!(text::read(format!("{text}# a comment\nmore").as_bytes()).unwrap_err().to_string(), "line 26, column 1: expected the text's end, found `more`");
    assert_eq!(text::read(b"").unwrap_err().to_string(), "line 1, column 1: expected `sheet`, `plant` or `chain`, found the text's end");
    assert_eq!((text::read(b"plant form 1\n # \xC3\xA9 \xFF").unwrap_err().line, text::read(b"plant form 1\n # \xC3\xA9 \xFF").unwrap_err().column), (2, 6));
}

/// The line `w` stands where the form has it: before the row of each mode in form 2, in the room in form 1.
#[test]
fn a_band_in_each_mode() {
    let text = As::Plant(&sample("fan.plant")).text();
    assert!(text.starts_with("plant form 2\nrooms 1\n"), "{text}");
    assert!(text.contains("S 190 .. 230 counts\n\nmode 0\nw -5 .. 4                        # in 1/10 counts\nA 9 b 100\n\nmode 1\nw -60 .. 59 "), "{text}");
    let fault = |of: &str, by: &str| {
        assert!(text.contains(of), "{of}");
        text::read(text.replacen(of, by, 1).as_bytes()).unwrap_err().to_string()
    };
    assert_eq!(fault("form 2", "form 3"), "line 1, column 12: expected the form, a whole number of 1 .. 2, found `3`");
    assert_eq!(fault("form 2", "form 1"), "line 12, column 1: expected `w`, found `mode`");
    assert_eq!(fault("S 190 .. 230 counts", "S 190 .. 230 counts\nw -5 .. 4"), "line 11, column 1: expected `mode` of `mode 0`, found `w`");
    assert_eq!(fault("w -60", "A 9 b 300 # w -60"), "line 17, column 1: expected `w`, found `A`");
    assert_eq!(fault("-60 .. 59", "60 .. 59"), "line 17, column 9: expected w, a whole number of 60 .. 1000000000, found `59`");
    // two rooms: a band and a row of each, though the file has the bands of a mode before its rows
    let two = As::Plant(&file(&in_form_2(&two_rooms()))).text();
    assert!(two.contains("mode 1\nw -2 .. 2                        # in 1/4 counts\nA 3 -1 b 15\nw -3 .. 3 "), "{two}");
}

#[test]
fn a_plant_in_degrees_says_how_many_counts_a_degree_has() {
    let text = As::Plant(&sample("P.plant")).text();
    let degrees = text.replace("195 .. 225 counts", "19.5..22.5 degrees");
    assert_eq!(
        text::read(degrees.as_bytes()).unwrap_err().to_string(),
        "line 9, column 3: how many counts 19.5 degrees are is not said: give counts, or a line `counts a degree` behind `rooms`"
    );
    let said = degrees.replace("modes 2", "counts a degree 10\nmodes 2");
    assert_eq!(text::read(said.as_bytes()).unwrap().write(), sample("P.plant"));
}

#[test]
fn words_may_stand_freely() {
    let text = String::from_utf8(sample("P.txt")).unwrap();
    let lines: Vec<String> = text.lines().map(|line| format!("  {} # said\r\n\n", line.replace(' ', "\t ").replace('-', "−"))).collect();
    assert_eq!(text::read(lines.concat().as_bytes()).unwrap().write(), sample("P.plant"));
}

/// What was accepted is shown and read again as the same file.
fn accepted_goes_round(said: &Said) -> bool {
    let bytes = said.write();
    let read = match said {
        Said::Sheet(_) => As::Sheet(&bytes),
        Said::Plant(_) => As::Plant(&bytes),
        Said::Chain(_) => return false,
    };
    if read.verdict().is_err() {
        return false;
    }
    goes_round(read, &bytes);
    true
}

#[test]
fn texts_by_chance_never_break_the_reader() {
    let mut random = random(24);
    let mut kept = 0;
    for _ in 0..rounds(6_000) {
        let seeds = [
            As::Plant(&file(&plant_fields(&mut random))).text(),
            As::Sheet(&sample("house.sheet")).text(),
            As::Sheet(&file(&side::common::two_room_sheet())).text(),
            "chain form 1\nrooms 1\nboxes 1\nbox 1\nroom 1 190..230 counts".to_string(),
        ];
        let mut text = random.one(&[&seeds[0], &seeds[1], &seeds[2], &seeds[3]]).clone().into_bytes();
        for _ in 0..random.within(1, 4) {
            text = mutated(&mut random, &text);
            if text::read(&text).is_ok_and(|said| accepted_goes_round(&said)) {
                kept += 1;
            }
        }
        let noise: Vec<u8> = (0..random.within(0, 200)).map(|_| random.next() as u8).collect();
        assert!(text::read(&noise).is_err());
    }
    assert!(kept > 300, "only {kept} texts were taken");
}

const PIECES: [&str; 24] = [
    "0", "1", "-1", "9", "1e308", "-0.0", "1e-400", "99999999999999999999999999", "0.1", "..", "...", "#", "\n", " ", "counts", "degrees", "room", "mode 1",
    "−5", "é", "emitter none", "p", "+1", "0x10",
];

/// A byte changed, a piece put in, a part taken out or said twice.
fn mutated(random: &mut Random, text: &[u8]) -> Vec<u8> {
    let mut place = || random.within(0, text.len() as i64) as usize;
    let (a, b) = (place(), place());
    let (a, b) = (a.min(b), a.max(b).min(a.min(b) + 12));
    let (before, part, behind) = (&text[..a], &text[a..b], &text[b..]);
    match random.within(0, 3) {
        0 => [before, random.one(&PIECES).as_bytes(), &text[a..]].concat(),
        1 => [before, behind].concat(),
        2 => [before, part, part, behind].concat(),
        _ => [before, &[random.next() as u8], &text[(a + 1).min(text.len())..]].concat(),
    }
}
