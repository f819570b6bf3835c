//! Chains and start files (request 2026-03): shown, judged, explained, driven.

mod common;

use common::{goes_round, sample, sample_path, tool, within_a_second, Folder};
use hoachulim::causes;
use hoachulim::files::{Chain, House, Sides, Start};
use hoachulim::files::numbers::Writer;
use hoachulim::files::Plant;
use hoachulim::kinds::As;
use hoachulim::library::{self, State};
use hoachulim::refusals::Refusal;
use hoachulim::runs::{allowed, Controller, Draws};
use side::common::{chain_fields, file, p_fields, with, Field, P, S, T1, U};
use side::inputs::{damaged, plant_fields, random, rounds};
use side::starts::{any_chain, any_start, made_starts, other_start, spoiled_chain, spoiled_lengths, turning};
use side::tables::any_form;

fn house(plant: &[u8]) -> House {
    House::of(plant.to_vec(), None)
}

/// Document 02's kind of start file for P, R1 being 190..230 (docs/FORMATS.md).
const START: [u8; 22] = [1, 1, 0xFC, 2, 0xCC, 3, 7, 1, 1, 0, 1, 1, 1, 0, 7, 1, 1, 0, 1, 1, 1, 0];
const COLD: &str = "chain form 1\nrooms 1\nboxes 1\n\nbox 1\nroom 1 190 .. 230 counts\n";

#[test]
fn the_cold_room_of_p() {
    let folder = Folder::new("cold");
    let plant = folder.put("plant", P);
    let [chain, start] = ["chain", "start"].map(|name| folder.path(name));
    let run = |words: &[&str]| {
        let (status, out, trouble) = tool(words);
        assert_eq!(trouble, "");
        (status, out)
    };
    assert_eq!(run(&["write", &folder.put("text", COLD), &chain]), (0, "done: a chain of 6 bytes\n".into()));
    assert_eq!(std::fs::read(&chain).unwrap(), START[..6]);
    assert_eq!(run(&["show", &chain, &plant]), (0, COLD.into()));
    assert_eq!(run(&["make", "start", &plant, &chain, &start]), (0, "done: 2 tables, 4 tiles, home within 1 sample, 22 bytes\n".into()));
    assert_eq!(std::fs::read(&start).unwrap(), START);
    assert_eq!(run(&["check", "start", &plant, &start]), (0, "accepted\n".into()));
    assert_eq!(run(&["drive", "start", &plant, &start, "190", "201"]), (0, "190 : 1 0 0 0\n201 : 1 0 0 0\ndriven 2 samples\n".into()));
    assert_eq!(
        run(&["drive", "start", &plant, &start, "189"]),
        (1, "refused 11 0 0: reading outside R (idle) or S (running)\n11 in room 1: 189 counts, idle, wanted 190 .. 230\n".into())
    );
    let (status, shown) = run(&["show", &start, &plant]);
    assert_eq!(status, 0);
    assert!(shown.starts_with(&COLD.replace("chain", "start")), "{shown}");
    assert!(shown.ends_with("tile 190 .. 210 counts modes 1 # byte 18, depth 1\ntile 211 .. 230 counts modes 0 # byte 20, depth 1\n"), "{shown}");
    assert_eq!(run(&["check", &plant, &start]).0, 1);
}

#[test]
fn the_sample_s_cold_room() {
    let folder = Folder::new("sample");
    let [chain, start] = ["chain", "start"].map(|name| folder.path(name));
    assert_eq!(tool(&["write", &sample_path("cold.txt"), &chain]).0, 0);
    let (status, told, _) = tool(&["make", "start", &sample_path("cold.plant"), &chain, &start]);
    assert_eq!((status, told.as_str()), (0, "done: 3 tables, 5 tiles, home within 4 samples, 35 bytes\n"));
    assert_eq!(std::fs::read(&start).unwrap(), sample("cold.start"));
}

/// A start file of a chain and tables.
fn start_of(boxes: Vec<Sides>, tables: &[&[u8]]) -> Vec<u8> {
    let mut file = Writer(Chain { boxes }.write());
    for table in tables {
        file.number(table.len() as u64);
        file.0.extend(*table);
    }
    file.0
}

/// The gallery and one box about R, as large as it: all tables are of the form that is asked for.
#[test]
fn start_files_of_the_form_that_is_asked_for() {
    let folder = Folder::new("forms");
    let (plant, start, house) = (sample_path("gallery.plant"), folder.path("start"), house(&sample("gallery.plant")));
    let chain = folder.put("chain", Chain { boxes: vec![house.plant.r()] }.write());
    let (one, three) = ("done: 2 tables, 110 tiles, home within 4 samples, 380 bytes\n", "done: form 3, 2 tables, 18 tiles, home within 4 samples, 100 bytes\n");
    let two = "done: form 2, 2 tables, 110 tiles, home within 4 samples, 488 bytes\n";
    for (words, told, form) in [(&[][..], one, 1), (&["1"], one, 1), (&["2"], two, 2), (&["3"], three, 3)] {
        let (status, out, _) = tool(&[&["make", "start", &plant, &chain, &start], words].concat());
        assert_eq!((status, out.as_str()), (0, told));
        let table = library::make(&house.bytes, form).unwrap();
        assert_eq!(std::fs::read(&start).unwrap(), start_of(vec![house.plant.r()], &[&table, &table]));
    }
    let shallow = folder.put("shallow", Plant { depth: 1, ..house.plant }.write());
    let (status, told, _) = tool(&["make", "start", &shallow, &chain, &start, "3"]);
    assert!(status == 1 && told.starts_with("refused 9 0 0: no table\n9: R has no table: ") && told.contains(", and so may form 1 or form 2: "), "{told}");
}

/// Each table of a start file has its own form: shown, judged, explained and driven by it.
#[test]
fn tables_of_all_forms_side_by_side() {
    let folder = Folder::new("mixed");
    let (plant, house) = (sample_path("gallery.plant"), house(&sample("gallery.plant")));
    let [one, two, three] = [1, 2, 3].map(|form| library::make(&house.bytes, form).unwrap());
    let of = |tables: &[&[u8]]| start_of(vec![house.plant.r()], tables);
    let by_lengths = "form 2, 55 tiles, longest pattern 4, 237 bytes";
    let heads = ["form 3, 9 tiles, longest pattern 4, 44 bytes", "55 tiles, longest pattern 4, 183 bytes"];
    for (tables, heads) in [
        ([&three, &one], heads),
        ([&one, &three], [heads[1], heads[0]]),
        ([&two, &one], [by_lengths, heads[1]]),
        ([&three, &two], [heads[0], by_lengths]),
    ] {
        let start = folder.put("start", of(&tables.map(|table| &table[..])));
        assert_eq!(tool(&["check", "start", &plant, &start]).1, "accepted\n");
        let (_, shown, _) = tool(&["show", &start, &plant]);
        assert_eq!(shown.lines().filter(|line| line.contains("longest pattern")).collect::<Vec<_>>(), heads, "{shown}");
        let (status, lines, _) = tool(&["drive", "start", &plant, &start, "any", "300", "1"]);
        assert!(status == 0 && lines.ends_with("\ndriven 300 samples\n"), "{lines}");
    }
    let cause = |start: &[u8]| causes::start(&house.plant, start, library::start_check(&house.bytes, start).unwrap_err());
    let deep = |form: u8, splits: usize| [vec![form, 2], vec![0; splits], vec![1, 0]].concat();
    assert_eq!(cause(&of(&[&one, &deep(3, 9)])), "6 at byte 206: box 1400 .. 1437 by 2300 .. 2320 is split at depth 8, n·D is 8");
    assert_eq!(cause(&of(&[&three, &deep(1, 5)])), "6 at byte 62: box 1400 .. 1475 by 2300 .. 2310 is split at depth 4, D is 4");
    assert_eq!(cause(&of(&[&three, &[4, 2, 1, 0]])), "2 at byte 56: the form is 4, wanted 1, 2 or 3");
    let mut wrong = two.clone();
    wrong[3] += 1;
    assert_eq!(cause(&of(&[&three, &wrong])), "6 at byte 60: box 1400 .. 2000 by 2300 .. 2380 is to have 51 bytes and has 50");
}

/// What the second program tells of a chain, but for the tables that it would make.
fn chain_told(plant: &[u8], chain: &[u8]) -> Option<(u64, u64, u64)> {
    let refusal = second::start::start_make_into(plant, chain, 1, &mut []).unwrap_err();
    let told = (u64::from(refusal.number), refusal.place, refusal.step);
    Some(told).filter(|told| ![9, 10].contains(&told.0))
}

fn told(verdict: Result<(), Refusal>) -> Option<(u64, u64, u64)> {
    verdict.err().map(|refusal| (refusal.number, refusal.place, refusal.step))
}

/// A small plant, so that no making of tables takes long.
fn small(random: &mut side::common::Random) -> Vec<u8> {
    loop {
        let fields = plant_fields(random);
        if matches!((&fields[2], &fields[4]), (U(..=3), U(..=3))) {
            return file(&fields);
        }
    }
}

#[test]
fn chains_are_judged_as_the_maker_judges_them() {
    let mut random = random(31);
    for _ in 0..rounds(40) {
        let house = house(&small(&mut random));
        let plant = second::plant::read_plant(&house.bytes).unwrap();
        let chain = any_chain(&mut random, &plant);
        goes_round(As::Chain(&file(&chain), &house), &file(&chain));
        let judged = |bytes: &[u8]| {
            let read = As::Chain(bytes, &house);
            let verdict = read.verdict();
            assert_eq!(told(verdict), chain_told(&house.bytes, bytes), "{bytes:?}");
            if let Err(refusal) = verdict {
                says(refusal, &read.cause(refusal));
            }
        };
        spoiled_chain(&plant, &chain).iter().for_each(|(fields, _)| judged(&file(fields)));
        damaged(&mut random, &file(&chain), judged);
    }
}

/// A cause that begins with its number and says something.
fn says(refusal: Refusal, cause: &str) {
    assert!(cause.starts_with(&refusal.number.to_string()) && !cause.contains("cannot be read"), "{refusal}: {cause}");
}

#[test]
fn whatever_start_file_is_refused_has_a_cause() {
    let mut random = random(32);
    let mut made = 0;
    for _ in 0..rounds(120) {
        let house = house(&small(&mut random));
        let plant = second::plant::read_plant(&house.bytes).unwrap();
        let chain = any_chain(&mut random, &plant);
        let judged = |bytes: &[u8]| {
            if let Err(refusal) = library::start_check(&house.bytes, bytes) {
                says(refusal, &causes::start(&house.plant, bytes, refusal));
            }
        };
        judged(&any_start(&mut random, &plant, &chain).bytes());
        let made_by_the_second = made_starts(&mut random, &house.bytes, &chain).into_iter();
        let sound = made_by_the_second.chain(other_start(&mut random, &plant, &chain));
        for start in sound.filter(|start| start.bytes().len() < 3_000) {
            let read = Start::read(&start.bytes(), &house.plant).unwrap();
            assert_eq!(read.chain.write(), file(&chain));
            assert_eq!(read.tables.iter().map(|inner| inner.length).collect::<Vec<_>>(), start.tables.iter().map(Vec::len).collect::<Vec<_>>());
            spoiled_lengths(&start).iter().for_each(|(bytes, _)| judged(bytes));
            damaged(&mut random, &start.bytes(), judged);
            made += 1;
        }
    }
    assert!(made > 20, "only {made} start files");
}

#[test]
fn causes_of_start_files() {
    let house = house(&P);
    let of = |bytes: &[u8]| causes::start(&house.plant, bytes, library::start_check(&P, bytes).unwrap_err());
    let chain = |boxes: &[&[(i64, i64)]]| file(&chain_fields(boxes));
    assert_eq!(of(&[1, 9]), "3 at byte 1: m, the number of boxes, is 9, wanted 0 .. 8");
    assert_eq!(of(&[1, 1, 0xFC, 2]), "1 at byte 4: box 1, room 1, hi ends early");
    assert_eq!(of(&chain(&[&[(196, 230)]])), "15 at box 1: room 1 is 196 .. 230, which does not hold R's 195 .. 225");
    assert_eq!(of(&chain(&[&[(190, 226)], &[(190, 225)]])), "15 at box 2: room 1 is 190 .. 225, which does not hold box 1's 190 .. 226");
    assert_eq!(of(&chain(&[&[(189, 230)]])), "15 at box 1: room 1 is 189 .. 230, S is 190 .. 230");
    let with_byte = |at: usize, byte: u8| {
        let mut bytes = START;
        bytes[at] = byte;
        of(&bytes)
    };
    assert_eq!(with_byte(6, 17), "3 at byte 6: table 0 is to have 17 bytes, 15 are left");
    assert_eq!(with_byte(6, 8), "3 at byte 6: table 0 is to have 8 bytes and ends before");
    assert_eq!(with_byte(6, 6), "1 at byte 13: a mode of tile 211 .. 225 ends early");
    assert_eq!(with_byte(15, 4), "2 at byte 15: the form is 4, wanted 1, 2 or 3");
    assert_eq!(with_byte(16, 3), "6 at byte 16: the table is for 3 rooms, the plant has 1");
    assert_eq!(with_byte(19, 0), "7 at byte 18, step 1: tile 190 .. 210 with modes 0: room 1 comes to 181 .. 199, S is 190 .. 230");
    assert_eq!(of(&[&START[..], &[0, 0, 0]].concat()), "3 at byte 22: 3 bytes left over behind the last number");
    let wide = file(&with(&with(&p_fields(), 8, S(180)), 9, S(240)));
    let cold = [&chain(&[&[(190, 230)]])[..], &[7], &T1, &[4, 1, 1, 1, 1]].concat();
    let refusal = library::start_check(&wide, &cold).unwrap_err();
    let wide = hoachulim::files::Plant::read(&wide).unwrap();
    assert_eq!(
        causes::start(&wide, &cold, refusal),
        "8 at byte 17, step 1: tile 190 .. 230 with modes 1: room 1 comes to 201 .. 237, R is 195 .. 225"
    );
    let none: [Field; 2] = [U(1), U(0)];
    let shallow = file(&with(&p_fields(), 5, U(0)));
    let refusal = library::start_make(&shallow, &file(&none), 1).unwrap_err();
    assert!(causes::start_made(&house.plant, &file(&none), 1, refusal).starts_with("9: R has no table: "));
}

#[test]
fn cold_rooms_come_home() {
    let mut random = random(33);
    let mut runs = 0;
    for _ in 0..rounds(200) {
        let house = house(&small(&mut random));
        let chain = any_chain(&mut random, &second::plant::read_plant(&house.bytes).unwrap());
        let Ok(bytes) = library::start_make(&house.bytes, &file(&chain), any_form(&mut random)) else { continue };
        let start = Start::read(&bytes, &house.plant).unwrap();
        let mut draws = Draws(random.next());
        let (mut x, mut state) = (draws.reading(start.boxes(&house.plant).last().unwrap()), State::default());
        let home = |state: &State, x: &[i64; 4]| state.is_idle() && house.plant.r().iter().zip(x).all(|(side, x)| (side.lo..=side.hi).contains(x));
        let most: usize = start.tables[1..].iter().map(|inner| inner.table.longest()).sum();
        let mut homes = 0;
        for _ in 0..=most {
            homes += usize::from(home(&state, &x));
            let (mode, next) = Controller::Start(&bytes).call(&house.bytes, state, x).expect("an accepted start file is never refused");
            (x, state) = (draws.reading(&allowed(&house.plant, mode, x)), next);
        }
        assert!(homes > 0);
        runs += 1;
    }
    assert!(runs > 20, "only {runs} runs");
}

/// A start file with these tables is shown whole and soon.
fn shown_soon(house: &House, chain: &[u8], bytes: &[u8]) {
    let text = within_a_second(|| As::Start(bytes, house).verdict().map(|()| As::Start(bytes, house).text())).unwrap();
    let tiles = text.lines().filter(|line| line.starts_with("tile ")).count();
    let start = Start::read(bytes, &house.plant).unwrap();
    assert_eq!(tiles, start.tables.iter().map(|inner| inner.table.tiles.len()).sum::<usize>());
    assert_eq!(Chain::read(chain, house.plant.rooms.len()), Some(start.chain));
}

#[test]
fn the_largest_start_files_are_shown_within_a_second() {
    let (plant, chain) = turning();
    let bytes = library::start_make(&plant, &chain, 1).unwrap();
    assert!(bytes.len() > 250_000, "{} bytes", bytes.len());
    shown_soon(&house(&plant), &chain, &bytes);
    // eight boxes as large as R: two rooms and tables of form 2, four rooms and tables of form 3
    for (rooms, form, length) in [(2, 2, library::LARGEST_START), (4, 3, 516_326)] {
        let house = house(&side::turn_as_mode(rooms, 128, 9_000));
        let chain = Chain { boxes: vec![house.plant.r(); 8] }.write();
        let bytes = library::start_make(&house.bytes, &chain, form).unwrap();
        assert_eq!(bytes.len(), length);
        shown_soon(&house, &chain, &bytes);
    }
}
