//! The release page: its numbers against the table's own and the checker's verdict; a refused file's page promises nothing; it needs no other file.

mod common;

use common::xml::{self, Element};
use common::{sample, shapes, within_a_second};
use hoachulim::causes;
use hoachulim::files::numbers::Writer;
use hoachulim::files::plants::{Bounds, Row};
use hoachulim::files::{Chain, House, Plant, Side, Start, Table};
use hoachulim::judged::{Judged, Not};
use hoachulim::kinds::{self, Kind};
use hoachulim::library;
use hoachulim::release::{self, File, Files};
use hoachulim::sha256;
use hoachulim::text;
use second::start_listing::start_listing;
use side::common::file;
use side::inputs::{plant_fields, random, rounds};
use side::tables::any_form;

fn files<'a>(house: &'a [u8], control: &'a [u8]) -> Files<'a> {
    Files { house: File { name: "a.house", bytes: house }, control: File { name: "a.table", bytes: control } }
}

/// The files judged, a plant's counts being so many a degree.
fn judged<'a>(files: Files<'a>, kind: Option<Kind>, degrees: u64) -> Judged<'a> {
    match Judged::read(files, kind, Some(degrees)) {
        Ok(judged) => judged,
        Err(_) => panic!("refused"),
    }
}

/// The page of a file, and whether it was accepted.
fn page(house: &[u8], control: &[u8]) -> (Element, bool) {
    let files = files(house, control);
    match Judged::read(files, Some(Kind::Table), None) {
        Ok(judged) => (xml::read(&judged.page().unwrap()), true),
        Err(Not::Refused(house, reasons)) => (xml::read(&release::refused(&files, house.as_deref(), &reasons)), false),
        Err(Not::Both(trouble)) => panic!("{trouble}"),
    }
}

/// What is read on the page.
fn read(page: &Element) -> String {
    page.named("body")[0].text()
}

/// The text of an element that has nothing else.
fn only_text(element: &Element) -> &str {
    match &element.children[..] {
        [xml::Node::Text(text)] => text,
        _ => panic!("{} is not one text", element.name),
    }
}

fn says(text: &str, words: &str) {
    assert!(text.contains(words), "does not say: {words}\n{text}");
}

/// A tile as the listing prints it, worked out here once more.
fn listed(table: &Table) -> Vec<String> {
    let line = |tile: &hoachulim::files::Tile| {
        let edges = tile.sides.iter().flat_map(|side| [side.lo.to_string(), side.hi.to_string()]);
        edges.chain([":".to_string()]).chain(tile.modes.iter().map(u64::to_string)).collect::<Vec<_>>().join(" ")
    };
    table.tiles.iter().map(line).collect()
}

/// The tiles on the page, up to where a line tells its degrees.
fn tiles(page: &Element) -> Vec<String> {
    let lines = page.classed("tiles").into_iter().flat_map(|list| only_text(list).lines());
    lines.map(|line| line.split("   ").next().unwrap().trim_end().to_string()).collect()
}

fn sums_are_told(text: &str, files: &[&[u8]]) {
    for bytes in files {
        says(text, &format!("{} bytes", bytes.len()));
        says(text, &sha256::sum(bytes));
    }
}

#[test]
fn the_house_in_plain_words() {
    let sheet = sample("house.sheet");
    let house = kinds::house(&sheet).unwrap();
    let bytes = library::make(&house.bytes, 1).unwrap();
    let table = Table::read(&bytes, &house.plant).unwrap();
    let (page, accepted) = page(&sheet, &bytes);
    let text = read(&page);
    assert!(accepted && library::check(&house.bytes, &bytes).is_ok());
    says(&text, "Accepted by the proved checker");
    says(&text, "Start the controller on any reading in R, in steps of 0.01 degrees, ends included:");
    says(&text, "room 1 20.00 to 22.00 degrees 2000 to 2200 counts 19.00 to 23.00 degrees 1900 to 2300 counts");
    says(&text, "Room 1 is never read below 19.00 or above 23.00 degrees, room 2 is never read below 19.00 or above 23.00 degrees.");
    let (longest, minutes) = (table.longest(), 5 * table.longest());
    says(&text, &format!("all rooms are back in R within {longest} samples, which is {minutes} minutes"));
    says(&text, "100 counts a degree, a sample every 5 minutes, 10.0 degrees outside");
    says(&text, "room 1 by −1 to 1 counts");
    says(&text, concat!("hoachulim ", env!("CARGO_PKG_VERSION")));
    assert_eq!(tiles(&page), listed(&table));
    sums_are_told(&text, &[&sheet, &house.bytes, &bytes]);
    assert_eq!(page.classed("picture").len(), 2);
}

/// The gallery's table of form 3 says so; one of form 1 says nothing of forms.
#[test]
fn a_page_says_the_form() {
    let sheet = text::read(&sample("gallery.txt")).unwrap().write();
    let house = kinds::house(&sheet).unwrap();
    for (form, words) in [(1, "the modes; behind them the tile in degrees. 55 tiles, longest pattern 4."), (3, "form 3, 9 tiles, longest pattern 4.")] {
        let bytes = library::make(&house.bytes, form).unwrap();
        let (page, accepted) = page(&sheet, &bytes);
        let text = read(&page);
        assert!(accepted);
        says(&text, words);
        says(&text, "room 2 is never read below 22.10 or above 25.50 degrees.");
        says(&text, "all rooms are back in R within 4 samples, which is 20 minutes");
        assert_eq!(tiles(&page), second::listing::listing(&house.bytes, form).lines().skip(1).collect::<Vec<_>>());
        assert_eq!(text.contains("form 3"), form == 3);
    }
}

/// The fan's room: the modeller answers for the band of each mode.
#[test]
fn a_band_for_each_mode_in_plain_words() {
    let plant = sample("fan.plant");
    let bytes = library::make(&plant, 1).unwrap();
    let (of_fan, accepted) = page(&plant, &bytes);
    assert!(accepted);
    says(&read(&of_fan), "by no more than the band of the mode applied: in mode 0 room 1 by −0.5 to 0.4 counts; in mode 1 room 1 by −6 to 5.9 counts;");
    let plant = sample("P.plant");
    let (of_p, _) = page(&plant, &bytes);
    says(&read(&of_p), "by no more than the band: room 1 by −0.5 to 0.4 counts;");
}

/// Eight valves in form 2, the band wider while the last is open: neighbours with one band are told together.
#[test]
fn bands_of_many_modes_in_plain_words() {
    let mut house = House::of(sample("valves.plant"), None);
    house.plant.form = 2;
    house.plant.modes[128..].iter_mut().for_each(|mode| mode[0].w = Side { lo: -20, hi: 19 });
    house.plant.modes[255][0].w = Side { lo: -10, hi: 9 };
    let plant = house.plant.write();
    let (of_valves, accepted) = page(&plant, &library::make(&plant, 1).unwrap());
    assert!(accepted);
    let bands = "in modes 0 to 127 room 1 by −0.5 to 0.45 counts; in modes 128 to 254 room 1 by −1 to 0.95 counts; in mode 255 room 1 by −0.5 to 0.45 counts;";
    says(&read(&of_valves), &format!("the band of the mode applied: {bands}"));
}

/// The defined tables of seeded plants: page and picture against the second program's listing.
#[test]
fn page_and_picture_are_the_listing_s() {
    let mut random = random(29);
    let mut made = 0;
    for _ in 0..rounds(200) {
        let plant = file(&plant_fields(&mut random));
        let form = any_form(&mut random);
        let Ok(bytes) = library::make(&plant, form) else { continue };
        let listing = second::listing::listing(&plant, form);
        let (header, lines) = listing.split_once('\n').unwrap();
        let [_, count, longest] = header.strip_prefix("table ").unwrap().split(' ').map(|number| number.parse().unwrap()).collect::<Vec<usize>>()[..] else {
            panic!("{header}");
        };
        let judged = judged(files(&plant, &bytes), Some(Kind::Table), 100);
        let page = xml::read(&judged.page().unwrap());
        assert_eq!(tiles(&page), lines.lines().collect::<Vec<_>>());
        says(&read(&page), &format!("back in R within {longest} sample"));
        let picture = xml::read(&judged.picture().unwrap());
        let drawn: std::collections::BTreeSet<_> = picture.classed("tile").iter().map(|tile| tile.number("data-tile") as usize).collect();
        assert_eq!(drawn.len(), count);
        made += 1;
    }
    assert!(made > 20, "only {made} tables");
}

#[test]
fn a_page_s_numbers_are_its_table_s() {
    for (house, bytes) in shapes::many() {
        let (page, accepted) = page(&house.bytes, &bytes);
        let (text, table) = (read(&page), Table::read(&bytes, &house.plant).unwrap());
        assert!(accepted && library::check(&house.bytes, &bytes).is_ok());
        says(&text, &table.words());
        says(&text, &format!("{} tile", table.tiles.len()));
        says(&text, &format!("longest pattern {}", table.longest()));
        says(&text, &format!("back in R within {} sample", table.longest()));
        for room in &house.plant.rooms {
            let [r_lo, r_hi, s_lo, s_hi] = [room.r.lo, room.r.hi, room.s.lo, room.s.hi].map(|edge| edge.to_string().replace('-', "−"));
            says(&text, &format!("{r_lo} to {r_hi} counts {s_lo} to {s_hi} counts"));
            says(&text, &format!("never read below {s_lo} or above {s_hi} count"));
        }
        assert!(!text.contains("minute"), "a plant tells no time");
        assert_eq!(tiles(&page), listed(&table));
        sums_are_told(&text, &[&house.bytes, &bytes]);
    }
}

/// Words that only an accepted file's page may have.
const PROMISES: [&str; 9] = ["promise", "Accepted", "accepted", "never", "within", "back in", "any reading", "modeller", "Signed"];

#[test]
fn a_refused_file_s_page_promises_nothing() {
    let mut random = shapes::Random(21);
    let (mut refused, mut accepted) = (0, 0);
    for (house, bytes) in shapes::many() {
        let mut spoiled = bytes.clone();
        let at = random.below(bytes.len() as u64) as usize;
        spoiled[at] ^= 1 << random.below(8);
        let (page, is_accepted) = page(&house.bytes, &spoiled);
        let text = read(&page);
        match library::check(&house.bytes, &spoiled) {
            Ok(()) => accepted += usize::from(is_accepted),
            Err(refusal) => {
                refused += 1;
                assert!(!is_accepted);
                says(&text, &format!("Refused by the proved checker. As a table: {refusal}"));
                says(&text, &causes::table(&house.plant, &spoiled, refusal));
                assert!(PROMISES.iter().all(|promise| !text.contains(promise)), "{text}");
                assert!(page.classed("picture").is_empty() && page.classed("tiles").is_empty());
                sums_are_told(&text, &[&house.bytes, &spoiled]);
            }
        }
    }
    assert!(refused > 20 && accepted > 5, "{refused} refused, {accepted} accepted");
}

#[test]
fn a_refused_house_s_page_promises_nothing() {
    let (page, accepted) = page(&[1, 9], &[1, 1, 1, 0]);
    let text = read(&page);
    assert!(!accepted);
    says(&text, "As a sheet: refused 3 1 0");
    says(&text, "As a plant: refused 3 1 0");
    says(&text, "3 at byte 1: n is 9, wanted 1 .. 4");
    says(&text, "a.house refused 2 bytes");
    says(&text, "a.table not judged 4 bytes");
    assert!(PROMISES.iter().all(|promise| !text.contains(promise)));
}

#[test]
fn a_page_needs_nothing_else() {
    let sheet = sample("house.sheet");
    let bytes = library::make(&kinds::house(&sheet).unwrap().bytes, 1).unwrap();
    let files = Files { house: File { name: "<&\">.sheet", bytes: &sheet }, control: File { name: "a\u{1}'b</title>.table", bytes: &bytes } };
    let Ok(judged) = Judged::read(files, None, None) else { panic!("the house has a table") };
    let text = judged.page().unwrap();
    let page = xml::read(&text);
    says(&read(&page), "for the plant of <&\">.sheet");
    for element in page.all() {
        assert!(!["script", "link", "img", "iframe", "a"].contains(&element.name.as_str()));
        for (name, value) in &element.attributes {
            assert!(!["href", "src"].contains(&name.as_str()));
            assert!(!value.contains("url("));
        }
    }
    assert!(!page.named("style").iter().any(|style| only_text(style).contains("url(") || only_text(style).contains("@import")));
}

#[test]
fn the_largest_pages_are_quick() {
    for (house, bytes) in shapes::largest() {
        let text = within_a_second(|| judged(files(&house.bytes, &bytes), None, 1_000).page().unwrap());
        assert!(text.len() < 2_000_000, "{} bytes", text.len());
        assert_eq!(tiles(&xml::read(&text)).len(), 4_096);
    }
}

/// A room far under band: P's equation, S 100..300, R1 180..240 and R2 150..260, each with a table into the box below.
fn far() -> (House, Vec<u8>) {
    let room = Bounds { r: Side { lo: 195, hi: 225 }, s: Side { lo: 100, hi: 300 } };
    let modes = [100, 300].map(|b| vec![Row { w: Side { lo: -5, hi: 4 }, a: vec![9], b }]).into();
    let plant = Plant { form: 1, q: 10, longest: 3, depth: 2, rooms: vec![room], modes };
    let boxes = vec![vec![Side { lo: 180, hi: 240 }], vec![Side { lo: 150, hi: 260 }]];
    let tables: [&[u8]; 3] = [&[1, 1, 0, 1, 1, 1, 0], &[1, 1, 0, 0, 2, 1, 1, 1, 1, 0, 1, 0, 2, 0, 0], &[1, 1, 0, 3, 1, 1, 1, 2, 0, 0]];
    let start = tables.iter().fold(Chain { boxes }.write(), |start, table| [&start[..], &[table.len() as u8], table].concat());
    (House::of(plant.write(), None), start)
}

#[test]
fn a_start_file_s_page_tells_of_arrival() {
    let (house, bytes) = far();
    let judged = judged(files(&house.bytes, &bytes), Some(Kind::Start), 10);
    let page = xml::read(&judged.page().unwrap());
    let text = read(&page);
    says(&text, "Accepted by the proved checker (hoachulim_start_check)");
    says(&text, "in one of these boxes, ends included, in steps of 0.1 degrees:");
    says(&text, "R 19.5 to 22.5 degrees 195 to 225 counts 0 samples R1 18.0 to 24.0 degrees 180 to 240 counts 2 samples R2");
    says(&text, "From any reading in R2 the room has arrived within 5 samples: a tile of R’s own table is chosen, on a reading in R.");
    says(&text, "From then on: from each reading at which a tile is chosen, the room is back in R within 1 sample, and there the next tile is chosen.");
    says(&text, "Room 1 is never read below 10.0 or above 30.0 degrees.");
    let listing = start_listing(&house.bytes, &bytes);
    assert_eq!(tiles(&page), listing.lines().filter(|line| !line.starts_with("box")).collect::<Vec<_>>());
    says(&text, "R1: 4 tiles, longest pattern 2 ");
}

/// In one room both forms have the same tree: the same page, but that the table of R1 says its form.
#[test]
fn a_start_file_s_page_says_the_form_of_each_table() {
    let (house, mut bytes) = far();
    let place = Start::read(&bytes, &house.plant).unwrap().tables[1].place;
    let words = |bytes: &[u8]| read(&xml::read(&judged(files(&house.bytes, bytes), Some(Kind::Start), 10).page().unwrap()));
    let before = words(&bytes).replace(&sha256::sum(&bytes), "");
    bytes[place] = 3;
    assert_eq!(words(&bytes).replace(&sha256::sum(&bytes), ""), before.replace("R1: 4 tiles", "R1: form 3, 4 tiles"));
    assert!(before.contains("R1: 4 tiles"));
}

#[test]
fn the_run_of_a_start_file_is_home_last_from_its_first_reading() {
    let (house, bytes) = far();
    let samples = judged(files(&house.bytes, &bytes), Some(Kind::Start), 10).extreme().unwrap();
    let home = samples.iter().position(|sample| sample.idle && (195..=225).contains(&sample.reading[0])).unwrap();
    assert_eq!(samples[0].reading[0], 150, "the cold corner is home last");
    assert!(home > 0 && home <= 5 && samples[home..].iter().all(|sample| sample.idle && (195..=225).contains(&sample.reading[0])));
}

/// Nine tables of 4,096 tiles, which is the largest start file, in either form.
#[test]
fn the_largest_start_files_pages_are_quick() {
    let of_two_rooms = shapes::largest().into_iter().step_by(6).take(2);
    for (house, table) in of_two_rooms {
        let mut bytes = Chain { boxes: vec![house.plant.r(); 8] }.write();
        for _ in 0..9 {
            let mut length = Writer::default();
            length.number(table.len() as u64);
            bytes.extend([length.0, table.clone()].concat());
        }
        let text = within_a_second(|| judged(files(&house.bytes, &bytes), Some(Kind::Start), 1_000).page().unwrap());
        assert!(text.len() < 5_000_000, "{} bytes", text.len());
        let page = xml::read(&text);
        assert_eq!(tiles(&page).len(), 9 * 4_096);
        assert_eq!(read(&page).contains("R8: form 3, 4096 tiles"), table[0] == 3);
        let picture = within_a_second(|| judged(files(&house.bytes, &bytes), Some(Kind::Start), 1_000).picture().unwrap());
        xml::read(&picture);
    }
}
