//! The definitions held against this program: its answers on inputs beyond document 01's lines, as a page of equations that the
//! proof checker computes (`crates/examples/specs/Answers.antt`). The test fails where that page is not what this program says;
//! `PAGE=write cargo test --test page` writes it anew.

mod common;
mod page_starts;

use common::{encode, file, marked, p_fields, plant_values, sheet_values, two_room_sheet, two_rooms, with, Field, F, P, Raw, S, U};
use page_starts::{starts, starts_by_lengths};
use second::boxes::Box;
use second::checker::check;
use second::control::{control, State};
use second::image::image;
use second::maker::make;
use second::numbers::{read_signed, read_unsigned};
use second::plant::{read_plant, write_plant, Plant};
use second::refusal::Refusal;
use second::sheet::{read_sheet, sheet_to_plant, write_sheet, Emitter, Sheet};
use second::tile::tile_rule;
use std::fmt::Write;

const HEAD: &str = "\
-- The second program's answers, held against the definitions: each equation is computed by the checker.
-- Written by second/tests/page.rs, which also tests that this page says what the second program answers.
use Rattle.std.specs.Prelude.{ℕ, ◌≡◌, refl, List, [], ◌∷◌, replicate, ℤ, pos, neg_ℤ, Some, None, Ok, Err}
use Rattle.meaning.specs.Answers.{verdict_in, SheetRead}
use Rattle.meaning.specs.declared.Tried.{Tried}
use Rattle.meaning.specs.Refusals.{refusal}
use Rattle.meaning.specs.Numbers.{number_at, signed_at}
use Rattle.meaning.specs.Boxes.{side, children, longest_halved}
use Rattle.meaning.specs.Images.{image}
use Rattle.meaning.specs.Files.{good}
use Rattle.meaning.specs.Plants.{plant_of, plant_judged, plant_read, plant_left, step_of}
use Rattle.meaning.specs.Rules.{rule}
use Rattle.meaning.specs.Tables.{rules_of, checked, maker_left, controlled}
use Rattle.meaning.specs.Starts.{start_checked, start_left, start_controlled}
use Rattle.meaning.specs.Sheets.{sheet_of, sheet_values, sheet_read, sheet_left, made_left}
use Rattle.meaning.specs.Computing.{computing}

-- a sheet's values; none of a refused one
abbrev values_in : SheetRead → List ℤ
values_in (Ok h) = sheet_values h
values_in (Err e) = []

-- a lent buffer of m bytes, none of them 0
abbrev lent : ℕ → List ℕ
lent m = replicate m 0xAA
";

/// The form of table that the makers on the page are told, but in the sections of forms 2 and 3.
const FORM: u64 = 1;

// ---- this program's values in the page's words

fn list<T>(items: &[T], word: impl Fn(&T) -> String) -> String {
    items.iter().map(|item| word(item) + " ∷ ").collect::<String>() + "[]"
}

fn bytes(items: &[u8]) -> String {
    list(items, |byte| format!("{byte:#04x}"))
}

fn whole(value: i128) -> String {
    if value < 0 { format!("neg_ℤ (pos {})", -value) } else { format!("pos {value}") }
}

fn wholes(values: &[i128]) -> String {
    list(values, |value| whole(*value))
}

fn refused(refusal: &Refusal) -> String {
    format!("Err (refusal {} {} {})", refusal.number, refusal.place, refusal.step)
}

fn verdict<T>(answer: &Result<T, Refusal>) -> String {
    match answer {
        Ok(_) => "Ok tt".into(),
        Err(refusal) => refused(refusal),
    }
}

fn left(answer: &Result<usize, Refusal>, buffer: &[u8]) -> String {
    let word = match answer {
        Ok(length) => format!("Ok {length}"),
        Err(refusal) => refused(refusal),
    };
    format!("record {{ answer = {word}; buffer = {} }}", bytes(buffer))
}

fn boxed(of: &Box) -> String {
    list(of.sides(), |side| format!("side ({}) ({})", whole(side.lo.into()), whole(side.hi.into())))
}

/// The fields' values as the definitions list them: a float is its bit pattern.
fn field_values(fields: &[Field]) -> Vec<i128> {
    let value = |field: &Field| match field {
        U(number) => i128::from(*number),
        S(number) => i128::from(*number),
        F(float) => i128::from(float.to_bits()),
        Raw(_) => panic!("no value"),
    };
    fields.iter().map(value).collect()
}

/// The numbers of a plant's file, in file order.
fn plant_numbers(plant: &Plant) -> Vec<i128> {
    let n = plant.rooms();
    let edges = &plant.edges;
    let band = |mode: usize| (0..n).flat_map(move |i| [plant.bands[mode].lo[i], plant.bands[mode].hi[i]].map(i128::from));
    let mut numbers = [plant.form, plant.n, plant.modes, plant.q, plant.k, plant.d].map(i128::from).to_vec();
    for i in 0..n {
        numbers.extend([edges.r_lo[i], edges.r_hi[i], edges.s_lo[i], edges.s_hi[i]].map(i128::from));
    }
    numbers.extend(band(0).filter(|_| plant.form == 1));
    for mode in 0..plant.modes as usize {
        numbers.extend(band(mode).filter(|_| plant.form == 2));
        for i in 0..n {
            numbers.extend(plant.row(mode, i).iter().map(|entry| i128::from(*entry)));
        }
    }
    numbers
}

/// The values of a sheet's file, in file order.
fn sheet_numbers(sheet: &Sheet) -> Vec<i128> {
    let n = sheet.room_count();
    let edges = &sheet.edges;
    let bits = |float: f64| i128::from(float.to_bits());
    let mut numbers = vec![1, sheet.n as i128, sheet.r as i128, sheet.q as i128, sheet.k as i128, sheet.d as i128];
    for i in 0..n {
        numbers.extend([edges.r_lo[i], edges.r_hi[i], edges.s_lo[i], edges.s_hi[i]].map(i128::from));
    }
    for i in 0..n {
        numbers.extend([sheet.band.lo[i], sheet.band.hi[i]].map(i128::from));
    }
    numbers.extend([bits(sheet.time), bits(sheet.outside)]);
    for room in &sheet.rooms[..n] {
        numbers.push(bits(room.loss));
        numbers.extend(room.exchange[..n - 1].iter().map(|g| bits(*g)));
        match room.emitter {
            Emitter::None => numbers.push(0),
            Emitter::Heater { p, water } => numbers.extend([1, bits(p), bits(water)]),
            Emitter::Steady { rate } => numbers.extend([2, bits(rate)]),
        }
    }
    numbers
}

// ---- the page

struct Page {
    text: String,
    count: usize,
}

impl Page {
    fn section(&mut self, words: &str) {
        write!(self.text, "\n-- ---- {words}\n").unwrap();
    }

    fn equation(&mut self, left: &str, right: &str) {
        self.count += 1;
        let name = format!("answer-{}", self.count);
        write!(self.text, "\n{name} : {left} ≡ {right}\nunfolding computing\n{name} = refl\n").unwrap();
    }

    fn number(&mut self, file: &[u8], place: usize) {
        let plain = match read_unsigned(file, place) {
            Ok((value, next)) => format!("Some ({value}, {next})"),
            Err(_) => "None".into(),
        };
        self.equation(&format!("number_at ({}) {place}", bytes(file)), &plain);
        let signed = match read_signed(file, place) {
            Ok((value, next)) => format!("Some ({}, {next})", whole(value.into())),
            Err(_) => "None".into(),
        };
        self.equation(&format!("signed_at ({}) {place}", bytes(file)), &signed);
    }

    fn plant(&mut self, file: &[u8]) {
        let answer = read_plant(file);
        self.equation(&format!("verdict_in (plant_read ({}))", bytes(file)), &verdict(&answer));
        if let Ok(plant) = answer {
            self.equation(&format!("plant_judged ({})", bytes(file)), &format!("good (plant_of ({}))", wholes(&plant_numbers(&plant))));
        }
    }

    fn write_plant(&mut self, fields: &[Field], n: usize, length: usize) {
        let mut buffer = marked(length);
        let answer = write_plant(&plant_values(fields, n), &mut buffer);
        self.equation(&format!("plant_left (plant_of ({})) (lent {length})", wholes(&field_values(fields))), &left(&answer, &buffer));
    }

    fn sheet(&mut self, file: &[u8]) {
        let answer = read_sheet(file);
        self.equation(&format!("verdict_in (sheet_read ({}))", bytes(file)), &verdict(&answer));
        if let Ok(sheet) = answer {
            self.equation(&format!("values_in (sheet_read ({}))", bytes(file)), &wholes(&sheet_numbers(&sheet)));
        }
    }

    fn write_sheet(&mut self, fields: &[Field], n: usize, length: usize) {
        let mut buffer = marked(length);
        let answer = write_sheet(&sheet_values(fields, n), &mut buffer);
        self.equation(&format!("sheet_left (sheet_of ({})) (lent {length})", wholes(&field_values(fields))), &left(&answer, &buffer));
    }

    fn sheet_to_plant(&mut self, file: &[u8], length: usize) {
        let mut buffer = marked(length);
        let answer = sheet_to_plant(file, &mut buffer);
        self.equation(&format!("made_left ({}) (lent {length})", bytes(file)), &left(&answer, &buffer));
    }

    fn check(&mut self, plant: &[u8], table: &[u8]) {
        self.equation(&format!("checked ({}) ({})", bytes(plant), bytes(table)), &verdict(&check(plant, table)));
    }

    fn make(&mut self, plant: &[u8], length: usize) -> Vec<u8> {
        self.make_of(FORM, plant, length)
    }

    fn make_of(&mut self, form: u64, plant: &[u8], length: usize) -> Vec<u8> {
        let mut buffer = marked(length);
        let answer = make(plant, form, &mut buffer);
        self.equation(&format!("maker_left ({}) {form} (lent {length})", bytes(plant)), &left(&answer, &buffer));
        buffer[..answer.unwrap_or(0)].to_vec()
    }

    fn control(&mut self, plant: &[u8], table: &[u8], state: (u64, u64), reading: [i64; 4]) {
        let (place, left) = state;
        let right = match control(plant, table, State { place, left }, reading) {
            Ok((mode, next)) => format!("Ok ({mode}, record {{ place = {}; left = {} }})", next.place, next.left),
            Err(refusal) => refused(&refusal),
        };
        self.equation(
            &format!(
                "controlled ({}) ({}) (record {{ place = {place}; left = {left} }}) ({})",
                bytes(plant),
                bytes(table),
                wholes(&reading.map(i128::from))
            ),
            &right,
        );
    }

    fn image(&mut self, fields: &[Field], mode: usize, from: &Box) {
        let plant = read_plant(&file(fields)).expect("a plant");
        let left = format!("image (step_of (plant_of ({})) {mode}) ({})", wholes(&field_values(fields)), boxed(from));
        self.equation(&left, &boxed(&image(&plant, mode, from)));
    }

    fn split(&mut self, of: &Box) {
        let children: Vec<Box> = of.split().into_iter().flatten().collect();
        self.equation(&format!("children ({})", boxed(of)), &list(&children, |child| format!("({})", boxed(child))));
    }

    fn halve(&mut self, of: &Box) {
        let halves: Vec<Box> = of.halve().into_iter().flatten().collect();
        self.equation(&format!("longest_halved ({})", boxed(of)), &list(&halves, |half| format!("({})", boxed(half))));
    }

    fn rule(&mut self, fields: &[Field], of: &Box, pattern: &[u8]) {
        let plant = read_plant(&file(fields)).expect("a plant");
        let right = match tile_rule(&plant, &plant.r(), of, pattern, 0) {
            Ok(()) => "Tried.Works".into(),
            Err(refusal) if refusal.number == 7 => format!("Tried.Leaves {}", refusal.step),
            Err(refusal) => format!("Tried.Misses {}", refusal.step),
        };
        let modes = list(pattern, |mode| mode.to_string());
        self.equation(&format!("rule (rules_of {FORM} (plant_of ({}))) ({}) ({modes})", wholes(&field_values(fields)), boxed(of)), &right);
    }
}

// ---- the inputs

/// Three rooms, the middle one warmed by its neighbours only, with edges on both sides of zero.
fn three_rooms() -> Vec<Field> {
    let mut fields = vec![U(1), U(3), U(3), U(8), U(2), U(1)];
    fields.extend([-12, 11, -30, 25, -7, -7, -20, 6, 3, 18, -9, 40].map(S));
    fields.extend([-4, 4, -3, 4, -5, 2].map(S));
    fields.extend([5, 1, 0, -3, 1, 2, -1, -40, 0, -2, 4, 38].map(S));
    fields.extend([4, -1, 1, 9, 0, 3, 1, -33, 1, 1, 3, 20].map(S));
    fields.extend([3, 0, -2, -11, 1, 1, 2, -60, -1, 0, 5, 41].map(S));
    fields
}

/// Three rooms, the middle one without an emitter, so that mode bit 1 is the third room's.
fn three_room_sheet() -> Vec<Field> {
    let mut fields = vec![U(1), U(3), U(100), U(1000), U(2), U(1)];
    fields.extend([1900, 2200, 1500, 2600, 1850, 2250, 1400, 2700, -100, 50, -300, 300].map(S));
    fields.extend([-600, 600, -1000, -1, -499, 500].map(S));
    fields.extend([F(0.1), F(-3.7)]);
    fields.extend([F(0.3), F(0.11), F(0.07), U(1), F(0.9), F(35.5)]);
    fields.extend([F(0.25), F(0.13), F(-0.0), U(0)]);
    fields.extend([F(0.0), F(0.017), F(1e-3), U(2), F(-2.25)]);
    fields
}

/// Two rooms like P's, the second counted from 210 so that its edges lie around zero; mode bit i heats room i. Its table splits.
fn split_rooms() -> Vec<Field> {
    let mut fields = vec![U(1), U(2), U(4), U(10), U(2), U(1)];
    fields.extend([195, 225, 190, 230, -15, 15, -20, 20, -5, 4, -5, 4].map(S));
    for mode in 0..4 {
        let first = if mode % 2 == 1 { 300 } else { 100 };
        let second = if mode / 2 == 1 { 90 } else { -110 };
        fields.extend([9, 0, first, 0, 9, second].map(S));
    }
    fields
}

fn numbers(page: &mut Page) {
    page.section("numbers, read as they are and as signed ones");
    let cases: [(&[u8], usize); 9] = [
        (&[0xFF, 0xFF, 0xFF, 0xFF, 0x7F], 0),
        (&[0xFE, 0xFF, 0xFF, 0xFF, 0x7F], 0),
        (&[0x80, 0x80, 0x80, 0x80, 0x80, 0x01], 0),
        (&[0x80, 0x80, 0x00], 0),
        (&[0x07, 0x00], 1),
        (&[0x81, 0x01], 0),
        (&[0x05, 0x81], 1),
        (&[0x05], 1),
        (&[0x05], 9),
    ];
    for (file, place) in cases {
        page.number(file, place);
    }
}

/// Each field of a file out of place in its own ways, damaged bytes, cut ends.
fn damaged(fields: &[Field], changes: &[(usize, Field)]) -> Vec<Vec<u8>> {
    let (whole, places) = encode(fields);
    let mut files: Vec<Vec<u8>> = changes.iter().map(|(index, field)| file(&with(fields, *index, field.clone()))).collect();
    for index in [0, 3, 7, fields.len() - 1] {
        files.push(whole[..places[index] as usize].to_vec());
        files.push(file(&with(fields, index, Raw(vec![0x80, 0x00]))));
    }
    files.push([whole.as_slice(), &[0x80]].concat());
    files.push(whole);
    files
}

fn plants(page: &mut Page) {
    page.section("plants, read and written");
    let two = two_rooms();
    let changes = [
        (0, U(2)),
        (0, U(129)),
        (1, U(0)),
        (1, U(5)),
        (2, U(257)),
        (3, U(10_001)),
        (4, U(7)),
        (5, U(7)),
        (6, S(-1_000_001)),
        (7, S(-1)),
        (10, S(4)),
        (13, S(1_000_001)),
        (15, S(-3)),
        (17, S(-1)),
        (16, S(-1_000_000_001)),
        (19, S(20_001)),
        (20, S(-10_000_000_001)),
        (20, S(-10_000_000_000)),
        (8, S(1)),
        (12, S(11)),
    ];
    for file in damaged(&two, &changes) {
        page.plant(&file);
    }
    let three = three_rooms();
    page.plant(&file(&with(&three, 5, U(5))));
    page.plant(&file(&with(&with(&three, 8, S(-11)), 19, S(1))));
    page.plant(&file(&three));
    page.plant(&[]);
    let length = file(&two).len();
    for buffer in [length, length - 1, length + 3, 0] {
        page.write_plant(&two, 2, buffer);
    }
    for (index, field) in [(3, U(1 << 35)), (3, U((1 << 35) - 1)), (1, U(0)), (20, S(1 << 34)), (20, S(-(1 << 34))), (9, S(i64::MIN)), (14, S(3)), (8, S(1))] {
        page.write_plant(&with(&two, index, field), 2, 6);
    }
}

fn tables(page: &mut Page) {
    page.section("boxes, images, the tile rule");
    page.split(&Box::new(&[-4], &[-1]));
    page.split(&Box::new(&[-8, 5], &[-6, 8]));
    page.split(&Box::new(&[0, 3, -1], &[1, 3, 1]));
    page.split(&Box::new(&[-5, -5, -5], &[-5, -5, -5]));
    let (two, three) = (two_rooms(), three_rooms());
    for mode in 0..2 {
        page.image(&two, mode, &Box::new(&[-3, 10], &[9, 19]));
        page.image(&two, mode, &Box::new(&[-9, -2], &[-9, 5]));
    }
    for mode in 0..3 {
        page.image(&three, mode, &Box::new(&[-12, -7, 3], &[11, -7, 18]));
    }
    page.rule(&two, &Box::new(&[0, 10], &[9, 19]), &[0]);
    page.rule(&two, &Box::new(&[0, 10], &[4, 14]), &[1, 0]);
    page.rule(&two, &Box::new(&[-5, 5], &[14, 24]), &[1, 1, 1]);
    page.rule(&three, &Box::new(&[-12, -7, 3], &[11, -7, 18]), &[2, 0]);

    page.section("tables, made and checked");
    let rooms = split_rooms();
    let plant = file(&rooms);
    let table = page.make(&plant, 13);
    page.make(&plant, table.len());
    page.make(&plant, table.len() - 1);
    page.make(&file(&two), 5);
    page.make(&file(&with(&rooms, 5, U(0))), 3);
    page.make(&file(&three), 3);
    page.make(&file(&with(&rooms, 1, U(9))), 4);
    page.check(&plant, &table);
    page.check(&file(&with(&rooms, 8, S(196))), &table);
    let raised = (0..table.len()).map(|place| (place, table[place] + 1));
    for (place, byte) in raised.chain([(2, 3), (2, 0x80), (1, 0), (0, 0x81), (4, 4)]) {
        let mut spoiled = table.clone();
        spoiled[place] = byte;
        page.check(&plant, &spoiled);
    }
    for cut in [0, 1, 2, 3, 4, table.len() - 1] {
        page.check(&plant, &table[..cut]);
    }
    page.check(&plant, &[table.as_slice(), &[0]].concat());
    page.check(&P, &[1, 1, 0, 1, 1, 0, 1]);
    page.check(&P, &[1, 1, 0, 1, 1, 0x81, 0x00]);
    page.check(&P, &[1, 1, 0, 1, 0, 0x81]);
    page.check(&P, &[1, 1, 2, 1, 5]);

    page.section("the controller");
    for reading in [[195, -15, 0, 0], [225, 15, 7, -7], [210, 1, 0, 0], [211, 0, 0, 0], [194, 0, 0, 0], [195, 16, 0, 0], [230, 20, 0, 0]] {
        page.control(&plant, &table, (0, 0), reading);
    }
    let long = [1, 2, 2, 3, 0, 9];
    for state in [(1, 0), (0, 1), (2, 1), (1, 1), (5, 1), (3, 2), (3, 3), (4, 2), (4, 3), (u64::MAX, 2), (6, 1)] {
        page.control(&plant, &long, state, [190, 20, 0, 0]);
    }
    page.control(&plant, &long, (3, 2), [195, 21, 0, 0]);
    page.control(&plant, &long, (9, 0), [195, 21, 0, 0]);
    page.control(&plant, &long, (0, 0), [195, 0, 0, 0]);
    for cut in [0, 1, 2, 3, 5, 7, 9] {
        page.control(&plant, &table[..cut], (0, 0), [225, -15, 0, 0]);
    }
    page.control(&P, &[1, 1, 0, 1, 2, 1, 0], (0, 0), [225, 0, 0, 0]);
    page.control(&P, &[1, 1, 0, 1, 0, 2, 0, 1, 9], (0, 0), [225, 0, 0, 0]);
    page.control(&P, &[1, 1, 0, 0, 1, 0, 1, 0], (0, 0), [225, 0, 0, 0]);
    page.control(&P, &[1, 2, 1, 1], (7, 9), [0, 0, 0, 0]);
    page.control(&[1, 1], &[2], (7, 9), [0, 0, 0, 0]);
}

/// Tables of form 3, of the same rooms.
fn halved_tables(page: &mut Page) {
    page.section("form 3: the longest side halved, tables made and checked, the controller");
    page.halve(&Box::new(&[-4], &[-1]));
    page.halve(&Box::new(&[-8, 5], &[-6, 8]));
    page.halve(&Box::new(&[0, 3, -1], &[1, 3, 0]));
    page.halve(&Box::new(&[-5, -9, -5, 0], &[-5, -1, 3, 7]));
    page.halve(&Box::new(&[-5, -5, -5], &[-5, -5, -5]));
    let plant = file(&split_rooms());
    let table = page.make_of(3, &plant, 15);
    page.make_of(3, &plant, table.len() - 1);
    for form in [0, 2, 4, 129, (1 << 35) + 3] {
        page.make_of(form, &plant, 4);
    }
    page.make_of(2, &file(&with(&split_rooms(), 1, U(9))), 4);
    page.make_of(3, &file(&with(&split_rooms(), 5, U(0))), 3);
    page.check(&plant, &table);
    let raised = (0..table.len()).map(|place| (place, table[place] + 1));
    for (place, byte) in raised.chain([(0, 1), (0, 2), (0, 0x83), (2, 1), (3, 0), (4, 0)]) {
        let mut spoiled = table.clone();
        spoiled[place] = byte;
        page.check(&plant, &spoiled);
    }
    for cut in [0, 1, 2, 4, table.len() - 1] {
        page.check(&plant, &table[..cut]);
    }
    for reading in [[195, -15, 0, 0], [225, 15, 7, -7], [210, 1, 0, 0], [211, 0, 0, 0], [211, 1, 0, 0], [194, 0, 0, 0]] {
        page.control(&plant, &table, (0, 0), reading);
    }
    for cut in [2, 3, 5, 7, table.len() - 1] {
        page.control(&plant, &table[..cut], (0, 0), [225, -15, 0, 0]);
    }
    page.control(&plant, &[3, 2, 2, 3, 0], (4, 1), [190, 20, 0, 0]);
    page.control(&plant, &[4, 2, 2, 3, 0], (4, 1), [190, 20, 0, 0]);
}

/// P's table of form 2 with this for its length.
fn p_by_length(length: Field) -> Vec<u8> {
    file(&[U(2), U(1), U(0), length, Raw(vec![1, 1, 1, 0])])
}

/// Four tiles of form 2 for `split_rooms`, behind these lengths.
fn four_by_lengths(lengths: [u64; 3]) -> Vec<u8> {
    file(&[&[U(2), U(2), U(0)], &lengths.map(U)[..], &[Raw(vec![1, 3, 1, 2, 1, 1, 1, 0])]].concat())
}

/// A table of form 2 for P with D 2, its lower half split again, with these lengths.
fn nested(outer: u8, inner: u8) -> Vec<u8> {
    vec![2, 1, 0, outer, 0, inner, 1, 1, 1, 1, 1, 0]
}

/// 2 is right. One less and one more, none, the file's end and one past it; past 2^32, the largest; then broken: one more than
/// that, and two bytes where one would do.
fn lengths() -> [Field; 10] {
    [U(2), U(1), U(3), U(0), U(4), U(5), U((1 << 32) + 2), U((1 << 35) - 1), U(1 << 35), Raw(vec![0x82, 0x00])]
}

/// Tables of form 2, made and checked.
fn tables_by_lengths(page: &mut Page) {
    page.section("form 2: lengths behind each split's 0, tables made and checked");
    let plant = file(&split_rooms());
    page.make_of(2, &P, 9);
    page.make_of(2, &P, 7);
    let table = page.make_of(2, &plant, 14);
    page.make_of(2, &file(&with(&split_rooms(), 5, U(0))), 3);
    for length in lengths() {
        page.check(&P, &p_by_length(length));
    }
    // The child's own faults before its length, the next child's after; a split's own before its lengths; cut; left over.
    page.check(&P, &[2, 1, 0, 9, 1, 0, 1, 0]);
    page.check(&P, &[2, 1, 0, 3, 1, 1, 9]);
    page.check(&P, &[2, 1, 0, 2, 0, 0x80, 0x00]);
    page.check(&P, &[2, 1, 0]);
    page.check(&P, &[2, 1, 0, 2, 1, 1, 1, 0, 0]);
    page.check(&plant, &table);
    for lengths in [[2, 4, 0], [2, 2, 0]] {
        page.check(&plant, &four_by_lengths(lengths));
    }
    page.check(&plant, &[2, 2, 0, 9, 0x82, 0x00, 2, 1, 3, 1, 2, 1, 1, 1, 0]);
    // A length counts its child's own lengths too; of two wrong ones the child's comes first.
    let deeper = file(&with(&p_fields(), 5, U(2)));
    for (outer, inner) in [(6, 2), (5, 2), (5, 4)] {
        page.check(&deeper, &nested(outer, inner));
    }
}

/// Calls on tables of form 2.
fn calls_by_lengths(page: &mut Page) {
    page.section("form 2: the controller");
    let plant = file(&split_rooms());
    for length in lengths() {
        page.control(&P, &p_by_length(length), (0, 0), [225, 0, 0, 0]);
    }
    // To the first child no length leads, and yet it is judged.
    page.control(&P, &p_by_length(U(5)), (0, 0), [195, 0, 0, 0]);
    for (cut, x) in [(7, 225), (6, 195), (5, 195)] {
        page.control(&P, &p_by_length(U(2))[..cut], (0, 0), [x, 0, 0, 0]);
    }
    for state in [(5, 2), (3, 1)] {
        page.control(&P, &[2, 1, 0, 99, 2, 1, 0, 1, 0], state, [200, 0, 0, 0]);
    }
    for reading in [[225, -15, 0, 0], [210, 1, 0, 0]] {
        page.control(&plant, &four_by_lengths([2, 2, 2]), (0, 0), reading);
    }
    for lengths in [[2, 2, 4], [2, 2, 5], [2, 7, 0]] {
        page.control(&plant, &four_by_lengths(lengths), (0, 0), [195, -15, 0, 0]);
    }
    // The parent's end counts for nothing: here the upper half's tile is taken for the second quarter's.
    page.control(&file(&with(&p_fields(), 5, U(2))), &nested(6, 4), (0, 0), [205, 0, 0, 0]);
    // Passed tiles are not read.
    page.control(&plant, &[2, 2, 0, 2, 2, 2, 9, 9, 9, 9, 9, 9, 1, 0], (0, 0), [225, 15, 0, 0]);
}

fn sheets(page: &mut Page) {
    page.section("sheets, read, written and made into plants");
    let two = two_room_sheet();
    let changes = [
        (2, U(0)),
        (2, U(1001)),
        (14, S(-3)),
        (18, F(-0.0)),
        (18, F(0.0)),
        (18, F(f64::NAN)),
        (19, F(f64::INFINITY)),
        (19, F(-1.5)),
        (20, F(-0.0)),
        (20, F(-5e-324)),
        (21, F(-1.0)),
        (22, U(3)),
        (22, U(0)),
        (23, F(-0.5)),
        (24, F(f64::NEG_INFINITY)),
        (24, F(-40.0)),
        (24, F(1e300)),
        (18, F(1e308)),
        (18, F(1e5)),
        (28, F(f64::NAN)),
        (15, S(1_000_000_000)),
        (8, S(196)),
    ];
    for file in damaged(&two, &changes) {
        page.sheet(&file);
    }
    let three = three_room_sheet();
    for fields in [&two, &three] {
        let whole = file(fields);
        page.sheet_to_plant(&whole, 140);
        page.sheet_to_plant(&whole, 20);
    }
    page.sheet_to_plant(&file(&with(&three, 24, F(0.5))), 140);
    page.sheet_to_plant(&file(&with(&three, 26, F(0.49999999999999994))), 140);
    let length = file(&two).len();
    page.write_sheet(&two, 2, length);
    page.write_sheet(&two, 2, length - 1);
    page.write_sheet(&with(&two, 21, F(-0.0)), 2, length + 2);
    page.write_sheet(&with(&two, 23, F(f64::NAN)), 2, 5);
    page.write_sheet(&with(&two, 3, U(1 << 40)), 2, 5);
    page.write_sheet(&with(&two, 18, F(1e5)), 2, 5);
}

fn page() -> String {
    let mut page = Page { text: HEAD.into(), count: 0 };
    numbers(&mut page);
    plants(&mut page);
    tables(&mut page);
    sheets(&mut page);
    starts(&mut page, 1, 1, 2);
    starts(&mut page, 2, 2, 1);
    halved_tables(&mut page);
    tables_by_lengths(&mut page);
    calls_by_lengths(&mut page);
    starts_by_lengths(&mut page);
    page.text
}

#[test]
fn the_page_says_what_this_program_answers() {
    let path = concat!(env!("CARGO_MANIFEST_DIR"), "/../crates/examples/specs/Answers.antt");
    let text = page();
    if std::env::var("PAGE").as_deref() == Ok("write") {
        std::fs::write(path, &text).expect("the page is written");
    }
    assert_eq!(std::fs::read_to_string(path).expect("the page is there"), text);
}
