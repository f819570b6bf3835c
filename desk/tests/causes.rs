//! Why something was refused: a line for each cause of each row, and a cause for whatever is refused.

mod common;

use common::sample;
use hoachulim::causes;
use hoachulim::files::{House, Plant};
use hoachulim::library::{self, State};
use hoachulim::refusals::Refusal;
use side::common::{file, in_form_2, line_13, p_fields, p_prime, two_room_sheet, two_rooms, with, Field, F, P, S, T1, T5, U};
use side::inputs::{damaged, other_forms, plant_fields, random, rounds, sheet_fields, spoiled};
use side::tables::{any_form, any_tree, made_tables, other_table, FORMS, NO_FORMS};

fn of_plant(plant: &[u8]) -> String {
    causes::plant(plant, library::plant(plant).unwrap_err())
}

fn of_p(index: usize, field: Field) -> String {
    of_plant(&file(&with(&p_fields(), index, field)))
}

#[test]
fn causes_of_plants() {
    assert_eq!(of_plant(&[]), "1 at byte 0: the form ends early");
    assert_eq!(of_plant(&[0x81, 0]), "1 at byte 0: the form is not in shortest form: its last byte is 00");
    assert_eq!(of_plant(&[1, 1, 2, 0x80, 0x80, 0x80, 0x80, 0x80, 1]), "1 at byte 3: q is over 5 bytes");
    assert_eq!(of_p(0, U(3)), "2 at byte 0: the form is 3, wanted 1 or 2");
    assert_eq!(of_p(1, U(5)), "3 at byte 1: n is 5, wanted 1 .. 4");
    assert_eq!(of_p(2, U(257)), "3 at byte 2: N is 257, wanted 1 .. 256");
    assert_eq!(of_p(5, U(7)), "3 at byte 5: D is 7, wanted 0 .. 6");
    assert_eq!(of_plant(&[1, 4, 1, 1, 1, 4]), "3 at byte 5: D is 4, wanted 0 .. 3, as n·D is at most 12");
    assert_eq!(of_p(6, S(-1_000_001)), "3 at byte 6: R of room 1, lo is -1000001, wanted -1000000 .. 1000000");
    assert_eq!(of_p(7, S(194)), "3 at byte 8: R of room 1, hi is 194, wanted 195, which is its lo, .. 1000000");
    assert_eq!(of_p(13, S(10_000_000_001)), "3 at byte 17: b of mode 0, room 1, is 10000000001, wanted -10000000000 .. 10000000000");
    assert_eq!(of_plant(&[&P[..], &[0, 0]].concat()), "3 at byte 22: 2 bytes left over behind the last number");
    assert_eq!(of_p(8, S(196)), "4 in room 1: R is 195 .. 225, S is 196 .. 230");
    assert_eq!(of_p(11, S(3)), "5 in room 1: w is -5 .. 3, which is 8 wide, wanted at least q - 1 = 9");
}

fn of_maker(plant: &[u8], form: u64) -> String {
    causes::made(&Plant::read(plant).unwrap(), form, library::make(plant, form).unwrap_err())
}

const NO_TABLE: &str = "9: some box that can be split no further has no pattern that works; \
                        a larger longest pattern or depth, a wider R or S, or a narrower w may help";

#[test]
fn causes_of_makers() {
    let gallery = |depth| Plant { depth, ..Plant::read(&sample("gallery.plant")).unwrap() }.write();
    // P without heat and the gallery without a split: in one room alone or with nothing to split the forms have the same tables
    for plant in [file(&with(&p_fields(), 15, S(100))), gallery(0)] {
        assert_eq!(FORMS.map(|form| of_maker(&plant, form)), [NO_TABLE; 3]);
        NO_FORMS.iter().for_each(|&form| assert_eq!(of_maker(&plant, form), format!("2: the form asked for is {form}, wanted 1, 2 or 3")));
    }
    // split twice the gallery has a table of form 3 alone, split once none
    let says_other = |other| format!("{NO_TABLE}, and so may {other}: some plants have a table by one way to split alone");
    assert_eq!(of_maker(&gallery(2), 1), says_other("form 3"));
    assert_eq!(of_maker(&gallery(2), 2), says_other("form 3"));
    assert!(library::make(&gallery(2), 3).is_ok());
    assert_eq!(of_maker(&gallery(1), 3), says_other("form 1 or form 2"));
}

/// P with S 190..230 and two rooms in form 2: bands of a mode named by it.
#[test]
fn causes_of_plants_of_form_2() {
    let of_p = |index, field| of_plant(&file(&with(&in_form_2(&p_fields()), index, field)));
    assert_eq!(of_plant(&[&[2], &P[1..]].concat()), "1 at byte 22: A of mode 1, room 1, column 1, ends early");
    assert_eq!(of_p(0, U(1)), "3 at byte 21: 3 bytes left over behind the last number");
    assert_eq!(of_p(10, S(-1_000_000_001)), "3 at byte 14: w of mode 0, room 1, lo is -1000000001, wanted -1000000000 .. 1000000000");
    assert_eq!(of_p(15, S(-6)), "3 at byte 20: w of mode 1, room 1, hi is -6, wanted -5, which is its lo, .. 1000000000");
    assert_eq!(of_p(15, S(3)), "5 in room 1: w of mode 1 is -5 .. 3, which is 8 wide, wanted at least q - 1 = 9");
    assert_eq!(of_p(11, S(3)), "5 in room 1: w of mode 0 is -5 .. 3, which is 8 wide, wanted at least q - 1 = 9");
    // two rooms: mode 0 is fields 14..24, mode 1's second band 26 and 27
    let two = with(&in_form_2(&two_rooms()), 27, S(-1));
    assert_eq!(of_plant(&file(&two)), "5 in room 2: w of mode 1 is -3 .. -1, which is 2 wide, wanted at least q - 1 = 3");
    assert_eq!(of_table(&sample("fan.plant"), &[1, 1, 1, 1]), "7 at byte 2, step 1: tile 195 .. 225 with modes 1: room 1 comes to 200 .. 238, S is 190 .. 230");
}

fn of_sheet(sheet: &[u8]) -> String {
    causes::sheet(sheet, library::sheet(sheet).unwrap_err())
}

#[test]
fn causes_of_sheets() {
    let of = |index, field| of_sheet(&file(&with(&line_13(), index, field)));
    assert_eq!(of(2, U(0)), "3 at byte 2: r, counts a degree, is 0, wanted 1 .. 1000");
    assert_eq!(of(12, F(0.0)), "13 at byte 16: the sample time is 0.0, wanted above 0");
    assert_eq!(of(13, F(f64::NAN)), "13 at byte 24: the outside temperature is NaN, wanted a finite float");
    assert_eq!(of(14, F(-1.0)), "13 at byte 32: the loss of room 1 is -1.0, wanted a finite float not below 0");
    assert_eq!(of(15, U(3)), "3 at byte 40: the emitter number of room 1 is 3, wanted 0 (none), 1 (heater) or 2 (steady)");
    assert_eq!(of_sheet(&file(&line_13()[..17])), "1 at byte 49: the water temperature of room 1's heater ends early: a float has 8 bytes, 0 are left");
    assert_eq!(of(11, S(2)), "5 in room 1: w is -4 .. 2, which is 6 wide, wanted at least q - 1 = 7");
    let two = |index, field| of_sheet(&file(&with(&two_room_sheet(), index, field)));
    assert_eq!(two(21, F(-2.0)), "13 at byte 50: the exchange of room 1 with room 2 is -2.0, wanted a finite float not below 0");
    assert_eq!(two(21, F(1e9)), "14 at number 18 of the plant: A of mode 0, room 1, column 1, comes to about -4.000e9, wanted -20000 .. 20000");
    assert_eq!(two(19, F(1e12)), "14 at number 20 of the plant: b of mode 0, room 1, comes to about 1.000e13, wanted -10000000000 .. 10000000000");
    // a heater that is on fades: the diagonal of its mode alone is out
    assert_eq!(two(23, F(1e9)), "14 at number 24 of the plant: A of mode 1, room 1, column 1, comes to about -4.000e9, wanted -20000 .. 20000");
    assert_eq!(
        two(14, S(-1_000_000_000)),
        "14 at number 14 of the plant: w lo of room 1, widened by 232, comes to -1000000232, wanted -1000000000 .. 1000000000"
    );
}

fn of_table(plant: &[u8], table: &[u8]) -> String {
    causes::table(&Plant::read(plant).unwrap(), table, library::check(plant, table).unwrap_err())
}

#[test]
fn causes_of_tables() {
    assert_eq!(of_table(&sample("house.plant"), &T1), "6 at byte 1: the table is for 1 room, the plant has 2");
    assert_eq!(of_table(&P, &[1, 1, 3]), "6 at byte 2: box 195 .. 225 has a pattern of 3 modes, K is 2");
    assert_eq!(of_table(&P, &[1, 1, 1, 2]), "6 at byte 3: tile 195 .. 225 has mode 2, the plant's modes are 0 .. 1");
    assert_eq!(of_table(&P, &[1, 1, 0, 0]), "6 at byte 3: box 195 .. 210 is split at depth 1, D is 1");
    let one_count = file(&with(&with(&p_fields(), 6, S(200)), 7, S(200)));
    assert_eq!(of_table(&one_count, &[1, 1, 0]), "6 at byte 2: box 200 .. 200 is split, and no side of it has more than one count");
    assert_eq!(of_table(&P, &[&T1[..], &[0]].concat()), "6 at byte 7: 1 byte left over behind the last number");
    assert_eq!(of_table(&P, &[1, 1, 0, 1]), "1 at byte 4: a mode of tile 195 .. 210 ends early");
    assert_eq!(of_table(&P, &[4]), "2 at byte 0: the form is 4, wanted 1, 2 or 3");
    assert_eq!(of_table(&P, &[1, 1, 1, 1]), "7 at byte 2, step 1: tile 195 .. 225 with modes 1: room 1 comes to 205 .. 232, S is 190 .. 230");
    assert_eq!(of_table(&p_prime(), &[1, 1, 1, 1]), "8 at byte 2, step 1: tile 195 .. 225 with modes 1: room 1 comes to 205 .. 232, R is 195 .. 225");
    assert_eq!(of_table(&P, &T5), "7 at byte 2, step 1: tile 195 .. 225 with modes 0 1: room 1 comes to 185 .. 212, S is 190 .. 230");
}

/// Of form 2: a length that is wrong or no number, of a child and of a child's child; what a child has is counted with its own lengths.
#[test]
fn causes_of_lengths() {
    let by_length = |length: &[u8]| of_table(&P, &[&[2, 1, 0], length, &[1, 1, 1, 0]].concat());
    for length in [0, 3, 99] {
        assert_eq!(by_length(&[length]), format!("6 at byte 3: box 195 .. 210 is to have {length} bytes and has 2"));
    }
    assert_eq!(by_length(&[1]), "6 at byte 3: box 195 .. 210 is to have 1 byte and has 2");
    assert_eq!(by_length(&[0x82, 0]), "1 at byte 3: the length of box 195 .. 210 is not in shortest form: its last byte is 00");
    assert_eq!(of_table(&P, &[2, 1, 0]), "1 at byte 3: the length of box 195 .. 210 ends early");
    assert_eq!(of_table(&P, &[2, 1, 0, 2, 0]), "6 at byte 4: box 195 .. 210 is split at depth 1, D is 1");
    assert_eq!(of_table(&P, &[2, 1, 0, 9, 1, 0, 1, 0]), "7 at byte 4, step 1: tile 195 .. 210 with modes 0: room 1 comes to 185 .. 199, S is 190 .. 230");
    assert_eq!(of_table(&P, &[2, 1, 0, 2, 1, 1, 1, 0, 0]), "6 at byte 8: 1 byte left over behind the last number");
    // four rooms of readings that every mode leads to 0 by 0; the second child is split, and the third has lengths before it
    let two = |last: i64| file(&[&[1, 2, 1, 1, 1, 2].map(U)[..], &[0, last, 0, last, 0, last, 0, last, 0, 0, 0, 0, 0, 0, 0, 0, 0, 0].map(S)].concat());
    let table = |outer: [u8; 3], inner: u8| [&[2, 2, 0][..], &outer, &[1, 0, 0, 2, inner, 2, 1, 0, 1, 0, 1, 0, 1, 0, 1, 0, 1, 0]].concat();
    assert_eq!(library::check(&two(7), &table([2, 12, 2], 2)), Ok(()));
    assert_eq!(of_table(&two(7), &table([2, 8, 2], 2)), "6 at byte 4: box 4 .. 7 by 0 .. 3 is to have 8 bytes and has 12");
    assert_eq!(of_table(&two(7), &table([2, 12, 3], 2)), "6 at byte 5: box 0 .. 3 by 4 .. 7 is to have 3 bytes and has 2");
    assert_eq!(of_table(&two(7), &table([2, 8, 2], 5)), "6 at byte 10: box 6 .. 7 by 0 .. 1 is to have 5 bytes and has 2");
}

/// Of form 3: depth counts halvings, and the boxes are those of its own split.
#[test]
fn causes_of_halved_tables() {
    let one_count = file(&with(&with(&p_fields(), 6, S(200)), 7, S(200)));
    assert_eq!(of_table(&one_count, &[3, 1, 0]), "6 at byte 2: box 200 .. 200 is split, and no side of it has more than one count");
    assert_eq!(of_table(&P, &[3, 1, 0, 0]), "6 at byte 3: box 195 .. 210 is split at depth 1, n·D is 1");
    assert_eq!(of_table(&P, &[3, 2]), "6 at byte 1: the table is for 2 rooms, the plant has 1");
    let gallery = sample("gallery.plant");
    let table = library::make(&gallery, 3).unwrap();
    let halvings = |count: usize| [vec![3, 2], vec![0; count], vec![1]].concat();
    assert_eq!(of_table(&gallery, &halvings(8)), "1 at byte 11: a mode of tile 1400 .. 1437 by 2300 .. 2320 ends early");
    assert_eq!(of_table(&gallery, &halvings(9)), "6 at byte 10: box 1400 .. 1437 by 2300 .. 2320 is split at depth 8, n·D is 8");
    let in_form_1 = [&[1], &halvings(5)[1..]].concat();
    assert_eq!(of_table(&gallery, &in_form_1), "6 at byte 6: box 1400 .. 1475 by 2300 .. 2310 is split at depth 4, D is 4");
    assert_eq!(of_table(&gallery, &[&table[..], &[0]].concat()), "6 at byte 44: 1 byte left over behind the last number");
    let mut cold = table.clone();
    cold[16] = 0;
    assert_eq!(
        of_table(&gallery, &cold),
        "7 at byte 15, step 1: tile 1701 .. 1850 by 2300 .. 2460 with modes 0: room 2 comes to 2106 .. 2264, S is 2210 .. 2550"
    );
}

#[test]
fn causes_of_readings() {
    let plant = Plant::read(&p_prime()).unwrap();
    let reading = |state: State, x| {
        let refusal = library::control(&p_prime(), &T5, state, [x, 0, 0, 0]).unwrap_err();
        causes::reading(&plant, &plant.r(), state, [x, 0, 0, 0], refusal)
    };
    assert_eq!(reading(State::default(), 194), "11 in room 1: 194 counts, idle, wanted 195 .. 225");
    assert_eq!(reading(State { index: 0, place: 4, left: 1 }, 241), "11 in room 1: 241 counts, running, S is 180 .. 240");
}

/// A cause that begins with its number and says something.
fn says(refusal: Refusal, cause: &str) {
    assert!(cause.starts_with(&format!("{}", refusal.number)), "{refusal}: {cause}");
    assert!(!cause.contains("cannot be read"), "{refusal}: {cause}");
}

#[test]
fn whatever_is_refused_has_a_cause() {
    let mut random = random(25);
    let mut causes_of_plants = |bytes: &[u8]| {
        if let Err(refusal) = library::plant(bytes) {
            says(refusal, &causes::plant(bytes, refusal));
        }
        if let Err(refusal) = library::sheet(bytes) {
            says(refusal, &causes::sheet(bytes, refusal));
        }
    };
    for _ in 0..rounds(60) {
        for fields in [plant_fields(&mut random), sheet_fields(&mut random)] {
            causes_of_plants(&file(&fields));
            spoiled(&fields).iter().for_each(|(bytes, _)| causes_of_plants(bytes));
            other_forms(&fields).iter().for_each(|bytes| causes_of_plants(bytes));
            damaged(&mut random, &file(&fields), &mut causes_of_plants);
        }
    }
}

#[test]
fn whatever_table_is_refused_has_a_cause() {
    let mut random = random(26);
    for _ in 0..rounds(300) {
        let house = House::of(file(&plant_fields(&mut random)), None);
        let n = house.plant.rooms.len() as u8;
        let judged = |table: &[u8]| {
            if let Err(refusal) = library::check(&house.bytes, table) {
                says(refusal, &causes::table(&house.plant, table, refusal));
            }
        };
        (0..20).for_each(|_| judged(&any_tree(&mut random, n)));
        let form = any_form(&mut random);
        let other = other_table(&mut random, &second::plant::read_plant(&house.bytes).unwrap(), form);
        for table in made_tables(&house.bytes).into_iter().chain(other).filter(|table| table.len() < 500) {
            damaged(&mut random, &table, judged);
        }
    }
}
