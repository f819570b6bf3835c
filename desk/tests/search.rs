//! The search that a person sees beside the library's: it does the boxes that the library's table has, and comes to the same end.

mod common;

use common::sample;
use hoachulim::files::numbers::Reader;
use hoachulim::files::forms::FORMS;
use hoachulim::files::{Chain, Form, House};
use hoachulim::library;
use hoachulim::search::Search;
use side::common::{cold_chain, cold_p, file, in_form_2, p_fields, with, U};
use side::inputs::{plant_fields, random, rounds};
use side::tables::relaid_table;

/// The boxes of a table: its nodes, each behind the modes of the one before; of form 2 those of the same tree without lengths.
fn boxes(house: &House, table: &[u8]) -> u64 {
    let plain = if table[0] == 2 { relaid_table(&house.bytes, table, 1).unwrap() } else { table.to_vec() };
    let mut file = Reader::new(&plain[2..]);
    let mut number = || file.number(String::new, |_| String::new());
    let mut boxes = 0;
    while let Some(node) = number() {
        (0..node).for_each(|_| assert!(number().is_some()));
        boxes += 1;
    }
    boxes
}

#[test]
fn it_goes_the_library_s_way() {
    let mut random = random(50);
    let mut plants: Vec<_> = ["house.plant", "fan.plant", "valves.plant", "gallery.plant"].map(sample).into();
    plants.extend([file(&p_fields()), file(&in_form_2(&p_fields()))]);
    plants.extend((0..rounds(4_000)).map(|_| file(&plant_fields(&mut random))));
    let houses: Vec<_> = plants.into_iter().map(|bytes| House::of(bytes, None)).collect();
    for form in FORMS {
        let (mut without, mut split) = (0, 0);
        for house in &houses {
            let search = Search::of(&house.plant, &[], form);
            match (library::make(&house.bytes, form.number()), search.run()) {
                (Ok(table), true) => {
                    assert_eq!(search.done(), boxes(house, &table), "{form:?} {:?}", house.bytes);
                    split += usize::from(boxes(house, &table) > 1);
                }
                (Err(_), false) => without += 1,
                (made, found) => panic!("{form:?} {made:?}, {found}: {:?}", house.bytes),
            }
        }
        assert!(without > 20 && split > 20, "{form:?} {without} {split}");
    }
}

/// The gallery: in forms 1 and 2 55 tiles and 18 splits of up to 4^4 tiles and 1 + 4 + 16 + 64 splits, in form 3 9 tiles and 8 halvings of up to 2^8 and
/// 2^8 - 1.
#[test]
fn it_says_how_many_boxes_there_may_be() {
    let house = House::of(sample("gallery.plant"), None);
    let split_at_once = "73 boxes done of up to 341";
    for (form, words) in [(Form::One, split_at_once), (Form::Two, split_at_once), (Form::Three, "17 boxes done of up to 511")] {
        let search = Search::of(&house.plant, &[], form);
        assert!(search.run());
        assert!(search.words().starts_with(&format!("own search: {words}, length ")), "{}", search.words());
    }
    let (house, chain) = (House::of(sample("gallery.plant"), None), vec![house.plant.r(); 2]);
    let search = Search::of(&house.plant, &chain, Form::Three);
    assert!(search.run() && search.words().starts_with("own search: 51 boxes done of up to 1533, "), "{}", search.words());
}

#[test]
fn it_goes_through_a_chain() {
    let (house, chain) = (House::of(cold_p(), None), file(&cold_chain()));
    let search = Search::of(&house.plant, &Chain::read(&chain, 1).unwrap().boxes, Form::One);
    assert!(search.run());
    // samples/cold.start: one tile, then two and their split, twice
    assert_eq!(search.done(), 1 + 3 + 3);
    assert_eq!(search.words(), "own search: 7 boxes done of up to 9, length 1");
}

/// A box that none of 256 modes brings back has 2.8·10^14 patterns of six; stopped, the search ends at once.
#[test]
fn it_stops() {
    let bytes = side::four_rooms(256, 6);
    let house = House::of(bytes, None);
    let search = Search::of(&house.plant, &[], Form::One);
    std::thread::scope(|scope| {
        let running = scope.spawn(|| search.run());
        while !search.words().ends_with("length 3") {
            std::thread::yield_now();
        }
        search.stop();
        assert!(!running.join().unwrap());
    });
    let depth_0 = House::of(file(&with(&p_fields(), 5, U(0))), None);
    let search = Search::of(&depth_0.plant, &[], Form::One);
    assert!(!search.run() && search.words() == "own search: 1 boxes done of up to 1, length 2");
}
