//! What 2026-03 wants, run: an accepted start file drives a plant whose next
//! reading is the lowest, the highest, one by turns or any that equation and
//! band allow. No call is refused, every reading lies in S, an idle call meets
//! a reading in R within the sum of the longest patterns of tables 1..i, i the
//! box that holds the first reading, and from that call on the answers are
//! those of the controller with R0's table.

use second::chain::Chain;
use second::plant::{read_plant, Plant};
use side::common::{cold_chain, cold_p, file, Field, Random};
use side::inputs::{plant_fields, random, rounds};
use side::rooms::{following, Next, EVERY_NEXT};
use side::starts::{any_chain, boxes_of, other_start, with_mixed, Start};
use side::tables::{longest_pattern, FORMS};
use side::{control, start_check, start_control, start_make, Standing, NO_MODE};

const IDLE: Standing = [0, 0, 0];

/// A plant and an accepted start file.
struct Cold<'a> {
    bytes: &'a [u8],
    plant: Plant,
    boxes: Chain,
    start: &'a Start,
    file: Vec<u8>,
}

impl Cold<'_> {
    /// A call that must be answered, on a reading that must lie in S.
    fn answer(&self, standing: Standing, x: [i64; 4]) -> (u64, Standing) {
        assert!(self.plant.s().contains(&x), "{x:?} outside S: {:?} {:?}", self.bytes, self.file);
        let (mode, out) = start_control(self.bytes, &self.file, standing, x);
        assert!(mode != NO_MODE && out[..3] == [0; 3], "refused {out:?} at {x:?}: {:?} {:?}", self.bytes, self.file);
        (mode, [out[3], out[4], out[5]])
    }

    fn arrived(&self, standing: Standing, x: &[i64; 4]) -> bool {
        standing == IDLE && self.boxes.root(0).contains(x)
    }

    /// One run from a reading of Rm; how many samples until arrival, and how many were promised.
    fn run(&self, random: &mut Random, next: Next, mut x: [i64; 4]) -> (usize, usize) {
        let index = self.boxes.smallest_holding(&x);
        let longest = |i: usize| longest_pattern(&self.plant, self.boxes.root(i), &self.start.tables[i]);
        let promised = (1..=index).map(longest).sum();
        let (mut standing, mut sample) = (IDLE, 0);
        while !self.arrived(standing, &x) {
            assert!(sample < promised, "{sample} samples, {promised} promised: {:?} {:?}", self.bytes, self.file);
            let mode;
            (mode, standing) = self.answer(standing, x);
            x = following(random, next, sample, &self.plant, mode, &x);
            sample += 1;
        }
        for later in 0..40 {
            let [index, place, left] = standing;
            let mode;
            (mode, standing) = self.answer(standing, x);
            let (alone, out) = control(self.bytes, &self.start.tables[0], place, left, x);
            assert_eq!((mode, index, standing), (alone, 0, [0, out[3], out[4]]));
            x = following(random, next, later, &self.plant, mode, &x);
        }
        (sample, promised)
    }
}

/// What the runs came to: how many, how many took a sample at least, how many as many as promised, how many more than one pattern can take, how many of
/// plants whose modes differ in their bands took a sample, and how many by tables all of form 3, all of form 2, and by tables of several forms.
#[derive(Default, Debug)]
struct Came {
    runs: usize,
    cold: usize,
    sharp: usize,
    far: usize,
    own_bands: usize,
    halved: usize,
    by_lengths: usize,
    mixed: usize,
}

/// Runs of every kind from the corners of each box and from any reading in it.
fn runs(random: &mut Random, came: &mut Came, bytes: &[u8], start: &Start) {
    let (plant, file) = (read_plant(bytes).expect("a sound plant"), start.bytes());
    assert_eq!(start_check(bytes, &file), (0, 0, 0), "{bytes:?} {file:?}");
    let boxes = boxes_of(&plant, &start.chain);
    let cold = Cold { bytes, plant, boxes, start, file };
    let plant = &cold.plant;
    for index in 0..=cold.boxes.m() {
        let sides = cold.boxes.root(index).sides().to_vec();
        for next in EVERY_NEXT {
            for kind in 0..4 {
                let mut x = [i64::MAX; 4];
                for (i, side) in sides.iter().enumerate() {
                    let any = random.within(side.lo, side.hi);
                    let corner = if (i + kind) % 2 == 0 { side.lo } else { side.hi };
                    x[i] = if kind < 2 { corner } else { random.one(&[side.lo, side.hi, any]) };
                }
                let (samples, promised) = cold.run(random, next, x);
                came.runs += 1;
                came.cold += usize::from(samples > 0);
                came.sharp += usize::from(samples > 0 && samples == promised);
                came.far += usize::from(samples > plant.k as usize);
                came.own_bands += usize::from(samples > 0 && plant.bands.iter().any(|band| *band != plant.bands[0]));
                let all_of = |form: u8| usize::from(samples > 0 && start.tables.iter().all(|table| table[0] == form));
                came.halved += all_of(3);
                came.by_lengths += all_of(2);
                came.mixed += usize::from(samples > 0 && start.forms() > 1);
            }
        }
    }
}

/// The start file that the library makes, its tables of a form.
fn made(bytes: &[u8], chain: &[Field], form: u64) -> Option<Start> {
    let mut buffer = vec![0; second::LARGEST_START];
    let (number, length, _) = start_make(bytes, &file(chain), form, &mut buffer);
    (number == 0).then(|| Start::of(chain, &buffer[..length as usize]))
}

#[test]
fn cold_rooms_come_home() {
    let (mut random, mut came, mut others) = (random(35), Came::default(), 0);
    let mut all = vec![(cold_p(), cold_chain())];
    for _ in 0..rounds(2_000) {
        let bytes = file(&plant_fields(&mut random));
        let chain = any_chain(&mut random, &read_plant(&bytes).expect("a sound plant"));
        all.push((bytes, chain));
    }
    for (bytes, chain) in all {
        let plant = read_plant(&bytes).expect("a sound plant");
        let starts = with_mixed(&mut random, FORMS.iter().filter_map(|form| made(&bytes, &chain, *form)).collect());
        let other = other_start(&mut random, &plant, &chain).filter(|other| !starts.contains(other));
        others += usize::from(other.is_some());
        for start in starts.into_iter().chain(other) {
            runs(&mut random, &mut came, &bytes, &start);
        }
    }
    println!("{came:?}, {others} start files not the made ones");
    assert!(came.runs > 10_000 && came.cold > 1_000 && came.sharp > 500 && came.far > 20 && came.own_bands > 200 && others > 30, "{came:?} {others}");
    assert!(came.halved > 300 && came.by_lengths > 300 && came.mixed > 300, "{came:?}");
}
