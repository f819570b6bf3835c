//! The maker of "the defined table. For a box: the shortest pattern that
//! works, and among equal lengths the first in mode order ...; if none works
//! and depth is left, split and go on; if it cannot split, there is no table."
//! "Maker: plant, 9, 10", and "the maker is told which" form of table: one that
//! is not known is 2, after the plant.

use crate::boxes::Box;
use crate::form::Form;
use crate::lent::{zero_if_refused, Lent};
use crate::plant::{read_plant, Plant};
use crate::refusal::{Refusal, NO_TABLE};
use crate::search::Search;
use crate::LONGEST_PATTERN;

/// The defined table of a plant's file in this form, written to the buffer; its
/// length.
pub fn make(plant_bytes: &[u8], form: u64, buffer: &mut [u8]) -> Result<usize, Refusal> {
    let answer = read_plant(plant_bytes).and_then(|plant| make_own(&plant, form, buffer));
    zero_if_refused(answer, buffer)
}

/// The table of a judged plant's own R.
fn make_own(plant: &Plant, form: u64, buffer: &mut [u8]) -> Result<usize, Refusal> {
    let form = Form::of(form, 0)?;
    let mut table = Lent::new(buffer);
    if !make_table(plant, form, &plant.r(), &plant.r(), &mut table) {
        return Err(Refusal::at(NO_TABLE, 0));
    }
    table.end()
}

/// Puts the table whose tree starts at box `root` and whose patterns end in
/// `goal`, which lies in S; false where there is none.
pub fn make_table(plant: &Plant, form: Form, root: &Box, goal: &Box, table: &mut Lent) -> bool {
    table.put(&[form.number(), plant.n as u8]);
    match plant.n {
        1 => Maker::<1>::run(plant, form, root, goal, table),
        2 => Maker::<2>::run(plant, form, root, goal, table),
        3 => Maker::<3>::run(plant, form, root, goal, table),
        _ => Maker::<4>::run(plant, form, root, goal, table),
    }
}

/// Sets the lengths that the form wants before a split's children, which were put
/// with these bounds: of each but the last.
pub(crate) fn put_lengths(form: Form, bounds: &[usize], table: &mut Lent) {
    if form.tells_lengths() {
        table.put_lengths_before(&bounds[..bounds.len() - 1]);
    }
}

/// The search, the form, and the table as it is put.
struct Maker<'a, 'b, const N: usize> {
    search: Search<N>,
    form: Form,
    table: &'a mut Lent<'b>,
}

impl<const N: usize> Maker<'_, '_, N> {
    fn run(plant: &Plant, form: Form, root: &Box, goal: &Box, table: &mut Lent) -> bool {
        let mut maker = Maker { search: Search::<N>::new(plant, goal), form, table };
        maker.make_box(root, form.depth(plant))
    }

    /// Adds the tree of a box; false where there is no table.
    fn make_box(&mut self, here: &Box, depth_left: u64) -> bool {
        let mut pattern = [0; LONGEST_PATTERN];
        if let Some(length) = self.search.first_pattern(here, &mut pattern) {
            self.table.put_tile(&pattern[..length]);
            return true;
        }
        let Some(children) = self.form.split(here, depth_left) else {
            return false;
        };
        self.table.put_byte(0);
        let mut bounds = vec![self.table.length()];
        for child in children {
            if !self.make_box(&child, depth_left - 1) {
                return false;
            }
            bounds.push(self.table.length());
        }
        put_lengths(self.form, &bounds, self.table);
        true
    }
}
