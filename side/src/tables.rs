//! Tables for the tests, of all forms: the made one, others that chance comes
//! upon, trees of any bytes, a table with another number at its head, one of
//! form 2 with a length made wrong, what a tree has in it, and what a call reads
//! of it.

use crate::common::{broken, encode, file, groups, with, Field, Random, Raw, U};
use crate::Told;
use second::boxes::Box;
use second::file::File;
use second::form::Form;
use second::numbers::read_unsigned;
use second::plant::Plant;
use second::table::{Node, Table};
use second::tile::tile_rule;

/// The forms of a table.
pub const FORMS: [u64; 3] = [1, 2, 3];

/// Numbers that are no form: next to one, or one where some bits of theirs are lost.
pub const NO_FORMS: [u64; 18] = [
    0,
    4,
    5,
    7,
    129,
    130,
    255,
    257,
    258,
    259,
    1 << 32,
    (1 << 32) + 1,
    (1 << 32) + 2,
    (1 << 32) + 3,
    1 << 63,
    (1 << 63) + 1,
    (1 << 63) + 2,
    u64::MAX,
];

/// A form of a table, any.
pub fn any_form(random: &mut Random) -> u64 {
    random.one(&FORMS)
}

/// What a maker may be told: a form, or now and then a number that is none.
pub fn any_told_form(random: &mut Random) -> u64 {
    if random.chance(10) { random.one(&NO_FORMS) } else { any_form(random) }
}

/// The defined table of a form, where the plant has one.
pub fn made_table(plant: &[u8], form: u64) -> Option<Vec<u8>> {
    let mut table = vec![0; second::LARGEST_TABLE];
    let length = second::maker::make(plant, form, &mut table).ok()?;
    table.truncate(length);
    Some(table)
}

/// An accepted table laid out in this form, where it splits boxes alike.
pub fn relaid_table(plant: &[u8], table: &[u8], form: u64) -> Option<Vec<u8>> {
    let mut other = vec![0; second::LARGEST_TABLE];
    let length = second::relay::relay(plant, table, form, &mut other).ok()?;
    other.truncate(length);
    Some(other)
}

/// The defined tables of all forms, as far as the plant has them.
pub fn made_tables(plant: &[u8]) -> Vec<Vec<u8>> {
    FORMS.iter().filter_map(|form| made_table(plant, *form)).collect()
}

/// Any form, and bytes that are often splits, short tiles, modes and short lengths, and now and then the first of a number of two bytes.
pub fn any_tree(random: &mut Random, n: u8) -> Vec<u8> {
    let mut table = vec![any_form(random) as u8, n];
    table.extend((0..random.within(1, 60)).map(|_| if random.chance(40) { random.one(&[127, 128, 200, 255]) } else { random.within(0, 3) as u8 }));
    table
}

/// A table of a form that keeps every rule, with whatever patterns and splits chance tries first; None where it does not come upon one.
pub fn other_table(random: &mut Random, plant: &Plant, form: u64) -> Option<Vec<u8>> {
    other_table_of(random, plant, form, &plant.r(), &plant.r())
}

/// The same of a table that covers `root` with patterns that end in `goal`.
pub fn other_table_of(random: &mut Random, plant: &Plant, form: u64, root: &Box, goal: &Box) -> Option<Vec<u8>> {
    let form = Form::of(form, 0).expect("a form");
    let tree = Growing { plant, form, goal }.grown(random, root, form.depth(plant))?;
    Some([&[form.number(), plant.n as u8], &tree[..]].concat())
}

/// A split's bytes in a form: the 0, where the form tells them the lengths of its children but the last, and the children.
pub fn split_of(form: &Form, children: &[Vec<u8>]) -> Vec<u8> {
    let told = if form.tells_lengths() { &children[..children.len() - 1] } else { &[] };
    let lengths = told.iter().flat_map(|child| groups(child.len() as u128));
    [0].into_iter().chain(lengths).chain(children.concat()).collect()
}

/// A table that grows by chance.
struct Growing<'a> {
    plant: &'a Plant,
    form: Form,
    goal: &'a Box,
}

impl Growing<'_> {
    /// The tree of a box; None where chance does not come upon one.
    fn grown(&self, random: &mut Random, here: &Box, depth_left: u64) -> Option<Vec<u8>> {
        let split = self.form.split(here, depth_left);
        if split.is_none() || !random.chance(3) {
            if let Some(tile) = self.tile(random, here) {
                return Some(tile);
            }
        }
        let children: Option<Vec<_>> = split?.map(|child| self.grown(random, &child, depth_left - 1)).collect();
        children.map(|children| split_of(&self.form, &children))
    }

    /// A tile that works, of some forty that are tried.
    fn tile(&self, random: &mut Random, here: &Box) -> Option<Vec<u8>> {
        (0..40).find_map(|_| {
            let length = random.within(1, self.plant.k as i64);
            let pattern: Vec<u8> = (0..length).map(|_| random.within(0, self.plant.modes as i64 - 1) as u8).collect();
            let works = tile_rule(self.plant, self.goal, here, &pattern, 0).is_ok();
            works.then(|| [length as u8].into_iter().chain(pattern.into_iter().flat_map(|mode| groups(mode.into()))).collect())
        })
    }
}

/// A table with each of the other forms at its head.
pub fn in_other_forms(table: &[u8]) -> Vec<Vec<u8>> {
    let others = FORMS.into_iter().filter(|form| *form != table[0].into());
    others.map(|form| [&[form as u8], &table[1..]].concat()).collect()
}

/// A table with no form at its head, some in a number too long for any, or with a form in a broken number; what is told of it.
pub fn in_no_form(table: &[u8]) -> Vec<(Vec<u8>, Told)> {
    let no_forms = NO_FORMS.map(|form| (U(form), if form < 1 << 35 { 2 } else { 1 }));
    let broken = FORMS.iter().flat_map(|form| broken(&U(*form))).map(|field| (field, 1));
    let heads = no_forms.into_iter().chain(broken);
    heads.map(|(head, number)| (file(&[head, Raw(table[1..].to_vec())]), (number, 0, 0))).collect()
}

/// An accepted table of form 2 that covers `root`, with each length of its first split made wrong in every way; what the checker tells of each. None of
/// another form, and none where it does not split.
pub fn wrong_lengths(plant: &Plant, root: &Box, table: &[u8]) -> Vec<(Vec<u8>, Told)> {
    let Some(fields) = first_split(plant, root, table) else { return Vec::new() };
    let (_, places) = encode(&fields);
    let Some(Raw(children)) = fields.last() else { panic!("no children") };
    let (mut all, mut before) = (Vec::new(), 0);
    for (at, place) in (1..fields.len() - 1).zip(&places[1..]) {
        let U(length) = fields[at] else { panic!("no length") };
        let left = children.len() as u64 - before;
        // off by one each way, none at all, the file's end, about it, and far behind it; then numbers that are broken
        let differ = [length - 1, length + 1, 0, left - 1, left, left + 1, (1 << 32) + length, (1 << 35) - 1];
        let too_long = [1 << 35, (1 << 35) + length, u64::MAX].map(U).into_iter().chain(broken(&fields[at]));
        let told = differ.into_iter().filter(|other| *other != length).map(|other| (U(other), 6)).chain(too_long.map(|field| (field, 1)));
        all.extend(told.map(|(field, number)| (file(&with(&fields, at, field)), (number, *place, 0))));
        before += length;
    }
    all
}

/// A table of form 2 whose first node is a split, as fields: all before the lengths, each length, and all behind them.
fn first_split(plant: &Plant, root: &Box, table: &[u8]) -> Option<Vec<Field>> {
    let form = Form::of(2, 0).expect("a form");
    let children = form.split(root, form.depth(plant)).filter(|_| table[0] == form.number() && table[2] == 0)?;
    let (mut fields, mut at) = (vec![Raw(table[..3].to_vec())], 3);
    for _ in 1..children.how_many() {
        let (length, next) = read_unsigned(table, at).expect("a length");
        fields.push(U(length));
        at = next;
    }
    fields.push(Raw(table[at..].to_vec()));
    Some(fields)
}

/// The tiles of an accepted table that covers `root`, in file order: the length of its pattern, and how many splits lie above it.
fn tiles(plant: &Plant, root: &Box, table: &[u8]) -> Vec<(usize, u64)> {
    let mut table = Table::open(plant, File::new(table)).expect("a header");
    let (mut tiles, mut to_come, depth) = (Vec::new(), vec![(*root, 0)], table.depth());
    while let Some((here, above)) = to_come.pop() {
        match table.node(&here, depth - above).expect("a node") {
            Node::Tile(pattern) => tiles.push((pattern.modes().len(), above)),
            Node::Split(children) => {
                table.lengths(&children).expect("lengths");
                let children: Vec<Box> = children.collect();
                to_come.extend(children.into_iter().rev().map(|child| (child, above + 1)));
            }
        }
    }
    tiles
}

/// The longest pattern of an accepted table that covers `root`.
pub fn longest_pattern(plant: &Plant, root: &Box, table: &[u8]) -> usize {
    tiles(plant, root, table).into_iter().map(|(length, _)| length).max().expect("a tile")
}

/// The most splits on the way to a tile of an accepted table.
pub fn deepest(plant: &Plant, table: &[u8]) -> u64 {
    tiles(plant, &plant.r(), table).into_iter().map(|(_, above)| above).max().expect("a tile")
}

/// The bytes that an idle call on an accepted table of form 2 reads: the header, the splits on the way with their lengths, and the tile.
pub fn read_by_a_call(plant: &Plant, table: &[u8], x: &[i64; 4]) -> Vec<(usize, usize)> {
    let mut table = Table::open(plant, File::new(table)).expect("a header");
    let (mut here, mut read) = (plant.r(), vec![(0, 2)]);
    for depth_left in (0..=plant.d).rev() {
        let from = table.file.place() as usize;
        let Node::Split(children) = table.node(&here, depth_left).expect("a node") else {
            read.push((from, table.file.place() as usize));
            break;
        };
        let lengths = table.lengths(&children).expect("lengths");
        read.push((from, table.file.place() as usize));
        let (before, child) = children.enumerate().find(|(_, child)| child.contains(x)).expect("a child");
        table.pass_children(&lengths, before).expect("ends within the file");
        here = child;
    }
    read
}
