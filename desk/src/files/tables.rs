//! A table's file: its form, and its tiles, each with its place, box, depth and modes. Relies on the plant that it is for: the boxes are not in the file.

use super::boxes::{self, Side, Sides};
use super::forms::{Form, TABLE_FORMS};
use super::numbers::Reader;
use super::plants::{form, Plant};

/// A table's form, and its tiles in file order, which is that of the listing.
#[derive(Clone, Debug, Default, PartialEq, Eq)]
pub struct Table {
    pub form: Form,
    pub tiles: Vec<Tile>,
}

#[derive(Clone, Debug, PartialEq, Eq)]
pub struct Tile {
    /// The place of its number in the table's file, or in the start file that holds the table.
    pub place: usize,
    pub sides: Sides,
    /// How many splits are above it.
    pub depth: u64,
    pub modes: Vec<u64>,
}

impl Table {
    /// The table of a file that the library accepted for this plant.
    pub fn read(bytes: &[u8], plant: &Plant) -> Option<Table> {
        let mut table = Table::default();
        table.follow(&mut Reader::new(bytes), plant, &plant.r())?;
        Some(table)
    }

    /// The most modes that a tile has.
    pub fn longest(&self) -> usize {
        self.tiles.iter().map(|tile| tile.modes.len()).max().unwrap_or(0)
    }

    /// Its size in words, without its form.
    pub fn sizes(&self) -> String {
        format!("{}, longest pattern {}", counted(self.tiles.len() as u64, "tile"), self.longest())
    }

    /// Its size in words, behind its form where that is not 1.
    pub fn words(&self) -> String {
        self.form.words() + &self.sizes()
    }

    /// The table's numbers in file order, from box `root` on. What was read before the reader ended stays in the table.
    pub fn follow(&mut self, file: &mut Reader, plant: &Plant, root: &[Side]) -> Option<()> {
        self.form = Form::of(form(file, TABLE_FORMS)?)?;
        let rooms = plant.rooms.len();
        file.number(|| "the table's n".into(), |n| format!("the table is for {}, the plant has {rooms}", counted(n, "room")))?;
        self.node(file, plant, root, 0)
    }

    /// A node and all below it.
    fn node(&mut self, file: &mut Reader, plant: &Plant, sides: &[Side], depth: u64) -> Option<()> {
        let place = file.place();
        let children = self.form.split(sides);
        let node = file.number(
            || format!("the number of box {}", boxes::words(sides)),
            |node| node_cause(node, plant, self.form, sides, depth),
        )?;
        if node == 0 {
            let split = Split { form: self.form, plant, children: &children, depth };
            split.lengths(file)?;
            return children.iter().try_for_each(|child| self.node(file, plant, child, depth + 1));
        }
        let modes = (0..node).map(|_| mode(file, plant, sides)).collect::<Option<_>>()?;
        self.tiles.push(Tile { place, sides: sides.to_vec(), depth, modes });
        Some(())
    }
}

/// A split of a box at some depth.
struct Split<'a> {
    form: Form,
    plant: &'a Plant,
    children: &'a [Sides],
    depth: u64,
}

impl Split<'_> {
    /// The children whose lengths are told.
    fn told(&self) -> &[Sides] {
        let told = if self.form.tells_lengths() { self.children.len().saturating_sub(1) } else { 0 };
        &self.children[..told]
    }

    /// The lengths behind the 0. What a child has is counted only where its length is at fault.
    fn lengths(&self, file: &mut Reader) -> Option<()> {
        for (index, child) in self.told().iter().enumerate() {
            let ahead = file.ahead();
            file.number(
                || format!("the length of box {}", boxes::words(child)),
                |length| {
                    let has = self.bytes_of(ahead, index).expect("a child is read before its length is found wrong");
                    format!("box {} is to have {} and has {has}", boxes::words(child), counted(length, "byte"))
                },
            )?;
        }
        Some(())
    }

    /// How many bytes a child has, by a reader that stands at its length.
    fn bytes_of(&self, mut ahead: Reader, index: usize) -> Option<usize> {
        for _ in index..self.told().len() {
            ahead.number(String::new, |_| String::new())?;
        }
        let (mut table, mut first) = (Table { form: self.form, tiles: Vec::new() }, 0);
        for child in &self.children[..=index] {
            first = ahead.place();
            table.node(&mut ahead, self.plant, child, self.depth + 1)?;
        }
        Some(ahead.place() - first)
    }
}

fn mode(file: &mut Reader, plant: &Plant, sides: &[Side]) -> Option<u64> {
    file.number(
        || format!("a mode of tile {}", boxes::words(sides)),
        |mode| format!("tile {} has mode {mode}, the plant's modes are 0 .. {}", boxes::words(sides), plant.modes.len() - 1),
    )
}

/// Why a node cannot be: a split that may not be, or a pattern that is too long.
fn node_cause(node: u64, plant: &Plant, form: Form, sides: &[Side], depth: u64) -> String {
    let sides_words = boxes::words(sides);
    if node > 0 {
        return format!("box {sides_words} has a pattern of {node} modes, K is {}", plant.longest);
    }
    let most = form.depth(plant);
    if depth >= most {
        return format!("box {sides_words} is split at depth {depth}, {} is {most}", form.depth_name());
    }
    format!("box {sides_words} is split, and no side of it has more than one count")
}

/// A count with its word, in the plural where it is not 1.
pub fn counted(count: u64, word: &str) -> String {
    format!("{count} {word}{}", if count == 1 { "" } else { "s" })
}
