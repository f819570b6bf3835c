//! "Table file: form 1, n, then the tree in preorder, starting at box R:
//! number 0 is a split, number k in 1..K is a tile, followed by k modes
//! (0..N-1)." The file's own rules, 1, 2 and 6, without any image; how boxes are
//! split, and whether lengths stand behind a split's 0, is the form's.

use crate::boxes::{Box, Children};
use crate::file::File;
use crate::form::Form;
use crate::plant::Plant;
use crate::refusal::{Refusal, TABLE_RULE};
use crate::LONGEST_PATTERN;

/// A pattern of one to six modes, each of one or two bytes in the file.
#[derive(Clone, Copy, Debug, PartialEq, Eq)]
pub struct Pattern {
    modes: [u8; LONGEST_PATTERN],
    length: usize,
}

impl Pattern {
    /// The modes in order.
    pub fn modes(&self) -> &[u8] {
        &self.modes[..self.length]
    }
}

/// A node of the tree.
pub enum Node {
    /// A split, with the children it is to be followed by, behind their lengths
    /// where the form tells those.
    Split(Children),
    /// A tile, with its pattern.
    Tile(Pattern),
}

/// The byte length of a split's child, as it is told, and the place of that number.
pub struct Length {
    pub place: u64,
    pub told: u64,
}

/// A table under reading: the plant that it is for, its form, and its file, from
/// the tree on.
pub struct Table<'a, 'b> {
    pub plant: &'a Plant,
    pub form: Form,
    pub file: File<'b>,
}

impl<'a, 'b> Table<'a, 'b> {
    /// A table behind its header: form (1, 2), then n (1, 6).
    pub fn open(plant: &'a Plant, mut file: File<'b>) -> Result<Table<'a, 'b>, Refusal> {
        let form = Form::read(&mut file)?;
        let place = file.place();
        if file.unsigned()? != plant.n {
            return Err(Refusal::at(TABLE_RULE, place));
        }
        Ok(Table { plant, form, file })
    }

    /// How deep its tree may be.
    pub fn depth(&self) -> u64 {
        self.form.depth(self.plant)
    }

    /// The node of a box with this much depth left, all its modes read: 1 and 6.
    pub fn node(&mut self, of: &Box, depth_left: u64) -> Result<Node, Refusal> {
        let place = self.file.place();
        let node = self.file.unsigned()?;
        if node == 0 {
            let children = self.form.split(of, depth_left);
            return children.map(Node::Split).ok_or(Refusal::at(TABLE_RULE, place));
        }
        if node > self.plant.k {
            return Err(Refusal::at(TABLE_RULE, place));
        }
        self.pattern(node as usize).map(Node::Tile)
    }

    /// The lengths behind the 0 of a split into these children, of each but the
    /// last; none where the form tells none. As numbers alone: 1.
    pub fn lengths(&mut self, children: &Children) -> Result<Vec<Length>, Refusal> {
        let count = if self.form.tells_lengths() { children.how_many() - 1 } else { 0 };
        let next = |_| Ok(Length { place: self.file.place(), told: self.file.unsigned()? });
        (0..count).map(next).collect()
    }

    /// Goes, from behind these lengths, past so many of the children that they are
    /// of: "the first whose child would end past the file is 6 at that number", be
    /// it one to pass or not.
    pub fn pass_children(&mut self, lengths: &[Length], count: usize) -> Result<(), Refusal> {
        let mut ahead = self.file;
        for (before, length) in lengths.iter().enumerate() {
            ahead.pass(length.told).ok_or(Refusal::at(TABLE_RULE, length.place))?;
            if before < count {
                self.file = ahead;
            }
        }
        Ok(())
    }

    /// The modes of a tile: 1 and 6, each at its own first byte.
    fn pattern(&mut self, length: usize) -> Result<Pattern, Refusal> {
        let mut pattern = Pattern { modes: [0; LONGEST_PATTERN], length };
        for slot in &mut pattern.modes[..length] {
            let place = self.file.place();
            let mode = self.file.unsigned()?;
            if mode >= self.plant.modes {
                return Err(Refusal::at(TABLE_RULE, place));
            }
            *slot = mode as u8;
        }
        Ok(pattern)
    }
}
