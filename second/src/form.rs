//! The forms of a table: what the number at its head says of the tree behind
//! it. Form 1 is document 01's: "A box splits along all such sides at once", depth
//! D. Form 2 is request 2026-01's, the same tree, but that it "puts, after each
//! split's 0, the byte length of each child but the last, as a seven-bit number".
//! Form 3 is request 2026-06's: it "splits one side, the longest, the lowest
//! dimension where several are equal, in two, lower half first. It stores no
//! lengths ... Its depth bound is n*D of the plant."

use crate::boxes::{Box, Children};
use crate::file::File;
use crate::plant::Plant;
use crate::refusal::{Refusal, FORM_NOT_KNOWN};

/// How a table's boxes are split.
#[derive(Clone, Copy, Debug, PartialEq, Eq)]
enum Split {
    AllSides,
    LongestSide,
}

/// A form of table.
#[derive(Clone, Copy, Debug, PartialEq, Eq)]
pub struct Form {
    /// The number that stands for it in a file.
    number: u8,
    split: Split,
    /// Whether a split tells the lengths of its children but the last.
    lengths: bool,
}

/// The forms there are.
const KNOWN: [Form; 3] = [
    Form { number: 1, split: Split::AllSides, lengths: false },
    Form { number: 2, split: Split::AllSides, lengths: true },
    Form { number: 3, split: Split::LongestSide, lengths: false },
];

impl Form {
    /// The form with this number, which stands at `place`: 2 where there is none.
    pub fn of(number: u64, place: u64) -> Result<Form, Refusal> {
        let known = KNOWN.iter().find(|form| u64::from(form.number) == number);
        known.copied().ok_or(Refusal::at(FORM_NOT_KNOWN, place))
    }

    /// The form at the head of a table: 1, then 2, at its first byte.
    pub fn read(file: &mut File) -> Result<Form, Refusal> {
        let place = file.place();
        Form::of(file.unsigned()?, place)
    }

    /// Its number in a file.
    pub fn number(&self) -> u8 {
        self.number
    }

    /// Whether a split's 0 is followed by the lengths of its children but the last.
    pub fn tells_lengths(&self) -> bool {
        self.lengths
    }

    /// Whether a tree of this form is one of the other too, laid out otherwise.
    pub fn splits_as(&self, other: &Form) -> bool {
        self.split == other.split
    }

    /// How often a box may be split, one split after the other.
    pub fn depth(&self, plant: &Plant) -> u64 {
        match self.split {
            Split::AllSides => plant.d,
            Split::LongestSide => plant.n * plant.d,
        }
    }

    /// The children of a box with this much depth left, in their order; None
    /// where it cannot be split.
    pub fn split(&self, of: &Box, depth_left: u64) -> Option<Children> {
        match self.split {
            _ if depth_left == 0 => None,
            Split::AllSides => of.split(),
            Split::LongestSide => of.halve(),
        }
    }
}
