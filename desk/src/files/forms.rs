//! The forms of a table: the number at its head says how its boxes are split, and so how deep its tree may be, and whether a split tells lengths. A further
//! form is a further row of each match.

use super::boxes::{self, Side, Sides};
use super::plants::Plant;

/// A form of table; where none is said it is the first.
#[derive(Clone, Copy, Debug, Default, PartialEq, Eq)]
pub enum Form {
    /// 1: a box is split along all its sides at once.
    #[default]
    One,
    /// 2: the same, and a split tells the byte length of each child but the last (request 2026-01).
    Two,
    /// 3: its longest side alone is halved (request 2026-06).
    Three,
}

/// The forms of a table, and how they are told.
pub const FORMS: [Form; 3] = [Form::One, Form::Two, Form::Three];
pub const TABLE_FORMS: &str = "1, 2 or 3";

impl Form {
    /// The form with this number, where there is one.
    pub fn of(number: u64) -> Option<Form> {
        FORMS.into_iter().find(|form| form.number() == number)
    }

    pub fn number(self) -> u64 {
        match self {
            Form::One => 1,
            Form::Two => 2,
            Form::Three => 3,
        }
    }

    /// The children of a box, in their order; none where no side has more than one count.
    pub fn split(self, sides: &[Side]) -> Vec<Sides> {
        match self {
            Form::One | Form::Two => boxes::split(sides),
            Form::Three => boxes::halve(sides),
        }
    }

    /// Whether behind a split's 0 stand the lengths of its children but the last.
    pub fn tells_lengths(self) -> bool {
        self == Form::Two
    }

    /// Whether its boxes are split as another form's are, so that a plant has a table of both or of none.
    pub fn splits_as(self, other: Form) -> bool {
        (self == Form::Three) == (other == Form::Three)
    }

    /// The most children that a box of so many rooms has.
    pub fn children(self, rooms: usize) -> u64 {
        match self {
            Form::One | Form::Two => 1 << rooms,
            Form::Three => 2,
        }
    }

    /// The most splits that may be above a tile.
    pub fn depth(self, plant: &Plant) -> u64 {
        match self {
            Form::One | Form::Two => plant.depth,
            Form::Three => plant.rooms.len() as u64 * plant.depth,
        }
    }

    /// What that is under the documents' letters.
    pub fn depth_name(self) -> &'static str {
        match self {
            Form::One | Form::Two => "D",
            Form::Three => "n·D",
        }
    }

    /// What goes before a table's sizes: nothing where it is the form that nobody has to say.
    pub fn words(self) -> String {
        if self == Form::default() { String::new() } else { format!("form {}, ", self.number()) }
    }
}
