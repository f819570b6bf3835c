//! The files of documents 01 and 02 as values, for showing, drawing and explaining. Nothing is judged here: a file is read once the library has
//! accepted it, or up to the place at which the library refused it (`numbers`). docs/FORMATS.md sets out the bytes.

pub mod boxes;
pub mod chains;
pub mod forms;
pub mod houses;
pub mod numbers;
pub mod plants;
pub mod ranges;
pub mod sheets;
pub mod tables;

pub use boxes::{Side, Sides};
pub use chains::{Chain, Start};
pub use forms::Form;
pub use houses::House;
pub use plants::Plant;
pub use sheets::Sheet;
pub use tables::{Table, Tile};
