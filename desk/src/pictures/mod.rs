//! Pictures: a table's tiles, a run, the chain of a start file. SVG that needs nothing else, the same for the same files, and readable in grey.
//! Relies on files that the library accepted (`files`, `controls`) and on runs (`courses`). Nothing is judged here.

mod axes;
pub mod chain;
pub mod chart;
mod hatches;
pub mod svg;
pub mod tiles;

pub use chart::Chart;
