//! The desk of Hoachulim: reads and writes files, converts, draws and explains. It is unproved and thin: every plant, table, start file, verdict and
//! mode in it comes from the proved library, which it links.

pub mod causes;
pub mod commands;
pub mod controls;
pub mod courses;
pub mod drawings;
pub mod drives;
pub mod files;
pub mod images;
pub mod judged;
pub mod kinds;
pub mod library;
pub mod papers;
pub mod pictures;
pub mod progress;
pub mod refusals;
pub mod release;
pub mod results;
pub mod runs;
pub mod search;
pub mod sha256;
pub mod text;
pub mod units;
