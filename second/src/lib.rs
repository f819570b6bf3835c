//! The independent second program of document 01 ("What the build includes
//! and its rules"): plants, sheets, the table maker, the table checker, the
//! controller and the listing, and of document 02's requests 2026-01, tables
//! that tell the lengths of their subtrees, 2026-02, heaters that fade as the room
//! warms, 2026-03, start files for cold rooms, 2026-06, tables that halve the
//! longest side, 2026-08, up to 256 modes, and 2026-09, a band for each mode.
//! Written from those papers and from the readings of their open words alone. One
//! module per subject, named in the papers' words.

#![forbid(unsafe_code)]

pub mod band;
pub mod boxes;
pub mod chain;
pub mod checker;
pub mod control;
pub mod edges;
pub mod file;
pub mod form;
pub mod image;
pub mod lent;
pub mod listing;
pub mod maker;
pub mod nearest;
pub mod numbers;
pub mod plant;
pub mod refusal;
pub mod relay;
pub mod search;
pub mod sheet;
pub mod sheet_plant;
pub mod start;
pub mod start_listing;
pub mod table;
pub mod tile;

/// The most rooms a plant or sheet has: "n 1..4".
pub const MOST_ROOMS: usize = 4;
/// The most modes: "N up to 256". A mode is below it, so a u8 holds every mode.
pub const MOST_MODES: usize = 256;
/// The longest pattern there can be: "longest pattern K 1..6".
pub const LONGEST_PATTERN: usize = 6;
/// The mode coefficients of the largest plant.
pub const COEFFICIENTS: usize = MOST_MODES * MOST_ROOMS * (MOST_ROOMS + 1);
/// The largest plant file: "a plant may reach 17,504 bytes" in form 1; in form 2
/// a band more for each mode but one, each of eight ends of 5 bytes.
pub const LARGEST_PLANT: usize = 17_504 + (MOST_MODES - 1) * 8 * 5;
/// The largest table, of form 2 and two rooms: "a form 1 table 54,615", that is
/// form and n, 1,365 splits and 4,096 tiles of six modes of two bytes; and three
/// lengths a split, which take two bytes each in the 85 splits above the lowest
/// two levels.
pub const LARGEST_TABLE: usize = 54_615 + 3 * (1_365 + 85);
/// "A chain of boxes R = R0, R1, .. Rm (m up to 8)."
pub const MOST_BOXES: usize = 8;
/// The largest start file: form and m, the edges of eight boxes of two rooms
/// in 3 bytes each, and nine of the largest tables, each behind a length of 3. Four
/// rooms have more edges, and smaller tables.
pub const LARGEST_START: usize = 2 + 3 * 4 * MOST_BOXES + (3 + LARGEST_TABLE) * (MOST_BOXES + 1);
