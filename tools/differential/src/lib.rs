//! The calls of the district clustering account once more, written from document 01, requests A.2, A.6, A.7, A.9 and A.10 of document
//! 02 and their readings alone.
//!
//! Nothing here is shared with the proved library or taken from it. Each function has the arguments of the exported call of
//! the same name, as slices, and returns the number of the refusal, 0 where there is none; on a refusal every lent list stays
//! as it was. It is what the comparison holds the proved calls against, and the yardstick of their speed.

pub mod account;
pub mod classes;
pub mod coefficients;
pub mod grid;
pub mod hot;
pub mod image;
pub mod joins;
mod judge;
mod kept;
pub mod nearest;
pub mod places;
pub mod rank;
pub mod report;
mod returned;

pub use account::account;
pub use classes::class_account;
pub use coefficients::float_report;
pub use grid::{grid_bishop, grid_queen, grid_rook};
pub use hot::hot_list;
pub use image::{read, write};
pub use joins::join_table;
pub use nearest::{nearest, ABOVE, BELOW, EQUAL};
pub use places::{bands, gabriel};
pub use rank::rank;
pub use report::report;
pub use returned::NOT_RETURNED;

/// The most zones that a job has.
pub const ZONES: usize = 64;
/// The sums of an account: S, M, W, P, G, the number of zones kept and the number of values not returned.
pub const SUMS: usize = 7;
/// Classes 0 to 8.
pub const CLASSES: usize = 9;
/// Categories 0 to 7.
pub const CATEGORIES: usize = 8;
/// The most bands of a job.
pub const BANDS: usize = 8;
/// The most shuffles of a job.
pub const SHUFFLES: usize = 499;
/// Desks 0 to 3.
pub const DESKS: usize = 4;
/// The counts of a rank: less, equal and greater of each desk.
pub const RANK_COUNTS: usize = 3 * DESKS;
/// The most joins of an image.
pub const JOINS: usize = ZONES * (ZONES - 1);
/// The length of the report's text buffer.
pub const TEXT: usize = 16384;
