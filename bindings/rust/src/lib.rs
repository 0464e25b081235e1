//! The district clustering account for Rust: Moran's I, Geary's c and what goes with them, worked in whole numbers.
//!
//! These are safe functions over slices; they call the archive of the proved library (`rt lib` in crates/exports), whose promises are proved
//! in crates/exports/src. A call that breaks a rule is refused: its error is the number of the cause, and all lent memory is as it
//! was, floats to the bit. No value and no length makes a call fail in any other way. The library allocates nothing and has no global
//! state, and a call takes less than 256 KiB of stack.
//!
//! The value [`NOT_RETURNED`] marks a zone that sent none. All weights of such a zone, those of its row and of its column, count as 0 in
//! every figure, the join table too; but 4 and 5 judge them as they are lent, and an image keeps the mark and the joins. 6 is given where
//! nothing is left of the weights.
//!
//! Each float is the one nearest to the exact ratio, and comes with its [`Side`]: whether it equals the ratio, lies below it or above it.
//!
//! A zone whose row and column then hold no weight touches nobody and is left out; so is a zone not returned, and a zone that touches no
//! others. Sums, mean and spread are those of the zones kept, with their number in the place of n. A zone that only gets weight, or only
//! gives it, is kept. Lengths, the counts of an image and every refusal but 6 and 7 count all zones. The join table, the networks and the
//! bands leave out nothing.
//!
//! The shuffles of a [`rank()`] come from up to four desks, each of which has counts of its own.
//!
//! ```
//! use dca::{account, nearest, Refusal, Side};
//!
//! let values = [1, 2, 6];
//! let weights = [0, 1, 0, 1, 0, 1, 0, 1, 0]; // a line of three zones
//! let mut locals = [0; 3];
//! let sums = account(3, &values, &weights, &mut locals)?;
//! assert_eq!((sums.spread, sums.weight, sums.cross, sums.squares), (42, 4, -18, 34));
//! assert_eq!((sums.kept, sums.missing), (3, 0));
//! assert_eq!(locals, [18, -9, -27]);
//!
//! let moran = nearest(sums.cross, sums.weight * sums.spread)?;
//! assert_eq!(moran.float, -18.0 / 168.0);
//! assert_eq!(moran.side, Side::Above); // nearer to 0 than the ratio
//!
//! assert_eq!(account(3, &[5, 5, 5], &weights, &mut locals), Err(Refusal::NO_SPREAD));
//! assert_eq!(locals, [18, -9, -27]);
//! # Ok::<(), Refusal>(())
//! ```

mod figures;
mod job_image;
mod networks;
// Its layout is kept: a line is a list.
#[rustfmt::skip]
pub mod raw;
mod refusal;

pub use figures::{account, class_account, float_report, hot_list, join_table, nearest, rank};
pub use figures::{Counts, FloatReport, Pair, Rounded, Side, Sums};
pub use job_image::{read, report, write, Buffers, Given, Sections};
pub use networks::{bands, gabriel, grid, Move};
pub use refusal::Refusal;

/// Marks the value of a zone that sent none; every other value is -100,000 to 100,000.
pub const NOT_RETURNED: i32 = i32::MIN;
/// The most zones of a job; the least are 2.
pub const ZONES_MOST: usize = 64;
/// The most shuffles of a rank and of an image.
pub const SHUFFLES_MOST: usize = 499;
/// The desks of a rank, 0 to 3.
pub const DESKS: usize = 4;
/// The classes of pairs, 0 to 8.
pub const CLASSES: usize = 9;
/// The entries of the class rows: W, P and G of each class.
pub const CLASS_ROWS: usize = 27;
/// The entries of the join table: T(r,s) at 8 × r + s.
pub const JOIN_TABLE: usize = 64;
/// The bytes of the longest image.
pub const IMAGE_MOST: usize = 44_908;
/// The bytes lent for the text of a report.
pub const REPORT_TEXT: usize = 16_384;
