//! The networks of places and grids, and the classes of pairs by distance.

use crate::{raw, Refusal};

/// The moves of a grid network, of one step each.
#[derive(Debug, Clone, Copy, PartialEq, Eq)]
pub enum Move {
    /// Along a row or a column.
    Rook,
    /// Along a diagonal.
    Bishop,
    /// Both.
    Queen,
}

/// The Gabriel network: weight 1 both ways where no third place is inside or on the circle on the pair as diameter, else 0.
///
/// `n` is 2 to 64; `places` has 2 × n entries, across and up of each zone, -30,000 to 30,000, no two zones at one place; `weights` has
/// n × n entries.
///
/// # Errors
///
/// 1 2 10 11: the least that applies; `weights` is then as it was.
pub fn gabriel(n: usize, places: &[i32], weights: &mut [u8]) -> Result<(), Refusal> {
    // Each list is passed with its own length, and what is written is borrowed alone.
    Refusal::of(unsafe { raw::dca_gabriel(n, places.as_ptr(), places.len(), weights.as_mut_ptr(), weights.len()) })
}

/// The class of each pair of places: the first band that its squared distance does not exceed, counted from 1, else 0.
///
/// `n` and `places` as [`gabriel`]; `bands` has 1 to 8 strictly rising squared distances above 0; `classes` has n × n entries.
///
/// # Errors
///
/// 1 2 10 11 12: the least that applies; `classes` is then as it was. A wrong count of bands gets 12.
pub fn bands(n: usize, places: &[i32], bands: &[u32], classes: &mut [u8]) -> Result<(), Refusal> {
    // As in `gabriel`.
    Refusal::of(unsafe {
        raw::dca_bands(
            n,
            places.as_ptr(),
            places.len(),
            bands.as_ptr(),
            bands.len(),
            classes.as_mut_ptr(),
            classes.len(),
        )
    })
}

/// The network of a grid of zones, row by row: weight 1 where a move of this kind goes, else 0.
///
/// `rows` × `columns` is 2 to 64, and `weights` has the square of that many entries.
///
/// # Errors
///
/// 1 2: the least that applies; `weights` is then as it was.
pub fn grid(rows: usize, columns: usize, kind: Move, weights: &mut [u8]) -> Result<(), Refusal> {
    let call = match kind {
        Move::Rook => raw::dca_grid_rook,
        Move::Bishop => raw::dca_grid_bishop,
        Move::Queen => raw::dca_grid_queen,
    };
    // As in `gabriel`.
    Refusal::of(unsafe { call(rows, columns, weights.as_mut_ptr(), weights.len()) })
}
