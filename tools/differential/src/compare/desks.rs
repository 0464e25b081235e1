//! Request A.9 in the inputs: the desks of a rank, and what of them must be tried.

use differential::{DESKS, SHUFFLES, ZONES};

#[cfg(test)]
mod tests;

/// What a rank's desks can show, and the number that it must get to count as tried.
pub const DESK_KINDS: [(&str, u8); 15] = [
    ("no rows and no desks", 0),
    ("all rows of desk 0", 0),
    ("all rows of one other desk", 0),
    ("rows of several desks, a desk with none", 0),
    ("rows of every desk", 0),
    ("rows of the four desks by turns", 0),
    ("as many rows as may be, of several desks", 0),
    ("a desk of 4", 24),
    ("a desk above 4", 24),
    ("only the last of several desks above 3", 24),
    ("a desk above 3 and a row that lacks a zone", 13),
    ("a desk less than rows", 2),
    ("a desk more than rows", 2),
    ("rows without desks", 2),
    ("a desk for each entry of the rows", 2),
];

/// The first of these are of desks that fit the rows, the others of lengths that do not.
const KINDS_OF_FITTING: usize = 11;

/// Which of the kinds a rank is of.
pub type DeskKinds = [bool; DESK_KINDS.len()];

/// Those of another call.
pub const NONE: DeskKinds = [false; DESK_KINDS.len()];

/// The kinds of a rank whose other lists have their exact length; none where the rows are not whole, or too many.
pub fn kinds(n: usize, shuffles: &[u8], desks: &[u8]) -> DeskKinds {
    let mut kinds = NONE;
    if !(2..=ZONES).contains(&n)
        || !shuffles.len().is_multiple_of(n)
        || shuffles.len() / n > SHUFFLES
    {
        return kinds;
    }
    let rows = shuffles.len() / n;
    let (of_fitting, of_lengths) = kinds.split_at_mut(KINDS_OF_FITTING);
    if desks.len() == rows {
        of_fitting.copy_from_slice(&kinds_of_fitting(n, shuffles, desks));
    } else {
        let length = desks.len();
        of_lengths.copy_from_slice(&[
            length + 1 == rows,
            length == rows + 1,
            length == 0,
            length == rows * n,
        ]);
    }
    kinds
}

/// Those of as many desks as rows.
fn kinds_of_fitting(n: usize, shuffles: &[u8], desks: &[u8]) -> [bool; KINDS_OF_FITTING] {
    let has = |desk: usize| desks.iter().any(|&of| usize::from(of) == desk);
    let with_rows = (0..DESKS).filter(|&desk| has(desk)).count();
    let is_above = |desk: &u8| usize::from(*desk) >= DESKS;
    let above = desks.iter().filter(|desk| is_above(desk)).count();
    let by_turns = desks.iter().zip((0..DESKS).cycle());
    let lacks = |row: &[u8]| (0..n).any(|zone| !row.iter().any(|&of| usize::from(of) == zone));
    [
        desks.is_empty(),
        with_rows == 1 && has(0),
        with_rows == 1 && !has(0),
        with_rows > 1 && with_rows < DESKS,
        with_rows == DESKS,
        with_rows == DESKS && by_turns.clone().all(|(&of, desk)| usize::from(of) == desk),
        with_rows > 1 && desks.len() == SHUFFLES,
        above > 0 && !desks.iter().any(|&desk| desk > 4),
        desks.iter().any(|&desk| desk > 4),
        above == 1 && desks.len() > 1 && desks.last().is_some_and(is_above),
        above > 0 && shuffles.chunks_exact(n).any(lacks),
    ]
}
