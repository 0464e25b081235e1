//! What several calls refuse alike.

use crate::kept::Kept;
use crate::returned::{Returned, NOT_RETURNED};
use crate::ZONES;

/// Whether there may be that many zones.
pub fn zones_fit(n: usize) -> bool {
    (2..=ZONES).contains(&n)
}

/// A job that is not refused: what is returned of it, and the zones kept.
pub struct Job<'a> {
    pub returned: Returned<'a>,
    pub kept: Kept,
}

/// The job whose lists have their exact length, or the number that rules 3 to 7 give it. 3 to 5 look at the lists as lent, 6 at the
/// weights that are left without the values not returned, 7 at the values of kept zones.
pub fn job<'a>(n: usize, values: &'a [i32], weights: &'a [u8]) -> Result<Job<'a>, u8> {
    values_and_weights(n, values, weights)?;
    let returned = Returned::of(values, weights);
    let kept = Kept::of(n, &returned.weights);
    if kept.count() == 0 {
        Err(6)
    } else if kept.are_equal(&returned.values) {
        Err(7)
    } else {
        Ok(Job { returned, kept })
    }
}

/// What rules 3 to 5 say of lists as lent.
pub fn values_and_weights(n: usize, values: &[i32], weights: &[u8]) -> Result<(), u8> {
    if values.iter().any(|&x| value_is_beyond(x)) {
        Err(3)
    } else if greatest(weights) > 9 {
        Err(4)
    } else if any_on_diagonal(n, weights) {
        Err(5)
    } else {
        Ok(())
    }
}

/// A value not returned is not beyond.
pub fn value_is_beyond(x: i32) -> bool {
    x.unsigned_abs() > 100_000 && x != NOT_RETURNED
}

pub fn coordinate_is_beyond(x: i32) -> bool {
    x.unsigned_abs() > 30_000
}

pub fn greatest(list: &[u8]) -> u8 {
    list.iter().copied().fold(0, u8::max)
}

pub fn any_on_diagonal(n: usize, weights: &[u8]) -> bool {
    weights.iter().step_by(n + 1).any(|&w| w != 0)
}

/// Whether every row of n numbers has each of 0 to n - 1. A number not below n marks nothing, so that another is lacking.
pub fn rows_are_shuffles(n: usize, shuffles: &[u8]) -> bool {
    let all = u64::MAX >> (ZONES - n);
    let mark = |zone: u8| u64::from(usize::from(zone) < n) << (zone % 64);
    shuffles
        .chunks_exact(n)
        .all(|row| row.iter().fold(0, |seen, &zone| seen | mark(zone)) == all)
}

/// Whether bands, none or more, are above 0 and strictly rising.
pub fn bands_rise(bands: impl IntoIterator<Item = u32>) -> bool {
    let mut last = 0;
    bands.into_iter().all(|band| {
        let rises = band > last;
        last = band;
        rises
    })
}
