//! Request A.2 in the inputs: kept zones of equal local numerators, and what their places could go by.

use super::left_out::parted;
use differential::image::SHUFFLE_BYTES;
use differential::{account, read, BANDS, NOT_RETURNED, SUMS, ZONES};
use std::cmp::Reverse;

#[cfg(test)]
mod tests;

/// A kept zone. All sums but that as lent are of the weights without the values not returned.
pub struct Standing {
    pub zone: usize,
    pub local: i64,
    pub row: u32,
    pub column: u32,
    /// Its row sum of the weights as they are lent.
    pub lent: u32,
}

/// The kept zones by rising number; none where the job is refused.
pub fn standings(values: &[i32], weights: &[u8]) -> Vec<Standing> {
    let n = values.len();
    let (mut locals, mut sums) = (vec![0; n], [0; SUMS]);
    if account(n, values, weights, &mut locals, &mut sums) != 0 {
        return Vec::new();
    }
    let returned = |zone: &usize| values[*zone] != NOT_RETURNED;
    let weight = |i: usize, j: usize| u32::from(weights[i * n + j]);
    let (kept, _) = parted(values, weights);
    let standing = |&zone: &usize| Standing {
        zone,
        local: locals[zone],
        row: (0..n).filter(returned).map(|j| weight(zone, j)).sum(),
        column: (0..n).filter(returned).map(|j| weight(j, zone)).sum(),
        lent: (0..n).map(|j| weight(zone, j)).sum(),
    };
    kept.iter().map(standing).collect()
}

/// Puts the kept zones by falling L, equal ones by a rising key. Those left out stay as they are, behind.
pub fn tied_by<K: Ord>(values: &[i32], weights: &[u8], zones: &mut [u8], key: fn(&Standing) -> K) {
    let mut standings = standings(values, weights);
    standings.sort_by_key(|standing| (Reverse(standing.local), key(standing)));
    for (zone, standing) in zones.iter_mut().zip(&standings) {
        *zone = standing.zone as u8;
    }
}

/// What two zones of equal local numerators can show.
pub const TIES: [&str; 6] = [
    "the row sum parts them",
    "the row sum against the number",
    "the number parts them",
    "the column sum says otherwise",
    "row and column together say otherwise",
    "the weights as lent say otherwise",
];

/// Which of these a job has.
pub type Ties = [bool; TIES.len()];

/// Those of an input that is no job.
pub const NONE: Ties = [false; TIES.len()];

/// What one tie shows, `first` being the zone that comes first.
fn shown(first: &Standing, second: &Standing) -> Ties {
    let by_row = first.row > second.row;
    let both = |zone: &Standing| zone.row + zone.column;
    [
        by_row,
        by_row && first.zone > second.zone,
        !by_row,
        first.column < second.column,
        both(first) < both(second),
        first.lent < second.lent,
    ]
}

pub fn ties(values: &[i32], weights: &[u8]) -> Ties {
    let standings = standings(values, weights);
    let mut ties = NONE;
    for (place, low) in standings.iter().enumerate() {
        let others = standings[place + 1..].iter();
        for high in others.filter(|high| high.local == low.local) {
            let shown = if high.row > low.row {
                shown(high, low)
            } else {
                shown(low, high)
            };
            ties.iter_mut().zip(shown).for_each(|(is, now)| *is |= now);
        }
    }
    ties
}

/// The values and the weights of an image that is accepted.
pub fn job_of(image: &[u8]) -> Option<(Vec<i32>, Vec<u8>)> {
    let (mut values, mut weights) = (vec![0; ZONES], vec![0; ZONES * ZONES]);
    let (mut categories, mut places, mut bands) = ([0; ZONES], [0; 2 * ZONES], [0; BANDS]);
    let (mut shuffles, mut counts) = ([0; SHUFFLE_BYTES], [0; 6]);
    let number = read(
        image,
        &mut values,
        &mut categories,
        &mut weights,
        &mut places,
        &mut bands,
        &mut shuffles,
        &mut counts,
    );
    let n = counts[0] as usize;
    values.truncate(n);
    weights.truncate(n * n);
    (number == 0).then_some((values, weights))
}

pub fn ties_of_image(image: &[u8]) -> Ties {
    job_of(image).map_or(NONE, |(values, weights)| ties(&values, &weights))
}
