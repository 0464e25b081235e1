//! Part 9 and request A.9: how many shuffles of each desk have a lesser, an equal, a greater P than the job.

use crate::account::Spread;
use crate::judge::Job;
use crate::{judge, DESKS, RANK_COUNTS, SHUFFLES, ZONES};
use std::cmp::Ordering;

/// P of the zones' deviations, which need not be in the job's own order.
fn numerator(deviations: &[i64], weights: &[u8]) -> i64 {
    let rows = weights.chunks_exact(deviations.len());
    rows.zip(deviations)
        .map(|(row, &d)| {
            let pairs = row.iter().zip(deviations);
            d * pairs.map(|(&w, &e)| i64::from(w) * e).sum::<i64>()
        })
        .sum()
}

/// A shuffle acts on kept zones: in rising order they take the values of its kept numbers, as these come. S stays, so a value brings its d.
fn shuffle(spread: &Spread, row: &[u8], shuffled: &mut [i64]) {
    let deviations = spread.deviations();
    let numbers = row.iter().map(|&zone| usize::from(zone));
    if spread.kept.count() == row.len() {
        // All are kept: each place takes its number.
        for (d, zone) in shuffled.iter_mut().zip(numbers) {
            *d = deviations[zone];
        }
    } else {
        let numbers = numbers.filter(|&zone| spread.kept.has(zone));
        for (place, zone) in spread.kept.zones().zip(numbers) {
            shuffled[place] = deviations[zone];
        }
    }
}

/// Less, equal and greater of each desk, of a job that is not refused. There is a desk for each row, 0 to 3.
pub(crate) fn count(
    spread: &Spread,
    weights: &[u8],
    shuffles: &[u8],
    desks: impl IntoIterator<Item = u8>,
) -> [[u64; 3]; DESKS] {
    let deviations = spread.deviations();
    let n = deviations.len();
    let own = numerator(deviations, weights);
    let mut counts = [[0; 3]; DESKS];
    let mut shuffled = [0; ZONES];
    let shuffled = &mut shuffled[..n];
    for (row, desk) in shuffles.chunks_exact(n).zip(desks) {
        shuffle(spread, row, shuffled);
        counts[usize::from(desk)][match numerator(shuffled, weights).cmp(&own) {
            Ordering::Less => 0,
            Ordering::Equal => 1,
            Ordering::Greater => 2,
        }] += 1;
    }
    counts
}

pub fn rank(
    n: usize,
    values: &[i32],
    weights: &[u8],
    shuffles: &[u8],
    desks: &[u8],
    counts: &mut [u64],
) -> u8 {
    if !judge::zones_fit(n) {
        return 1;
    }
    if values.len() != n
        || weights.len() != n * n
        || !shuffles.len().is_multiple_of(n)
        || shuffles.len() / n > SHUFFLES
        || desks.len() != shuffles.len() / n
        || counts.len() != RANK_COUNTS
    {
        return 2;
    }
    let Job { returned, kept } = match judge::job(n, values, weights) {
        Ok(job) => job,
        Err(number) => return number,
    };
    if !judge::rows_are_shuffles(n, shuffles) {
        return 13;
    }
    if usize::from(judge::greatest(desks)) >= DESKS {
        return 24;
    }
    let spread = Spread::of(&returned.values, kept);
    let desks = desks.iter().copied();
    counts.copy_from_slice(count(&spread, &returned.weights, shuffles, desks).as_flattened());
    0
}
