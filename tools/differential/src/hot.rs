//! Part 4 and request A.2: the zones by falling local numerator, equal ones by falling row sum of weights, then by rising number; then those
//! that are left out.

use crate::account::{self, Spread};
use crate::judge::Job;
use crate::kept::Kept;
use crate::{judge, ZONES};
use std::cmp::Reverse;

/// Puts the zone numbers in order. A zone left out comes behind every kept one, though its numerator, 0, may be the greater. The weights
/// are those without the values not returned.
pub(crate) fn order(kept: Kept, locals: &[i64], weights: &[u8], zones: &mut [u8]) {
    let mut row_sums = [0; ZONES];
    for (sum, row) in row_sums.iter_mut().zip(weights.chunks_exact(locals.len())) {
        *sum = row.iter().map(|&w| u32::from(w)).sum();
    }
    for (zone, i) in zones.iter_mut().zip(0..) {
        *zone = i;
    }
    zones.sort_unstable_by_key(|&number| {
        let zone = usize::from(number);
        (
            !kept.has(zone),
            Reverse((locals[zone], row_sums[zone])),
            number,
        )
    });
}

pub fn hot_list(n: usize, values: &[i32], weights: &[u8], zones: &mut [u8]) -> u8 {
    if !judge::zones_fit(n) {
        return 1;
    }
    if values.len() != n || weights.len() != n * n || zones.len() != n {
        return 2;
    }
    let Job { returned, kept } = match judge::job(n, values, weights) {
        Ok(job) => job,
        Err(number) => return number,
    };
    let (values, weights) = (&returned.values, &returned.weights);
    let mut locals = [0; ZONES];
    let locals = &mut locals[..n];
    account::work(values, &Spread::of(values, kept), weights, locals);
    order(kept, locals, weights, zones);
    0
}
