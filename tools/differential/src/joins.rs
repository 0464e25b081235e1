//! Part 5: the join table.

use crate::returned::Returned;
use crate::{judge, CATEGORIES};

/// T of categories and weights that are not refused, without the values not returned.
pub(crate) fn work(categories: &[u8], weights: &[u8]) -> [[i64; CATEGORIES]; CATEGORIES] {
    let mut table = [[0; CATEGORIES]; CATEGORIES];
    for (row, &from) in weights.chunks_exact(categories.len()).zip(categories) {
        let sums = &mut table[usize::from(from)];
        for (&w, &to) in row.iter().zip(categories) {
            sums[usize::from(to)] += i64::from(w);
        }
    }
    table
}

/// That nothing is left of the weights, or that the values are equal, is no reason to refuse here.
pub fn join_table(
    n: usize,
    values: &[i32],
    categories: &[u8],
    weights: &[u8],
    table: &mut [i64],
) -> u8 {
    if !judge::zones_fit(n) {
        return 1;
    }
    if values.len() != n
        || categories.len() != n
        || weights.len() != n * n
        || table.len() != CATEGORIES * CATEGORIES
    {
        return 2;
    }
    if let Err(number) = judge::values_and_weights(n, values, weights) {
        return number;
    }
    if judge::greatest(categories) > 7 {
        return 8;
    }
    let returned = Returned::of(values, weights);
    table.copy_from_slice(work(categories, &returned.weights).as_flattened());
    0
}
