//! Part 1: S, M, W, P, G and the local numerators.

use crate::judge::Job;
use crate::kept::Kept;
use crate::{judge, SUMS, ZONES};

/// What the values of the kept zones give without the weights.
pub(crate) struct Spread {
    pub kept: Kept,
    pub s: i64,
    pub m: i64,
    deviations: [i64; ZONES],
    n: usize,
}

impl Spread {
    pub fn of(values: &[i32], kept: Kept) -> Self {
        let count = kept.count() as i64;
        let (mut s, mut squares) = (0, 0);
        for (zone, &x) in values.iter().enumerate() {
            let x = if kept.has(zone) { i64::from(x) } else { 0 };
            s += x;
            squares += x * x;
        }
        let mut deviations = [0; ZONES];
        for (zone, (d, &x)) in deviations.iter_mut().zip(values).enumerate() {
            if kept.has(zone) {
                *d = count * i64::from(x) - s;
            }
        }
        Spread {
            kept,
            s,
            m: count * squares - s * s,
            deviations,
            n: values.len(),
        }
    }

    /// d of each zone; 0 for one that is left out.
    pub fn deviations(&self) -> &[i64] {
        &self.deviations[..self.n]
    }
}

/// What the pairs give. Those of a zone left out have no weight, so that they add nothing.
pub(crate) struct Sums {
    pub w: i64,
    pub p: i64,
    pub g: i64,
}

/// Works a job that is not refused, with a place for each zone in `locals`; a zone left out gets 0 by its empty row.
pub(crate) fn work(values: &[i32], spread: &Spread, weights: &[u8], locals: &mut [i64]) -> Sums {
    let deviations = spread.deviations();
    let mut sums = Sums { w: 0, p: 0, g: 0 };
    let rows = weights.chunks_exact(values.len());
    for (((row, &x), &d), local) in rows.zip(values).zip(deviations).zip(locals) {
        let mut neighbours = 0;
        for ((&w, &y), &e) in row.iter().zip(values).zip(deviations) {
            let w = i64::from(w);
            let gap = i64::from(x - y);
            sums.w += w;
            sums.g += w * (gap * gap);
            neighbours += w * e;
        }
        *local = d * neighbours;
        sums.p += *local;
    }
    sums
}

pub fn account(
    n: usize,
    values: &[i32],
    weights: &[u8],
    locals: &mut [i64],
    sums: &mut [i64],
) -> u8 {
    if !judge::zones_fit(n) {
        return 1;
    }
    if values.len() != n || weights.len() != n * n || locals.len() != n || sums.len() != SUMS {
        return 2;
    }
    let Job { returned, kept } = match judge::job(n, values, weights) {
        Ok(job) => job,
        Err(number) => return number,
    };
    let spread = Spread::of(&returned.values, kept);
    let Sums { w, p, g } = work(&returned.values, &spread, &returned.weights, locals);
    let counts = [kept.count(), returned.missing].map(|count| count as i64);
    sums.copy_from_slice(&[spread.s, spread.m, w, p, g, counts[0], counts[1]]);
    0
}
