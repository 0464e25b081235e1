//! Part 3: the float report of a job under one assignment of classes, each float with its side.

use crate::account::Spread;
use crate::classes::{judge_classed, work};
use crate::judge::Job;
use crate::nearest::{ratio, Rounded};
use crate::{judge, CLASSES, ZONES};

/// Numerator and divisor of Moran's I.
pub(crate) fn moran(spread: &Spread, w: i64, p: i64) -> (i64, i64) {
    (p, w * spread.m)
}

/// Numerator and divisor of Geary's c; its n is the number of zones kept.
pub(crate) fn geary(spread: &Spread, w: i64, g: i64) -> (i64, i64) {
    let n = spread.kept.count() as i64;
    ((n - 1) * n * g, 2 * w * spread.m)
}

/// Moran and Geary of a weight above 0.
pub(crate) fn pair(spread: &Spread, w: i64, p: i64, g: i64) -> [Rounded; 2] {
    let (moran, geary) = (moran(spread, w, p), geary(spread, w, g));
    [ratio(moran.0, moran.1), ratio(geary.0, geary.1)]
}

/// A lent list of floats, and that of their sides.
struct Figures<'a> {
    floats: &'a mut [f64],
    sides: &'a mut [u8],
}

impl Figures<'_> {
    fn are(&self, count: usize) -> bool {
        self.floats.len() == count && self.sides.len() == count
    }

    fn put(&mut self, place: usize, figure: Rounded) {
        self.floats[place] = figure.float;
        self.sides[place] = figure.side;
    }

    /// The pair of class k, or with k 0 that of a job.
    fn put_pair(&mut self, k: usize, [moran, geary]: [Rounded; 2]) {
        self.put(2 * k, moran);
        self.put(2 * k + 1, geary);
    }
}

#[allow(clippy::too_many_arguments)]
pub fn float_report(
    n: usize,
    values: &[i32],
    weights: &[u8],
    classes: &[u8],
    globals: &mut [f64],
    global_sides: &mut [u8],
    locals: &mut [f64],
    local_sides: &mut [u8],
    pairs: &mut [f64],
    pair_sides: &mut [u8],
    has_pair: &mut [u8],
) -> u8 {
    let figures = |floats, sides| Figures { floats, sides };
    let mut globals = figures(globals, global_sides);
    let mut locals = figures(locals, local_sides);
    let mut pairs = figures(pairs, pair_sides);
    if !judge::zones_fit(n) {
        return 1;
    }
    let fit = globals.are(2) && locals.are(n) && pairs.are(2 * CLASSES);
    if !fit || values.len() != n || has_pair.len() != CLASSES {
        return 2;
    }
    if weights.len() != n * n || classes.len() != n * n {
        return 2;
    }
    let job = match judge_classed(n, values, weights, classes) {
        Ok(job) => job,
        Err(number) => return number,
    };
    work_figures(
        job,
        classes,
        &mut globals,
        &mut locals,
        &mut pairs,
        has_pair,
    );
    0
}

/// Works a job that is not refused.
fn work_figures(
    Job { returned, kept }: Job,
    classes: &[u8],
    globals: &mut Figures,
    locals: &mut Figures,
    pairs: &mut Figures,
    has_pair: &mut [u8],
) {
    let (values, weights) = (&returned.values, &returned.weights);
    let spread = Spread::of(values, kept);
    let mut rows = [0; 3 * CLASSES];
    let mut class_locals = [0; ZONES * CLASSES];
    let class_locals = &mut class_locals[..CLASSES * values.len()];
    work(values, &spread, weights, classes, &mut rows, class_locals);

    let (rows, _) = rows.as_chunks();
    let [w, p, g] = [0, 1, 2].map(|k| rows.iter().map(|row| row[k]).sum());
    globals.put_pair(0, pair(&spread, w, p, g));
    put_locals(&spread, class_locals, values.len(), locals);
    put_class_pairs(&spread, rows, pairs, has_pair);
}

/// A zone's numerator is the sum of those that it has in the classes.
fn put_locals(spread: &Spread, class_locals: &[i64], n: usize, locals: &mut Figures) {
    for zone in 0..n {
        let numerator = class_locals.iter().skip(zone).step_by(n).sum();
        locals.put(zone, ratio(numerator, spread.m));
    }
}

/// The pair of each class that has weight, from its W, P and G; the entries of the others stay.
fn put_class_pairs(spread: &Spread, rows: &[[i64; 3]], pairs: &mut Figures, has_pair: &mut [u8]) {
    for (k, (&[w, p, g], has)) in rows.iter().zip(has_pair).enumerate() {
        *has = u8::from(w > 0);
        if w > 0 {
            pairs.put_pair(k, pair(spread, w, p, g));
        }
    }
}
