//! Part 3: W, P, G and the local numerators of each class.

use crate::account::Spread;
use crate::judge::Job;
use crate::{judge, CLASSES};

/// The job with classes whose lists have their exact length, or the number that rules 3 to 7 and 9 give it.
pub(crate) fn judge_classed<'a>(
    n: usize,
    values: &'a [i32],
    weights: &'a [u8],
    classes: &[u8],
) -> Result<Job<'a>, u8> {
    let job = judge::job(n, values, weights)?;
    if judge::greatest(classes) > 8 {
        Err(9)
    } else {
        Ok(job)
    }
}

/// Works a job that is not refused: three sums for each class, and a local numerator for each class and zone, 0 at a zone left out.
pub(crate) fn work(
    values: &[i32],
    spread: &Spread,
    weights: &[u8],
    classes: &[u8],
    rows: &mut [i64],
    class_locals: &mut [i64],
) {
    let n = values.len();
    let deviations = spread.deviations();
    let mut sums = [[0i64; 3]; CLASSES];
    for (i, (&x, &d)) in values.iter().zip(deviations).enumerate() {
        let mut neighbours = [0i64; CLASSES];
        let pairs = weights[i * n..][..n].iter().zip(&classes[i * n..][..n]);
        for ((&y, &e), (&w, &class)) in values.iter().zip(deviations).zip(pairs) {
            let w = i64::from(w);
            let gap = i64::from(x - y);
            let class = usize::from(class);
            neighbours[class] += w * e;
            sums[class][0] += w;
            sums[class][2] += w * (gap * gap);
        }
        for (class, &near) in neighbours.iter().enumerate() {
            let local = d * near;
            class_locals[class * n + i] = local;
            sums[class][1] += local;
        }
    }
    rows.copy_from_slice(sums.as_flattened());
}

pub fn class_account(
    n: usize,
    values: &[i32],
    weights: &[u8],
    classes: &[u8],
    rows: &mut [i64],
    class_locals: &mut [i64],
) -> u8 {
    if !judge::zones_fit(n) {
        return 1;
    }
    if values.len() != n
        || weights.len() != n * n
        || classes.len() != n * n
        || rows.len() != 3 * CLASSES
        || class_locals.len() != CLASSES * n
    {
        return 2;
    }
    let Job { returned, kept } = match judge_classed(n, values, weights, classes) {
        Ok(job) => job,
        Err(number) => return number,
    };
    let (values, weights) = (&returned.values, &returned.weights);
    let spread = Spread::of(values, kept);
    work(values, &spread, weights, classes, rows, class_locals);
    0
}
