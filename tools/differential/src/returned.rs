//! Request A.7: values not returned.

use std::borrow::Cow;

/// Marks the value of a zone that sent nothing.
pub const NOT_RETURNED: i32 = i32::MIN;

/// A job without its values not returned: no zone of such a value gives weight or gets it. So it is left out, and what stands for
/// its value, 0, counts nowhere.
pub(crate) struct Returned<'a> {
    pub values: Cow<'a, [i32]>,
    pub weights: Cow<'a, [u8]>,
    /// How many were not returned.
    pub missing: usize,
}

impl<'a> Returned<'a> {
    /// Where all are returned the lists stay the lent ones.
    pub fn of(values: &'a [i32], weights: &'a [u8]) -> Self {
        let mut job = Returned {
            values: Cow::Borrowed(values),
            weights: Cow::Borrowed(weights),
            missing: 0,
        };
        if values.contains(&NOT_RETURNED) {
            job.reduce();
        }
        job
    }

    fn reduce(&mut self) {
        let n = self.values.len();
        let weights = self.weights.to_mut();
        for (zone, x) in self.values.to_mut().iter_mut().enumerate() {
            if *x == NOT_RETURNED {
                *x = 0;
                self.missing += 1;
                weights[zone * n..][..n].fill(0);
                let column = weights.iter_mut().skip(zone).step_by(n);
                column.for_each(|w| *w = 0);
            }
        }
    }
}
