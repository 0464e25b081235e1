//! Request A.6: zones that touch nobody are left out.

use crate::ZONES;

/// The zones that are kept, a bit for each. A zone is left out if neither its row nor its column holds a weight; it counts neither in n
/// nor in the mean nor in the spread. The weights are those without the values not returned.
#[derive(Clone, Copy)]
pub(crate) struct Kept(u64);

impl Kept {
    pub fn of(n: usize, weights: &[u8]) -> Self {
        let mut zones = 0;
        let mut columns = [0; ZONES];
        for (row, i) in weights.chunks_exact(n).zip(0..) {
            let mut any = 0;
            for (column, &w) in columns.iter_mut().zip(row) {
                *column |= w;
                any |= w;
            }
            zones |= u64::from(any > 0) << i;
        }
        for (&any, j) in columns.iter().zip(0..) {
            zones |= u64::from(any > 0) << j;
        }
        Kept(zones)
    }

    pub fn count(self) -> usize {
        self.0.count_ones() as usize
    }

    pub fn has(self, zone: usize) -> bool {
        self.0 >> zone & 1 == 1
    }

    /// The zone numbers, rising.
    pub fn zones(self) -> impl Iterator<Item = usize> {
        (0..ZONES).filter(move |&zone| self.has(zone))
    }

    /// Whether the kept zones have one value, so that their M is 0.
    pub fn are_equal(self, values: &[i32]) -> bool {
        let mut kept = self.zones().map(|zone| values[zone]);
        let first = kept.next();
        kept.all(|x| Some(x) == first)
    }
}
