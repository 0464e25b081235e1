//! The account of a job and what is worked from it.

use crate::{raw, Refusal, CLASSES, CLASS_ROWS, DESKS, JOIN_TABLE, ZONES_MOST};

/// S, M, W, P, G, the number of zones kept and the number of values not returned.
const SUMS: usize = 7;

/// The sums of a job, taken over the zones that are kept.
#[derive(Debug, Clone, Copy, PartialEq, Eq)]
pub struct Sums {
    /// S, the sum of the values.
    pub total: i64,
    /// M, the sum over pairs i < j of the squared differences.
    pub spread: i64,
    /// W, the sum of the weights.
    pub weight: i64,
    /// P, the sum of w(i,j) × d(i) × d(j).
    pub cross: i64,
    /// G, the sum of w(i,j) × (x(i) - x(j)) squared.
    pub squares: i64,
    /// How many zones are kept.
    pub kept: usize,
    /// How many values are [`crate::NOT_RETURNED`].
    pub missing: usize,
}

/// Where a float lies beside the exact ratio that it is nearest to, by value and not by size: of a ratio below 0 a float above it is the
/// one nearer to 0.
#[derive(Debug, Clone, Copy, PartialEq, Eq, Hash, Default)]
pub enum Side {
    /// The float equals the ratio.
    #[default]
    Equal,
    /// The float is less than the ratio.
    Below,
    /// The float is greater than the ratio.
    Above,
}

impl Side {
    /// Of a number that a call stored; there are no others.
    fn of(number: u8) -> Self {
        match number {
            0 => Side::Equal,
            1 => Side::Below,
            _ => Side::Above,
        }
    }

    /// `=`, `<` or `>`, which a report puts behind the bits.
    pub const fn sign(self) -> char {
        match self {
            Side::Equal => '=',
            Side::Below => '<',
            Side::Above => '>',
        }
    }
}

/// The float nearest to an exact ratio, and its side of it.
#[derive(Debug, Clone, Copy, PartialEq, Default)]
pub struct Rounded {
    pub float: f64,
    pub side: Side,
}

/// Moran's I and Geary's c of a job or of a class.
#[derive(Debug, Clone, Copy, PartialEq)]
pub struct Pair {
    pub moran: Rounded,
    pub geary: Rounded,
}

/// The coefficients of a job and of its classes.
#[derive(Debug, Clone, Copy, PartialEq)]
pub struct FloatReport {
    /// Of the whole job.
    pub globals: Pair,
    /// Of each class, `None` for one without weight.
    pub classes: [Option<Pair>; CLASSES],
}

/// How many shuffles of a desk have a P less than, equal to, greater than the job's own.
#[derive(Debug, Clone, Copy, PartialEq, Eq, Default)]
pub struct Counts {
    pub less: u64,
    pub equal: u64,
    pub greater: u64,
}

/// The account of a job: its sums, and the local numerators L(i) in `locals`, 0 at a zone left out.
///
/// `n` is 2 to 64; `values` has n entries, -100,000 to 100,000 or [`crate::NOT_RETURNED`]; `weights` has n × n entries, w(i,j) at
/// n × i + j, 0 to 9 and 0 on the diagonal; `locals` has n entries.
///
/// # Errors
///
/// 1 2 3 4 5 6 7: the least that applies; `locals` is then as it was.
pub fn account(n: usize, values: &[i32], weights: &[u8], locals: &mut [i64]) -> Result<Sums, Refusal> {
    let mut sums = [0; SUMS];
    // Each list is passed with its own length, and what is written is borrowed alone.
    Refusal::of(unsafe {
        raw::dca_account(
            n,
            values.as_ptr(),
            values.len(),
            weights.as_ptr(),
            weights.len(),
            locals.as_mut_ptr(),
            locals.len(),
            sums.as_mut_ptr(),
            sums.len(),
        )
    })?;
    let [total, spread, weight, cross, squares, kept, missing] = sums;
    Ok(Sums {
        total,
        spread,
        weight,
        cross,
        squares,
        kept: kept as usize, // at most 64, as the next
        missing: missing as usize,
    })
}

/// The account of each class of pairs; d and M stay those of the whole job.
///
/// `n`, `values` and `weights` as [`account`]; `classes` has n × n entries, 0 to 8. Into `rows` go W, P and G of class 0, of class 1 and so
/// on; into `class_locals`, of 9 × n entries, L of class k and zone i at n × k + i, 0 at a zone left out.
///
/// # Errors
///
/// 1 2 3 4 5 6 7 9: the least that applies; the lent lists are then as they were.
pub fn class_account(
    n: usize,
    values: &[i32],
    weights: &[u8],
    classes: &[u8],
    rows: &mut [i64; CLASS_ROWS],
    class_locals: &mut [i64],
) -> Result<(), Refusal> {
    // As in `account`.
    Refusal::of(unsafe {
        raw::dca_class_account(
            n,
            values.as_ptr(),
            values.len(),
            weights.as_ptr(),
            weights.len(),
            classes.as_ptr(),
            classes.len(),
            rows.as_mut_ptr(),
            rows.len(),
            class_locals.as_mut_ptr(),
            class_locals.len(),
        )
    })
}

/// Lists of floats and of their sides, as a call is lent them.
struct Figures<const N: usize> {
    floats: [f64; N],
    sides: [u8; N],
}

impl<const N: usize> Figures<N> {
    fn new() -> Self {
        Figures {
            floats: [0.0; N],
            sides: [0; N],
        }
    }

    fn at(&self, place: usize) -> Rounded {
        Rounded {
            float: self.floats[place],
            side: Side::of(self.sides[place]),
        }
    }

    fn pair(&self, k: usize) -> Pair {
        Pair {
            moran: self.at(2 * k),
            geary: self.at(2 * k + 1),
        }
    }
}

/// The coefficients of a job and of its classes; the local Moran L(i) / M of each zone goes into `locals`, +0 and [`Side::Equal`] at a zone
/// left out.
///
/// `n`, `values`, `weights` and `classes` as [`class_account`]; `locals` has n entries.
///
/// # Errors
///
/// 1 2 3 4 5 6 7 9: the least that applies; `locals` is then as it was, to the bit.
pub fn float_report(n: usize, values: &[i32], weights: &[u8], classes: &[u8], locals: &mut [Rounded]) -> Result<FloatReport, Refusal> {
    let (mut globals, mut pairs) = (Figures::<2>::new(), Figures::<{ 2 * CLASSES }>::new());
    let mut has_pair = [0; CLASSES];
    // Of a list that is too long for any job so much is lent that it is too long.
    let mut figures = Figures::<{ ZONES_MOST + 1 }>::new();
    let used = locals.len().min(ZONES_MOST + 1);
    // As in `account`; a line is a list.
    #[rustfmt::skip]
    let number = unsafe {
        raw::dca_float_report(
            n,
            values.as_ptr(), values.len(),
            weights.as_ptr(), weights.len(),
            classes.as_ptr(), classes.len(),
            globals.floats.as_mut_ptr(), globals.floats.len(),
            globals.sides.as_mut_ptr(), globals.sides.len(),
            figures.floats.as_mut_ptr(), used,
            figures.sides.as_mut_ptr(), used,
            pairs.floats.as_mut_ptr(), pairs.floats.len(),
            pairs.sides.as_mut_ptr(), pairs.sides.len(),
            has_pair.as_mut_ptr(), has_pair.len(),
        )
    };
    Refusal::of(number)?;
    for (zone, local) in locals.iter_mut().enumerate() {
        *local = figures.at(zone);
    }
    Ok(FloatReport {
        globals: globals.pair(0),
        classes: std::array::from_fn(|k| (has_pair[k] == 1).then(|| pairs.pair(k))),
    })
}

/// The 64-bit float nearest to p over q, at a tie the one with an even mantissa, and its side; 0 over q is +0.
///
/// `p` is at most 6×10^18 in size, `q` 1 to 6×10^18.
///
/// # Errors
///
/// 18.
pub fn nearest(p: i64, q: i64) -> Result<Rounded, Refusal> {
    let mut figure = Figures::<1>::new();
    let Figures { floats, sides } = &mut figure;
    // As in `account`.
    Refusal::of(unsafe { raw::dca_nearest(p, q, floats.as_mut_ptr(), floats.len(), sides.as_mut_ptr(), sides.len()) })?;
    Ok(figure.at(0))
}

/// The zones kept by falling L(i), equal ones by falling row sum, the sum over j of the w(i,j) that count, then by rising zone number; behind
/// them those left out by rising zone number. Into `zones`, which has n entries.
///
/// `n`, `values` and `weights` as [`account`].
///
/// # Errors
///
/// 1 2 3 4 5 6 7: the least that applies; `zones` is then as it was.
pub fn hot_list(n: usize, values: &[i32], weights: &[u8], zones: &mut [u8]) -> Result<(), Refusal> {
    // As in `account`.
    Refusal::of(unsafe {
        raw::dca_hot_list(
            n,
            values.as_ptr(),
            values.len(),
            weights.as_ptr(),
            weights.len(),
            zones.as_mut_ptr(),
            zones.len(),
        )
    })
}

/// The rank of the job's P among shuffles of the values of the zones kept, for each of the desks that contribute them: the counts of desk 0,
/// then of 1, 2 and 3.
///
/// `n`, `values` and `weights` as [`account`]; `shuffles` has 0 to 499 whole rows of n, each with each zone once, also those left out. The
/// numbers of zones left out are struck from a row; the i-th zone kept takes the value of the zone that the i-th number left names. `desks`
/// has the desk of each row, 0 to 3. Rows of other desks have no part in a desk's counts; a desk that has no row has none.
///
/// # Errors
///
/// 1 2 3 4 5 6 7 13 24: the least that applies; 2 too where `shuffles` is not 0 to 499 whole rows, or `desks` has not an entry for each.
pub fn rank(n: usize, values: &[i32], weights: &[u8], shuffles: &[u8], desks: &[u8]) -> Result<[Counts; DESKS], Refusal> {
    let mut counts = [0; 3 * DESKS];
    // As in `account`.
    Refusal::of(unsafe {
        raw::dca_rank(
            n,
            values.as_ptr(),
            values.len(),
            weights.as_ptr(),
            weights.len(),
            shuffles.as_ptr(),
            shuffles.len(),
            desks.as_ptr(),
            desks.len(),
            counts.as_mut_ptr(),
            counts.len(),
        )
    })?;
    Ok(std::array::from_fn(|desk| Counts {
        less: counts[3 * desk],
        equal: counts[3 * desk + 1],
        greater: counts[3 * desk + 2],
    }))
}

/// The join table: T(r,s), the weight from category r to category s, at 8 × r + s of `table`. Weights of a zone whose value is not returned
/// count as 0.
///
/// `n`, `values` and `weights` as [`account`], but the values may be equal and W may be 0; `categories` has n entries, 0 to 7.
///
/// # Errors
///
/// 1 2 3 4 5 8: the least that applies; `table` is then as it was.
pub fn join_table(n: usize, values: &[i32], categories: &[u8], weights: &[u8], table: &mut [i64; JOIN_TABLE]) -> Result<(), Refusal> {
    // As in `account`.
    Refusal::of(unsafe {
        raw::dca_join_table(
            n,
            values.as_ptr(),
            values.len(),
            categories.as_ptr(),
            categories.len(),
            weights.as_ptr(),
            weights.len(),
            table.as_mut_ptr(),
            table.len(),
        )
    })
}
