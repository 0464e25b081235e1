//! Faulty archives: stand-ins for proved calls, which make the call and then spoil something. With any of them the comparison must find
//! a difference; so the guards, the lists that are only read and those of a refused call are seen to be looked at.
//!
//! Each function is given what the real call answered and what it spoils of the arguments, and answers what the stand-in does.

use super::left_out::parted;
use super::lent::{Entry, Lent};
use super::ties::tied_by;
use differential::NOT_RETURNED;
use std::cmp::Reverse;

/// The names that `--faulty` takes, and what is wrong.
pub const NAMES: [(&str, &str); 37] = [
    ("beyond-end", "account: an entry is stored beyond the sums"),
    ("count-of-all", "account: the zones kept are all zones"),
    (
        "missing-as-left-out",
        "account: the last sum counts all zones left out",
    ),
    (
        "stored-then-refused",
        "class account: a local numerator is stored, then a class refused",
    ),
    (
        "weightless-zeros",
        "float report: a class without weight gets 0 0",
    ),
    (
        "payload-lost",
        "float report: a NaN of a class without weight loses its payload",
    ),
    (
        "side-of-weightless",
        "float report: a class without weight gets the sides 0 0",
    ),
    (
        "figures-quieted",
        "float report: a refused call quiets the NaNs among the local figures",
    ),
    (
        "sides-on-refusal",
        "float report: a refused call stores the sides of the job's figures",
    ),
    (
        "minus-zero",
        "float report: the local figure of a zone left out is -0",
    ),
    (
        "left-out-side-kept",
        "float report: no side is stored at a zone left out",
    ),
    (
        "nan-quieted",
        "nearest: a refused call quiets the NaN that was lent",
    ),
    (
        "nan-negated",
        "nearest: a refused call flips the sign of the NaN that was lent",
    ),
    ("side-anyway", "nearest: a refused call stores a side"),
    ("beyond-side", "nearest: an entry is stored beyond the side"),
    ("values-sorted", "hot list: the lent values get sorted"),
    (
        "left-out-falling",
        "hot list: the zones left out come by falling number",
    ),
    (
        "left-out-by-weight",
        "hot list: the zones left out come by row sum of the weights as lent",
    ),
    (
        "former-ties",
        "hot list: equal zones by rising number alone",
    ),
    (
        "weights-reduced",
        "rank: the lent weights of a zone not returned become 0",
    ),
    ("desks-sorted", "rank: the lent desks get sorted"),
    ("desk-as-13", "rank: a desk above 3 is refused with 13"),
    (
        "greater-first",
        "rank: the counts of a desk are greater, equal and less",
    ),
    (
        "former-counts",
        "rank: the counts of all rows are stored as desk 0's, and no others",
    ),
    (
        "beyond-counts",
        "rank: an entry is stored beyond the counts",
    ),
    (
        "counted-then-refused",
        "rank: a count is stored, then a desk refused",
    ),
    (
        "counts-cleared",
        "rank: a refused call stores zeros as the counts",
    ),
    (
        "diagonal-as-four",
        "join table: a weight on the diagonal is refused with 4",
    ),
    (
        "before-start",
        "gabriel: an entry is stored before the weights",
    ),
    ("refused-at-64", "queen: 64 zones are refused"),
    (
        "unused-changed",
        "read: the byte behind the used shuffles is changed",
    ),
    (
        "mark-as-zero",
        "read: the mark of a value not returned is stored as 0",
    ),
    (
        "joins-reduced",
        "read: a join at a zone not returned is stored as weight 0",
    ),
    (
        "length-anyway",
        "write: the length is stored though the output is too short",
    ),
    ("zero-behind", "report: a 0 is stored behind the text"),
    (
        "refused-line",
        "report: the text says the number of a refused image too",
    ),
    (
        "refused-length",
        "report: the length is stored though the image is refused",
    ),
];

/// Stores another entry at a place, counted from the list's start.
fn spoil<T: Entry>(list: &mut Lent<T>, place: isize) {
    let entry = list.proved_entry(place);
    *entry = T::of_bits(!entry.bits());
}

pub fn beyond_end<T: Entry>(number: u8, list: &mut Lent<T>) -> u8 {
    let end = list.len() as isize;
    if number == 0 {
        spoil(list, end);
    }
    number
}

pub fn count_of_all(number: u8, n: usize, sums: &mut Lent<i64>) -> u8 {
    if number == 0 {
        *sums.proved_entry(5) = n as i64;
    }
    number
}

pub fn missing_as_left_out(number: u8, n: usize, sums: &mut Lent<i64>) -> u8 {
    if number == 0 {
        *sums.proved_entry(6) = n as i64 - *sums.proved_entry(5);
    }
    number
}

pub fn stored_then_refused(number: u8, class_locals: &mut Lent<i64>) -> u8 {
    if number == 9 {
        spoil(class_locals, 0);
    }
    number
}

/// Changes the two entries of each class without weight.
fn spoil_weightless<T: Entry>(pairs: &mut Lent<T>, has_pair: &mut Lent<u8>, spoil: fn(&mut T)) {
    for class in 0..has_pair.len() as isize {
        if *has_pair.proved_entry(class) == 0 {
            spoil(pairs.proved_entry(2 * class));
            spoil(pairs.proved_entry(2 * class + 1));
        }
    }
}

pub fn weightless_zeros(number: u8, pairs: &mut Lent<f64>, has_pair: &mut Lent<u8>) -> u8 {
    if number == 0 {
        spoil_weightless(pairs, has_pair, |entry| *entry = 0.0);
    }
    number
}

pub fn side_of_weightless(number: u8, sides: &mut Lent<u8>, has_pair: &mut Lent<u8>) -> u8 {
    if number == 0 {
        spoil_weightless(sides, has_pair, |entry| *entry = 0);
    }
    number
}

// NaNs are changed by their bits: how one passes through arithmetic is not said.
const SIGN: u64 = 1 << 63;
const QUIET: u64 = 0x7FF8_0000_0000_0000;

fn change_nan(entry: &mut f64, bits: fn(u64) -> u64) {
    if entry.is_nan() {
        *entry = f64::from_bits(bits(entry.to_bits()));
    }
}

pub fn payload_lost(number: u8, pairs: &mut Lent<f64>, has_pair: &mut Lent<u8>) -> u8 {
    if number == 0 {
        let lose = |entry: &mut f64| change_nan(entry, |bits| bits & SIGN | QUIET);
        spoil_weightless(pairs, has_pair, lose);
    }
    number
}

pub fn figures_quieted(number: u8, locals: &mut Lent<f64>) -> u8 {
    if number != 0 {
        let figures = locals.proved_list().iter_mut();
        figures.for_each(|entry| change_nan(entry, |bits| bits | QUIET));
    }
    number
}

pub fn minus_zero(
    number: u8,
    values: &mut Lent<i32>,
    weights: &mut Lent<u8>,
    locals: &mut Lent<f64>,
) -> u8 {
    if number == 0 {
        let (_, left_out) = parted(values.own(), weights.own());
        for zone in left_out {
            *locals.proved_entry(zone as isize) = -0.0;
        }
    }
    number
}

pub fn left_out_side_kept(
    number: u8,
    values: &mut Lent<i32>,
    weights: &mut Lent<u8>,
    sides: &mut Lent<u8>,
) -> u8 {
    if number == 0 {
        let (_, left_out) = parted(values.own(), weights.own());
        for zone in left_out {
            *sides.proved_entry(zone as isize) = sides.before()[zone];
        }
    }
    number
}

pub fn sides_on_refusal(number: u8, sides: &mut Lent<u8>) -> u8 {
    if number != 0 {
        sides.proved_list().fill(0);
    }
    number
}

pub fn side_anyway(number: u8, p: i64, side: &mut Lent<u8>) -> u8 {
    if number == 18 {
        *side.proved_entry(0) = u8::from(p != 0);
    }
    number
}

pub fn nan_quieted(number: u8, out: &mut Lent<f64>) -> u8 {
    if number == 18 {
        change_nan(out.proved_entry(0), |bits| bits | QUIET);
    }
    number
}

pub fn nan_negated(number: u8, out: &mut Lent<f64>) -> u8 {
    if number == 18 {
        change_nan(out.proved_entry(0), |bits| bits ^ SIGN);
    }
    number
}

pub fn values_sorted(number: u8, values: &mut Lent<i32>) -> u8 {
    if number == 0 {
        values.proved_list().sort_unstable();
    }
    number
}

pub fn left_out_falling(
    number: u8,
    values: &mut Lent<i32>,
    weights: &mut Lent<u8>,
    zones: &mut Lent<u8>,
) -> u8 {
    if number == 0 {
        let (kept, _) = parted(values.own(), weights.own());
        zones.proved_list()[kept.len()..].reverse();
    }
    number
}

/// The row sum of a zone, by the weights as they are lent.
fn row_sum(weights: &[u8], n: usize, zone: u8) -> u32 {
    let row = &weights[usize::from(zone) * n..][..n];
    row.iter().map(|&w| u32::from(w)).sum()
}

pub fn left_out_by_weight(
    number: u8,
    values: &mut Lent<i32>,
    weights: &mut Lent<u8>,
    zones: &mut Lent<u8>,
) -> u8 {
    if number == 0 {
        let (kept, _) = parted(values.own(), weights.own());
        let left_out = &mut zones.proved_list()[kept.len()..];
        left_out.sort_by_key(|&zone| Reverse(row_sum(weights.own(), values.len(), zone)));
    }
    number
}

/// As before request A.2.
pub fn former_ties(
    number: u8,
    values: &mut Lent<i32>,
    weights: &mut Lent<u8>,
    zones: &mut Lent<u8>,
) -> u8 {
    if number == 0 {
        tied_by(values.own(), weights.own(), zones.proved_list(), |z| z.zone);
    }
    number
}

/// Clears the rows and the columns of the zones not returned.
fn reduce(values: &[i32], weights: &mut [u8]) {
    let n = values.len();
    let missing = |zone: usize| values[zone] == NOT_RETURNED;
    for (place, w) in weights.iter_mut().enumerate() {
        if missing(place / n) || missing(place % n) {
            *w = 0;
        }
    }
}

pub fn weights_reduced(number: u8, values: &mut Lent<i32>, weights: &mut Lent<u8>) -> u8 {
    if number == 0 {
        reduce(values.own(), weights.proved_list());
    }
    number
}

pub fn desks_sorted(number: u8, desks: &mut Lent<u8>) -> u8 {
    if number == 0 {
        desks.proved_list().sort_unstable();
    }
    number
}

pub fn desk_as_13(number: u8) -> u8 {
    if number == 24 {
        13
    } else {
        number
    }
}

pub fn greater_first(number: u8, counts: &mut Lent<u64>) -> u8 {
    if number == 0 {
        let desks = counts.proved_list().chunks_exact_mut(3);
        desks.for_each(|counts| counts.swap(0, 2));
    }
    number
}

/// As before request A.9.
pub fn former_counts(number: u8, counts: &mut Lent<u64>) -> u8 {
    if number == 0 {
        let before = counts.before()[3..].to_vec();
        let (of_all, others) = counts.proved_list().split_at_mut(3);
        for (place, count) in others.iter().enumerate() {
            of_all[place % 3] += count;
        }
        others.copy_from_slice(&before);
    }
    number
}

pub fn counted_then_refused(number: u8, counts: &mut Lent<u64>) -> u8 {
    if number == 24 {
        spoil(counts, 0);
    }
    number
}

pub fn counts_cleared(number: u8, counts: &mut Lent<u64>) -> u8 {
    if number != 0 {
        counts.proved_list().fill(0);
    }
    number
}

pub fn diagonal_as_four(number: u8) -> u8 {
    if number == 5 {
        4
    } else {
        number
    }
}

pub fn before_start(number: u8, weights: &mut Lent<u8>) -> u8 {
    if number == 0 {
        spoil(weights, -1);
    }
    number
}

pub fn refused_at_64(number: u8, rows: usize, columns: usize) -> u8 {
    if number == 0 && rows * columns == 64 {
        1
    } else {
        number
    }
}

pub fn unused_changed(number: u8, shuffles: &mut Lent<u8>, counts: &mut Lent<u64>) -> u8 {
    if number == 0 {
        let used = *counts.proved_entry(0) * *counts.proved_entry(5);
        if used < shuffles.len() as u64 {
            spoil(shuffles, used as isize);
        }
    }
    number
}

pub fn mark_as_zero(number: u8, values: &mut Lent<i32>, counts: &mut Lent<u64>) -> u8 {
    if number == 0 {
        let n = *counts.proved_entry(0) as usize;
        let marked = values.proved_list()[..n].iter_mut();
        let marked = marked.filter(|x| **x == NOT_RETURNED);
        marked.for_each(|x| *x = 0);
    }
    number
}

pub fn joins_reduced(
    number: u8,
    values: &mut Lent<i32>,
    weights: &mut Lent<u8>,
    counts: &mut Lent<u64>,
) -> u8 {
    if number == 0 {
        let n = *counts.proved_entry(0) as usize;
        let used = &mut weights.proved_list()[..n * n];
        reduce(&values.proved_list()[..n], used);
    }
    number
}

pub fn length_anyway(number: u8, length: &mut Lent<u64>) -> u8 {
    if number == 19 {
        spoil(length, 0);
    }
    number
}

pub fn zero_behind(number: u8, text: &mut Lent<u8>, length: &mut Lent<u64>) -> u8 {
    if number == 0 {
        let end = *length.proved_entry(0);
        if end < text.len() as u64 {
            *text.proved_entry(end as isize) = 0;
        }
    }
    number
}

/// Whether this is the number of a refused image: 2 is that of a list's length.
fn is_of_image(number: u8) -> bool {
    number != 0 && number != 2
}

pub fn refused_line(number: u8, text: &mut Lent<u8>) -> u8 {
    if is_of_image(number) {
        let line = format!("refused {number}\n");
        text.proved_list()[..line.len()].copy_from_slice(line.as_bytes());
    }
    number
}

pub fn refused_length(number: u8, length: &mut Lent<u64>) -> u8 {
    if is_of_image(number) {
        *length.proved_entry(0) = 0;
    }
    number
}
