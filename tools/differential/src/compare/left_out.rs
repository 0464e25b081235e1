//! Requests A.6 and A.7 in the inputs: the zones of a job that are left out, and what of them must be tried.

use differential::NOT_RETURNED;

#[cfg(test)]
mod tests;

/// The zones kept and those left out, both rising. A zone is kept if some weight joins it to another and the values of both are returned.
pub fn parted(values: &[i32], weights: &[u8]) -> (Vec<usize>, Vec<usize>) {
    let n = values.len();
    let returned: Vec<bool> = values.iter().map(|&x| x != NOT_RETURNED).collect();
    let touch = |i: usize, j: usize| weights[i * n + j] > 0 || weights[j * n + i] > 0;
    (0..n).partition(|&i| returned[i] && (0..n).any(|j| returned[j] && touch(i, j)))
}

/// What a job can show, and the number that it must get to count as tried.
pub const KINDS: [(&str, u8); 17] = [
    ("all kept", 0),
    ("one left out", 0),
    ("the first left out", 0),
    ("the last left out", 0),
    ("several left out", 0),
    ("all but two left out", 0),
    ("weight in a column alone", 0),
    ("weight in a row alone", 0),
    ("a bad value left out", 3),
    ("kept values equal, not all", 7),
    ("some not returned", 0),
    ("a neighbour left alone", 0),
    ("not returned, touching nobody", 0),
    ("none returned", 6),
    ("nothing left of the weights", 6),
    ("a weight too large, of one not returned", 4),
    ("a diagonal weight, of one not returned", 5),
];

/// The first of these are request A.6's, the others request A.7's.
const KINDS_OF_KEPT: usize = 10;

/// Which of the kinds a job is of.
pub type Kinds = [bool; KINDS.len()];

/// Those of an input that is no job, or a spoiled one.
pub const NONE: Kinds = [false; KINDS.len()];

pub fn kinds(values: &[i32], weights: &[u8]) -> Kinds {
    let (kept, left_out) = parted(values, weights);
    let mut kinds = NONE;
    let (of_kept, of_returned) = kinds.split_at_mut(KINDS_OF_KEPT);
    of_kept.copy_from_slice(&kinds_of_kept(values, weights, &kept, &left_out));
    of_returned.copy_from_slice(&kinds_of_returned(values, weights, &kept));
    kinds
}

fn kinds_of_kept(
    values: &[i32],
    weights: &[u8],
    kept: &[usize],
    left_out: &[usize],
) -> [bool; KINDS_OF_KEPT] {
    let n = values.len();
    let row = |i: usize| kept.iter().any(|&j| weights[i * n + j] > 0);
    let column = |i: usize| kept.iter().any(|&j| weights[j * n + i] > 0);
    let is_bad = |&i: &usize| values[i].unsigned_abs() > 100_000 && values[i] != NOT_RETURNED;
    let is_other = |&i: &usize| {
        kept.first()
            .is_some_and(|&first| values[i] != values[first])
    };
    [
        left_out.is_empty(),
        left_out.len() == 1,
        left_out.first() == Some(&0),
        left_out.last().is_some_and(|last| last + 1 == n),
        left_out.len() >= 2 && kept.len() > 2,
        left_out.len() >= 2 && kept.len() == 2,
        kept.iter().any(|&i| !row(i)),
        kept.iter().any(|&i| !column(i)),
        left_out.iter().any(is_bad) && !kept.iter().any(is_bad),
        left_out.iter().any(is_other) && !kept.iter().any(is_other),
    ]
}

fn kinds_of_returned(
    values: &[i32],
    weights: &[u8],
    kept: &[usize],
) -> [bool; KINDS.len() - KINDS_OF_KEPT] {
    let n = values.len();
    let (missing, returned): (Vec<usize>, Vec<usize>) =
        (0..n).partition(|&i| values[i] == NOT_RETURNED);
    if missing.is_empty() {
        return [false; _];
    }
    let touch = |i: usize, j: usize| weights[i * n + j] > 0 || weights[j * n + i] > 0;
    let touches = |i: &usize| (0..n).any(|j| touch(*i, j));
    let nothing_left = kept.is_empty() && (0..n).any(|i| touches(&i));
    let too_large = |place: &usize| weights[*place] > 9;
    let on_diagonal = |place: &usize| weights[*place] > 0 && place / n == place % n;
    let of_missing = |place: usize| [place / n, place % n].iter().any(|i| missing.contains(i));
    [
        true,
        returned.iter().any(|i| touches(i) && !kept.contains(i)),
        !missing.iter().all(touches),
        nothing_left && returned.is_empty(),
        nothing_left && !returned.is_empty(),
        some_and_all((0..n * n).filter(too_large), of_missing),
        some_and_all((0..n * n).filter(on_diagonal), of_missing),
    ]
}

/// Whether there are such places, and all are so.
fn some_and_all(places: impl Iterator<Item = usize> + Clone, are: impl Fn(usize) -> bool) -> bool {
    places.clone().next().is_some() && places.clone().all(are)
}
