//! The kinds of desks are told rightly, and a run that lacks one says so.

use super::{kinds, DESK_KINDS, NONE};
use crate::compare::Tally;

/// The names of the kinds that desks of rows of three zones are of.
fn names(rows: &[[u8; 3]], desks: &[u8]) -> Vec<&'static str> {
    let is = kinds(3, rows.as_flattened(), desks);
    let of = DESK_KINDS.iter().zip(is).filter(|&(_, is)| is);
    of.map(|(&(name, _), _)| name).collect()
}

const ROW: [u8; 3] = [2, 0, 1];
const LACKING: [u8; 3] = [2, 0, 2];
const NO_NAMES: [&str; 0] = [];

#[test]
fn desks_that_fit() {
    let [none, first, other, several, every, turns, most, ..] = DESK_KINDS.map(|(name, _)| name);
    assert_eq!(names(&[], &[]), [none]);
    assert_eq!(names(&[ROW; 2], &[0, 0]), [first]);
    assert_eq!(names(&[ROW; 2], &[3, 3]), [other]);
    assert_eq!(names(&[ROW; 3], &[0, 2, 0]), [several]);
    assert_eq!(names(&[ROW; 5], &[3, 2, 1, 0, 0]), [every]);
    assert_eq!(names(&[ROW; 5], &[0, 1, 2, 3, 0]), [every, turns]);
    let desks: Vec<u8> = (0..499).map(|row| row as u8 % 2).collect();
    assert_eq!(names(&[ROW; 499], &desks), [several, most]);
    assert_eq!(names(&[ROW; 498], &desks[1..]), [several]);
    assert_eq!(names(&[ROW; 499], &[1; 499]), [other]);
}

#[test]
fn desks_above_3() {
    let [first, four, above, last, lacks] = [1, 7, 8, 9, 10].map(|kind| DESK_KINDS[kind].0);
    assert_eq!(names(&[ROW; 2], &[4, 4]), [four]);
    assert_eq!(names(&[ROW; 2], &[4, 0]), [first, four]);
    assert_eq!(names(&[ROW; 2], &[0, 4]), [first, four, last]);
    assert_eq!(names(&[ROW; 2], &[0, 255]), [first, above, last]);
    assert_eq!(names(&[ROW], &[5]), [above]);
    assert_eq!(names(&[ROW, LACKING], &[5, 4]), [above, lacks]);
    assert_eq!(names(&[ROW, LACKING], &[0, 0]), [first]);
}

#[test]
fn desks_of_other_lengths() {
    let [less, more, without, each] = [11, 12, 13, 14].map(|kind| DESK_KINDS[kind].0);
    assert_eq!(names(&[ROW; 3], &[0, 0]), [less]);
    assert_eq!(names(&[ROW; 3], &[0; 4]), [more]);
    assert_eq!(names(&[], &[4]), [more]);
    assert_eq!(names(&[ROW; 3], &[]), [without]);
    assert_eq!(names(&[ROW], &[]), [less, without]);
    assert_eq!(names(&[ROW; 3], &[0; 9]), [each]);
    assert_eq!(names(&[ROW; 3], &[0; 7]), NO_NAMES);
}

/// Rows that are not whole, too many, or of no zones.
#[test]
fn no_kinds_of_other_rows() {
    assert_eq!(kinds(3, &[0, 1, 2, 0], &[0]), NONE);
    assert_eq!(kinds(2, &[0, 1].repeat(500), &[0; 499]), NONE);
    assert_eq!(kinds(0, &[], &[]), NONE);
    assert_eq!(kinds(65, &[], &[]), NONE);
}

#[test]
fn a_kind_that_lacks() {
    let (kind, number) = DESK_KINDS[10];
    let lacks = |tally: &Tally| {
        let fault = format!("dca_rank: {kind} came");
        tally.faults().iter().any(|said| said.starts_with(&fault))
    };
    let mut tally = Tally::default();
    let mut one = NONE;
    one[10] = true;
    for _ in 0..20 {
        assert!(lacks(&tally));
        tally.add_desks(24, &one);
        tally.add_desks(number, &one);
    }
    assert!(!lacks(&tally));
}
