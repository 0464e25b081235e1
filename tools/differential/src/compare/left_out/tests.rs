//! The kinds of a job are told rightly, and a run that lacks one says so.

use super::{kinds, KINDS, NONE};
use crate::compare::Tally;

/// The names of the kinds that a job is of; its joins have weight 1.
fn names(values: &[i32], joins: &[(usize, usize)]) -> Vec<&'static str> {
    let n = values.len();
    let mut weights = vec![0; n * n];
    for &(from, to) in joins {
        weights[from * n + to] = 1;
    }
    let is = kinds(values, &weights);
    let of = KINDS.iter().zip(is).filter(|&(_, is)| is);
    of.map(|(&(name, _), _)| name).collect()
}

#[test]
fn kinds_of_jobs() {
    let ring = [(0, 1), (1, 0), (1, 2), (2, 1)];
    assert_eq!(names(&[1, 2, 6], &ring), ["all kept"]);
    assert_eq!(
        names(&[1, 2, 6, 9], &ring),
        ["one left out", "the last left out"]
    );
    let pair = [(1, 2), (2, 1)];
    assert_eq!(
        names(&[9, 0, 1, 9, 9], &pair),
        [
            "the first left out",
            "the last left out",
            "all but two left out"
        ]
    );
    assert_eq!(
        names(&[1, 2, 6, 9, 9], &ring),
        ["the last left out", "several left out"]
    );
    let one_way = [(0, 1)];
    assert_eq!(
        names(&[0, 1], &one_way),
        [
            "all kept",
            "weight in a column alone",
            "weight in a row alone"
        ]
    );
}

#[test]
fn kinds_of_refusals() {
    let pair = [(0, 1), (1, 0)];
    let left_out = ["one left out", "the last left out"];
    let with = |kind| [&left_out[..], &[kind]].concat();
    let equal = "kept values equal, not all";
    assert_eq!(names(&[5, 5, 5], &pair), left_out);
    assert_eq!(names(&[5, 5, 9], &pair), with(equal));
    assert_eq!(names(&[5, 6, 100_001], &pair), with("a bad value left out"));
    assert_eq!(names(&[100_001, 6, -100_001], &pair), left_out);
}

#[test]
fn kinds_of_values_not_returned() {
    const NONE: i32 = i32::MIN;
    let ring = [(0, 1), (1, 0), (1, 2), (2, 1)];
    let last = ["one left out", "the last left out", "some not returned"];
    assert_eq!(
        names(&[1, 2, 6, NONE], &ring),
        [&last[..], &["not returned, touching nobody"]].concat()
    );
    let line = [(0, 1), (1, 2), (2, 3), (3, 4)];
    assert_eq!(
        names(&[1, 2, 6, NONE, 5], &line),
        [
            "the last left out",
            "several left out",
            "weight in a column alone",
            "weight in a row alone",
            "some not returned",
            "a neighbour left alone"
        ]
    );
    let is_of = |values: &[i32], kind: &str| names(values, &ring).contains(&kind);
    assert!(is_of(&[NONE; 3], "none returned"));
    assert!(!is_of(&[NONE; 3], "nothing left of the weights"));
    assert!(is_of(&[1, NONE, 2], "nothing left of the weights"));
    assert!(is_of(&[5, 5, NONE], "kept values equal, not all"));
    assert!(!is_of(&[5, 6, NONE], "a bad value left out"));
}

#[test]
fn kinds_of_weights_not_returned() {
    let values = [1, 2, i32::MIN];
    let [.., too_large, diagonal] = kinds(&values, &[0, 9, 10, 1, 0, 0, 0, 255, 0]);
    assert!(too_large && !diagonal);
    let [.., too_large, diagonal] = kinds(&values, &[0, 9, 10, 10, 0, 0, 0, 0, 0]);
    assert!(!too_large && !diagonal);
    let [.., too_large, diagonal] = kinds(&values, &[0, 9, 0, 1, 0, 0, 0, 0, 1]);
    assert!(!too_large && diagonal);
    let [.., too_large, diagonal] = kinds(&values, &[1, 9, 0, 1, 0, 0, 0, 0, 1]);
    assert!(!too_large && !diagonal);
}

#[test]
fn a_kind_that_lacks() {
    let lacks = |tally: &Tally, kind: &str| {
        let fault = format!("dca_account: {kind} came");
        tally.faults().iter().any(|said| said.starts_with(&fault))
    };
    let mut tally = Tally::default();
    let mut one = NONE;
    one[1] = true;
    for _ in 0..20 {
        assert!(lacks(&tally, "one left out"));
        tally.add("dca_account", 7, &one);
        tally.add("dca_account", 0, &one);
    }
    assert!(!lacks(&tally, "one left out"));
    assert!(lacks(&tally, "all kept"));
}

/// What others refuse with 6 and 7, the join table takes.
#[test]
fn kinds_of_the_join_table() {
    let faults = |number: u8| {
        let mut tally = Tally::default();
        for _ in 0..20 {
            tally.add("dca_join_table", number, &[true; KINDS.len()]);
        }
        tally.faults()
    };
    for (kind, of) in KINDS {
        let fault = format!("dca_join_table: {kind} came 0 times only");
        let taken = [0, 6, 7].contains(&of);
        assert_eq!(!faults(0).contains(&fault), taken, "{kind}");
    }
}
