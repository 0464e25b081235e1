//! Ties are told rightly, and a run that lacks one says so.

use super::{ties, ties_of_image, NONE, TIES};
use crate::compare::{draw, left_out, sample, Tally};

/// What a job of zones at the mean shows besides one below it and one above, whose own L differ.
fn tied(joins: &[(usize, usize, u8)], missing: Option<usize>) -> Vec<&'static str> {
    let mut values = [0, 0, 0, 0, -1, 1];
    let mut weights = [0; 36];
    for &(from, to, weight) in [(4, 5, 1), (5, 4, 2)].iter().chain(joins) {
        weights[6 * from + to] = weight;
    }
    if let Some(zone) = missing {
        values[zone] = i32::MIN;
    }
    let are = TIES.iter().zip(ties(&values, &weights));
    are.filter(|&(_, is)| is).map(|(&tie, _)| tie).collect()
}

#[test]
fn ties_of_jobs() {
    let [by_row, against, by_number, column, both, lent] = TIES;
    let none: [&str; 0] = [];
    assert_eq!(tied(&[(0, 4, 1)], None), none);
    assert_eq!(tied(&[(0, 4, 3), (1, 4, 1)], None), [by_row]);
    assert_eq!(tied(&[(0, 4, 1), (1, 4, 3)], None), [by_row, against]);
    assert_eq!(tied(&[(0, 4, 3), (1, 4, 3)], None), [by_number]);
    let columns = [(0, 4, 1), (1, 4, 1), (4, 1, 2)];
    assert_eq!(tied(&columns, None), [by_number, column, both]);
    let columns = [(0, 4, 9), (1, 4, 1), (4, 1, 2)];
    assert_eq!(tied(&columns, None), [by_row, column]);
    let missing = [(0, 4, 2), (1, 4, 1), (1, 3, 9)];
    assert_eq!(tied(&missing, Some(3)), [by_row, lent]);
    // Zone 3, which touches nobody, is not among those that tie.
    assert_eq!(tied(&[(0, 4, 2)], Some(3)), none);
}

/// No job without weight, and none in an image that is cut.
#[test]
fn no_ties_of_refused_jobs() {
    assert_eq!(ties(&[0, 0], &[0; 4]), NONE);
    assert_eq!(ties(&[0, 0, 1], &[0; 4]), NONE);
    assert_eq!(ties_of_image(&sample()[..91]), NONE);
}

/// Three zones by their image, of which the first and the last have one L, and the middle, at the mean, has another.
#[test]
fn ties_of_images() {
    let image = |joins: &[[u8; 3]]| {
        let sections = draw::Sections {
            n: 3,
            values: vec![-1, 0, 1],
            categories: Vec::new(),
            weights: Vec::new(),
            joins: joins.to_vec(),
            places: Vec::new(),
            bands: Vec::new(),
            shuffles: Vec::new(),
            kinds: left_out::NONE,
        };
        sections.encode(sections.counts())
    };
    let [by_row, against, by_number, ..] = ties_of_image(&image(&[[0, 2, 1], [2, 0, 1]]));
    assert!(by_number && !by_row && !against);
    let joins = [[0, 2, 1], [1, 0, 1], [2, 0, 1], [2, 1, 5]];
    let [by_row, against, by_number, ..] = ties_of_image(&image(&joins));
    assert!(by_row && against && !by_number);
}

#[test]
fn a_tie_that_lacks() {
    let lacks = |tally: &Tally, call: &str| {
        let fault = format!("{call}: a tie where {} came", TIES[0]);
        tally.faults().iter().any(|said| said.starts_with(&fault))
    };
    let mut tally = Tally::default();
    let mut one = NONE;
    one[0] = true;
    for _ in 0..20 {
        assert!(lacks(&tally, "dca_hot_list"));
        tally.add_ties("dca_hot_list", 6, &one);
        tally.add_ties("dca_hot_list", 0, &one);
        tally.add_ties("dca_account", 0, &one);
    }
    assert!(!lacks(&tally, "dca_hot_list") && lacks(&tally, "dca_report"));
}
