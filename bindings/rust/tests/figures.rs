//! Document 01's figures at the edges, as request A.6 changed them, ties, values not returned, the sides of floats, ranks by desk, the
//! refusals, and that a refused call leaves what it was lent as it was.

use dca::{Buffers, Counts, Given, Move, Pair, Refusal, Rounded, Sections, Side};

/// A line of three zones, weight 1.
const LINE: [u8; 9] = [0, 1, 0, 1, 0, 1, 0, 1, 0];
/// The job of "A whole report". Its last zone touches nobody.
const VALUES: [i32; 4] = [1, 1, 3, 3];
const WEIGHTS: [u8; 16] = [0, 3, 0, 0, 3, 0, 1, 0, 0, 1, 0, 0, 0, 0, 0, 0];
const PLACES: [i32; 8] = [0, 0, 1, 0, 3, 0, 9, 9];
const SHUFFLES: [u8; 8] = [0, 1, 2, 3, 2, 1, 0, 3];
const GIVEN: Given = Given {
    values: 4,
    categories: 4,
    places: 4,
    bands: 2,
    shuffles: 2,
};
/// The worked report, which samples/ keeps.
const REPORT: &str = include_str!("../../../samples/report.report");

/// Of the worked image: the place of a byte, what it is changed to, the refusal.
const WRONG_BYTES: [(usize, u8, Refusal); 13] = [
    (0, 1, Refusal::ZONES),
    (5, 255, Refusal::VALUE),
    (18, 3, Refusal::COUNT),
    (20, 8, Refusal::CATEGORY),
    (26, 4, Refusal::JOINS),
    (27, 0, Refusal::DIAGONAL),
    (28, 10, Refusal::WEIGHT),
    (28, 0, Refusal::WEIGHT),
    (43, 1, Refusal::COORDINATE),
    (48, 0, Refusal::ONE_PLACE),
    (72, 9, Refusal::BANDS),
    (78, 1, Refusal::BANDS),
    (84, 3, Refusal::SHUFFLE),
];

/// All weights 1 but those of the diagonal.
fn complete(n: usize) -> Vec<u8> {
    (0..n * n).map(|k| u8::from(k % (n + 1) != 0)).collect()
}

fn rising(n: usize) -> Vec<i32> {
    (0..n as i32).collect()
}

/// A float that equals its ratio.
fn exact(float: f64) -> Rounded {
    let side = Side::Equal;
    Rounded { float, side }
}

fn exact_pair(moran: f64, geary: f64) -> Pair {
    let (moran, geary) = (exact(moran), exact(geary));
    Pair { moran, geary }
}

/// What is lent for local figures; no job here has it.
const NO_FIGURE: Rounded = Rounded {
    float: 9.0,
    side: Side::Above,
};

fn counts(less: u64, equal: u64, greater: u64) -> Counts {
    Counts { less, equal, greater }
}

/// The counts where desk 0 has all the rows.
fn of_desk_0(less: u64, equal: u64, greater: u64) -> [Counts; dca::DESKS] {
    let none = counts(0, 0, 0);
    [counts(less, equal, greater), none, none, none]
}

fn refused(n: usize, values: &[i32], weights: &[u8]) -> u8 {
    let mut locals = vec![-7; n.min(100)];
    let number = dca::account(n, values, weights, &mut locals).expect_err("taken").number();
    assert!(locals.iter().all(|&local| local == -7));
    number
}

fn worked_buffers() -> Buffers {
    let mut job = Buffers::new();
    job.values[..4].copy_from_slice(&VALUES);
    job.categories[..4].copy_from_slice(&[0, 0, 1, 1]);
    job.weights[..16].copy_from_slice(&WEIGHTS);
    job.places[..8].copy_from_slice(&PLACES);
    job.bands[..2].copy_from_slice(&[1, 4]);
    job.shuffles[..8].copy_from_slice(&SHUFFLES);
    job
}

fn worked_image() -> Vec<u8> {
    let mut image = vec![0; dca::IMAGE_MOST];
    let length = dca::write(&worked_buffers(), GIVEN, &mut image).unwrap();
    image.truncate(length);
    image
}

#[test]
fn figure_a_the_line() {
    let mut locals = [0; 3];
    let sums = dca::account(3, &[1, 2, 6], &LINE, &mut locals).unwrap();
    assert_eq!(
        (sums.total, sums.spread, sums.weight, sums.cross, sums.squares),
        (9, 42, 4, -18, 34)
    );
    assert_eq!((sums.kept, sums.missing), (3, 0));
    assert_eq!(locals, [18, -9, -27]);
}

#[test]
fn figure_b_two_zones() {
    let mut locals = [NO_FIGURE; 2];
    let report = dca::float_report(2, &[0, 1], &[0, 1, 1, 0], &[0; 4], &mut locals).unwrap();
    assert_eq!((report.globals, locals), (exact_pair(-1.0, 1.0), [exact(-1.0); 2]));
}

#[test]
fn figures_c_to_f_the_worked_report() {
    let mut locals = [0; 4];
    let sums = dca::account(4, &VALUES, &WEIGHTS, &mut locals).unwrap();
    assert_eq!((sums.cross, sums.weight, sums.spread, sums.squares, sums.kept), (8, 8, 8, 8, 3));
    assert_eq!(locals, [12, 4, -8, 0]);
    let mut classes = [9; 16];
    dca::bands(4, &PLACES, &[1, 4], &mut classes).unwrap();
    let (mut rows, mut class_locals) = ([-1; dca::CLASS_ROWS], [-1; 36]);
    dca::class_account(4, &VALUES, &WEIGHTS, &classes, &mut rows, &mut class_locals).unwrap();
    assert_eq!(rows[..9], [0, 0, 0, 6, 24, 0, 2, -16, 8]);
    assert!(rows[9..].iter().all(|&sum| sum == 0));
    let mut figures = [NO_FIGURE; 4];
    let report = dca::float_report(4, &VALUES, &WEIGHTS, &classes, &mut figures).unwrap();
    assert_eq!(report.globals, exact_pair(0.125, 0.375));
    let (first, second) = (exact_pair(0.5, 0.0), exact_pair(-1.0, 1.5));
    assert_eq!(report.classes[..4], [None, Some(first), Some(second), None]);
    assert_eq!(figures, [1.5, 0.5, -1.0, 0.0].map(exact));
    assert_eq!(figures[3].float.to_bits(), 0);
    let mut table = [-1; dca::JOIN_TABLE];
    dca::join_table(4, &VALUES, &[0, 0, 1, 1], &WEIGHTS, &mut table).unwrap();
    assert_eq!((table[0], table[1], table[8], table[9]), (6, 1, 1, 0));
    let mut zones = [9; 4];
    dca::hot_list(4, &VALUES, &WEIGHTS, &mut zones).unwrap();
    assert_eq!(zones, [0, 1, 2, 3]);
    assert_eq!(dca::rank(4, &VALUES, &WEIGHTS, &SHUFFLES, &[0, 0]), Ok(of_desk_0(1, 1, 0)));
}

/// Local numerators that are all 0: the larger row sum comes first, then the lower number, then the zone that touches nobody.
#[test]
fn ties_in_the_hot_list() {
    let mut zones = [9; 4];
    dca::hot_list(4, &[1, 2, 3, 9], &WEIGHTS, &mut zones).unwrap();
    assert_eq!(zones, [1, 0, 2, 3]);
    // As lent the row sums would be 1, 2 and 11; zone 3 sends nothing, and without its weights they are 1, 2 and 2.
    let weights = [0, 1, 0, 0, 1, 0, 1, 0, 0, 2, 0, 9, 0, 0, 0, 0];
    dca::hot_list(4, &[1, 2, 3, dca::NOT_RETURNED], &weights, &mut zones).unwrap();
    assert_eq!(zones, [1, 2, 0, 3]);
}

/// The line of three with a zone that touches nobody in front: figures of the line, whatever value that zone has.
#[test]
fn zones_left_out() {
    let weights = [0, 0, 0, 0, 0, 0, 1, 0, 0, 1, 0, 1, 0, 0, 1, 0];
    let (mut locals, mut zones) = ([-7; 4], [9; 4]);
    for first in [1, 100_000, -100_000] {
        let values = [first, 1, 2, 6];
        let sums = dca::account(4, &values, &weights, &mut locals).unwrap();
        assert_eq!((sums.total, sums.spread, sums.cross, sums.kept, sums.missing), (9, 42, -18, 3, 0));
        assert_eq!(locals, [0, 18, -9, -27]);
        dca::hot_list(4, &values, &weights, &mut zones).unwrap();
        assert_eq!(zones, [1, 2, 3, 0]);
        // The kept numbers are 1 2 3 and 3 2 1: the line as it is, and turned round.
        let answer = dca::rank(4, &values, &weights, &[1, 2, 0, 3, 3, 2, 1, 0], &[0, 0]);
        assert_eq!(answer, Ok(of_desk_0(0, 2, 0)));
    }
    assert_eq!(refused(4, &[1, 5, 5, 5], &weights), 7);
    assert_eq!(refused(4, &[100_001, 5, 5, 5], &weights), 3);
    assert_eq!(dca::rank(4, &[9, 1, 2, 6], &weights, &[1, 1, 2, 3], &[0]), Err(Refusal::SHUFFLE));
}

/// A zone that only gets weight is kept, with a local numerator of 0; so is one that only gives it.
#[test]
fn zones_that_touch_one_way() {
    let mut locals = [-7; 3];
    let sums = dca::account(3, &[1, 2, 6], &[0, 1, 2, 1, 0, 0, 0, 0, 0], &mut locals).unwrap();
    assert_eq!((sums.cross, sums.squares, sums.kept, locals), (-72, 52, 3, [-90, 18, 0]));
    let sums = dca::account(3, &[1, 2, 6], &[0, 1, 0, 1, 0, 0, 2, 0, 0], &mut locals).unwrap();
    assert_eq!((sums.cross, sums.squares, sums.kept, locals), (-72, 52, 3, [18, 18, -108]));
}

/// The line of three, a zone that sends nothing though it has weight, and one that touches this one alone: figures of the line.
#[test]
fn values_not_returned() {
    let (mut locals, mut zones, mut table) = ([-7; 5], [9; 5], [-7; dca::JOIN_TABLE]);
    #[rustfmt::skip]
    let weights = [0, 1, 0, 0, 0, 1, 0, 1, 0, 0, 0, 1, 0, 5, 0, 0, 0, 5, 0, 9, 0, 0, 0, 9, 0];
    let values = [1, 2, 6, dca::NOT_RETURNED, -100_000];
    let sums = dca::account(5, &values, &weights, &mut locals).unwrap();
    assert_eq!(
        (sums.total, sums.spread, sums.weight, sums.cross, sums.squares),
        (9, 42, 4, -18, 34)
    );
    assert_eq!((sums.kept, sums.missing, locals), (3, 1, [18, -9, -27, 0, 0]));
    dca::hot_list(5, &values, &weights, &mut zones).unwrap();
    assert_eq!(zones, [0, 1, 2, 3, 4]);
    // The kept numbers of the row are 2 1 0: the line turned round.
    assert_eq!(dca::rank(5, &values, &weights, &[3, 2, 4, 1, 0], &[0]), Ok(of_desk_0(0, 1, 0)));
    dca::join_table(5, &values, &[0, 1, 0, 2, 2], &weights, &mut table).unwrap();
    assert_eq!((table[1], table[8], table.iter().sum::<i64>()), (2, 2, 4));
}

/// 6 looks at what is left of the weights, 7 at the values kept, 3 at every other value; 4 and 5 at the weights as they are lent.
#[test]
fn refusals_beside_values_not_returned() {
    let none = dca::NOT_RETURNED;
    for (values, number) in [
        ([1, none, 6], 6),
        ([none, none, none], 6),
        ([5, 5, none], 7),
        ([1, none + 1, none], 3),
        ([1, -100_001, none], 3),
    ] {
        assert_eq!(refused(3, &values, &LINE), number);
    }
    for (place, weight, number) in [(2, 10, 4), (6, 255, 4), (8, 1, 5)] {
        let mut weights = LINE;
        weights[place] = weight;
        assert_eq!(refused(3, &[1, 2, none], &weights), number);
    }
    let mut table = [-7; dca::JOIN_TABLE];
    dca::join_table(3, &[none; 3], &[0, 1, 2], &LINE, &mut table).unwrap();
    assert_eq!(table, [0; dca::JOIN_TABLE]);
    for (values, refusal) in [(&[1, 100_001, none][..], Refusal::VALUE), (&[1, 2], Refusal::LENGTH)] {
        assert_eq!(dca::join_table(3, values, &[0, 1, 8], &LINE, &mut table), Err(refusal));
    }
    assert_eq!(table, [0; dca::JOIN_TABLE]);
}

/// The worked image with its first value not returned: mark and joins come back, and the same bytes are written; the report is of what is
/// left, zones 1 and 2.
#[test]
fn an_image_of_values_not_returned() {
    let mut image = worked_image();
    image[2..6].copy_from_slice(&dca::NOT_RETURNED.to_le_bytes());
    let mut back = Buffers::new();
    let sections = dca::read(&image, &mut back).unwrap();
    assert_eq!(
        (back.values[0], &back.weights[..16], sections.joins),
        (dca::NOT_RETURNED, &WEIGHTS[..], 4)
    );
    let mut again = vec![0; image.len()];
    assert_eq!(dca::write(&back, sections.into(), &mut again), Ok(92));
    assert_eq!(again, image);
    let mut text = [b'#'; dca::REPORT_TEXT];
    let text = dca::report(&image, &mut text).unwrap();
    assert!(text.starts_with(b"zones 2 4 4\njoins 2 -8 8\n"));
    // Without the value of zone 1 nothing is left.
    image[6..10].copy_from_slice(&dca::NOT_RETURNED.to_le_bytes());
    assert_eq!(dca::read(&image, &mut back), Err(Refusal::NO_WEIGHT));
    back.values[1] = dca::NOT_RETURNED;
    assert_eq!(dca::write(&back, sections.into(), &mut again), Err(Refusal::NO_WEIGHT));
}

#[test]
fn figures_g_to_j_the_nearest_float() {
    let most = 6_000_000_000_000_000_000;
    for (p, q, bits, side) in [
        (9007199254740993, 1, 9007199254740992f64.to_bits(), Side::Below),
        (9007199254740995, 1, 9007199254740996f64.to_bits(), Side::Above),
        (-1, 3, 0xBFD5555555555555, Side::Above),
        (1, 10, 0x3FB999999999999A, Side::Above),
        (0, 7, 0, Side::Equal),
        (-most, most, (-1f64).to_bits(), Side::Equal),
    ] {
        let figure = dca::nearest(p, q).unwrap();
        assert_eq!((figure.float.to_bits(), figure.side), (bits, side), "{p} / {q}");
    }
    for (p, q) in [(1, 0), (1, -1), (most + 1, 1), (-most - 1, 1), (1, most + 1), (i64::MIN, i64::MIN)] {
        assert_eq!(dca::nearest(p, q), Err(Refusal::RATIO));
    }
}

#[test]
fn signs_of_sides() {
    let sides = [Side::Equal, Side::Below, Side::Above];
    assert_eq!(sides.map(Side::sign), ['=', '<', '>']);
}

/// The line of three, whose figures are halves, thirds and sevenths: its first join is of class 3, the others of class 0.
#[test]
fn sides_of_a_report() {
    let mut locals = [NO_FIGURE; 3];
    let classes = [0, 3, 0, 0, 0, 0, 0, 0, 0];
    let report = dca::float_report(3, &[1, 2, 6], &LINE, &classes, &mut locals).unwrap();
    let rounded = |float, side| Rounded { float, side };
    let global = Pair {
        moran: rounded(-18.0 / 168.0, Side::Above),
        geary: rounded(204.0 / 336.0, Side::Below),
    };
    assert_eq!(report.globals, global);
    let figures = [(18.0 / 42.0, Side::Below), (-9.0 / 42.0, Side::Above), (-27.0 / 42.0, Side::Below)];
    assert_eq!(locals, figures.map(|(float, side)| rounded(float, side)));
    let first = Pair {
        moran: rounded(18.0 / 42.0, Side::Below),
        geary: rounded(6.0 / 84.0, Side::Below),
    };
    assert_eq!(report.classes[3], Some(first));
    assert_eq!(report.classes[1], None);
}

#[test]
fn zones_at_the_edges() {
    for n in [2, 64] {
        let mut locals = vec![0; n];
        assert!(dca::account(n, &rising(n), &complete(n), &mut locals).is_ok());
    }
    for n in [0, 1, 65] {
        assert_eq!(refused(n, &rising(n), &complete(n)), 1);
    }
    for n in [1 << 32, 1 << 63, usize::MAX] {
        assert_eq!(refused(n, &[], &[]), 1);
    }
}

#[test]
fn values_and_weights_at_the_edges() {
    let mut locals = [0; 2];
    assert!(dca::account(2, &[100_000, -100_000], &[0, 9, 9, 0], &mut locals).is_ok());
    assert_eq!(refused(2, &[100_001, 0], &[0, 9, 9, 0]), 3);
    assert_eq!(refused(2, &[i32::MIN + 1, 0], &[0, 9, 9, 0]), 3);
    assert_eq!(refused(2, &[1, 0], &[0, 10, 9, 0]), 4);
    assert_eq!(refused(2, &[1, 0], &[1, 9, 9, 0]), 5);
    assert_eq!(refused(2, &[1, 0], &[0; 4]), 6);
    assert_eq!(refused(2, &[1, 1], &[0, 1, 1, 0]), 7);
    assert_eq!(refused(2, &[1, 0, 0], &[0, 1, 1, 0]), 2);
    assert_eq!(refused(2, &[1, 0], &[]), 2);
    assert_eq!(dca::account(2, &[1, 0], &[0, 1, 1, 0], &mut []), Err(Refusal::LENGTH));
}

#[test]
fn refusals_of_the_other_lists() {
    let (mut rows, mut class_locals) = ([-7; dca::CLASS_ROWS], [-7; 36]);
    let mut classes = [0; 16];
    classes[5] = 9;
    let answer = dca::class_account(4, &VALUES, &WEIGHTS, &classes, &mut rows, &mut class_locals);
    assert_eq!((answer, rows, class_locals), (Err(Refusal::CLASS), [-7; 27], [-7; 36]));
    for (class, zones, refusal) in [
        (9, 4, Refusal::CLASS),
        (0, 3, Refusal::LENGTH),
        (0, 5, Refusal::LENGTH),
        (9, 70, Refusal::LENGTH),
    ] {
        classes[5] = class;
        let mut figures = vec![NO_FIGURE; zones];
        assert_eq!(dca::float_report(4, &VALUES, &WEIGHTS, &classes, &mut figures), Err(refusal));
        assert_eq!(figures, vec![NO_FIGURE; zones]);
    }
    // Quiet and signalling NaNs of both signs.
    classes[5] = 9;
    let bits = [0x7FF8000000ABCDEF, 0xFFF8000000000001, 0x7FF0000000000001, 0xFFF4000000000003];
    let mut nans = bits.map(|bits| exact(f64::from_bits(bits)));
    assert_eq!(dca::float_report(4, &VALUES, &WEIGHTS, &classes, &mut nans), Err(Refusal::CLASS));
    assert_eq!(nans.map(|nan| nan.float.to_bits()), bits);
    let mut table = [-7; 64];
    assert_eq!(
        dca::join_table(4, &VALUES, &[0, 0, 1, 8], &WEIGHTS, &mut table),
        Err(Refusal::CATEGORY)
    );
    assert_eq!(table, [-7; 64]);
    let mut zones = [7; 5];
    assert_eq!(dca::hot_list(4, &VALUES, &WEIGHTS, &mut zones), Err(Refusal::LENGTH));
    assert_eq!(zones, [7; 5]);
}

/// The line of three has a lesser P with the largest value in the middle, a greater one with the middle value there.
#[test]
fn ranks_by_desk() {
    let values = [2, 1, 6];
    let (less, equal, greater) = ([0, 2, 1], [2, 1, 0], [1, 0, 2]);
    let rows = [less, equal, greater, less, greater, greater, equal];
    let desks = [3, 0, 3, 2, 0, 3, 0];
    let none = counts(0, 0, 0);
    let expected = [counts(0, 2, 1), none, counts(1, 0, 0), counts(1, 0, 2)];
    assert_eq!(dca::rank(3, &values, &LINE, rows.as_flattened(), &desks), Ok(expected));
    // Other rows of desk 3 change nothing for the others.
    let rows = [equal, equal, less, less, greater, less, equal];
    let expected = [counts(0, 2, 1), none, counts(1, 0, 0), counts(2, 1, 0)];
    assert_eq!(dca::rank(3, &values, &LINE, rows.as_flattened(), &desks), Ok(expected));
    assert_eq!(dca::rank(3, &values, &LINE, rows.as_flattened(), &[0; 7]), Ok(of_desk_0(3, 3, 1)));
    assert_eq!(dca::rank(3, &values, &LINE, &[], &[]), Ok([none; 4]));
    let most = dca::rank(3, &values, &LINE, &equal.repeat(499), &[3; 499]);
    assert_eq!(most, Ok([none, none, none, counts(0, 499, 0)]));
}

/// Rows that are whole, not too many and with a desk each; 2 comes before what is wrong with a desk.
#[test]
fn lengths_of_a_rank() {
    let rank = |places: usize, desks: usize| {
        let shuffles: Vec<u8> = (0..4).cycle().take(places).collect();
        dca::rank(4, &VALUES, &WEIGHTS, &shuffles, &vec![4; desks])
    };
    for (places, desks) in [
        (0, 1),
        (4, 0),
        (4, 2),
        (4, 4),
        (8, 1),
        (8, 3),
        (8, 8),
        (3, 1),
        (5, 1),
        (1996, 498),
        (2000, 500),
    ] {
        assert_eq!(rank(places, desks), Err(Refusal::LENGTH), "{places} {desks}");
    }
    assert_eq!(rank(1996, 499), Err(Refusal::DESK));
}

/// 24 looks at every desk, and comes last.
#[test]
fn desks_that_are_refused() {
    let lacking = [0, 1, 2, 3, 2, 1, 0, 2];
    for desks in [[0, 4], [4, 0], [3, 255]] {
        assert_eq!(dca::rank(4, &VALUES, &WEIGHTS, &SHUFFLES, &desks), Err(Refusal::DESK));
        assert_eq!(dca::rank(4, &VALUES, &WEIGHTS, &lacking, &desks), Err(Refusal::SHUFFLE));
        assert_eq!(dca::rank(4, &[5; 4], &WEIGHTS, &lacking, &desks), Err(Refusal::NO_SPREAD));
    }
}

#[test]
fn networks_and_bands() {
    let mut weights = [7; 9];
    // The third place is on the circle of the first two, then outside it.
    dca::gabriel(3, &[0, 0, 2, 0, 1, 1], &mut weights).unwrap();
    assert_eq!(weights, [0, 0, 1, 0, 0, 1, 1, 1, 0]);
    dca::gabriel(3, &[0, 0, 2, 0, 1, 2], &mut weights).unwrap();
    assert_eq!(weights, [0, 1, 1, 1, 0, 1, 1, 1, 0]);
    assert_eq!(dca::gabriel(3, &[0, 0, 2, 0, 1, 30_001], &mut weights), Err(Refusal::COORDINATE));
    assert_eq!(dca::gabriel(3, &[0, 0, 2, 0, 0, 0], &mut weights), Err(Refusal::ONE_PLACE));
    let places = [0, 0, 2, 0, 1, 2];
    for bands in [&[][..], &[0], &[4, 4], &[5, 4], &[1, 2, 3, 4, 5, 6, 7, 8, 9]] {
        assert_eq!(dca::bands(3, &places, bands, &mut weights), Err(Refusal::BANDS));
    }
    assert_eq!(weights, [0, 1, 1, 1, 0, 1, 1, 1, 0]);
    dca::bands(3, &places, &[4, u32::MAX], &mut weights).unwrap();
    assert_eq!(weights, [0, 1, 2, 1, 0, 2, 2, 2, 0]);
}

#[test]
fn grids() {
    let (mut rook, mut bishop, mut queen) = ([7; 16], [7; 16], [7; 16]);
    dca::grid(2, 2, Move::Rook, &mut rook).unwrap();
    dca::grid(2, 2, Move::Bishop, &mut bishop).unwrap();
    dca::grid(2, 2, Move::Queen, &mut queen).unwrap();
    assert_eq!(rook, [0, 1, 1, 0, 1, 0, 0, 1, 1, 0, 0, 1, 0, 1, 1, 0]);
    assert!((0..16).all(|k| rook[k] + bishop[k] == queen[k]));
    // The products are 2 and 0 in 64 bits only.
    for (rows, columns) in [(1, 1), (5, 13), (0, 4), (usize::MAX / 2 + 2, 2), (1 << 32, 1 << 32)] {
        assert_eq!(dca::grid(rows, columns, Move::Queen, &mut queen), Err(Refusal::ZONES));
    }
    assert_eq!(dca::grid(2, 3, Move::Rook, &mut rook), Err(Refusal::LENGTH));
}

#[test]
fn the_image_there_and_back() {
    let image = worked_image();
    assert_eq!(image.len(), 92);
    let mut back = Buffers::new();
    let sections = Sections {
        values: 4,
        categories: 4,
        joins: 4,
        places: 4,
        bands: 2,
        shuffles: 2,
    };
    assert_eq!(dca::read(&image, &mut back), Ok(sections));
    assert_eq!(back, worked_buffers());
    assert_eq!(Given::from(sections), GIVEN);
    let mut short = vec![7; 91];
    assert_eq!(dca::write(&back, GIVEN, &mut short), Err(Refusal::OUTPUT));
    assert_eq!(short, vec![7; 91]);
    let mut long = vec![7; 95];
    assert_eq!(dca::write(&back, GIVEN, &mut long), Ok(92));
    assert_eq!((&long[..92], &long[92..]), (&image[..], &[7, 7, 7][..]));
}

/// The worked image cut at every length, with each wrong byte, and with a byte after its end: each with its refusal.
fn damaged_images() -> Vec<(Vec<u8>, Refusal)> {
    let image = worked_image();
    let cut = (0..image.len()).map(|length| (image[..length].to_vec(), Refusal::CUT));
    let wrong = WRONG_BYTES.into_iter().map(|(place, byte, refusal)| {
        let mut wrong = image.clone();
        wrong[place] = byte;
        (wrong, refusal)
    });
    let after = ([&image[..], &[0]].concat(), Refusal::BYTES_AFTER);
    cut.chain(wrong).chain([after]).collect()
}

#[test]
fn images_that_are_refused() {
    let mut kept = Buffers::new();
    kept.weights = [7; 4096];
    let before = kept.clone();
    for (image, refusal) in damaged_images() {
        assert_eq!(dca::read(&image, &mut kept), Err(refusal), "{image:?}");
    }
    assert_eq!(kept, before);
}

#[test]
fn jobs_that_are_not_written() {
    let job = worked_buffers();
    let mut out = vec![7; dca::IMAGE_MOST];
    for (given, refusal) in [
        (Given { values: 65, ..GIVEN }, Refusal::ZONES),
        (
            Given {
                values: usize::MAX,
                ..GIVEN
            },
            Refusal::ZONES,
        ),
        (Given { categories: 3, ..GIVEN }, Refusal::COUNT),
        (Given { places: 5, ..GIVEN }, Refusal::COUNT),
        (Given { places: 0, ..GIVEN }, Refusal::BANDS),
        (Given { bands: 9, ..GIVEN }, Refusal::BANDS),
        (Given { shuffles: 500, ..GIVEN }, Refusal::COUNT),
        (Given { shuffles: 3, ..GIVEN }, Refusal::SHUFFLE),
    ] {
        assert_eq!(dca::write(&job, given, &mut out), Err(refusal), "{given:?}");
    }
    assert!(out.iter().all(|&byte| byte == 7));
}

#[test]
fn reports() {
    let image = worked_image();
    let mut text = [b'#'; dca::REPORT_TEXT];
    let length = dca::report(&image, &mut text).unwrap().len();
    assert_eq!(std::str::from_utf8(&text[..length]), Ok(REPORT));
    assert!(text[length..].iter().all(|&byte| byte == b'#'));
}

/// The reader's own numbers, and the text as it was.
#[test]
fn reports_that_are_refused() {
    let mut text = [b'#'; dca::REPORT_TEXT];
    for (image, refusal) in damaged_images() {
        assert_eq!(dca::report(&image, &mut text), Err(refusal), "{image:?}");
    }
    assert_eq!(dca::report(&[0; 50_000], &mut text), Err(Refusal::ZONES));
    assert!(text.iter().all(|&byte| byte == b'#'));
}

#[test]
fn a_refusal_is_an_error() {
    let error: Box<dyn std::error::Error + Send + Sync> = Box::new(Refusal::NO_WEIGHT);
    assert_eq!(error.to_string(), "refused 6: W is 0");
    assert_eq!((Refusal::OUTPUT.number(), Refusal::ZONES.number()), (19, 1));
}
