//! The figures that document 01, request A.6 and their readings print, by the independent calls; and what requests A.2, A.7, A.9 and A.10 say
//! of them.

use differential as own;

fn job(n: usize, joins: &[(usize, usize, u8)]) -> Vec<u8> {
    let mut weights = vec![0; n * n];
    for &(from, to, weight) in joins {
        weights[from * n + to] = weight;
    }
    weights
}

/// The counts of a rank whose rows are all of desk 0.
fn of_desk_0(counts: [u64; 3]) -> [u64; own::RANK_COUNTS] {
    std::array::from_fn(|place| counts.get(place).copied().unwrap_or(0))
}

#[test]
fn line_of_three() {
    let weights = job(3, &[(0, 1, 1), (1, 0, 1), (1, 2, 1), (2, 1, 1)]);
    let (mut locals, mut sums) = ([0; 3], [0; own::SUMS]);
    let number = own::account(3, &[1, 2, 6], &weights, &mut locals, &mut sums);
    assert_eq!(
        (number, locals, sums),
        (0, [18, -9, -27], [9, 42, 4, -18, 34, 3, 0])
    );
}

#[test]
fn forewings() {
    let edges = [(1, 2), (1, 6), (2, 3), (4, 5), (4, 7), (6, 7), (7, 8)];
    let joins: Vec<_> = edges
        .iter()
        .flat_map(|&(a, b)| [(a - 1, b - 1, 1), (b - 1, a - 1, 1)])
        .collect();
    let values = [207, 202, 220, 207, 197, 220, 204, 197];
    let (mut locals, mut sums) = ([0; 8], [0; own::SUMS]);
    let number = own::account(8, &values, &job(8, &joins), &mut locals, &mut sums);
    assert_eq!((number, sums), (0, [1654, 4572, 14, -9416, 1864, 8, 0]));
    assert_eq!(locals, [136, -4104, -4028, -200, -156, -2120, -660, 1716]);
}

/// The job of document 01's report. Zone 3 touches nobody.
#[test]
fn left_out() {
    let weights = job(4, &[(0, 1, 3), (1, 0, 3), (1, 2, 1), (2, 1, 1)]);
    let values = [1, 1, 3, 3];
    let (mut locals, mut sums, mut zones) = ([7; 4], [7; own::SUMS], [7; 4]);
    let number = own::account(4, &values, &weights, &mut locals, &mut sums);
    assert_eq!(
        (number, locals, sums),
        (0, [12, 4, -8, 0], [5, 8, 8, 8, 8, 3, 0])
    );
    assert_eq!(own::hot_list(4, &values, &weights, &mut zones), 0);
    assert_eq!(zones, [0, 1, 2, 3]);
    // The kept numbers 2 1 0 turn the three round, wherever 3 stands among them.
    for row in [[2, 1, 0, 3], [2, 3, 1, 0], [3, 2, 1, 0]] {
        let mut counts = [7; own::RANK_COUNTS];
        let number = own::rank(4, &values, &weights, &row, &[0], &mut counts);
        assert_eq!((number, counts), (0, of_desk_0([1, 0, 0])));
    }
    // Equal kept values have no spread, whatever the others are; a bad value is refused wherever it stands.
    for (values, number) in [([5, 5, 5, 9], 7), ([1, 1, 3, 100_001], 3)] {
        let given = own::account(4, &values, &weights, &mut locals, &mut sums);
        assert_eq!(given, number);
    }
    assert_eq!((locals, sums), ([12, 4, -8, 0], [5, 8, 8, 8, 8, 3, 0]));
}

/// The line of three, and two zones more: one that sends nothing, touching the line, and one that touches it alone.
#[test]
fn not_returned() {
    let line = [(0, 1, 1), (1, 0, 1), (1, 2, 1), (2, 1, 1)];
    let others = [(2, 3, 5), (3, 2, 5), (3, 4, 9)];
    let weights = job(5, &[&line[..], &others].concat());
    let values = [1, 2, 6, own::NOT_RETURNED, 100_000];
    let (mut locals, mut sums, mut zones) = ([7; 5], [7; own::SUMS], [7; 5]);
    let number = own::account(5, &values, &weights, &mut locals, &mut sums);
    assert_eq!(
        (number, locals, sums),
        (0, [18, -9, -27, 0, 0], [9, 42, 4, -18, 34, 3, 1])
    );
    assert_eq!(own::hot_list(5, &values, &weights, &mut zones), 0);
    assert_eq!(zones, [0, 1, 2, 3, 4]);
    let mut counts = [7; own::RANK_COUNTS];
    let number = own::rank(5, &values, &weights, &[2, 4, 1, 3, 0], &[0], &mut counts);
    assert_eq!((number, counts), (0, of_desk_0([0, 1, 0])));
    // Only the ends of the line, nobody, equal values, a value next to the mark; the join table takes what others refuse with 6.
    let none = own::NOT_RETURNED;
    for (values, number) in [
        ([1, none, 6, none, 9], 6),
        ([none; 5], 6),
        ([4, 4, 4, none, 9], 7),
        ([1, 2, 6, none + 1, 9], 3),
    ] {
        let given = own::account(5, &values, &weights, &mut locals, &mut sums);
        assert_eq!(given, number);
    }
    let mut table = [7; 64];
    let number = own::join_table(5, &[none; 5], &[0; 5], &weights, &mut table);
    assert_eq!((number, table), (0, [0; 64]));
    let number = own::join_table(5, &values, &[0; 5], &weights, &mut table);
    assert_eq!((number, table[0]), (0, 4));
}

/// Four zones at the mean, which have an L of 0, and two apart, which have one of -72: the larger row sum comes first, not the larger column,
/// then the lower number.
#[test]
fn ties() {
    let apart = [(4, 5, 2), (5, 4, 2), (5, 0, 1)];
    let near = [(0, 1, 1), (1, 2, 3), (2, 0, 2), (3, 0, 3)];
    let weights = job(6, &[&near[..], &apart].concat());
    let mut zones = [7; 6];
    let values = [0, 0, 0, 0, -1, 1];
    assert_eq!(own::hot_list(6, &values, &weights, &mut zones), 0);
    assert_eq!(zones, [1, 3, 2, 0, 5, 4]);
    // Zone 3 sends nothing: it is left out, and the column that had most loses its weight.
    let values = [0, 0, 0, own::NOT_RETURNED, -1, 1];
    assert_eq!(own::hot_list(6, &values, &weights, &mut zones), 0);
    assert_eq!(zones, [1, 2, 0, 5, 4, 3]);
    // Zone 1 gave its weight to one that sends nothing, and stays by its column.
    let values = [0, 0, own::NOT_RETURNED, 0, -1, 1];
    assert_eq!(own::hot_list(6, &values, &weights, &mut zones), 0);
    assert_eq!(zones, [3, 0, 1, 5, 4, 2]);
}

/// 4 and 5 judge the weights of a zone that sends nothing as they are lent.
#[test]
fn weights_not_returned() {
    let line = [(0, 1, 1), (1, 0, 1)];
    for (join, number) in [((2, 1, 10), 4), ((0, 2, 255), 4), ((2, 2, 1), 5)] {
        let weights = job(3, &[&line[..], &[join]].concat());
        let (mut locals, mut sums) = ([7; 3], [7; own::SUMS]);
        let values = [1, 2, own::NOT_RETURNED];
        let given = own::account(3, &values, &weights, &mut locals, &mut sums);
        assert_eq!((given, locals, sums), (number, [7; 3], [7; own::SUMS]));
    }
}

/// An image keeps the mark and its zone's joins.
#[test]
fn image_of_values_not_returned() {
    let mut image = whole_image();
    image[14..18].copy_from_slice(&own::NOT_RETURNED.to_le_bytes());
    // The join from 1 to 2 becomes one from 1 to 3, where nothing is returned.
    assert_eq!(image[32..35], [1, 2, 1]);
    image[33] = 3;
    let (mut values, mut categories, mut weights) = ([0; 64], [0; 64], [0; 4096]);
    let (mut places, mut bands, mut shuffles) = ([0; 128], [0; 8], [0; 31_936]);
    let mut counts = [0; 6];
    let number = own::read(
        &image,
        &mut values,
        &mut categories,
        &mut weights,
        &mut places,
        &mut bands,
        &mut shuffles,
        &mut counts,
    );
    assert_eq!((number, values[3], weights[7]), (0, own::NOT_RETURNED, 1));
    let (mut again, mut length) = (vec![0; image.len()], [0]);
    let [n, categories_used, _, placed, banded, rows] = counts;
    let number = own::write(
        &values,
        &categories,
        &weights,
        &places,
        &bands,
        &shuffles,
        &[n, categories_used, placed, banded, rows],
        &mut again,
        &mut length,
    );
    assert_eq!((number, again), (0, image));
}

/// The nearest float and its side.
fn nearest(p: i64, q: i64) -> (f64, u8) {
    let (mut out, mut side) = ([7.0], [7]);
    assert_eq!(own::nearest(p, q, &mut out, &mut side), 0);
    (out[0], side[0])
}

#[test]
fn floats() {
    let bits = |p, q| {
        let (float, side) = nearest(p, q);
        (float.to_bits(), side)
    };
    let float = |x: f64, side| (x.to_bits(), side);
    assert_eq!(
        bits(9007199254740993, 1),
        float(9007199254740992.0, own::BELOW)
    );
    assert_eq!(
        bits(9007199254740995, 1),
        float(9007199254740996.0, own::ABOVE)
    );
    assert_eq!(bits(-1, 3), (0xBFD5555555555555, own::ABOVE));
    assert_eq!(bits(1, 10), (0x3FB999999999999A, own::ABOVE));
    assert_eq!(bits(0, 7), (0, own::EQUAL));
}

/// A side is that of the value: what is below turns to above with the sign, at ties too.
#[test]
fn sides_of_both_signs() {
    let limit = 6_000_000_000_000_000_000;
    for (p, q, above_0, below_0) in [
        (1, 3, own::BELOW, own::ABOVE),
        (1, 10, own::ABOVE, own::BELOW),
        (9007199254740993, 1, own::BELOW, own::ABOVE),
        (9007199254740995, 1, own::ABOVE, own::BELOW),
        (9007199254740993, 1 << 60, own::BELOW, own::ABOVE),
        (limit - 1, 1, own::ABOVE, own::BELOW),
        (limit, 1, own::EQUAL, own::EQUAL),
        (12, 8, own::EQUAL, own::EQUAL),
        (1, 1 << 62, own::EQUAL, own::EQUAL),
    ] {
        assert_eq!(
            (nearest(p, q).1, nearest(-p, q).1),
            (above_0, below_0),
            "{p} / {q}"
        );
    }
}

/// Another length of either list is 2, before 18; and what is refused stores nothing.
#[test]
fn refused_floats() {
    for (p, q, floats, sides, number) in [
        (1, 3, 1, 0, 2),
        (1, 3, 1, 2, 2),
        (1, 3, 0, 1, 2),
        (1, 0, 2, 1, 2),
        (1, 0, 1, 1, 18),
    ] {
        let (mut out, mut side) = (vec![7.0; floats], vec![7; sides]);
        assert_eq!(own::nearest(p, q, &mut out, &mut side), number);
        assert!(out.iter().all(|&x| x == 7.0) && side.iter().all(|&x| x == 7));
    }
}

/// The job of document 01's report by its bands: every figure is exact. Class 0 has no weight and leaves what it was lent, zone 3 is left
/// out.
#[test]
fn float_report() {
    let weights = job(4, &[(0, 1, 3), (1, 0, 3), (1, 2, 1), (2, 1, 1)]);
    let classes = [0, 1, 0, 0, 1, 0, 2, 0, 0, 2, 0, 0, 0, 0, 0, 0];
    let (mut globals, mut global_sides) = ([7.0; 2], [7; 2]);
    let (mut locals, mut local_sides) = ([7.0; 4], [7; 4]);
    let (mut pairs, mut pair_sides, mut has_pair) = ([7.0; 18], [7; 18], [7; 9]);
    let number = own::float_report(
        4,
        &[1, 1, 3, 3],
        &weights,
        &classes,
        &mut globals,
        &mut global_sides,
        &mut locals,
        &mut local_sides,
        &mut pairs,
        &mut pair_sides,
        &mut has_pair,
    );
    assert_eq!(
        (number, globals, locals),
        (0, [0.125, 0.375], [1.5, 0.5, -1.0, 0.0])
    );
    assert_eq!((global_sides, local_sides), ([0; 2], [0; 4]));
    assert_eq!(pairs[..7], [7.0, 7.0, 0.5, 0.0, -1.0, 1.5, 7.0]);
    assert_eq!(pair_sides[..7], [7, 7, 0, 0, 0, 0, 7]);
    assert_eq!(has_pair, [0, 1, 1, 0, 0, 0, 0, 0, 0]);
}

/// Where both numbers have at most 53 digits the machine's own division rounds once, and so does its product less p, whose sign is then
/// that of the float less the ratio.
#[test]
fn floats_by_machine() {
    let mut state = 1u64;
    let mut drawn = || {
        state = state
            .wrapping_mul(6364136223846793005)
            .wrapping_add(1442695040888963407);
        ((state >> 11) >> (state >> 8 & 31)) as i64 + 1
    };
    for _ in 0..100_000 {
        let (p, q) = (drawn() * [1, -1][(drawn() % 2) as usize], drawn());
        let (float, side) = nearest(p, q);
        assert_eq!(float, p as f64 / q as f64, "{p} / {q}");
        let less = float.mul_add(q as f64, -(p as f64));
        let said = [less == 0.0, less < 0.0, less > 0.0];
        assert!(said[usize::from(side)], "{p} / {q}");
    }
}

#[test]
fn shuffles_of_park_and_miller() {
    let n = 64;
    let values: Vec<i32> = (0..n as i32).map(|i| i * i).collect();
    let weights: Vec<u8> = (0..n * n)
        .map(|p| (p / n, p % n))
        .map(|(i, j)| if i == j { 0 } else { ((i + 2 * j) % 10) as u8 })
        .collect();
    let mut state = 1u64;
    let mut shuffles = Vec::new();
    for _ in 0..499 {
        let mut row: Vec<u8> = (0..n as u8).collect();
        for i in (1..n).rev() {
            state = 16_807 * state % 2_147_483_647;
            row.swap(i, (state % (i as u64 + 1)) as usize);
        }
        shuffles.extend(row);
    }
    assert_eq!(state, 137_128_920);
    let (mut locals, mut sums, mut counts) = ([0; 64], [0; own::SUMS], [0; own::RANK_COUNTS]);
    assert_eq!(
        own::account(n, &values, &weights, &mut locals, &mut sums),
        0
    );
    assert_eq!(
        sums,
        [
            85_344,
            5_929_018_368,
            18_144,
            -1_668_068_720_640,
            53_453_138_256,
            64,
            0
        ]
    );
    let number = own::rank(n, &values, &weights, &shuffles, &[0; 499], &mut counts);
    assert_eq!((number, counts), (0, of_desk_0([271, 0, 228])));
}

/// The path 2 1 6: P is -72, -162 with 6 in the middle and -18 with 2 there.
const PATH: ([i32; 3], [u8; 9]) = ([2, 1, 6], [0, 1, 0, 1, 0, 1, 0, 1, 0]);

#[test]
fn ranks_by_desk() {
    let (values, weights) = PATH;
    let (less, equal, greater) = ([0, 2, 1], [2, 1, 0], [1, 0, 2]);
    let rank = |rows: &[[u8; 3]], desks: &[u8]| {
        let mut counts = [7; own::RANK_COUNTS];
        let rows = rows.as_flattened();
        let number = own::rank(3, &values, &weights, rows, desks, &mut counts);
        (number, counts)
    };
    assert_eq!(rank(&[], &[]), (0, [0; own::RANK_COUNTS]));
    let rows = [less, equal, greater, greater, less, greater];
    let counts = [0, 1, 1, 0, 0, 0, 2, 0, 0, 0, 0, 2];
    assert_eq!(rank(&rows, &[2, 0, 3, 0, 2, 3]), (0, counts));
    assert_eq!(rank(&rows, &[0; 6]), (0, of_desk_0([2, 1, 3])));
    // Desk 0 has the same where the others have other rows.
    let rows = [equal, equal, less, greater, equal, less];
    let counts = [0, 1, 1, 1, 0, 0, 0, 2, 0, 1, 0, 0];
    assert_eq!(rank(&rows, &[2, 0, 3, 0, 2, 1]), (0, counts));
    let counts = [0, 0, 0, 0, 0, 0, 0, 0, 0, 499, 0, 0];
    assert_eq!(rank(&[less; 499], &[3; 499]), (0, counts));
}

/// 24 after all others, and 2 for a desk too few or too many; the counts stay.
#[test]
fn refused_ranks() {
    let (values, weights) = PATH;
    let two = [0, 1, 2, 2, 1, 0];
    for (values, rows, desks, number) in [
        (values, &two[..], &[0, 4][..], 24),
        (values, &two, &[255, 0], 24),
        (values, &[0, 1, 2, 2, 1, 1], &[4, 0], 13),
        ([5; 3], &two, &[4, 0], 7),
        (values, &two, &[0], 2),
        (values, &two, &[0; 3], 2),
        (values, &two, &[], 2),
        (values, &two, &[4; 6], 2),
        (values, &[], &[0], 2),
        (values, &two[..4], &[0], 2),
    ] {
        let mut counts = [7; own::RANK_COUNTS];
        let given = own::rank(3, &values, &weights, rows, desks, &mut counts);
        assert_eq!((given, counts), (number, [7; own::RANK_COUNTS]));
    }
}

#[test]
fn counts_of_another_length() {
    let (values, weights) = PATH;
    let two = [0, 1, 2, 2, 1, 0];
    for length in [3, 11, 13] {
        let mut counts = vec![7; length];
        let given = own::rank(3, &values, &weights, &two, &[0, 1], &mut counts);
        assert_eq!((given, counts), (2, vec![7; length]));
    }
}

/// The image of document 01's report.
fn whole_image() -> Vec<u8> {
    let mut values = [0; 64];
    values[..4].copy_from_slice(&[1, 1, 3, 3]);
    let mut categories = [0; 64];
    categories[..4].copy_from_slice(&[0, 0, 1, 1]);
    let mut weights = [0; 4096];
    weights[..16].copy_from_slice(&job(4, &[(0, 1, 3), (1, 0, 3), (1, 2, 1), (2, 1, 1)]));
    let mut places = [0; 128];
    places[..8].copy_from_slice(&[0, 0, 1, 0, 3, 0, 9, 9]);
    let mut bands = [0; 8];
    bands[..2].copy_from_slice(&[1, 4]);
    let mut shuffles = [0; 31_936];
    shuffles[..8].copy_from_slice(&[0, 1, 2, 3, 2, 1, 0, 3]);
    let (mut image, mut length) = (vec![0; 44_908], [0]);
    let counts = [4, 4, 4, 2, 2];
    let number = own::write(
        &values,
        &categories,
        &weights,
        &places,
        &bands,
        &shuffles,
        &counts,
        &mut image,
        &mut length,
    );
    assert_eq!((number, length), (0, [92]));
    image.truncate(92);
    image
}

#[test]
fn whole_report() {
    let (mut text, mut length) = ([7; own::TEXT], [7]);
    assert_eq!(own::report(&whole_image(), &mut text, &mut length), 0);
    let (said, rest) = text.split_at(length[0] as usize);
    let said = std::str::from_utf8(said).unwrap();
    assert_eq!(said, include_str!("../../../samples/report.report"));
    assert!(rest.iter().all(|&byte| byte == 7));
}

/// The number, and nothing stored: 2 before the image's own.
#[test]
fn refused_reports() {
    let image = whole_image();
    for (image, room, places, number) in [
        (&image[..91], own::TEXT, 1, 14),
        (&[], own::TEXT, 1, 14),
        (&[1, 0], own::TEXT, 1, 1),
        (&image[..], own::TEXT - 1, 1, 2),
        (&image[..], own::TEXT + 1, 1, 2),
        (&image[..91], own::TEXT, 0, 2),
        (&image[..91], own::TEXT, 2, 2),
    ] {
        let (mut text, mut length) = (vec![7; room], vec![7; places]);
        assert_eq!(own::report(image, &mut text, &mut length), number);
        assert!(text.iter().all(|&byte| byte == 7) && length.iter().all(|&place| place == 7));
    }
}
