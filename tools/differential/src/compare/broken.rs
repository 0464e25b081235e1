//! Wrong versions of the independent calls, one for each at least. With any of them the comparison must find a difference.
//!
//! A version that stores something wrong is asked where the right call was accepted, and changes what that stored. One that judges wrongly is
//! asked always: it is given the right call's number and answers its own.

use super::left_out::parted;
use super::ties::{job_of, standings, tied_by, Standing};
use differential as own;
use differential::{ABOVE, BELOW, DESKS, EQUAL, NOT_RETURNED, SUMS, ZONES};
use std::cmp::Reverse;

/// The names that `--broken` takes, and what is wrong.
pub const NAMES: [(&str, &str); 67] = [
    (
        "last-local",
        "account: the last local numerator is not stored",
    ),
    (
        "d-of-all",
        "account: d is taken with the number of all zones",
    ),
    (
        "column-alone",
        "account: a zone with weight in its column alone is left out",
    ),
    ("seven-of-all", "account: 7 looks at all zones"),
    (
        "mark-refused",
        "account: a value not returned is refused with 3",
    ),
    (
        "row-alone",
        "account: only the row of a zone not returned counts as 0",
    ),
    ("mark-in-sum", "account: S takes the values not returned"),
    (
        "four-as-left",
        "account: 4 looks at the weights left without the values not returned",
    ),
    ("class-eight", "class account: class 8 is folded into 0"),
    (
        "sum-of-all",
        "class account: S takes the values of all zones",
    ),
    (
        "column-alone-missed",
        "class account: only the column of a zone not returned counts as 0",
    ),
    (
        "weightless",
        "float report: a class without weight stores 0 0",
    ),
    (
        "weightless-sides",
        "float report: a class without weight stores the sides 0 0",
    ),
    (
        "geary-of-all",
        "float report: Geary's n is the number of all zones",
    ),
    (
        "lonely-kept",
        "float report: a neighbour left alone is kept",
    ),
    (
        "global-side-of-size",
        "float report: the side of Moran's I is that of its size",
    ),
    (
        "local-side-of-size",
        "float report: the sides of local figures are those of their sizes",
    ),
    (
        "pair-side-of-size",
        "float report: the side of a class's Moran is that of its size",
    ),
    ("tie-away", "nearest: ties go away from even"),
    ("sides-exchanged", "nearest: below and above are exchanged"),
    (
        "side-of-size",
        "nearest: the side is that of the size and not of the value",
    ),
    (
        "equal-by-product",
        "nearest: equal where the float times q, rounded, is p",
    ),
    (
        "side-before-tie",
        "nearest: the side is taken from the remainder before a tie is settled",
    ),
    (
        "hot-ties",
        "hot list: zones of equal row sums by falling number",
    ),
    (
        "ties-by-number",
        "hot list: equal zones by rising number alone",
    ),
    ("ties-by-smaller", "hot list: equal zones by rising row sum"),
    ("ties-by-column", "hot list: equal zones by column sum"),
    (
        "ties-by-both",
        "hot list: equal zones by row and column sum together",
    ),
    (
        "ties-as-lent",
        "hot list: equal zones by row sum of the weights as lent",
    ),
    (
        "ties-in-a-byte",
        "hot list: equal zones by what a byte holds of the row sum",
    ),
    (
        "left-out-as-zero",
        "hot list: a zone left out comes before a kept one with L below 0",
    ),
    (
        "five-as-left",
        "hot list: 5 looks at the weights left without the values not returned",
    ),
    ("rank-inverse", "rank: the value goes to the zone named"),
    (
        "by-place",
        "rank: a kept zone takes the value of the zone named at its place",
    ),
    (
        "lonely-shuffled",
        "rank: zones not returned, and those left alone, take part in shuffles",
    ),
    (
        "desk-by-place",
        "rank: a row's desk is the rest of its place by 4",
    ),
    ("every-desk", "rank: every desk has the rows of all"),
    ("desk-0-twice", "rank: desk 1 has the rows of desk 0 too"),
    (
        "less-of-all-first",
        "rank: the counts are less of each desk, then equal, then greater",
    ),
    ("desk-before-shuffle", "rank: 24 before 13"),
    ("desk-3-refused", "rank: desk 3 is refused with 24"),
    ("desk-4-taken", "rank: desk 4 is taken"),
    (
        "desks-unjudged",
        "rank: any length of the desks is taken, those that lack being 0",
    ),
    ("transposed", "join table: rows and columns exchanged"),
    ("joins-as-lent", "join table: the weights count as lent"),
    (
        "table-six",
        "join table: 6 where nothing is left of the weights",
    ),
    (
        "on-circle",
        "gabriel: a place on the circle counts as outside",
    ),
    (
        "stored-anyway",
        "bands: a byte is stored though the call is refused",
    ),
    ("wrapped", "rook: the product of rows and columns wraps"),
    ("bishop-corner", "bishop: the last zone has no neighbour"),
    (
        "queen-counts",
        "queen: a call whose list is too long by one is taken",
    ),
    ("unused-cleared", "read: unused bands are cleared"),
    ("read-seven-of-all", "read: 7 looks at all zones"),
    ("read-six-as-listed", "read: 6 looks at the joins as listed"),
    (
        "four-first",
        "write: 4 before 5 at a weight of the diagonal",
    ),
    ("write-seven-of-all", "write: 7 looks at all zones"),
    ("write-six-as-lent", "write: 6 looks at the weights as lent"),
    (
        "joins-dropped",
        "write: the joins of a zone not returned are dropped",
    ),
    (
        "local-ties-by-number",
        "report: local lines of equal zones by rising number alone",
    ),
    (
        "local-ties-as-lent",
        "report: local lines of equal zones by row sum of the weights as lent",
    ),
    ("lower-case", "report: hexadecimal digits in lower case"),
    (
        "refused-as-text",
        "report: a refused image gives 0 and a text that says so",
    ),
    (
        "expected-of-all",
        "report: the expected value counts all zones",
    ),
    (
        "missing-said",
        "report: the first line says how many values are not returned",
    ),
    ("signs-exchanged", "report: `<` and `>` are exchanged"),
    ("sign-spaced", "report: a space before each sign"),
    (
        "weightless-signed",
        "report: a sign behind the `-` of a class without weight",
    ),
];

/// The values and the weights of a job.
pub struct Job {
    n: usize,
    x: Vec<i32>,
    w: Vec<u8>,
}

impl Job {
    /// What is left of a job without the values not returned: 0 stands for them, and for weights of their zones.
    pub fn left(x: &[i32], w: &[u8]) -> Self {
        Self::counting(x, w, |from, to| from && to)
    }

    /// 0 stands for the values not returned, and a weight counts by whether the values of its zones, that of its row first, are returned.
    pub fn counting(x: &[i32], w: &[u8], counts: fn(bool, bool) -> bool) -> Self {
        let n = x.len();
        let returned = |zone: usize| x[zone] != NOT_RETURNED;
        let counted = |place: usize| counts(returned(place / n), returned(place % n));
        let weight = |(place, &w)| if counted(place) { w } else { 0 };
        let value = |&x: &i32| if x == NOT_RETURNED { 0 } else { x };
        Job {
            n,
            x: x.iter().map(value).collect(),
            w: w.iter().enumerate().map(weight).collect(),
        }
    }

    /// The local numerators and the sums, 0 where the job is refused.
    fn worked(&self) -> (Vec<i64>, [i64; SUMS]) {
        self.worked_with(&self.x)
    }

    /// The same with these values.
    fn worked_with(&self, x: &[i32]) -> (Vec<i64>, [i64; SUMS]) {
        let (mut locals, mut sums) = (vec![0; self.n], [0; SUMS]);
        own::account(self.n, x, &self.w, &mut locals, &mut sums);
        (locals, sums)
    }

    /// d as it comes with that number of zones and that S.
    fn deviations(&self, count: usize, s: i64) -> Vec<i64> {
        let d = |&x: &i32| count as i64 * i64::from(x) - s;
        self.x.iter().map(d).collect()
    }

    /// d(i) times the sum of w(i,j) x d(j), over the pairs that are taken by their place in the weights; P is the sum.
    fn put_locals(&self, d: &[i64], locals: &mut [i64], taken: impl Fn(usize) -> bool) -> i64 {
        for (i, place) in locals.iter_mut().enumerate() {
            let row = (i * self.n..).zip(d).filter(|&(pair, _)| taken(pair));
            let near: i64 = row.map(|(pair, d)| i64::from(self.w[pair]) * d).sum();
            *place = d[i] * near;
        }
        locals.iter().sum()
    }
}

fn total<'a>(x: impl IntoIterator<Item = &'a i32>) -> i64 {
    x.into_iter().map(|&x| i64::from(x)).sum()
}

// ---- what an accepted call stores

/// The last place keeps what it held before.
pub fn last_local(before: i64, locals: &mut [i64]) {
    locals[locals.len() - 1] = before;
}

pub fn d_of_all(job: &Job, locals: &mut [i64], sums: &mut [i64]) {
    let d = job.deviations(job.n, sums[0]);
    sums[3] = job.put_locals(&d, locals, |_| true);
}

pub fn column_alone(job: &Job, locals: &mut [i64], sums: &mut [i64]) {
    let gives = |i: &usize| job.w[i * job.n..][..job.n].iter().any(|&w| w > 0);
    let giving: Vec<i32> = (0..job.n).filter(gives).map(|i| job.x[i]).collect();
    let (count, s) = (giving.len(), total(&giving));
    let squares: i64 = giving.iter().map(|&x| i64::from(x).pow(2)).sum();
    sums[0] = s;
    sums[1] = count as i64 * squares - s * s;
    sums[3] = job.put_locals(&job.deviations(count, s), locals, |_| true);
    sums[5] = count as i64;
}

pub fn row_alone(x: &[i32], w: &[u8], locals: &mut [i64], sums: &mut [i64]) {
    let missing = sums[6];
    let job = Job::counting(x, w, |from, _| from);
    own::account(job.n, &job.x, &job.w, locals, sums);
    sums[6] = missing;
}

pub fn mark_in_sum(sums: &mut [i64]) {
    sums[0] += sums[6] * i64::from(NOT_RETURNED);
}

pub fn class_eight(job: &Job, classes: &[u8], rows: &mut [i64], locals: &mut [i64]) {
    let fold = |&k: &u8| if k == 8 { 0 } else { k };
    let folded: Vec<u8> = classes.iter().map(fold).collect();
    own::class_account(job.n, &job.x, &job.w, &folded, rows, locals);
}

pub fn column_alone_missed(
    x: &[i32],
    w: &[u8],
    classes: &[u8],
    rows: &mut [i64],
    locals: &mut [i64],
) {
    let job = Job::counting(x, w, |_, to| to);
    own::class_account(job.n, &job.x, &job.w, classes, rows, locals);
}

pub fn sum_of_all(job: &Job, classes: &[u8], rows: &mut [i64], locals: &mut [i64]) {
    let (kept, _) = parted(&job.x, &job.w);
    let d = job.deviations(kept.len(), total(&job.x));
    let classed = rows.chunks_exact_mut(3).zip(locals.chunks_exact_mut(job.n));
    for (k, (row, locals)) in classed.enumerate() {
        row[1] = job.put_locals(&d, locals, |pair| usize::from(classes[pair]) == k);
    }
}

pub fn weightless<T: Copy + Default>(pairs: &mut [T], has_pair: &[u8]) {
    for (pair, &has) in pairs.chunks_exact_mut(2).zip(has_pair) {
        if has == 0 {
            pair.fill(T::default());
        }
    }
}

pub fn geary_of_all(job: &Job, globals: &mut [f64], sides: &mut [u8]) {
    let (_, [_, m, weight, _, g, ..]) = job.worked();
    let numerator = (job.n as i64 - 1) * job.n as i64 * g;
    own::nearest(
        numerator,
        2 * weight * m,
        &mut globals[1..],
        &mut sides[1..],
    );
}

/// Moran's I over all zones that are returned and have weight as it is lent.
pub fn lonely_kept(x: &[i32], w: &[u8], globals: &mut [f64], sides: &mut [u8]) {
    let job = Job::left(x, w);
    let (weighty, _) = parted(&vec![0; job.n], w);
    let kept = weighty.iter().filter(|&&zone| x[zone] != NOT_RETURNED);
    let kept: Vec<i32> = kept.map(|&zone| x[zone]).collect();
    let (count, s) = (kept.len(), total(&kept));
    let squares: i64 = kept.iter().map(|&x| i64::from(x).pow(2)).sum();
    let m = count as i64 * squares - s * s;
    let d = job.deviations(count, s);
    let p = job.put_locals(&d, &mut vec![0; job.n], |_| true);
    let (_, [_, _, weight, ..]) = job.worked();
    own::nearest(p, weight * m, &mut globals[..1], &mut sides[..1]);
}

fn exchanged(side: u8) -> u8 {
    match side {
        BELOW => ABOVE,
        ABOVE => BELOW,
        _ => side,
    }
}

pub fn sides_exchanged(sides: &mut [u8]) {
    sides.iter_mut().for_each(|side| *side = exchanged(*side));
}

pub fn side_of_size(floats: &[f64], sides: &mut [u8]) {
    for (float, side) in floats.iter().zip(sides) {
        if *float < 0.0 {
            *side = exchanged(*side);
        }
    }
}

pub fn pair_side_of_size(pairs: &[f64], sides: &mut [u8], has_pair: &[u8]) {
    let classes = pairs.chunks_exact(2).zip(sides.chunks_exact_mut(2));
    for ((pair, sides), &has) in classes.zip(has_pair) {
        if has == 1 {
            side_of_size(pair, sides);
        }
    }
}

pub fn equal_by_product(p: i64, q: i64, out: &[f64], side: &mut [u8]) {
    if out[0] * q as f64 == p as f64 {
        side[0] = EQUAL;
    }
}

/// Whether the float next to the nearest one, outward, is as near to p / q: the two then sum to twice the ratio, in steps of the nearest.
fn ties_outward(p: i64, q: i64, nearest: f64) -> bool {
    if p == 0 {
        return false;
    }
    let near = nearest.abs().to_bits();
    let exponent = (near >> 52) as i32 - 1075;
    let twice = 2 * (near & ((1 << 52) - 1) | 1 << 52) + 1;
    let (size, divisor) = (u128::from(p.unsigned_abs()) * 2, q.unsigned_abs());
    let shift = exponent.unsigned_abs();
    if exponent >= 0 {
        size == (u128::from(twice) << shift) * u128::from(divisor)
    } else {
        let scaled = size.checked_shl(shift).filter(|x| x >> shift == size);
        scaled == Some(u128::from(twice) * u128::from(divisor))
    }
}

pub fn tie_away(p: i64, q: i64, out: &mut [f64], side: &mut [u8]) {
    if ties_outward(p, q, out[0]) {
        let far = f64::from_bits(out[0].abs().to_bits() + 1);
        out[0] = far.copysign(out[0]);
        sides_exchanged(side);
    }
}

/// Half a step or more that is left of the ratio is taken for one that was rounded away from 0.
pub fn side_before_tie(p: i64, q: i64, out: &[f64], side: &mut [u8]) {
    if ties_outward(p, q, out[0]) {
        sides_exchanged(side);
    }
}

pub fn hot_ties(x: &[i32], w: &[u8], zones: &mut [u8]) {
    tied_by(x, w, zones, |z| Reverse((z.row, z.zone)));
}

/// As before request A.2.
pub fn ties_by_number(x: &[i32], w: &[u8], zones: &mut [u8]) {
    tied_by(x, w, zones, |z| z.zone);
}

pub fn ties_by_smaller(x: &[i32], w: &[u8], zones: &mut [u8]) {
    tied_by(x, w, zones, |z| (z.row, z.zone));
}

pub fn ties_by_column(x: &[i32], w: &[u8], zones: &mut [u8]) {
    tied_by(x, w, zones, |z| (Reverse(z.column), z.zone));
}

pub fn ties_by_both(x: &[i32], w: &[u8], zones: &mut [u8]) {
    tied_by(x, w, zones, |z| (Reverse(z.row + z.column), z.zone));
}

pub fn ties_as_lent(x: &[i32], w: &[u8], zones: &mut [u8]) {
    tied_by(x, w, zones, |z| (Reverse(z.lent), z.zone));
}

pub fn ties_in_a_byte(x: &[i32], w: &[u8], zones: &mut [u8]) {
    tied_by(x, w, zones, |z| (Reverse(z.row % 256), z.zone));
}

/// The zones left out stay in their order, as they stand last.
pub fn left_out_as_zero(x: &[i32], w: &[u8], zones: &mut [u8]) {
    let standings = standings(x, w);
    let is_below = |zone: &u8| {
        let same = standings.iter().find(|z| z.zone == usize::from(*zone));
        same.is_some_and(|z| z.local < 0)
    };
    zones.sort_by_key(is_below);
}

pub fn rank_inverse(job: &Job, shuffles: &[u8], desks: &[u8], counts: &mut [u64]) {
    let mut inverse = shuffles.to_vec();
    let rows = shuffles.chunks_exact(job.n);
    for (to, row) in inverse.chunks_exact_mut(job.n).zip(rows) {
        for (&zone, i) in row.iter().zip(0..) {
            to[usize::from(zone)] = i;
        }
    }
    own::rank(job.n, &job.x, &job.w, &inverse, desks, counts);
}

/// As before request A.6.
pub fn by_place(job: &Job, shuffles: &[u8], desks: &[u8], counts: &mut [u64]) {
    let all: Vec<usize> = (0..job.n).collect();
    shuffle_among(job, &all, shuffles, desks, counts);
}

/// As request A.6 alone has it.
pub fn lonely_shuffled(x: &[i32], w: &[u8], shuffles: &[u8], desks: &[u8], counts: &mut [u64]) {
    let job = Job::left(x, w);
    let (weighty, _) = parted(&vec![0; job.n], w);
    shuffle_among(&job, &weighty, shuffles, desks, counts);
}

/// Ranks the job where a row's numbers of these zones, in their order, go to these zones. Kept zones that become equal have a P of 0, as
/// `worked` gives it.
fn shuffle_among(job: &Job, zones: &[usize], shuffles: &[u8], desks: &[u8], counts: &mut [u64]) {
    let p = |x: &[i32]| job.worked_with(x).1[3];
    counts.fill(0);
    for (row, &desk) in shuffles.chunks_exact(job.n).zip(desks) {
        let numbers = row.iter().map(|&number| usize::from(number));
        let numbers = numbers.filter(|number| zones.contains(number));
        let mut taken = job.x.clone();
        for (&zone, from) in zones.iter().zip(numbers) {
            taken[zone] = job.x[from];
        }
        let count = (p(&taken).cmp(&p(&job.x)) as i8 + 1) as usize;
        counts[3 * usize::from(desk) + count] += 1;
    }
}

pub fn desk_by_place(job: &Job, shuffles: &[u8], counts: &mut [u64]) {
    let rows = shuffles.len() / job.n;
    let desks: Vec<u8> = (0..DESKS as u8).cycle().take(rows).collect();
    own::rank(job.n, &job.x, &job.w, shuffles, &desks, counts);
}

pub fn every_desk(counts: &mut [u64]) {
    let all = [0, 1, 2].map(|count| counts.iter().skip(count).step_by(3).sum());
    counts.copy_from_slice([all; DESKS].as_flattened());
}

pub fn desk_0_twice(counts: &mut [u64]) {
    let (first, others) = counts.split_at_mut(3);
    let both = others.iter_mut().zip(first);
    both.for_each(|(second, first)| *second += *first);
}

pub fn less_of_all_first(counts: &mut [u64]) {
    let by_desk = counts.to_vec();
    for (place, count) in counts.iter_mut().enumerate() {
        *count = by_desk[3 * (place % DESKS) + place / DESKS];
    }
}

/// As before request A.7.
pub fn joins_as_lent(w: &[u8], categories: &[u8], table: &mut [i64]) {
    let n = categories.len();
    own::join_table(n, &vec![0; n], categories, w, table);
}

pub fn transposed(table: &mut [i64]) {
    for r in 0..8 {
        for s in 0..r {
            table.swap(8 * r + s, 8 * s + r);
        }
    }
}

pub fn on_circle(n: usize, places: &[i32], weights: &mut [u8]) {
    let square = |i: usize, j: usize| {
        let gap = |k: usize| i64::from(places[2 * i + k] - places[2 * j + k]);
        gap(0) * gap(0) + gap(1) * gap(1)
    };
    for i in 0..n {
        for j in (0..n).filter(|&j| j != i) {
            let outside = |k| square(i, j) <= square(i, k) + square(j, k);
            weights[i * n + j] = u8::from((0..n).all(outside));
        }
    }
}

pub fn bishop_corner(n: usize, weights: &mut [u8]) {
    weights[n * (n - 1)..].fill(0);
}

pub fn unused_cleared(bands: &mut [u32], counts: &[u64]) {
    bands[counts[4] as usize..].fill(0);
}

#[allow(clippy::too_many_arguments)]
pub fn joins_dropped(
    values: &[i32],
    categories: &[u8],
    weights: &[u8],
    places: &[i32],
    bands: &[u32],
    shuffles: &[u8],
    counts: &[u64],
    out: &mut [u8],
    length: &mut [u64],
) {
    let n = counts[0] as usize;
    let mut left = Job::left(&values[..n], &weights[..n * n]).w;
    left.resize(weights.len(), 0);
    own::write(
        values, categories, &left, places, bands, shuffles, counts, out, length,
    );
}

/// Puts the local lines by falling L, those of equal ones by another rising key.
fn lines_tied_by<K: Ord>(
    image: &[u8],
    text: &mut [u8],
    length: &mut [u64],
    key: fn(&Standing) -> K,
) {
    let (values, weights) = job_of(image).expect("it is accepted");
    let said = said(text, length);
    let is_local = |line: &&str| line.starts_with("local ");
    let (local, others): (Vec<&str>, Vec<&str>) = said.split_inclusive('\n').partition(is_local);
    let mut zones = vec![0; local.len()];
    tied_by(&values, &weights, &mut zones, key);
    let line = |zone: &u8| {
        let front = format!("local {zone} ");
        let mut local = local.iter();
        *local
            .find(|line| line.starts_with(&front))
            .expect("it is kept")
    };
    let local: String = zones.iter().map(line).collect();
    let (before, behind) = others.split_at(5);
    let said = [before.concat(), local, behind.concat()].concat();
    store(&said, text, length);
}

/// As before request A.2.
pub fn local_ties_by_number(image: &[u8], text: &mut [u8], length: &mut [u64]) {
    lines_tied_by(image, text, length, |z| z.zone);
}

pub fn local_ties_as_lent(image: &[u8], text: &mut [u8], length: &mut [u64]) {
    lines_tied_by(image, text, length, |z| (Reverse(z.lent), z.zone));
}

pub fn lower_case(text: &mut [u8], length: &[u64]) {
    text[..length[0] as usize].make_ascii_lowercase();
}

fn said(text: &[u8], length: &[u64]) -> String {
    String::from_utf8_lossy(&text[..length[0] as usize]).into_owned()
}

/// Puts this in the place of a report.
fn store(said: &str, text: &mut [u8], length: &mut [u64]) {
    text[..said.len()].copy_from_slice(said.as_bytes());
    length[0] = said.len() as u64;
}

pub fn expected_of_all(image: &[u8], text: &mut [u8], length: &mut [u64]) {
    let said = said(text, length);
    let (before, rest) = said.split_once("expected -1 ").expect("it has the line");
    let (_, behind) = rest.split_once('\n').expect("the line ends");
    let others = image[0] - 1;
    let said = format!("{before}expected -1 {others}\n{behind}");
    store(&said, text, length);
}

pub fn missing_said(image: &[u8], text: &mut [u8], length: &mut [u64]) {
    let (values, _) = image[2..].as_chunks();
    let values = values[..usize::from(image[0])].iter();
    let missing = values.filter(|&&x| i32::from_le_bytes(x) == NOT_RETURNED);
    let missing = missing.count();
    if missing > 0 {
        let said = said(text, length);
        let (zones, behind) = said.split_once('\n').expect("the line ends");
        store(&format!("{zones} {missing}\n{behind}"), text, length);
    }
}

pub fn signs_exchanged(text: &mut [u8], length: &[u64]) {
    for byte in &mut text[..length[0] as usize] {
        *byte = match *byte {
            b'<' => b'>',
            b'>' => b'<',
            other => other,
        };
    }
}

pub fn sign_spaced(text: &mut [u8], length: &mut [u64]) {
    let spaced = |byte: char| match byte {
        '=' | '<' | '>' => format!(" {byte}"),
        _ => byte.to_string(),
    };
    let said: String = said(text, length).chars().map(spaced).collect();
    store(&said, text, length);
}

pub fn weightless_signed(text: &mut [u8], length: &mut [u64]) {
    let said = said(text, length).replace(" - -\n", " -= -=\n");
    store(&said, text, length);
}

// ---- what a call answers

/// 0 instead of 7, unless all the values are equal.
pub fn seven_of_all<T: PartialEq>(number: u8, values: &[T]) -> u8 {
    let differ = values.windows(2).any(|two| two[0] != two[1]);
    if number == 7 && differ {
        0
    } else {
        number
    }
}

/// 1 and 2 come before 3.
pub fn mark_refused(number: u8, x: &[i32]) -> u8 {
    if ![1, 2].contains(&number) && x.contains(&NOT_RETURNED) {
        3
    } else {
        number
    }
}

/// 0 instead of 4, if none of the weights left is too large.
pub fn four_as_left(number: u8, x: &[i32], w: &[u8]) -> u8 {
    if number == 4 && Job::left(x, w).w.iter().all(|&w| w <= 9) {
        0
    } else {
        number
    }
}

/// 0 instead of 5, if none of the weights left is on the diagonal.
pub fn five_as_left(number: u8, x: &[i32], w: &[u8]) -> u8 {
    let is_clear = |w: Vec<u8>| w.iter().step_by(x.len() + 1).all(|&w| w == 0);
    if number == 5 && is_clear(Job::left(x, w).w) {
        0
    } else {
        number
    }
}

/// 24 instead of 13, if a desk is above 3.
pub fn desk_before_shuffle(number: u8, desks: &[u8]) -> u8 {
    if number == 13 && desks.iter().any(|&desk| desk > 3) {
        24
    } else {
        number
    }
}

pub fn desk_3_refused(number: u8, desks: &[u8]) -> u8 {
    if number == 0 && desks.contains(&3) {
        24
    } else {
        number
    }
}

/// 0 instead of 24, if no desk is above 4.
pub fn desk_4_taken(number: u8, desks: &[u8]) -> u8 {
    if number == 24 && desks.iter().all(|&desk| desk <= 4) {
        0
    } else {
        number
    }
}

/// What the call gives with as many desks as there are rows.
pub fn desks_unjudged(
    number: u8,
    n: usize,
    x: &[i32],
    w: &[u8],
    shuffles: &[u8],
    desks: &[u8],
    counts: &mut [u64],
) -> u8 {
    if number != 2 {
        return number;
    }
    let mut desks = desks.to_vec();
    desks.resize(shuffles.len() / n, 0);
    own::rank(n, x, w, shuffles, &desks, counts)
}

/// 6 instead of 0, if no weight is left.
pub fn table_six(number: u8, x: &[i32], w: &[u8]) -> u8 {
    if number == 0 && Job::left(x, w).w.iter().all(|&w| w == 0) {
        6
    } else {
        number
    }
}

pub fn stored_anyway(number: u8, classes: &mut [u8]) -> u8 {
    if let (12, Some(last)) = (number, classes.last_mut()) {
        *last = !*last;
    }
    number
}

pub fn wrapped(number: u8, rows: usize, columns: usize, weights: &[u8]) -> u8 {
    let n = rows.wrapping_mul(columns);
    match number {
        1 if (2..=ZONES).contains(&n) && weights.len() == n * n => 0,
        _ => number,
    }
}

pub fn queen_counts(number: u8, rows: usize, columns: usize, weights: &mut [u8]) -> u8 {
    match weights.split_last_mut() {
        Some((_, front)) if number == 2 => own::grid_queen(rows, columns, front),
        _ => number,
    }
}

pub fn read_seven_of_all(number: u8, image: &[u8]) -> u8 {
    match (number, image) {
        (7, [n, 0, rest @ ..]) => {
            let (values, _) = rest.as_chunks::<4>();
            seven_of_all(number, &values[..usize::from(*n)])
        }
        _ => number,
    }
}

/// 0 instead of 6, if any join is listed.
pub fn read_six_as_listed(number: u8, image: &[u8]) -> u8 {
    let count = |place: usize| usize::from(u16::from_le_bytes([image[place], image[place + 1]]));
    if number == 6 {
        let categories = 2 + 4 * count(0);
        let joins = categories + 2 + count(categories);
        if count(joins) > 0 {
            return 0;
        }
    }
    number
}

pub fn four_first(number: u8, weights: &[u8], counts: &[u64]) -> u8 {
    if number == 5 {
        let n = counts[0] as usize;
        let mut diagonal = weights[..n * n].iter().step_by(n + 1);
        if diagonal.find(|&&w| w > 0).is_some_and(|&w| w > 9) {
            return 4;
        }
    }
    number
}

pub fn write_seven_of_all(number: u8, values: &[i32], counts: &[u64]) -> u8 {
    match number {
        7 => seven_of_all(number, &values[..counts[0] as usize]),
        _ => number,
    }
}

/// 0 instead of 6, if there is any weight.
pub fn write_six_as_lent(number: u8, weights: &[u8], counts: &[u64]) -> u8 {
    let n = counts.first().map_or(0, |&n| n as usize);
    if number == 6 && weights[..n * n].iter().any(|&w| w > 0) {
        0
    } else {
        number
    }
}

/// As the report program prints it.
pub fn refused_as_text(number: u8, text: &mut [u8], length: &mut [u64]) -> u8 {
    if number == 0 || number == 2 {
        return number;
    }
    store(&format!("refused {number}\n"), text, length);
    0
}
