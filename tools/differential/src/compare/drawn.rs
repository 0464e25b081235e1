//! Each call with drawn arguments.

use super::calls::{self, Outcome, Run};
use super::desks;
use super::draw::{self, Draw, Sections};
use super::left_out::{self, Kinds};
use super::lent::Lent;
use super::ties;
use differential::image::SHUFFLE_BYTES;
use differential::{BANDS, CLASSES, RANK_COUNTS, SHUFFLES, SUMS, TEXT, ZONES};

/// A job as the account, the class account, the report, the hot list, the rank and the join table take it.
struct Job {
    n: usize,
    values: Vec<i32>,
    weights: Vec<u8>,
    /// As long as the job is not spoiled.
    kinds: Kinds,
}

/// How many zones there are; now and then not so many as may be.
fn zones(draw: &mut Draw) -> usize {
    if draw.once_in(30) {
        draw::any_zones(draw)
    } else {
        draw::zones(draw)
    }
}

impl Job {
    fn draw(draw: &mut Draw) -> Self {
        let n = zones(draw);
        let (values, weights) = draw::job(draw, n);
        Job {
            n,
            kinds: left_out::kinds(&values, &weights),
            values,
            weights,
        }
    }

    /// Whether its lists have the lengths that n asks for.
    fn fits(&self) -> bool {
        self.values.len() == self.n && self.n.checked_mul(self.n) == Some(self.weights.len())
    }

    /// One fault in the job, or in the length of another list.
    fn spoil(&mut self, draw: &mut Draw, lengths: &mut [usize]) {
        self.kinds = left_out::NONE;
        match draw.below(12) {
            0 => draw::spoil_zones(draw, &mut self.n),
            1 => {
                let k = draw.below(lengths.len());
                draw::spoil_length(draw, &mut lengths[k]);
            }
            2 => draw::spoil_list(draw, &mut self.values),
            3 => draw::spoil_list(draw, &mut self.weights),
            4..=7 => draw::spoil_values(draw, &mut self.values),
            _ => draw::spoil_weights(draw, self.n, &mut self.weights),
        }
    }
}

/// A job, and the lengths that its further lists have by n; spoiled as often as is drawn.
fn spoiled<const LISTS: usize>(
    draw: &mut Draw,
    lengths: impl Fn(usize) -> [usize; LISTS],
) -> (Job, [usize; LISTS]) {
    let mut job = Job::draw(draw);
    let mut lengths = lengths(job.n);
    for _ in 0..draw.faults() {
        job.spoil(draw, &mut lengths);
    }
    (job, lengths)
}

pub fn account(run: &mut Run, draw: &mut Draw) -> Outcome {
    let (job, lengths) = spoiled(draw, |n| [n, SUMS]);
    run.kinds = job.kinds;
    calls::account::compare(
        run,
        job.n,
        &mut Lent::list(draw, &job.values),
        &mut Lent::list(draw, &job.weights),
        &mut Lent::noise(draw, lengths[0]),
        &mut Lent::noise(draw, lengths[1]),
    )
}

/// The same with classes.
fn classed<const LISTS: usize>(
    draw: &mut Draw,
    lengths: impl Fn(usize) -> [usize; LISTS],
) -> (Job, Vec<u8>, [usize; LISTS]) {
    let mut job = Job::draw(draw);
    let mut lengths = lengths(job.n);
    let mut classes = draw::classes(draw, job.n);
    for _ in 0..draw.faults() {
        match draw.below(6) {
            0 if draw.once_in(2) => draw::spoil_list(draw, &mut classes),
            0 | 1 => draw::spoil_kinds(draw, &mut classes, 8),
            _ => job.spoil(draw, &mut lengths),
        }
    }
    (job, classes, lengths)
}

pub fn class_account(run: &mut Run, draw: &mut Draw) -> Outcome {
    let (job, classes, lengths) = classed(draw, |n| [3 * CLASSES, n * CLASSES]);
    run.kinds = job.kinds;
    calls::class_account::compare(
        run,
        job.n,
        &mut Lent::list(draw, &job.values),
        &mut Lent::list(draw, &job.weights),
        &mut Lent::list(draw, &classes),
        &mut Lent::noise(draw, lengths[0]),
        &mut Lent::noise(draw, lengths[1]),
    )
}

pub fn float_report(run: &mut Run, draw: &mut Draw) -> Outcome {
    let (job, classes, lengths) =
        classed(draw, |n| [2, 2, n, n, 2 * CLASSES, 2 * CLASSES, CLASSES]);
    run.kinds = job.kinds;
    calls::float_report::compare(
        run,
        job.n,
        &mut Lent::list(draw, &job.values),
        &mut Lent::list(draw, &job.weights),
        &mut Lent::list(draw, &classes),
        &mut Lent::noise(draw, lengths[0]),
        &mut Lent::noise(draw, lengths[1]),
        &mut Lent::noise(draw, lengths[2]),
        &mut Lent::noise(draw, lengths[3]),
        &mut Lent::noise(draw, lengths[4]),
        &mut Lent::noise(draw, lengths[5]),
        &mut Lent::noise(draw, lengths[6]),
    )
}

/// The largest p and q that dca_nearest takes.
const LIMIT: i64 = 6_000_000_000_000_000_000;

/// A ratio halfway between two floats, or next to that.
fn halfway(draw: &mut Draw, sign: i64) -> (i64, i64) {
    let odd = match draw.below(8) {
        0 => (1 << 54) - 1,
        1 => (1 << 53) + 1,
        _ => (1 << 53) + 2 * draw.below(1 << 52) as i64 + 1,
    };
    let factor = 1 + draw.below((LIMIT / odd) as usize) as i64;
    let mut p = odd * factor;
    let mut q = factor;
    if p <= LIMIT / 2 && draw.once_in(2) {
        p *= 2;
    }
    let room = (LIMIT / q).ilog2() as usize;
    q <<= draw.below(room + 1);
    if draw.once_in(2) {
        (sign * p, q)
    } else {
        (sign * (p + draw.pick(&[1, -1])).min(LIMIT), q)
    }
}

/// A ratio: of any sizes, halfway between two floats or next to that, at the limits.
fn ratio(draw: &mut Draw) -> (i64, i64) {
    const EDGES: [i64; 8] = [
        LIMIT,
        LIMIT + 1,
        LIMIT - 1,
        i64::MAX,
        1,
        0,
        (1 << 53) - 1,
        1 << 53,
    ];
    const FAR: [i64; 7] = [i64::MIN, i64::MAX, 0, -1, LIMIT + 1, -LIMIT - 1, -LIMIT];
    let sign = draw.pick(&[1, -1]);
    let sized = |draw: &mut Draw| (draw.next() >> (1 + draw.below(63))) as i64;
    let edge = |draw: &mut Draw| draw.pick(&[1, -1]) * draw.pick(&EDGES);
    match draw.below(16) {
        0..=3 => (sign * sized(draw), sized(draw)),
        4..=9 => halfway(draw, sign),
        10 => (draw.between(-20, 20), draw.between(-4, 40)),
        11 => (edge(draw), edge(draw)),
        12 => (draw.next() as i64, draw.next() as i64),
        13 if draw.once_in(2) => (draw.pick(&FAR), sized(draw)),
        13 => (sign * sized(draw), draw.pick(&FAR)),
        14 => {
            let m = 1 + draw.below(40_960_000_000_000) as i64;
            let w = 1 + draw.below(36_288) as i64;
            (sign * sized(draw) / 16, w * m)
        }
        _ => {
            let q = 1i64 << draw.below(62);
            let p = sign * (q + draw.between(-1, 1));
            (p, draw.pick(&[q, q, q - 1, 1]))
        }
    }
}

pub fn nearest(run: &mut Run, draw: &mut Draw) -> Outcome {
    let (p, q) = ratio(draw);
    let mut lengths = [1, 1];
    spoil_one(draw, &mut lengths);
    calls::nearest::compare(
        run,
        p,
        q,
        &mut Lent::noise(draw, lengths[0]),
        &mut Lent::noise(draw, lengths[1]),
    )
}

pub fn hot_list(run: &mut Run, draw: &mut Draw) -> Outcome {
    let (job, lengths) = spoiled(draw, |n| [n]);
    run.kinds = job.kinds;
    run.ties = ties::ties(&job.values, &job.weights);
    calls::hot_list::compare(
        run,
        job.n,
        &mut Lent::list(draw, &job.values),
        &mut Lent::list(draw, &job.weights),
        &mut Lent::noise(draw, lengths[0]),
    )
}

pub fn rank(run: &mut Run, draw: &mut Draw) -> Outcome {
    let mut job = Job::draw(draw);
    let mut lengths = [RANK_COUNTS];
    let rows = match draw.below(80) {
        0 | 1 => draw.pick(&[SHUFFLES + 1, SHUFFLES + 2, 1000]),
        2 => SHUFFLES,
        _ => draw::shuffle_count(draw),
    };
    let n = job.n;
    let mut shuffles = draw::shuffles(draw, n, rows);
    let mut desks = draw::desks(draw, rows);
    for _ in 0..draw.faults() {
        match draw.below(9) {
            0 if draw.once_in(3) => draw::spoil_list(draw, &mut shuffles),
            0..=2 => draw::spoil_shuffles(draw, n, &mut shuffles),
            3 | 4 => draw::spoil_kinds(draw, &mut desks, 3),
            5 => draw::spoil_desk_count(draw, n, &mut desks),
            _ => job.spoil(draw, &mut lengths),
        }
    }
    run.kinds = job.kinds;
    if job.fits() && lengths == [RANK_COUNTS] {
        run.desks = desks::kinds(n, &shuffles, &desks);
    }
    calls::rank::compare(
        run,
        job.n,
        &mut Lent::list(draw, &job.values),
        &mut Lent::list(draw, &job.weights),
        &mut Lent::list(draw, &shuffles),
        &mut Lent::list(draw, &desks),
        &mut Lent::noise(draw, lengths[0]),
    )
}

pub fn join_table(run: &mut Run, draw: &mut Draw) -> Outcome {
    let mut job = Job::draw(draw);
    let mut categories = draw::categories(draw, job.n);
    let mut lengths = [64];
    for _ in 0..draw.faults() {
        match draw.below(6) {
            0 if draw.once_in(2) => draw::spoil_list(draw, &mut categories),
            0 | 1 => draw::spoil_kinds(draw, &mut categories, 7),
            _ => job.spoil(draw, &mut lengths),
        }
    }
    run.kinds = job.kinds;
    calls::join_table::compare(
        run,
        job.n,
        &mut Lent::list(draw, &job.values),
        &mut Lent::list(draw, &categories),
        &mut Lent::list(draw, &job.weights),
        &mut Lent::noise(draw, lengths[0]),
    )
}

/// Zones, places and the length of the lent table.
fn placed(draw: &mut Draw, bands: &mut Vec<u32>) -> (usize, Vec<i32>, usize) {
    let mut n = zones(draw);
    let mut places = draw::places(draw, n);
    let mut length = n * n;
    for _ in 0..draw.faults() {
        match draw.below(10) {
            0 => draw::spoil_zones(draw, &mut n),
            1 => draw::spoil_length(draw, &mut length),
            2 => draw::spoil_list(draw, &mut places),
            3..=6 => draw::spoil_places(draw, &mut places),
            _ => draw::spoil_bands(draw, bands),
        }
    }
    (n, places, length)
}

pub fn gabriel(run: &mut Run, draw: &mut Draw) -> Outcome {
    let (n, places, length) = placed(draw, &mut Vec::new());
    calls::gabriel::compare(
        run,
        n,
        &mut Lent::list(draw, &places),
        &mut Lent::noise(draw, length),
    )
}

pub fn bands(run: &mut Run, draw: &mut Draw) -> Outcome {
    let mut bands = draw::bands(draw);
    let (n, places, length) = placed(draw, &mut bands);
    calls::bands::compare(
        run,
        n,
        &mut Lent::list(draw, &places),
        &mut Lent::list(draw, &bands),
        &mut Lent::noise(draw, length),
    )
}

/// Rows and columns whose product is small only where it wraps.
fn wrapping(draw: &mut Draw) -> (usize, usize) {
    // An odd number has an inverse modulo 2^64.
    let odd = draw.next() as usize | 1;
    let mut inverse = 1usize;
    for _ in 0..6 {
        let two = 2usize.wrapping_sub(odd.wrapping_mul(inverse));
        inverse = inverse.wrapping_mul(two);
    }
    (odd, inverse.wrapping_mul(draw.below(67)))
}

/// Rows, columns and the length of the lent table; some products wrap around to an allowed number.
fn board(draw: &mut Draw) -> (usize, usize, usize) {
    const LEAST_AND_MOST: [(usize, usize); 8] = [
        (8, 8),
        (1, 64),
        (64, 1),
        (2, 32),
        (32, 2),
        (4, 16),
        (1, 2),
        (2, 1),
    ];
    let (rows, columns) = match draw.below(16) {
        0 => (draw.below(12), draw.below(12)),
        1 => (draw.below(3), draw.next() as usize),
        2 => (draw.next() as usize, draw.below(3)),
        3 => wrapping(draw),
        4 => {
            let k = draw.below(64);
            let huge = [1usize << k, (1 << k) + 1, usize::MAX, usize::MAX - 1];
            let other = [1usize << (63 - k), 2 << (63 - k), usize::MAX, 2, 0];
            (draw.pick(&huge), draw.pick(&other))
        }
        5 => draw.pick(&[(1, 1), (5, 13), (13, 5), (65, 1), (1, 65), (64, 2), (0, 0)]),
        6 => draw.pick(&LEAST_AND_MOST),
        _ => {
            let rows = 1 + draw.below(ZONES);
            (rows, 1 + draw.below(ZONES / rows))
        }
    };
    let n = rows.wrapping_mul(columns);
    let mut length = if n <= 70 { n * n } else { draw.below(5000) };
    if draw.once_in(5) {
        draw::spoil_length(draw, &mut length);
    }
    if draw.once_in(2) {
        (rows, columns, length)
    } else {
        (columns, rows, length)
    }
}

pub fn grid_rook(run: &mut Run, draw: &mut Draw) -> Outcome {
    let (rows, columns, length) = board(draw);
    calls::grid_rook::compare(run, rows, columns, &mut Lent::noise(draw, length))
}

pub fn grid_bishop(run: &mut Run, draw: &mut Draw) -> Outcome {
    let (rows, columns, length) = board(draw);
    calls::grid_bishop::compare(run, rows, columns, &mut Lent::noise(draw, length))
}

pub fn grid_queen(run: &mut Run, draw: &mut Draw) -> Outcome {
    let (rows, columns, length) = board(draw);
    calls::grid_queen::compare(run, rows, columns, &mut Lent::noise(draw, length))
}

pub fn read(run: &mut Run, draw: &mut Draw) -> Outcome {
    let (image, kinds) = draw::image(draw);
    run.kinds = kinds;
    read_image(run, draw, &image)
}

/// Once in 25 inputs, one of the lengths is another.
fn spoil_one(draw: &mut Draw, lengths: &mut [usize]) {
    if draw.once_in(25) {
        let k = draw.below(lengths.len());
        draw::spoil_length(draw, &mut lengths[k]);
    }
}

/// The lengths that the six buffers must have.
const BUFFERS: [usize; 6] = [ZONES, ZONES, ZONES * ZONES, 2 * ZONES, BANDS, SHUFFLE_BYTES];

pub fn read_image(run: &mut Run, draw: &mut Draw, image: &[u8]) -> Outcome {
    let [v, c, w, p, b, s] = BUFFERS;
    let mut lengths = [v, c, w, p, b, s, 6];
    spoil_one(draw, &mut lengths);
    calls::read::compare(
        run,
        &mut Lent::list(draw, image),
        &mut Lent::noise(draw, lengths[0]),
        &mut Lent::noise(draw, lengths[1]),
        &mut Lent::noise(draw, lengths[2]),
        &mut Lent::noise(draw, lengths[3]),
        &mut Lent::noise(draw, lengths[4]),
        &mut Lent::noise(draw, lengths[5]),
        &mut Lent::noise(draw, lengths[6]),
    )
}

/// Another count for the writer.
fn spoil_count(draw: &mut Draw, n: usize, counts: &mut [usize]) {
    let huge = [usize::MAX, 1 << 32, 1 << 63, (1 << 32) + n, (1 << 62) + n];
    let some = [0, 1, 2, 8, 9, 64, 65, 499, 500, 65_536 + n, 256 + n];
    let k = draw.below(counts.len().max(1));
    if let Some(count) = counts.get_mut(k) {
        *count = match draw.below(4) {
            0 => *count + 1,
            1 => count.wrapping_sub(1),
            2 => draw.pick(&huge),
            _ => draw.pick(&some),
        };
    }
}

/// One fault in what the writer is lent.
fn spoil_write(
    draw: &mut Draw,
    job: &mut Sections,
    counts: &mut Vec<usize>,
    lengths: &mut [usize],
) {
    match draw.below(16) {
        0 => {
            let k = draw.below(lengths.len());
            draw::spoil_length(draw, &mut lengths[k]);
        }
        1..=3 => spoil_count(draw, job.n, counts),
        4 if draw.once_in(3) => draw::spoil_list(draw, counts),
        4 | 5 => draw::spoil_values(draw, &mut job.values),
        6 => draw::spoil_kinds(draw, &mut job.categories, 7),
        7 | 8 => draw::spoil_places(draw, &mut job.places),
        9 => {
            draw::spoil_bands(draw, &mut job.bands);
            if let Some(count) = counts.get_mut(3) {
                *count = job.bands.len();
            }
        }
        10 => draw::spoil_shuffles(draw, job.n, &mut job.shuffles),
        _ => draw::spoil_weights(draw, job.n, &mut job.weights),
    }
}

/// The length of the writer's output, for an image of this length.
fn room(draw: &mut Draw, whole: usize) -> usize {
    match draw.below(12) {
        0..=4 => whole,
        5..=7 => whole + draw.below(40),
        8 => whole - 1,
        9 => draw.below(whole),
        10 => 44_908,
        _ => draw.pick(&[0, whole + 1, whole - 1, whole]),
    }
}

pub fn write(run: &mut Run, draw: &mut Draw) -> Outcome {
    let mut job = Sections::draw(draw);
    let counted = job.counts();
    let whole = job.encode(counted).len();
    let mut counts = vec![counted[0], counted[1], counted[3], counted[4], counted[5]];
    let [v, c, w, p, b, s] = BUFFERS;
    let mut lengths = [v, c, w, p, b, s, 1];
    for _ in 0..draw.faults() {
        spoil_write(draw, &mut job, &mut counts, &mut lengths);
        job.kinds = left_out::NONE;
    }
    run.kinds = job.kinds;
    let room = room(draw, whole);
    let counts: Vec<u64> = counts.iter().map(|&count| count as u64).collect();
    calls::write::compare(
        run,
        &mut Lent::padded(draw, &job.values, lengths[0]),
        &mut Lent::padded(draw, &job.categories, lengths[1]),
        &mut Lent::padded(draw, &job.weights, lengths[2]),
        &mut Lent::padded(draw, &job.places, lengths[3]),
        &mut Lent::padded(draw, &job.bands, lengths[4]),
        &mut Lent::padded(draw, &job.shuffles, lengths[5]),
        &mut Lent::list(draw, &counts),
        &mut Lent::noise(draw, room),
        &mut Lent::noise(draw, lengths[6]),
    )
}

pub fn report(run: &mut Run, draw: &mut Draw) -> Outcome {
    let (image, kinds) = draw::image(draw);
    run.kinds = kinds;
    report_image(run, draw, &image)
}

pub fn report_image(run: &mut Run, draw: &mut Draw, image: &[u8]) -> Outcome {
    run.ties = ties::ties_of_image(image);
    let mut lengths = [TEXT, 1];
    spoil_one(draw, &mut lengths);
    calls::report::compare(
        run,
        &mut Lent::list(draw, image),
        &mut Lent::noise(draw, lengths[0]),
        &mut Lent::noise(draw, lengths[1]),
    )
}
