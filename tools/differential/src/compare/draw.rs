//! Drawn numbers, lists and jobs, good ones and spoiled ones.

use super::left_out::{self, parted, Kinds};
use differential::{BANDS, CATEGORIES, CLASSES, DESKS, JOINS, NOT_RETURNED, SHUFFLES, ZONES};

/// SplitMix64.
pub struct Draw(u64);

impl Draw {
    /// Each input has its own generator, so that one input can be drawn again alone.
    pub fn new(seed: u64, input: u64) -> Self {
        let mut draw = Draw(seed);
        let mixed = draw.next();
        Draw(mixed ^ input.wrapping_mul(0xD129_0B26_33F9_31C5))
    }

    pub fn next(&mut self) -> u64 {
        self.0 = self.0.wrapping_add(0x9E37_79B9_7F4A_7C15);
        let mut z = self.0;
        z = (z ^ (z >> 30)).wrapping_mul(0xBF58_476D_1CE4_E5B9);
        z = (z ^ (z >> 27)).wrapping_mul(0x94D0_49BB_1331_11EB);
        z ^ (z >> 31)
    }

    /// 0 to limit - 1; the limit is above 0.
    pub fn below(&mut self, limit: usize) -> usize {
        ((u128::from(self.next()) * limit as u128) >> 64) as usize
    }

    /// Both ends are among them.
    pub fn between(&mut self, least: i64, greatest: i64) -> i64 {
        least + self.below((greatest - least + 1) as usize) as i64
    }

    /// True once in so many times.
    pub fn once_in(&mut self, times: usize) -> bool {
        self.below(times) == 0
    }

    pub fn pick<T: Copy>(&mut self, list: &[T]) -> T {
        list[self.below(list.len())]
    }

    /// How many faults an input gets: none half of the time.
    pub fn faults(&mut self) -> usize {
        match self.below(20) {
            0..=9 => 0,
            10..=15 => 1,
            16..=18 => 2,
            _ => 3,
        }
    }
}

const HUGE: [usize; 8] = [
    usize::MAX,
    usize::MAX - 1,
    1 << 63,
    1 << 32,
    (1 << 32) + 2,
    (1 << 62) + 4,
    1 << 31,
    1 << 16,
];

/// An allowed number of zones, small ones and the largest most often.
pub fn zones(draw: &mut Draw) -> usize {
    match draw.below(8) {
        0 => draw.pick(&[2, 2, 3, 63]),
        1..=4 => 2 + draw.below(11),
        5 | 6 => 2 + draw.below(ZONES - 1),
        _ => ZONES,
    }
}

/// 0 to 66, for lists of exactly that length.
pub fn any_zones(draw: &mut Draw) -> usize {
    draw.pick(&[0, 1, 65, 66])
}

/// Another number of zones than the lists have.
pub fn spoil_zones(draw: &mut Draw, n: &mut usize) {
    *n = match draw.below(4) {
        0 => draw.pick(&[0, 1, 65, 66, 67, 128, 256]),
        1 => draw.pick(&HUGE),
        2 => n.wrapping_add(draw.pick(&[1, usize::MAX, 1 << 32, 1 << 63, 256])),
        _ => draw.below(67),
    };
}

/// Another length.
pub fn spoil_length(draw: &mut Draw, length: &mut usize) {
    *length = match draw.below(5) {
        0 => 0,
        1 | 2 => length.saturating_sub(1),
        3 => *length + 1,
        _ => draw.below(2 * *length + 3),
    };
}

/// Another length for a list; new entries repeat old ones.
pub fn spoil_list<T: Copy + Default>(draw: &mut Draw, list: &mut Vec<T>) {
    let mut length = list.len();
    spoil_length(draw, &mut length);
    let last = list.last().copied().unwrap_or_default();
    list.resize(length, last);
}

/// Puts an entry somewhere, often at one of the ends.
fn put<T: Copy>(draw: &mut Draw, list: &mut [T], entry: T) {
    if let Some(last) = list.len().checked_sub(1) {
        let at = match draw.below(4) {
            0 => 0,
            1 => last,
            _ => draw.below(last + 1),
        };
        list[at] = entry;
    }
}

fn values(draw: &mut Draw, n: usize) -> Vec<i32> {
    let style = draw.below(16);
    let base = draw.between(-100_000, 99_990) as i32;
    let mut list: Vec<i32> = (0..n)
        .map(|i| match style {
            0..=3 => draw.between(-3, 3) as i32,
            4..=6 => draw.between(-100_000, 100_000) as i32,
            7 | 8 => draw.pick(&[-100_000, 100_000]),
            9 => {
                if 2 * i < n {
                    100_000
                } else {
                    -100_000
                }
            }
            10 | 11 => base + draw.below(10) as i32,
            12 => (i * i) as i32,
            13 => draw.between(0, 1) as i32,
            _ => base,
        })
        .collect();
    if style >= 14 && !draw.once_in(6) {
        let entry = draw.between(-100_000, 100_000) as i32;
        put(draw, &mut list, entry);
    }
    list
}

const BAD_VALUES: [i32; 4] = [100_001, -100_001, i32::MAX, NOT_RETURNED + 1];

pub fn spoil_values(draw: &mut Draw, list: &mut [i32]) {
    if draw.once_in(4) {
        let same = draw.pick(&[0, 7, -100_000, 100_000, 100_001, NOT_RETURNED]);
        list.fill(same);
    } else {
        let entry = match draw.below(8) {
            0 => 100_000,
            1 => -100_000,
            2 => NOT_RETURNED,
            _ => draw.pick(&BAD_VALUES),
        };
        put(draw, list, entry);
    }
}

fn weights(draw: &mut Draw, n: usize) -> Vec<u8> {
    let mut list = vec![0; n * n];
    let style = draw.below(16);
    for i in 0..n {
        for j in (0..n).filter(|&j| j != i) {
            list[i * n + j] = match style {
                0..=3 => draw.below(10) as u8,
                4 | 5 => (draw.once_in(n) as u8) * (1 + draw.below(9)) as u8,
                6 => 9,
                7 | 8 => draw.below(2) as u8,
                9 => 9 * u8::from((2 * i < n) == (2 * j < n)),
                10 => 9 * u8::from((2 * i < n) != (2 * j < n)),
                11 => 1 + ((i + j) % 9) as u8,
                12 => (i.abs_diff(j) == 1) as u8,
                _ => 0,
            };
        }
    }
    if n >= 2 && list.iter().all(|&w| w == 0) && !draw.once_in(12) {
        let (from, to) = two_zones(draw, n);
        list[from * n + to] = weight(draw);
    }
    list
}

/// A weight above 0.
fn weight(draw: &mut Draw) -> u8 {
    1 + draw.below(9) as u8
}

/// Two different zones of at least two.
fn two_zones(draw: &mut Draw, n: usize) -> (usize, usize) {
    let i = draw.below(n);
    (i, (i + 1 + draw.below(n - 1)) % n)
}

/// The zones that are to touch nobody: one, the first, the last, several, all but two.
fn zones_to_leave_out(draw: &mut Draw, n: usize) -> Vec<usize> {
    match draw.below(6) {
        0 => vec![draw.below(n)],
        1 => vec![0],
        2 => vec![n - 1],
        3 | 4 => (0..n).filter(|_| draw.once_in(3)).collect(),
        _ => {
            let (i, j) = two_zones(draw, n);
            (0..n).filter(|&zone| zone != i && zone != j).collect()
        }
    }
}

/// Takes all weight from some zones; where none is left, two of the others get some.
fn leave_out(draw: &mut Draw, n: usize, weights: &mut [u8]) {
    let zones = zones_to_leave_out(draw, n);
    for &zone in &zones {
        for other in 0..n {
            weights[zone * n + other] = 0;
            weights[other * n + zone] = 0;
        }
    }
    let others: Vec<usize> = (0..n).filter(|zone| !zones.contains(zone)).collect();
    if others.len() >= 2 && weights.iter().all(|&w| w == 0) {
        let (i, j) = two_zones(draw, others.len());
        weights[others[i] * n + others[j]] = weight(draw);
    }
}

/// One zone gets weight and gives none, or gives weight and gets none.
fn touch_one_way(draw: &mut Draw, n: usize, weights: &mut [u8]) {
    let (zone, other) = two_zones(draw, n);
    let gives = draw.once_in(2);
    let place = |other: usize, gives: bool| {
        if gives {
            zone * n + other
        } else {
            other * n + zone
        }
    };
    for other in 0..n {
        weights[place(other, !gives)] = 0;
    }
    weights[place(other, gives)] = weight(draw);
}

/// Kept zones get one value, or one that is left out a bad value.
fn part_values(draw: &mut Draw, weights: &[u8], values: &mut [i32]) {
    let (kept, left_out) = parted(values, weights);
    if draw.once_in(2) {
        let same = draw.between(-100_000, 100_000) as i32;
        kept.iter().for_each(|&zone| values[zone] = same);
    } else if !left_out.is_empty() {
        values[draw.pick(&left_out)] = draw.pick(&BAD_VALUES);
    }
}

/// Kept zones get few values round their mean: some lie at it, and the others are as many below as above, by one size. So many local
/// numerators are equal, whatever the weights are.
fn tie_values(draw: &mut Draw, weights: &[u8], values: &mut [i32]) {
    let (mut kept, _) = parted(values, weights);
    let mean = draw.between(-50_000, 50_000) as i32;
    let size = draw.pick(&[1, 2, 1000, 50_000]);
    for last in (1..kept.len()).rev() {
        kept.swap(last, draw.below(last + 1));
    }
    kept.iter().for_each(|&zone| values[zone] = mean);
    let pairs = draw.below(kept.len() / 2 + 1);
    for pair in kept.as_chunks::<2>().0.iter().take(pairs.max(1)) {
        values[pair[0]] = mean - size;
        values[pair[1]] = mean + size;
    }
}

/// The zones whose values are not to be returned: one, some, all of them, all but two, all that touch one, some that touch nobody.
fn zones_to_miss(draw: &mut Draw, n: usize, weights: &[u8]) -> Vec<usize> {
    let touch = |i: usize, j: usize| weights[i * n + j] > 0 || weights[j * n + i] > 0;
    let all = 0..n;
    match draw.below(12) {
        0..=2 => vec![draw.below(n)],
        3..=5 => all.filter(|_| draw.once_in(4)).collect(),
        6 => all.collect(),
        7 => {
            let (i, j) = two_zones(draw, n);
            all.filter(|&zone| zone != i && zone != j).collect()
        }
        8 | 9 => {
            let zone = draw.below(n);
            all.filter(|&other| touch(zone, other)).collect()
        }
        _ => {
            let lonely = |&i: &usize| !(0..n).any(|j| touch(i, j));
            all.filter(lonely).filter(|_| draw.once_in(2)).collect()
        }
    }
}

/// A weight of a zone not returned becomes too large, or one is put on its diagonal.
fn spoil_weight_missed(draw: &mut Draw, missed: &[usize], n: usize, weights: &mut [u8]) {
    let zone = draw.pick(missed);
    let other = (zone + 1 + draw.below(n - 1)) % n;
    match draw.below(4) {
        0 => weights[zone * n + other] = draw.pick(&[10, 255]),
        1 => weights[other * n + zone] = draw.pick(&[10, 255]),
        _ => weights[zone * n + zone] = weight(draw),
    }
}

/// Marks some zones as not returned. Now and then one of them has a bad weight.
fn miss_values(draw: &mut Draw, n: usize, values: &mut [i32], weights: &mut [u8]) {
    let missed = zones_to_miss(draw, n, weights);
    missed.iter().for_each(|&zone| values[zone] = NOT_RETURNED);
    if !missed.is_empty() && draw.once_in(8) {
        spoil_weight_missed(draw, &missed, n, weights);
    }
}

/// The values and the weights of a job. In half of the jobs some zones touch nobody, or one touches others one way only; in a third some
/// values are not returned; in a sixth kept zones tie.
pub fn job(draw: &mut Draw, n: usize) -> (Vec<i32>, Vec<u8>) {
    let mut values = values(draw, n);
    let mut weights = weights(draw, n);
    if n < 2 {
        return (values, weights);
    }
    if draw.once_in(2) {
        if draw.once_in(4) {
            touch_one_way(draw, n, &mut weights);
        } else {
            leave_out(draw, n, &mut weights);
        }
    }
    if draw.once_in(3) {
        miss_values(draw, n, &mut values, &mut weights);
    }
    if draw.once_in(6) {
        tie_values(draw, &weights, &mut values);
    }
    if draw.once_in(20) {
        part_values(draw, &weights, &mut values);
    }
    (values, weights)
}

pub fn spoil_weights(draw: &mut Draw, n: usize, list: &mut [u8]) {
    if list.is_empty() {
        return;
    }
    match draw.below(8) {
        0 => list.fill(0),
        1..=4 => list[draw.below(list.len())] = draw.pick(&[10, 255, 11, 128, 9]),
        _ => {
            let i = draw.below(n.clamp(1, ZONES));
            if let Some(place) = list.get_mut(i * n.min(ZONES) + i) {
                *place = draw.pick(&[1, 9, 10, 255]);
            }
        }
    }
}

pub fn classes(draw: &mut Draw, n: usize) -> Vec<u8> {
    let style = draw.below(8);
    let only = draw.below(CLASSES) as u8;
    (0..n * n)
        .map(|p| match style {
            0..=2 => draw.below(CLASSES) as u8,
            3 => only,
            4 => 8 * (draw.below(2) as u8),
            5 => draw.below(usize::from(only) + 1) as u8,
            6 => 8,
            _ => (p % CLASSES) as u8,
        })
        .collect()
}

pub fn categories(draw: &mut Draw, n: usize) -> Vec<u8> {
    let kinds = 1 + draw.below(CATEGORIES);
    (0..n).map(|_| draw.below(kinds) as u8).collect()
}

/// A class, a category or a desk that is too large, or just not.
pub fn spoil_kinds(draw: &mut Draw, list: &mut [u8], greatest: u8) {
    let entry = draw.pick(&[greatest + 1, greatest + 1, 255, 128, greatest]);
    put(draw, list, entry);
}

/// Different places: far apart, on a narrow board, at the limits, in one line.
pub fn places(draw: &mut Draw, n: usize) -> Vec<i32> {
    let style = draw.below(6);
    let side = (n as f64).sqrt() as i64 + 1 + draw.below(3) as i64;
    let corner = draw.between(-30_000, 30_000 - side);
    let mut list: Vec<[i32; 2]> = Vec::with_capacity(n);
    while list.len() < n {
        let place = match style {
            0 => [
                draw.between(-30_000, 30_000) as i32,
                draw.between(-30_000, 30_000) as i32,
            ],
            1..=3 => [
                (corner + draw.between(0, side)) as i32,
                (corner + draw.between(0, side)) as i32,
            ],
            4 => [
                draw.pick(&[-30_000, 30_000]),
                draw.between(-30_000, 30_000) as i32,
            ],
            _ => {
                let across = draw.between(-100, 100) as i32;
                [across, 3 * across]
            }
        };
        if !list.contains(&place) {
            list.push(place);
        }
    }
    list.into_flattened()
}

pub fn spoil_places(draw: &mut Draw, list: &mut [i32]) {
    if draw.once_in(2) && list.len() >= 4 {
        let (places, _) = list.as_chunks_mut::<2>();
        let (from, to) = (draw.below(places.len()), draw.below(places.len()));
        places[to] = places[from];
    } else {
        let bad = [30_001, -30_001, i32::MIN, i32::MAX, 30_000, -30_000];
        let entry = draw.pick(&bad);
        put(draw, list, entry);
    }
}

/// 1 to 8 rising bands.
pub fn bands(draw: &mut Draw) -> Vec<u32> {
    let style = draw.below(4);
    let count = 1 + draw.below(BANDS);
    let mut list: Vec<u32> = (0..count)
        .map(|k| match style {
            0 => 1 + draw.below(40) as u32,
            1 => ((k + 1) * (k + 1)) as u32,
            2 => 1 + draw.below(u32::MAX as usize) as u32,
            _ => u32::MAX - draw.below(3_000_000_000) as u32 / (k as u32 + 1),
        })
        .collect();
    if draw.once_in(8) {
        list.push(u32::MAX);
    }
    list.sort_unstable();
    list.dedup();
    list.truncate(BANDS);
    list
}

pub fn spoil_bands(draw: &mut Draw, list: &mut Vec<u32>) {
    match draw.below(6) {
        0 => put(draw, list, 0),
        1 => list.clear(),
        2 => list.resize(9 + draw.below(3), u32::MAX),
        3 => {
            while list.len() < 9 {
                list.push(list.last().map_or(1, |last| last.saturating_add(1)));
            }
        }
        4 => put(draw, list, u32::MAX),
        _ => {
            if list.len() >= 2 {
                let k = draw.below(list.len() - 1);
                if draw.once_in(2) {
                    list.swap(k, k + 1);
                } else {
                    list[k + 1] = list[k];
                }
            }
        }
    }
}

/// How many shuffles: few as a rule, seldom as many as there may be.
pub fn shuffle_count(draw: &mut Draw) -> usize {
    match draw.below(60) {
        0..=9 => 0,
        10..=50 => 1 + draw.below(6),
        51..=58 => draw.below(60),
        _ => SHUFFLES,
    }
}

pub fn shuffles(draw: &mut Draw, n: usize, count: usize) -> Vec<u8> {
    let mut list = Vec::with_capacity(n * count);
    for _ in 0..count {
        let first = list.len();
        list.extend(0..n as u8);
        if !draw.once_in(8) {
            let row = &mut list[first..];
            for i in (1..n).rev() {
                row.swap(i, draw.below(i + 1));
            }
        }
    }
    list
}

pub fn spoil_shuffles(draw: &mut Draw, n: usize, list: &mut [u8]) {
    let entry = match draw.below(4) {
        0 => n as u8,
        1 => draw.pick(&[255, 64, 128, 65]),
        2 => draw.below(n.max(1)) as u8,
        _ => 0,
    };
    put(draw, list, entry);
}

/// The desk of each row: all of the first, or of another; by turns; of two; of any but one; of any.
pub fn desks(draw: &mut Draw, rows: usize) -> Vec<u8> {
    let style = draw.below(8);
    let (one, other) = (draw.below(DESKS), draw.below(DESKS));
    let mut desk = |row: usize| match style {
        0 => 0,
        1 => one,
        2 => row % DESKS,
        3 => draw.pick(&[one, other]),
        4 => (one + 1 + draw.below(DESKS - 1)) % DESKS,
        _ => draw.below(DESKS),
    };
    (0..rows).map(|row| desk(row) as u8).collect()
}

/// Another number of desks than of rows; new ones repeat the last.
pub fn spoil_desk_count(draw: &mut Draw, n: usize, list: &mut Vec<u8>) {
    let rows = list.len();
    let count = match draw.below(6) {
        0 => 0,
        1 => rows.saturating_sub(1),
        2 => rows + 1,
        3 | 4 => rows * n,
        _ => draw.below(2 * rows + 3),
    };
    let last = list.last().copied().unwrap_or_default();
    list.resize(count, last);
}

/// A job as an image has it: the weights as a table, for the writer, and as joins.
pub struct Sections {
    pub n: usize,
    pub values: Vec<i32>,
    pub categories: Vec<u8>,
    pub weights: Vec<u8>,
    pub joins: Vec<[u8; 3]>,
    pub places: Vec<i32>,
    pub bands: Vec<u32>,
    pub shuffles: Vec<u8>,
    /// As long as nothing is spoiled.
    pub kinds: Kinds,
}

impl Sections {
    pub fn draw(draw: &mut Draw) -> Self {
        let full = draw.once_in(100);
        let n = match draw.below(25) {
            _ if full => ZONES,
            0 => draw.pick(&[0, 1, 65, 66]),
            _ => zones(draw),
        };
        let has = |draw: &mut Draw| full || draw.below(3) > 0;
        let (values, mut weights) = job(draw, n);
        if full && draw.once_in(2) {
            let pairs = weights.iter_mut().enumerate();
            pairs.for_each(|(p, w)| *w = if p % 65 == 0 { 0 } else { 9 });
        }
        let list_if = |has, list: Vec<i32>| if has { list } else { Vec::new() };
        let mut sections = Sections {
            n,
            kinds: left_out::kinds(&values, &weights),
            values,
            categories: Vec::new(),
            joins: joins(n, &weights),
            weights,
            places: Vec::new(),
            bands: Vec::new(),
            shuffles: Vec::new(),
        };
        if has(draw) {
            sections.categories = categories(draw, n);
        }
        let has_places = has(draw);
        sections.places = list_if(has_places, places(draw, n));
        if has_places && has(draw) {
            sections.bands = if full { (1..=8).collect() } else { bands(draw) };
        }
        let rows = if full { SHUFFLES } else { shuffle_count(draw) };
        sections.shuffles = shuffles(draw, n, rows);
        sections
    }

    /// Values, categories, joins, places, bands, shuffles.
    pub fn counts(&self) -> [usize; 6] {
        [
            self.values.len(),
            self.categories.len(),
            self.joins.len(),
            self.places.len() / 2,
            self.bands.len(),
            self.shuffles.len() / self.n.max(1),
        ]
    }

    /// One fault in a section, the joins too.
    fn spoil(&mut self, draw: &mut Draw) {
        let n = self.n;
        match draw.below(16) {
            0 => spoil_values(draw, &mut self.values),
            1 => spoil_kinds(draw, &mut self.categories, 7),
            2 => spoil_list(draw, &mut self.categories),
            3 | 4 => spoil_places(draw, &mut self.places),
            5 => self.places.truncate(2 * draw.below(n + 1)),
            6 => spoil_bands(draw, &mut self.bands),
            7 => self.places.clear(),
            8 | 9 => spoil_shuffles(draw, n, &mut self.shuffles),
            10 => self.joins.clear(),
            11 => {
                let same = draw.between(-100_000, 100_000) as i32;
                self.values.fill(same);
            }
            12 => {
                let count = draw.pick(&[JOINS, JOINS + 1, 5000]);
                let last = self.joins.last().copied().unwrap_or([0, 1, 1]);
                self.joins.resize(count, last);
            }
            13 => {
                let rows = draw.pick(&[500, 501, 700]);
                self.shuffles = shuffles(draw, n, rows);
            }
            _ => {
                for _ in 0..=draw.below(2) {
                    spoil_joins(draw, n, &mut self.joins);
                }
            }
        }
    }

    pub fn encode(&self, counts: [usize; 6]) -> Vec<u8> {
        let counts = counts.map(|count| (count as u16).to_le_bytes());
        let mut image = Vec::new();
        image.extend(counts[0]);
        image.extend(self.values.iter().flat_map(|x| x.to_le_bytes()));
        image.extend(counts[1]);
        image.extend(&self.categories);
        image.extend(counts[2]);
        image.extend(self.joins.as_flattened());
        image.extend(counts[3]);
        image.extend(self.places.iter().flat_map(|x| x.to_le_bytes()));
        image.extend(counts[4]);
        image.extend(self.bands.iter().flat_map(|x| x.to_le_bytes()));
        image.extend(counts[5]);
        image.extend(&self.shuffles);
        image
    }
}

pub fn joins(n: usize, weights: &[u8]) -> Vec<[u8; 3]> {
    let entries = weights.iter().enumerate().filter(|&(_, &w)| w > 0);
    entries
        .map(|(p, &w)| [(p / n) as u8, (p % n) as u8, w])
        .collect()
}

fn spoil_joins(draw: &mut Draw, n: usize, joins: &mut [[u8; 3]]) {
    if joins.is_empty() {
        return;
    }
    let k = draw.below(joins.len());
    match draw.below(6) {
        0 => joins[k][2] = draw.pick(&[0, 10, 255]),
        1 => joins[k][draw.below(2)] = draw.pick(&[n as u8, 255, 64, 0]),
        2 => joins[k][1] = joins[k][0],
        3 => joins[k] = joins[draw.below(joins.len())],
        4 => {
            let other = draw.below(joins.len());
            joins.swap(k, other);
        }
        _ => joins[k][draw.below(3)] = draw.below(256) as u8,
    }
}

/// An image, whole or damaged in its sections, its counts or its bytes; and the kinds of its job, if it is whole.
pub fn image(draw: &mut Draw) -> (Vec<u8>, Kinds) {
    if draw.once_in(200) {
        let length = draw.below(300);
        let bytes = (0..length).map(|_| draw.below(3) as u8).collect();
        return (bytes, left_out::NONE);
    }
    let mut sections = Sections::draw(draw);
    let faults = draw.faults();
    if faults == 0 {
        return (sections.encode(sections.counts()), sections.kinds);
    }
    (damaged_image(draw, &mut sections, faults), left_out::NONE)
}

fn damaged_image(draw: &mut Draw, sections: &mut Sections, faults: usize) -> Vec<u8> {
    let mut counts = sections.counts();
    let mut bytes = None;
    for _ in 0..faults {
        match draw.below(10) {
            0..=5 => {
                sections.spoil(draw);
                counts = sections.counts();
            }
            6 => {
                let some = [
                    0, 1, 2, 3, 8, 9, 64, 65, 499, 500, 4032, 4033, 8192, 65_535, 65_534, 256,
                ];
                let k = draw.below(6);
                counts[k] = match draw.below(3) {
                    0 => counts[k] + 1,
                    1 => counts[k].wrapping_sub(1),
                    _ => draw.pick(&some),
                };
            }
            _ => {
                let mut image = bytes.take().unwrap_or_else(|| sections.encode(counts));
                spoil_bytes(draw, &mut image);
                bytes = Some(image);
            }
        }
    }
    bytes.unwrap_or_else(|| sections.encode(counts))
}

fn spoil_bytes(draw: &mut Draw, image: &mut Vec<u8>) {
    if image.is_empty() {
        return image.push(2);
    }
    let at = match draw.below(3) {
        0 => draw.below(image.len().min(40)),
        _ => draw.below(image.len()),
    };
    match draw.below(6) {
        0 | 1 => image.truncate(at),
        2 => {
            for _ in 0..=draw.below(3) {
                image.push(draw.below(4) as u8);
            }
        }
        3 => drop(image.remove(at)),
        4 => image.insert(at, draw.below(256) as u8),
        _ => {
            for _ in 0..=draw.below(3) {
                let at = draw.below(image.len());
                image[at] = draw.below(256) as u8;
            }
        }
    }
}
