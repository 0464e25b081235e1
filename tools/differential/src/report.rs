//! Part 10: the report of an image, as text.

use crate::account::{self, Spread, Sums};
use crate::coefficients::{geary, moran, pair};
use crate::image::Image;
use crate::kept::Kept;
use crate::nearest::{ratio, Rounded};
use crate::returned::Returned;
use crate::{classes, hot, joins, places, rank, BANDS, CLASSES, TEXT, ZONES};

/// The text as far as it is written.
struct Page<'a> {
    text: &'a mut [u8],
    length: usize,
}

impl Page<'_> {
    fn put(&mut self, bytes: &[u8]) {
        self.text[self.length..][..bytes.len()].copy_from_slice(bytes);
        self.length += bytes.len();
    }

    /// A space and the number.
    fn number(&mut self, x: i64) {
        let mut digits = [0; 21];
        let mut first = digits.len();
        let mut rest = x.unsigned_abs();
        loop {
            first -= 1;
            digits[first] = b'0' + (rest % 10) as u8;
            rest /= 10;
            if rest == 0 {
                break;
            }
        }
        if x < 0 {
            first -= 1;
            digits[first] = b'-';
        }
        self.put(b" ");
        self.put(&digits[first..]);
    }

    /// A space, the 64 bits of the float and the sign of its side.
    fn figure(&mut self, x: Rounded) {
        let bits = x.float.to_bits();
        let mut field = [b' '; 18];
        for (digit, place) in field[1..17].iter_mut().zip((0..16).rev()) {
            *digit = b"0123456789ABCDEF"[(bits >> (4 * place) & 15) as usize];
        }
        field[17] = b"=<>"[usize::from(x.side)];
        self.put(&field);
    }

    fn line(&mut self, word: &str, numbers: &[i64], figures: &[Rounded]) {
        self.put(word.as_bytes());
        for &x in numbers {
            self.number(x);
        }
        for &x in figures {
            self.figure(x);
        }
        self.put(b"\n");
    }
}

/// Writes the lines of an accepted image.
fn lines(page: &mut Page, image: &Image) {
    let n = image.n;
    let mut values = [0; ZONES];
    let values = &mut values[..n];
    image.values_to(values);
    let mut weights = [0; ZONES * ZONES];
    let weights = &mut weights[..n * n];
    image.weights_to(weights);

    let returned = Returned::of(values, weights);
    let (values, weights) = (&returned.values, &returned.weights);
    let spread = Spread::of(values, Kept::of(n, weights));
    job_lines(page, &spread, values, weights);
    if !image.categories.is_empty() {
        for (r, row) in joins::work(image.categories, weights).iter().enumerate() {
            for (s, &t) in row.iter().enumerate().filter(|&(_, &t)| t > 0) {
                page.line("pair", &[r as i64, s as i64, t], &[]);
            }
        }
    }
    if !image.bands.is_empty() {
        class_lines(page, image, &spread, values, weights);
    }
    if !image.shuffles.is_empty() {
        // An image has no desks: all its shuffles are desk 0's.
        let all_of_one = std::iter::repeat(0);
        let [counts, ..] = rank::count(&spread, weights, image.shuffles, all_of_one);
        page.line("rank", &counts.map(|count| count as i64), &[]);
    }
}

/// The lines from `zones` to the last `local`. n is here the number of zones kept, and only these have a local line.
fn job_lines(page: &mut Page, spread: &Spread, values: &[i32], weights: &[u8]) {
    let mut locals = [0; ZONES];
    let locals = &mut locals[..values.len()];
    let Sums { w, p, g } = account::work(values, spread, weights, locals);
    let (moran, geary) = (moran(spread, w, p), geary(spread, w, g));
    let (n, m) = (spread.kept.count() as i64, spread.m);
    page.line("zones", &[n, spread.s, m], &[]);
    page.line("joins", &[w, p, g], &[]);
    page.line("moran", &[moran.0, moran.1], &[ratio(moran.0, moran.1)]);
    page.line("geary", &[geary.0, geary.1], &[ratio(geary.0, geary.1)]);
    page.line("expected", &[-1, n - 1], &[]);

    let mut zones = [0; ZONES];
    let zones = &mut zones[..values.len()];
    hot::order(spread.kept, locals, weights, zones);
    for &zone in &zones[..spread.kept.count()] {
        let local = locals[usize::from(zone)];
        page.line("local", &[i64::from(zone), local, m], &[ratio(local, m)]);
    }
}

fn class_lines(page: &mut Page, image: &Image, spread: &Spread, values: &[i32], weights: &[u8]) {
    let n = image.n;
    let mut bands = [0; BANDS];
    let bands = &mut bands[..image.bands.len()];
    image.bands_to(bands);
    let mut table = [0; ZONES * ZONES];
    let table = &mut table[..n * n];
    image.with_places(|places| places::classify(places, bands, table));

    let mut rows = [0; 3 * CLASSES];
    let mut class_locals = [0; ZONES * CLASSES];
    classes::work(values, spread, weights, table, &mut rows, &mut class_locals);
    for (k, &[w, p, g]) in rows.as_chunks().0.iter().enumerate().take(bands.len() + 1) {
        let numbers = [k as i64, w, p, g];
        if w > 0 {
            page.line("class", &numbers, &pair(spread, w, p, g));
        } else {
            page.put(b"class");
            numbers.iter().for_each(|&x| page.number(x));
            page.put(b" - -\n");
        }
    }
}

pub fn report(image: &[u8], text: &mut [u8], length: &mut [u64]) -> u8 {
    if text.len() != TEXT || length.len() != 1 {
        return 2;
    }
    let image = match Image::parse(image) {
        Ok(image) => image,
        Err(number) => return number,
    };
    let mut page = Page { text, length: 0 };
    lines(&mut page, &image);
    length[0] = page.length as u64;
    0
}
