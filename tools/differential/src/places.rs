//! Parts 6 and 8: the Gabriel network and the bands.

use crate::{judge, BANDS};

/// The number that rules 10 and 11 give, each over all places.
fn judge_places(places: &[i32]) -> u8 {
    if places.iter().any(|&x| judge::coordinate_is_beyond(x)) {
        return 10;
    }
    let (places, _) = places.as_chunks::<2>();
    let twice = |(i, place)| places[..i].contains(place);
    if places.iter().enumerate().any(twice) {
        11
    } else {
        0
    }
}

/// From one place to another.
fn step(from: &[i32; 2], to: &[i32; 2]) -> (i64, i64) {
    (i64::from(to[0] - from[0]), i64::from(to[1] - from[1]))
}

/// C is inside or on the circle over AB exactly when the angle at C is not acute.
fn circle_holds(a: &[i32; 2], b: &[i32; 2], c: &[i32; 2]) -> bool {
    let ((ax, ay), (bx, by)) = (step(c, a), step(c, b));
    ax * bx + ay * by <= 0
}

pub fn gabriel(n: usize, places: &[i32], weights: &mut [u8]) -> u8 {
    if !judge::zones_fit(n) {
        return 1;
    }
    if places.len() != 2 * n || weights.len() != n * n {
        return 2;
    }
    let number = judge_places(places);
    if number != 0 {
        return number;
    }
    let (places, _) = places.as_chunks::<2>();
    for (i, a) in places.iter().enumerate() {
        weights[i * n + i] = 0;
        for (j, b) in places.iter().enumerate().take(i) {
            let mut thirds = places.iter().enumerate();
            let parted = thirds.any(|(k, c)| k != i && k != j && circle_holds(a, b, c));
            weights[i * n + j] = u8::from(!parted);
            weights[j * n + i] = u8::from(!parted);
        }
    }
    0
}

/// The class of each pair of places under bands that rise; both directions of a pair have the same.
pub(crate) fn classify(places: &[[i32; 2]], bands: &[u32], classes: &mut [u8]) {
    let n = places.len();
    for (i, a) in places.iter().enumerate() {
        classes[i * n + i] = 0;
        for (j, b) in places.iter().enumerate().take(i) {
            let (x, y) = step(a, b);
            let square = x * x + y * y;
            let band = bands.iter().position(|&band| square <= i64::from(band));
            let class = band.map_or(0, |band| band as u8 + 1);
            classes[i * n + j] = class;
            classes[j * n + i] = class;
        }
    }
}

pub fn bands(n: usize, places: &[i32], bands: &[u32], classes: &mut [u8]) -> u8 {
    if !judge::zones_fit(n) {
        return 1;
    }
    if places.len() != 2 * n || classes.len() != n * n {
        return 2;
    }
    let number = judge_places(places);
    if number != 0 {
        return number;
    }
    if bands.is_empty() || bands.len() > BANDS || !judge::bands_rise(bands.iter().copied()) {
        return 12;
    }
    classify(places.as_chunks::<2>().0, bands, classes);
    0
}
