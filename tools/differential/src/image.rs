//! Part 10: the reader and the writer of the job image. Both go by place.

use crate::kept::Kept;
use crate::returned::{Returned, NOT_RETURNED};
use crate::{judge, BANDS, JOINS, SHUFFLES, ZONES};

/// The entries of a full buffer of shuffles.
pub const SHUFFLE_BYTES: usize = SHUFFLES * ZONES;

/// The sections of an accepted image, still as bytes.
pub(crate) struct Image<'a> {
    pub n: usize,
    pub values: &'a [[u8; 4]],
    pub categories: &'a [u8],
    pub joins: &'a [[u8; 3]],
    pub places: &'a [[u8; 8]],
    pub bands: &'a [[u8; 4]],
    pub shuffles: &'a [u8],
}

/// What is left of an image.
struct Rest<'a>(&'a [u8]);

impl<'a> Rest<'a> {
    fn take(&mut self, length: usize) -> Result<&'a [u8], u8> {
        let (front, rest) = self.0.split_at_checked(length).ok_or(14)?;
        self.0 = rest;
        Ok(front)
    }

    fn count(&mut self) -> Result<usize, u8> {
        let (front, rest) = self.0.split_first_chunk().ok_or(14)?;
        self.0 = rest;
        Ok(usize::from(u16::from_le_bytes(*front)))
    }

    fn items<const SIZE: usize>(&mut self, count: usize) -> Result<&'a [[u8; SIZE]], u8> {
        Ok(self.take(count * SIZE)?.as_chunks().0)
    }
}

/// Answers the number where a rule is broken.
fn refuse(broken: bool, number: u8) -> Result<(), u8> {
    if broken {
        Err(number)
    } else {
        Ok(())
    }
}

fn judge_joins(n: usize, joins: &[[u8; 3]]) -> Result<(), u8> {
    let mut last = None;
    for &[from, to, weight] in joins {
        refuse(usize::from(from.max(to)) >= n, 16)?;
        refuse(from == to, 5)?;
        refuse(last >= Some((from, to)), 16)?;
        refuse(!(1..=9).contains(&weight), 4)?;
        last = Some((from, to));
    }
    Ok(())
}

/// 6 and 7. A join counts if the values of both its ends are returned; the ends of these joins are the kept zones.
fn judge_kept(values: &[[u8; 4]], joins: &[[u8; 3]]) -> Result<(), u8> {
    let value = |end: u8| i32::from_le_bytes(values[usize::from(end)]);
    let ends = joins.iter().map(|&[from, to, _]| [from, to].map(value));
    let mut counted = ends.filter(|ends| !ends.contains(&NOT_RETURNED));
    let [first, other] = counted.next().ok_or(6)?;
    let is_first = |ends: [i32; 2]| ends == [first, first];
    refuse(first == other && counted.all(is_first), 7)
}

/// Place by place: 10, then 11 against the earlier ones.
fn judge_places(places: &[[i32; 2]]) -> Result<(), u8> {
    for (i, place) in places.iter().enumerate() {
        refuse(place.iter().any(|&x| judge::coordinate_is_beyond(x)), 10)?;
        refuse(places[..i].contains(place), 11)?;
    }
    Ok(())
}

fn place_from(bytes: &[u8; 8]) -> [i32; 2] {
    let [a, b, c, d, e, f, g, h] = *bytes;
    [[a, b, c, d], [e, f, g, h]].map(i32::from_le_bytes)
}

impl<'a> Image<'a> {
    /// The sections, or the number of the refusal.
    pub fn parse(image: &'a [u8]) -> Result<Self, u8> {
        let mut rest = Rest(image);

        let n = rest.count()?;
        refuse(!judge::zones_fit(n), 1)?;
        let values = rest.items::<4>(n)?;
        let beyond = |&x: &[u8; 4]| judge::value_is_beyond(i32::from_le_bytes(x));
        refuse(values.iter().any(beyond), 3)?;

        let count = rest.count()?;
        refuse(count != 0 && count != n, 15)?;
        let categories = rest.take(count)?;
        refuse(judge::greatest(categories) > 7, 8)?;

        let count = rest.count()?;
        refuse(count > JOINS, 15)?;
        let joins = rest.items::<3>(count)?;
        judge_joins(n, joins)?;

        let count = rest.count()?;
        refuse(count != 0 && count != n, 15)?;
        let places = rest.items::<8>(count)?;
        let image = Image {
            n,
            values,
            categories,
            joins,
            places,
            bands: &[],
            shuffles: &[],
        };
        image.with_places(judge_places)?;

        let count = rest.count()?;
        refuse(count > BANDS || (count > 0 && places.is_empty()), 12)?;
        let bands = rest.items::<4>(count)?;
        let numbers = bands.iter().copied().map(u32::from_le_bytes);
        refuse(!judge::bands_rise(numbers), 12)?;

        let count = rest.count()?;
        refuse(count > SHUFFLES, 15)?;
        let shuffles = rest.take(count * n)?;
        refuse(!judge::rows_are_shuffles(n, shuffles), 13)?;

        refuse(!rest.0.is_empty(), 17)?;
        judge_kept(values, joins)?;
        Ok(Image {
            bands,
            shuffles,
            ..image
        })
    }

    /// Decodes the values into the front of a list.
    pub fn values_to(&self, list: &mut [i32]) {
        for (x, &bytes) in list.iter_mut().zip(self.values) {
            *x = i32::from_le_bytes(bytes);
        }
    }

    /// Decodes the joins into a table of n rows.
    pub fn weights_to(&self, table: &mut [u8]) {
        table.fill(0);
        for &[from, to, weight] in self.joins {
            table[usize::from(from) * self.n + usize::from(to)] = weight;
        }
    }

    /// Decodes the bands into the front of a list.
    pub fn bands_to(&self, list: &mut [u32]) {
        for (band, &bytes) in list.iter_mut().zip(self.bands) {
            *band = u32::from_le_bytes(bytes);
        }
    }

    /// Lends the decoded places.
    pub fn with_places<T>(&self, work: impl FnOnce(&[[i32; 2]]) -> T) -> T {
        let mut places = [[0; 2]; ZONES];
        for (place, bytes) in places.iter_mut().zip(self.places) {
            *place = place_from(bytes);
        }
        work(&places[..self.places.len()])
    }
}

/// What the six buffers of the reader and of the writer must hold.
const BUFFER_LENGTHS: [usize; 6] = [ZONES, ZONES, ZONES * ZONES, 2 * ZONES, BANDS, SHUFFLE_BYTES];

#[allow(clippy::too_many_arguments)]
pub fn read(
    image: &[u8],
    values: &mut [i32],
    categories: &mut [u8],
    weights: &mut [u8],
    places: &mut [i32],
    bands: &mut [u32],
    shuffles: &mut [u8],
    counts: &mut [u64],
) -> u8 {
    let lengths = [
        values.len(),
        categories.len(),
        weights.len(),
        places.len(),
        bands.len(),
        shuffles.len(),
    ];
    if lengths != BUFFER_LENGTHS || counts.len() != 6 {
        return 2;
    }
    let image = match Image::parse(image) {
        Ok(image) => image,
        Err(number) => return number,
    };
    image.values_to(values);
    categories[..image.categories.len()].copy_from_slice(image.categories);
    image.weights_to(&mut weights[..image.n * image.n]);
    for (place, bytes) in places.as_chunks_mut().0.iter_mut().zip(image.places) {
        *place = place_from(bytes);
    }
    image.bands_to(bands);
    shuffles[..image.shuffles.len()].copy_from_slice(image.shuffles);
    counts.copy_from_slice(&[
        image.n as u64,
        image.categories.len() as u64,
        image.joins.len() as u64,
        image.places.len() as u64,
        image.bands.len() as u64,
        (image.shuffles.len() / image.n) as u64,
    ]);
    0
}

/// Row by row, at each weight 5 before 4; answers the number of joins.
fn judge_weights(n: usize, weights: &[u8]) -> Result<usize, u8> {
    let mut joins = 0;
    for (i, row) in weights.chunks_exact(n).enumerate() {
        if judge::greatest(row) > 9 || row[i] > 0 {
            let first = row
                .iter()
                .zip(0..)
                .find(|&(&w, j)| w > 9 || (i == j && w > 0));
            let on_diagonal = first.is_some_and(|(_, j)| i == j);
            return Err(if on_diagonal { 5 } else { 4 });
        }
        joins += row.iter().filter(|&&w| w > 0).count();
    }
    Ok(joins)
}

/// What the writer is lent, at its full length.
struct Buffers<'a> {
    values: &'a [i32],
    categories: &'a [u8],
    weights: &'a [u8],
    places: &'a [i32],
    bands: &'a [u32],
    shuffles: &'a [u8],
}

/// The used entries of the writer's buffers, when none of them is refused.
struct Job<'a> {
    values: &'a [i32],
    categories: &'a [u8],
    weights: &'a [u8],
    joins: usize,
    places: &'a [[i32; 2]],
    bands: &'a [u32],
    shuffles: &'a [u8],
}

impl<'a> Job<'a> {
    /// Part by part; the lengths and the count of values are right.
    fn judged(lent: &Buffers<'a>, counts: &[u64; 5]) -> Result<Self, u8> {
        let &[n, category_count, place_count, band_count, shuffle_count] = counts;
        let zones = n as usize;
        let values = &lent.values[..zones];
        refuse(values.iter().any(|&x| judge::value_is_beyond(x)), 3)?;

        refuse(category_count != 0 && category_count != n, 15)?;
        let categories = &lent.categories[..category_count as usize];
        refuse(judge::greatest(categories) > 7, 8)?;

        let weights = &lent.weights[..zones * zones];
        let joins = judge_weights(zones, weights)?;

        refuse(place_count != 0 && place_count != n, 15)?;
        let places = &lent.places.as_chunks().0[..place_count as usize];
        judge_places(places)?;

        refuse(band_count > BANDS as u64, 12)?;
        refuse(band_count > 0 && place_count == 0, 12)?;
        let bands = &lent.bands[..band_count as usize];
        refuse(!judge::bands_rise(bands.iter().copied()), 12)?;

        refuse(shuffle_count > SHUFFLES as u64, 15)?;
        let shuffles = &lent.shuffles[..shuffle_count as usize * zones];
        refuse(!judge::rows_are_shuffles(zones, shuffles), 13)?;

        let returned = Returned::of(values, weights);
        let kept = Kept::of(zones, &returned.weights);
        refuse(kept.count() == 0, 6)?;
        refuse(kept.are_equal(&returned.values), 7)?;
        Ok(Job {
            values,
            categories,
            weights,
            joins,
            places,
            bands,
            shuffles,
        })
    }

    /// The length of the image.
    fn length(&self) -> usize {
        12 + 4 * self.values.len()
            + self.categories.len()
            + 3 * self.joins
            + 8 * self.places.len()
            + 4 * self.bands.len()
            + self.shuffles.len()
    }

    /// Fills the image, which has exactly its length.
    fn store(&self, image: &mut [u8]) {
        let n = self.values.len();

        let (section, image) = section(image, n, 4 * n);
        for (slot, x) in section.as_chunks_mut().0.iter_mut().zip(self.values) {
            *slot = x.to_le_bytes();
        }
        let count = self.categories.len();
        let (section, image) = self::section(image, count, count);
        section.copy_from_slice(self.categories);

        let (section, image) = self::section(image, self.joins, 3 * self.joins);
        let mut slots = section.as_chunks_mut().0.iter_mut();
        for (row, from) in self.weights.chunks_exact(n).zip(0u8..) {
            let joined = row.iter().zip(0u8..).filter(|&(&w, _)| w > 0);
            for ((&weight, to), slot) in joined.zip(&mut slots) {
                *slot = [from, to, weight];
            }
        }
        let count = self.places.len();
        let (section, image) = self::section(image, count, 8 * count);
        let slots = section.as_chunks_mut().0.iter_mut();
        for (slot, x) in slots.zip(self.places.as_flattened()) {
            *slot = x.to_le_bytes();
        }
        let count = self.bands.len();
        let (section, image) = self::section(image, count, 4 * count);
        for (slot, band) in section.as_chunks_mut().0.iter_mut().zip(self.bands) {
            *slot = band.to_le_bytes();
        }
        let bytes = self.shuffles.len();
        let (section, _) = self::section(image, bytes / n, bytes);
        section.copy_from_slice(self.shuffles);
    }
}

/// Stores a count; answers its section and what comes behind it.
fn section(image: &mut [u8], count: usize, bytes: usize) -> (&mut [u8], &mut [u8]) {
    let (front, rest) = image.split_at_mut(2);
    front.copy_from_slice(&(count as u16).to_le_bytes());
    rest.split_at_mut(bytes)
}

#[allow(clippy::too_many_arguments)]
pub fn write(
    values: &[i32],
    categories: &[u8],
    weights: &[u8],
    places: &[i32],
    bands: &[u32],
    shuffles: &[u8],
    counts: &[u64],
    out: &mut [u8],
    length: &mut [u64],
) -> u8 {
    let Ok(counts) = <&[u64; 5]>::try_from(counts) else {
        return 2;
    };
    if !(2..=ZONES as u64).contains(&counts[0]) {
        return 1;
    }
    let lengths = [
        values.len(),
        categories.len(),
        weights.len(),
        places.len(),
        bands.len(),
        shuffles.len(),
    ];
    if lengths != BUFFER_LENGTHS || length.len() != 1 {
        return 2;
    }
    let lent = Buffers {
        values,
        categories,
        weights,
        places,
        bands,
        shuffles,
    };
    let job = match Job::judged(&lent, counts) {
        Ok(job) => job,
        Err(number) => return number,
    };
    let Some(image) = out.get_mut(..job.length()) else {
        return 19;
    };
    length[0] = image.len() as u64;
    job.store(image);
    0
}
