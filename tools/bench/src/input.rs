//! The job that is measured: request A.4's, with everything that an image can hold.

use differential::{BANDS, DESKS, NOT_RETURNED, SHUFFLES};

pub struct Input {
    pub n: usize,
    pub values: Vec<i32>,
    pub weights: Vec<u8>,
    pub classes: Vec<u8>,
    pub categories: Vec<u8>,
    pub places: Vec<i32>,
    pub bands: Vec<u32>,
    pub shuffles: Vec<u8>,
    /// The desk of each shuffle: the four by turns.
    pub desks: Vec<u8>,
    pub image: Vec<u8>,
}

/// An image that is refused, and its number.
pub struct Refused {
    pub image: Vec<u8>,
    pub number: u8,
}

/// The lists as the writer is lent them, at their full length.
pub struct Buffers {
    pub values: Vec<i32>,
    pub categories: Vec<u8>,
    pub weights: Vec<u8>,
    pub places: Vec<i32>,
    pub bands: Vec<u32>,
    pub shuffles: Vec<u8>,
}

/// Request A.5's shuffles from seed 1.
fn shuffles(n: usize, count: usize) -> Vec<u8> {
    let mut state = 1u64;
    let mut list = Vec::with_capacity(n * count);
    for _ in 0..count {
        let mut row: Vec<u8> = (0..n as u8).collect();
        for i in (1..n).rev() {
            state = 16_807 * state % 2_147_483_647;
            row.swap(i, (state % (i as u64 + 1)) as usize);
        }
        list.extend(row);
    }
    list
}

/// Eight bands that part the pairs of places into nine classes of about the same number.
fn ninths(places: &[i32]) -> Vec<u32> {
    let (places, _) = places.as_chunks::<2>();
    let mut squares = Vec::new();
    for (i, a) in places.iter().enumerate() {
        for b in &places[..i] {
            squares.push(((a[0] - b[0]).pow(2) + (a[1] - b[1]).pow(2)) as u32);
        }
    }
    squares.sort_unstable();
    (1..=BANDS)
        .map(|k| squares[k * squares.len() / 9])
        .collect()
}

impl Input {
    pub fn new(n: usize, rows: usize) -> Self {
        Self::leaving_out(&[], n, rows)
    }

    /// The same job, of which these zones send no value.
    pub fn not_returning(zones: &[usize], n: usize, rows: usize) -> Self {
        let mut input = Self::new(n, rows);
        for &zone in zones {
            input.values[zone] = NOT_RETURNED;
        }
        input.write();
        input
    }

    /// The same job, of which these zones touch nobody.
    pub fn leaving_out(zones: &[usize], n: usize, rows: usize) -> Self {
        assert!(rows <= SHUFFLES);
        let values = (0..n as i32).map(|i| i * i).collect();
        let pairs = (0..n * n).map(|p| (p / n, p % n));
        let touch = |i, j| i != j && !zones.contains(&i) && !zones.contains(&j);
        let weights = pairs
            .map(|(i, j)| {
                if touch(i, j) {
                    ((i + 2 * j) % 10) as u8
                } else {
                    0
                }
            })
            .collect();
        let places: Vec<i32> = (0..n as i32)
            .flat_map(|i| [100 * (i % 8) + i * i % 37, 100 * (i / 8) + i * i % 41])
            .collect();
        let bands = ninths(&places);
        let mut input = Input {
            n,
            values,
            weights,
            classes: vec![0; n * n],
            categories: (0..n).map(|i| (i % 8) as u8).collect(),
            places,
            bands,
            shuffles: shuffles(n, rows),
            desks: (0..rows).map(|row| (row % DESKS) as u8).collect(),
            image: Vec::new(),
        };
        let number = differential::bands(n, &input.places, &input.bands, &mut input.classes);
        assert_eq!(number, 0, "the bands of the job");
        input.write();
        input
    }

    pub fn buffers(&self) -> Buffers {
        fn full<T: Copy + Default>(list: &[T], length: usize) -> Vec<T> {
            let mut buffer = list.to_vec();
            buffer.resize(length, T::default());
            buffer
        }
        Buffers {
            values: full(&self.values, 64),
            categories: full(&self.categories, 64),
            weights: full(&self.weights, 4096),
            places: full(&self.places, 128),
            bands: full(&self.bands, 8),
            shuffles: full(&self.shuffles, 31_936),
        }
    }

    /// The image is refused at its first count.
    pub fn refused_first(&self) -> Refused {
        let mut image = self.image.clone();
        image[0] = 65;
        Refused { image, number: 1 }
    }

    /// The image is refused at its last shuffle, when all else is judged.
    pub fn refused_last(&self) -> Refused {
        let mut image = self.image.clone();
        *image.last_mut().expect("there are shuffles") = 255;
        Refused { image, number: 13 }
    }

    pub fn counts(&self) -> [u64; 5] {
        let n = self.n as u64;
        [n, n, n, 8, (self.shuffles.len() / self.n) as u64]
    }

    fn write(&mut self) {
        let lent = self.buffers();
        let mut image = vec![0; 44_908];
        let mut length = [0];
        let number = differential::write(
            &lent.values,
            &lent.categories,
            &lent.weights,
            &lent.places,
            &lent.bands,
            &lent.shuffles,
            &self.counts(),
            &mut image,
            &mut length,
        );
        assert_eq!(number, 0, "the image of the job");
        image.truncate(length[0] as usize);
        self.image = image;
    }
}

/// Ratios of many sizes, halfway ones and exact ones among them.
pub fn ratios() -> Vec<(i64, i64)> {
    let mut state = 1u64;
    let mut drawn = || {
        state = 16_807 * state % 2_147_483_647;
        state as i64
    };
    (0..256)
        .map(|k| match k % 4 {
            0 => (drawn() * drawn(), drawn() * drawn()),
            1 => (drawn() - (1 << 30), drawn()),
            2 => ((1 << 53) + 2 * drawn() + 1, 1 << (k % 60)),
            _ => (-drawn() * 1_000_000, drawn() % 1000 + 1),
        })
        .collect()
}
