//! Job images: the buffers, the reader, the writer and the report.

use crate::{raw, Refusal, REPORT_TEXT};

/// The six buffers that an image is read into and written from. About 37 KB: put it in a `Box` where the stack is small.
#[derive(Debug, Clone, PartialEq, Eq)]
pub struct Buffers {
    /// A value not returned is [`crate::NOT_RETURNED`], here as in an image.
    pub values: [i32; 64],
    pub categories: [u8; 64],
    /// w(i,j) at n × i + j: the first n × n are used.
    pub weights: [u8; 4096],
    /// Across and up of each zone.
    pub places: [i32; 128],
    pub bands: [u32; 8],
    /// Rows of n zone numbers.
    pub shuffles: [u8; 31936],
}

impl Buffers {
    /// Buffers of 0.
    pub const fn new() -> Buffers {
        Buffers {
            values: [0; 64],
            categories: [0; 64],
            weights: [0; 4096],
            places: [0; 128],
            bands: [0; 8],
            shuffles: [0; 31936],
        }
    }
}

impl Default for Buffers {
    fn default() -> Buffers {
        Buffers::new()
    }
}

/// The six counts of an image that was read.
#[derive(Debug, Clone, Copy, PartialEq, Eq)]
pub struct Sections {
    /// n.
    pub values: usize,
    /// 0 or n.
    pub categories: usize,
    pub joins: usize,
    /// 0 or n: zones, not coordinates.
    pub places: usize,
    pub bands: usize,
    /// Rows.
    pub shuffles: usize,
}

/// The counts of a job to be written; the writer counts the joins itself.
#[derive(Debug, Clone, Copy, PartialEq, Eq)]
pub struct Given {
    /// n.
    pub values: usize,
    /// 0 or n.
    pub categories: usize,
    /// 0 or n: zones, not coordinates.
    pub places: usize,
    /// 0 to 8, and 0 where there are no places.
    pub bands: usize,
    /// 0 to 499 rows.
    pub shuffles: usize,
}

impl From<Sections> for Given {
    fn from(read: Sections) -> Given {
        Given {
            values: read.values,
            categories: read.categories,
            places: read.places,
            bands: read.bands,
            shuffles: read.shuffles,
        }
    }
}

/// Reads the job of an image into the buffers. Entries that the job does not use keep what they held; a weight with no join becomes 0.
/// Marks of values not returned are stored as they are, and so are all joins of the image; only 6 and 7 leave zones out.
///
/// # Errors
///
/// By place in the image: 1 3 4 5 6 7 8 10 11 12 13 14 15 16 17. The buffers are then as they were.
pub fn read(image: &[u8], to: &mut Buffers) -> Result<Sections, Refusal> {
    let mut counts = [0u64; 6];
    // Each list is passed with its own length, and what is written is borrowed alone.
    Refusal::of(unsafe {
        raw::dca_read(
            image.as_ptr(),
            image.len(),
            to.values.as_mut_ptr(),
            to.values.len(),
            to.categories.as_mut_ptr(),
            to.categories.len(),
            to.weights.as_mut_ptr(),
            to.weights.len(),
            to.places.as_mut_ptr(),
            to.places.len(),
            to.bands.as_mut_ptr(),
            to.bands.len(),
            to.shuffles.as_mut_ptr(),
            to.shuffles.len(),
            counts.as_mut_ptr(),
            counts.len(),
        )
    })?;
    // Counts are at most 4,032: usize holds them.
    let [values, categories, joins, places, bands, shuffles] = counts.map(|count| count as usize);
    Ok(Sections {
        values,
        categories,
        joins,
        places,
        bands,
        shuffles,
    })
}

/// Writes the image of the job in the buffers to the front of `out` and returns its length, at most [`crate::IMAGE_MOST`]; the rest of
/// `out` keeps what it held. Entries that the job does not use are not judged. The image has the marks of values not returned and the joins
/// of their zones, so that an image read and written is the same to the byte.
///
/// # Errors
///
/// 1, then by place in the image 3 4 5 8 10 11 12 13 15, then 6 7 19. `out` is then as it was.
pub fn write(from: &Buffers, given: Given, out: &mut [u8]) -> Result<usize, Refusal> {
    let counts = [given.values, given.categories, given.places, given.bands, given.shuffles].map(|count| count as u64);
    let mut length = [0u64; 1];
    // As in `read`.
    Refusal::of(unsafe {
        raw::dca_write(
            from.values.as_ptr(),
            from.values.len(),
            from.categories.as_ptr(),
            from.categories.len(),
            from.weights.as_ptr(),
            from.weights.len(),
            from.places.as_ptr(),
            from.places.len(),
            from.bands.as_ptr(),
            from.bands.len(),
            from.shuffles.as_ptr(),
            from.shuffles.len(),
            counts.as_ptr(),
            counts.len(),
            out.as_mut_ptr(),
            out.len(),
            length.as_mut_ptr(),
            length.len(),
        )
    })?;
    Ok(length[0] as usize)
}

/// Puts the lines of an image's report at the front of `text` and returns that part. It is ASCII; the rest of `text` keeps what it held.
/// The lines `zones` and `expected` count the zones kept, and a zone left out has no line `local`; these lines are in the order of
/// [`hot_list`](crate::hot_list). An image has no desks: the line `rank` counts all shuffles, as [`rank`](crate::rank) does where each is of
/// desk 0.
///
/// # Errors
///
/// By place in the image, as [`read`]: 1 3 4 5 6 7 8 10 11 12 13 14 15 16 17. `text` is then as it was.
pub fn report<'a>(image: &[u8], text: &'a mut [u8; REPORT_TEXT]) -> Result<&'a [u8], Refusal> {
    let mut length = [0u64; 1];
    // As in `read`.
    Refusal::of(unsafe {
        raw::dca_report(
            image.as_ptr(),
            image.len(),
            text.as_mut_ptr(),
            text.len(),
            length.as_mut_ptr(),
            length.len(),
        )
    })?;
    Ok(&text[..length[0] as usize])
}
