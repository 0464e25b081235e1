//! A list that is lent to a proved call and to its fellow: contents that are drawn or stored, and guards before and behind.

use super::draw::Draw;
use std::fmt::Debug;
use std::ops::Range;

#[cfg(test)]
mod tests;

pub trait Entry: Copy + Debug {
    /// Any content at all: floats are any 64 bits, NaNs too.
    fn of_bits(bits: u64) -> Self;
    fn bits(self) -> u64;
}

macro_rules! whole_entry {
    ($($kind:ty),*) => {
        $(impl Entry for $kind {
            fn of_bits(bits: u64) -> Self {
                bits as $kind
            }

            fn bits(self) -> u64 {
                self as u64
            }
        })*
    };
}

whole_entry!(u8, i32, u32, i64, u64);

impl Entry for f64 {
    fn of_bits(bits: u64) -> Self {
        // Half of them are NaNs, quiet and signalling, of both signs, with any payload: a bit of the exponent decides.
        f64::from_bits(bits | ((bits >> 52 & 1) * 0x7FF0_0000_0000_0000))
    }

    fn bits(self) -> u64 {
        self.to_bits()
    }
}

/// The same memory three times: as it was, for the proved call, for the independent one.
pub struct Lent<T> {
    before: Vec<T>,
    proved: Vec<T>,
    own: Vec<T>,
    lent: Range<usize>,
    /// What a stored case says that both must leave, the guards with it.
    expected: Option<Vec<T>>,
}

impl<T: Entry> Lent<T> {
    /// Lends these contents.
    pub fn list(draw: &mut Draw, contents: &[T]) -> Self {
        Self::padded(draw, contents, contents.len())
    }

    /// Lends a list of random contents.
    pub fn noise(draw: &mut Draw, length: usize) -> Self {
        Self::padded(draw, &[], length)
    }

    /// Lends these contents at the front of a list that has random ones behind.
    pub fn padded(draw: &mut Draw, contents: &[T], length: usize) -> Self {
        let (front, behind) = (1 + draw.below(8), 1 + draw.below(8));
        let contents = &contents[..contents.len().min(length)];
        let mut before = Vec::with_capacity(front + length + behind);
        before.extend((0..front).map(|_| T::of_bits(draw.next())));
        before.extend(contents);
        before.extend((contents.len()..length + behind).map(|_| T::of_bits(draw.next())));
        Lent {
            proved: before.clone(),
            own: before.clone(),
            before,
            lent: front..front + length,
            expected: None,
        }
    }

    /// Lends what a stored case has, and expects what it says; the two are of one length.
    pub fn stored(draw: &mut Draw, contents: &[T], outcome: &[T]) -> Self {
        let mut lent = Self::list(draw, contents);
        let mut expected = lent.before.clone();
        expected[lent.lent.clone()].copy_from_slice(outcome);
        lent.expected = Some(expected);
        lent
    }

    pub fn len(&self) -> usize {
        self.lent.len()
    }

    /// What was lent.
    pub fn before(&self) -> &[T] {
        &self.before[self.lent.clone()]
    }

    pub fn own(&self) -> &[T] {
        &self.own[self.lent.clone()]
    }

    pub fn own_mut(&mut self) -> &mut [T] {
        &mut self.own[self.lent.clone()]
    }

    /// The list for the proved call. The pointer is one into the whole memory and may be written through even where the list is
    /// only read: what an archive stores beside a list, or in it, must be there to be found.
    pub fn proved(&mut self) -> *mut T {
        self.proved.as_mut_ptr().wrapping_add(self.lent.start)
    }

    /// What the proved call left in the list.
    pub fn proved_list(&mut self) -> &mut [T] {
        &mut self.proved[self.lent.clone()]
    }

    /// The same of one entry, counted from the list's start: a place before it or behind its end is a guard.
    pub fn proved_entry(&mut self, place: isize) -> &mut T {
        let place = self.lent.start.checked_add_signed(place);
        &mut self.proved[place.expect("no list has so many guards")]
    }

    fn first(&self, one: &[T], other: &[T], what: &str) -> Option<String> {
        let mut entries = one.iter().zip(other);
        let at = entries.position(|(x, y)| x.bits() != y.bits())?;
        let (x, y) = (one[at], other[at]);
        let place = at as i64 - self.lent.start as i64;
        Some(format!(
            "entry {place} of {}: {what} {x:?} ({:X}) and {y:?} ({:X})",
            self.len(),
            x.bits(),
            y.bits()
        ))
    }
}

/// What is asked of lent memory after the two calls, the guards with it.
pub trait Memory {
    /// Where one of them left something else than the stored case says, if there is one.
    fn unexpected(&self) -> Option<String>;
    /// Where the proved call left something else than the independent one.
    fn difference(&self) -> Option<String>;
    /// Where one of them did not keep what was there.
    fn change(&self) -> Option<String>;
    /// The entries of the list in which the independent call left something else than was there.
    fn stored(&self) -> Vec<u64>;
}

impl<T: Entry> Memory for Lent<T> {
    fn unexpected(&self) -> Option<String> {
        let expected = self.expected.as_ref()?;
        self.first(&self.proved, expected, "proved, expected")
            .or_else(|| self.first(&self.own, expected, "independent, expected"))
    }

    fn difference(&self) -> Option<String> {
        self.first(&self.proved, &self.own, "proved and independent")
    }

    fn change(&self) -> Option<String> {
        self.first(&self.proved, &self.before, "proved, before")
            .or_else(|| self.first(&self.own, &self.before, "independent, before"))
    }

    fn stored(&self) -> Vec<u64> {
        let entries = self.own().iter().zip(self.before());
        let other = entries.filter(|(now, before)| now.bits() != before.bits());
        other.map(|(now, _)| now.bits()).collect()
    }
}
