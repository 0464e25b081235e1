//! Lists as the stored cases write them (cases/README.md).

use super::lent::Entry;

/// A list of a case is far shorter, so a larger count is a slip of the pen.
const MOST: usize = 100_000;

pub trait Written: Entry {
    fn of_word(word: &str) -> Option<Self>;

    /// What an unused entry at this place holds, in lists that have such marks.
    fn mark(_place: usize) -> Option<Self> {
        None
    }

    /// Only lists of bytes are written in hexadecimal digits.
    fn of_byte(_byte: u8) -> Option<Self> {
        None
    }
}

impl Written for u8 {
    fn of_word(word: &str) -> Option<Self> {
        word.parse().ok()
    }

    /// Above every category, weight and zone number.
    fn mark(place: usize) -> Option<Self> {
        Some(100 + (place % 151) as u8)
    }

    fn of_byte(byte: u8) -> Option<Self> {
        Some(byte)
    }
}

impl Written for i32 {
    fn of_word(word: &str) -> Option<Self> {
        word.parse().ok()
    }

    /// Above every value and coordinate.
    fn mark(place: usize) -> Option<Self> {
        Some(2_000_000_000 + (place % 1000) as i32)
    }
}

impl Written for u32 {
    fn of_word(word: &str) -> Option<Self> {
        word.parse().ok()
    }

    /// A band that no case has.
    fn mark(place: usize) -> Option<Self> {
        Some(4_000_000_000 + (place % 1000) as u32)
    }
}

impl Written for i64 {
    fn of_word(word: &str) -> Option<Self> {
        word.parse().ok()
    }
}

impl Written for u64 {
    fn of_word(word: &str) -> Option<Self> {
        word.parse().ok()
    }
}

impl Written for f64 {
    /// The 64 bits, as sixteen digits.
    fn of_word(word: &str) -> Option<Self> {
        let bytes: [u8; 8] = bytes(word)?.try_into().ok()?;
        Some(f64::from_bits(u64::from_be_bytes(bytes)))
    }
}

/// Two hexadecimal digits for each byte.
fn bytes(digits: &str) -> Option<Vec<u8>> {
    let digits = digits
        .chars()
        .map(|digit| digit.to_digit(16).map(|digit| digit as u8));
    let digits: Vec<u8> = digits.collect::<Option<_>>()?;
    let (pairs, rest) = digits.as_chunks();
    let bytes = pairs.iter().map(|[high, low]| 16 * high + low).collect();
    rest.is_empty().then_some(bytes)
}

fn count(word: &str) -> Option<usize> {
    word.parse().ok().filter(|count| (1..=MOST).contains(count))
}

/// Adds the entries that a word stands for.
fn add<T: Written>(list: &mut Vec<T>, word: &str) -> Option<()> {
    if let Some(digits) = word.strip_prefix("x:") {
        for byte in bytes(digits)? {
            list.push(T::of_byte(byte)?);
        }
    } else if let Some(marks) = word.strip_prefix('~') {
        for _ in 0..count(marks)? {
            list.push(T::mark(list.len())?);
        }
    } else if let Some((times, entry)) = word.split_once('*') {
        let entry = T::of_word(entry)?;
        list.extend((0..count(times)?).map(|_| entry));
    } else {
        list.push(T::of_word(word)?);
    }
    Some(())
}

/// The entries of a list, or the word that cannot be read.
pub fn entries<T: Written>(text: &str) -> Result<Vec<T>, &str> {
    let mut list = Vec::new();
    for word in text.split_whitespace() {
        add(&mut list, word).ok_or(word)?;
    }
    Ok(list)
}
