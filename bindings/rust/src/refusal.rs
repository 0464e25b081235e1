//! A refusal: the number of document 01's table, or 24 by request A.9, as an error.

use std::error::Error;
use std::fmt;

/// Why a call did nothing: the number of the cause in document 01's table, or 24 by request A.9. All lent memory is then as it was.
#[derive(Debug, Clone, Copy, PartialEq, Eq, Hash)]
pub struct Refusal(u8);

/// The causes with their numbers, in document 01's words; 7 as request A.6 has it, 24 as request A.9.
const CAUSES: [(u8, &str); 20] = [
    (1, "n, or r × c, outside 2 to 64"),
    (2, "a lent slice not of its exact length"),
    (3, "a value beyond 100,000 in size"),
    (4, "a weight above 9, or 0 in an image join"),
    (5, "a weight on the diagonal"),
    (6, "W is 0"),
    (7, "M of the zones kept is 0"),
    (8, "a category above 7"),
    (9, "a class above 8"),
    (10, "a coordinate beyond 30,000 in size"),
    (11, "two zones at one place"),
    (
        12,
        "bands not strictly rising, a band of 0, a count outside 1 to 8 (an image or the writer may have 0), or bands without places",
    ),
    (13, "a shuffle that lacks some zone number"),
    (14, "the image ends inside a section or its count"),
    (15, "another count not allowed in an image"),
    (16, "joins not rising, or an end not below n"),
    (17, "bytes after the last section"),
    (18, "divisor below 1, or p or q beyond 6×10^18 in size"),
    (19, "the writer's output is shorter than the image"),
    (24, "a desk number above 3"),
];

impl Refusal {
    /// n, or rows × columns, outside 2 to 64.
    pub const ZONES: Refusal = Refusal(1);
    /// A lent slice not of its exact length.
    pub const LENGTH: Refusal = Refusal(2);
    /// A value beyond 100,000 in size that is not [`crate::NOT_RETURNED`].
    pub const VALUE: Refusal = Refusal(3);
    /// A weight above 9, or 0 in an image join.
    pub const WEIGHT: Refusal = Refusal(4);
    /// A weight on the diagonal.
    pub const DIAGONAL: Refusal = Refusal(5);
    /// W is 0: no weight is left between zones whose values are returned.
    pub const NO_WEIGHT: Refusal = Refusal(6);
    /// M of the zones kept is 0.
    pub const NO_SPREAD: Refusal = Refusal(7);
    /// A category above 7.
    pub const CATEGORY: Refusal = Refusal(8);
    /// A class above 8.
    pub const CLASS: Refusal = Refusal(9);
    /// A coordinate beyond 30,000 in size.
    pub const COORDINATE: Refusal = Refusal(10);
    /// Two zones at one place.
    pub const ONE_PLACE: Refusal = Refusal(11);
    /// Bands not strictly rising, a band of 0, a count that is not allowed, or bands without places.
    pub const BANDS: Refusal = Refusal(12);
    /// A shuffle that lacks some zone number.
    pub const SHUFFLE: Refusal = Refusal(13);
    /// The image ends inside a section or its count.
    pub const CUT: Refusal = Refusal(14);
    /// Another count not allowed in an image.
    pub const COUNT: Refusal = Refusal(15);
    /// Joins not rising, or an end not below n.
    pub const JOINS: Refusal = Refusal(16);
    /// Bytes after the last section.
    pub const BYTES_AFTER: Refusal = Refusal(17);
    /// Divisor below 1, or p or q beyond 6×10^18 in size.
    pub const RATIO: Refusal = Refusal(18);
    /// The writer's output is shorter than the image.
    pub const OUTPUT: Refusal = Refusal(19);
    /// A desk number above 3.
    pub const DESK: Refusal = Refusal(24);

    /// The number of the cause, 1 to 19 or 24.
    pub const fn number(self) -> u8 {
        self.0
    }

    /// The cause in document 01's words; 7 as request A.6 has it, 24 as request A.9.
    pub fn text(self) -> &'static str {
        let cause = CAUSES.iter().find(|(number, _)| *number == self.0);
        cause.map_or("no such cause", |(_, text)| text)
    }

    /// What a call of the archive answered: 0 is no refusal.
    pub(crate) fn of(number: u8) -> Result<(), Refusal> {
        match number {
            0 => Ok(()),
            _ => Err(Refusal(number)),
        }
    }
}

impl fmt::Display for Refusal {
    fn fmt(&self, to: &mut fmt::Formatter<'_>) -> fmt::Result {
        write!(to, "refused {}: {}", self.number(), self.text())
    }
}

impl Error for Refusal {}

#[cfg(test)]
mod tests {
    use super::*;

    #[test]
    fn every_number_has_its_cause() {
        assert_eq!(Refusal::of(0), Ok(()));
        assert_eq!(Refusal::of(19), Err(Refusal::OUTPUT));
        assert_eq!(Refusal::of(24), Err(Refusal::DESK));
        assert_eq!(Refusal::NO_SPREAD.text(), "M of the zones kept is 0");
        assert_eq!(Refusal::OUTPUT.text(), "the writer's output is shorter than the image");
        assert_eq!(Refusal::NO_WEIGHT.to_string(), "refused 6: W is 0");
        assert_eq!(Refusal::DESK.to_string(), "refused 24: a desk number above 3");
        assert_eq!([20, 23, 25].map(|number| Refusal(number).text()), ["no such cause"; 3]);
    }
}
