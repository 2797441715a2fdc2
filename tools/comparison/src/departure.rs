//! Where gimli_cfi returns something else than gimli on purpose (docs/DIFFERENCES.md).
use crate::answer::{Answer, Error};

/// A difference on purpose.
#[derive(Clone, Copy, Debug, PartialEq)]
pub enum Departure {
    /// Letter `B` of an augmentation string and opcode 0x2f are read.
    Extension,
    /// A product in `lookup` that is not a `u64` is `UnsupportedOffset`.
    Product,
    /// The place that `UnexpectedEof` of `lookup` carries.
    Place,
    /// `pointer_to_offset` of a pointer below the section is `OffsetOutOfBounds`.
    Below,
    /// `nth` at or past the number of rows that remain is `None`, and no rows are left.
    PastTheRows,
    /// An error of the format or of the skip in `nth` leaves the iterator unchanged.
    Unchanged,
}

impl Departure {
    pub const ALL: [Departure; 6] = [
        Departure::Extension,
        Departure::Product,
        Departure::Place,
        Departure::Below,
        Departure::PastTheRows,
        Departure::Unchanged,
    ];
}

/// What gimli_cfi has to return.
pub struct Expected {
    pub answer: Answer,
    /// `UnexpectedEof` may carry this place too.
    pub or_place: Option<u64>,
    /// Why `answer` is not gimli's.
    pub departure: Option<Departure>,
}

impl Expected {
    pub fn same(answer: Answer) -> Expected {
        Expected {
            answer,
            or_place: None,
            departure: None,
        }
    }

    pub fn departs(departure: Departure, status: i32, value: u64) -> Expected {
        let answer = Err(Error::new(status, value));
        Expected {
            answer,
            or_place: None,
            departure: Some(departure),
        }
    }

    pub fn allows(&self, answer: &Answer) -> bool {
        let other = self
            .or_place
            .map(|place| Err(Error::new(Error::UNEXPECTED_EOF, place)));
        self.answer == *answer || other.is_some_and(|other| other == *answer)
    }
}
