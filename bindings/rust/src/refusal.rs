//! Why a call is refused.

use std::error::Error;
use std::fmt::{self, Display, Formatter};

/// Why a call is refused: the lowest that applies; of an archive `ArchiveTooLong`, else the reason of
/// its first refused line, `DuplicateLine` the last of these, else `TotalOverflow`; of a return to a mark
/// `PositionOutOfRange` for the position held, else `BookmarkInvalid`, else `PositionOutOfRange` for the
/// mark's; of a fix `Inexact` before `PositionOutOfRange`; of a lane's line `LanesOutOfRange` before
/// `BufferTooShort`; of two runs whatever refuses the first before what refuses the second. The numbers are
/// those of `include/noonpasture.h`.
#[derive(Clone, Copy, Debug, PartialEq, Eq, Hash)]
#[non_exhaustive]
pub enum Refusal {
    ArchiveTooLong = 1,
    MalformedLine,
    WidthOutOfRange,
    OperandOutOfRange,
    RunOutOfRange,
    ValueOutOfRange,
    NotInvertible,
    BufferTooShort,
    PlacesOutOfRange,
    TotalOverflow,
    DuplicateLine,
    PositionOutOfRange,
    BookmarkInvalid,
    Inexact,
    LanesOutOfRange,
    Incompatible,
}

impl Refusal {
    /// All of them, in the order of their numbers, which begin with 1.
    pub const ALL: [Refusal; 16] = [
        Refusal::ArchiveTooLong,
        Refusal::MalformedLine,
        Refusal::WidthOutOfRange,
        Refusal::OperandOutOfRange,
        Refusal::RunOutOfRange,
        Refusal::ValueOutOfRange,
        Refusal::NotInvertible,
        Refusal::BufferTooShort,
        Refusal::PlacesOutOfRange,
        Refusal::TotalOverflow,
        Refusal::DuplicateLine,
        Refusal::PositionOutOfRange,
        Refusal::BookmarkInvalid,
        Refusal::Inexact,
        Refusal::LanesOutOfRange,
        Refusal::Incompatible,
    ];

    /// ```
    /// assert_eq!(noonpasture::Refusal::BufferTooShort.number(), 8);
    /// ```
    #[inline]
    pub fn number(self) -> u64 {
        self as u64
    }

    /// Of a reply's first field: nothing if it is 0.
    #[inline]
    pub(crate) fn of(number: u64) -> Result<(), Refusal> {
        match number {
            0 => Ok(()),
            _ => Err(Refusal::ALL[number as usize - 1]),
        }
    }
}

impl Display for Refusal {
    fn fmt(&self, f: &mut Formatter) -> fmt::Result {
        f.write_str(match self {
            Refusal::ArchiveTooLong => "the archive has more than 65,536 bytes",
            Refusal::MalformedLine => "bytes that are not a valid line",
            Refusal::WidthOutOfRange => "the width is above 64, or below 3 for a customary multiplier",
            Refusal::OperandOutOfRange => {
                "the multiplier, the increment or the seed is 2^width or more, \
                 or at width 0 other than 16807, 0 and 1 to 2147483646"
            }
            Refusal::RunOutOfRange => "the count is 0, or first + count is above 2^64 - 1",
            Refusal::ValueOutOfRange => "the value is 2^width or more, or at width 0 not 1 to 2147483646",
            Refusal::NotInvertible => "the multiplier is even: a predecessor or a gap needs an odd one",
            Refusal::BufferTooShort => "the buffer is shorter than the line",
            Refusal::PlacesOutOfRange => "the number of places is 0 or above the width",
            Refusal::TotalOverflow => "the sum of the counts is above 2^64 - 1",
            Refusal::DuplicateLine => "the line equals an earlier one",
            Refusal::PositionOutOfRange => "the position is not on the run",
            Refusal::BookmarkInvalid => "the mark is above 3, or is returned to and unset",
            Refusal::Inexact => "a fix at width 0 would be inexact",
            Refusal::LanesOutOfRange => {
                "the lanes are none, more than 16 or more than the count, the lane is none of them, \
                 or the width is 0"
            }
            Refusal::Incompatible => {
                "the runs differ in width, multiplier or increment, or the multiplier is even"
            }
        })
    }
}

impl Error for Refusal {}

/// The refusal of an archive, with the number of the line that it concerns; 0 for none.
#[derive(Clone, Copy, Debug, PartialEq, Eq, Hash)]
pub struct Refused {
    pub refusal: Refusal,
    pub line: u64,
}

impl Refused {
    /// Of a reply's first field and its line: nothing if the first is 0.
    #[inline]
    pub(crate) fn of(number: u64, line: u64) -> Result<(), Refused> {
        Refusal::of(number).map_err(|refusal| Refused { refusal, line })
    }
}

impl Display for Refused {
    fn fmt(&self, f: &mut Formatter) -> fmt::Result {
        match self.line {
            0 => self.refusal.fmt(f),
            line => write!(f, "line {line}: {}", self.refusal),
        }
    }
}

impl Error for Refused {}
