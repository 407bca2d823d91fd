//! The arguments and replies of the calls, and what the implementations beside the library share.

use std::fmt::{self, Debug, Formatter};

pub use noonpasture::raw::{
    FixReply, GapReply, IndexReply, LookupReply, Mark, OrbitReply, Part, PlacesReply, Player, RunReply,
    SummaryReply, Value,
};
pub use noonpasture::{Fix, Generator, Run};

pub const ARCHIVE_TOO_LONG: u64 = 1;
pub const MALFORMED_LINE: u64 = 2;
pub const WIDTH_OUT_OF_RANGE: u64 = 3;
pub const OPERAND_OUT_OF_RANGE: u64 = 4;
pub const RUN_OUT_OF_RANGE: u64 = 5;
pub const VALUE_OUT_OF_RANGE: u64 = 6;
pub const NOT_INVERTIBLE: u64 = 7;
pub const BUFFER_TOO_SHORT: u64 = 8;
pub const PLACES_OUT_OF_RANGE: u64 = 9;
pub const TOTAL_OVERFLOW: u64 = 10;
pub const DUPLICATE_LINE: u64 = 11;
pub const POSITION_OUT_OF_RANGE: u64 = 12;
pub const BOOKMARK_INVALID: u64 = 13;
pub const INEXACT: u64 = 14;
pub const LANES_OUT_OF_RANGE: u64 = 15;
pub const INCOMPATIBLE: u64 = 16;

pub const ARCHIVE_LIMIT: usize = 65_536;

/// A call on a player.
#[derive(Clone, Copy, Debug)]
pub enum PlayerCall {
    Open(Run),
    Forward(u64),
    Back(u64),
    Mark(u64),
    Return(u64),
    Show,
}

/// The reply to a fix with the bits of its floats, by which it is compared: +0.0 and −0.0 are equal as floats.
#[derive(Clone, Copy, Default, PartialEq, Eq)]
pub struct FixBits {
    pub refusal: u64,
    pub east: u64,
    pub north: u64,
}

impl From<FixReply> for FixBits {
    fn from(FixReply { refusal, fix: Fix { east, north } }: FixReply) -> FixBits {
        FixBits { refusal, east: east.to_bits(), north: north.to_bits() }
    }
}

impl Debug for FixBits {
    fn fmt(&self, f: &mut Formatter) -> fmt::Result {
        let FixBits { refusal, east, north } = *self;
        let [e, n] = [east, north].map(f64::from_bits);
        write!(f, "refusal {refusal}, east {e:?} ({east:016x}), north {n:?} ({north:016x})")
    }
}

/// The period of a reply as a number.
pub fn period_of(reply: OrbitReply) -> u128 {
    match reply.period {
        0 => 1 << reply.exponent,
        period => period.into(),
    }
}

/// The bytes of a run's line, by Rust's own formatting.
pub fn line_of(run: &Run) -> Vec<u8> {
    let numbers: [u64; 6] = (*run).into();
    (numbers.map(|number| number.to_string()).join(",") + "\n").into_bytes()
}

pub fn accepted(run: Run) -> RunReply {
    RunReply { refusal: 0, run }
}

pub fn refused(refusal: u64) -> RunReply {
    RunReply { refusal, ..RunReply::default() }
}
