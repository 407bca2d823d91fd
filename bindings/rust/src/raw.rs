//! The calls with the replies of `include/noonpasture.h` as they are: a refusal's number (0 for
//! none) and zeros beside it. The functions of the crate's root read them.

use crate::{Fix, Generator, Run};

#[repr(C)]
#[derive(Clone, Copy, Debug, Default, PartialEq, Eq)]
pub struct Value {
    pub refusal: u64,
    pub value: u64,
}

/// `period` is 0 where it is 2^`exponent`; else it is the period itself, and `exponent` is 0.
#[repr(C)]
#[derive(Clone, Copy, Debug, Default, PartialEq, Eq)]
pub struct OrbitReply {
    pub refusal: u64,
    pub preperiod: u64,
    pub exponent: u64,
    pub period: u64,
}

/// `found` is 0 for never.
#[repr(C)]
#[derive(Clone, Copy, Debug, Default, PartialEq, Eq)]
pub struct IndexReply {
    pub refusal: u64,
    pub found: u64,
    pub index: u64,
}

/// `found` is 0 for never; `recurs` is 0 for `index` only, 1 for there and every 2^`exponent` further.
#[repr(C)]
#[derive(Clone, Copy, Debug, Default, PartialEq, Eq)]
pub struct PlacesReply {
    pub refusal: u64,
    pub found: u64,
    pub index: u64,
    pub recurs: u64,
    pub exponent: u64,
}

/// `found` is 0 for never.
#[repr(C)]
#[derive(Clone, Copy, Debug, Default, PartialEq, Eq)]
pub struct GapReply {
    pub refusal: u64,
    pub found: u64,
    pub steps: i64,
}

#[repr(C)]
#[derive(Clone, Copy, Debug, Default, PartialEq, Eq)]
pub struct RunReply {
    pub refusal: u64,
    pub run: Run,
}

/// `found` is 0 for none, and then `line` is 0 or the line that the refusal concerns.
#[repr(C)]
#[derive(Clone, Copy, Debug, Default, PartialEq, Eq)]
pub struct LookupReply {
    pub refusal: u64,
    pub line: u64,
    pub found: u64,
    pub position: u64,
}

/// `length` is 0 for the empty part.
#[repr(C)]
#[derive(Clone, Copy, Debug, Default, PartialEq, Eq)]
pub struct Part {
    pub start: u64,
    pub length: u64,
}

/// `line` is 0 or the line that the refusal concerns.
#[repr(C)]
#[derive(Clone, Copy, Debug, Default, PartialEq, Eq)]
pub struct SummaryReply {
    pub refusal: u64,
    pub line: u64,
    pub line_count: u64,
    pub total: u64,
}

/// `set` is 0 for unset; any other number is for set.
#[repr(C)]
#[derive(Clone, Copy, Debug, Default, PartialEq, Eq)]
pub struct Mark {
    pub set: u64,
    pub position: u64,
}

/// Any numbers may stand in it.
#[repr(C)]
#[derive(Clone, Copy, Debug, Default, PartialEq, Eq)]
pub struct Player {
    pub run: Run,
    pub position: u64,
    pub marks: [Mark; 4],
}

/// `fix` is +0.0 twice beside a refusal.
#[repr(C)]
#[derive(Clone, Copy, Debug, Default, PartialEq)]
pub struct FixReply {
    pub refusal: u64,
    pub fix: Fix,
}

mod foreign {
    use super::*;

    extern "C" {
        pub fn np_element(g: Generator, index: u64) -> Value;
        pub fn np_orbit(g: Generator) -> OrbitReply;
        pub fn np_index(g: Generator, value: u64) -> IndexReply;
        pub fn np_index_places(g: Generator, places: u64, value: u64) -> PlacesReply;
        pub fn np_gap(g: Generator, from: u64, to: u64) -> GapReply;
        pub fn np_predecessor(g: Generator, value: u64) -> Value;
        pub fn np_customary_multiplier(width: u64) -> Value;
        pub fn np_variety(run: Run) -> Value;
        pub fn np_write_line(run: Run, buffer: *mut u8, length: usize) -> Value;
        pub fn np_read_line(bytes: *const u8, length: usize) -> RunReply;
        pub fn np_remake(run: Run, position: u64, values: *mut u64, capacity: usize) -> Value;
        pub fn np_line(archive: *const u8, length: usize, line: u64) -> Part;
        pub fn np_lookup(archive: *const u8, length: usize, value: u64) -> LookupReply;
        pub fn np_summary(archive: *const u8, length: usize) -> SummaryReply;
        pub fn np_player_open(player: *mut Player, run: Run) -> u64;
        pub fn np_player_forward(player: *mut Player, steps: u64) -> u64;
        pub fn np_player_back(player: *mut Player, steps: u64) -> u64;
        pub fn np_player_mark(player: *mut Player, mark: u64) -> u64;
        pub fn np_player_return(player: *mut Player, mark: u64) -> u64;
        pub fn np_player_show(player: *const Player) -> Value;
        pub fn np_fix_at(run: Run, fix: u64) -> FixReply;
        pub fn np_lane(run: Run, lanes: u64, lane: u64) -> RunReply;
        pub fn np_write_lane(run: Run, lanes: u64, lane: u64, buffer: *mut u8, length: usize) -> Value;
        pub fn np_shared(first: Run, second: Run) -> Value;
    }
}

// Safety of all calls below: numbers may be any, those of a player's record too, each pointer to bytes or numbers
// comes with its slice's length, and a record is borrowed for the call alone.

#[inline]
pub fn element(g: Generator, index: u64) -> Value {
    unsafe { foreign::np_element(g, index) }
}

#[inline]
pub fn orbit(g: Generator) -> OrbitReply {
    unsafe { foreign::np_orbit(g) }
}

#[inline]
pub fn index(g: Generator, value: u64) -> IndexReply {
    unsafe { foreign::np_index(g, value) }
}

#[inline]
pub fn index_places(g: Generator, places: u64, value: u64) -> PlacesReply {
    unsafe { foreign::np_index_places(g, places, value) }
}

#[inline]
pub fn gap(g: Generator, from: u64, to: u64) -> GapReply {
    unsafe { foreign::np_gap(g, from, to) }
}

#[inline]
pub fn predecessor(g: Generator, value: u64) -> Value {
    unsafe { foreign::np_predecessor(g, value) }
}

#[inline]
pub fn customary_multiplier(width: u64) -> Value {
    unsafe { foreign::np_customary_multiplier(width) }
}

#[inline]
pub fn variety(run: Run) -> Value {
    unsafe { foreign::np_variety(run) }
}

#[inline]
pub fn write_line(run: Run, buffer: &mut [u8]) -> Value {
    unsafe { foreign::np_write_line(run, buffer.as_mut_ptr(), buffer.len()) }
}

#[inline]
pub fn read_line(bytes: &[u8]) -> RunReply {
    unsafe { foreign::np_read_line(bytes.as_ptr(), bytes.len()) }
}

#[inline]
pub fn remake(run: Run, position: u64, values: &mut [u64]) -> Value {
    unsafe { foreign::np_remake(run, position, values.as_mut_ptr(), values.len()) }
}

#[inline]
pub fn line(archive: &[u8], line: u64) -> Part {
    unsafe { foreign::np_line(archive.as_ptr(), archive.len(), line) }
}

#[inline]
pub fn lookup(archive: &[u8], value: u64) -> LookupReply {
    unsafe { foreign::np_lookup(archive.as_ptr(), archive.len(), value) }
}

#[inline]
pub fn summary(archive: &[u8]) -> SummaryReply {
    unsafe { foreign::np_summary(archive.as_ptr(), archive.len()) }
}

#[inline]
pub fn player_open(player: &mut Player, run: Run) -> u64 {
    unsafe { foreign::np_player_open(player, run) }
}

#[inline]
pub fn player_forward(player: &mut Player, steps: u64) -> u64 {
    unsafe { foreign::np_player_forward(player, steps) }
}

#[inline]
pub fn player_back(player: &mut Player, steps: u64) -> u64 {
    unsafe { foreign::np_player_back(player, steps) }
}

#[inline]
pub fn player_mark(player: &mut Player, mark: u64) -> u64 {
    unsafe { foreign::np_player_mark(player, mark) }
}

#[inline]
pub fn player_return(player: &mut Player, mark: u64) -> u64 {
    unsafe { foreign::np_player_return(player, mark) }
}

#[inline]
pub fn player_show(player: &Player) -> Value {
    unsafe { foreign::np_player_show(player) }
}

#[inline]
pub fn fix_at(run: Run, fix: u64) -> FixReply {
    unsafe { foreign::np_fix_at(run, fix) }
}

#[inline]
pub fn lane(run: Run, lanes: u64, lane: u64) -> RunReply {
    unsafe { foreign::np_lane(run, lanes, lane) }
}

#[inline]
pub fn write_lane(run: Run, lanes: u64, lane: u64, buffer: &mut [u8]) -> Value {
    unsafe { foreign::np_write_lane(run, lanes, lane, buffer.as_mut_ptr(), buffer.len()) }
}

#[inline]
pub fn shared(first: Run, second: Run) -> Value {
    unsafe { foreign::np_shared(first, second) }
}
