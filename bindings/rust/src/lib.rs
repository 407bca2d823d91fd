//! The demo-run archive, proved: safe functions over the library `libnoonpasture.a`.
//!
//! Every call takes any numbers and any bytes, and gives the full answer or the refusal fixed for
//! that input; nothing has to be checked beforehand. `docs/SCOPE.md` of the repository says what
//! each one means.
//!
//! ```
//! use noonpasture::{lookup, Location};
//!
//! let archive = b"4,5,3,1,0,16\n10,371,995,73,100,8\n";
//! assert_eq!(lookup(archive, 5), Ok(Some(Location { line: 1, position: 4 })));
//! assert_eq!(lookup(archive, 49), Ok(Some(Location { line: 2, position: 0 })));
//! assert_eq!(lookup(archive, 985), Ok(None));
//! ```
//!
//! The library is looked for in the folder `NOONPASTURE_LIB`, else where `tools/build library`
//! writes it.

pub mod raw;
mod refusal;

pub use refusal::{Refusal, Refused};

/// `NP_VERSION` of the header.
pub const VERSION: &str = env!("CARGO_PKG_VERSION");
/// No line of a run is longer, its byte 10 included.
pub const LINE_MAX: usize = 107;
/// No accepted archive is longer.
pub const ARCHIVE_MAX: usize = 65_536;

/// A linear congruential sequence. Element 0 is the seed; element i + 1 is
/// `multiplier` × (element i) + `increment` modulo 2^`width`, or at width 0 modulo 2147483647.
///
/// It is accepted when the width is 1 to 64 and the other three are below 2^`width`; and at width 0,
/// which is the generator of APL\360, when the multiplier is 16807, the increment 0 and the seed 1 to
/// 2147483646.
#[repr(C)]
#[derive(Clone, Copy, Debug, Default, PartialEq, Eq, Hash)]
pub struct Generator {
    pub width: u64,
    pub multiplier: u64,
    pub increment: u64,
    pub seed: u64,
}

/// A stretch of a generator's elements: position p, below `count`, shows element `first` + p.
///
/// It is accepted when its generator is, `count` is at least 1 and `first` + `count` at most
/// 2^64 − 1.
#[repr(C)]
#[derive(Clone, Copy, Debug, Default, PartialEq, Eq, Hash)]
pub struct Run {
    pub generator: Generator,
    pub first: u64,
    pub count: u64,
}

/// The run of a line's six numbers, in their order.
impl From<[u64; 6]> for Run {
    #[inline]
    fn from([width, multiplier, increment, seed, first, count]: [u64; 6]) -> Run {
        let generator = Generator { width, multiplier, increment, seed };
        Run { generator, first, count }
    }
}

/// The six numbers of a run's line, in their order.
impl From<Run> for [u64; 6] {
    #[inline]
    fn from(run: Run) -> [u64; 6] {
        let Generator { width, multiplier, increment, seed } = run.generator;
        [width, multiplier, increment, seed, run.first, run.count]
    }
}

/// Where a sequence begins to repeat itself, and after how many elements.
#[derive(Clone, Copy, Debug, PartialEq, Eq, Hash)]
pub struct Orbit {
    /// The least index whose element occurs again at a later index.
    pub preperiod: u64,
    /// After how many indices it first does.
    pub period: Period,
}

impl Orbit {
    /// The period as a number.
    #[inline]
    pub fn period(self) -> u128 {
        match self.period {
            Period::PowerOfTwo { exponent } => 1 << exponent,
            Period::Whole(period) => period.into(),
        }
    }
}

/// A period, which as a power of two may be 2^64.
#[derive(Clone, Copy, Debug, PartialEq, Eq, Hash)]
pub enum Period {
    /// 2^`exponent`, at widths 1 to 64; `exponent` is 0 to 64.
    PowerOfTwo { exponent: u64 },
    /// This number itself, at width 0.
    Whole(u64),
}

/// Where a value first occurs in a sequence that has no end.
#[derive(Clone, Copy, Debug, PartialEq, Eq, Hash)]
pub enum Index {
    /// At this index and at none below it.
    At(u64),
    /// At no index, however large.
    Never,
}

/// Where a value occurs in the lowest bits of the elements of a sequence that has no end.
#[derive(Clone, Copy, Debug, PartialEq, Eq, Hash)]
pub enum Occurrences {
    /// At this index and at no other.
    Once(u64),
    /// At this index and every 2^`exponent` indices further, and at no other; `exponent` is 0 to 64.
    Every { index: u64, exponent: u64 },
    /// At no index, however large.
    Never,
}

/// How many steps lead from one number of a sequence to another.
#[derive(Clone, Copy, Debug, PartialEq, Eq, Hash)]
pub enum Gap {
    /// So many, backward if negative: the only count d with −P ≤ 2 d < P, P the period, that leads there.
    Steps(i64),
    /// One of the numbers is at no index, however large.
    Never,
}

/// A place in an archive: the number of a line, from 1, and a position of its run, from 0.
#[derive(Clone, Copy, Debug, PartialEq, Eq, Hash)]
pub struct Location {
    pub line: u64,
    pub position: u64,
}

/// How much an archive holds.
#[derive(Clone, Copy, Debug, PartialEq, Eq, Hash)]
pub struct Summary {
    /// How many lines.
    pub line_count: u64,
    /// The sum of their counts.
    pub total: u64,
}

/// A deviate to the east and one to the north, each from −1/2 to below 1/2.
#[repr(C)]
#[derive(Clone, Copy, Debug, Default, PartialEq)]
pub struct Fix {
    pub east: f64,
    pub north: f64,
}

/// The value of a reply, or its refusal.
#[inline]
fn value(reply: raw::Value) -> Result<u64, Refusal> {
    Refusal::of(reply.refusal).map(|()| reply.value)
}

/// The element at an index.
///
/// ```
/// use noonpasture::{element, Generator, Refusal};
///
/// let g = Generator { width: 10, multiplier: 371, increment: 995, seed: 73 };
/// assert_eq!(element(g, 1000), Ok(985));
/// assert_eq!(element(Generator { width: 65, ..g }, 0), Err(Refusal::WidthOutOfRange));
/// assert_eq!(element(Generator { seed: 1024, ..g }, 0), Err(Refusal::OperandOutOfRange));
///
/// let prime = Generator { width: 0, multiplier: 16807, increment: 0, seed: 1 };
/// assert_eq!(element(prime, 2), Ok(282_475_249));
/// assert_eq!(element(prime, 2_147_483_646), Ok(1));
/// assert_eq!(element(Generator { seed: 0, ..prime }, 2), Err(Refusal::OperandOutOfRange));
/// ```
#[inline]
pub fn element(g: Generator, index: u64) -> Result<u64, Refusal> {
    value(raw::element(g, index))
}

/// The preperiod and the period.
///
/// ```
/// use noonpasture::{orbit, Generator, Orbit, Period};
///
/// let g = Generator { width: 4, multiplier: 6, increment: 1, seed: 1 };
/// assert_eq!(orbit(g), Ok(Orbit { preperiod: 3, period: Period::PowerOfTwo { exponent: 0 } }));
/// let counter = Generator { width: 64, multiplier: 1, increment: 1, seed: 0 };
/// assert_eq!(orbit(counter).unwrap().period(), 1 << 64);
/// let prime = Generator { width: 0, multiplier: 16807, increment: 0, seed: 1 };
/// assert_eq!(orbit(prime), Ok(Orbit { preperiod: 0, period: Period::Whole(2_147_483_646) }));
/// assert_eq!(orbit(prime).unwrap().period(), 2_147_483_646);
/// ```
#[inline]
pub fn orbit(g: Generator) -> Result<Orbit, Refusal> {
    let raw::OrbitReply { refusal, preperiod, exponent, period } = raw::orbit(g);
    let period = if period == 0 { Period::PowerOfTwo { exponent } } else { Period::Whole(period) };
    Refusal::of(refusal).map(|()| Orbit { preperiod, period })
}

/// The least index that yields the value, or never.
///
/// ```
/// use noonpasture::{index, Generator, Index};
///
/// let g = Generator { width: 4, multiplier: 5, increment: 3, seed: 1 };
/// assert_eq!(index(g, 6), Ok(Index::At(15)));
/// assert_eq!(index(g, 16), Ok(Index::Never));
///
/// let prime = Generator { width: 0, multiplier: 16807, increment: 0, seed: 1 };
/// assert_eq!(index(prime, 282_475_249), Ok(Index::At(2)));
/// assert_eq!(index(prime, 0), Ok(Index::Never));
/// assert_eq!(index(prime, 2_147_483_647), Ok(Index::Never));
/// ```
#[inline]
pub fn index(g: Generator, value: u64) -> Result<Index, Refusal> {
    let raw::IndexReply { refusal, found, index } = raw::index(g, value);
    Refusal::of(refusal).map(|()| if found == 0 { Index::Never } else { Index::At(index) })
}

/// The least index at which the element's lowest `places` bits (the element modulo 2^`places`) are the
/// value, and whether that recurs; or never, as for every value of 2^`places` or more. With `places` =
/// `width`, from 1 on, the least index is that of [`index`]. At width 0 every number of places is refused.
///
/// ```
/// use noonpasture::{index, index_places, Generator, Index, Occurrences, Refusal};
///
/// let g = Generator { width: 4, multiplier: 5, increment: 3, seed: 1 };
/// assert_eq!(index_places(g, 2, 3), Ok(Occurrences::Every { index: 2, exponent: 2 }));
/// assert_eq!(index_places(g, 2, 4), Ok(Occurrences::Never));
/// assert_eq!(index_places(g, 4, 6), Ok(Occurrences::Every { index: 15, exponent: 4 }));
/// assert_eq!(index(g, 6), Ok(Index::At(15)));
/// assert_eq!(index_places(g, 0, 3), Err(Refusal::PlacesOutOfRange));
/// assert_eq!(index_places(g, 5, 3), Err(Refusal::PlacesOutOfRange));
///
/// // 1, 2, 4, 8, 0, 0 and so on.
/// let even = Generator { width: 4, multiplier: 2, increment: 0, seed: 1 };
/// assert_eq!(index_places(even, 2, 1), Ok(Occurrences::Once(0)));
/// assert_eq!(index_places(even, 2, 0), Ok(Occurrences::Every { index: 2, exponent: 0 }));
/// assert_eq!(index_places(even, 2, 3), Ok(Occurrences::Never));
///
/// let prime = Generator { width: 0, multiplier: 16807, increment: 0, seed: 1 };
/// assert_eq!(index_places(prime, 31, 1), Err(Refusal::PlacesOutOfRange));
/// ```
#[inline]
pub fn index_places(g: Generator, places: u64, value: u64) -> Result<Occurrences, Refusal> {
    let raw::PlacesReply { refusal, found, index, recurs, exponent } = raw::index_places(g, places, value);
    Refusal::of(refusal).map(|()| match (found, recurs) {
        (0, _) => Occurrences::Never,
        (_, 0) => Occurrences::Once(index),
        _ => Occurrences::Every { index, exponent },
    })
}

/// The steps that lead from one number of the sequence to another, or never if either of them is at
/// no index. Half the period is negative. An even multiplier is refused, whatever the numbers are.
///
/// ```
/// use noonpasture::{gap, Gap, Generator, Refusal};
///
/// let g = Generator { width: 4, multiplier: 5, increment: 3, seed: 1 };
/// assert_eq!(gap(g, 1, 10), Ok(Gap::Steps(3)));
/// assert_eq!(gap(g, 10, 1), Ok(Gap::Steps(-3)));
/// assert_eq!(gap(g, 1, 9), Ok(Gap::Steps(-8)));
/// assert_eq!(gap(g, 9, 1), Ok(Gap::Steps(-8)));
/// assert_eq!(gap(g, 1, 16), Ok(Gap::Never));
/// assert_eq!(gap(Generator { multiplier: 6, ..g }, 1, 16), Err(Refusal::NotInvertible));
///
/// let counter = Generator { width: 64, multiplier: 1, increment: 1, seed: 0 };
/// assert_eq!(gap(counter, 0, 1 << 63), Ok(Gap::Steps(i64::MIN)));
///
/// let prime = Generator { width: 0, multiplier: 16807, increment: 0, seed: 1 };
/// assert_eq!(gap(prime, 282_475_249, 1), Ok(Gap::Steps(-2)));
/// assert_eq!(gap(prime, 1, 2_147_483_646), Ok(Gap::Steps(-1_073_741_823)));
/// assert_eq!(gap(prime, 1, 0), Ok(Gap::Never));
/// ```
#[inline]
pub fn gap(g: Generator, from: u64, to: u64) -> Result<Gap, Refusal> {
    let raw::GapReply { refusal, found, steps } = raw::gap(g, from, to);
    Refusal::of(refusal).map(|()| if found == 0 { Gap::Never } else { Gap::Steps(steps) })
}

/// The only number below 2^width, at width 0 from 1 to 2147483646, that one step takes to the value.
///
/// ```
/// use noonpasture::{predecessor, Generator, Refusal};
///
/// let g = Generator { width: 4, multiplier: 5, increment: 3, seed: 1 };
/// assert_eq!(predecessor(g, 8), Ok(1));
/// assert_eq!(predecessor(g, 16), Err(Refusal::ValueOutOfRange));
/// assert_eq!(predecessor(Generator { multiplier: 6, ..g }, 8), Err(Refusal::NotInvertible));
///
/// let prime = Generator { width: 0, multiplier: 16807, increment: 0, seed: 1 };
/// assert_eq!(predecessor(prime, 282_475_249), Ok(16807));
/// assert_eq!(predecessor(prime, 0), Err(Refusal::ValueOutOfRange));
/// ```
#[inline]
pub fn predecessor(g: Generator, value: u64) -> Result<u64, Refusal> {
    self::value(raw::predecessor(g, value))
}

/// The largest odd power of 5 below 2^width, for widths from 3 to 64.
///
/// ```
/// use noonpasture::{customary_multiplier, Refusal};
///
/// assert_eq!(customary_multiplier(36), Ok(30_517_578_125));
/// assert_eq!(customary_multiplier(2), Err(Refusal::WidthOutOfRange));
/// ```
#[inline]
pub fn customary_multiplier(width: u64) -> Result<u64, Refusal> {
    value(raw::customary_multiplier(width))
}

/// How many different numbers the run shows, those of a preperiod included.
///
/// ```
/// use noonpasture::{variety, Refusal, Run};
///
/// assert_eq!(variety(Run::from([4, 5, 3, 1, 0, 20])), Ok(16));
/// assert_eq!(variety(Run::from([4, 2, 0, 1, 0, 10])), Ok(5));
/// assert_eq!(variety(Run::from([4, 2, 0, 1, 3, 10])), Ok(2));
/// assert_eq!(variety(Run::from([0, 16807, 0, 1, 0, 1 << 32])), Ok(2_147_483_646));
/// assert_eq!(variety(Run::from([4, 5, 3, 1, 0, 0])), Err(Refusal::RunOutOfRange));
/// ```
#[inline]
pub fn variety(run: Run) -> Result<u64, Refusal> {
    value(raw::variety(run))
}

/// Writes the run's line from the buffer's first byte on and gives its length; the bytes behind it
/// are kept, and all of them if the call is refused. [`LINE_MAX`] bytes always suffice.
///
/// ```
/// use noonpasture::{write_line, Refusal, Run, LINE_MAX};
///
/// let run = Run::from([4, 5, 3, 1, 0, 16]);
/// let mut buffer = [0; LINE_MAX];
/// let length = write_line(run, &mut buffer)?;
/// assert_eq!(&buffer[..length], b"4,5,3,1,0,16\n");
/// assert_eq!(write_line(run, &mut buffer[..12]), Err(Refusal::BufferTooShort));
/// # Ok::<(), Refusal>(())
/// ```
#[inline]
pub fn write_line(run: Run, buffer: &mut [u8]) -> Result<usize, Refusal> {
    value(raw::write_line(run, buffer)).map(|length| length as usize)
}

/// The run of bytes that are one line, its byte 10 included.
///
/// ```
/// use noonpasture::{read_line, Refusal, Run};
///
/// assert_eq!(read_line(b"4,5,3,1,0,16\n"), Ok(Run::from([4, 5, 3, 1, 0, 16])));
/// assert_eq!(read_line(b"0,16807,0,1,0,5\n"), Ok(Run::from([0, 16807, 0, 1, 0, 5])));
/// assert_eq!(read_line(b"4,5,3,1,0,16\r\n"), Err(Refusal::MalformedLine));
/// assert_eq!(read_line(b""), Err(Refusal::MalformedLine));
/// ```
#[inline]
pub fn read_line(bytes: &[u8]) -> Result<Run, Refusal> {
    let raw::RunReply { refusal, run } = raw::read_line(bytes);
    Refusal::of(refusal).map(|()| run)
}

/// Writes the numbers at the position and those after it from the buffer's first place on, as many
/// as it has room for and the run still has, and gives how many: none from the run's count on. What
/// stands behind them is kept, and all of it if the call is refused.
///
/// ```
/// use noonpasture::{remake, Refusal, Run};
///
/// let run = Run::from([10, 371, 995, 73, 100, 8]);
/// let mut values = [0; 3];
/// assert_eq!(remake(run, 0, &mut values), Ok(3));
/// assert_eq!(values, [49, 742, 821]);
/// assert_eq!(remake(run, 7, &mut values), Ok(1));
/// assert_eq!(values, [1002, 742, 821]);
/// assert_eq!(remake(run, 8, &mut values), Ok(0));
/// assert_eq!(remake(Run { count: 0, ..run }, 0, &mut values), Err(Refusal::RunOutOfRange));
/// ```
#[inline]
pub fn remake(run: Run, position: u64, values: &mut [u64]) -> Result<usize, Refusal> {
    value(raw::remake(run, position, values)).map(|count| count as usize)
}

/// The line with this number, its byte 10 included, as a part of the archive itself; the empty part
/// if the archive is refused or has no such line.
///
/// ```
/// use noonpasture::line;
///
/// let archive = b"4,5,3,1,0,16\n10,371,995,73,100,8\n";
/// assert_eq!(line(archive, 2), b"10,371,995,73,100,8\n");
/// assert_eq!(line(archive, 3), b"");
/// assert_eq!(line(b"4,5,3,1,0,16\n4,5,3,1,0,16\n", 1), b"");
/// ```
#[inline]
pub fn line(archive: &[u8], line: u64) -> &[u8] {
    let raw::Part { start, length } = raw::line(archive, line);
    &archive[start as usize..][..length as usize]
}

/// The earliest line that shows the value and the least position in it, if there is one. The whole
/// archive is checked first; a line that equals an earlier one, byte by byte, is refused.
///
/// ```
/// use noonpasture::{lookup, Location, Refusal, Refused};
///
/// assert_eq!(lookup(b"4,5,3,1,0,16\n", 5), Ok(Some(Location { line: 1, position: 4 })));
/// assert_eq!(lookup(b"0,16807,0,1,0,5\n4,5,3,1,0,16\n", 5), Ok(Some(Location { line: 2, position: 4 })));
/// assert_eq!(lookup(b"", 5), Ok(None));
/// let refused = lookup(b"4,5,3,1,0,16\n4,5,3,1,0,0\n", 5).unwrap_err();
/// assert_eq!(refused, Refused { refusal: Refusal::RunOutOfRange, line: 2 });
/// assert_eq!(refused.to_string(), "line 2: the count is 0, or first + count is above 2^64 - 1");
/// let refused = lookup(b"4,5,3,1,0,16\n4,6,1,1,0,5\n4,5,3,1,0,16\n", 5).unwrap_err();
/// assert_eq!(refused, Refused { refusal: Refusal::DuplicateLine, line: 3 });
/// assert_eq!(refused.to_string(), "line 3: the line equals an earlier one");
/// ```
#[inline]
pub fn lookup(archive: &[u8], value: u64) -> Result<Option<Location>, Refused> {
    let raw::LookupReply { refusal, line, found, position } = raw::lookup(archive, value);
    Refused::of(refusal, line).map(|()| (found != 0).then_some(Location { line, position }))
}

/// How many lines the archive has, and the sum of their counts. The whole archive is checked first, so
/// that a sum above 2^64 − 1 is refused only if every line has passed.
///
/// ```
/// use noonpasture::{summary, Refusal, Refused, Summary};
///
/// let archive = b"4,5,3,1,0,16\n10,371,995,73,100,8\n";
/// assert_eq!(summary(archive), Ok(Summary { line_count: 2, total: 24 }));
/// assert_eq!(summary(b""), Ok(Summary { line_count: 0, total: 0 }));
///
/// let most = b"4,5,3,1,0,18446744073709551614\n4,6,1,1,0,1\n";
/// assert_eq!(summary(most), Ok(Summary { line_count: 2, total: u64::MAX }));
/// let refused = summary(b"4,5,3,1,0,18446744073709551614\n4,6,1,1,0,2\n").unwrap_err();
/// assert_eq!(refused, Refused { refusal: Refusal::TotalOverflow, line: 0 });
/// assert_eq!(refused.to_string(), "the sum of the counts is above 2^64 - 1");
/// let refused = summary(b"4,5,3,1,0,18446744073709551614\n4,6,1,1,0,2\n4,5\n").unwrap_err();
/// assert_eq!(refused, Refused { refusal: Refusal::MalformedLine, line: 3 });
/// let refused = summary(b"4,5,3,1,0,18446744073709551614\n4,6,1,1,0,2\n4,6,1,1,0,2\n").unwrap_err();
/// assert_eq!(refused, Refused { refusal: Refusal::DuplicateLine, line: 3 });
/// ```
#[inline]
pub fn summary(archive: &[u8]) -> Result<Summary, Refused> {
    let raw::SummaryReply { refusal, line, line_count, total } = raw::summary(archive);
    Refused::of(refusal, line).map(|()| Summary { line_count, total })
}

/// Plays a run forward and back, with four marks, numbered 0 to 3, to return to.
///
/// It always stands at a position of its run: a refused call leaves it as it was.
///
/// ```
/// use noonpasture::{Player, Refusal, Run};
///
/// let mut player = Player::open(Run::from([10, 371, 995, 73, 100, 8]))?;
/// assert_eq!(player.show(), Ok(49));
/// player.forward(2)?;
/// assert_eq!(player.show(), Ok(821));
/// player.set_mark(0)?;
/// player.forward(5)?;
/// assert_eq!(player.show(), Ok(1002));
/// assert_eq!(player.forward(1), Err(Refusal::PositionOutOfRange));
/// assert_eq!(player.show(), Ok(1002));
/// player.back(3)?;
/// assert_eq!(player.show(), Ok(217));
/// player.return_to(0)?;
/// assert_eq!(player.show(), Ok(821));
/// # Ok::<(), Refusal>(())
/// ```
#[derive(Clone, Debug, PartialEq, Eq)]
pub struct Player {
    record: raw::Player,
}

impl Player {
    /// A player of the run, at position 0 and with no mark set.
    ///
    /// ```
    /// use noonpasture::{Player, Refusal, Run};
    ///
    /// let run = Run::from([10, 371, 995, 73, 100, 8]);
    /// let player = Player::open(run)?;
    /// assert_eq!((player.run(), player.position(), player.marks()), (run, 0, [None; 4]));
    /// assert_eq!(Player::open(Run::from([65, 371, 995, 73, 100, 8])), Err(Refusal::WidthOutOfRange));
    /// assert_eq!(Player::open(Run::from([10, 1024, 995, 73, 100, 8])), Err(Refusal::OperandOutOfRange));
    /// assert_eq!(Player::open(Run { count: 0, ..run }), Err(Refusal::RunOutOfRange));
    /// # Ok::<(), Refusal>(())
    /// ```
    #[inline]
    pub fn open(run: Run) -> Result<Player, Refusal> {
        let mut player = Player { record: raw::Player::default() };
        player.reopen(run).map(|()| player)
    }

    /// Opens another run in place of this one, at position 0 and with no mark set.
    ///
    /// ```
    /// use noonpasture::{Player, Refusal, Run};
    ///
    /// let run = Run::from([4, 5, 3, 1, 0, 16]);
    /// let mut player = Player::open(Run::from([10, 371, 995, 73, 100, 8]))?;
    /// player.forward(4)?;
    /// player.set_mark(3)?;
    /// assert_eq!(player.reopen(Run { count: 0, ..run }), Err(Refusal::RunOutOfRange));
    /// assert_eq!((player.show(), player.marks()), (Ok(217), [None, None, None, Some(4)]));
    /// player.reopen(run)?;
    /// assert_eq!((player.show(), player.marks()), (Ok(1), [None; 4]));
    /// # Ok::<(), Refusal>(())
    /// ```
    #[inline]
    pub fn reopen(&mut self, run: Run) -> Result<(), Refusal> {
        Refusal::of(raw::player_open(&mut self.record, run))
    }

    /// Moves on by so many positions, if that leads to a position of the run.
    ///
    /// ```
    /// use noonpasture::{Player, Refusal, Run};
    ///
    /// let mut player = Player::open(Run::from([10, 371, 995, 73, 100, 8]))?;
    /// player.forward(7)?;
    /// assert_eq!(player.show(), Ok(1002));
    /// assert_eq!(player.forward(1), Err(Refusal::PositionOutOfRange));
    /// assert_eq!(player.forward(u64::MAX), Err(Refusal::PositionOutOfRange));
    /// player.forward(0)?;
    /// assert_eq!(player.position(), 7);
    /// # Ok::<(), Refusal>(())
    /// ```
    #[inline]
    pub fn forward(&mut self, steps: u64) -> Result<(), Refusal> {
        Refusal::of(raw::player_forward(&mut self.record, steps))
    }

    /// Moves back by so many positions, if that leads to a position of the run; with an even multiplier too.
    ///
    /// ```
    /// use noonpasture::{Player, Refusal, Run};
    ///
    /// // 1, 2, 4, 8, 0, 0.
    /// let mut player = Player::open(Run::from([4, 2, 0, 1, 0, 6]))?;
    /// player.forward(5)?;
    /// player.back(2)?;
    /// assert_eq!(player.show(), Ok(8));
    /// assert_eq!(player.back(4), Err(Refusal::PositionOutOfRange));
    /// assert_eq!(player.position(), 3);
    /// # Ok::<(), Refusal>(())
    /// ```
    #[inline]
    pub fn back(&mut self, steps: u64) -> Result<(), Refusal> {
        Refusal::of(raw::player_back(&mut self.record, steps))
    }

    /// Sets a mark to the position held, whether it was set before or not.
    ///
    /// ```
    /// use noonpasture::{Player, Refusal, Run};
    ///
    /// let mut player = Player::open(Run::from([10, 371, 995, 73, 100, 8]))?;
    /// player.set_mark(0)?;
    /// player.forward(6)?;
    /// player.set_mark(3)?;
    /// assert_eq!(player.set_mark(4), Err(Refusal::BookmarkInvalid));
    /// assert_eq!(player.marks(), [Some(0), None, None, Some(6)]);
    /// # Ok::<(), Refusal>(())
    /// ```
    #[inline]
    pub fn set_mark(&mut self, mark: u64) -> Result<(), Refusal> {
        Refusal::of(raw::player_mark(&mut self.record, mark))
    }

    /// Returns to a mark, which stays set.
    ///
    /// ```
    /// use noonpasture::{Player, Refusal, Run};
    ///
    /// let mut player = Player::open(Run::from([10, 371, 995, 73, 100, 8]))?;
    /// player.forward(3)?;
    /// player.set_mark(1)?;
    /// player.back(3)?;
    /// player.return_to(1)?;
    /// assert_eq!((player.show(), player.marks()), (Ok(434), [None, Some(3), None, None]));
    /// assert_eq!(player.return_to(2), Err(Refusal::BookmarkInvalid));
    /// assert_eq!(player.return_to(4), Err(Refusal::BookmarkInvalid));
    /// # Ok::<(), Refusal>(())
    /// ```
    #[inline]
    pub fn return_to(&mut self, mark: u64) -> Result<(), Refusal> {
        Refusal::of(raw::player_return(&mut self.record, mark))
    }

    /// The number at the position held. As the player stands on its run, this is not refused.
    ///
    /// ```
    /// use noonpasture::{Player, Refusal, Run};
    ///
    /// let mut player = Player::open(Run::from([10, 371, 995, 73, 100, 8]))?;
    /// for number in [49, 742, 821, 434, 217, 606, 541] {
    ///     assert_eq!(player.show(), Ok(number));
    ///     player.forward(1)?;
    /// }
    /// assert_eq!(player.show(), Ok(1002));
    /// # Ok::<(), Refusal>(())
    /// ```
    #[inline]
    pub fn show(&self) -> Result<u64, Refusal> {
        value(raw::player_show(&self.record))
    }

    /// The run that was opened.
    #[inline]
    pub fn run(&self) -> Run {
        self.record.run
    }

    /// The position held, below the run's count.
    #[inline]
    pub fn position(&self) -> u64 {
        self.record.position
    }

    /// The positions of the marks that are set.
    #[inline]
    pub fn marks(&self) -> [Option<u64>; 4] {
        self.record.marks.map(|mark| (mark.set != 0).then_some(mark.position))
    }
}

/// The fix with this number: east from the number at position 2 × `fix` of the run, north from that at the
/// position behind it.
///
/// A number x of width n, up to 53, gives x / 2^n − 1/2; above, its lowest n − 53 bits are dropped, and what is
/// left is divided by 2^53 in place of 2^n. Each is that fraction exactly, and 0 is +0.0. Width 0, whose modulus
/// is no power of two, is refused before a position that is not on the run.
///
/// ```
/// use noonpasture::{fix_at, Fix, Refusal, Run};
///
/// // 49, 742, 821, 434, 217, 606, 541, 1002.
/// let run = Run::from([10, 371, 995, 73, 100, 8]);
/// assert_eq!(fix_at(run, 0), Ok(Fix { east: -0.4521484375, north: 0.224609375 }));
/// assert_eq!(fix_at(run, 3), Ok(Fix { east: 541.0 / 1024.0 - 0.5, north: 1002.0 / 1024.0 - 0.5 }));
/// assert_eq!(fix_at(run, 4), Err(Refusal::PositionOutOfRange));
/// assert_eq!(fix_at(Run { count: 7, ..run }, 3), Err(Refusal::PositionOutOfRange));
/// assert_eq!(fix_at(run, u64::MAX), Err(Refusal::PositionOutOfRange));
///
/// // The largest number of 64 bits, then 0.
/// let wide = Run::from([64, 1, 1, u64::MAX, 0, 2]);
/// assert_eq!(fix_at(wide, 0), Ok(Fix { east: 0.5 - 1.0 / 9_007_199_254_740_992.0, north: -0.5 }));
///
/// let prime = Run::from([0, 16807, 0, 1, 0, 8]);
/// assert_eq!(fix_at(prime, 0), Err(Refusal::Inexact));
/// assert_eq!(fix_at(prime, 4), Err(Refusal::Inexact));
/// assert_eq!(fix_at(Run { count: 0, ..prime }, 0), Err(Refusal::RunOutOfRange));
/// ```
#[inline]
pub fn fix_at(run: Run, fix: u64) -> Result<Fix, Refusal> {
    let raw::FixReply { refusal, fix } = raw::fix_at(run, fix);
    Refusal::of(refusal).map(|()| fix)
}

/// One run for a row of 1 to 16 watches: lane 0, 1 and so on of so many lanes is the run of positions `lane`,
/// `lane` + `lanes`, `lane` + 2 × `lanes` and so on of the given one.
///
/// It has the same width, the multiplier and the increment of `lanes` steps, element `first` + `lane` for its seed,
/// first index 0, and as many positions as fall to the lane: position q of it shows what position `lane` + q ×
/// `lanes` of the run shows. It is an accepted run. There are 1 to 16 lanes, and no more than the run has positions;
/// width 0 has none.
///
/// ```
/// use noonpasture::{lane, remake, Refusal, Run};
///
/// // 49, 742, 821, 434, 217, 606, 541, 1002.
/// let run = Run::from([10, 371, 995, 73, 100, 8]);
/// let mut values = [0; 3];
/// assert_eq!(lane(run, 3, 0), Ok(Run::from([10, 1003, 439, 49, 0, 3])));
/// remake(lane(run, 3, 0)?, 0, &mut values)?;
/// assert_eq!(values, [49, 434, 541]);
/// remake(lane(run, 3, 1)?, 0, &mut values)?;
/// assert_eq!(values, [742, 217, 1002]);
/// assert_eq!(lane(run, 3, 2), Ok(Run::from([10, 1003, 439, 821, 0, 2])));
/// assert_eq!(lane(run, 3, 3), Err(Refusal::LanesOutOfRange));
///
/// assert_eq!(lane(run, 1, 0), Ok(Run::from([10, 371, 995, 49, 0, 8])));
/// assert_eq!(lane(run, 8, 7)?.count, 1);
/// assert_eq!(lane(run, 9, 0), Err(Refusal::LanesOutOfRange));
/// assert_eq!(lane(run, 0, 0), Err(Refusal::LanesOutOfRange));
/// let long = Run { count: 1000, ..run };
/// assert_eq!(lane(long, 16, 15)?.count, 62);
/// assert_eq!(lane(long, 17, 0), Err(Refusal::LanesOutOfRange));
///
/// // 9 for ever: both lanes are the same run.
/// let still = Run::from([4, 1, 0, 9, 0, 6]);
/// assert_eq!(lane(still, 2, 0), lane(still, 2, 1));
///
/// let prime = Run::from([0, 16807, 0, 1, 0, 8]);
/// assert_eq!(lane(prime, 1, 0), Err(Refusal::LanesOutOfRange));
/// assert_eq!(lane(Run { count: 0, ..run }, 0, 0), Err(Refusal::RunOutOfRange));
/// # Ok::<(), Refusal>(())
/// ```
#[inline]
pub fn lane(run: Run, lanes: u64, lane: u64) -> Result<Run, Refusal> {
    let raw::RunReply { refusal, run } = raw::lane(run, lanes, lane);
    Refusal::of(refusal).map(|()| run)
}

/// Writes the line of that [`lane`] as [`write_line`] does, and gives its length. Lanes that there are not are
/// refused before a buffer that is shorter than the line.
///
/// ```
/// use noonpasture::{lane, read_line, write_lane, Refusal, Run, LINE_MAX};
///
/// let run = Run::from([10, 371, 995, 73, 100, 8]);
/// let mut buffer = [b'.'; LINE_MAX];
/// let length = write_lane(run, 3, 2, &mut buffer)?;
/// assert_eq!(&buffer[..length], b"10,1003,439,821,0,2\n");
/// assert_eq!(buffer[length], b'.');
/// assert_eq!(read_line(&buffer[..length]), lane(run, 3, 2));
///
/// assert_eq!(write_lane(run, 3, 0, &mut buffer[..18]), Err(Refusal::BufferTooShort));
/// assert_eq!(write_lane(run, 3, 3, &mut []), Err(Refusal::LanesOutOfRange));
/// assert_eq!(&buffer[..length], b"10,1003,439,821,0,2\n");
/// # Ok::<(), Refusal>(())
/// ```
#[inline]
pub fn write_lane(run: Run, lanes: u64, lane: u64, buffer: &mut [u8]) -> Result<usize, Refusal> {
    value(raw::write_lane(run, lanes, lane, buffer)).map(|length| length as usize)
}

/// How many different numbers two runs have in common: each is counted once, however often the runs show it.
///
/// The runs have the same width, multiplier and increment, and the multiplier is odd; seed, first index and count may
/// differ. Whatever refuses the first is given before what refuses the second.
///
/// ```
/// use noonpasture::{shared, variety, Refusal, Run};
///
/// // Two stands with one watch model. The first shows 49, 742, 821, 434, 217, 606, 541, 1002.
/// let stand = Run::from([10, 371, 995, 73, 100, 8]);
/// // 541, 1002, 1, 342, 901, 418, 425, 974.
/// let later = Run { first: 106, ..stand };
/// assert_eq!(shared(stand, later), Ok(2));
/// // With a seed of its own: 217, 606, 541, 1002, 1, 342, 901, 418.
/// let other = Run::from([10, 371, 995, 217, 0, 8]);
/// assert_eq!(shared(stand, other), Ok(4));
/// assert_eq!(shared(other, stand), Ok(4));
/// assert_eq!(shared(stand, stand), variety(stand));
///
/// // 512 numbers that come again and again, and 512 others.
/// let long = Run { count: 10_000, ..stand };
/// assert_eq!(shared(long, Run { first: 0, ..long }), Ok(512));
/// assert_eq!(shared(long, Run::from([10, 371, 995, 0, 0, 10_000])), Ok(0));
///
/// // The first stands at indices 0 to 9 of a period of 16, the other at 8 to 15, 0 and 1: in common at both ends.
/// assert_eq!(shared(Run::from([4, 5, 3, 1, 0, 10]), Run::from([4, 5, 3, 1, 8, 10])), Ok(4));
///
/// let prime = Run::from([0, 16807, 0, 1, 0, 1 << 32]);
/// assert_eq!(shared(prime, Run::from([0, 16807, 0, 5, 7, 1000])), Ok(1000));
///
/// assert_eq!(shared(stand, Run::from([10, 371, 994, 73, 100, 8])), Err(Refusal::Incompatible));
/// assert_eq!(shared(stand, prime), Err(Refusal::Incompatible));
/// let even = Run::from([10, 370, 995, 73, 100, 8]);
/// assert_eq!(shared(even, even), Err(Refusal::Incompatible));
/// let (empty, wide) = (Run { count: 0, ..stand }, Run::from([65, 371, 995, 73, 100, 8]));
/// assert_eq!(shared(empty, wide), Err(Refusal::RunOutOfRange));
/// assert_eq!(shared(wide, empty), Err(Refusal::WidthOutOfRange));
/// ```
#[inline]
pub fn shared(first: Run, second: Run) -> Result<u64, Refusal> {
    value(raw::shared(first, second))
}

/// The examples of the repository's README.
#[cfg(doctest)]
#[doc = include_str!("../../../README.md")]
struct Readme;
