//! Compares every call of the proved library with the model: on all generators of widths 1 to 5 and all
//! their low bits, at widths 1 to 4 on all short runs for the variety and all pairs of numbers for the
//! gap, at width 0 on every digit of the index by itself, for the summary on chosen sums, cut archives and
//! every changed byte, for equal lines on twins at every place, almost equal lines and lines of one slot, on
//! numbers whose lower bits are accepted ones, for the player on all short lists of chosen calls and on random
//! lists, for the fixes bit by bit on all short runs of widths 1 to 3, on chosen numbers at every width and about the
//! ends of runs, for the lanes on all those of short runs of widths 1 to 4, remade and laid side by side, on chosen
//! numbers at every width and about their limits, for two runs on every pair of short ones of widths 1 to 3, counted
//! outright, and on chosen pairs, and on random calls, accepted and refused. Ends with status 1 at the first
//! difference, and if an outcome of the calls of the player, of the fixes, of the lanes or of two runs is not met
//! often.
//!
//!     cargo run --release --bin differential

use std::fmt::{self, Debug, Formatter};
use std::ops::RangeInclusive;
use std::thread;
use std::time::Instant;

use noonpasture_differential::archives::{lines_with, with_line, ABOUT_TWINS, BAD_LINES};
use noonpasture_differential::calls::*;
use noonpasture_differential::lanes::{self, Call};
use noonpasture_differential::pairs::{self, Pair};
use noonpasture_differential::random::Random;
use noonpasture_differential::samples::MakeRun;
use noonpasture_differential::{fixes, library, model, players, prime, samples};

/// The work is halved between two threads, each with random numbers of its own.
const SHARES: u64 = 2;
const RANDOM_CALLS: u64 = 1_000_000;
/// At width 0, where the model's index takes long.
const PRIME_CALLS: u64 = 100_000;
/// Of all kinds together: about a million openings, which are the fewest.
const PLAYER_CALLS: u64 = 12_000_000;
const FIX_CALLS: u64 = 2_000_000;
/// Of either kind.
const LANE_CALLS: u64 = 1_000_000;
const PAIR_CALLS: u64 = 1_000_000;
const SEED: u64 = 20_260_101;

#[derive(Clone, Copy)]
enum Kind {
    Element,
    Orbit,
    Index,
    IndexPlaces,
    IndexOfAllPlaces,
    Gap,
    Predecessor,
    Variety,
    CustomaryMultiplier,
    WriteLine,
    ReadLine,
    Line,
    Lookup,
    Summary,
    Remake,
    PlayerOpen,
    PlayerForward,
    PlayerBack,
    PlayerMark,
    PlayerReturn,
    PlayerShow,
    FixAt,
    Lane,
    LaneAndRun,
    LanesSideBySide,
    WriteLane,
    LineOfLane,
    Shared,
    SharedSwapped,
    SharedWithItself,
}

const KINDS: [&str; 30] = [
    "element",
    "orbit",
    "index",
    "index_places",
    "index_places and index",
    "gap",
    "predecessor",
    "variety",
    "customary_multiplier",
    "write_line",
    "read_line",
    "line",
    "lookup",
    "summary",
    "remake",
    "player_open",
    "player_forward",
    "player_back",
    "player_mark",
    "player_return",
    "player_show",
    "fix_at",
    "lane",
    "lane and run",
    "lanes side by side",
    "write_lane",
    "write_lane and read_line",
    "shared",
    "shared, swapped",
    "shared with itself and variety",
];

/// What replies are counted by: an answer, a refusal by its number, or nothing, which is never,
/// none, the empty part, no number remade or none shared.
const OUTCOMES: [&str; 18] = [
    "answer", "1", "2", "3", "4", "5", "6", "7", "8", "9", "10", "11", "12", "13", "14", "15", "16",
    "nothing",
];
const ANSWER: usize = 0;
const NOTHING: usize = 17;

trait Reply: PartialEq + Debug {
    fn refusal(&self) -> u64;

    fn is_nothing(&self) -> bool {
        false
    }

    fn outcome(&self) -> usize {
        match self.refusal() {
            0 if self.is_nothing() => NOTHING,
            0 => ANSWER,
            refusal => refusal as usize,
        }
    }
}

impl Reply for Value {
    fn refusal(&self) -> u64 {
        self.refusal
    }
}

impl Reply for OrbitReply {
    fn refusal(&self) -> u64 {
        self.refusal
    }
}

impl Reply for RunReply {
    fn refusal(&self) -> u64 {
        self.refusal
    }
}

impl Reply for SummaryReply {
    fn refusal(&self) -> u64 {
        self.refusal
    }
}

impl Reply for FixBits {
    fn refusal(&self) -> u64 {
        self.refusal
    }
}

impl Reply for IndexReply {
    fn refusal(&self) -> u64 {
        self.refusal
    }

    fn is_nothing(&self) -> bool {
        self.found == 0
    }
}

impl Reply for PlacesReply {
    fn refusal(&self) -> u64 {
        self.refusal
    }

    fn is_nothing(&self) -> bool {
        self.found == 0
    }
}

impl Reply for GapReply {
    fn refusal(&self) -> u64 {
        self.refusal
    }

    fn is_nothing(&self) -> bool {
        self.found == 0
    }
}

impl Reply for LookupReply {
    fn refusal(&self) -> u64 {
        self.refusal
    }

    fn is_nothing(&self) -> bool {
        self.found == 0
    }
}

impl Reply for Part {
    fn refusal(&self) -> u64 {
        0
    }

    fn is_nothing(&self) -> bool {
        self.length == 0
    }
}

/// A reply with the buffer's later content.
impl<T: PartialEq + Debug, const LENGTH: usize> Reply for (Value, [T; LENGTH]) {
    fn refusal(&self) -> u64 {
        self.0.refusal
    }

    fn is_nothing(&self) -> bool {
        self.0.value == 0
    }
}

/// A reply with the player's later record.
impl Reply for (Value, Player) {
    fn refusal(&self) -> u64 {
        self.0.refusal
    }
}

/// How many numbers two runs share.
#[derive(PartialEq, Debug)]
struct Shared(Value);

impl Reply for Shared {
    fn refusal(&self) -> u64 {
        self.0.refusal
    }

    fn is_nothing(&self) -> bool {
        self.0.value == 0
    }
}

/// Shown as text.
struct Bytes<'a>(&'a [u8]);

impl Debug for Bytes<'_> {
    fn fmt(&self, f: &mut Formatter) -> fmt::Result {
        write!(f, "\"{}\"", self.0.escape_ascii())
    }
}

/// How many calls of each kind and outcome agreed.
#[derive(Default)]
struct Tally([[u64; OUTCOMES.len()]; KINDS.len()]);

impl Tally {
    /// Counts the call, or shows it and ends the program.
    fn compare<R: Reply>(&mut self, kind: Kind, arguments: &dyn Debug, library: R, model: R) {
        if library != model {
            let kind = KINDS[kind as usize];
            println!("{kind} differs for {arguments:?}\nlibrary: {library:?}\nmodel:   {model:?}");
            std::process::exit(1);
        }
        self.0[kind as usize][model.outcome()] += 1;
    }

    /// Ends the program unless calls of this kind had each of these outcomes so often.
    fn met(&self, kind: Kind, outcomes: &[usize], least: u64) {
        for &outcome in outcomes {
            let count = self.0[kind as usize][outcome];
            if count < least {
                println!("{} had outcome {} only {count} times", KINDS[kind as usize], OUTCOMES[outcome]);
                std::process::exit(1);
            }
        }
    }

    fn add(&mut self, other: Tally) {
        for (count, more) in self.0.iter_mut().flatten().zip(other.0.iter().flatten()) {
            *count += more;
        }
    }

    fn print(&self, title: &str) {
        print!("\n{title:<35}{:>10}", "calls");
        OUTCOMES.iter().for_each(|outcome| print!("{outcome:>10}"));
        let compared = KINDS.iter().zip(&self.0).filter(|(_, counts)| counts.iter().any(|&count| count > 0));
        for (kind, counts) in compared {
            print!("\n{kind:<35}{:>10}", counts.iter().sum::<u64>());
            counts.iter().for_each(|count| print!("{count:>10}"));
        }
        println!();
    }

    fn element(&mut self, g: Generator, index: u64) {
        let (library, model) = (library::element(g, index), model::element(g, index));
        self.compare(Kind::Element, &(g, index), library, model);
    }

    fn orbit(&mut self, g: Generator) {
        self.compare(Kind::Orbit, &g, library::orbit(g), model::orbit(g));
    }

    fn index(&mut self, g: Generator, number: u64) {
        self.index_is(g, number, model::index(g, number));
    }

    fn index_is(&mut self, g: Generator, number: u64, wanted: IndexReply) {
        self.compare(Kind::Index, &(g, number), library::index(g, number), wanted);
    }

    fn index_places(&mut self, g: Generator, places: u64, number: u64) {
        self.index_places_is(g, places, number, model::index_places(g, places, number));
    }

    /// With all places of the width it is compared with the library's index as well.
    fn index_places_is(&mut self, g: Generator, places: u64, number: u64, wanted: PlacesReply) {
        let reply = library::index_places(g, places, number);
        self.compare(Kind::IndexPlaces, &(g, places, number), reply, wanted);
        if places == g.width && places != 0 {
            let PlacesReply { refusal, found, index, .. } = reply;
            let first = IndexReply { refusal, found, index };
            self.compare(Kind::IndexOfAllPlaces, &(g, number), first, library::index(g, number));
        }
    }

    fn gap(&mut self, g: Generator, from: u64, to: u64) {
        let (library, model) = (library::gap(g, from, to), model::gap(g, from, to));
        self.compare(Kind::Gap, &(g, from, to), library, model);
    }

    /// From each of the numbers to each.
    fn gaps(&mut self, g: Generator, numbers: &[u64]) {
        for &from in numbers {
            for &to in numbers {
                self.gap(g, from, to);
            }
        }
    }

    fn predecessor(&mut self, g: Generator, number: u64) {
        let (library, model) = (library::predecessor(g, number), model::predecessor(g, number));
        self.compare(Kind::Predecessor, &(g, number), library, model);
    }

    fn variety(&mut self, run: Run) {
        self.variety_is(run, model::variety(run));
    }

    fn variety_is(&mut self, run: Run, wanted: Value) {
        self.compare(Kind::Variety, &run, library::variety(run), wanted);
    }

    fn customary_multiplier(&mut self, width: u64) {
        let (library, model) = (library::customary_multiplier(width), model::customary_multiplier(width));
        self.compare(Kind::CustomaryMultiplier, &width, library, model);
    }

    /// Lends the first `length` bytes of `before`; all bytes are compared afterwards.
    fn write_line(&mut self, run: Run, before: [u8; 160], length: usize) {
        let (mut ours, mut theirs) = (before, before);
        let library = library::write_line(run, &mut ours[..length]);
        let model = model::write_line(run, &mut theirs[..length]);
        self.compare(Kind::WriteLine, &(run, length, before), (library, ours), (model, theirs));
    }

    /// Lends the first `length` numbers of `before`; all numbers are compared afterwards.
    fn remake(&mut self, run: Run, position: u64, before: [u64; 20], length: usize) {
        let (mut ours, mut theirs) = (before, before);
        let library = library::remake(run, position, &mut ours[..length]);
        let model = model::remake(run, position, &mut theirs[..length]);
        self.compare(Kind::Remake, &(run, position, length, before), (library, ours), (model, theirs));
    }

    fn read_line(&mut self, bytes: &[u8]) {
        self.compare(Kind::ReadLine, &Bytes(bytes), library::read_line(bytes), model::read_line(bytes));
    }

    fn line(&mut self, archive: &[u8], number: u64) {
        let (library, model) = (library::line(archive, number), model::line(archive, number));
        self.compare(Kind::Line, &(number, Bytes(archive)), library, model);
    }

    fn lookup(&mut self, archive: &[u8], number: u64) {
        let (library, model) = (library::lookup(archive, number), model::lookup(archive, number));
        self.compare(Kind::Lookup, &(number, Bytes(archive)), library, model);
    }

    fn summary(&mut self, archive: &[u8]) {
        self.compare(Kind::Summary, &Bytes(archive), library::summary(archive), model::summary(archive));
    }

    /// The whole record is compared afterwards, and after a refused call with what it was before. Gives the record.
    fn player(&mut self, before: Player, call: PlayerCall) -> Player {
        let (kind, mut ours, mut theirs) = (kind_of(call), before, before);
        let library = played(&mut ours, call);
        let model = model::player::played(&mut theirs, call);
        self.compare(kind, &(before, call), (library, ours), (model, theirs));
        if library.refusal != 0 && ours != before {
            println!("{} is refused and changes {before:?}\nto {ours:?}: {call:?}", KINDS[kind as usize]);
            std::process::exit(1);
        }
        ours
    }

    /// Compared bit by bit. Whatever the model says, each float is from -1/2 to below 1/2 and is not -0.0.
    fn fix_at(&mut self, run: Run, fix: u64) {
        let reply = library::fix_at(run, fix);
        self.compare(Kind::FixAt, &(run, fix), FixBits::from(reply), model::fix::fix_at(run, fix));
        for deviate in [reply.fix.east, reply.fix.north] {
            if !(-0.5..0.5).contains(&deviate) || deviate == 0.0 && deviate.is_sign_negative() {
                println!("fix_at gives {deviate:?} for {:?}", (run, fix));
                std::process::exit(1);
            }
        }
    }

    fn lane(&mut self, call: Call) -> RunReply {
        self.lane_is(call, model::lane::lane(call.run, call.lanes, call.lane))
    }

    /// Gives the library's reply.
    fn lane_is(&mut self, call: Call, wanted: RunReply) -> RunReply {
        let reply = library::lane(call.run, call.lanes, call.lane);
        self.compare(Kind::Lane, &call, reply, wanted);
        reply
    }

    /// Whatever the model says, a position of the lane shows what the run shows there; behind its end, nothing.
    fn lane_and_run(&mut self, call: Call, lane: Run, position: u64) {
        let in_run = position.saturating_mul(call.lanes).saturating_add(call.lane);
        let (mut ours, mut theirs) = ([0], [0]);
        let shown = library::remake(lane, position, &mut ours);
        let wanted = library::remake(call.run, in_run, &mut theirs);
        self.compare(Kind::LaneAndRun, &(call, position), (shown, ours), (wanted, theirs));
    }

    /// Whatever the model says, the lanes make up the short run: their counts its count, and their positions, each put
    /// to its place in the run, what the run shows, with no place left out or behind it.
    fn lanes_side_by_side(&mut self, run: Run, lanes: &[Run]) {
        let (mut shown, mut wanted) = ([None; ROOM], [None; ROOM]);
        for (lane, &run) in lanes.iter().enumerate() {
            remade(run, shown.iter_mut().skip(lane).step_by(lanes.len()));
        }
        let count = remade(run, wanted.iter_mut());
        let total = Value { refusal: 0, value: lanes.iter().map(|lane| lane.count).sum() };
        self.compare(Kind::LanesSideBySide, &(run, lanes), (total, shown), (count, wanted));
    }

    /// Lends `length` bytes behind the first ones of `before`; all bytes are compared afterwards. A line that is
    /// written is read back, and has to be the lane's.
    fn write_lane(&mut self, call: Call, before: [u8; 160], length: usize) {
        let Call { run, lanes, lane } = call;
        let (mut ours, mut theirs) = (before, before);
        let library = library::write_lane(run, lanes, lane, &mut ours[NOT_LENT..][..length]);
        let model = model::lane::write_lane(run, lanes, lane, &mut theirs[NOT_LENT..][..length]);
        self.compare(Kind::WriteLane, &(call, length, before), (library, ours), (model, theirs));
        if library.refusal == 0 {
            let line = &ours[NOT_LENT..][..library.value as usize];
            self.compare(Kind::LineOfLane, &call, library::read_line(line), library::lane(run, lanes, lane));
        }
    }

    fn shared(&mut self, pair: Pair) -> Value {
        self.shared_is(pair, model::shared::shared(pair.first, pair.second))
    }

    /// Gives the library's reply.
    fn shared_is(&mut self, pair: Pair, wanted: Value) -> Value {
        let reply = library::shared(pair.first, pair.second);
        self.compare(Kind::Shared, &pair, Shared(reply), Shared(wanted));
        reply
    }

    /// Whatever the model says, an accepted pair shares as many if it is swapped, and either run with itself all its
    /// numbers.
    fn shared_either_way(&mut self, pair: Pair) {
        let reply = self.shared(pair);
        if reply.refusal != 0 {
            return;
        }
        let swapped = library::shared(pair.second, pair.first);
        self.compare(Kind::SharedSwapped, &pair, Shared(swapped), Shared(reply));
        for run in [pair.first, pair.second] {
            self.compare(Kind::SharedWithItself, &run, library::shared(run, run), library::variety(run));
        }
    }
}

// Every generator of a narrow width.

fn all_calls_on(tally: &mut Tally, g: Generator) {
    let size = 1 << g.width;
    tally.orbit(g);
    for index in (0..=size + g.width + 2).chain([u64::MAX]) {
        tally.element(g, index);
    }
    for number in 0..=size {
        tally.index(g, number);
        tally.predecessor(g, number);
    }
    for first in [0, 1, size, u64::MAX - size] {
        for count in [0, 1, 2, size / 2, size - 1, size, size + 1] {
            let run = Run { generator: g, first, count };
            tally.variety(run);
            tally.remake(run, count / 2, [u64::MAX; 20], 19);
        }
    }
}

/// Visits the share that begins at this seed: every second one.
fn each_generator(widths: RangeInclusive<u64>, share: u64, mut visit: impl FnMut(Generator)) {
    for width in widths {
        let size = 1 << width;
        for multiplier in 0..size {
            for increment in 0..size {
                for seed in (share..size).step_by(SHARES as usize) {
                    visit(Generator { width, multiplier, increment, seed });
                }
            }
        }
    }
}

fn all_generators(share: u64) -> Tally {
    let mut tally = Tally::default();
    each_generator(1..=5, share, |g| all_calls_on(&mut tally, g));
    tally
}

// Low bits: every number of every length at a narrow width, against lists of all indices; every number
// of places of chosen generators, wide ones too.

fn all_low_bits(share: u64) -> Tally {
    let mut tally = Tally::default();
    each_generator(1..=5, share, |g| {
        for places in 1..=g.width {
            let wanted = model::index_places_by_lists(g, places);
            for number in 0..=1 << g.width {
                let wanted = wanted.get(number as usize).copied().unwrap_or_default();
                tally.index_places_is(g, places, number, wanted);
            }
        }
        for places in [0, g.width + 1] {
            (0..=1 << places).for_each(|number| tally.index_places(g, places, number));
        }
    });
    tally
}

/// Even multipliers with long preperiods and short ones.
const EVEN: [[u64; 4]; 7] = [
    [64, 2, 1, 1],
    [64, 6, 1, 1],
    [64, u64::MAX - 1, 1 << 20, 77],
    [64, 1 << 32, 5, 9],
    [64, 0, 9, 4],
    [63, 10, 3, 0],
    [33, 2, 0, 1],
];

/// These and those of chosen periods: the low bits of the first elements and of some later ones, and
/// numbers near them.
fn chosen_low_bits() -> Tally {
    let mut tally = Tally::default();
    let odd = PERIODS.iter().map(|(_, numbers)| *numbers);
    for [width, multiplier, increment, seed] in odd.chain(EVEN) {
        let g = Generator { width, multiplier, increment, seed };
        for index in (0..=width + 1).chain([1 << 32, 1 << 63, u64::MAX]) {
            let shown = model::element(g, index).value;
            for places in 0..=width + 1 {
                let low = (shown as u128 % (1 << places)) as u64;
                for number in [low, low ^ 1, low ^ 1 << places.saturating_sub(1).min(63), shown] {
                    tally.index_places(g, places, number);
                }
            }
        }
    }
    tally
}

// Varieties: of every short run at a narrow width, counted outright; of chosen generators.

const SHORT: u64 = 40;

fn all_short_runs(share: u64) -> Tally {
    let mut tally = Tally::default();
    each_generator(1..=4, share, |generator| {
        for first in 0..=SHORT {
            let counted = model::varieties_by_counting(generator, first, SHORT);
            for (count, wanted) in (0..).zip(counted) {
                tally.variety_is(Run { generator, first, count }, wanted);
            }
        }
    });
    tally
}

/// Runs that start about the preperiod and whose count is near how many numbers they have; refused where
/// it goes too far, and then cut to the indices there are.
fn varieties_of(tally: &mut Tally, generator: Generator) {
    let orbit = model::orbit(generator);
    for first in (0..=orbit.preperiod + 1).chain([1 << 32, 1 << 63, u64::MAX - 1]) {
        let new = u128::from(orbit.preperiod.saturating_sub(first)) + period_of(orbit);
        let counts = [1, new - 1, new, new + 1, 1 << 40, 1 << 63, u64::MAX.into()];
        for count in counts.map(|count| count.min(u64::MAX.into()) as u64) {
            tally.variety(Run { generator, first, count });
            tally.variety(Run { generator, first, count: count.min(u64::MAX - first) });
        }
    }
}

/// Of even multipliers, and those of chosen periods.
fn chosen_varieties() -> Tally {
    let mut tally = Tally::default();
    let odd = PERIODS.iter().map(|(_, numbers)| *numbers);
    for [width, multiplier, increment, seed] in odd.chain(EVEN) {
        varieties_of(&mut tally, Generator { width, multiplier, increment, seed });
    }
    tally
}

// Gaps: of every pair of numbers at a narrow width, some of them too wide; of chosen periods.

fn all_pairs(share: u64) -> Tally {
    let mut tally = Tally::default();
    each_generator(1..=4, share, |g| {
        let numbers: Vec<u64> = (0..(1 << g.width) + 3).chain([u64::MAX]).collect();
        tally.gaps(g, &numbers);
    });
    tally
}

/// The exponent of a period, and a generator that has it.
const PERIODS: [(u64, [u64; 4]); 12] = [
    (0, [1, 1, 0, 1]),
    (0, [4, 1, 0, 9]),
    (0, [64, 1, 0, 9]),
    (1, [1, 1, 1, 0]),
    (1, [4, 15, 0, 1]),
    (1, [64, u64::MAX, 0, 1]),
    (1, [64, 1, 1 << 63, 7]),
    (63, [63, 5, 3, 1]),
    (63, [64, 1, 2, 5]),
    (63, [64, 6_364_136_223_846_793_005, 2, 1]),
    (64, [64, 1, 1, 0]),
    (64, [64, 6_364_136_223_846_793_005, 1_442_695_040_888_963_407, 0]),
];

/// Between elements about the start, a quarter, the half and the end of the period, and numbers near them.
fn gaps_of(tally: &mut Tally, g: Generator) {
    let period = period_of(model::orbit(g));
    let mut numbers = vec![0, u64::MAX];
    for place in [0, period / 4, period / 2, period] {
        for index in (0..5).map(|near| (place as u64).wrapping_add(near).wrapping_sub(2)) {
            let shown = model::element(g, index).value;
            numbers.extend([shown, shown ^ 1, shown ^ 1 << g.width.saturating_sub(1), shown ^ 1 << 63]);
        }
    }
    tally.gaps(g, &numbers);
}

fn chosen_periods() -> Tally {
    let mut tally = Tally::default();
    for (exponent, [width, multiplier, increment, seed]) in PERIODS {
        let g = Generator { width, multiplier, increment, seed };
        assert_eq!(model::orbit(g).exponent, exponent, "{g:?}");
        gaps_of(&mut tally, g);
    }
    tally
}

// Width 0: the digits by which the library finds an index, chosen calls, and numbers made from their
// indices.

const PRIME_SEEDS: [u64; 5] = [1, 2, prime::MULTIPLIER, 1_043_618_065, prime::PERIOD];

/// Every remainder modulo each factor of the period beside zeros; and each of the eight digits, two in base
/// 3 for the factor 9, at 0 or at its largest.
fn chosen_remainders() -> Vec<[u64; 7]> {
    let mut chosen = Vec::new();
    for (place, factor) in prime::FACTORS.into_iter().enumerate() {
        chosen.extend(
            (0..factor).map(|remainder| std::array::from_fn(|at| remainder * u64::from(at == place))),
        );
    }
    for largest in 0..1 << 8 {
        let mut remainders: [u64; 7] =
            std::array::from_fn(|at| (prime::FACTORS[at] - 1) * (largest >> at & 1));
        remainders[1] = 2 * (largest >> 1 & 1) + 6 * (largest >> 7);
        chosen.push(remainders);
    }
    chosen
}

/// The library has to find the index from which the number is made.
fn index_of_element(tally: &mut Tally, g: Generator, index: u64) {
    tally.index_is(g, prime::element(g, index), IndexReply { refusal: 0, found: 1, index });
}

fn prime_digits() -> Tally {
    let mut tally = Tally::default();
    for remainders in chosen_remainders() {
        let index = prime::index_with(remainders);
        for g in PRIME_SEEDS.map(prime::generator) {
            index_of_element(&mut tally, g, index);
            tally.index(g, prime::element(g, index));
        }
    }
    tally
}

/// Multipliers, increments and seeds: accepted, or with one or more that are not.
const PRIME_OPERANDS: [[u64; 3]; 13] = [
    [16_807, 0, 1],
    [16_807, 0, prime::PERIOD],
    [16_807, 0, 0],
    [16_807, 0, prime::MODULUS],
    [16_807, 0, prime::MODULUS + 1],
    [16_807, 0, (1 << 32) + 1],
    [16_807, 0, u64::MAX],
    [16_807, 1, 1],
    [16_807, u64::MAX, 1],
    [16_806, 0, 1],
    [16_808, 0, 1],
    [16_807 + (1 << 32), 0, 1],
    [0, 0, 0],
];

/// Every call, with what would be refused by itself and without.
fn every_call_on(tally: &mut Tally, g: Generator) {
    tally.orbit(g);
    for index in [0, 1, 2, prime::PERIOD - 1, prime::PERIOD, prime::PERIOD + 1, 1 << 32, 1 << 63, u64::MAX] {
        tally.element(g, index);
    }
    for number in [0, 1, 2, prime::PERIOD, prime::MODULUS, prime::MODULUS + 1, 1 << 32, u64::MAX] {
        tally.index(g, number);
        tally.predecessor(g, number);
        tally.gaps(g, &[number, 1, g.seed]);
        for places in [0, 1, 31, 64, 65] {
            tally.index_places(g, places, number);
        }
    }
    for (first, count) in [(0, 0), (0, 1), (prime::PERIOD - 3, 9), (u64::MAX - 1, 1), (u64::MAX, 1)] {
        let run = Run { generator: g, first, count };
        tally.variety(run);
        tally.write_line(run, [7; 160], 0);
        tally.write_line(run, [7; 160], 160);
        tally.remake(run, count / 2, [7; 20], 19);
        (0..6).for_each(|fix| tally.fix_at(run, fix));
        for (lanes, lane) in [(0, 0), (1, 0), (1, 1), (2, 1), (16, 0), (17, 0), (u64::MAX, 0)] {
            let call = Call { run, lanes, lane };
            tally.lane(call);
            tally.write_lane(call, [7; 160], 0);
            tally.write_lane(call, [7; 160], 128);
        }
        for other in [run, Run { generator: prime::generator(2), first: 7, count: 1 << 30 }] {
            tally.shared(Pair { first: run, second: other });
            tally.shared(Pair { first: other, second: run });
        }
        tally.read_line(&line_of(&run));
        tally.lookup(&[b"0,16807,0,2,0,5\n".to_vec(), line_of(&run)].concat(), 1);
    }
}

fn chosen_prime_calls() -> Tally {
    let mut tally = Tally::default();
    for [multiplier, increment, seed] in PRIME_OPERANDS {
        for width in [0, 65] {
            every_call_on(&mut tally, Generator { width, multiplier, increment, seed });
        }
    }
    for g in PRIME_SEEDS.map(prime::generator) {
        every_call_on(&mut tally, g);
        varieties_of(&mut tally, g);
        gaps_of(&mut tally, g);
        (0..2).for_each(|near| index_of_element(&mut tally, g, near));
        (1..3).for_each(|near| index_of_element(&mut tally, g, prime::PERIOD - near));
    }
    tally.customary_multiplier(0);
    tally
}

fn random_prime_indices(share: u64) -> Tally {
    let mut tally = Tally::default();
    let mut r = Random::new(SEED + 2 * SHARES + share);
    for _ in 0..RANDOM_CALLS / SHARES {
        let g = prime::generator(1 + r.below(prime::PERIOD));
        index_of_element(&mut tally, g, r.below(prime::PERIOD));
        tally.element(g, r.word());
        tally.predecessor(g, 1 + r.below(prime::PERIOD));
    }
    tally
}

// Summaries: sums about 2^64, bad lines among them, archives about as long as they may be; every beginning of
// some archives, and each of their bytes changed to every other.

/// By so many lines of the same count, but for the first or the last, which has the rest as well.
fn chosen_sums(tally: &mut Tally) {
    for lines in (2..=40).chain([100, 500, 1000, 1900]) {
        for sum in (1u128 << 64) - 2..=(1 << 64) + 2 {
            let share = (sum / lines as u128) as u64;
            let mut counts = vec![share; lines];
            counts[0] += (sum % lines as u128) as u64;
            tally.summary(&lines_with(&counts).concat());
            counts.reverse();
            tally.summary(&lines_with(&counts).concat());
        }
    }
}

/// Each at every place of archives whose sum is small, the largest, too large at once, and too large at last.
fn bad_lines_among_sums(tally: &mut Tally) {
    const MAX: u64 = u64::MAX;
    for counts in [[1, 2, 3, 4], [1, MAX - 6, 2, 3], [MAX, MAX, 1, 1], [1, 1, MAX - 2, 1]] {
        for bad in BAD_LINES {
            for place in 0..=counts.len() {
                tally.summary(&with_line(&lines_with(&counts), place, bad).concat());
            }
        }
    }
}

fn cut_and_changed(tally: &mut Tally) {
    for counts in [[16, 8], [u64::MAX - 9, 9], [u64::MAX - 9, 10]] {
        let archive = lines_with(&counts).concat();
        (0..=archive.len()).for_each(|end| tally.summary(&archive[..end]));
        for at in 0..archive.len() {
            for byte in 0..=u8::MAX {
                let mut changed = archive.clone();
                changed[at] = byte;
                tally.summary(&changed);
            }
        }
    }
}

fn long_summaries(tally: &mut Tally) {
    let mut r = Random::new(SEED + 3 * SHARES);
    for length in ARCHIVE_LIMIT - 8..ARCHIVE_LIMIT + 8 {
        let archive = samples::archive_of_length(&mut r, samples::small_run, length, 0).bytes;
        tally.summary(&archive);
        tally.summary(&samples::damaged(&mut r, archive));
    }
}

fn chosen_summaries() -> Tally {
    let mut tally = Tally::default();
    chosen_sums(&mut tally);
    bad_lines_among_sums(&mut tally);
    cut_and_changed(&mut tally);
    long_summaries(&mut tally);
    tally
}

// Equal lines.

/// Lookups of 1, which line 1 mostly shows, of 5, and of a number that hardly any line shows; lines at both ends
/// and in the middle; the summary.
fn calls_on(tally: &mut Tally, archive: &[u8]) {
    for number in [1, 5, u64::MAX] {
        tally.lookup(archive, number);
    }
    let lines = archive.iter().filter(|&&byte| byte == b'\n').count() as u64;
    for number in [0, 1, 2, lines / 2, lines, lines + 1] {
        tally.line(archive, number);
    }
    tally.summary(archive);
}

fn chosen_twins() -> Tally {
    let mut tally = Tally::default();
    for archives in ABOUT_TWINS {
        archives().iter().for_each(|archive| calls_on(&mut tally, archive));
    }
    tally
}

// Players.

fn kind_of(call: PlayerCall) -> Kind {
    match call {
        PlayerCall::Open(_) => Kind::PlayerOpen,
        PlayerCall::Forward(_) => Kind::PlayerForward,
        PlayerCall::Back(_) => Kind::PlayerBack,
        PlayerCall::Mark(_) => Kind::PlayerMark,
        PlayerCall::Return(_) => Kind::PlayerReturn,
        PlayerCall::Show => Kind::PlayerShow,
    }
}

/// The library's reply; beside show its refusal and 0.
fn played(player: &mut Player, call: PlayerCall) -> Value {
    let refusal = match call {
        PlayerCall::Open(run) => library::player_open(player, run),
        PlayerCall::Forward(steps) => library::player_forward(player, steps),
        PlayerCall::Back(steps) => library::player_back(player, steps),
        PlayerCall::Mark(mark) => library::player_mark(player, mark),
        PlayerCall::Return(mark) => library::player_return(player, mark),
        PlayerCall::Show => return library::player_show(player),
    };
    Value { refusal, value: 0 }
}

/// All lists of up to so many calls, each from the record that the calls before it left.
fn lists_from(tally: &mut Tally, calls: &[PlayerCall], player: Player, longest: u64) {
    if longest == 0 {
        return;
    }
    for &call in calls {
        let after = tally.player(player, call);
        lists_from(tally, calls, after, longest - 1);
    }
}

fn all_short_lists() -> Tally {
    let mut tally = Tally::default();
    for player in players::chosen_records() {
        lists_from(&mut tally, &players::chosen_calls(), player, 4);
    }
    tally
}

/// Lists of up to 32 calls.
fn random_lists(share: u64) -> Tally {
    let mut tally = Tally::default();
    let mut r = Random::new(SEED + 5 * SHARES + share);
    let mut left = PLAYER_CALLS / SHARES;
    while left > 0 {
        let length = left.min(1 + r.below(32));
        let (mut player, mut call) = players::beginning(&mut r);
        for _ in 0..length {
            player = tally.player(player, call);
            call = players::call(&mut r, player);
        }
        left -= length;
    }
    tally
}

/// Each outcome that a call of the player can have was met so often.
fn all_met(tally: &Tally, least: u64) {
    tally.met(Kind::PlayerOpen, &[ANSWER, 3, 4, 5], least);
    for kind in [Kind::PlayerForward, Kind::PlayerBack, Kind::PlayerShow] {
        tally.met(kind, &[ANSWER, 3, 4, 5, 12], least);
    }
    for kind in [Kind::PlayerMark, Kind::PlayerReturn] {
        tally.met(kind, &[ANSWER, 3, 4, 5, 12, 13], least);
    }
}

// Fixes.

/// At widths 1 to 3 those of runs of up to 9 positions and those behind their end.
fn all_short_fixes(share: u64) -> Tally {
    let mut tally = Tally::default();
    each_generator(1..=3, share, |generator| {
        for first in 0..=9 {
            for count in 0..=9 {
                (0..=6).for_each(|fix| tally.fix_at(Run { generator, first, count }, fix));
            }
        }
    });
    tally
}

fn chosen_fixes(calls: fn(&mut Random) -> Vec<fixes::Call>) -> Tally {
    let mut tally = Tally::default();
    let mut r = Random::new(SEED + 6 * SHARES);
    for (run, fix) in calls(&mut r) {
        tally.fix_at(run, fix);
    }
    tally
}

fn random_fixes(share: u64) -> Tally {
    let mut tally = Tally::default();
    let mut r = Random::new(SEED + 7 * SHARES + share);
    for _ in 0..FIX_CALLS / SHARES {
        let (run, fix) = fixes::call(&mut r);
        tally.fix_at(run, fix);
    }
    tally
}

// Lanes.

/// Positions of a short run, and one more.
const ROOM: usize = SHORT as usize + 1;

/// Puts the numbers of a short run to these places, as the library remakes them.
fn remade<'a>(run: Run, places: impl Iterator<Item = &'a mut Option<u64>>) -> Value {
    let mut numbers = [0; ROOM];
    let count = library::remake(run, 0, &mut numbers);
    for (place, &number) in places.zip(&numbers[..count.value as usize]) {
        *place = Some(number);
    }
    count
}

/// Every lane of 0 to 17, and the one behind them; those that there are, side by side as well.
fn all_lanes_of(tally: &mut Tally, run: Run) {
    for lanes in 0..=17 {
        let dealt = model::lane::dealt(run, lanes);
        let mut given = |lane: u64| {
            let wanted = match dealt.get(lane as usize) {
                Some(&dealt) => accepted(dealt),
                None => model::lane::lane(run, lanes, lane),
            };
            tally.lane_is(Call { run, lanes, lane }, wanted).run
        };
        let given: Vec<Run> = (0..=lanes).map(&mut given).collect();
        if !dealt.is_empty() {
            tally.lanes_side_by_side(run, &given[..dealt.len()]);
        }
    }
}

/// At widths 1 to 4 those of runs of up to 40 positions.
fn all_short_lanes(share: u64) -> Tally {
    let mut tally = Tally::default();
    each_generator(1..=4, share, |generator| {
        for first in [0, 1, 5] {
            (0..=SHORT).for_each(|count| all_lanes_of(&mut tally, Run { generator, first, count }));
        }
    });
    tally
}

/// So many bytes of a buffer stand before those that are lent.
const NOT_LENT: usize = 16;

fn exact_length(call: Call) -> usize {
    line_of(&model::lane::lane(call.run, call.lanes, call.lane).run).len()
}

/// Each also written: into no bytes, one too few, just enough, and more than any line has.
fn chosen_lanes(calls: Vec<Call>) -> Tally {
    let mut tally = Tally::default();
    let before = std::array::from_fn(|at| at as u8);
    for call in calls {
        tally.lane(call);
        let exact = exact_length(call);
        for length in [0, exact - 1, exact, 128] {
            tally.write_lane(call, before, length);
        }
    }
    tally
}

/// Of an accepted one the last position too, the one behind it, and some other.
fn random_lanes(share: u64) -> Tally {
    let mut tally = Tally::default();
    let mut r = Random::new(SEED + 9 * SHARES + share);
    for _ in 0..LANE_CALLS / SHARES {
        let call = lanes::call(&mut r);
        let RunReply { refusal, run: lane } = tally.lane(call);
        if refusal == 0 {
            for position in [lane.count - 1, lane.count, r.below(lane.count)] {
                tally.lane_and_run(call, lane, position);
            }
        }
    }
    tally
}

fn random_lines_of_lanes(share: u64) -> Tally {
    let mut tally = Tally::default();
    let mut r = Random::new(SEED + 10 * SHARES + share);
    for at in 0..LANE_CALLS / SHARES {
        let call = lanes::call(&mut r);
        let exact = exact_length(call);
        let lengths = [0, at as usize % 131, exact - 1, exact, exact + 1];
        tally.write_lane(call, filling(&mut r), r.pick(&lengths));
    }
    tally
}

// Pairs of runs.

/// Of the runs of a narrow generator whose first index is at most 20 and whose count is 1 to 20, each with the numbers
/// that it shows as bits.
fn short_runs(generator: Generator) -> impl Iterator<Item = (Run, u8)> {
    (0..=20).flat_map(move |first| {
        let masks = model::shared::masks_by_stepping(generator, first, 20);
        (0..).zip(masks).skip(1).map(move |(count, mask)| (Run { generator, first, count }, mask))
    })
}

/// Every two of these runs at widths 1 to 3 that have one odd multiplier and one increment: what they share is counted
/// outright.
fn all_short_pairs(share: u64) -> Tally {
    let mut tally = Tally::default();
    each_generator(1..=3, share, |g| {
        if g.multiplier % 2 == 0 {
            return;
        }
        let seconds: Vec<(Run, u8)> =
            (0..1 << g.width).flat_map(|seed| short_runs(Generator { seed, ..g })).collect();
        for (first, ours) in short_runs(g) {
            for &(second, theirs) in &seconds {
                let value = (ours & theirs).count_ones().into();
                tally.shared_is(Pair { first, second }, Value { refusal: 0, value });
            }
        }
    });
    tally
}

/// Of every two generators of widths 1 to 3, alike or not and with even multipliers too: some positions, or none.
fn all_narrow_pairs(share: u64) -> Tally {
    let mut tally = Tally::default();
    let runs = |generator| [(2, 5), (0, 0)].map(|(first, count)| Run { generator, first, count });
    let mut seconds = Vec::new();
    (0..SHARES).for_each(|share| each_generator(1..=3, share, |g| seconds.extend(runs(g))));
    each_generator(1..=3, share, |g| {
        for first in runs(g) {
            for &second in &seconds {
                tally.shared(Pair { first, second });
            }
        }
    });
    tally
}

fn chosen_pairs(pairs: Vec<Pair>) -> Tally {
    let mut tally = Tally::default();
    pairs.into_iter().for_each(|pair| tally.shared_either_way(pair));
    tally
}

fn random_pairs(share: u64) -> Tally {
    let mut tally = Tally::default();
    let mut r = Random::new(SEED + 11 * SHARES + share);
    for _ in 0..PAIR_CALLS / SHARES {
        tally.shared_either_way(pairs::pair(&mut r));
    }
    tally
}

// Random calls.

/// Makes the generators of random calls.
type Make = fn(&mut Random) -> Generator;

fn a_run(r: &mut Random, make: Make) -> Run {
    let generator = make(r);
    samples::run(r, generator)
}

fn random_generators(r: &mut Random, tally: &mut Tally, make: Make, calls: u64) {
    for _ in 0..calls {
        let g = make(r);
        tally.element(g, samples::index(r));
        tally.orbit(g);
        tally.index(g, samples::number(r, g));
        tally.predecessor(g, samples::number(r, g));
        tally.variety(a_run(r, make));
        let widths = [r.below(70), r.any()];
        tally.customary_multiplier(r.pick(&widths));
    }
}

/// What a buffer holds before a line is written.
fn filling(r: &mut Random) -> [u8; 160] {
    let filling = r.word().to_le_bytes();
    std::array::from_fn(|at| filling[at % 8] ^ at as u8)
}

fn random_lines(r: &mut Random, tally: &mut Tally, make: Make, calls: u64) {
    for call in 0..calls {
        let run = a_run(r, make);
        let exact = line_of(&run).len();
        let lengths = [call as usize % 131, exact, exact - 1];
        tally.write_line(run, filling(r), r.pick(&lengths));
        let run = a_run(r, make);
        tally.read_line(&samples::line(r, run));
    }
}

fn random_remakes(r: &mut Random, tally: &mut Tally, make: Make, calls: u64) {
    for call in 0..calls {
        let run = a_run(r, make);
        let filling = r.word();
        let before = std::array::from_fn(|at| filling ^ at as u64);
        let lengths = [0, 1, call as usize % 17];
        tally.remake(run, samples::position(r, run), before, r.pick(&lengths));
    }
}

fn random_gaps(r: &mut Random, tally: &mut Tally, make: Make, calls: u64) {
    for _ in 0..calls {
        let g = make(r);
        let (from, to) = samples::two_numbers(r, g);
        tally.gap(g, from, to);
    }
}

fn random_places(r: &mut Random, tally: &mut Tally, make: Make, calls: u64) {
    for _ in 0..calls {
        let g = make(r);
        let (places, number) = samples::places_and_number(r, g);
        tally.index_places(g, places, number);
    }
}

fn on_archive(r: &mut Random, tally: &mut Tally, archive: &samples::Archive) {
    for &number in &archive.numbers {
        tally.lookup(&archive.bytes, number);
        let line_numbers = [r.below(10), r.below(42), r.below(1500), r.any()];
        tally.line(&archive.bytes, r.pick(&line_numbers));
    }
    tally.summary(&archive.bytes);
}

fn random_archives(r: &mut Random, tally: &mut Tally, make_run: MakeRun, calls: u64) {
    const NUMBERS: usize = 8;
    for _ in 0..calls / NUMBERS as u64 {
        let archive = samples::archive(r, make_run, NUMBERS);
        on_archive(r, tally, &archive);
    }
}

/// Archives about as long as they may be: whole, with one byte damaged, and with a line twice.
fn long_archives(r: &mut Random, tally: &mut Tally, make_run: MakeRun) {
    for length in ARCHIVE_LIMIT - 8..ARCHIVE_LIMIT + 8 {
        let mut archive = samples::archive_of_length(r, make_run, length, 8);
        on_archive(r, tally, &archive);
        archive.bytes = samples::damaged(r, archive.bytes);
        on_archive(r, tally, &archive);
        archive = samples::archive_of_length(r, make_run, length - 90, 8);
        archive.bytes = samples::with_twin(r, &archive.bytes);
        on_archive(r, tally, &archive);
    }
}

/// Of each archive, and of the same with one thing changed.
fn random_summaries(r: &mut Random, tally: &mut Tally, make_run: MakeRun, calls: u64) {
    for _ in 0..calls / 2 {
        let archive = samples::archive_to_sum(r, make_run);
        tally.summary(&archive);
        tally.summary(&samples::damaged(r, archive));
    }
}

/// So many calls of each kind.
fn random_calls_on(mut r: Random, make: Make, make_run: MakeRun, calls: u64) -> Tally {
    let mut tally = Tally::default();
    random_generators(&mut r, &mut tally, make, calls);
    random_lines(&mut r, &mut tally, make, calls);
    random_archives(&mut r, &mut tally, make_run, calls);
    long_archives(&mut r, &mut tally, make_run);
    random_remakes(&mut r, &mut tally, make, calls);
    random_gaps(&mut r, &mut tally, make, calls);
    random_places(&mut r, &mut tally, make, calls);
    random_summaries(&mut r, &mut tally, make_run, calls);
    tally
}

fn random_calls(share: u64) -> Tally {
    let r = Random::new(SEED + share);
    random_calls_on(r, samples::generator, samples::linear_run, RANDOM_CALLS / SHARES)
}

fn random_prime_calls(share: u64) -> Tally {
    let r = Random::new(SEED + SHARES + share);
    random_calls_on(r, samples::prime_generator, samples::mixed_run, PRIME_CALLS / SHARES)
}

// Numbers of which 8, 16 or 32 bits are accepted ones.

const BEYOND: [u64; 4] = [1 << 8, 1 << 16, 1 << 32, 1 << 63];

/// Widths of every call, places, positions, lanes, first indices and counts of two runs, and numbers of lines.
fn calls_beyond(tally: &mut Tally, r: &mut Random, more: u64) {
    let width = 1 + r.below(64);
    let g = samples::accepted_generator(r, width);
    let number = samples::number(r, g);
    let places = 1 + r.below(width);
    let run = Run { generator: g, first: r.below(100), count: 1 + r.below(100) };
    let position = r.below(run.count);
    let lanes = 1 + r.below(run.count.min(16));
    let call = Call { run, lanes, lane: r.below(lanes) };
    let wider = Run { generator: Generator { width: width + more, ..g }, ..run };

    tally.customary_multiplier(width + more);
    tally.index_places(g, places + more, number);
    tally.remake(run, position + more, [7; 20], 19);
    tally.fix_at(run, position / 2 + more);
    tally.element(wider.generator, number);
    tally.orbit(wider.generator);
    tally.index(wider.generator, number);
    tally.index_places(wider.generator, places, number);
    tally.gap(wider.generator, number, g.seed);
    tally.predecessor(wider.generator, number);
    tally.variety(wider);
    tally.write_line(wider, [7; 160], 160);
    tally.read_line(&line_of(&wider));
    tally.remake(wider, position, [7; 20], 19);
    tally.fix_at(wider, position / 2);
    let more_lanes = Call { lanes: call.lanes + more, ..call };
    let later_lane = Call { lane: call.lane + more, ..call };
    for call in [more_lanes, later_lane, Call { run: wider, ..call }] {
        tally.lane(call);
        tally.write_lane(call, [7; 160], 128);
    }
    let later = Run { first: run.first + more, ..run };
    let longer = Run { count: run.count + more, ..run };
    for other in [wider, later, longer] {
        tally.shared(Pair { first: run, second: other });
        tally.shared(Pair { first: other, second: run });
    }
    let archive = samples::archive(r, samples::mixed_run, 0).bytes;
    (0..4).for_each(|line| tally.line(&archive, line + more));
}

fn random_calls_beyond(share: u64) -> Tally {
    let mut tally = Tally::default();
    let mut r = Random::new(SEED + 4 * SHARES + share);
    for more in BEYOND {
        (0..1000 / SHARES).for_each(|_| calls_beyond(&mut tally, &mut r, more));
    }
    tally
}

/// The sum of all shares, each counted by a thread.
fn in_shares(work: fn(u64) -> Tally) -> Tally {
    let threads: Vec<_> = (0..SHARES).map(|share| thread::spawn(move || work(share))).collect();
    let mut sum = Tally::default();
    for thread in threads {
        sum.add(thread.join().expect("a thread of the comparison failed"));
    }
    sum
}

fn main() {
    let start = Instant::now();
    in_shares(all_generators).print("all generators of widths 1 to 5");
    in_shares(all_low_bits).print("all low bits, widths 1 to 5");
    chosen_low_bits().print("low bits, chosen generators");
    in_shares(all_short_runs).print("all short runs, widths 1 to 4");
    chosen_varieties().print("varieties, chosen generators");
    in_shares(all_pairs).print("all pairs, widths 1 to 4");
    chosen_periods().print("periods of 1, 2, 2^63 and 2^64");
    chosen_summaries().print("summaries, chosen archives");
    chosen_twins().print("equal lines, chosen archives");
    in_shares(random_calls).print("random calls");
    prime_digits().print("width 0, digits of the index");
    chosen_prime_calls().print("width 0, chosen calls");
    in_shares(random_prime_indices).print("width 0, numbers from their indices");
    in_shares(random_prime_calls).print("width 0, random calls");
    in_shares(random_calls_beyond).print("beyond 8, 16 and 32 bits");
    all_short_lists().print("player, all lists of four calls");
    let lists = in_shares(random_lists);
    lists.print("player, random lists");
    all_met(&lists, PLAYER_CALLS / 10_000);
    in_shares(all_short_fixes).print("fixes, short runs, widths 1 to 3");
    chosen_fixes(fixes::chosen_numbers).print("fixes, chosen numbers");
    chosen_fixes(fixes::chosen_ends).print("fixes, about the ends of runs");
    let random = in_shares(random_fixes);
    random.print("fixes, random calls");
    random.met(Kind::FixAt, &[ANSWER, 3, 4, 5, 12, 14], FIX_CALLS / 100);
    in_shares(all_short_lanes).print("lanes, short runs, widths 1 to 4");
    chosen_lanes(lanes::chosen_operands()).print("lanes, chosen numbers");
    chosen_lanes(lanes::chosen_limits(&mut Random::new(SEED + 8 * SHARES))).print("lanes, about the limits");
    let random = in_shares(random_lanes);
    random.print("lanes, random calls");
    random.met(Kind::Lane, &[ANSWER, 3, 4, 5, 15], LANE_CALLS / 100);
    let random = in_shares(random_lines_of_lanes);
    random.print("lanes, random lines");
    random.met(Kind::WriteLane, &[ANSWER, 3, 4, 5, 8, 15], LANE_CALLS / 100);
    in_shares(all_short_pairs).print("pairs, short runs, widths 1 to 3");
    in_shares(all_narrow_pairs).print("pairs, generators of widths 1 to 3");
    chosen_pairs(pairs::chosen_arcs()).print("pairs, chosen arcs");
    chosen_pairs(pairs::chosen_refusals()).print("pairs, chosen refusals");
    let random = in_shares(random_pairs);
    random.print("pairs, random calls");
    random.met(Kind::Shared, &[ANSWER, 3, 4, 5, 16, NOTHING], PAIR_CALLS / 100);
    println!("\nno difference, {} seconds", start.elapsed().as_secs());
}
