//! Times the proved library against plain Rust of the same method and against the peers' way, its gap and
//! index_places against its index, the player's show, its fixes and its lanes against its element, a lane's line
//! against the lane and the line, what two runs share against two elements and an index, and long moves of the player
//! against short ones, in one run, as markdown tables:
//!
//!     cargo run --release --bin bench [-- [--plain] [ROWS]]
//!
//! Both sides get the same inputs in turn, round by round; a ratio is the median over the rounds.
//! Buffers are not cleared first. With `--plain` there are no headings, tabs between the fields and
//! more digits; with ROWS only the rows that begin with this text, as `lookup` or `index, distance`.
//! Without the features `index-places`, `summary`, `player`, `fix`, `lane` and `shared` the rows of these calls are
//! left out, without `prime-modulus` those of width 0.

use std::collections::HashSet;
use std::env;
use std::fmt::Display;
use std::hint::black_box;
use std::time::{Duration, Instant};

use noonpasture_differential::archives::{fitting, full_slot, runs_in_one_slot};
use noonpasture_differential::calls::*;
use noonpasture_differential::random::Random;
use noonpasture_differential::samples::full_period_generator;
use noonpasture_differential::{library, peers, same_method};

const SEED: u64 = 20_260_102;
const ROUNDS: usize = 101;
/// Where one call takes longer than a round of others.
const FEW_ROUNDS: usize = 7;
const ROUND: Duration = Duration::from_millis(3);
/// Many, lest the processor learn the branches of a few by heart.
const INPUTS: usize = 1000;

/// Medians over the rounds, in nanoseconds for one call.
struct Timing {
    library: f64,
    other: f64,
    ratio: f64,
}

fn median(mut values: Vec<f64>) -> f64 {
    values.sort_by(f64::total_cmp);
    values[values.len() / 2]
}

/// Nanoseconds for one call, over all inputs `repeats` times.
fn timed<I: Copy, R>(inputs: &[I], repeats: usize, call: &mut impl FnMut(I) -> R) -> f64 {
    let start = Instant::now();
    for _ in 0..repeats {
        for &input in inputs {
            black_box(call(black_box(input)));
        }
    }
    start.elapsed().as_nanos() as f64 / (repeats * inputs.len()) as f64
}

fn measured<I: Copy, R: PartialEq>(
    inputs: &[I],
    library: impl FnMut(I) -> R,
    other: impl FnMut(I) -> R,
) -> Timing {
    measured_in(ROUNDS, inputs, library, other)
}

fn measured_in<I: Copy, R: PartialEq>(
    rounds: usize,
    inputs: &[I],
    mut library: impl FnMut(I) -> R,
    mut other: impl FnMut(I) -> R,
) -> Timing {
    assert!(inputs.iter().all(|&input| library(input) == other(input)), "the two sides differ");
    let round = |repeats| (timed(inputs, repeats, &mut library), timed(inputs, repeats, &mut other));
    timing(rounds, inputs.len(), round)
}

/// Of rounds that give the time of either side, over all inputs so many times.
fn timing(rounds: usize, inputs: usize, mut round: impl FnMut(usize) -> (f64, f64)) -> Timing {
    let (library, other) = round(1);
    let once = library.max(other) * inputs as f64;
    let repeats = 1 + (ROUND.as_nanos() as f64 / once) as usize;
    let rounds: Vec<(f64, f64)> = (0..rounds).map(|_| round(repeats)).collect();
    Timing {
        library: median(rounds.iter().map(|(library, _)| *library).collect()),
        other: median(rounds.iter().map(|(_, other)| *other).collect()),
        ratio: median(rounds.iter().map(|(library, other)| library / other).collect()),
    }
}

/// How the tables are printed, and how the rows begin that are wanted.
struct Output {
    plain: bool,
    rows: String,
}

impl Output {
    fn heading(&self, table: &str, other: &str) {
        if !self.plain {
            println!("\n| {table} | input | library ns | {other} ns | ratio |");
            println!("|---|---|--:|--:|--:|");
        }
    }

    fn row(&self, call: &str, input: impl Display, timing: impl FnOnce() -> Timing) {
        if !format!("{call} {input}").starts_with(&self.rows) {
            return;
        }
        let Timing { library, other, ratio } = timing();
        if self.plain {
            println!("{call}\t{input}\t{library:.2}\t{other:.2}\t{ratio:.4}");
        } else {
            println!("| {call} | {input} | {library:.1} | {other:.1} | {ratio:.2} |");
        }
    }
}

// Inputs.

type Make<T> = fn(&mut Random) -> T;

fn several<T>(make: impl FnMut(usize) -> T) -> Vec<T> {
    (0..INPUTS).map(make).collect()
}

fn wide_generator(r: &mut Random) -> Generator {
    full_period_generator(r, 64)
}

/// Indices in order, so that branches on their bits are foreseen.
fn near_2_64(r: &mut Random) -> Vec<(Generator, u64)> {
    several(|k| (wide_generator(r), u64::MAX - k as u64))
}

/// In order as well.
fn near_2_20(r: &mut Random) -> Vec<(Generator, u64)> {
    several(|k| (wide_generator(r), (1 << 20) + k as u64))
}

/// A generator of which element 1 and element 0 first differ in this place, and a number that
/// differs from both of them in the place before: it never occurs, and the search settles all
/// places up to there.
fn never_at(r: &mut Random, place: u64) -> (Generator, u64) {
    let (multiplier, seed) = (r.word() & !3 | 1, r.word());
    let increment = (1u64 << place).wrapping_sub((multiplier - 1).wrapping_mul(seed));
    (Generator { width: 64, multiplier, increment, seed }, seed ^ 1 << (place - 1))
}

/// Elements 1 and 0 differ in the lowest place, and each step moves that up by one: the preperiod is 64.
fn even_generator(r: &mut Random) -> Generator {
    let (multiplier, seed) = (r.word() & !3 | 2, r.word());
    Generator { width: 64, multiplier, increment: r.word() & !1 | !seed & 1, seed }
}

fn wide_run(r: &mut Random) -> Run {
    Run { generator: wide_generator(r), first: r.word() / 2, count: 1 + r.below(1000) }
}

/// Its line has about 17 bytes.
fn short_run(r: &mut Random) -> Run {
    let [multiplier, increment, seed] = [r.bits(4), r.bits(4), r.bits(4)];
    let generator = Generator { width: 4, multiplier, increment, seed };
    Run { generator, first: r.below(10_000), count: 1 + r.below(100) }
}

/// Lines of different runs, as many as fit, and the last run.
fn archive(r: &mut Random, make_run: Make<Run>, length: usize) -> (Vec<u8>, Run) {
    let mut last = make_run(r);
    let mut bytes = line_of(&last);
    let mut seen = HashSet::from([last]);
    loop {
        let run = make_run(r);
        let line = line_of(&run);
        if bytes.len() + line.len() > length {
            return (bytes, last);
        }
        if seen.insert(run) {
            bytes.extend(line);
            last = run;
        }
    }
}

// Measurements.

fn element(inputs: &[(Generator, u64)]) -> Timing {
    measured(inputs, |(g, i)| library::element(g, i), |(g, i)| same_method::element(g, i))
}

fn index(inputs: &[(Generator, u64)]) -> Timing {
    measured(inputs, |(g, y)| library::index(g, y), |(g, y)| same_method::index(g, y))
}

fn gap(inputs: &[(Generator, u64, u64)]) -> Timing {
    measured(inputs, |(g, x, y)| library::gap(g, x, y), |(g, x, y)| same_method::gap(g, x, y))
}

/// The library's two calls; that both find the numbers is compared.
fn gap_and_index(inputs: &[(Generator, u64, u64)]) -> Timing {
    measured(inputs, |(g, x, y)| library::gap(g, x, y).found, |(g, _, y)| library::index(g, y).found)
}

/// A peer takes multiplier, increment, seed, and the index or the number sought.
fn element_and(advance: impl Fn(u64, u64, u64, u64) -> u64, inputs: &[(Generator, u64)]) -> Timing {
    measured(
        inputs,
        |(g, i)| library::element(g, i).value,
        |(g, i)| advance(g.multiplier, g.increment, g.seed, i),
    )
}

fn index_and(distance: impl Fn(u64, u64, u64, u64) -> u64, inputs: &[(Generator, u64)]) -> Timing {
    measured(
        inputs,
        |(g, y)| library::index(g, y).index,
        |(g, y)| distance(g.multiplier, g.increment, g.seed, y),
    )
}

fn variety(runs: &[Run]) -> Timing {
    measured(runs, library::variety, same_method::variety)
}

fn lookup(inputs: &[(Vec<u8>, u64)]) -> Timing {
    let inputs: Vec<(&[u8], u64)> = inputs.iter().map(|(archive, y)| (archive.as_slice(), *y)).collect();
    measured(
        &inputs,
        |(archive, y)| library::lookup(archive, y),
        |(archive, y)| same_method::lookup(archive, y),
    )
}

/// The check of the whole archive, timed as the call line for line 1: all that this adds is the end of one
/// line.
fn check(rounds: usize, archives: &[Vec<u8>]) -> Timing {
    let archives: Vec<&[u8]> = archives.iter().map(Vec::as_slice).collect();
    measured_in(
        rounds,
        &archives,
        |archive| library::line(archive, 1),
        |archive| same_method::line(archive, 1),
    )
}

fn read_line(lines: &[Vec<u8>]) -> Timing {
    let lines: Vec<&[u8]> = lines.iter().map(Vec::as_slice).collect();
    measured(&lines, library::read_line, same_method::read_line)
}

fn write_line(runs: &[Run]) -> Timing {
    let (mut ours, mut theirs) = ([0; 128], [0; 128]);
    measured(runs, |run| library::write_line(run, &mut ours), |run| same_method::write_line(run, &mut theirs))
}

/// The reply and the last number written are compared.
fn remake(runs: &[Run], count: usize) -> Timing {
    let (mut ours, mut theirs) = (vec![0; count], vec![0; count]);
    measured(
        runs,
        |run| (library::remake(run, 0, &mut ours), ours[count - 1]),
        |run| (same_method::remake(run, 0, &mut theirs), theirs[count - 1]),
    )
}

fn calls(out: &Output, r: &mut Random) {
    out.heading("call", "Rust");
    out.row("element", "index near 2^64", || element(&near_2_64(r)));
    out.row("element", "index near 2^20", || element(&near_2_20(r)));
    out.row("index", "width 64, found", || index(&several(|_| (wide_generator(r), r.word()))));
    out.row("index", "width 64, never, seen at the lowest place", || index(&several(|_| never_at(r, 1))));
    out.row("index", "width 64, never, seen at place 62", || index(&several(|_| never_at(r, 63))));
    out.row("gap", "width 64, found", || gap(&several(|_| (wide_generator(r), r.word(), r.word()))));
    let runs = several(|_| wide_run(r));
    let lines: Vec<Vec<u8>> = runs.iter().map(line_of).collect();
    out.row("read_line", "about 95 bytes", || read_line(&lines));
    out.row("write_line", "about 95 bytes", || write_line(&runs));
    for (count, name) in [(1 << 20, "2^20 numbers"), (1 << 10, "2^10 numbers")] {
        let long = |_| Run { count: count as u64, ..wide_run(r) };
        out.row("remake", name, || remake(&(0..4).map(long).collect::<Vec<_>>(), count));
    }
    lookups(out, r, (wide_run, Random::word), "bytes");
}

/// In an archive as long as may be, of runs and for a number that are made so.
fn lookups(out: &Output, r: &mut Random, (make_run, make_number): (Make<Run>, Make<u64>), bytes_of: &str) {
    let (bytes, last) = archive(r, make_run, ARCHIVE_LIMIT);
    let shown = same_method::element(last.generator, last.first).value;
    let size = bytes.len();
    let found_last = [(bytes.clone(), shown)];
    out.row("lookup", format!("{size} {bytes_of}, found in the last line"), || lookup(&found_last));
    out.row("lookup", format!("{size} {bytes_of}, none"), || lookup(&[(bytes, make_number(r))]));
}

fn peers_way(out: &Output, r: &mut Random) {
    out.heading("peers", "peer");
    let any = several(|_| (wide_generator(r), r.word()));
    let inputs = [
        ("width 64, any index", any.clone()),
        ("index near 2^64", near_2_64(r)),
        ("index near 2^64, low 20 bits at random", several(|_| (wide_generator(r), u64::MAX - r.bits(20)))),
        ("index near 2^20", near_2_20(r)),
        ("index near 2^20, low 20 bits at random", several(|_| (wide_generator(r), (1 << 20) + r.bits(20)))),
    ];
    for (input, inputs) in &inputs {
        out.row("element, advance", input, || element_and(peers::advance, inputs));
    }
    for (input, inputs) in &inputs {
        out.row("element, advance by g++", input, || element_and(peers::gpp::advance, inputs));
    }
    out.row("index, distance", "width 64, any number", || index_and(peers::distance, &any));
    out.row("index, distance by g++", "width 64, any number", || index_and(peers::gpp::distance, &any));
}

fn beside_index(out: &Output, r: &mut Random) {
    out.heading("beside index", "index");
    let inputs = several(|_| (wide_generator(r), r.word(), r.word()));
    out.row("gap, index", "width 64, any two numbers", || gap_and_index(&inputs));
}

fn growth(out: &Output, r: &mut Random) {
    out.heading("growth", "Rust");
    for bits in (8..=64).step_by(8) {
        out.row("element", format!("index of {bits} bits"), || {
            element(&several(|_| (wide_generator(r), 1 << (bits - 1) | r.bits(bits))))
        });
    }
    for width in (8..=64).step_by(8) {
        out.row("index", format!("width {width}"), || {
            index(&several(|_| (full_period_generator(r, width), r.bits(width))))
        });
    }
    for length in [1 << 10, 1 << 12, 1 << 14, ARCHIVE_LIMIT] {
        out.row("lookup", format!("up to {length} bytes, none"), || {
            let one = |_| (archive(r, wide_run, length).0, r.word());
            lookup(&(0..ARCHIVE_LIMIT / length).map(one).collect::<Vec<_>>())
        });
    }
}

/// Random numbers of their own, so that the other rows keep theirs. The runs of even multipliers start
/// behind the preperiod, where every version of the library gives the same.
fn varieties(out: &Output) {
    let r = &mut Random::new(SEED + 2);
    out.heading("variety", "Rust");
    let odd = several(|_| wide_run(r));
    out.row("variety", "width 64, odd multiplier", || variety(&odd));
    let even =
        several(|_| Run { generator: even_generator(r), first: 64 + r.bits(32), count: 1 + r.below(1000) });
    out.row("variety", "width 64, even multiplier", || variety(&even));
}

/// The rows of index_places. They have random numbers of their own, so that the other rows keep theirs.
#[cfg(feature = "index-places")]
mod places {
    use super::*;

    /// A generator, a number of places, and a number that it yields, as a whole and its lowest places.
    #[derive(Clone, Copy)]
    struct Input {
        g: Generator,
        places: u64,
        whole: u64,
        low: u64,
    }

    impl Input {
        fn new((g, whole): (Generator, u64), places: u64) -> Input {
            Input { g, places, whole, low: whole & u64::MAX >> (64 - places) }
        }
    }

    fn odd(r: &mut Random, width: u64) -> (Generator, u64) {
        (full_period_generator(r, width), r.bits(width))
    }

    /// The number is one of the elements in the preperiod.
    fn even(r: &mut Random) -> (Generator, u64) {
        let g = even_generator(r);
        (g, same_method::element(g, r.below(64)).value)
    }

    fn index_places(inputs: &[Input]) -> Timing {
        measured(
            inputs,
            |Input { g, places, low, .. }| library::index_places(g, places, low),
            |Input { g, places, low, .. }| same_method::index_places(g, places, low),
        )
    }

    /// The library's two calls; that both find the number is compared.
    fn index_places_and_index(inputs: &[Input]) -> Timing {
        measured(
            inputs,
            |Input { g, places, low, .. }| library::index_places(g, places, low).found,
            |Input { g, whole, .. }| library::index(g, whole).found,
        )
    }

    pub fn rows(out: &Output) {
        let r = &mut Random::new(SEED + 1);
        out.heading("low bits", "Rust");
        for places in [64, 32] {
            let inputs = several(|_| Input::new(odd(r, 64), places));
            out.row("index_places", format!("width 64, {places} places, found"), || index_places(&inputs));
        }
        let nowhere = several(|_| Input::new(never_at(r, 1), 64));
        out.row("index_places", "width 64, never, seen at the lowest place", || index_places(&nowhere));
        for places in [64, 32] {
            let inputs = several(|_| Input::new(even(r), places));
            out.row("index_places", format!("width 64, {places} places, even multiplier"), || {
                index_places(&inputs)
            });
        }

        out.heading("low bits beside index", "index");
        for width in [8, 16, 32, 64] {
            for places in [width, width / 2] {
                let inputs = several(|_| Input::new(odd(r, width), places));
                out.row("index_places, index", format!("width {width}, {places} places"), || {
                    index_places_and_index(&inputs)
                });
            }
        }
        for places in [64, 32] {
            let inputs = several(|_| Input::new(even(r), places));
            out.row("index_places, index", format!("width 64, {places} places, even multiplier"), || {
                index_places_and_index(&inputs)
            });
        }
    }
}

/// The rows of width 0. They have random numbers of their own as well.
#[cfg(feature = "prime-modulus")]
mod prime_modulus {
    use super::*;
    use noonpasture_differential::prime::{self, PERIOD};

    fn a_number(r: &mut Random) -> u64 {
        1 + r.below(PERIOD)
    }

    fn a_generator(r: &mut Random) -> Generator {
        prime::generator(a_number(r))
    }

    fn a_run(r: &mut Random) -> Run {
        Run { generator: a_generator(r), first: r.word() / 2, count: 1 + r.below(1000) }
    }

    fn predecessor(inputs: &[(Generator, u64)]) -> Timing {
        measured(inputs, |(g, y)| library::predecessor(g, y), |(g, y)| same_method::predecessor(g, y))
    }

    fn orbit(inputs: &[Generator]) -> Timing {
        measured(inputs, library::orbit, same_method::orbit)
    }

    pub fn rows(out: &Output) {
        let r = &mut Random::new(SEED + 3);
        out.heading("width 0", "Rust");
        let any_index = several(|_| (a_generator(r), r.word()));
        out.row("element", "width 0, any index", || element(&any_index));
        let numbers = several(|_| (a_generator(r), a_number(r)));
        out.row("index", "width 0, found", || index(&numbers));
        out.row("predecessor", "width 0", || predecessor(&numbers));
        out.row("orbit", "width 0", || orbit(&several(|_| a_generator(r))));
        lookups(out, r, (a_run, a_number), "bytes of width 0");
    }
}

/// The rows of the check: few lines, archives of growing length, a lookup in short lines, and archives all of whose
/// lines are in one slot of the chains. No archive has equal lines, so that a library before version 0.11.0, which
/// takes them, gives the same. They have random numbers of their own as well.
fn checks(out: &Output) {
    let r = &mut Random::new(SEED + 5);
    out.heading("check", "Rust");
    let two_lines = [b"4,5,3,1,0,16\n10,371,995,73,100,8\n".to_vec()];
    out.row("check", "2 lines, 33 bytes", || check(ROUNDS, &two_lines));
    for (make_run, bytes_of) in [(short_run as Make<Run>, 17), (wide_run, 95)] {
        for parts in [8, 4, 2, 1] {
            let one = |_| archive(r, make_run, ARCHIVE_LIMIT / parts).0;
            let archives: Vec<Vec<u8>> = (0..parts).map(one).collect();
            let input = format!("up to {} bytes in lines of about {bytes_of}", ARCHIVE_LIMIT / parts);
            out.row("check", input, || check(ROUNDS, &archives));
        }
    }
    // A number too wide for these lines takes no search: nowhere does the check weigh more in a lookup.
    let short_lines = archive(r, short_run, ARCHIVE_LIMIT).0;
    let input = format!("{} bytes in lines of about 17, none", short_lines.len());
    out.row("lookup", input, || lookup(&[(short_lines, 16)]));
    let long = Run::from([64, u64::MAX, u64::MAX, u64::MAX, 1_000_000_000_000_000_000, 1_000_000]);
    let long_lines = fitting(runs_in_one_slot(long, same_method::slots_for(ARCHIVE_LIMIT)), ARCHIVE_LIMIT);
    for lines in [full_slot(), long_lines] {
        let input = format!("{} lines of {} bytes, all in one slot", lines.len(), lines[0].len());
        out.row("check", input, || check(FEW_ROUNDS, &[lines.concat()]));
    }
}

/// The rows of the summary. They have random numbers of their own as well.
#[cfg(feature = "summary")]
mod summaries {
    use super::*;

    fn summary(archive: &[u8]) -> Timing {
        measured(&[archive], library::summary, same_method::summary)
    }

    pub fn rows(out: &Output) {
        let r = &mut Random::new(SEED + 4);
        out.heading("summary", "Rust");
        for (make_run, bytes_of) in [(short_run as Make<Run>, 17), (wide_run, 95)] {
            let (bytes, _) = archive(r, make_run, ARCHIVE_LIMIT);
            let input = format!("{} bytes in lines of about {bytes_of}", bytes.len());
            out.row("summary", input, || summary(&bytes));
        }
    }
}

/// The rows of the player. They have random numbers of their own as well.
#[cfg(feature = "player")]
mod player {
    use super::*;
    use noonpasture_differential::prime;

    /// Few enough to stay in the cache nearest to the processor.
    const RECORDS: usize = 100;
    const HALF: u64 = 1 << 63;

    type Call = fn(&mut Player) -> u64;

    /// The refusal and where the call leads. The position is put back behind the call, and not just before it, where
    /// the call would wait for that number.
    fn in_place(player: &mut Player, position: u64, call: Call) -> (u64, u64) {
        let refusal = call(player);
        (refusal, std::mem::replace(&mut player.position, position))
    }

    /// Which record, and where it stands.
    fn places(players: &[Player]) -> Vec<(usize, u64)> {
        players.iter().map(|player| player.position).enumerate().collect()
    }

    /// Each side has records of its own, which have to be equal at last.
    fn altered(players: &[Player], library: Call, other: Call) -> Timing {
        let (mut ours, mut theirs) = (players.to_vec(), players.to_vec());
        let timing = measured(
            &places(players),
            |(at, position)| in_place(&mut ours[at], position, library),
            |(at, position)| in_place(&mut theirs[at], position, other),
        );
        assert!(ours == theirs, "the two sides leave different records");
        timing
    }

    /// Two calls of the library; that both are accepted is compared.
    fn long_and_short(players: &[Player], long: Call, short: Call) -> Timing {
        let (mut ours, mut theirs) = (players.to_vec(), players.to_vec());
        measured(
            &places(players),
            |(at, position)| in_place(&mut ours[at], position, long).0,
            |(at, position)| in_place(&mut theirs[at], position, short).0,
        )
    }

    fn open(runs: &[Run]) -> Timing {
        let (mut ours, mut theirs) = (Player::default(), Player::default());
        let timing = measured(
            runs,
            |run| (library::player_open(&mut ours, run), ours.run.first),
            |run| (same_method::player_open(&mut theirs, run), theirs.run.first),
        );
        assert!(ours == theirs, "the two sides leave different records");
        timing
    }

    fn show(players: &[Player]) -> Timing {
        let players: Vec<&Player> = players.iter().collect();
        measured(&players, library::player_show, same_method::player_show)
    }

    /// The library's two calls.
    fn show_and_element(players: &[Player]) -> Timing {
        let players: Vec<&Player> = players.iter().collect();
        measured(&players, library::player_show, |player| {
            library::element(player.run.generator, player.run.first + player.position)
        })
    }

    /// On the longest run of all, in its first half, with marks anywhere on it.
    fn early_record(r: &mut Random) -> Player {
        let run = Run { generator: wide_generator(r), first: 0, count: u64::MAX };
        let marks = std::array::from_fn(|_| Mark { set: 1, position: r.below(u64::MAX) });
        Player { run, position: r.below(HALF - 1), marks }
    }

    /// At any position of a run where that shows an index of so many bits.
    fn at_index(r: &mut Random, generator: Generator, bits: u64) -> Player {
        let index = (1 << (bits - 1) | r.bits(bits)).min(u64::MAX - 1);
        let first = r.below(index + 1);
        let run = Run { generator, first, count: u64::MAX - first };
        Player { run, position: index - first, ..Player::default() }
    }

    fn moves(out: &Output, early: &[Player], late: &[Player]) {
        out.row("player_forward", "1 step", || {
            altered(early, |p| library::player_forward(p, 1), |p| same_method::player_forward(p, 1))
        });
        out.row("player_forward", "2^63 steps", || {
            altered(early, |p| library::player_forward(p, HALF), |p| same_method::player_forward(p, HALF))
        });
        out.row("player_back", "1 step", || {
            altered(late, |p| library::player_back(p, 1), |p| same_method::player_back(p, 1))
        });
        out.row("player_back", "2^63 steps", || {
            altered(late, |p| library::player_back(p, HALF), |p| same_method::player_back(p, HALF))
        });
        out.row("player_mark", "mark 2", || {
            altered(early, |p| library::player_mark(p, 2), |p| same_method::player_mark(p, 2))
        });
        out.row("player_return", "mark 2", || {
            altered(early, |p| library::player_return(p, 2), |p| same_method::player_return(p, 2))
        });
    }

    fn long_moves(out: &Output, early: &[Player], late: &[Player]) {
        out.heading("long moves beside short ones", "1 step");
        out.row("player_forward, player_forward", "2^63 steps, 1 step", || {
            long_and_short(early, |p| library::player_forward(p, HALF), |p| library::player_forward(p, 1))
        });
        out.row("player_back, player_back", "2^63 steps, 1 step", || {
            long_and_short(late, |p| library::player_back(p, HALF), |p| library::player_back(p, 1))
        });
    }

    /// Records that show indices of so many bits at this width, and what they are called.
    fn shown(r: &mut Random, width: u64, bits: u64) -> (String, Vec<Player>) {
        let one = |_| {
            let generator = match width {
                0 => prime::generator(1 + r.below(prime::PERIOD)),
                _ => full_period_generator(r, width),
            };
            at_index(r, generator, bits)
        };
        (format!("width {width}, index of {bits} bits"), several(one))
    }

    fn shows(out: &Output, r: &mut Random) {
        let sizes = [(64, 8), (64, 16), (64, 32), (64, 64), (8, 64), (16, 64), (32, 64), (0, 64)];
        let inputs = sizes.map(|(width, bits)| shown(r, width, bits));
        out.heading("show", "Rust");
        inputs.iter().for_each(|(input, players)| out.row("player_show", input, || show(players)));
        out.heading("show beside element", "element");
        for (input, players) in &inputs {
            out.row("player_show, element", input, || show_and_element(players));
        }
    }

    pub fn rows(out: &Output) {
        let r = &mut Random::new(SEED + 6);
        out.heading("player", "Rust");
        let runs = several(|_| wide_run(r));
        out.row("player_open", "width 64", || open(&runs));
        let early: Vec<Player> = (0..RECORDS).map(|_| early_record(r)).collect();
        let further = |player: &Player| Player { position: player.position + HALF, ..*player };
        let late: Vec<Player> = early.iter().map(further).collect();
        moves(out, &early, &late);
        long_moves(out, &early, &late);
        shows(out, r);
    }
}

/// The rows of the fixes. They have random numbers of their own as well.
#[cfg(feature = "fix")]
mod fixes {
    use super::*;

    /// A reply's fields, each read by itself, as a caller reads them. Handed on whole, the library's reply would be
    /// copied here, and the copy timed with it.
    fn read(FixReply { refusal, fix: Fix { east, north } }: FixReply) -> (u64, f64, f64) {
        (black_box(refusal), black_box(east), black_box(north))
    }

    fn fix_at(inputs: &[(Run, u64)]) -> Timing {
        measured(
            inputs,
            |(run, fix)| read(library::fix_at(run, fix)),
            |(run, fix)| read(same_method::fix_at(run, fix)),
        )
    }

    /// The library's two calls, the element being that of east; that both are accepted is compared.
    fn fix_and_element(inputs: &[(Run, u64)]) -> Timing {
        measured(
            inputs,
            |(run, fix)| read(library::fix_at(run, fix)).0,
            |(run, fix)| {
                let Value { refusal, value } = library::element(run.generator, run.first + 2 * fix);
                black_box(value);
                black_box(refusal)
            },
        )
    }

    /// Any fix of a run whose east is at an index of so many bits.
    fn at_index(r: &mut Random, width: u64, bits: u64) -> (Run, u64) {
        let index = (1 << (bits - 1) | r.bits(bits)).min(u64::MAX - 2);
        let fix = r.below(index / 2 + 1);
        let first = index - 2 * fix;
        (Run { generator: full_period_generator(r, width), first, count: u64::MAX - first }, fix)
    }

    pub fn rows(out: &Output) {
        let r = &mut Random::new(SEED + 7);
        let sizes = [(64, 8), (64, 16), (64, 32), (64, 64), (32, 8), (32, 16), (32, 32), (32, 64)];
        let inputs = sizes.map(|(width, bits)| {
            (format!("width {width}, index of {bits} bits"), several(|_| at_index(r, width, bits)))
        });
        out.heading("fix", "Rust");
        inputs.iter().for_each(|(input, calls)| out.row("fix_at", input, || fix_at(calls)));
        out.heading("fix beside element", "element");
        inputs.iter().for_each(|(input, calls)| out.row("fix_at, element", input, || fix_and_element(calls)));
    }
}

/// The rows of the lanes. They have random numbers of their own as well.
#[cfg(feature = "lane")]
mod lanes {
    use super::*;
    use noonpasture_differential::lanes::Call;

    /// A reply's fields, each read by itself, as those of a fix.
    fn read(RunReply { refusal, run: Run { generator, first, count } }: RunReply) -> RunReply {
        let generator = Generator {
            width: black_box(generator.width),
            multiplier: black_box(generator.multiplier),
            increment: black_box(generator.increment),
            seed: black_box(generator.seed),
        };
        let run = Run { generator, first: black_box(first), count: black_box(count) };
        RunReply { refusal: black_box(refusal), run }
    }

    fn lane(inputs: &[Call]) -> Timing {
        measured(
            inputs,
            |Call { run, lanes, lane }| read(library::lane(run, lanes, lane)),
            |Call { run, lanes, lane }| read(same_method::lane(run, lanes, lane)),
        )
    }

    /// The library's two calls, the element being the seed; that both are accepted is compared.
    fn lane_and_element(inputs: &[Call]) -> Timing {
        measured(
            inputs,
            |Call { run, lanes, lane }| read(library::lane(run, lanes, lane)).refusal,
            |Call { run, lane, .. }| {
                let Value { refusal, value } = library::element(run.generator, run.first + lane);
                black_box(value);
                black_box(refusal)
            },
        )
    }

    fn write_lane(inputs: &[Call]) -> Timing {
        let (mut ours, mut theirs) = ([0; 128], [0; 128]);
        measured(
            inputs,
            |Call { run, lanes, lane }| library::write_lane(run, lanes, lane, &mut ours),
            |Call { run, lanes, lane }| same_method::write_lane(run, lanes, lane, &mut theirs),
        )
    }

    /// The library's calls: the times of giving the lane and of writing its line, each by itself, are added. That as
    /// many bytes are written is compared.
    fn write_lane_and_both(inputs: &[Call]) -> Timing {
        let given = |call: &Call| library::lane(call.run, call.lanes, call.lane).run;
        let lines: Vec<Run> = inputs.iter().map(given).collect();
        let (mut ours, mut theirs) = ([0; 128], [0; 128]);
        let mut write_lane = |Call { run, lanes, lane }| library::write_lane(run, lanes, lane, &mut ours);
        let mut lane = |Call { run, lanes, lane }| read(library::lane(run, lanes, lane)).refusal;
        let mut write_line = |line| library::write_line(line, &mut theirs);
        let mut same = inputs.iter().zip(&lines).map(|(&call, &line)| write_lane(call) == write_line(line));
        assert!(same.all(|same| same), "the two sides differ");
        timing(ROUNDS, inputs.len(), |repeats| {
            let one = timed(inputs, repeats, &mut write_lane);
            (one, timed(inputs, repeats, &mut lane) + timed(&lines, repeats, &mut write_line))
        })
    }

    /// Any lane of a run whose seed is at an index of so many bits.
    fn at_index(r: &mut Random, width: u64, bits: u64) -> Call {
        let index = (1 << (bits - 1) | r.bits(bits)).min(u64::MAX - 16);
        let lanes = 1 + r.below(16);
        let lane = r.below(lanes);
        let first = index - lane;
        let run = Run { generator: full_period_generator(r, width), first, count: u64::MAX - first };
        Call { run, lanes, lane }
    }

    pub fn rows(out: &Output) {
        let r = &mut Random::new(SEED + 8);
        let sizes = [(64, 8), (64, 16), (64, 32), (64, 64), (32, 8), (32, 16), (32, 32), (32, 64)];
        let inputs = sizes.map(|(width, bits)| {
            (format!("width {width}, index of {bits} bits"), several(|_| at_index(r, width, bits)))
        });
        out.heading("lane", "Rust");
        inputs.iter().for_each(|(input, calls)| out.row("lane", input, || lane(calls)));
        out.heading("lane beside element", "element");
        inputs.iter().for_each(|(input, calls)| out.row("lane, element", input, || lane_and_element(calls)));
        out.heading("line of a lane", "Rust");
        inputs.iter().for_each(|(input, calls)| out.row("write_lane", input, || write_lane(calls)));
        out.heading("line of a lane beside lane and line", "both");
        for (input, calls) in &inputs {
            out.row("write_lane, lane and write_line", input, || write_lane_and_both(calls));
        }
    }
}

/// The rows of what two runs share. They have random numbers of their own as well.
#[cfg(feature = "shared")]
mod pairs {
    use super::*;
    use noonpasture_differential::pairs::Pair;
    use noonpasture_differential::prime;

    fn shared(pairs: &[Pair]) -> Timing {
        measured(
            pairs,
            |Pair { first, second }| library::shared(first, second),
            |Pair { first, second }| same_method::shared(first, second),
        )
    }

    /// The library's calls: the times of giving the first number of either run and of finding the second's among the
    /// first's elements, each by itself, are added. That all are accepted is compared.
    fn shared_and_three(pairs: &[Pair]) -> Timing {
        let of_run = |run: Run| (run.generator, run.first);
        let firsts: Vec<(Generator, u64)> = pairs.iter().map(|pair| of_run(pair.first)).collect();
        let seconds: Vec<(Generator, u64)> = pairs.iter().map(|pair| of_run(pair.second)).collect();
        let mut shared = |Pair { first, second }| library::shared(first, second);
        let mut element = |(g, i)| library::element(g, i);
        let mut index = |(g, y)| library::index(g, y);
        let sought: Vec<(Generator, u64)> =
            firsts.iter().zip(&seconds).map(|(&(g, _), &second)| (g, element(second).value)).collect();
        let refusals = pairs.iter().map(|&pair| shared(pair).refusal);
        let others = firsts.iter().chain(&seconds).map(|&input| element(input).refusal);
        let found = sought.iter().map(|&input| index(input).refusal);
        assert!(refusals.chain(others).chain(found).all(|refusal| refusal == 0), "a call is refused");
        timing(ROUNDS, pairs.len(), |repeats| {
            let one = timed(pairs, repeats, &mut shared);
            let elements = timed(&firsts, repeats, &mut element) + timed(&seconds, repeats, &mut element);
            (one, elements + timed(&sought, repeats, &mut index))
        })
    }

    /// As long as may be or shorter, from an index of so many bits on.
    fn from_index(r: &mut Random, generator: Generator, bits: u64) -> Run {
        let first = (1 << (bits - 1) | r.bits(bits)).min(u64::MAX - 1);
        Run { generator, first, count: 1 + r.below(u64::MAX - first) }
    }

    /// Any two seeds, which a full period has both.
    fn on_one_circle(r: &mut Random, width: u64, bits: u64) -> Pair {
        let (generator, seed) = match width {
            0 => (prime::generator(1 + r.below(prime::PERIOD)), 1 + r.below(prime::PERIOD)),
            _ => (full_period_generator(r, width), r.bits(width)),
        };
        let first = from_index(r, generator, bits);
        Pair { first, second: from_index(r, Generator { seed, ..generator }, bits) }
    }

    /// The second's seed is never an element of the first, which the search sees at the place below this one.
    fn on_two_circles(r: &mut Random, place: u64) -> Pair {
        let (generator, seed) = never_at(r, place);
        let first = from_index(r, generator, 64);
        Pair { first, second: from_index(r, Generator { seed, ..generator }, 64) }
    }

    pub fn rows(out: &Output) {
        let r = &mut Random::new(SEED + 9);
        let mut inputs = Vec::new();
        for width in [64, 32, 0] {
            for bits in [8, 16, 32, 64] {
                let pairs = several(|_| on_one_circle(r, width, bits));
                inputs.push((format!("width {width}, indices of {bits} bits"), pairs));
            }
        }
        for (place, name) in [(1, "the lowest place"), (63, "place 62")] {
            let pairs = several(|_| on_two_circles(r, place));
            inputs.push((format!("width 64, two cycles, seen at {name}"), pairs));
        }
        out.heading("shared", "Rust");
        inputs.iter().for_each(|(input, pairs)| out.row("shared", input, || shared(pairs)));
        out.heading("shared beside two elements and index", "three");
        for (input, pairs) in &inputs {
            out.row("shared, two elements and index", input, || shared_and_three(pairs));
        }
    }
}

fn main() {
    let (flags, words): (Vec<_>, Vec<_>) = env::args().skip(1).partition(|word| word == "--plain");
    let out = Output { plain: !flags.is_empty(), rows: words.join(" ") };
    let mut r = Random::new(SEED);
    calls(&out, &mut r);
    peers_way(&out, &mut r);
    beside_index(&out, &mut r);
    growth(&out, &mut r);
    varieties(&out);
    checks(&out);
    #[cfg(feature = "index-places")]
    places::rows(&out);
    #[cfg(feature = "prime-modulus")]
    prime_modulus::rows(&out);
    #[cfg(feature = "summary")]
    summaries::rows(&out);
    #[cfg(feature = "player")]
    player::rows(&out);
    #[cfg(feature = "fix")]
    fixes::rows(&out);
    #[cfg(feature = "lane")]
    lanes::rows(&out);
    #[cfg(feature = "shared")]
    pairs::rows(&out);
}
