//! How long a digest's questions take, both walks a glyph, the three matchers a
//! match and a run, the original's and ours, in one program; then the tape, of
//! which each side is a process.
//!
//! A round lets one side do it some times and then the other, and the rounds
//! change which is first; the best and the median of the rounds are printed. The
//! same rows are used over and over, so they are warm: in a cache, every branch
//! seen before. Where it is said, rows are cold.
mod runs;
mod walks;

use crate::matches::Case;
use crate::ours::{self, CMatched};
use crate::random::Random;
use crate::tape::{lines, program};
use original::digests::{masks, SetDigest};
use original::glyphs::Glyph;
use original::matches::{with_text, Held};
use original::terms::{Call, Setup};
use std::fs::File;
use std::hint::black_box;
use std::process::{Command, Stdio};
use std::time::{Duration, Instant};

const GLYPHS: usize = 1024;
/// How long one side walks in a round.
const ROUND: Duration = Duration::from_micros(200);
const SOUGHT: u32 = 7;
/// What is drawn for timing is always the same.
const SEED: u64 = 1;
const FRAMES: u64 = 200_000;
/// A turn of the tape takes a part of a second.
const TAPE_TURNS: u32 = 21;

const MARK: Glyph = [9, 1, 0x0000_0108, 0x0101];
const PLAIN: Glyph = [9, 1, 0, 0x0101];

/// Nanoseconds a glyph, a walk, a match or what else is timed, of each round.
struct Times(Vec<f64>);

impl Times {
    fn take(&mut self, walks: u32, glyphs: usize, walk: &mut impl FnMut()) {
        self.push(walks, glyphs, time(walks, walk));
    }
    fn push(&mut self, walks: u32, glyphs: usize, took: Duration) {
        self.0.push(took.as_nanos() as f64 / (f64::from(walks) * glyphs as f64));
    }
    fn best_and_median(mut self) -> [f64; 2] {
        self.0.sort_by(f64::total_cmp);
        [self.0[0], self.0[self.0.len() / 2]]
    }
}

/// Not built into its callers: each side has one loop, at one place, whichever
/// is first in a round.
#[inline(never)]
fn time(walks: u32, walk: &mut impl FnMut()) -> Duration {
    let began = Instant::now();
    (0..walks).for_each(|_| walk());
    began.elapsed()
}

/// Times two ways of doing the same, and prints a line.
fn line(
    name: &str,
    rounds: u32,
    glyphs: usize,
    mut original: impl FnMut(),
    mut ours: impl FnMut(),
) {
    line_by(name, rounds, glyphs, |n| time(n, &mut original), |n| time(n, &mut ours));
}

/// The same, where each side says how long so many times took it.
fn line_by(
    name: &str,
    rounds: u32,
    glyphs: usize,
    mut original: impl FnMut(u32) -> Duration,
    mut ours: impl FnMut(u32) -> Duration,
) {
    let slower = original(10).max(ours(10)) / 10;
    let walks = (ROUND.as_nanos() / slower.as_nanos().max(1)).max(1) as u32;
    let (mut theirs, mut our) = (Times(vec![]), Times(vec![]));
    for round in 0..rounds {
        if round % 2 == 0 {
            theirs.push(walks, glyphs, original(walks));
            our.push(walks, glyphs, ours(walks));
        } else {
            our.push(walks, glyphs, ours(walks));
            theirs.push(walks, glyphs, original(walks));
        }
    }
    print_line(name, theirs, our);
}

fn print_line(name: &str, theirs: Times, our: Times) {
    let [best, median] = theirs.best_and_median();
    let [our_best, our_median] = our.best_and_median();
    let ratios = [our_best / best, our_median / median];
    print!("  {name:<50} {best:>8.2} {median:>8.2}  {our_best:>8.2} {our_median:>8.2}");
    println!("  {:>6.2} {:>6.2}", ratios[0], ratios[1]);
}

fn print_head(place: &str) {
    println!("timing: {place}");
    println!("the two sides by turns, inputs drawn from seed {SEED};");
    println!("the ratio is ours to the original's, below 1 where ours is faster");
    println!("  {:50} {:^17}  {:^17}  {:^13}", "", "original", "ours", "ratio");
    let two = |width: usize| format!("{:>width$} {:>width$}", "best", "median");
    println!("  {:50} {}  {}  {}", "", two(8), two(8), two(6));
}

/// The tape alone.
pub fn run_tape(place: &str) -> i32 {
    print_head(place);
    tape();
    0
}

/// `place` says what the program runs on.
pub fn run(rounds: u32, place: &str) -> i32 {
    print_head(place);
    println!("{rounds} rounds");
    println!("nanoseconds a question to a digest, of {GLYPHS} by turns");
    for glyphs in [8, 200] {
        digests(rounds, glyphs);
    }
    walks::run(rounds);
    println!("nanoseconds a match, rows warm");
    for between in [0, 1, 4] {
        matches(rounds, between);
    }
    runs::run(rounds);
    tape();
    0
}

/// Both questions to digests of so many glyphs: of few an eighth of the
/// masks' bits are set, of many nearly all. The original's `may_have` is timed as the
/// compiler builds it into the loop, and once more behind a call, as ours is.
fn digests(rounds: u32, glyphs: u64) {
    let random = &mut Random::new(SEED);
    let mut drawn = |count: u64| {
        let mut digest = SetDigest::new();
        (0..count).for_each(|_| digest.add(random.below(65_536) as u32));
        let ours = ours::Digest(masks(&digest));
        (digest, ours)
    };
    let (digest, our) = drawn(glyphs);
    let (others, our_others): (Vec<SetDigest>, Vec<ours::Digest>) =
        (0..GLYPHS).map(|_| drawn(3)).unzip();
    let asked: Vec<u32> = (0..GLYPHS).map(|_| random.below(65_536) as u32).collect();
    let have = |&g: &u32| black_box(&digest).may_have(g);
    let called_have = |&g: &u32| called_may_have(black_box(&digest), g);
    let our_have = |&g: &u32| black_box(&our).may_have(g);
    let name = format!("may_have, {glyphs} glyphs added");
    questions(&name, rounds, (&asked, have), (&asked, our_have));
    let name = format!("{name}, called");
    questions(&name, rounds, (&asked, called_have), (&asked, our_have));
    let meets = |other: &SetDigest| black_box(&digest).may_intersect(other);
    let our_meets = |other: &ours::Digest| black_box(&our).may_intersect(&other.0);
    let name = format!("may_intersect, 3 with {glyphs} added");
    questions(&name, rounds, (&others, meets), (&our_others, our_meets));
}

/// The original's question behind a call, which is where ours is asked.
#[inline(never)]
fn called_may_have(digest: &SetDigest, g: u32) -> bool {
    digest.may_have(g)
}

/// Times one question to both sides, each of all that it is asked about.
fn questions<T, U>(
    name: &str,
    rounds: u32,
    (theirs, is_yes): (&[T], impl Fn(&T) -> bool),
    (ours, our_is_yes): (&[U], impl Fn(&U) -> bool),
) {
    let yes = count(theirs, &is_yes);
    assert_eq!(yes, count(ours, &our_is_yes), "both say the same");
    line(
        &format!("{name}, {yes} times yes"),
        rounds,
        theirs.len(),
        || {
            black_box(count(theirs, &is_yes));
        },
        || {
            black_box(count(ours, &our_is_yes));
        },
    );
}

fn count<T>(of: &[T], is_yes: impl Fn(&T) -> bool) -> usize {
    of.iter().filter(|&one| is_yes(one)).count()
}

/// Our program and the original behind the same tape, each a process, read the
/// same file and write to nowhere.
fn tape() {
    let folder = std::env::var("COMPARE_FOLDER");
    let (Ok(folder), Some(mut original)) = (folder, program::original()) else {
        println!("the tape: not timed, since compare/run didn't say how it is started");
        return;
    };
    let file = format!("{folder}/mixed.txt");
    std::fs::write(&file, lines::mixed(FRAMES, SEED)).expect("the frames are written");
    let (mut theirs, mut our) = (Times(vec![]), Times(vec![]));
    for turn in 0..TAPE_TURNS {
        if turn % 2 == 0 {
            theirs.0.push(process(&mut original, &file));
            our.0.push(process(&mut program::tape(), &file));
        } else {
            our.0.push(process(&mut program::tape(), &file));
            theirs.0.push(process(&mut original, &file));
        }
    }
    println!("milliseconds of the processor for {FRAMES} mixed frames, a process from start to end; {TAPE_TURNS} turns");
    print_line("tape", theirs, our);
}

/// Milliseconds of the processor, which other work on the machine doesn't change
/// as much as the time on a clock.
fn process(command: &mut Command, file: &str) -> f64 {
    let frames = File::open(file).expect("the frames are there");
    let before = spent_by_processes();
    let status = command.stdin(frames).stdout(Stdio::null()).status();
    assert!(status.expect("it is started").success(), "it ends well");
    spent_by_processes() - before
}

/// What all processes that were started and have ended took, in milliseconds.
fn spent_by_processes() -> f64 {
    extern "C" {
        fn getrusage(who: i32, usage: *mut [i64; 18]) -> i32;
    }
    const CHILDREN: i32 = -1;
    let mut usage = [0; 18];
    unsafe { getrusage(CHILDREN, &mut usage) };
    let [user, user_micros, system, system_micros, ..] = usage;
    (user + system) as f64 * 1e3 + (user_micros + system_micros) as f64 / 1e3
}

/// The three matchers over a text in which `between` marks are passed over
/// before each glyph that is sought; the lookup's flag is 8.
fn matches(rounds: u32, between: usize) {
    let one = [vec![MARK; between], vec![[SOUGHT, 1, 0, 0x0101]]].concat();
    let row: Vec<Glyph> = (0..64).flat_map(|_| one.iter().copied()).collect();
    let coming = [&[[SOUGHT, 1, 0, 0x0101]][..], &row].concat();
    let setup = Setup { mask: 1, props: 8, ..Setup::default() };
    let case = Case::new(setup, row, coming, 0);
    with_text(case.text(), |held| {
        for (call, n) in
            [(Call::Input, 1), (Call::Input, 63), (Call::Lookahead(1), 8), (Call::Backtrack, 8)]
        {
            one_matcher(rounds, between, held, &case, call, &vec![SOUGHT; n]);
        }
    });
}

fn one_matcher(
    rounds: u32,
    between: usize,
    held: &mut Held,
    case: &Case,
    call: Call,
    values: &[u32],
) {
    let n = values.len();
    let text = case.lent();
    let mut answer = CMatched::bare(0, 0);
    let mut ours = || match call {
        Call::Input => {
            ours::match_input(black_box(&text), 0, black_box(values), &mut answer);
            (black_box(&answer).number, answer.end)
        }
        Call::Lookahead(start) => {
            let placed = ours::match_lookahead(black_box(&text), start, 0, black_box(values));
            (placed.number, placed.place)
        }
        Call::Backtrack => {
            let placed = ours::match_backtrack(black_box(&text), 0, black_box(values));
            (placed.number, placed.place)
        }
    };
    let mut original = || match call {
        Call::Input => {
            let (matched, end, total) = black_box(held.bare_input(black_box(values)));
            black_box(total);
            (matched == Some(true), end)
        }
        Call::Lookahead(start) => black_box(held.bare_lookahead(start, black_box(values))),
        Call::Backtrack => black_box(held.bare_backtrack(black_box(values))),
    };
    let (matched, place) = original();
    assert_eq!((matched, (0, place)), (true, ours()), "both match all {n} values");
    let name = match call {
        Call::Input => "input",
        Call::Lookahead(_) => "lookahead",
        Call::Backtrack => "backtrack",
    };
    let s = if n == 1 { "" } else { "s" };
    let marks = match between {
        0 => "no marks".to_string(),
        1 => "a mark before each".to_string(),
        _ => format!("{between} marks before each"),
    };
    line(
        &format!("{name}, {n} value{s}, {marks}"),
        rounds,
        1,
        || {
            original();
        },
        || {
            black_box(ours());
        },
    );
}
