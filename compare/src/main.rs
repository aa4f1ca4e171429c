//! Runs the original and the proved library on the same inputs and compares
//! every answer. `compare/run` builds and starts it; README.md says how.

// Rust's own start-up has SIGPIPE ignored; C's leaves it as our tape program is
// to find it.
#![no_main]

mod allowances;
// bindings/rust/src/c.rs, to which compare/run makes a link
mod c;
mod differences;
mod digests;
mod draw;
mod kinds;
mod matches;
mod ours;
mod paper;
mod progress;
mod random;
mod runs;
mod store;
mod summary;
mod tape;
mod timing;
mod trials;
mod walks;

use kinds::{Kind, Length, KINDS};
use std::process::exit;
use std::time::{Duration, Instant};

const USAGE: &str = "\
compare/run [KIND ...] [--steps N] [--seed S] [--minutes M]
                                    compare; without a kind all: digests, allowances, walks, matches, runs, tape, tape-abuse
                                    --minutes: in rounds of N steps until M minutes are over, each with a seed one higher
compare/run trials [--steps N] [--seed S]
                                    wrong answers in place of ours, each of which must be noticed
compare/run timing [--rounds N]     how long both sides take: digests, walks, matches, runs, the tape
compare/run tape-timing             the tape alone
compare/run store KIND FILE         write a stored list of the original's answers: small, walks, matches, runs;
                                    tape: frames
compare/run tape-original < FRAMES  the original's answers to a tape
compare/run differences             the headings of the expected differences";

const STEPS: u64 = 1_000_000;
const STEPS_OF_A_ROUND: u64 = 100_000;
const STEPS_OF_A_TRIAL: u64 = 20_000;
const SEED: u64 = 1;
const ROUNDS: u64 = 301;

#[no_mangle]
extern "C" fn main() -> i32 {
    let words: Vec<String> = std::env::args().skip(1).collect();
    let words: Vec<&str> = words.iter().map(String::as_str).collect();
    match words[..] {
        ["store", kind, path] => store::write(kind, path).unwrap_or_else(|| usage()),
        ["differences"] => differences::print(),
        ["timing", ref rest @ ..] => {
            let rounds = Options::of(rest, &["--rounds"]).rounds.unwrap_or(ROUNDS);
            timing::run(rounds as u32, &place())
        }
        ["trials", ref rest @ ..] => {
            let Options { steps, seed, .. } = Options::of(rest, &["--steps", "--seed"]);
            trials::run(steps.unwrap_or(STEPS_OF_A_TRIAL), seed.unwrap_or(SEED))
        }
        ["tape-timing"] => timing::run_tape(&place()),
        ["tape-original"] => tape::original(),
        _ => compare(&words),
    }
}

/// The words of a command.
#[derive(Default)]
struct Options {
    steps: Option<u64>,
    seed: Option<u64>,
    minutes: Option<u64>,
    rounds: Option<u64>,
    kinds: Vec<&'static Kind>,
}

impl Options {
    /// `named` are those that the command knows.
    fn of(words: &[&str], named: &[&str]) -> Self {
        let mut options = Self::default();
        let mut words = words.iter();
        while let Some(&word) = words.next() {
            if !named.contains(&word) {
                usage();
            }
            let place = match word {
                "--steps" => &mut options.steps,
                "--seed" => &mut options.seed,
                "--minutes" => &mut options.minutes,
                "--rounds" => &mut options.rounds,
                _ => {
                    options.kinds.extend(KINDS.iter().find(|kind| kind.name == word));
                    continue;
                }
            };
            *place = Some(number(words.next()));
        }
        options
    }
}

fn compare(words: &[&str]) -> i32 {
    let mut named = vec!["--steps", "--seed", "--minutes"];
    named.extend(KINDS.iter().map(|kind| kind.name));
    let mut options = Options::of(words, &named);
    if options.kinds.is_empty() {
        options.kinds.extend(&KINDS);
    }
    let minutes = options.minutes.map(|minutes| Duration::from_secs(60 * minutes));
    let usual = if minutes.is_some() { STEPS_OF_A_ROUND } else { STEPS };
    let length = Length {
        steps: options.steps.unwrap_or(usual),
        seed: options.seed.unwrap_or(SEED),
        until: minutes.map(|minutes| Instant::now() + minutes),
    };
    kinds::compare(&options.kinds, &length)
}

/// What this runs on, which `compare/run` knows.
fn place() -> String {
    std::env::var("COMPARE_ON").unwrap_or_else(|_| "on a processor that isn't known".to_string())
}

fn number(word: Option<&&str>) -> u64 {
    word.and_then(|word| word.parse().ok()).unwrap_or_else(|| usage())
}

fn usage() -> ! {
    eprintln!("{USAGE}");
    exit(2)
}
