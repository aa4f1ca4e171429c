//! The kinds of comparison, and running them: once, or in rounds until a time
//! is over.
use crate::progress::{self, grouped};
use crate::summary::Summary;
use crate::{allowances, differences, digests, matches, runs, tape, walks};
use std::time::{Duration, Instant};

pub trait Comparison {
    /// Every small input, for which no seed is needed.
    fn exhaust(&mut self);
    /// About so many random inputs.
    fn draw(&mut self, steps: u64, seed: u64);
    fn finish(self: Box<Self>) -> Summary;
}

pub struct Kind {
    pub name: &'static str,
    /// How many times the steps of a round it makes, since its steps are short.
    share: u64,
    original: &'static str,
    ours: &'static str,
    comparison: fn() -> Box<dyn Comparison>,
}

pub static KINDS: [Kind; 7] = [
    Kind {
        name: "digests",
        share: 4,
        original: "SetDigest, RuleSetDigest",
        ours: "cb_digest_*, cb_rule_set_digest_*",
        comparison: digests::comparison,
    },
    Kind {
        name: "allowances",
        share: 10,
        original: "Budget",
        ours: "cb_budget_*",
        comparison: allowances::comparison,
    },
    Kind {
        name: "walks",
        share: 10,
        original: "SkippingIterator",
        ours: "cb_may_skip, cb_may_match, cb_verdict, cb_forward, cb_backward",
        comparison: walks::comparison,
    },
    Kind {
        name: "matches",
        share: 6,
        original: "match_input, match_lookahead, match_backtrack",
        ours: "cb_match_input, cb_match_lookahead, cb_match_backtrack",
        comparison: matches::comparison,
    },
    Kind {
        name: "runs",
        share: 1,
        original: "apply_lookup, recurse, kinds 1 to 3 of lookups",
        ours: "cb_run, cb_book_reads",
        comparison: runs::comparison,
    },
    Kind {
        name: "tape",
        share: 1,
        original: "match_input behind a frame reader of our own",
        ours: "the program bench_tape, as a process",
        comparison: tape::comparison,
    },
    Kind {
        name: "tape-abuse",
        share: 1,
        original: "none: the second reading of 01",
        ours: "the program bench_tape, as a process",
        comparison: tape::abuse::comparison,
    },
];

/// How much is compared.
pub struct Length {
    /// Random inputs of each kind; in rounds this many times its share.
    pub steps: u64,
    pub seed: u64,
    /// Rounds go on until then, each with a seed one higher.
    pub until: Option<Instant>,
}

/// A kind at work.
struct Running {
    kind: &'static Kind,
    comparison: Box<dyn Comparison>,
    rounds: u64,
    took: Duration,
}

impl Running {
    fn steps(&self, length: &Length) -> u64 {
        match length.until {
            Some(_) => length.steps * self.kind.share,
            None => length.steps,
        }
    }

    fn seeds(&self, length: &Length) -> String {
        let (first, steps) = (length.seed, grouped(self.steps(length)));
        match self.rounds {
            1 => format!("seed {first}, {steps} steps"),
            rounds => {
                let last = first.wrapping_add(rounds - 1);
                format!("seeds {first} to {last}, {steps} steps each")
            }
        }
    }

    fn new(kind: &'static Kind) -> Self {
        Self { kind, comparison: (kind.comparison)(), rounds: 0, took: Duration::ZERO }
    }

    fn round(&mut self, length: &Length) {
        let began = Instant::now();
        if self.rounds == 0 {
            self.comparison.exhaust();
        }
        self.comparison.draw(self.steps(length), length.seed.wrapping_add(self.rounds));
        self.rounds += 1;
        self.took += began.elapsed();
    }
}

/// Answers the status to exit with: 1 if something disagreed that no entry of
/// docs/DIFFERENCES.md explains.
pub fn compare(kinds: &[&'static Kind], length: &Length) -> i32 {
    let mut unexplained = differences::compare();
    let mut running: Vec<Running> = kinds.iter().map(|kind| Running::new(kind)).collect();
    run(&mut running, length);
    progress::clear();
    println!();
    let finished: Vec<Finished> = running.into_iter().map(|it| Finished::of(it, length)).collect();
    for Finished { summary, seeds, .. } in &finished {
        summary.print(seeds);
        unexplained += summary.unexplained();
    }
    print_table(&finished);
    println!("{} disagreements that docs/DIFFERENCES.md doesn't list", grouped(unexplained));
    i32::from(unexplained > 0)
}

/// All kinds by turns; once, or until the time is over.
fn run(running: &mut [Running], length: &Length) {
    let is_over = || length.until.is_none_or(|until| Instant::now() >= until);
    loop {
        for running in &mut *running {
            // Each kind has its first round.
            if running.rounds == 0 || !is_over() {
                running.round(length);
            }
        }
        if is_over() {
            return;
        }
    }
}

struct Finished {
    kind: &'static Kind,
    summary: Summary,
    seeds: String,
    took: Duration,
}

impl Finished {
    fn of(running: Running, length: &Length) -> Self {
        let seeds = running.seeds(length);
        let Running { kind, comparison, took, .. } = running;
        Self { kind, summary: comparison.finish(), seeds, took }
    }
}

fn print_table(finished: &[Finished]) {
    println!("\nwhat was compared with what, from which seeds, and how long that took");
    for Finished { kind, seeds, took, .. } in finished {
        println!("  {:<11} {} beside {}", kind.name, kind.ours, kind.original);
        println!("  {:<11} {seeds}, {:.1} s", "", took.as_secs_f64());
    }
    println!(
        "\ninputs, answers held against the original's and against the second reading of 01's,"
    );
    println!(
        "differences that docs/DIFFERENCES.md lists, clauses that may decide and that never did"
    );
    Summary::print_head();
    finished.iter().for_each(|Finished { summary, .. }| summary.print_row());
}
