//! What a comparison found: how many inputs of which kind, how often each
//! clause decided, and what disagreed.
use crate::differences::Difference;
use crate::progress::{self, grouped, Progress};

/// How many disagreements are shown in full.
const SHOWN: u64 = 10;

/// The two that our answers are held against.
#[derive(Clone, Copy)]
pub enum Side {
    Original,
    /// The second reading of the paper.
    Paper,
}

const SIDES: [&str; 2] = ["original", "01      "];

pub struct Summary {
    name: &'static str,
    inputs: Vec<(&'static str, u64)>,
    total: u64,
    clauses: Vec<(&'static str, u64)>,
    expected: Vec<(&'static str, u64)>,
    notes: Vec<String>,
    /// How many answers were held against either side.
    held: [u64; 2],
    disagreed: [u64; 2],
    /// How many inputs there were when either side first disagreed.
    first: [Option<u64>; 2],
    /// In a trial a disagreement is what is hoped for.
    quiet: bool,
    progress: Progress,
}

impl Summary {
    /// The clauses are named beforehand, so that one that never decides shows.
    pub fn new(name: &'static str, clauses: &[&'static str]) -> Self {
        Self {
            name,
            inputs: vec![],
            total: 0,
            clauses: clauses.iter().map(|&name| (name, 0)).collect(),
            expected: vec![],
            notes: vec![],
            held: [0; 2],
            disagreed: [0; 2],
            first: [None; 2],
            quiet: false,
            progress: Progress::new(),
        }
    }

    pub fn be_quiet(&mut self) {
        self.quiet = true;
    }

    pub fn input(&mut self, kind: &'static str) {
        match self.inputs.iter_mut().find(|entry| entry.0 == kind) {
            Some(entry) => entry.1 += 1,
            None => self.inputs.push((kind, 1)),
        }
        self.total += 1;
        if !self.quiet {
            self.progress.tick(self.name, self.total, self.unexplained());
        }
    }

    pub fn decided(&mut self, clause: &'static str) {
        self.decided_times(clause, 1);
    }

    /// The same for a clause that was counted elsewhere.
    pub fn decided_times(&mut self, clause: &'static str, times: u64) {
        let entry = self.clauses.iter_mut().find(|entry| entry.0 == clause);
        entry.unwrap_or_else(|| panic!("the clause {clause} isn't named")).1 += times;
    }

    pub fn note(&mut self, note: String) {
        self.notes.push(note);
    }

    /// Compares ours with what the paper says where the original has no
    /// answer, or beside it.
    pub fn compare_with_paper<T: PartialEq + std::fmt::Debug>(
        &mut self,
        paper: &T,
        ours: &T,
        question: impl FnOnce() -> String,
    ) {
        self.held[Side::Paper as usize] += 1;
        if paper != ours {
            self.disagree(Side::Paper, paper, ours, question);
        }
    }

    /// Compares two answers. What explains a difference is asked only if there
    /// is one.
    pub fn compare<T: PartialEq + std::fmt::Debug>(
        &mut self,
        original: &T,
        ours: &T,
        explained: impl FnOnce() -> Option<&'static Difference>,
        question: impl FnOnce() -> String,
    ) {
        self.held[Side::Original as usize] += 1;
        if original == ours {
            return;
        }
        if let Some(difference) = explained() {
            let heading = difference.heading;
            match self.expected.iter_mut().find(|entry| entry.0 == heading) {
                Some(entry) => entry.1 += 1,
                None => self.expected.push((heading, 1)),
            }
            return;
        }
        self.disagree(Side::Original, original, ours, question);
    }

    fn disagree<T: std::fmt::Debug>(
        &mut self,
        side: Side,
        other: &T,
        ours: &T,
        question: impl FnOnce() -> String,
    ) {
        self.disagreed[side as usize] += 1;
        self.first[side as usize].get_or_insert(self.total);
        if !self.quiet && self.unexplained() <= SHOWN {
            let name = SIDES[side as usize];
            progress::clear();
            println!("DISAGREE {}\n  {name} {other:X?}\n  ours     {ours:X?}", question());
        }
    }

    pub fn unexplained(&self) -> u64 {
        self.disagreed.iter().sum()
    }

    /// After how many inputs a side first disagreed.
    pub fn first(&self, side: Side) -> Option<u64> {
        self.first[side as usize]
    }

    /// How many clauses never decided.
    fn never(&self) -> usize {
        self.clauses.iter().filter(|entry| entry.1 == 0).count()
    }

    pub fn print(&self, seeds: &str) {
        let (name, total) = (self.name, grouped(self.total));
        println!("{name}: {total} inputs, {seeds}, {} disagreed", self.unexplained());
        for (kind, count) in &self.inputs {
            println!("  {:>12}  {kind}", grouped(*count));
        }
        for (heading, count) in &self.expected {
            println!("  {:>12}  differ as docs/DIFFERENCES.md says: {heading}", grouped(*count));
        }
        for note in &self.notes {
            println!("  {note}");
        }
        if !self.clauses.is_empty() {
            println!("  decided by");
        }
        for (clause, count) in &self.clauses {
            let never = if *count == 0 { "   NEVER" } else { "" };
            println!("  {:>12}  {clause}{never}", grouped(*count));
        }
    }

    /// The names of what `row` prints.
    pub fn print_head() {
        println!(
            "  {:<11} {:>13} {:>13} {:>13} {:>10} {:>8} {:>6} {:>10}",
            "kind",
            "inputs",
            "with original",
            "with 01",
            "as listed",
            "clauses",
            "never",
            "disagreed"
        );
    }

    /// A line of the table of all kinds.
    pub fn print_row(&self) {
        let expected: u64 = self.expected.iter().map(|entry| entry.1).sum();
        println!(
            "  {:<11} {:>13} {:>13} {:>13} {:>10} {:>8} {:>6} {:>10}",
            self.name,
            grouped(self.total),
            grouped(self.held[Side::Original as usize]),
            grouped(self.held[Side::Paper as usize]),
            grouped(expected),
            self.clauses.len(),
            self.never(),
            grouped(self.unexplained()),
        );
    }
}
