//! Writes the stored lists that proved programs replay. The original is asked,
//! or, for a refusal, which it hasn't, the second reading; the same call writes
//! the same file on every machine. At the end of a list stand the questions of
//! `differences.rs`, on which the two are known to differ, each under its
//! operation and 100 more, with our answers.
//!
//! A list is lines of words of 32 bits, and nothing else: each word is eight
//! capital hexadecimal digits and one byte more, a blank between the words of
//! a line and 0A at its end. A number of 64 bits is two words, the high one
//! first. A line is the operation's code, the arguments, and the original's
//! answer; each kind's file opens with what its lines hold.
mod matches;
mod runs;
mod small;
mod walks;

use crate::tape;
use std::collections::BTreeMap;
use std::fmt::Write;

/// What a replay has room for.
const MOST_BYTES: usize = 2_097_152;

/// The stored kinds, and what writes each.
const KINDS: &[(&str, fn(&mut List))] = &[
    ("small", small::write),
    ("walks", walks::write),
    ("matches", matches::write),
    ("runs", runs::write),
    ("tape", write_frames),
];

/// How many frames of each answer.
const FRAMES: [(&str, usize); 5] = [("00", 160), ("02", 40), ("03", 20), ("04", 120), ("05", 60)];
const FRAMES_SEED: u64 = 9;

/// Frames of the bench tape, a line each. Their answers are `tape-original`'s.
fn write_frames(list: &mut List) {
    for frame in tape::agreed(FRAMES.to_vec(), FRAMES_SEED) {
        list.text += &frame;
        list.text.push('\n');
    }
}

/// The words of a line.
#[derive(Default)]
pub struct Line(Vec<u32>);

impl Line {
    pub fn of(operation: u32) -> Self {
        Self(vec![operation])
    }
    pub fn word(mut self, word: impl Into<u32>) -> Self {
        self.0.push(word.into());
        self
    }
    pub fn words(mut self, words: &[u32]) -> Self {
        self.0.extend(words);
        self
    }
    /// A list's length and its words.
    pub fn list(self, words: &[u32]) -> Self {
        self.word(words.len() as u32).words(words)
    }
    /// The same of words of 16 bits.
    pub fn narrow(self, words: &[u16]) -> Self {
        let wide: Vec<u32> = words.iter().map(|&word| word.into()).collect();
        self.list(&wide)
    }
    /// Another line behind this one, as a part of it.
    pub fn line(mut self, line: Self) -> Self {
        self.0.extend(line.0);
        self
    }
    /// Numbers of 64 bits.
    pub fn wide(mut self, numbers: &[u64]) -> Self {
        self.0.extend(numbers.iter().flat_map(|&n| [(n >> 32) as u32, n as u32]));
        self
    }
}

#[derive(Default)]
pub struct List {
    text: String,
    lines: BTreeMap<u32, usize>,
}

impl List {
    pub fn push(&mut self, line: Line) {
        for (i, word) in line.0.iter().enumerate() {
            let blank = if i == 0 { "" } else { " " };
            write!(self.text, "{blank}{word:08X}").expect("a string grows");
        }
        self.text.push('\n');
        *self.lines.entry(line.0[0]).or_default() += 1;
    }
}

/// Answers the status to exit with, or nothing if no such kind is stored.
pub fn write(kind: &str, path: &str) -> Option<i32> {
    let (_, fill) = KINDS.iter().find(|entry| entry.0 == kind)?;
    let mut list = List::default();
    fill(&mut list);
    let bytes = list.text.len();
    assert!(bytes <= MOST_BYTES, "{bytes} bytes are more than a list may have");
    if let Err(error) = std::fs::write(path, &list.text) {
        eprintln!("{path}: {error}");
        return Some(1);
    }
    println!("{path}: {} lines, {bytes} bytes", list.text.lines().count());
    for (operation, lines) in list.lines {
        println!("  {lines:>9}  of operation {operation}");
    }
    Some(0)
}
