//! The bench tape: our program as a process of its own, the original behind the
//! same tape, and the second reading of the paper. One thread draws the lines and
//! writes them to our program; another draws the same lines and compares what
//! our program answers.
//!
//! That a line is a frame is no matter of the original: `frame` below reads the
//! paper's sentence.
pub mod abuse;
pub mod lines;
pub mod program;

use crate::differences;
use crate::kinds::Comparison;
use crate::matches::{beside, wrapped, Case, Question};
use crate::ours::Answer;
use crate::paper::matchers::{By, NAMES};
use crate::progress::grouped;
use crate::summary::Summary;
use crate::trials::Trial;
use lines::{Line, Lines, CORNER, FRAME, MADE};
use original::glyphs::Glyph;
use original::matches::{with_text, Text};
use original::terms::{Call, Matched, Setup, Testing};
use std::fmt::Write as _;
use std::io::{BufRead, BufReader, BufWriter, Read, Write};
use std::process::{ChildStdin, Stdio};

// ---- "The bench tape"

const MOST_VALUES: u32 = 64;
const MOST_RECORDS: u32 = 64;
const GSUB: u32 = 0x4753_5542;
const GPOS: u32 = 0x4750_4F53;

/// What a line says, if it is a frame.
pub struct Frame {
    setup: Setup,
    idx: usize,
    values: Vec<u32>,
    done: Vec<Glyph>,
    coming: Vec<Glyph>,
}

impl Frame {
    fn asked(self) -> (Case, Question) {
        let Self { setup, idx, values, done, coming } = self;
        let question = Question { call: Call::Input, testing: Testing::Equal, spare: 2, values };
        (Case::new(setup, done, coming, idx), question)
    }
}

/// The digit that a byte is, or a number past all digits.
const DIGIT: [u8; 256] = {
    let mut digits = [0xFF; 256];
    let mut n = 0;
    while n < 16 {
        digits[b"0123456789ABCDEF"[n] as usize] = n as u8;
        digits[b"0123456789abcdef"[n] as usize] = n as u8;
        n += 1;
    }
    digits
};

/// Reads a line; `bytes` is only there to be used again.
pub fn frame(line: &[u8], bytes: &mut Vec<u8>) -> Option<Frame> {
    bytes.clear();
    for pair in line.chunks(2) {
        let [high, low] = *pair else { return None };
        let [high, low] = [DIGIT[usize::from(high)], DIGIT[usize::from(low)]];
        if high | low > 15 {
            return None;
        }
        bytes.push(high << 4 | low);
    }
    let mut rest = &bytes[..];
    let mut take = |count: usize| -> Option<u32> {
        let (these, others) = rest.split_at_checked(count)?;
        rest = others;
        Some(these.iter().fold(0, |number, &byte| number << 8 | u32::from(byte)))
    };
    let gpos = match take(4)? {
        GSUB => false,
        GPOS => true,
        _ => return None,
    };
    let settings = take(1).filter(|&settings| settings <= 7)?;
    let (mask, props, idx) = (take(4)?, take(4)?, take(2)? as usize);
    let count = take(1).filter(|&count| count <= MOST_VALUES)?;
    let values = (0..count).map(|_| take(4)).collect::<Option<_>>()?;
    let [d, len] = [take(2)?, take(2)?];
    if d > MOST_RECORDS || len > MOST_RECORDS {
        return None;
    }
    let mut row = |count| -> Option<Vec<Glyph>> {
        (0..count).map(|_| Some([take(4)?, take(4)?, take(4)?, take(4)?])).collect()
    };
    let (done, coming) = (row(d)?, row(len)?);
    if !rest.is_empty() {
        return None;
    }
    let [auto_zwnj, auto_zwj, per_syllable] = [1, 2, 4].map(|bit| settings & bit != 0);
    let setup = Setup { gpos, auto_zwnj, auto_zwj, per_syllable, mask, props, sets: vec![] };
    Some(Frame { setup, idx, values, done, coming })
}

/// The line that answers, without its 0A.
fn line_of(answer: &Answer) -> String {
    let Answer::Input(matched) = answer else { unreachable!("input is asked") };
    match matched.number {
        0 => {
            let used = &matched.positions[..matched.count];
            let mut line =
                format!("00{:04X}{:04X}{:02X}", matched.end, matched.total, matched.count);
            used.iter().for_each(|p| write!(line, "{p:04X}").expect("a string grows"));
            line
        }
        4 => format!("04{:04X}", matched.end),
        number => format!("{number:02X}"),
    }
}

const NO_FRAME: &str = "FF";

fn written(case: &Case, question: &Question) -> Vec<u8> {
    let setup = &case.setup;
    let bits = [(setup.auto_zwnj, 1), (setup.auto_zwj, 2), (setup.per_syllable, 4)];
    let settings: u8 = bits.iter().map(|&(on, bit)| if on { bit } else { 0 }).sum();
    let mut line = format!(
        "{:08X}{settings:02X}{:08X}{:08X}{:04X}{:02X}",
        if setup.gpos { GPOS } else { GSUB },
        setup.mask,
        setup.props,
        case.idx,
        question.values.len()
    );
    question.values.iter().for_each(|value| line += &format!("{value:08X}"));
    line += &format!("{:04X}{:04X}", case.done.len(), case.coming.len());
    case.done.iter().chain(&case.coming).flatten().for_each(|word| line += &format!("{word:08X}"));
    line.into_bytes()
}

/// What the second reading says to a line.
fn reading(line: &[u8], bytes: &mut Vec<u8>) -> String {
    let Some((case, question)) = frame(line, bytes).map(Frame::asked) else {
        return NO_FRAME.to_string();
    };
    line_of(&Answer::of(Call::Input, &question.paper(&case, |_| ())))
}

/// What the second reading says to a whole tape.
pub fn second_reading(tape: &[u8]) -> Vec<u8> {
    let mut lines: Vec<&[u8]> = tape.split(|&byte| byte == b'\n').collect();
    // Behind the last 0A there is a line only if it has a byte.
    if lines.last().is_some_and(|line| line.is_empty()) {
        lines.pop();
    }
    let (mut answers, mut bytes) = (vec![], vec![]);
    for line in lines {
        answers.extend(reading(line, &mut bytes).into_bytes());
        answers.push(b'\n');
    }
    answers
}

// ---- the comparison

const ENDS: [&str; 8] = [
    "answer 00, a match",
    "answer 02, the cursor",
    "answer 03, 64 values",
    "answer 04 and an extent",
    "answer 05, the ligature rule",
    "answer FF to a frame that was damaged",
    "a frame though it was damaged",
    "answer FF, of the longest frame and its like",
];

/// Which lines are corners doesn't depend on the seed of a run.
const CORNERS_SEED: u64 = 1;

pub struct Asker {
    pub summary: Summary,
    trial: Option<&'static Trial<Line, String>>,
    by: [u64; NAMES.len()],
    with_original: u64,
    without_original: u64,
    bytes: Vec<u8>,
}

pub fn comparison() -> Box<dyn Comparison> {
    Box::new(Asker::new(None))
}

impl Comparison for Asker {
    fn exhaust(&mut self) {
        self.ask_all(lines::corners(CORNERS_SEED).into_iter());
    }

    fn draw(&mut self, steps: u64, seed: u64) {
        self.ask_all(Lines::new(steps, seed));
    }

    fn finish(mut self: Box<Self>) -> Summary {
        self.count_clauses();
        self.summary
    }
}

impl Asker {
    pub fn new(trial: Option<&'static Trial<Line, String>>) -> Self {
        let names = [&MADE[..], &ENDS].concat();
        Self {
            summary: Summary::new("tape", &names),
            trial,
            by: [0; NAMES.len()],
            with_original: 0,
            without_original: 0,
            bytes: vec![],
        }
    }

    fn count_clauses(&mut self) {
        self.summary.note(format!(
            "{} with three answers: the original's, our program's and that of 01",
            grouped(self.with_original)
        ));
        self.summary.note(format!(
            "{} matches of texts that the original can't hold: compared with 01 alone",
            grouped(self.without_original)
        ));
        // Of the matchers' clauses those that a tape can meet: it asks for input alone.
        for (name, times) in NAMES.iter().zip(self.by).filter(|entry| entry.1 > 0) {
            self.summary.note(format!("{:>12}  {name}", grouped(times)));
        }
    }

    /// Puts the lines to one process, and compares its answers.
    fn ask_all(&mut self, lines: impl Iterator<Item = Line> + Clone + Send + 'static) {
        let mut command = program::tape();
        let mut child = command
            .stdin(Stdio::piped())
            .stdout(Stdio::piped())
            .spawn()
            .expect("our tape program is started");
        let input = child.stdin.take().expect("a pipe");
        let mut output = BufReader::with_capacity(1 << 16, child.stdout.take().expect("a pipe"));
        let (trial, written) = (self.trial, lines.clone());
        let writer = program::writer(move || write_lines(written, trial, input));
        for line in lines {
            if !self.compare_next(&mut output, &line) {
                break;
            }
        }
        let mut more = vec![];
        output.read_to_end(&mut more).expect("our program's answers are read");
        writer.join().expect("the lines are written");
        let status = child.wait().expect("our program ends").code();
        let after = (0, Some(0));
        self.summary.compare_with_paper(&after, &(more.len(), status), || {
            "bytes after the last answer, and our program's status".to_string()
        });
    }

    /// Compares the next answer; nothing more can be compared if there is none.
    fn compare_next(&mut self, output: &mut impl BufRead, line: &Line) -> bool {
        if line.last && line.bytes.is_empty() {
            return true; // behind the last 0A there is no line
        }
        let mut ours = vec![];
        output.read_until(b'\n', &mut ours).expect("our program's answers are read");
        let is_there = !ours.is_empty();
        let mut ours = String::from_utf8_lossy(&ours).into_owned();
        if let Some(trial) = self.trial {
            (trial.after)(line, &mut ours);
        }
        self.compare_one(line, &ours);
        is_there
    }

    fn compare_one(&mut self, line: &Line, ours: &String) {
        let Line { made, bytes, .. } = line;
        let summary = &mut self.summary;
        summary.input(if *made == FRAME { "frames" } else { "damaged lines and corners" });
        summary.decided(MADE[*made]);
        let shown = || String::from_utf8_lossy(&bytes[..bytes.len().min(400)]).into_owned();
        let Some((case, question)) = frame(bytes, &mut self.bytes).map(Frame::asked) else {
            summary.decided(if *made == CORNER { ENDS[7] } else { ENDS[5] });
            summary.compare_with_paper(&format!("{NO_FRAME}\n"), ours, shown);
            return;
        };
        if *made != FRAME && *made != CORNER {
            summary.decided(ENDS[6]);
        }
        let paper = question.paper(&case, |why: By| self.by[why as usize] += 1);
        let expected = Answer::of(Call::Input, &paper);
        let right = line_of(&expected) + "\n";
        summary.compare_with_paper(&right, ours, shown);
        summary.decided(match &paper {
            Err(2) => ENDS[1],
            Err(_) => ENDS[2],
            Ok(Matched::Lost(_)) => ENDS[3],
            Ok(Matched::No) => ENDS[4],
            Ok(_) => ENDS[0],
        });
        if paper.is_err() {
            return;
        }
        let ask = |case: &Case| {
            let told = with_text(case.text(), |held| question.original(held))?;
            Some(beside(Call::Input, told, expected))
        };
        let Some(told) = ask(&case) else {
            self.without_original += 1;
            return;
        };
        self.with_original += 1;
        let explained = || {
            if *ours != right {
                return None;
            }
            if wrapped(told, expected) {
                return Some(&differences::TOTALS);
            }
            let anew = ask(&case.without_substituted())?;
            let explains = anew == expected || wrapped(anew, expected);
            explains.then_some(&differences::SUBSTITUTED_IGNORABLE)
        };
        summary.compare(&(line_of(&told) + "\n"), ours, explained, shown);
    }
}

/// That our program is gone shows in its answers; here writing only stops.
fn write_lines(
    lines: impl Iterator<Item = Line>,
    trial: Option<&'static Trial<Line, String>>,
    input: ChildStdin,
) {
    let mut out = BufWriter::with_capacity(1 << 16, input);
    for mut line in lines {
        if let Some(trial) = trial {
            (trial.before)(&mut line);
        }
        if !line.last {
            line.bytes.push(b'\n');
        }
        if out.write_all(&line.bytes).is_err() {
            return;
        }
    }
    let _ = out.flush();
}

// ---- for timing, and for what is stored

/// What the original answers; `--` where it can't hold the text.
fn answered(frame: &Frame) -> String {
    let Frame { setup, idx, values, done, coming } = frame;
    let [d, len] = [done.len(), coming.len()];
    let told = match () {
        _ if *idx >= len => Err(2),
        _ if values.len() > 63 => Err(3),
        _ => {
            let text = Text { setup, done, d, coming, len, idx: *idx };
            let asked = with_text(text, |held| held.ask(Call::Input, Testing::Equal, values));
            let Some(told) = asked else { return "--".to_string() };
            Ok(told)
        }
    };
    line_of(&Answer::of(Call::Input, &told))
}

/// Frames for crates/bench_tape, so many for each opening of an answer, to which
/// the original behind the tape and the second reading say the same: not those on
/// which the two are known to differ, nor what the original can't hold.
pub fn agreed(mut wanted: Vec<(&str, usize)>, seed: u64) -> Vec<String> {
    let (mut frames, mut bytes) = (vec![], vec![]);
    let drawn = Lines::new(u64::MAX / 2, seed).filter(|line| line.made == FRAME);
    for Line { bytes: line, .. } in drawn {
        if wanted.iter().all(|of| of.1 == 0) {
            break;
        }
        let told = answered(&frame(&line, &mut bytes).expect("a frame was drawn"));
        let due = wanted.iter_mut().find(|of| of.1 > 0 && told.starts_with(of.0));
        if let Some(of) = due.filter(|_| told == reading(&line, &mut bytes)) {
            of.1 -= 1;
            frames.push(String::from_utf8(line).expect("digits"));
        }
    }
    frames
}

/// The original behind the tape, and nothing else: no second reading.
pub fn original() -> i32 {
    let mut input = BufReader::with_capacity(1 << 16, std::io::stdin().lock());
    let mut out = BufWriter::with_capacity(1 << 16, std::io::stdout().lock());
    let (mut line, mut bytes) = (vec![], vec![]);
    while input.read_until(b'\n', &mut line).expect("frames are read") > 0 {
        if line.last() == Some(&b'\n') {
            line.pop();
        }
        let told = match frame(&line, &mut bytes) {
            None => NO_FRAME.to_string(),
            Some(frame) => answered(&frame),
        };
        out.write_all(told.as_bytes()).expect("answers are written");
        out.write_all(b"\n").expect("answers are written");
        line.clear();
    }
    out.flush().expect("answers are written");
    0
}
