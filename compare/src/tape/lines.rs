//! The lines that are put to the tape.
use super::written;
use crate::draw;
use crate::matches::{self, Case, Question};
use crate::random::Random;
use original::terms::{Call, Setup, Testing};

/// How a line came about, by its place in `MADE`.
pub const MADE: [&str; 11] = [
    "lines: frames",
    "lines: damaged, a digit or more cut",
    "lines: damaged, a digit or more added",
    "lines: damaged, a digit changed",
    "lines: damaged, other settings",
    "lines: damaged, a foreign byte",
    "lines: damaged, the case of digits",
    "lines: damaged, a count changed",
    "lines: damaged, another opening",
    "lines: damaged, two halves of frames",
    "lines: the longest frame and its like",
];
pub const FRAME: usize = 0;
pub const CORNER: usize = 10;

/// A line of the tape, without its 0A; a tape's last line lacks it.
#[derive(Clone)]
pub struct Line {
    pub made: usize,
    pub bytes: Vec<u8>,
    pub last: bool,
}

/// Draws the lines: frames and damaged ones by turns.
#[derive(Clone)]
pub struct Lines {
    random: Random,
    left: u64,
    frame: Vec<u8>,
}

impl Lines {
    pub fn new(steps: u64, seed: u64) -> Self {
        Self { random: Random::new(seed), left: 2 * steps, frame: vec![] }
    }
}

impl Iterator for Lines {
    type Item = Line;

    fn next(&mut self) -> Option<Line> {
        self.left = self.left.checked_sub(1)?;
        let (made, bytes) = match self.left % 2 {
            1 => {
                self.frame = draw_frame(&mut self.random);
                (FRAME, self.frame.clone())
            }
            _ => damage(&mut self.random, std::mem::take(&mut self.frame)),
        };
        Some(Line { made, bytes, last: self.left == 0 })
    }
}

/// Mixed frames, now and then one that is damaged, for timing.
pub fn mixed(count: u64, seed: u64) -> Vec<u8> {
    let random = &mut Random::new(seed);
    let mut tape = vec![];
    for _ in 0..count {
        let line = draw_frame(random);
        tape.extend(if random.one_in(20) { damage(random, line).1 } else { line });
        tape.push(b'\n');
    }
    tape
}

fn draw_frame(random: &mut Random) -> Vec<u8> {
    let counts = match random.below(400) {
        0 => [64, 64],
        1 => [random.near(&[63], 1) as usize, random.below(5) as usize],
        2 => [random.below(5) as usize, random.near(&[63], 1) as usize],
        3..=12 => [random.below(65) as usize, random.below(65) as usize],
        _ => [random.below(4) as usize, random.below(6) as usize],
    };
    let mut case = match random.one_in(3) {
        true => matches::wild_case(random, counts),
        false => matches::calm_case(random, counts),
    };
    // The whole of both rows counts, and there are no mark sets.
    let sets = vec![];
    case = Case::new(Setup { sets, ..case.setup }, case.done, case.coming, case.idx);
    if random.one_in(40) {
        case.idx = random.pick(&[case.len, case.len + 1, 64, 256, 0xFFFF]);
    }
    let mut question = matches::draw_question(random, &case, Call::Input);
    question.values.truncate(64);
    if random.one_in(60) {
        question.values.resize(random.pick(&[62, 63, 64, 64]), 7);
    }
    let mut line = written(&case, &question);
    if random.one_in(8) {
        line.make_ascii_lowercase();
    }
    line
}

const DIGITS: &[u8] = b"0123456789ABCDEFabcdef";
/// Neighbours of the digits, what ends other lines, and bytes above 127.
const FOREIGN: &[u8] = b"/:@G`g \t\r\0xX-+.,;_\x0B\x0C\x1A\x7F\x80\xC0\xFF";
/// Where the settings, the number of values and the cursor stand.
const SETTINGS: usize = 8;
const VALUES: usize = 30;

fn damage(random: &mut Random, mut line: Vec<u8>) -> (usize, Vec<u8>) {
    let at = |random: &mut Random, line: &[u8]| random.below(line.len() as u64) as usize;
    let how = 1 + random.below(9) as usize;
    match how {
        1 => {
            let from = match random.one_in(2) {
                true => line.len() - 1,
                false => at(random, &line),
            };
            let many = random.pick(&[1, 1, 2, 2, 8, 32, usize::MAX]).min(line.len() - from);
            line.drain(from..from + many);
        }
        2 => {
            let from = if random.one_in(2) { line.len() } else { at(random, &line) };
            let many = random.pick(&[1, 1, 2, 2, 8, 32, 4648]);
            let more: Vec<u8> = (0..many).map(|_| random.pick(DIGITS)).collect();
            line.splice(from..from, more);
        }
        3 => {
            let place = at(random, &line);
            line[place] = random.pick(DIGITS);
        }
        4 => {
            let settings = format!("{:02X}", random.below(256));
            line[SETTINGS..SETTINGS + 2].copy_from_slice(settings.as_bytes());
        }
        5 => {
            let (place, byte) = (at(random, &line), random.pick(FOREIGN));
            match random.below(4) {
                0 => line.push(byte),
                1 => line.insert(0, byte),
                2 => line.insert(place, byte),
                _ => line[place] = byte,
            }
        }
        6 => {
            for byte in &mut line {
                match random.one_in(2) {
                    true => byte.make_ascii_lowercase(),
                    false => byte.make_ascii_uppercase(),
                }
            }
        }
        7 => {
            let values =
                usize::from_str_radix(&String::from_utf8_lossy(&line[VALUES..VALUES + 2]), 16);
            let counts = VALUES + 2 + 8 * values.unwrap_or(0);
            let place = random.pick(&[VALUES, counts, counts + 4]);
            let wide = if place == VALUES { 2 } else { 4 };
            let number = random.pick(&[0, 1, 2, 63, 64, 65, 128, 255]);
            let number = format!("{number:04X}");
            if let Some(place) = line.get_mut(place..place + wide) {
                place.copy_from_slice(&number.as_bytes()[4 - wide..]);
            }
        }
        8 => {
            let opening: &[u8] = random.pick(&[
                b"47504F53",
                b"47535542",
                b"67737562",
                b"47504F52",
                b"42555347",
                b"",
                b"4753554200",
                b"47505542",
            ]);
            line.splice(..8.min(line.len()), opening.iter().copied());
        }
        _ => {
            let other = draw_frame(random);
            let from = at(random, &other);
            line.truncate(at(random, &line));
            line.extend(&other[from..]);
        }
    }
    (how, line)
}

/// The longest frame there is, with a digit less, one more and two more, and
/// others of its length; then ways to be no frame that chance seldom meets.
pub fn corners(seed: u64) -> Vec<Line> {
    let random = &mut Random::new(seed);
    let longest = |random: &mut Random, gpos| {
        let setup = Setup { gpos, mask: 1, props: 8, ..Setup::default() };
        let (done, coming) = (draw::row(random, 64), vec![matches::SOUGHT; 64]);
        let values = vec![7; 64];
        let question = Question { call: Call::Input, testing: Testing::Equal, spare: 2, values };
        written(&Case::new(setup, done, coming, 0), &question)
    };
    let mut lines: Vec<Vec<u8>> = vec![];
    for gpos in [false, true] {
        let line = longest(random, gpos);
        assert_eq!(line.len(), 4648, "01's number of digits");
        for digits in [4646, 4647, 4648, 4649, 4650, 4664, 9296] {
            let mut other = line.clone();
            other.resize(digits, b'0');
            lines.push(other);
        }
        lines.push(line.to_ascii_lowercase());
        // 63 values, and the same with a record less or more than is said.
        let mut fewer = line.clone();
        fewer[VALUES..VALUES + 2].copy_from_slice(b"3F");
        fewer.drain(VALUES + 2..VALUES + 10);
        lines.push(fewer.clone());
        lines.push(fewer[..fewer.len() - 32].to_vec());
        lines.push([&fewer[..], &[b'0'; 32]].concat());
        // 65 of each.
        let mut more = line.clone();
        more[VALUES..VALUES + 2].copy_from_slice(b"41");
        more.splice(VALUES + 2..VALUES + 2, *b"00000007");
        lines.push(more);
        for counts in [*b"00410040", *b"00400041"] {
            let mut more = line.clone();
            let at = VALUES + 2 + 8 * 64;
            more[at..at + 8].copy_from_slice(&counts);
            more.extend([b'0'; 32]);
            lines.push(more);
        }
        for wide in [100_000, 3_000_000] {
            lines.push(vec![b'0'; wide]);
            let mut long = line.clone();
            long.resize(wide, b'0');
            lines.push(long);
        }
        lines.push(line);
    }
    for short in ["", "0", "00", "FF", " ", "\r", "\0", "47535542", "4753554200"] {
        lines.push(short.into());
    }
    let last = lines.len() - 1;
    let line = |(i, bytes)| Line { made: CORNER, bytes, last: i == last };
    lines.into_iter().enumerate().map(line).collect()
}
