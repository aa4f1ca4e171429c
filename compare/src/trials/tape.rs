//! Ways for the tape to be wrong: in what it takes for a frame, and in how it
//! writes an answer.
use super::Trial;
use crate::tape::lines::Line;

pub type TapeTrial = Trial<Line, String>;

/// Where the settings stand.
const SETTINGS: std::ops::Range<usize> = 8..10;
const MOST_DIGITS: usize = 4648;

pub fn trials() -> Vec<TapeTrial> {
    vec![
        TapeTrial::asked("small letters are no digits", |line| {
            line.bytes
                .iter_mut()
                .filter(|byte| byte.is_ascii_lowercase())
                .for_each(|byte| *byte = b'x')
        }),
        TapeTrial::asked("a 0D at the end is passed over", |line| {
            if line.bytes.last() == Some(&b'\r') {
                line.bytes.pop();
            }
        }),
        TapeTrial::asked("blanks are passed over", |line| line.bytes.retain(|&byte| byte != b' ')),
        TapeTrial::asked("an odd last digit is passed over", |line| {
            line.bytes.truncate(line.bytes.len() / 2 * 2)
        }),
        TapeTrial::asked("digits past the longest frame are passed over", |line| {
            line.bytes.truncate(MOST_DIGITS)
        }),
        TapeTrial::asked("other settings bits are passed over", |line| {
            if let Some([high, low]) = line.bytes.get_mut(SETTINGS) {
                let number = char::from(*low).to_digit(16).unwrap_or(0);
                [*high, *low] = [b'0', b'0' + (number % 8) as u8];
            }
        }),
        TapeTrial::asked("GPOS is taken for GSUB", |line| {
            if line.bytes.starts_with(b"47504F53") {
                line.bytes[..8].copy_from_slice(b"47535542");
            }
        }),
        TapeTrial::asked("a last line without its 0A is left out", |line| {
            if line.last {
                line.bytes.clear();
            }
        }),
        TapeTrial::answered("an empty line isn't answered", |line, answer| {
            if line.bytes.is_empty() {
                answer.clear();
            }
        }),
        TapeTrial::answered("answers in small letters", |_, answer| answer.make_ascii_lowercase()),
        TapeTrial::answered("answers end in 0D 0A", |_, answer| {
            answer.insert(answer.len().saturating_sub(1), '\r')
        }),
        TapeTrial::answered("answers end in nothing", |_, answer| {
            answer.pop();
        }),
        TapeTrial::answered("04 without its extent", |_, answer| cut(answer, "04", 2..6)),
        TapeTrial::answered("an extent of p, not p + 1", |_, answer| {
            on(answer, "04", |answer| number(answer, 2, |extent| extent - 1))
        }),
        TapeTrial::answered("05 with an extent", |_, answer| {
            on(answer, "05", |answer| answer.insert_str(2, "0000"))
        }),
        TapeTrial::answered("03 is no frame", |_, answer| {
            on(answer, "03", |answer| answer.replace_range(..2, "FF"))
        }),
        TapeTrial::answered("02 comes after 03", |line, answer| {
            // 64 values, which is 40 in the frame
            if line.bytes.get(30..32) == Some(b"40") {
                on(answer, "02", |answer| answer.replace_range(..2, "03"))
            }
        }),
        TapeTrial::answered("the total has eight bits", |_, answer| {
            on(answer, "00", |answer| number(answer, 6, |total| total & 0xFF))
        }),
        TapeTrial::answered("the last position is left out", |_, answer| {
            on(answer, "00", |answer| answer.truncate(answer.len() - 5));
            on(answer, "00", |answer| answer.push('\n'));
        }),
        TapeTrial::answered("the count is left out", |_, answer| cut(answer, "00", 10..12)),
    ]
}

fn on(answer: &mut String, opening: &str, change: impl FnOnce(&mut String)) {
    if answer.starts_with(opening) {
        change(answer);
    }
}

fn cut(answer: &mut String, opening: &str, part: std::ops::Range<usize>) {
    on(answer, opening, |answer| answer.replace_range(part, ""));
}

/// Changes the number in the four digits from a place on.
fn number(answer: &mut String, at: usize, change: impl FnOnce(u32) -> u32) {
    let digits = at..at + 4;
    let number = u32::from_str_radix(&answer[digits.clone()], 16).expect("our program's digits");
    answer.replace_range(digits, &format!("{:04X}", change(number)));
}
