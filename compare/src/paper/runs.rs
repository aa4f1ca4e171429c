//! "Records over a text", and what of "When the desk says no" concerns a run.
//! The text is one list with a cursor; the two rows are only how it is handed
//! over.
use super::matchers::{self, Text};
use original::glyphs::Glyph;
use original::terms::{Call, Matched, Setup, Testing};

pub const ROW: usize = super::MOST_GLYPHS;
pub const ROW_WORDS: usize = super::WORDS * ROW;
const SLOTS: usize = 64;
const MOST_RECORDS: usize = 16;
const MOST_BOOK_WORDS: usize = 4096;
const MOST_LOOKUPS: usize = 256;
const MOST_ALLOWANCE: u32 = 2_147_483_647;
const MOST_DEPTH: usize = 64;

/// A run as it is asked for; of the setup, the switches, the mask and the sets.
pub struct Asked<'a> {
    pub setup: &'a Setup,
    pub done: &'a [u32],
    pub d: usize,
    pub coming: &'a [u32],
    pub idx: usize,
    pub book: &'a [u16],
    pub records: &'a [u16],
    pub number: u8,
    pub count: usize,
    pub positions: &'a [u16; 64],
    pub end: usize,
    pub allowance: u32,
    pub depth: usize,
}

#[derive(Clone, Copy, Debug, PartialEq, Eq)]
pub enum Ending {
    Finished = 0,
    Short = 8,
    Deep = 9,
    Full = 10,
}

#[derive(Clone, Debug, PartialEq, Eq)]
pub struct Ran {
    pub ending: Ending,
    pub spent: u32,
    pub cursor: usize,
    pub positions: Vec<usize>,
    pub text: Vec<Glyph>,
    /// How many levels stood in one another at most.
    pub levels: usize,
}

macro_rules! sentences {
    ($($name:ident $sentence:literal)*) => {
        /// The sentences that decide, by their places in `NAMES`.
        #[derive(Clone, Copy, Debug, PartialEq, Eq)]
        pub enum By { $($name),* }
        pub const NAMES: &[&str] = &[$($sentence),*];
    };
}

sentences! {
    Finished "ending: Finished"
    ShortTop "ending: Short, met at the top"
    ShortBelow "ending: Short, met below"
    DeepTop "ending: Deep, met at the top"
    DeepBelow "ending: Deep, met below"
    FullTop "ending: Full, met at the top"
    FullBelow "ending: Full, met below"
    SequencePast "record: sequence index at or past the count"
    PositionPast "record: position at or past the text's length"
    MoveAhead "record: move ahead"
    MoveBack "record: move back"
    MoveNone "record: no move"
    ShortAgain "record: allowance 0 met again, above or later"
    NotInBook "lookup: not in the book, one spent"
    OneActs "lookup: kind 1 acts"
    OneOther "lookup: kind 1, another id"
    TwoDeletes "lookup: kind 2 acts, no result"
    TwoReplaces "lookup: kind 2 acts, one result"
    TwoGrows "lookup: kind 2 acts, two to seven results"
    TwoGrowsMost "lookup: kind 2 acts, eight results"
    TwoOther "lookup: kind 2, another id"
    TwoToTheLimit "lookup: kind 2 acts, to the limit exactly"
    ThreeActs "lookup: kind 3 matches"
    ThreeFirst "lookup: kind 3, another first id"
    ThreeInput "lookup: kind 3, no input match"
    ThreeLigature "lookup: kind 3, no input match by the ligature rule"
    ThreeAhead "lookup: kind 3, no lookahead match"
    ThreeBack "lookup: kind 3, no backtrack match"
    NotActed "repair: the lookup didn't act"
    NoChange "repair: no change of length"
    Gain "repair: gain, positions follow"
    GainLast "repair: gain at the last position"
    GainToMost "repair: gain to 64 positions exactly"
    GainStops "repair: change plus count passes 64, the level stops"
    GainStopsBelow "repair: change plus count passes 64, a level below stops"
    Loss "repair: loss, fewer than follow"
    LossAll "repair: loss, as many as follow"
    LossHeld "repair: loss, held back to as many as follow"
    LossLast "repair: loss, nothing follows"
    RaisedToLoss "repair: end raised to the position, a smaller loss"
    RaisedToNothing "repair: end raised to the position, no change left"
    AfterShort "repair: after Short below"
    AfterDeep "repair: after Deep below"
    AfterFull "repair: after Full below"
    CloseAhead "close: move ahead to the end"
    CloseBack "close: move back to the end"
    CloseNone "close: stands at the end"
    CloseNot "close: no move after Deep or Full"
    Refused1 "refusal 1 of a run"
    Refused2 "refusal 2 of a run"
    Refused12 "refusal 12"
    Refused11 "refusal 11"
    Refused7 "refusal 7"
    FirstOfSeveral "order: a refusal, though a later one would hold too"
}

/// Kinds 1 to 3 of a book.
enum Lookup<'b> {
    One {
        from: u16,
        to: u16,
    },
    Two {
        from: u16,
        ids: &'b [u16],
    },
    Three {
        props: u32,
        first: u16,
        back: &'b [u16],
        input: &'b [u16],
        ahead: &'b [u16],
        records: &'b [u16],
    },
}

/// A number of entries of `by` words and those entries, and what follows.
fn counted(words: &[u16], most: usize, by: usize) -> Option<(&[u16], &[u16])> {
    let (&number, rest) = words.split_first()?;
    let number = usize::from(number);
    if number > most {
        return None;
    }
    rest.split_at_checked(number * by)
}

/// "A book reads exactly when it keeps those limits and divides with no word
/// over into such lookups, each body as long as its content takes."
fn read(book: &[u16]) -> Option<Vec<Lookup<'_>>> {
    if book.len() > MOST_BOOK_WORDS {
        return None;
    }
    let mut lookups = vec![];
    let mut rest = book;
    while !rest.is_empty() {
        let (head, tail) = rest.split_at_checked(4)?;
        let (body, others) = tail.split_at_checked(usize::from(head[3]))?;
        rest = others;
        let lookup = match head[0] {
            1 => match *body {
                [from, to] => Lookup::One { from, to },
                _ => return None,
            },
            2 => {
                let (&from, tail) = body.split_first()?;
                let (ids, over) = counted(tail, 8, 1)?;
                if !over.is_empty() {
                    return None;
                }
                Lookup::Two { from, ids }
            }
            3 => {
                let (&first, tail) = body.split_first()?;
                let (back, tail) = counted(tail, 64, 1)?;
                let (input, tail) = counted(tail, 63, 1)?;
                let (ahead, tail) = counted(tail, 64, 1)?;
                let (records, over) = counted(tail, MOST_RECORDS, 2)?;
                if !over.is_empty() {
                    return None;
                }
                let props = u32::from(head[2]) << 16 | u32::from(head[1]);
                Lookup::Three { props, first, back, input, ahead, records }
            }
            _ => return None,
        };
        lookups.push(lookup);
    }
    (lookups.len() <= MOST_LOOKUPS).then_some(lookups)
}

pub fn reads(book: &[u16]) -> bool {
    read(book).is_some()
}

pub const FAULTS: [&str; 15] = [
    "refusal 1: done isn't a run's row",
    "refusal 1: coming isn't a run's row",
    "refusal 1: d past its row, of a run",
    "refusal 1: a run's text over the limit",
    "refusal 1: odd mark sets, of a run",
    "refusal 1: odd records",
    "refusal 1: over 16 records",
    "refusal 12: allowance",
    "refusal 12: depth",
    "refusal 7: match not a success",
    "refusal 7: no position",
    "refusal 7: over 64 positions",
    "refusal 7: the first not the cursor",
    "refusal 7: positions not rising",
    "refusal 7: any not below an end at most len",
];

/// Which of these hold. Of over 64 positions none is looked at.
pub fn faults(asked: &Asked) -> [bool; FAULTS.len()] {
    let used = asked.positions.get(..asked.count).unwrap_or(&[]);
    [
        asked.done.len() != ROW_WORDS,
        asked.coming.len() != ROW_WORDS,
        asked.d > asked.done.len() / 4,
        asked.d > asked.idx,
        asked.setup.sets.len() % 2 != 0,
        asked.records.len() % 2 != 0,
        asked.records.len() / 2 > MOST_RECORDS,
        asked.allowance > MOST_ALLOWANCE,
        asked.depth > MOST_DEPTH,
        asked.number != 0,
        asked.count == 0,
        asked.count > SLOTS,
        used.first().is_some_and(|&first| usize::from(first) != asked.idx),
        used.windows(2).any(|pair| pair[0] >= pair[1]),
        asked.end > ROW || used.iter().any(|&position| usize::from(position) >= asked.end),
    ]
}

/// "Order: 1, 2, 12, 11, 3, 6, 7."
fn refusal(asked: &Asked, by: &mut impl FnMut(By)) -> Option<u8> {
    let faults = faults(asked);
    let any = |range: std::ops::Range<usize>| faults[range].contains(&true);
    let all = [
        (1, any(0..7), By::Refused1),
        (2, asked.idx >= ROW, By::Refused2),
        (12, any(7..9), By::Refused12),
        (11, read(asked.book).is_none(), By::Refused11),
        (7, any(9..15), By::Refused7),
    ];
    let mut held = all.into_iter().filter(|entry| entry.1);
    let (number, _, why) = held.next()?;
    by(why);
    if held.next().is_some() {
        by(By::FirstOfSeveral);
    }
    Some(number)
}

struct State<'a, F> {
    setup: &'a Setup,
    book: Vec<Lookup<'a>>,
    text: Vec<Glyph>,
    cursor: usize,
    left: u32,
    spent: u32,
    ending: Ending,
    levels: usize,
    by: F,
}

/// Says to `by` what decided; answers what the run leaves, or the number of its
/// refusal.
pub fn answer(asked: &Asked, mut by: impl FnMut(By)) -> Result<Ran, u8> {
    if let Some(number) = refusal(asked, &mut by) {
        return Err(number);
    }
    let glyphs = |words: &[u32]| -> Vec<Glyph> {
        words.chunks(4).map(|word| [word[0], word[1], word[2], word[3]]).collect()
    };
    let mut text = glyphs(&asked.done[..4 * asked.d]);
    text.extend(glyphs(&asked.coming[4 * asked.idx..]));
    // "The match handed in counts places in the `coming` row; the run's own
    // positions and end count from the first glyph of `done`."
    let here = |place: usize| place - asked.idx + asked.d;
    let mut positions: Vec<usize> =
        asked.positions[..asked.count].iter().map(|&place| here(place.into())).collect();
    let mut state = State {
        setup: asked.setup,
        book: read(asked.book).expect("a book that isn't refused"),
        text,
        cursor: asked.d,
        left: asked.allowance,
        spent: 0,
        ending: Ending::Finished,
        levels: 0,
        by,
    };
    state.level(&mut positions, here(asked.end), asked.records, asked.depth, 0);
    if state.ending == Ending::Finished {
        (state.by)(By::Finished);
    }
    let State { text, cursor, spent, ending, levels, .. } = state;
    Ok(Ran { ending, spent, cursor, positions, text, levels })
}

impl<'a, F: FnMut(By)> State<'a, F> {
    /// "After these no record at any level is looked at again."
    fn over(&self) -> bool {
        matches!(self.ending, Ending::Deep | Ending::Full)
    }

    fn level(
        &mut self,
        positions: &mut Vec<usize>,
        mut end: usize,
        records: &[u16],
        depth: usize,
        below: usize,
    ) {
        self.levels = self.levels.max(below + 1);
        for record in records.chunks(2) {
            if self.over() {
                break;
            }
            let (sequence, lookup) = (usize::from(record[0]), record[1]);
            if sequence >= positions.len() {
                (self.by)(By::SequencePast);
                continue;
            }
            let position = positions[sequence];
            let length = self.text.len();
            if position >= length {
                (self.by)(By::PositionPast);
                continue;
            }
            (self.by)(match position.cmp(&self.cursor) {
                std::cmp::Ordering::Less => By::MoveBack,
                std::cmp::Ordering::Equal => By::MoveNone,
                std::cmp::Ordering::Greater => By::MoveAhead,
            });
            self.cursor = position;
            if self.left == 0 {
                (self.by)(match (self.ending, below) {
                    (Ending::Short, _) => By::ShortAgain,
                    (_, 0) => By::ShortTop,
                    _ => By::ShortBelow,
                });
                self.ending = Ending::Short;
                break;
            }
            if depth == 0 {
                (self.by)(if below == 0 { By::DeepTop } else { By::DeepBelow });
                self.ending = Ending::Deep;
                break;
            }
            self.left -= 1;
            self.spent += 1;
            if !self.apply(lookup, depth - 1, below) {
                (self.by)(By::NotActed);
                continue;
            }
            if !self.repair(positions, &mut end, sequence, length, below) {
                break;
            }
        }
        if self.over() {
            (self.by)(By::CloseNot);
            return;
        }
        (self.by)(match end.cmp(&self.cursor) {
            std::cmp::Ordering::Less => By::CloseBack,
            std::cmp::Ordering::Equal => By::CloseNone,
            std::cmp::Ordering::Greater => By::CloseAhead,
        });
        self.cursor = end;
    }

    /// "Positions are then repaired as A does, from a signed change of length
    /// where minus means glyphs lost; a level stops if change plus count passes
    /// 64." Answers whether the level goes on.
    fn repair(
        &mut self,
        positions: &mut Vec<usize>,
        end: &mut usize,
        sequence: usize,
        before: usize,
        below: usize,
    ) -> bool {
        let mut change = self.text.len() as i64 - before as i64;
        if change == 0 {
            (self.by)(By::NoChange);
            return true;
        }
        match self.ending {
            Ending::Finished => {}
            Ending::Short => (self.by)(By::AfterShort),
            Ending::Deep => (self.by)(By::AfterDeep),
            Ending::Full => (self.by)(By::AfterFull),
        }
        let position = positions[sequence] as i64;
        let moved = *end as i64 + change;
        if moved < position {
            change += position - moved;
            (self.by)(if change == 0 { By::RaisedToNothing } else { By::RaisedToLoss });
        }
        *end = moved.max(position) as usize;
        let follow = positions.len() - sequence - 1;
        if change > 0 {
            let gain = change as usize;
            if gain + positions.len() > SLOTS {
                (self.by)(if below == 0 { By::GainStops } else { By::GainStopsBelow });
                return false;
            }
            (self.by)(match (gain + positions.len(), follow) {
                (SLOTS, _) => By::GainToMost,
                (_, 0) => By::GainLast,
                _ => By::Gain,
            });
            let later: Vec<usize> = positions.drain(sequence + 1..).collect();
            let own = positions[sequence];
            positions.extend((1..=gain).map(|more| own + more));
            positions.extend(later.iter().map(|place| place + gain));
        } else if change < 0 {
            let lost = change.unsigned_abs() as usize;
            (self.by)(match lost.cmp(&follow) {
                _ if follow == 0 => By::LossLast,
                std::cmp::Ordering::Less => By::Loss,
                std::cmp::Ordering::Equal => By::LossAll,
                std::cmp::Ordering::Greater => By::LossHeld,
            });
            let lost = lost.min(follow);
            let later: Vec<usize> = positions.drain(sequence + 1..).skip(lost).collect();
            positions.extend(later.iter().map(|place| place - lost));
        }
        true
    }

    /// Tries a lookup at the cursor; whether it acted.
    fn apply(&mut self, lookup: u16, depth: usize, below: usize) -> bool {
        let id = self.text[self.cursor][0];
        let Some(lookup) = self.book.get(usize::from(lookup)) else {
            (self.by)(By::NotInBook);
            return false;
        };
        match *lookup {
            Lookup::One { from, to } => {
                let acts = id == u32::from(from);
                (self.by)(if acts { By::OneActs } else { By::OneOther });
                if acts {
                    self.write(&[to]);
                }
                acts
            }
            Lookup::Two { from, ids } => {
                if id != u32::from(from) {
                    (self.by)(By::TwoOther);
                    return false;
                }
                let length = self.text.len() - 1 + ids.len();
                if length > ROW {
                    (self.by)(if below == 0 { By::FullTop } else { By::FullBelow });
                    self.ending = Ending::Full;
                    return false;
                }
                (self.by)(match ids.len() {
                    2.. if length == ROW => By::TwoToTheLimit,
                    0 => By::TwoDeletes,
                    1 => By::TwoReplaces,
                    8 => By::TwoGrowsMost,
                    _ => By::TwoGrows,
                });
                self.write(ids);
                true
            }
            Lookup::Three { props, first, back, input, ahead, records } => {
                if id != u32::from(first) {
                    (self.by)(By::ThreeFirst);
                    return false;
                }
                let Some((mut positions, end)) = self.chain(props, back, input, ahead) else {
                    return false;
                };
                (self.by)(By::ThreeActs);
                self.level(&mut positions, end, records, depth, below + 1);
                true
            }
        }
    }

    /// "Written glyphs copy words 1 to 3 of the one replaced."
    fn write(&mut self, ids: &[u16]) {
        let [_, mask, word2, word3] = self.text[self.cursor];
        let written = ids.iter().map(|&id| [id.into(), mask, word2, word3]);
        self.text.splice(self.cursor..=self.cursor, written);
        self.cursor += ids.len();
    }

    /// "A chain tests first id, input, lookahead, backtrack."
    fn chain(
        &mut self,
        props: u32,
        back: &[u16],
        input: &[u16],
        ahead: &[u16],
    ) -> Option<(Vec<usize>, usize)> {
        let setup = Setup { gpos: false, props, ..self.setup.clone() };
        let words = self.text.as_flattened();
        let (done, coming) = words.split_at(4 * self.cursor);
        let len = self.text.len() - self.cursor;
        let text = Text { setup: &setup, done, d: self.cursor, coming, len, idx: 0 };
        let ask = |call, values: &[u16]| {
            let values: Vec<u32> = values.iter().map(|&value| value.into()).collect();
            matchers::answer(&text, call, Testing::Equal, &values, |_| ())
        };
        let matched = ask(Call::Input, input);
        let Ok(Matched::Input { end, positions, .. }) = matched else {
            let rule = matches!(matched, Ok(Matched::No));
            (self.by)(if rule { By::ThreeLigature } else { By::ThreeInput });
            return None;
        };
        if !matches!(ask(Call::Lookahead(end), ahead), Ok(Matched::Context(_))) {
            (self.by)(By::ThreeAhead);
            return None;
        }
        if !matches!(ask(Call::Backtrack, back), Ok(Matched::Context(_))) {
            (self.by)(By::ThreeBack);
            return None;
        }
        let positions = positions.iter().map(|place| place + self.cursor).collect();
        Some((positions, end + self.cursor))
    }
}
