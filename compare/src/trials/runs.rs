//! Ways for a run to be wrong.
use super::Trial;
use crate::ours::CRan;
use crate::runs::{After, Case};
use original::runs::{lookups, Lookup};

pub type RunTrial = Trial<Case, After>;

const SHORT: u8 = 8;
const DEEP: u8 = 9;
const FULL: u8 = 10;

pub fn trials() -> Vec<RunTrial> {
    let parts = [spending(), endings(), records(), chains(), texts(), positions(), refusals()];
    parts.into_iter().flatten().collect()
}

/// What may be spent, and how deep.
fn spending() -> Vec<RunTrial> {
    vec![
        RunTrial::asked("one more may be spent", |case| {
            if case.allowance < 0x7FFF_FFFF {
                case.allowance += 1;
            }
        }),
        RunTrial::asked("one less may be spent", |case| {
            case.allowance = case.allowance.saturating_sub(1)
        }),
        RunTrial::asked("one level more", |case| {
            case.depth = if case.depth < 64 { case.depth + 1 } else { case.depth }
        }),
        RunTrial::asked("one level less", |case| case.depth = case.depth.saturating_sub(1)),
        RunTrial::answered("one more is said to be spent", |_, after| {
            if after.is_accepted() {
                after.answer.spent += 1;
            }
        }),
        RunTrial::answered("Deep spends the try that it refuses", |_, after| {
            if after.answer.number == DEEP {
                after.answer.spent += 1;
            }
        }),
        RunTrial::answered("Full doesn't spend the try that met it", |_, after| {
            if after.answer.number == FULL {
                after.answer.spent -= 1;
            }
        }),
    ]
}

/// Endings.
fn endings() -> Vec<RunTrial> {
    vec![
        RunTrial::answered("Short is Finished", |_, after| after.instead(SHORT, 0)),
        RunTrial::answered("Deep is Finished", |_, after| after.instead(DEEP, 0)),
        RunTrial::answered("Full is Finished", |_, after| after.instead(FULL, 0)),
        RunTrial::answered("Deep comes before Short", |case, after| {
            if case.depth == 0 {
                after.instead(SHORT, DEEP);
            }
        }),
        RunTrial::answered("Finished with nothing left is Short", |case, after| {
            if after.answer.spent == case.allowance {
                after.instead(0, SHORT);
            }
        }),
    ]
}

/// Records, and what a match says.
fn records() -> Vec<RunTrial> {
    vec![
        RunTrial::asked("the last record is left out", |case| {
            case.records.truncate(case.records.len().saturating_sub(2))
        }),
        RunTrial::asked("records from the last to the first", |case| {
            case.records = case.records.chunks(2).rev().flatten().copied().collect()
        }),
        RunTrial::asked("a lookup's index is a byte", |case| {
            case.records.iter_mut().skip(1).step_by(2).for_each(|index| *index &= 0xFF)
        }),
        RunTrial::asked("only the first position counts", |case| {
            if (2..=64).contains(&case.matched.count) {
                case.matched.count = 1;
            }
        }),
        RunTrial::asked("the end is behind the last position", |case| {
            let last = case.matched.positions.get(case.matched.count.wrapping_sub(1));
            if let Some(&last) = last.filter(|&&last| usize::from(last) < case.matched.end) {
                case.matched.end = usize::from(last) + 1;
            }
        }),
    ]
}

/// Chains, and what they look at.
fn chains() -> Vec<RunTrial> {
    vec![
        RunTrial::asked("the lookup mask isn't looked at", |case| case.setup.mask = u32::MAX),
        RunTrial::asked("syllables aren't tested", |case| case.setup.per_syllable = false),
        RunTrial::asked("auto-ZWJ is off", |case| case.setup.auto_zwj = false),
        RunTrial::asked("auto-ZWNJ is off", |case| case.setup.auto_zwnj = false),
        RunTrial::asked("no glyph is in a mark set", |case| {
            if case.setup.sets.len() % 2 == 0 {
                case.setup.sets.clear();
            }
        }),
        RunTrial::asked("a chain's props aren't looked at", |case| {
            rewrite(case, |lookup| {
                if let Lookup::Three { props, .. } = lookup {
                    *props = 0;
                }
            })
        }),
        RunTrial::asked("a chain's backtrack isn't looked at", |case| {
            rewrite(case, |lookup| {
                if let Lookup::Three { back, .. } = lookup {
                    back.clear();
                }
            })
        }),
        RunTrial::asked("a chain's backtrack from its far end", |case| {
            rewrite(case, |lookup| {
                if let Lookup::Three { back, .. } = lookup {
                    back.reverse();
                }
            })
        }),
        RunTrial::asked("a chain's lookahead isn't looked at", |case| {
            rewrite(case, |lookup| {
                if let Lookup::Three { ahead, .. } = lookup {
                    ahead.clear();
                }
            })
        }),
        RunTrial::asked("a chain's last record is left out", |case| {
            rewrite(case, |lookup| {
                if let Lookup::Three { records, .. } = lookup {
                    records.truncate(records.len().saturating_sub(2));
                }
            })
        }),
        RunTrial::asked("kind 2 without results does nothing", |case| {
            rewrite(case, |lookup| {
                if let Lookup::Two { from, ids, .. } = lookup {
                    if ids.is_empty() {
                        ids.push(*from);
                    }
                }
            })
        }),
        RunTrial::asked("kind 2 writes at most seven results", |case| {
            rewrite(case, |lookup| {
                if let Lookup::Two { ids, .. } = lookup {
                    ids.truncate(7);
                }
            })
        }),
    ]
}

/// The text.
fn texts() -> Vec<RunTrial> {
    vec![
        RunTrial::answered("the text isn't touched", |case, after| {
            if after.is_accepted() {
                let [d, idx] = [4 * case.d, 4 * case.idx];
                after.done.fill(0);
                after.coming.fill(0);
                after.done[..d].copy_from_slice(&case.done[..d]);
                after.coming[idx..].copy_from_slice(&case.coming[idx..]);
                [after.answer.d, after.answer.idx] = [case.d, case.idx];
            }
        }),
        RunTrial::answered("cells in neither part aren't cleared, done", |case, after| {
            if after.is_accepted() {
                let d = 4 * after.answer.d;
                after.done[d..].copy_from_slice(&case.done[d..]);
            }
        }),
        RunTrial::answered("cells in neither part aren't cleared, coming", |case, after| {
            if after.is_accepted() {
                let idx = 4 * after.answer.idx;
                after.coming[..idx].copy_from_slice(&case.coming[..idx]);
            }
        }),
        RunTrial::answered("the mask of a written glyph is lost", |case, after| {
            on_written(case, after, |glyph| glyph[1] = 0)
        }),
        RunTrial::answered("the syllable of a written glyph is lost", |case, after| {
            on_written(case, after, |glyph| glyph[2] &= !0x00FF_0000)
        }),
        RunTrial::answered("the ligature of a written glyph is lost", |case, after| {
            on_written(case, after, |glyph| glyph[3] = 0)
        }),
        RunTrial::answered("the cursor one glyph too early", |_, after| {
            if after.is_accepted() {
                after.step_back();
            }
        }),
        RunTrial::answered("no move to the end after Short", |case, after| {
            while after.answer.number == SHORT && after.answer.d > case.d {
                after.step_back();
            }
        }),
    ]
}

/// Positions.
fn positions() -> Vec<RunTrial> {
    vec![
        RunTrial::answered("positions aren't repaired", |case, after| {
            if after.is_accepted() {
                let positions = first_positions(case);
                after.set_positions(&positions);
            }
        }),
        RunTrial::answered("a loss drops the record's own position", |case, after| {
            let mut positions = first_positions_if_accepted(case, after);
            let lost = after.answer.count + 1 == positions.len();
            if let ([at, _], true) = (&case.records[..], lost) {
                positions.remove(usize::from(*at));
                positions[usize::from(*at)..].iter_mut().for_each(|place| *place -= 1);
                after.set_positions(&positions);
            }
        }),
        RunTrial::answered("a gain adds a position too few", |case, after| {
            let count = after.answer.count;
            if after.is_accepted() && count > case.matched.count {
                after.answer.count -= 1;
                after.answer.positions[count - 1] = 0;
            }
        }),
        RunTrial::answered("unused slots keep what the match had", |case, after| {
            let count = after.answer.count;
            if after.is_accepted() {
                after.answer.positions[count..].copy_from_slice(&case.matched.positions[count..]);
            }
        }),
    ]
}

/// Refusals.
fn refusals() -> Vec<RunTrial> {
    vec![
        RunTrial::answered("refusal 7 instead of 11", |_, after| after.instead(11, 7)),
        RunTrial::answered("refusal 11 before 12", |case, after| {
            if !crate::paper::runs::reads(&case.book) {
                after.instead(12, 11);
            }
        }),
        RunTrial::answered("a refused run clears the cells", |case, after| {
            if !after.is_accepted() {
                let from = (4 * case.d.min(crate::paper::runs::ROW)).min(after.done.len());
                after.done[from..].fill(0);
            }
        }),
    ]
}

impl After {
    fn is_accepted(&self) -> bool {
        [0, SHORT, DEEP, FULL].contains(&self.answer.number)
    }

    fn instead(&mut self, number: u8, other: u8) {
        if self.answer.number == number {
            self.answer.number = other;
        }
    }

    /// A glyph goes back from what is done to what comes.
    fn step_back(&mut self) {
        let CRan { d, idx, .. } = &mut self.answer;
        if *d == 0 {
            return;
        }
        *d -= 1;
        *idx -= 1;
        let from = &mut self.done[4 * *d..4 * *d + 4];
        self.coming[4 * *idx..4 * *idx + 4].copy_from_slice(from);
        from.fill(0);
    }

    fn set_positions(&mut self, positions: &[u16]) {
        self.answer.count = positions.len();
        self.answer.positions = [0; 64];
        self.answer.positions[..positions.len()].copy_from_slice(positions);
    }
}

/// The positions of an accepted run before anything happened.
fn first_positions(case: &Case) -> Vec<u16> {
    let here = |place: &u16| (usize::from(*place) - case.idx + case.d) as u16;
    case.matched.positions[..case.matched.count].iter().map(here).collect()
}

fn first_positions_if_accepted(case: &Case, after: &After) -> Vec<u16> {
    match after.is_accepted() {
        true => first_positions(case),
        false => vec![],
    }
}

/// Changes the first glyph of what is done that has another id than at first
/// stood in its place.
fn on_written(case: &Case, after: &mut After, change: fn(&mut [u32])) {
    if !after.is_accepted() {
        return;
    }
    let before = [&case.done[..4 * case.d], &case.coming[4 * case.idx..]].concat();
    let done = after.done.chunks_mut(4).take(after.answer.d).zip(before.chunks(4));
    let mut written = done.filter(|(now, then)| now[0] != then[0]);
    if let Some((glyph, _)) = written.next() {
        change(glyph);
    }
}

/// Changes each lookup of a book that reads.
fn rewrite(case: &mut Case, change: fn(&mut Lookup)) {
    if !crate::paper::runs::reads(&case.book) {
        return;
    }
    let mut lookups = lookups(&case.book);
    lookups.iter_mut().for_each(change);
    case.book = lookups.iter().flat_map(words).collect();
}

fn words(lookup: &Lookup) -> Vec<u16> {
    let (kind, props, body) = match lookup {
        Lookup::One { props, from, to } => (1, props, vec![*from, *to]),
        Lookup::Two { props, from, ids } => {
            (2, props, [&[*from, ids.len() as u16][..], ids].concat())
        }
        Lookup::Three { props, first, back, input, ahead, records } => {
            let mut body = vec![*first];
            for (list, by) in [(back, 1), (input, 1), (ahead, 1), (records, 2)] {
                body.push((list.len() / by) as u16);
                body.extend(list);
            }
            (3, props, body)
        }
    };
    [&[kind, *props as u16, (props >> 16) as u16, body.len() as u16][..], &body].concat()
}
