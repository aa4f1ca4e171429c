//! Ways for a matcher to be wrong.
use super::glyphs::{each, GLYPHS, LOOKUPS};
use crate::matches::{Case, MatchTrial, Question};
use crate::ours::{Answer, CMatched};
use original::terms::{Call, Testing};

pub fn trials() -> Vec<MatchTrial> {
    let mut trials: Vec<MatchTrial> = vec![];
    for (name, change) in LOOKUPS {
        trials.push(MatchTrial::asked(name, move |(case, _)| change(&mut case.setup)));
    }
    for (name, change) in GLYPHS.into_iter().chain(LIGATURES) {
        trials.push(MatchTrial::asked(name, move |(case, _)| {
            case.words.iter_mut().for_each(|row| each(row, change));
        }));
    }
    for (name, change) in CASES {
        trials.push(MatchTrial::asked(name, move |(case, question)| change(case, question)));
    }
    trials.extend(numbers());
    for (name, change) in MATCHED {
        trials.push(MatchTrial::answered(name, move |_, answer| {
            if let Answer::Input(matched) = answer {
                if matched.number == 0 {
                    change(matched);
                }
            }
        }));
    }
    trials
}

/// Of a glyph's last word.
const LIGATURES: [(&str, fn(&mut [u32])); 6] = [
    ("no glyph has a ligature id", |glyph| glyph[3] &= 0x00FF_FFFF),
    ("no glyph has a component", |glyph| glyph[3] &= 0xFF00_FFFF),
    ("a ligature id has three bits", |glyph| glyph[3] &= 0x07FF_FFFF),
    ("a component has four bits", |glyph| glyph[3] &= 0xFF0F_FFFF),
    ("the component count is 1", |glyph| glyph[3] = glyph[3] & 0xFFFF_00FF | 0x0100),
    ("the count in ligation is the count", |glyph| {
        glyph[3] = glyph[3] & 0xFFFF_FF00 | glyph[3] >> 8 & 0xFF
    }),
];

const CASES: [(&str, fn(&mut Case, &mut Question)); 14] = [
    ("values from the last to the first", |_, question| question.values.reverse()),
    ("the last value is left out", |_, question| {
        question.values.pop();
    }),
    ("the last value is asked twice", |_, question| {
        question.values.extend(question.values.last().copied())
    }),
    ("a value has 16 bits", |_, question| {
        question.values.iter_mut().for_each(|value| *value &= 0xFFFF)
    }),
    ("no test is any", |_, question| {
        if question.testing == Testing::Nothing {
            question.testing = Testing::Any;
        }
    }),
    ("any is no test", |_, question| {
        if question.testing == Testing::Any {
            question.testing = Testing::Nothing;
        }
    }),
    ("equal is any", |_, question| {
        if question.testing == Testing::Equal {
            question.testing = Testing::Any;
        }
    }),
    ("what is done is never seen", |case, _| case.d = 0),
    ("what is done is seen whole", |case, _| case.d = case.done.len().max(case.d)),
    ("what comes is seen whole", |case, _| case.len = case.coming.len().max(case.len)),
    ("the last glyph that comes isn't seen", |case, _| {
        if case.idx + 1 < case.len {
            case.len -= 1;
        }
    }),
    ("lookahead starts one place later", |case, question| {
        if let Call::Lookahead(start) = &mut question.call {
            if *start > 0 && *start < case.len {
                *start += 1;
            }
        }
    }),
    ("lookahead from 0 is from 1", |_, question| {
        if question.call == Call::Lookahead(0) {
            question.call = Call::Lookahead(1);
        }
    }),
    ("the cursor is the first glyph", |case, _| {
        if case.idx < case.len {
            case.idx = 0;
        }
    }),
];

/// Instead of one number another.
fn numbers() -> Vec<MatchTrial> {
    let swaps: [(&str, u8, u8); 7] = [
        ("1 is 2", 1, 2),
        ("2 is 1", 2, 1),
        ("3 is 5", 3, 5),
        ("4 is 5, with the extent", 4, 5),
        ("5 is 4", 5, 4),
        ("6 is 1", 6, 1),
        ("6 is 4", 6, 4),
    ];
    let swap = |(name, from, to)| {
        MatchTrial::answered(name, move |_, answer: &mut Answer| {
            let number = number_of(answer);
            if *number == from {
                *number = to;
            }
        })
    };
    let mut trials: Vec<MatchTrial> = swaps.into_iter().map(swap).collect();
    trials.push(MatchTrial::answered("3 comes before 2", |(_, question), answer| {
        if *number_of(answer) == 2 && question.values.len() > 64 {
            *number_of(answer) = 3;
        }
    }));
    trials.push(MatchTrial::answered("6 comes before 3", |(_, question), answer| {
        if *number_of(answer) == 3 && question.call == Call::Lookahead(0) {
            *number_of(answer) = 6;
        }
    }));
    trials.push(MatchTrial::answered("5 with an extent", |(case, _), answer| {
        if let Answer::Input(matched @ CMatched { number: 5, .. }) = answer {
            matched.end = case.idx + 1;
        }
    }));
    trials.push(MatchTrial::answered(
        "a forward extent of p, not p + 1",
        |(_, question), answer| match answer {
            Answer::Input(matched) if matched.number == 4 => matched.end -= 1,
            Answer::Context(placed) if placed.number == 4 && question.call != Call::Backtrack => {
                placed.place -= 1;
            }
            _ => {}
        },
    ));
    trials.push(MatchTrial::answered("context matches one place further", |_, answer| {
        if let Answer::Context(placed) = answer {
            placed.place += usize::from(placed.number == 0);
        }
    }));
    trials
}

fn number_of(answer: &mut Answer) -> &mut u8 {
    match answer {
        Answer::Input(matched) => &mut matched.number,
        Answer::Context(placed) => &mut placed.number,
    }
}

/// Of an input match that is one.
const MATCHED: [(&str, fn(&mut CMatched)); 8] = [
    ("the end is the last position", |matched| matched.end -= 1),
    ("the total is one more", |matched| matched.total += 1),
    ("the total has eight bits", |matched| matched.total &= 0xFF),
    ("the total is 0", |matched| matched.total = 0),
    ("the count is one less", |matched| matched.count -= 1),
    ("the cursor is no position", |matched| {
        matched.positions.copy_within(1.., 0);
        matched.positions[63] = 0;
    }),
    ("an unused slot isn't 0", |matched| {
        if matched.count < 64 {
            matched.positions[63] = 1;
        }
    }),
    ("positions of one byte", |matched| {
        matched.positions.iter_mut().for_each(|place| *place &= 0xFF)
    }),
];
