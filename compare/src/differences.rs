//! The differences that are expected. Each is explained in
//! docs/DIFFERENCES.md under its heading; `compare/run` looks whether it is.
//! Each comes with its smallest inputs, which must go on to differ, and as is
//! said here.
use crate::matches::{plain, Case, Question};
use crate::ours::{Answer, CSaid, CWalked, Row, Sign};
use crate::paper::MOST_GLYPHS;
use crate::{runs, walks};
use original::glyphs::Glyph;
use original::hook::Mode;
use original::matches::with_written_text;
use original::terms::{Call, Role, Setup, Test, Testing};
use original::walks::{with_ordinary_row, with_row};
use std::fmt::Debug;

pub struct Difference {
    pub heading: &'static str,
    examples: &'static [Example],
}

struct Example {
    input: &'static str,
    original: &'static str,
    ours: &'static str,
    ask: Ask,
}

enum Ask {
    /// May skip, by the input matcher, on a glyph with all words 0 but word 2.
    Skip(u32),
    /// The same; in the original the character's category isn't Cf.
    SkipOrdinary(u32),
    /// Forward by the context matcher over glyphs, from a place.
    Forward(fn() -> (Vec<Glyph>, usize, Test)),
    /// A run, and how the original is asked for it.
    Run(fn() -> (runs::Case, Mode)),
    /// A question to a matcher; the original holds the ligature's numbers as
    /// it would write them.
    Match(fn() -> (Case, Question)),
    /// The same where the original's own assertions, if on, end the program.
    Unchecked(fn() -> (Case, Question)),
}
use Ask::{Forward, Match, Run, Skip, SkipOrdinary, Unchecked};

pub const EXPECTED: [&Difference; 15] = [
    &SUBSTITUTED_IGNORABLE,
    &JOINERS_OF_ANY_CATEGORY,
    &DAMAGED_WALKS,
    &LOOKAHEAD_START,
    &TOO_MANY_VALUES,
    &PAST_END_CURSORS,
    &TOTALS,
    &DAMAGED_MATCHES,
    &MULTIPLIED,
    &NARROW_NUMBERS,
    &WRITTEN_PROPS,
    &WRITTEN_LIGATURES,
    &ALLOWANCE_OF_TRIES,
    &FULL,
    &DAMAGED_RUNS,
];

pub const WRITTEN_PROPS: Difference = Difference {
    heading: "What a run writes keeps its props and ligature numbers",
    examples: &[Example {
        input: "run over ids 5, 9, 7, 9 default ignorable: 9 into 8, then where 5, 7 stand 5 into 6; nothing put back",
        original: "0, spent 2, positions [0, 1, 2], [5, 8, 7] and []",
        ours: "0, spent 3, positions [0, 1, 2], [6, 8, 7] and []",
        ask: Run(|| (nested([1, 9, 8], 0, 0x0100_0000), Mode::Loud)),
    }],
};

pub const WRITTEN_LIGATURES: Difference = Difference {
    heading: "Kind 2 on a ligature writes ligatures",
    examples: &[Example {
        input: "run over ids 5, 9, 7, 9 a ligature: 9 into 8, 8, then where 5, 7 stand 5 into 6, ligatures ignored; nothing put back",
        original: "0, spent 2, positions [0, 1, 2, 3], [5, 8, 8, 7] and []",
        ours: "0, spent 3, positions [0, 1, 2, 3], [6, 8, 8, 7] and []",
        ask: Run(|| (nested([2, 9, 8], 4, 4), Mode::Loud)),
    }],
};

pub const ALLOWANCE_OF_TRIES: Difference = Difference {
    heading: "An allowance pays for tries alone, and Short is an ending",
    examples: &[
        Example {
            input: "K11 without the hook, the allowance as max_ops, which moves take from",
            original: "1, spent 0, positions [0, 1, 2], [1] and [2, 3]",
            ours: "0, spent 1, positions [0, 1, 2, 3], [1, 2, 2, 3] and []",
            ask: Run(|| (growing(&[1, 2, 3], &[1, 0], 1), Mode::Raw)),
        },
        Example {
            input: "K12 without the hook",
            original: "1, spent 0, positions [0, 1, 2], [] and [1, 2, 3]",
            ours: "8, spent 0, positions [0, 1, 2], [1, 2, 3] and []",
            ask: Run(|| (growing(&[1, 2, 3], &[1, 0], 0), Mode::Raw)),
        },
    ],
};

pub const FULL: Difference = Difference {
    heading: "A text never passes 2,048 glyphs",
    examples: &[Example {
        input: "run over 2,048 glyphs of which one grows, without the hook",
        original: "0, spent 1, positions [0, 1, 2, 3], 2049 glyphs, 4 done",
        ours: "10, spent 1, positions [0, 1, 2], 2048 glyphs, 1 done",
        ask: Run(|| {
            let ids = [&[1, 2, 3][..], &[3; MOST_GLYPHS - 3]].concat();
            (growing(&ids, &[1, 0], 1000), Mode::Raw)
        }),
    }],
};

pub const DAMAGED_RUNS: Difference = Difference {
    heading: "A damaged run is refused",
    examples: &[
        Example {
            input: "K11 with a match whose first position is the second glyph",
            original: "0, spent 1, positions [1, 2], [1, 2, 3] and []",
            ours: "7",
            ask: Run(|| {
                let mut case = growing(&[1, 2, 3], &[1, 0], 1);
                case.matched.count = 2;
                case.matched.positions.copy_within(1..3, 0);
                (case, Mode::Hooked)
            }),
        },
        Example {
            input: "17 records, each of a lookup that isn't there",
            original: "0, spent 17, positions [0, 1, 2], [1, 2, 3] and []",
            ours: "1",
            ask: Run(|| (growing(&[1, 2, 3], &[0, 9].repeat(17), 99), Mode::Hooked)),
        },
    ],
};

/// Ids 5, 9 and 7, 9 with a word 2, matched whole. Lookup 0 is of a kind: from,
/// to (kind 2: twice); 1 a chain over 5, 7 with these props; 2 turns 5 into 6.
fn nested([kind, from, to]: [u16; 3], props: u16, word2: u32) -> runs::Case {
    let first = match kind {
        1 => vec![1, 0, 0, 2, from, to],
        _ => vec![2, 0, 0, 4, from, 2, to, to],
    };
    let chain = [3, props, 0, 8, 5, 0, 1, 7, 0, 1, 0, 2];
    let book = [&first[..], &chain, &[1, 0, 0, 2, 5, 6]].concat();
    let text = [[5, 1, 0, 0x101], [9, 1, word2, 0x101], [7, 1, 0, 0x101]];
    let case =
        runs::Case::new(plain(false, 0), book, [&[], &text], vec![1, 0, 0, 1], &[0, 1, 2], 3);
    runs::Case { allowance: 100, depth: 4, ..case }
}

/// The first three glyphs matched; lookup 0 turns 2 into 2, 2.
fn growing(ids: &[u32], records: &[u16], allowance: u32) -> runs::Case {
    let text: Vec<Glyph> = ids.iter().map(|&id| [id, 1, 0, 0x101]).collect();
    let book = vec![2, 0, 0, 4, 2, 2, 2, 2];
    let records = records.to_vec();
    let case = runs::Case::new(plain(false, 0), book, [&[], &text], records, &[0, 1, 2], 3);
    runs::Case { allowance, depth: 1, ..case }
}

pub const SUBSTITUTED_IGNORABLE: Difference = Difference {
    heading: "A substituted glyph stays default ignorable",
    examples: &[
        Example {
            input: "may skip, input matcher, everything 0 but word 2 of the glyph: 01000010",
            original: "Said { number: 0, said: 0 }",
            ours: "Said { number: 0, said: 2 }",
            ask: Skip(0x0100_0010),
        },
        Example {
            input: "forward from 0 for id 7, context matcher, ids 5, 9, 7, 9's word 2: 01000010",
            original: "CWalked { number: 4, ran_out: 0, place: 2 }",
            ours: "CWalked { number: 0, ran_out: 0, place: 2 }",
            ask: Forward(|| {
                let row = vec![[5, 1, 0, 0], [9, 1, 0x0100_0010, 0], [7, 1, 0, 0]];
                (row, 0, Test::Equal(7))
            }),
        },
        Example {
            input: "input, value 7, the same three glyphs",
            original: "4, end 2, total 0, count 0, []",
            ours: "0, end 3, total 2, count 2, [0, 2]",
            ask: Match(|| {
                let row = [[5, 1, 0, 0x101], [9, 1, 0x0100_0010, 0x101], [7, 1, 0, 0x101]];
                (over(&[], &row), input(&[7]))
            }),
        },
    ],
};

pub const JOINERS_OF_ANY_CATEGORY: Difference = Difference {
    heading: "ZWNJ and ZWJ are flags, whatever the category",
    examples: &[
        Example {
            input: "may skip, input matcher, everything 0 but word 2: 03000000, category not Cf",
            original: "Said { number: 0, said: 2 }",
            ours: "Said { number: 0, said: 0 }",
            ask: SkipOrdinary(0x0300_0000),
        },
        Example {
            input: "may skip, input matcher, everything 0 but word 2: 05000000, category not Cf",
            original: "Said { number: 0, said: 2 }",
            ours: "Said { number: 0, said: 0 }",
            ask: SkipOrdinary(0x0500_0000),
        },
    ],
};

pub const DAMAGED_WALKS: Difference = Difference {
    heading: "A damaged walk is refused",
    examples: &[
        Example {
            input: "forward from 1 in an empty row",
            original: "CWalked { number: 4, ran_out: 1, place: 2 }",
            ours: "CWalked { number: 1, ran_out: 0, place: 0 }",
            ask: Forward(|| (vec![], 1, Test::None)),
        },
        Example {
            input: "forward from 2,047 over 2,049 glyphs with all words 0",
            original: "CWalked { number: 4, ran_out: 0, place: 2049 }",
            ours: "CWalked { number: 1, ran_out: 0, place: 0 }",
            ask: Forward(|| (vec![[0; 4]; MOST_GLYPHS + 1], MOST_GLYPHS - 1, Test::None)),
        },
    ],
};

pub const LOOKAHEAD_START: Difference = Difference {
    heading: "Lookahead never starts at 0",
    examples: &[
        Example {
            input: "lookahead from 0, no values, one glyph",
            original: "0, place 0",
            ours: "6, place 0",
            ask: Match(|| (over(&[], &[SEVEN]), ahead(0, &[]))),
        },
        Example {
            input: "lookahead from 0, value 7, one glyph 7",
            original: "4, place 0",
            ours: "6, place 0",
            ask: Unchecked(|| (over(&[], &[SEVEN]), ahead(0, &[7]))),
        },
    ],
};

pub const TOO_MANY_VALUES: Difference = Difference {
    heading: "Too many values have a number of their own",
    examples: &[
        Example {
            input: "input, 64 values, all there",
            original: "5, end 0, total 0, count 0, []",
            ours: "3, end 0, total 0, count 0, []",
            ask: Match(|| (over(&[], &[SEVEN; 65]), input(&[7; 64]))),
        },
        Example {
            input: "lookahead from 1, 65 values, all there",
            original: "0, place 66",
            ours: "3, place 0",
            ask: Match(|| (over(&[], &[SEVEN; 66]), ahead(1, &[7; 65]))),
        },
        Example {
            input: "backtrack, 65 values, all there",
            original: "0, place 0",
            ours: "3, place 0",
            ask: Match(|| (over(&[SEVEN; 65], &[SEVEN]), back(&[7; 65]))),
        },
    ],
};

pub const PAST_END_CURSORS: Difference = Difference {
    heading: "A cursor past the end is always refused",
    examples: &[
        Example {
            input: "input, no values, one glyph, len 0, cursor 0",
            original: "0, end 1, total 1, count 1, [0]",
            ours: "2, end 0, total 0, count 0, []",
            ask: Match(|| (Case { len: 0, ..over(&[], &[SEVEN]) }, input(&[]))),
        },
        Example {
            input: "lookahead from 1, no values, one glyph, cursor 1",
            original: "0, place 1",
            ours: "2, place 0",
            ask: Match(|| (Case { idx: 1, ..over(&[], &[SEVEN]) }, ahead(1, &[]))),
        },
        Example {
            input: "lookahead from 1, value 7, two glyphs 7, cursor 2",
            original: "0, place 2",
            ours: "2, place 0",
            ask: Unchecked(|| (Case { idx: 2, ..over(&[], &[SEVEN; 2]) }, ahead(1, &[7]))),
        },
        Example {
            input: "backtrack, no values, no glyph, cursor 0",
            original: "0, place 0",
            ours: "2, place 0",
            ask: Match(|| (over(&[], &[]), back(&[]))),
        },
    ],
};

pub const TOTALS: Difference = Difference {
    heading: "A total may pass 255",
    examples: &[Example {
        input: "input, 17 values, 17 ligatures of 15 components and one more glyph",
        original: "0, end 18, total 0, count 18, [0, 1, 2, 3, 4, 5, 6, 7, 8, 9, 10, 11, 12, 13, 14, 15, 16, 17]",
        ours: "0, end 18, total 256, count 18, [0, 1, 2, 3, 4, 5, 6, 7, 8, 9, 10, 11, 12, 13, 14, 15, 16, 17]",
        ask: Unchecked(|| {
            let row = [&[[7, 1, 4, 0x0F0F]; 17][..], &[SEVEN]].concat();
            (over(&[], &row), input(&[7; 17]))
        }),
    }],
};

pub const DAMAGED_MATCHES: Difference = Difference {
    heading: "A damaged match is refused",
    examples: &[
        Example {
            input: "backtrack, no values, d 1 of an empty row",
            original: "0, place 1",
            ours: "1, place 0",
            ask: Match(|| (Case { d: 1, ..over(&[], &[SEVEN]) }, back(&[]))),
        },
        Example {
            input: "lookahead from 2, no values, one glyph",
            original: "0, place 2",
            ours: "1, place 0",
            ask: Match(|| (over(&[], &[SEVEN]), ahead(2, &[]))),
        },
        Example {
            input: "input, no values, len 2 of a row of one glyph",
            original: "0, end 1, total 1, count 1, [0]",
            ours: "1, end 0, total 0, count 0, []",
            ask: Match(|| (Case { len: 2, ..over(&[], &[SEVEN]) }, input(&[]))),
        },
        Example {
            input: "input, no values, 2,049 glyphs with all words 0, cursor 2,048",
            original: "0, end 2049, total 1, count 1, [2048]",
            ours: "1, end 0, total 0, count 0, []",
            ask: Match(|| {
                (Case { idx: MOST_GLYPHS, ..over(&[], &[[0; 4]; MOST_GLYPHS + 1]) }, input(&[]))
            }),
        },
    ],
};

pub const MULTIPLIED: Difference = Difference {
    heading: "The count in ligation is a number, not a mark in the props",
    examples: &[Example {
        input: "input, value 7, two glyphs 7, the second with component 1, counts 1 and props 0x40",
        original: "0, end 2, total 1, count 2, [0, 1]",
        ours: "0, end 2, total 2, count 2, [0, 1]",
        ask: Match(|| (over(&[], &[SEVEN, [7, 1, 0x40, 0x0001_0101]]), input(&[7]))),
    }],
};

pub const NARROW_NUMBERS: Difference = Difference {
    heading: "Ligature ids, components and counts are bytes",
    examples: &[
        Example {
            input: "input, value 7, two glyphs 7, the first with id 8 and component 1",
            original: "0, end 2, total 2, count 2, [0, 1]",
            ours: "5, end 0, total 0, count 0, []",
            ask: Match(|| (over(&[], &[[7, 1, 0, 0x0801_0101], SEVEN]), input(&[7]))),
        },
        Example {
            input: "input, value 7, two glyphs 7, the first with id 1 and component 16",
            original: "0, end 2, total 2, count 2, [0, 1]",
            ours: "5, end 0, total 0, count 0, []",
            ask: Match(|| (over(&[], &[[7, 1, 0, 0x0110_0101], SEVEN]), input(&[7]))),
        },
        Example {
            input: "input, no values, a ligature of 16 components",
            original: "0, end 1, total 0, count 1, [0]",
            ours: "0, end 1, total 16, count 1, [0]",
            ask: Match(|| (over(&[], &[[7, 1, 4, 0x1010]]), input(&[]))),
        },
    ],
};

/// An ordinary glyph.
const SEVEN: Glyph = [7, 1, 0, 0x0101];

fn over(done: &[Glyph], coming: &[Glyph]) -> Case {
    Case::new(plain(false, 0), done.to_vec(), coming.to_vec(), 0)
}

fn question(call: Call, values: &[u32]) -> Question {
    Question { call, testing: Testing::Equal, spare: 0, values: values.to_vec() }
}

fn input(values: &[u32]) -> Question {
    question(Call::Input, values)
}

fn ahead(start: usize, values: &[u32]) -> Question {
    question(Call::Lookahead(start), values)
}

fn back(values: &[u32]) -> Question {
    question(Call::Backtrack, values)
}

static NOTHING: Setup = Setup {
    gpos: false,
    auto_zwnj: false,
    auto_zwj: false,
    per_syllable: false,
    mask: 0,
    props: 0,
    sets: vec![],
};

/// A question to a glyph, or a walk, with nothing set.
pub struct OnRow {
    pub row: Vec<Glyph>,
    pub role: Role,
    pub place: usize,
    pub sign: Sign,
}

impl OnRow {
    fn new(row: Vec<Glyph>, role: Role, place: usize, test: Test) -> Self {
        Self { row, role, place, sign: Sign { test, syllable: 0, spare: 2 } }
    }
    pub fn case(&self) -> walks::Case {
        walks::Case::new(NOTHING.clone(), self.row.clone(), self.row.len(), 0)
    }
    fn ours(&self) -> Row<'_> {
        Row { setup: &NOTHING, words: self.row.as_flattened() }
    }
    pub fn may_skip(&self) -> CSaid {
        self.ours().may_skip(self.role, self.place)
    }
    pub fn forward(&self) -> CWalked {
        self.ours().forward(self.role, self.row.len(), self.place, self.sign)
    }
}

fn shown(original: impl Debug, ours: impl Debug) -> (Option<String>, String) {
    (Some(format!("{original:?}")), format!("{ours:?}"))
}

impl Ask {
    fn on_row(&self) -> Option<OnRow> {
        match self {
            Skip(word2) | SkipOrdinary(word2) => {
                Some(OnRow::new(vec![[0, 0, *word2, 0]], Role::Input, 0, Test::None))
            }
            Forward(make) => {
                let (row, place, test) = make();
                Some(OnRow::new(row, Role::Context, place, test))
            }
            Run(_) | Match(_) | Unchecked(_) => None,
        }
    }

    /// The original's answer, if it may be asked, and ours.
    fn ask(&self) -> (Option<String>, String) {
        if let Some(asked) = self.on_row() {
            let OnRow { row, role, place, sign } = &asked;
            let may_skip = |held: &mut original::walks::Row| held.may_skip(*role, *place);
            let told = match self {
                SkipOrdinary(_) => with_ordinary_row(&NOTHING, row, row.len(), 0, may_skip),
                Skip(_) => with_row(&NOTHING, row, row.len(), 0, may_skip),
                _ => {
                    let ask =
                        |held: &mut original::walks::Row| held.forward(*role, *place, sign.test);
                    let told = with_row(&NOTHING, row, row.len(), 0, ask);
                    return shown(CWalked::of(Some(told)), asked.forward());
                }
            };
            return shown(CSaid::of_may(Some(told)), asked.may_skip());
        }
        let (case, question) = match self {
            Run(make) => {
                let (case, mode) = make();
                let (original, ours) = runs::both(&case, mode);
                return (Some(original), ours);
            }
            Match(make) | Unchecked(make) => make(),
            Skip(_) | SkipOrdinary(_) | Forward(_) => unreachable!("asked above"),
        };
        let ends = matches!(self, Unchecked(_)) && cfg!(debug_assertions);
        let original = (!ends).then(|| {
            let matched = with_written_text(case.text(), |held| question.original(held));
            format!("{:?}", Answer::of(question.call, &Ok(matched)))
        });
        (original, format!("{:?}", question.ours(&case)))
    }
}

fn asked() -> impl Iterator<Item = &'static Ask> {
    EXPECTED.iter().flat_map(|difference| difference.examples).map(|example| &example.ask)
}

/// Each question to a glyph (true: a walk) that is listed here.
pub fn on_rows() -> Vec<(bool, OnRow)> {
    asked().filter_map(|ask| Some((matches!(ask, Forward(_)), ask.on_row()?))).collect()
}

/// Each question to a matcher that is listed here.
pub fn questions() -> Vec<(Case, Question)> {
    let made = asked().filter_map(|ask| match ask {
        Match(make) | Unchecked(make) => Some(make()),
        _ => None,
    });
    made.collect()
}

/// Each run that is listed here.
pub fn runs() -> Vec<runs::Case> {
    let made = asked().filter_map(|ask| match ask {
        Run(make) => Some(make().0),
        _ => None,
    });
    made.collect()
}

/// The headings, one a line.
pub fn print() -> i32 {
    for difference in EXPECTED {
        println!("{}", difference.heading);
    }
    0
}

/// Asks for each example; answers how many don't differ as is said.
pub fn compare() -> u64 {
    let mut wrong = 0;
    println!("expected differences, by their smallest inputs");
    for difference in EXPECTED {
        println!("  {}", difference.heading);
        for Example { input, original, ours, ask } in difference.examples {
            let (said, our) = ask.ask();
            let shown = said.as_deref().unwrap_or("not asked: its own assertions would end it");
            println!("    {input}\n      original {shown}\n      ours     {our}");
            if said.is_some_and(|said| said != *original) || our != *ours {
                println!("DISAGREE with what is expected: original {original}, ours {ours}");
                wrong += 1;
            }
        }
    }
    wrong
}
