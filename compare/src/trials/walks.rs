//! Ways for a question or a walk to be wrong.
use super::glyphs::{each, GLYPHS, LOOKUPS};
use crate::walks::{Asks, WalkTrial, Way};
use original::terms::{Role, Test};

const FORWARD: Asks = Asks::Walk(Way::Forward);
const BACKWARD: Asks = Asks::Walk(Way::Backward);

pub fn trials() -> Vec<WalkTrial> {
    let mut trials: Vec<WalkTrial> = vec![];
    for (name, change) in LOOKUPS {
        trials.push(WalkTrial::asked(name, move |asked| change(&mut asked.case.setup)));
    }
    for (name, change) in GLYPHS {
        trials.push(WalkTrial::asked(name, move |asked| each(&mut asked.case.words, change)));
    }
    trials.extend(questions());
    trials.extend(answers());
    trials
}

fn questions() -> Vec<WalkTrial> {
    vec![
        WalkTrial::asked("the input matcher is the context one", |asked| {
            asked.role = Role::Context
        }),
        WalkTrial::asked("the context matcher is the input one", |asked| asked.role = Role::Input),
        WalkTrial::asked("the starting syllable is 0", |asked| asked.sign.syllable = 0),
        WalkTrial::asked("a value has 16 bits", |asked| {
            if let Test::Equal(value) = &mut asked.sign.test {
                *value &= 0xFFFF;
            }
        }),
        WalkTrial::asked("no test is any", |asked| {
            if asked.sign.test == Test::None {
                asked.sign.test = Test::Any;
            }
        }),
        WalkTrial::asked("any is no test", |asked| {
            if asked.sign.test == Test::Any {
                asked.sign.test = Test::None;
            }
        }),
        WalkTrial::asked("a walk sees its whole row", |asked| {
            asked.case.len = asked.case.glyphs.len()
        }),
        WalkTrial::asked("a forward walk tests where it stands", |asked| {
            if asked.asks == FORWARD && asked.place > 0 {
                asked.place -= 1;
            }
        }),
        WalkTrial::asked("a backward walk tests where it stands", |asked| {
            if asked.asks == BACKWARD && asked.place < asked.case.glyphs.len() {
                asked.place += 1;
            }
        }),
    ]
}

fn answers() -> Vec<WalkTrial> {
    vec![
        WalkTrial::answered("may skip: Maybe is Yes", |asked, told| {
            if asked.asks == Asks::MaySkip && told.said.said == 2 {
                told.said.said = 1;
            }
        }),
        WalkTrial::answered("may skip: Maybe is No", |asked, told| {
            if asked.asks == Asks::MaySkip && told.said.said == 2 {
                told.said.said = 0;
            }
        }),
        WalkTrial::answered("may match: Maybe is Yes", |asked, told| {
            if asked.asks == Asks::MayMatch && told.said.said == 2 {
                told.said.said = 1;
            }
        }),
        WalkTrial::answered("the verdict: passed over is stopped at", |asked, told| {
            if asked.asks == Asks::Verdict && told.said.said == 2 {
                told.said.said = 1;
            }
        }),
        WalkTrial::answered("a forward extent of p, not p + 1", |asked, told| {
            if asked.asks == FORWARD && told.walked.number == 4 {
                told.walked.place -= 1;
            }
        }),
        WalkTrial::answered("a backward extent of p, not p - 1", |asked, told| {
            if asked.asks == BACKWARD && told.walked.number == 4 && told.walked.ran_out == 0 {
                told.walked.place += 1;
            }
        }),
        WalkTrial::answered("running out is stopping", |_, told| told.walked.ran_out = 0),
        WalkTrial::answered("a walk that stopped ran out", |_, told| {
            if told.walked.number == 4 {
                told.walked.ran_out = 1;
            }
        }),
        WalkTrial::answered("found one place further", |_, told| {
            if told.walked.number == 0 {
                told.walked.place += 1;
            }
        }),
        WalkTrial::answered("a refused walk hands over a place", |asked, told| {
            if told.walked.number == 1 {
                told.walked.place = asked.place;
            }
        }),
        WalkTrial::answered("a refused question says something", |_, told| {
            if told.said.number == 1 {
                told.said.said = 1;
            }
        }),
        WalkTrial::answered("a place past the end is 2", |asked, told| {
            if matches!(asked.asks, Asks::Walk(_)) && asked.place > asked.case.glyphs.len() {
                told.walked.number = 2;
            }
        }),
    ]
}
