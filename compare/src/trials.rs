//! Wrong answers in place of ours, one way to be wrong at a time: a comparison
//! that doesn't notice one of them would be worth little.
//!
//! A trial alters what our library is asked, so that it answers another
//! question than the one that is compared, or alters what it answered.
mod glyphs;
mod matches;
mod runs;
mod small;
mod tape;
mod walks;

use crate::kinds::Comparison;
use crate::progress::grouped;
use crate::summary::{Side, Summary};
use crate::{allowances, digests};

pub struct Trial<Q, A> {
    name: &'static str,
    pub before: Box<dyn Fn(&mut Q) + Send + Sync>,
    pub after: Box<dyn Fn(&Q, &mut A) + Send + Sync>,
}

impl<Q: Clone, A> Trial<Q, A> {
    /// Ours is asked something else, and answers it.
    fn asked(name: &'static str, before: impl Fn(&mut Q) + Send + Sync + 'static) -> Self {
        Self { name, before: Box::new(before), after: Box::new(|_, _| ()) }
    }

    /// Ours is asked the same, and another answer is handed over.
    fn answered(name: &'static str, after: impl Fn(&Q, &mut A) + Send + Sync + 'static) -> Self {
        Self { name, before: Box::new(|_| ()), after: Box::new(after) }
    }

    pub fn answer(&self, question: &Q, ask: impl FnOnce(&Q) -> A) -> A {
        let mut asked = question.clone();
        (self.before)(&mut asked);
        let mut answer = ask(&asked);
        (self.after)(question, &mut answer);
        answer
    }
}

/// How far a trial goes, and what all of them came to.
struct Tried {
    steps: u64,
    seed: u64,
    trials: u64,
    failed: u64,
}

/// Answers the status to exit with: 1 if a wrong answer wasn't noticed, or a
/// right one was taken for wrong.
pub fn run(steps: u64, seed: u64) -> i32 {
    println!(
        "wrong answers in place of ours, seed {seed}, {} steps each and then every",
        grouped(steps)
    );
    println!("small input, until both sides have disagreed: the number of the input at which");
    println!("each first did");
    println!("  {:<56} {:>9} {:>9}", "", "original", "01");
    let mut tried = Tried { steps, seed, trials: 0, failed: 0 };
    tried.kind("digests", small::digests(), digests::Digests::new, |it| &mut it.summary);
    tried
        .kind("digests of rules", small::rules(), digests::Digests::of_rules, |it| &mut it.summary);
    tried
        .kind("allowances", small::allowances(), allowances::Allowances::new, |it| &mut it.summary);
    tried.kind("walks", walks::trials(), crate::walks::Asker::new, |it| &mut it.summary);
    tried.kind("matches", matches::trials(), crate::matches::Asker::new, |it| &mut it.summary);
    tried.kind("runs", runs::trials(), crate::runs::Asker::new, |it| &mut it.summary);
    tried.kind("tape", tape::trials(), crate::tape::Asker::new, |it| &mut it.summary);
    println!("{} wrong answers tried, {} not told from right ones", tried.trials, tried.failed);
    i32::from(tried.failed > 0)
}

impl Tried {
    /// All trials of a kind, after one without a wrong answer.
    fn kind<Q: 'static, A: 'static, C: Comparison>(
        &mut self,
        kind: &str,
        trials: Vec<Trial<Q, A>>,
        comparison: fn(Option<&'static Trial<Q, A>>) -> C,
        summary: fn(&mut C) -> &mut Summary,
    ) {
        println!("{kind}");
        let trials: &'static [Trial<Q, A>] = trials.leak(); // they live as long as the program
        self.one("right answers", comparison(None), summary, false);
        for trial in trials {
            self.trials += 1;
            self.one(trial.name, comparison(Some(trial)), summary, true);
        }
    }

    fn one<C: Comparison>(
        &mut self,
        name: &str,
        mut comparison: C,
        summary: fn(&mut C) -> &mut Summary,
        is_wrong: bool,
    ) {
        summary(&mut comparison).be_quiet();
        self.until_both_disagree(&mut comparison, summary);
        let summary = summary(&mut comparison);
        let shown = |side| summary.first(side).map_or("-".to_string(), grouped);
        let [original, paper] = [shown(Side::Original), shown(Side::Paper)];
        let noticed = summary.unexplained() > 0;
        let failed = if noticed == is_wrong { "" } else { "   NOT TOLD APART" };
        println!("  {name:<56} {original:>9} {paper:>9}{failed}");
        self.failed += u64::from(noticed != is_wrong);
    }

    /// A part of the steps at a time; where that isn't enough, every small input.
    fn until_both_disagree<C: Comparison>(
        &self,
        comparison: &mut C,
        summary: fn(&mut C) -> &mut Summary,
    ) {
        const PARTS: u64 = 10;
        for i in 0..PARTS {
            comparison.draw(self.steps / PARTS, self.seed.wrapping_add(i));
            let summary = summary(comparison);
            if [Side::Original, Side::Paper].iter().all(|&side| summary.first(side).is_some()) {
                return;
            }
        }
        comparison.exhaust();
    }
}
