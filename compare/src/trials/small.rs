//! Ways for digests and allowances to be wrong.
use crate::allowances::{self, AllowanceTrial};
use crate::digests::{Asked, DigestTrial, RuleStep, RuleTrial, Step, SHIFTS};

pub fn digests() -> Vec<DigestTrial> {
    vec![
        DigestTrial::asked("a range lacks its last glyph", |asked| {
            if let Step::AddRange(_, b) = &mut asked.step {
                *b = b.wrapping_sub(1);
            }
        }),
        DigestTrial::asked("a range lacks its first glyph", |asked| {
            if let Step::AddRange(a, _) = &mut asked.step {
                *a = a.wrapping_add(1);
            }
        }),
        DigestTrial::asked("a range has its lower end first", |asked| {
            if let Step::AddRange(a, b) = &mut asked.step {
                [*a, *b] = [*a.min(b), *a.max(b)];
            }
        }),
        DigestTrial::asked("an array lacks its last glyph", |asked| {
            if let Step::AddArray(glyphs) = &mut asked.step {
                glyphs.pop();
            }
        }),
        DigestTrial::asked("a glyph has 16 bits", |asked| match &mut asked.step {
            Step::Add(g) | Step::MayHave(g) => *g &= 0xFFFF,
            Step::AddRange(a, b) => [*a, *b] = [*a & 0xFFFF, *b & 0xFFFF],
            _ => {}
        }),
        DigestTrial::answered("clear leaves a mask", |asked, (masks, _)| {
            if matches!(asked.step, Step::Clear) {
                masks[2] = asked.before.masks[2];
            }
        }),
        DigestTrial::answered("union leaves a mask", |asked, (masks, _)| {
            if matches!(asked.step, Step::Union(_)) {
                masks[1] = asked.before.masks[1];
            }
        }),
        DigestTrial::answered("a range where all is full says yes", |asked, (_, yes)| {
            if asked.before.masks == [u64::MAX; 3] {
                *yes = yes.map(|_| true);
            }
        }),
        DigestTrial::answered("a range fills a mask from 64 on, not 63", |asked, (masks, _)| {
            let Step::AddRange(a, b) = asked.step else { return };
            for (i, shift) in SHIFTS.into_iter().enumerate() {
                if (b >> shift).wrapping_sub(a >> shift) == 63 {
                    masks[i] = asked.before.masks[i] | 1 << (a >> shift & 63);
                }
            }
        }),
        DigestTrial::answered("may_have by any of the masks", |asked, (_, yes)| {
            if let Step::MayHave(g) = asked.step {
                *yes = Some((0..3).any(|i| has(asked, i, g)));
            }
        }),
        leaves_out("may_have without the mask at shift 4", 0),
        leaves_out("may_have without the mask at shift 0", 1),
        leaves_out("may_have without the mask at shift 6", 2),
        DigestTrial::answered("may_intersect by any of the masks", |asked, (_, yes)| {
            if let Step::MayIntersect(other) = &asked.step {
                let both = asked.before.masks.iter().zip(other.masks);
                *yes = Some(both.into_iter().any(|(one, other)| one & other != 0));
            }
        }),
        DigestTrial::answered("may_have always", |asked, (_, yes)| {
            if let Step::MayHave(_) = asked.step {
                *yes = Some(true);
            }
        }),
    ]
}

/// May have, where one mask isn't asked.
fn leaves_out(name: &'static str, mask: usize) -> DigestTrial {
    DigestTrial::answered(name, move |asked, (_, yes)| {
        if let Step::MayHave(g) = asked.step {
            *yes = Some((0..3).filter(|&i| i != mask).all(|i| has(asked, i, g)));
        }
    })
}

fn has(asked: &Asked, i: usize, g: u32) -> bool {
    asked.before.masks[i] >> (g >> SHIFTS[i] & 63) & 1 != 0
}

/// Of the digest of one mask.
pub fn rules() -> Vec<RuleTrial> {
    vec![
        RuleTrial::asked("a value has five bits", |asked| {
            if let RuleStep::Add(value) | RuleStep::MayHave(value) = &mut asked.step {
                *value &= 31;
            }
        }),
        RuleTrial::answered("adding forgets what was there", |asked, (mask, _)| {
            if let RuleStep::Add(_) = asked.step {
                *mask &= !asked.before;
            }
        }),
        RuleTrial::answered("a new one is full", |asked, (mask, _)| {
            if let RuleStep::New = asked.step {
                *mask = u64::MAX;
            }
        }),
        RuleTrial::answered("63 bits are full", |asked, (_, yes)| {
            if let RuleStep::IsFull = asked.step {
                *yes = Some(asked.before.count_ones() >= 63);
            }
        }),
        RuleTrial::answered("it may have everything", |asked, (_, yes)| {
            if let RuleStep::MayHave(_) = asked.step {
                *yes = Some(true);
            }
        }),
    ]
}

pub fn allowances() -> Vec<AllowanceTrial> {
    use allowances::Step;
    vec![
        AllowanceTrial::asked("an opening takes bytes times 255", |(_, step)| {
            if let Step::ForTableBytes(bytes) = step {
                *bytes -= *bytes / 256;
            }
        }),
        AllowanceTrial::asked("one visit more is charged", |(_, step)| {
            if let Step::Work(visits) = step {
                *visits = visits.saturating_add(1);
            }
        }),
        AllowanceTrial::asked("a charge of bytes wraps", |(_, step)| {
            if let Step::Alloc(count, size) = step {
                if count.checked_mul(size.bytes).is_none() {
                    *count = 0;
                }
            }
        }),
        AllowanceTrial::asked("a charge is of one piece", |(_, step)| {
            if let Step::Alloc(count, _) = step {
                *count = (*count).min(1);
            }
        }),
        AllowanceTrial::answered("an opening is held below 134,217,728", |_, (left, _)| {
            left.0.iter_mut().filter(|left| **left == 134_217_728).for_each(|left| *left -= 1)
        }),
        AllowanceTrial::answered(
            "all that remains is Exhausted",
            |(before, step), (left, taken)| {
                if let Step::Work(visits) = step {
                    if *visits == before[0] && *visits > 0 {
                        (left.0, *taken) = (*before, false);
                    }
                }
            },
        ),
        AllowanceTrial::answered("Exhausted takes what there is", |(_, step), (left, taken)| {
            if let (Step::Work(_), false) = (step, *taken) {
                left.0[0] = 0;
            }
        }),
        AllowanceTrial::answered("Exhausted is taken", |_, (_, taken)| *taken = true),
        AllowanceTrial::answered("work is paid in bytes", |(_, step), (left, _)| {
            if let Step::Work(_) = step {
                left.0.reverse();
            }
        }),
    ]
}
