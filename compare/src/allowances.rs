//! Allowances: openings and charges on the original and on ours. The original
//! doesn't show what remains, so each step is made on a fresh allowance, and
//! then what ours has left is taken from it, and one more.
use crate::kinds::Comparison;
use crate::ours;
use crate::random::Random;
use crate::summary::Summary;
use crate::trials::Trial;
use original::allowances::{Allowance, Size, SIZES};

#[derive(Clone, Copy)]
pub enum Step {
    ForTableBytes(u64),
    Work(u64),
    Alloc(u64, Size),
}

impl Step {
    /// Makes the step on an allowance of the original with `left` in it.
    pub fn by_original(self, left: [u64; 2]) -> (Allowance, bool) {
        let allowance = Allowance::new(left[0], left[1]);
        match self {
            Step::ForTableBytes(bytes) => (Allowance::for_table_bytes(bytes), true),
            Step::Work(visits) => {
                let taken = allowance.work(visits);
                (allowance, taken)
            }
            Step::Alloc(count, size) => {
                let taken = allowance.alloc(count, size);
                (allowance, taken)
            }
        }
    }

    fn by_ours(self, left: [u64; 2]) -> (ours::Allowance, bool) {
        let mut allowance = ours::Allowance::new(left[0], left[1]);
        match self {
            Step::ForTableBytes(bytes) => (ours::Allowance::for_table_bytes(bytes), true),
            Step::Work(visits) => {
                let taken = allowance.work(visits);
                (allowance, taken)
            }
            Step::Alloc(count, size) => {
                let taken = allowance.alloc(count, size.bytes);
                (allowance, taken)
            }
        }
    }

    fn shown(self, left: [u64; 2]) -> String {
        match self {
            Step::ForTableBytes(bytes) => format!("for_table_bytes {bytes:X}"),
            Step::Work(visits) => format!("work {visits:X} on {left:X?}"),
            Step::Alloc(count, size) => {
                format!("alloc {count:X} of {:X} bytes on {left:X?}", size.bytes)
            }
        }
    }
}

const OPENING: [&str; 4] = [
    "opening: held up to 4,194,304",
    "opening: bytes x 256",
    "opening: held down to 134,217,728",
    "opening: the product saturates",
];
const WORK: [&str; 4] =
    ["work: none asked", "work: less than remains", "work: all that remains", "work: Exhausted"];
const ALLOC: [&str; 5] = [
    "alloc: none asked",
    "alloc: less than remains",
    "alloc: all that remains",
    "alloc: Exhausted",
    "alloc: Exhausted by a product past 64 bits",
];

fn clauses() -> Vec<&'static str> {
    [&OPENING[..], &WORK, &ALLOC].concat()
}

/// Which clause decides a step.
fn clause(left: [u64; 2], step: Step) -> &'static str {
    // None asked, less than remains, all of it, more.
    let charge = |left: u64, amount: u64| match amount {
        0 => 0,
        _ if amount < left => 1,
        _ if amount == left => 2,
        _ => 3,
    };
    match step {
        Step::ForTableBytes(bytes) => {
            OPENING[match bytes.checked_mul(256) {
                None => 3,
                Some(size) if size < 4 << 20 => 0,
                Some(size) if size <= 128 << 20 => 1,
                Some(_) => 2,
            }]
        }
        Step::Work(visits) => WORK[charge(left[0], visits)],
        Step::Alloc(count, size) => match count.checked_mul(size.bytes) {
            None => ALLOC[4],
            Some(amount) => ALLOC[charge(left[1], amount)],
        },
    }
}

/// A step on what is left; what ours has left then, and whether it was taken.
pub type AllowanceTrial = Trial<([u64; 2], Step), (ours::Allowance, bool)>;

/// Makes the step on both; answers what ours has left.
fn compare_step(
    left: [u64; 2],
    step: Step,
    summary: &mut Summary,
    trial: Option<&'static AllowanceTrial>,
) -> [u64; 2] {
    summary.decided(clause(left, step));
    let (original, taken) = step.by_original(left);
    let (ours, our_taken) = match trial {
        None => step.by_ours(left),
        Some(trial) => trial.answer(&(left, step), |(left, step)| step.by_ours(*left)),
    };
    let shown = || format!("{}, which leaves {:X?} in ours", step.shown(left), ours.0);
    // Our side of the second part is what must be: exactly this remains.
    summary.compare(&(taken, original.holds(ours.0)), &(our_taken, true), || None, shown);
    ours.0
}

/// A sequence on one allowance of the original, which is emptied at its end.
fn compare_sequence(random: &mut Random, summary: &mut Summary) -> u64 {
    let opened = state(random);
    let original = Allowance::new(opened[0], opened[1]);
    let mut ours = ours::Allowance::new(opened[0], opened[1]);
    let steps = 1 + random.below(16);
    for _ in 0..steps {
        let left = ours.0;
        let (taken, our_taken, step) = match random.below(2) {
            0 => {
                let visits = amount(random, left[0]);
                (original.work(visits), ours.work(visits), Step::Work(visits))
            }
            _ => {
                let (count, size) = charge(random, left[1]);
                (
                    original.alloc(count, size),
                    ours.alloc(count, size.bytes),
                    Step::Alloc(count, size),
                )
            }
        };
        summary.input("random steps in sequences");
        summary.decided(clause(left, step));
        let shown = || format!("{} in a sequence from {opened:X?}", step.shown(left));
        summary.compare(&taken, &our_taken, || None, shown);
    }
    let shown = || format!("what remains of {opened:X?}, in ours {:X?}", ours.0);
    summary.compare(&original.holds(ours.0), &true, || None, shown);
    steps
}

/// The numbers at which something changes.
pub const CORNERS: [u64; 13] = [
    0,
    1,
    16_384,
    524_288,
    4 << 20,
    128 << 20,
    1 << 32,
    1 << 46,
    1 << 55,
    1 << 56,
    1 << 62,
    1 << 63,
    u64::MAX,
];

fn number(random: &mut Random) -> u64 {
    match random.below(4) {
        0 | 1 => random.near(&CORNERS, 2),
        2 => random.next() >> random.below(64),
        _ => random.below(1000),
    }
}

pub fn state(random: &mut Random) -> [u64; 2] {
    [number(random), number(random)]
}

/// Of what remains: none, all, one more or less, or any.
fn amount(random: &mut Random, left: u64) -> u64 {
    match random.below(8) {
        0 => 0,
        1 => left,
        2 => left.wrapping_add(1),
        3 => left.wrapping_sub(1),
        4 | 5 => random.up_to(left) >> random.below(32),
        _ => number(random),
    }
}

/// A count and a size whose product is near what remains, near 2^64, or any.
fn charge(random: &mut Random, left: u64) -> (u64, Size) {
    let size = random.pick(SIZES);
    let bytes = size.bytes.max(1);
    let count = match random.below(8) {
        0..=2 => random.near(&[left / bytes], 1),
        3 => random.near(&[u64::MAX / bytes], 1),
        4 => 0,
        5 => random.up_to(left / bytes),
        _ => number(random),
    };
    (count, size)
}

pub fn step(random: &mut Random, left: [u64; 2]) -> Step {
    match random.below(8) {
        0 => Step::ForTableBytes(match random.below(4) {
            0 => random.below(1 << 20),
            1 => random.near(&[16_384, 524_288], 4),
            _ => number(random),
        }),
        1..=3 => Step::Work(amount(random, left[0])),
        _ => {
            let (count, size) = charge(random, left[1]);
            Step::Alloc(count, size)
        }
    }
}

/// The corners and their neighbours.
pub fn corners() -> Vec<u64> {
    let mut numbers: Vec<u64> =
        CORNERS.iter().flat_map(|n| [n.wrapping_sub(1), *n, n.wrapping_add(1)]).collect();
    numbers.sort_unstable();
    numbers.dedup();
    numbers
}

fn exhaustive(summary: &mut Summary, trial: Option<&'static AllowanceTrial>) {
    let corners = corners();
    for bytes in
        corners.iter().copied().chain(0..=2100).chain(16_000..=17_000).chain(524_000..=525_000)
    {
        summary.input("openings");
        compare_step([0; 2], Step::ForTableBytes(bytes), summary, trial);
    }
    for &left in &corners {
        for &n in &corners {
            summary.input("charges of each corner on each corner");
            compare_step([left, n], Step::Work(n), summary, trial);
            for &size in SIZES {
                let bytes = size.bytes.max(1);
                for count in [n, n / bytes, (n / bytes).wrapping_add(1)] {
                    summary.input("charges of each corner on each corner");
                    compare_step([n, left], Step::Alloc(count, size), summary, trial);
                }
            }
        }
    }
}

pub struct Allowances {
    pub summary: Summary,
    trial: Option<&'static AllowanceTrial>,
}

impl Allowances {
    pub fn new(trial: Option<&'static AllowanceTrial>) -> Self {
        Self { summary: Summary::new("allowances", &clauses()), trial }
    }
}

pub fn comparison() -> Box<dyn Comparison> {
    Box::new(Allowances::new(None))
}

impl Comparison for Allowances {
    fn exhaust(&mut self) {
        exhaustive(&mut self.summary, self.trial);
    }

    fn draw(&mut self, steps: u64, seed: u64) {
        let random = &mut Random::new(seed);
        let mut made = 0;
        while made < steps {
            made += compare_sequence(random, &mut self.summary);
            let mut left = state(random);
            for _ in 0..4 {
                self.summary.input("random steps, what remains compared after each");
                left = compare_step(left, step(random, left), &mut self.summary, self.trial);
                made += 1;
            }
        }
    }

    fn finish(self: Box<Self>) -> Summary {
        self.summary
    }
}
