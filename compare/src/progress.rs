//! A line on standard error while a comparison runs: on a terminal one that is
//! written over, elsewhere one now and then.
use std::io::{stderr, IsTerminal, Write};
use std::time::{Duration, Instant};

/// Inputs between two looks at the clock.
const LOOK: u64 = 512;
const ON_A_TERMINAL: Duration = Duration::from_millis(500);
const ELSEWHERE: Duration = Duration::from_secs(15);

pub struct Progress {
    terminal: bool,
    began: Instant,
    said: Instant,
}

impl Progress {
    pub fn new() -> Self {
        let now = Instant::now();
        Self { terminal: stderr().is_terminal(), began: now, said: now }
    }

    pub fn tick(&mut self, name: &str, inputs: u64, disagreed: u64) {
        let every = if self.terminal { ON_A_TERMINAL } else { ELSEWHERE };
        if inputs % LOOK == 0 && self.said.elapsed() >= every {
            self.said = Instant::now();
            let (inputs, took) = (grouped(inputs), self.began.elapsed().as_secs());
            let line = format!("{took} s, {name}: {inputs} inputs, {disagreed} disagreed");
            say(&line, self.terminal);
        }
    }
}

fn say(line: &str, terminal: bool) {
    let mut err = stderr();
    // What can't be said on standard error can't be said at all.
    let _ = match terminal {
        true => write!(err, "\r\x1B[Kcompare: {line}").and_then(|()| err.flush()),
        false => writeln!(err, "compare: {line}"),
    };
}

/// Takes the line away again, before something else is printed.
pub fn clear() {
    if stderr().is_terminal() {
        let _ = write!(stderr(), "\r\x1B[K");
    }
}

/// A number with a comma before each three digits.
pub fn grouped(number: u64) -> String {
    let digits = number.to_string();
    let mut text = String::new();
    for (i, digit) in digits.chars().enumerate() {
        if i > 0 && (digits.len() - i) % 3 == 0 {
            text.push(',');
        }
        text.push(digit);
    }
    text
}
