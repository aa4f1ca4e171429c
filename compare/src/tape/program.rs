//! How processes are started: our tape program, and this one once more.
//! `compare/run` says it in two variables, a word of the command a line.
use std::process::Command;
use std::thread::{self, JoinHandle};

/// Our tape program.
pub fn tape() -> Command {
    command(TAPE).unwrap_or_else(|| panic!("{TAPE} says how our tape program is started"))
}

/// This program with the word that makes it the original behind the tape.
pub fn original() -> Option<Command> {
    let mut command = command("COMPARE_COMMAND")?;
    command.arg("tape-original");
    Some(command)
}

const TAPE: &str = "TAPE_COMMAND";

/// C's set of signals.
type Signals = [u64; 16];
extern "C" {
    fn pthread_sigmask(how: i32, set: *const Signals, old: *mut Signals) -> i32;
}
pub const SIGPIPE: i32 = 13;
const BLOCK: i32 = 0;

/// A thread that may write to a process that is gone: it is told so, where
/// others would be ended by SIGPIPE.
pub fn writer<R: Send + 'static>(write: impl FnOnce() -> R + Send + 'static) -> JoinHandle<R> {
    thread::spawn(move || {
        let mut set = [0; 16];
        set[0] = 1 << (SIGPIPE - 1);
        unsafe { pthread_sigmask(BLOCK, &set, std::ptr::null_mut()) };
        write()
    })
}

fn command(variable: &str) -> Option<Command> {
    let words = std::env::var(variable).ok()?;
    let mut words = words.lines();
    let mut command = Command::new(words.next()?);
    command.args(words);
    Some(command)
}
