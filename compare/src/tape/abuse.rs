//! Our tape program under ill treatment. What it does is said; anything else
//! than is written here counts as a disagreement.
use super::lines::{self, Lines};
use super::{program, second_reading};
use crate::kinds::Comparison;
use crate::progress::grouped;
use crate::random::Random;
use crate::summary::Summary;
use std::fs::File;
use std::io::{Read, Write};
use std::os::fd::OwnedFd;
use std::os::unix::net::UnixDatagram;
use std::os::unix::process::{CommandExt, ExitStatusExt};
use std::process::{Child, ChildStdin, Command, Stdio};
use std::thread::{self, sleep, JoinHandle};
use std::time::{Duration, Instant};

/// 01's T1, and what it answers.
const T1: &[u8] = b"4753554200000000010000000000000100000007000000020000000500000001000000000000010100000007000000010000000000000101";
const T1_ANSWER: &str = "00000200020200000001";

/// A process that takes longer hangs.
const PATIENCE: Duration = Duration::from_secs(900);
const PIECE: usize = 1 << 16;
const GIBIBYTE: usize = 1 << 30;
/// By how many KiB the peak may grow from a short tape to a line of 1 GiB.
const GROWTH: u64 = 1024;

extern "C" {
    fn signal(number: i32, handler: usize) -> usize;
    fn close(fd: i32) -> i32;
    fn kill(process: i32, number: i32) -> i32;
}
const SIGCONT: i32 = 18;
const SIGSTOP: i32 = 19;
const IGNORED: usize = 1;

fn ignore_broken_pipes() {
    unsafe { signal(program::SIGPIPE, IGNORED) };
}

struct Abuse {
    summary: Summary,
    treated: Vec<Treated>,
}

/// What our program did under a treatment, and to how much.
struct Treated {
    kind: &'static str,
    did: String,
    times: u64,
    bytes: usize,
    answers: usize,
    /// Answers other than FF.
    others: usize,
}

pub fn comparison() -> Box<dyn Comparison> {
    Box::new(Abuse { summary: Summary::new("tape-abuse", &[]), treated: vec![] })
}

impl Comparison for Abuse {
    fn exhaust(&mut self) {
        self.broken_outputs();
        self.broken_inputs();
        self.ends_of_tapes();
        self.pieces();
        self.slow_ends();
        self.long_line();
    }

    /// Four bytes a step, of three kinds.
    fn draw(&mut self, steps: u64, seed: u64) {
        let random = &mut Random::new(seed);
        let count = 4 * steps as usize;
        let bytes: Vec<u8> = (0..count).map(|_| random.next() as u8).collect();
        self.whole("random bytes", &bytes);
        let digits = b"0123456789ABCDEFabcdef\n";
        let digits: Vec<u8> = (0..count).map(|_| random.pick(digits)).collect();
        self.whole("random digits and 0A", &digits);
        let mut tape = frames(count, seed);
        for _ in 0..tape.len() / 2000 {
            let at = random.below(tape.len() as u64) as usize;
            tape[at] = random.next() as u8;
        }
        self.whole("frames with one byte in 2,000 replaced", &tape);
    }

    fn finish(mut self: Box<Self>) -> Summary {
        for Treated { kind, did, times, bytes, answers, others } in self.treated {
            let [times, bytes, answers, others] =
                [times, bytes as u64, answers as u64, others as u64].map(grouped);
            let much = match &answers[..] {
                "0" => String::new(),
                _ => format!(", {bytes} bytes, {answers} answers, {others} of them not FF"),
            };
            self.summary.note(format!("{times} times {kind}: {did}{much}"));
        }
        self.summary
    }
}

/// Lines of a tape up to about so many bytes.
fn frames(count: usize, seed: u64) -> Vec<u8> {
    let mut tape = vec![];
    for line in Lines::new(count as u64, seed) {
        tape.extend(line.bytes);
        tape.push(b'\n');
        if tape.len() >= count {
            break;
        }
    }
    tape
}

// ---- a process

/// How a process ended, what it answered, and its peak in KiB.
struct Ended {
    how: String,
    answers: Vec<u8>,
    peak: u64,
}

impl Ended {
    /// In few words.
    fn shown(&self) -> String {
        let answers = String::from_utf8_lossy(&self.answers);
        let lines: Vec<&str> = answers.lines().collect();
        match lines.len() {
            0..=4 => format!("{}, answers {lines:?}", self.how),
            n => format!("{}, {} answers", self.how, grouped(n as u64)),
        }
    }
}

/// Follows a process to its end; `reader` gathers its answers.
fn follow(mut child: Child, reader: Option<JoinHandle<Vec<u8>>>) -> Ended {
    let began = Instant::now();
    let mut peak = 0;
    let how = loop {
        peak = peak_of(&child).unwrap_or(peak);
        if let Some(status) = child.try_wait().expect("a process of ours") {
            break match (status.code(), status.signal()) {
                (Some(code), _) => format!("status {code}"),
                (_, number) => format!("ended by signal {}", number.unwrap_or(0)),
            };
        }
        if began.elapsed() > PATIENCE {
            child.kill().expect("a process of ours");
            child.wait().expect("a process of ours");
            break "doesn't end".to_string();
        }
        sleep(Duration::from_micros(500));
    };
    let answers = reader.map_or(vec![], |reader| reader.join().expect("answers are read"));
    Ended { how, answers, peak }
}

/// The most memory that it has had so far.
fn peak_of(child: &Child) -> Option<u64> {
    let status = std::fs::read_to_string(format!("/proc/{}/status", child.id())).ok()?;
    let line = status.lines().find(|line| line.starts_with("VmHWM:"))?;
    line.split_whitespace().nth(1)?.parse().ok()
}

fn start(command: &mut Command) -> Child {
    command.spawn().expect("our tape program is started")
}

fn gather(child: &mut Child, wait: Duration) -> Option<JoinHandle<Vec<u8>>> {
    let mut output = child.stdout.take()?;
    Some(thread::spawn(move || {
        sleep(wait);
        let mut answers = vec![];
        output.read_to_end(&mut answers).expect("answers are read");
        answers
    }))
}

/// Lets a thread write to a process, which is then followed.
fn fed(mut child: Child, write: impl FnOnce(&mut ChildStdin) + Send + 'static) -> Ended {
    let mut input = child.stdin.take().expect("a pipe");
    let writer = program::writer(move || write(&mut input));
    let reader = gather(&mut child, Duration::ZERO);
    let ended = follow(child, reader);
    writer.join().expect("the tape is written");
    ended
}

fn piped() -> Command {
    let mut command = program::tape();
    command.stdin(Stdio::piped()).stdout(Stdio::piped());
    command
}

/// Does something in the process that is about to become our program.
fn beforehand(command: &mut Command, first: impl Fn() + Send + Sync + 'static) {
    let first = move || {
        first();
        Ok(())
    };
    unsafe { command.pre_exec(first) };
}

fn close_it(descriptor: i32) {
    unsafe { close(descriptor) };
}

/// Writes the same lines until they are all written, or nobody reads them;
/// answers how many bytes.
fn write_frames(input: &mut ChildStdin, bytes: usize) -> usize {
    let piece = [T1, b"\n"].concat().repeat(500);
    let mut written = 0;
    while written < bytes && input.write_all(&piece).is_ok() {
        written += piece.len();
    }
    written
}

// ---- the treatments

impl Abuse {
    fn report(&mut self, kind: &'static str, did: String, expected: &str) -> &mut Treated {
        self.summary.input(kind);
        self.summary.compare_with_paper(&expected.to_string(), &did, || kind.to_string());
        let same = |treated: &Treated| treated.kind == kind && treated.did == did;
        let at = self.treated.iter().position(same).unwrap_or_else(|| {
            let new = Treated { kind, did, times: 0, bytes: 0, answers: 0, others: 0 };
            self.treated.push(new);
            self.treated.len() - 1
        });
        self.treated[at].times += 1;
        &mut self.treated[at]
    }

    /// A whole tape through a pipe.
    fn whole(&mut self, kind: &'static str, tape: &[u8]) {
        let written = tape.to_vec();
        // Where our program is gone, its answers tell.
        let ended = fed(start(&mut piped()), move |input| drop(input.write_all(&written)));
        self.compare_answers(kind, tape, &ended);
    }

    fn compare_answers(&mut self, kind: &'static str, tape: &[u8], ended: &Ended) {
        let expected = second_reading(tape);
        let same = if ended.answers == expected { "the" } else { "OTHER THAN the" };
        let did = format!("{}, {same} second reading's answers", ended.how);
        let treated = self.report(kind, did, "status 0, the second reading's answers");
        let answers = expected.split_inclusive(|&byte| byte == b'\n');
        treated.bytes += tape.len();
        treated.answers += answers.clone().count();
        treated.others += answers.filter(|&answer| answer != b"FF\n").count();
    }

    /// Nobody reads the answers, or nobody can.
    fn broken_outputs(&mut self) {
        const MANY: usize = 1 << 23;
        let unread = |mut command: Command| {
            let mut child = start(command.stdin(Stdio::piped()));
            drop(child.stdout.take());
            let mut input = child.stdin.take().expect("a pipe");
            let writer = program::writer(move || write_frames(&mut input, MANY));
            let how = follow(child, None).how;
            let written = writer.join().expect("the tape is written");
            format!("{how}, {}", if written >= MANY { "reads all" } else { "stops reading" })
        };
        let did = unread(piped());
        self.report("the reader is gone", did, "status 0, stops reading");
        let mut command = piped();
        beforehand(&mut command, ignore_broken_pipes);
        let did = unread(command);
        self.report("the reader is gone, SIGPIPE ignored", did, "status 0, stops reading");
        let mut command = program::tape();
        beforehand(&mut command, || close_it(1));
        let did = unread(command);
        self.report("output is closed", did, "status 0, stops reading");
        let mut command = program::tape();
        command.stdout(File::options().write(true).open("/dev/full").expect("a full device"));
        let did = unread(command);
        self.report("output is a full device", did, "status 0, stops reading");
    }

    fn broken_inputs(&mut self) {
        let from = |command: &mut Command| {
            let mut child = start(command.stdout(Stdio::piped()));
            let reader = gather(&mut child, Duration::ZERO);
            follow(child, reader).shown()
        };
        let nothing = "status 0, answers []";
        let mut command = program::tape();
        beforehand(&mut command, || close_it(0));
        self.report("input is closed", from(&mut command), nothing);
        let did = from(program::tape().stdin(Stdio::null()));
        self.report("input is empty", did, nothing);
        let folder = File::open("/").expect("a folder");
        let did = from(program::tape().stdin(folder));
        self.report("input is a folder", did, nothing);
        let unreadable = File::options().write(true).open("/dev/null").expect("a device");
        let did = from(program::tape().stdin(unreadable));
        self.report("input can't be read", did, nothing);
    }

    /// With and without the last 0A.
    fn ends_of_tapes(&mut self) {
        let ended = [T1, b"\n"].concat();
        for tape in [&ended[..], T1, &[&ended[..], b"\n"].concat(), &[&ended[..], T1].concat()] {
            self.whole("a frame or two, with and without the last 0A", tape);
        }
        for corner in lines::corners(1) {
            self.whole("each corner without its 0A", &corner.bytes);
        }
        self.whole("a million times 0A", &vec![b'\n'; 1_000_000]);
    }

    /// A datagram is read whole, and an empty one is the end.
    fn pieces(&mut self) {
        let tape = frames(40_000, 1);
        let mut put = |kind, size: fn(&mut Random) -> usize| {
            let (sender, receiver) = UnixDatagram::pair().expect("two sockets");
            let mut command = program::tape();
            let mut child = start(command.stdin(OwnedFd::from(receiver)).stdout(Stdio::piped()));
            drop(command); // which holds the other end
            let reader = gather(&mut child, Duration::ZERO);
            let random = &mut Random::new(1);
            let mut rest = &tape[..];
            while !rest.is_empty() {
                let (piece, others) = rest.split_at(size(random).min(rest.len()));
                rest = others;
                if sender.send(piece).is_err() {
                    break;
                }
            }
            let _ = sender.send(&[]);
            let ended = follow(child, reader);
            self.compare_answers(kind, &tape, &ended);
        };
        put("pieces of one byte", |_| 1);
        put("pieces of two bytes", |_| 2);
        put("pieces of 1 to 9,000 bytes", |random| 1 + random.below(9000) as usize);
    }

    /// A reader that waits until the pipe is full, and a process that is
    /// stopped for a while.
    fn slow_ends(&mut self) {
        let tape = frames(2_000_000, 2);
        let mut child = start(&mut piped());
        let mut input = child.stdin.take().expect("a pipe");
        let written = tape.clone();
        let writer = program::writer(move || drop(input.write_all(&written)));
        let reader = gather(&mut child, Duration::from_secs(1));
        let ended = follow(child, reader);
        writer.join().expect("the tape is written");
        self.compare_answers("answers are read after a second", &tape, &ended);

        let child = start(&mut piped());
        let process = child.id() as i32;
        let written = tape.clone();
        let ended = fed(child, move |input| {
            for piece in written.chunks(written.len() / 10 + 1) {
                if input.write_all(piece).is_err() {
                    return; // it is gone, and its number may be another's
                }
                sleep(Duration::from_millis(20));
                unsafe { kill(process, SIGSTOP) };
                sleep(Duration::from_millis(20));
                unsafe { kill(process, SIGCONT) };
            }
        });
        self.compare_answers("stopped and continued ten times", &tape, &ended);
    }

    /// Memory must not grow with a line.
    fn long_line(&mut self) {
        let long = |bytes: usize| {
            fed(start(&mut piped()), move |input| {
                let piece = vec![b'0'; PIECE];
                for _ in 0..bytes / PIECE {
                    if input.write_all(&piece).is_err() {
                        return;
                    }
                }
                let _ = input.write_all(&[b"\n", T1].concat());
                // So that the peak is seen before the process is gone.
                sleep(Duration::from_millis(50));
            })
        };
        let (short, long) = (long(PIECE), long(GIBIBYTE));
        let expected = format!("status 0, answers [\"FF\", \"{T1_ANSWER}\"], memory doesn't grow");
        let grows = long.peak > short.peak + GROWTH;
        let did =
            format!("{}, memory {}", long.shown(), if grows { "GROWS" } else { "doesn't grow" });
        self.report("a line of 1 GiB, then a frame", did, &expected);
        self.summary.note(format!(
            "peak of its memory with a line of 1 GiB {} KiB, with a line of 64 KiB {} KiB",
            grouped(long.peak),
            grouped(short.peak)
        ));
    }
}
