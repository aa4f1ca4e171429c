// Stands in for what a program is given by its host: standard input in memory, for each thread its own. A read gets what is left of one piece
// of it. What is written goes to one place with standard error, or, where the device is full, nowhere.
use std::cell::{Cell, RefCell};
pub use std::io::{Error, Read, Result, Write};

thread_local! {
    pub static READY: RefCell<Vec<Vec<u8>>> = const { RefCell::new(Vec::new()) };
    pub static WRITTEN: RefCell<Vec<u8>> = const { RefCell::new(Vec::new()) };
    pub static FULL: Cell<bool> = const { Cell::new(false) };
}

pub struct HostRuntime;

impl HostRuntime {
    pub fn stdin(&self) -> Stdin {
        Stdin
    }

    pub fn stdout(&self) -> Stdout {
        Stdout
    }

    pub fn stderr(&self) -> Stderr {
        Stderr
    }
}

pub struct Stdin;

impl Read for Stdin {
    fn read(&mut self, bytes: &mut [u8]) -> std::io::Result<usize> {
        READY.with(|ready| {
            let mut ready = ready.borrow_mut();
            let Some(piece) = ready.first_mut() else {
                return Ok(0);
            };
            let n = bytes.len().min(piece.len());
            bytes[..n].copy_from_slice(&piece[..n]);
            piece.drain(..n);
            if piece.is_empty() {
                ready.remove(0);
            }
            Ok(n)
        })
    }
}

pub struct Stdout;

impl Write for Stdout {
    fn write(&mut self, bytes: &[u8]) -> std::io::Result<usize> {
        if FULL.with(|full| full.get()) {
            return Err(std::io::ErrorKind::StorageFull.into());
        }
        Stderr.write(bytes)
    }

    fn flush(&mut self) -> std::io::Result<()> {
        Ok(())
    }
}

pub struct Stderr;

impl Write for Stderr {
    fn write(&mut self, bytes: &[u8]) -> std::io::Result<usize> {
        WRITTEN.with(|written| written.borrow_mut().extend_from_slice(bytes));
        Ok(bytes.len())
    }

    fn flush(&mut self) -> std::io::Result<()> {
        Ok(())
    }
}
