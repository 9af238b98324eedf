//! Writers that fail, for tests.

use std::alloc::Global;
use std::fmt::Debug;
use std::io::{self, ErrorKind, Write};
use std::process::Abort;

// What was given is what was wanted: one proof for all comparisons of a type.
pub fn is<T: PartialEq + Debug>(rt: &impl Abort, label: &str, given: &T, wanted: &T) {
    assert!(rt; given == wanted, "{label}: {given:?}, and not {wanted:?}");
}

/// A writer that takes at most `step` bytes a call, and fails from the call of number `calls` on, counted from 0.
#[derive(Drop)]
pub struct Slow {
    taken: Vec<u8>,
    step: usize,
    calls: u32,
}

impl Slow {
    pub fn new(alloc: Global, step: usize, calls: u32) -> Self {
        Slow {
            taken: Vec::new(alloc),
            step,
            calls,
        }
    }

    pub fn taken(&self) -> &[u8] {
        self.taken.as_slice()
    }
}

impl Write for Slow {
    fn write(&mut self, buf: &[u8]) -> io::Result<usize> {
        if self.calls == 0 {
            return Err(io::Error::from(ErrorKind::Other));
        }
        self.calls -= 1;
        let count = self.step.min(buf.len());
        self.taken.extend_from_slice(&buf[..count])?;
        Ok(count)
    }

    fn flush(&mut self) -> io::Result<()> {
        Ok(())
    }
}

/// A writer of which the call of this number fails, counted from 0, and no other.
#[derive(Drop)]
pub struct FailsOnce {
    taken: Vec<u8>,
    left: Option<u32>,
}

impl FailsOnce {
    pub fn at(alloc: Global, call: u32) -> Self {
        FailsOnce {
            taken: Vec::new(alloc),
            left: Some(call),
        }
    }

    pub fn taken(&self) -> &[u8] {
        self.taken.as_slice()
    }

    /// One more call: whether it fails.
    fn fails(&mut self) -> bool {
        let fails = self.left == Some(0);
        self.left = match self.left {
            Some(left) => left.checked_sub(1),
            None => None,
        };
        fails
    }
}

impl Write for FailsOnce {
    fn write(&mut self, buf: &[u8]) -> io::Result<usize> {
        if self.fails() {
            return Err(io::Error::from(ErrorKind::Other));
        }
        let count = buf.len().min(2);
        self.taken.extend_from_slice(&buf[..count])?;
        Ok(count)
    }

    fn flush(&mut self) -> io::Result<()> {
        Ok(())
    }
}

/// A writer that counts how often it is flushed. Each flush behind the first fails.
#[derive(Drop)]
pub struct Flushed {
    flushes: u32,
}

impl Flushed {
    pub fn new() -> Self {
        Flushed { flushes: 0 }
    }

    pub fn flushes(&self) -> u32 {
        self.flushes
    }
}

impl Write for Flushed {
    fn write(&mut self, buf: &[u8]) -> io::Result<usize> {
        Ok(buf.len())
    }

    fn flush(&mut self) -> io::Result<()> {
        self.flushes += 1;
        if self.flushes > 1 {
            return Err(io::Error::from(ErrorKind::Other));
        }
        Ok(())
    }
}
