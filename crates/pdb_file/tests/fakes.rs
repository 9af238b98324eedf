//! Readers that fail, for tests.

use crate::ReadAt;
use std::cell::Cell;
use std::fmt::Debug;
use std::io::{self, ErrorKind, Read};
use std::process::Abort;

// What was given is what was wanted: one proof for all comparisons of a type.
pub fn is<T: PartialEq + Debug>(rt: &impl Abort, label: &str, given: &T, wanted: &T) {
    assert!(rt; given == wanted, "{label}: {given:?}, and not {wanted:?}");
}

/// A reader without an end of which the call of this number fails, counted from 0, and no other.
#[derive(Drop)]
pub struct FailsOnce {
    left: Option<u32>,
}

impl FailsOnce {
    pub fn at(call: u32) -> Self {
        FailsOnce { left: Some(call) }
    }

    /// One more call: whether it fails.
    fn fails(&mut self) -> bool {
        let fails = self.left == Some(0);
        self.left = match self.left {
            Some(left) => left.checked_sub(1),
            None => None,
        };
        fails
    }
}

impl Read for FailsOnce {
    fn read(&mut self, buf: &mut [u8]) -> io::Result<usize> {
        if self.fails() {
            return Err(io::Error::from(ErrorKind::Other));
        }
        if self.left.is_none() {
            return Ok(0);
        }
        let count = buf.len().min(2);
        buf[..count].fill(b'r');
        Ok(count)
    }
}

/// A reader that gives as much as it is asked for, until it has given so many bytes.
#[derive(Drop)]
pub struct Plenty {
    left: usize,
}

impl Plenty {
    pub fn of(left: usize) -> Self {
        Plenty { left }
    }
}

impl Read for Plenty {
    fn read(&mut self, buf: &mut [u8]) -> io::Result<usize> {
        let count = buf.len().min(self.left);
        buf[..count].fill(b'p');
        self.left -= count;
        Ok(count)
    }
}

/// A reader that gives three bytes a call for some calls, and then ends or fails.
#[derive(Drop)]
pub struct ThreeBytes {
    calls: u32,
    fails: bool,
}

impl ThreeBytes {
    pub fn ending(calls: u32) -> Self {
        ThreeBytes {
            calls,
            fails: false,
        }
    }

    pub fn failing(calls: u32) -> Self {
        ThreeBytes { calls, fails: true }
    }
}

impl Read for ThreeBytes {
    fn read(&mut self, buf: &mut [u8]) -> io::Result<usize> {
        if self.calls > 0 && buf.len() >= 3 {
            self.calls -= 1;
            buf[..3].copy_from_slice(b"abc");
            return Ok(3);
        }
        if self.fails {
            return Err(io::Error::from(ErrorKind::Other));
        }
        Ok(0)
    }
}

/// A file in memory that counts its reads. One read fails, or the file ends early.
#[derive(Drop)]
pub struct Counted<'b> {
    bytes: &'b [u8],
    reads: Cell<u32>,
    given: Cell<u64>,
    fails: Option<u32>,
}

impl<'b> Counted<'b> {
    /// A file that no read fails of.
    pub fn of(bytes: &'b [u8]) -> Self {
        Counted {
            bytes,
            reads: Cell::new(0),
            given: Cell::new(0),
            fails: None,
        }
    }

    /// A file of which the read of this number fails, counted from 0, and no other.
    pub fn failing(bytes: &'b [u8], read: u32) -> Self {
        Counted {
            bytes,
            reads: Cell::new(0),
            given: Cell::new(0),
            fails: Some(read),
        }
    }

    /// How many reads there were.
    pub fn reads(&self) -> u32 {
        self.reads.get()
    }

    /// How many bytes they gave.
    pub fn given(&self) -> u64 {
        self.given.get()
    }
}

impl<'b> ReadAt for Counted<'b> {
    ghost use Rattle.std.specs.Prelude.{None, false};

    ghost known = { λ _. None };

    ghost is_steady = { λ _. false };

    fn read_bytes_at(&self, buf: &mut [u8], at: u64) -> io::Result<usize> {
        let read = self.reads.get();
        self.reads.set(read.saturating_add(1));
        if self.fails == Some(read) {
            return Err(io::Error::from(ErrorKind::Other));
        }
        if at >= self.bytes.len() as u64 {
            return Ok(0);
        }
        let rest = self.bytes.split_at(at as usize).1;
        let count = rest.len().min(buf.len());
        buf[..count].copy_from_slice(&rest[..count]);
        self.given
            .set(self.given.get().saturating_add(count as u64));
        Ok(count)
    }

    fn borrow_at(&self, _at: u64, _size: usize) -> Option<&[u8]> {
        None
    }

    fn steady_size(&self) -> Option<u64> {
        None
    }
}
