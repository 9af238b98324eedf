//! Readers and writers that fail, for tests.

use pdb_file::ReadAt;
use std::alloc::Global;
use std::cell::Cell;
use std::fmt::Debug;
use std::io::{self, ErrorKind, Read, Write};
use std::process::Abort;

// What was given is what was wanted: one proof for all comparisons of a type.
pub fn is<T: PartialEq + Debug>(rt: &impl Abort, label: &str, given: &T, wanted: &T) {
    assert!(rt; given == wanted, "{label}: {given:?}, and not {wanted:?}");
}

/// A writer that takes at most `step` bytes a call, and fails from the call of number `calls` on, counted from 0.
#[derive(Drop)]
pub struct Slow {
    taken: Vec<u8>,
    step: usize,
    calls: u32,
}

impl Slow {
    pub fn new(alloc: Global, step: usize, calls: u32) -> Self {
        Slow {
            taken: Vec::new(alloc),
            step,
            calls,
        }
    }

    pub fn taken(&self) -> &[u8] {
        self.taken.as_slice()
    }
}

impl Write for Slow {
    fn write(&mut self, buf: &[u8]) -> io::Result<usize> {
        if self.calls == 0 {
            return Err(io::Error::from(ErrorKind::Other));
        }
        self.calls -= 1;
        let count = self.step.min(buf.len());
        self.taken.extend_from_slice(&buf[..count])?;
        Ok(count)
    }

    fn flush(&mut self) -> io::Result<()> {
        Ok(())
    }
}

/// A file in memory that gives at most `step` bytes a read; after so many reads it fails or ends.
#[derive(Drop)]
pub struct Places<'b> {
    bytes: &'b [u8],
    step: usize,
    left: Cell<u32>,
    fails: bool,
}

impl<'b> Places<'b> {
    pub fn of(bytes: &'b [u8], step: usize) -> Self {
        Places::ending(bytes, step, u32::MAX, false)
    }

    pub fn ending(bytes: &'b [u8], step: usize, reads: u32, fails: bool) -> Self {
        Places {
            bytes,
            step,
            left: Cell::new(reads),
            fails,
        }
    }
}

impl<'b> ReadAt for Places<'b> {
    ghost use Rattle.std.specs.Prelude.{None, false};

    ghost known = { λ _. None };

    ghost is_steady = { λ _. false };

    fn read_bytes_at(&self, buf: &mut [u8], at: u64) -> io::Result<usize> {
        let left = self.left.get();
        if left == 0 && self.fails {
            return Err(io::Error::from(ErrorKind::Other));
        }
        if left == 0 || at >= self.bytes.len() as u64 {
            return Ok(0);
        }
        self.left.set(left - 1);
        let rest = self.bytes.split_at(at as usize).1;
        let count = rest.len().min(buf.len()).min(self.step);
        buf[..count].copy_from_slice(&rest[..count]);
        Ok(count)
    }

    fn borrow_at(&self, _at: u64, _size: usize) -> Option<&[u8]> {
        None
    }

    fn steady_size(&self) -> Option<u64> {
        None
    }
}
