//! What tests share.

use std::alloc::Global;
use std::fmt::Debug;
use std::io::{self, ErrorKind, Write};
use std::process::Abort;

// What was given is what was wanted: one proof for all comparisons of a type.
pub fn is<T: PartialEq + Debug>(rt: &impl Abort, label: &str, given: &T, wanted: &T) {
    assert!(rt; given == wanted, "{label}: {given:?}, and not {wanted:?}");
}

/// A writer that has room for so many bytes, and fails behind them.
#[derive(Drop)]
pub struct Narrow {
    taken: Vec<u8>,
    room: usize,
}

impl Narrow {
    pub fn new(alloc: Global, room: usize) -> Self {
        Narrow {
            taken: Vec::new(alloc),
            room,
        }
    }

    pub fn taken(&self) -> &[u8] {
        self.taken.as_slice()
    }
}

impl Write for Narrow {
    fn write(&mut self, buf: &[u8]) -> io::Result<usize> {
        let count = self.room.min(buf.len());
        if count == 0 {
            return Err(io::Error::from(ErrorKind::Other));
        }
        self.room -= count;
        self.taken.extend_from_slice(&buf[..count])?;
        Ok(count)
    }

    fn flush(&mut self) -> io::Result<()> {
        Ok(())
    }
}
