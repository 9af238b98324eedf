//! Lines that would cost much, if each module looked for the end of its symbol anew.

use super::fakes::is;
use crate::{Reference, put_references};
use std::alloc::{AllocError, Global};
use std::test::Fail;

/// A text so many times.
fn repeated(alloc: Global, text: &[u8], times: usize) -> Result<Vec<u8>, AllocError> {
    let mut out = Vec::new(alloc);
    for _ in 0..times {
        out.extend_from_slice(text)?;
    }
    Ok(out)
}

/// How many references a line has.
fn count(references: &mut Vec<Reference>, line: &[u8]) -> Result<usize, AllocError> {
    put_references(references, line)?;
    Ok(references.len())
}

#[test]
fn long_lines(rt: HostRuntime) -> Result<(), Fail> {
    let rows: [(&[u8], usize, usize); 7] = [
        (b"app!", 262_144, 0),
        (b"operator!", 116_508, 0),
        (b"app            0x", 50_000, 0),
        (b"+0x1111111111111111111111", 40_000, 0),
        (b"app+0x1108 ", 10_000, 10_000),
        (b"app+0x1108 app+0x10c6 ", 5_000, 10_000),
        (b"app!nested+0x108 app!mainCRTStartup+0x145 ", 5_000, 10_000),
    ];
    let mut references = Vec::new(rt.alloc());
    for (text, times, wanted) in rows {
        let line = repeated(rt.alloc(), text, times)?;
        is(&rt, "references", &count(&mut references, &line)?, &wanted);
    }
    Ok(())
}
