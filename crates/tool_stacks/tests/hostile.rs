//! Long lines, and texts of many lines.

use super::fakes::{Fake, is};
use crate::{KnownModule, StackText};
use pdb_stacks::ReturnAddresses;
use std::alloc::{AllocError, Global};
use std::test::Fail;

/// A program that has the PDB of `app`.
fn program<'a>() -> Fake<'a> {
    Fake {
        name: b"app",
        module: KnownModule::Pdb { is_x86: false },
        begin: 0,
        frames: &[
            (
                0x1108,
                b"    tour::clamp /tour/./tour.h:12:0 (inlined)\n    nested /tour/main.cpp:63:23\n",
            ),
            (
                0x10c6,
                b"    unroll<3>::run /tour/main.cpp:48:0 (inlined)\n    unroll<4>::run /tour/main.cpp:48:0 (inlined)\n    nested /tour/main.cpp:62:13\n",
            ),
        ],
    }
}

/// How many bytes and lines are written of a line that is a text so many times.
fn sizes(alloc: Global, text: &[u8], times: usize) -> Result<(usize, usize), AllocError> {
    let mut line = Vec::new(alloc);
    for _ in 0..times {
        line.extend_from_slice(text)?;
    }
    let mut out = Vec::new(alloc);
    let mut stack = StackText::new(alloc, ReturnAddresses::ButFirst);
    stack.put_line(&mut out, &mut program(), &line, true)?;
    Ok((out.len(), out.iter().filter(|b| **b == b'\n').count()))
}

#[test]
fn long_lines(rt: HostRuntime) -> Result<(), Fail> {
    let rows: [(&[u8], usize, (usize, usize)); 2] = [
        (b"app+0x1108 ", 10_000, (110_079, 3)),
        (b"app+0x1108 app+0x10c6 ", 5_000, (1_150_001, 25_001)),
    ];
    for (text, times, wanted) in rows {
        is(&rt, "sizes", &sizes(rt.alloc(), text, times)?, &wanted);
    }
    Ok(())
}

#[test]
fn many_modules(rt: HostRuntime) -> Result<(), Fail> {
    let mut stack = StackText::new(rt.alloc(), ReturnAddresses::ButFirst);
    let mut out = Vec::new(rt.alloc());
    let mut fake = program();
    for k in 1..1_201_u64 {
        let start = k * 0x10_0000;
        let end = start + 4096;
        let line = format!(in rt.alloc(); "{start:016x} {end:016x} m{k}")?;
        stack.put_line(&mut out, &mut fake, line.as_bytes(), true)?;
    }
    stack.put_line(&mut out, &mut fake, b"0x000000003e800000", true)?;
    is(&rt, "bytes", &out.len(), &46_912);
    is(&rt, "missing", &stack.missing().len(), &1);
    for missing in stack.missing() {
        is(&rt, "name", &missing.name.as_slice(), &b"m1000".as_slice());
        is(&rt, "count", &missing.count, &1);
    }
    is(&rt, "answered", &stack.is_answered(), &false);
    Ok(())
}
