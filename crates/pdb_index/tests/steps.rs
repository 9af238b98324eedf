//! Steps: the hint changes no answer, right or wrong.

use super::is;
use crate::tests::sample::sample;
use crate::*;
use std::alloc::{AllocError, Global};
use std::test::Fail;

/// The index by hand with three steps of 256 bytes, which say so many runs.
fn stepped(alloc: Global, steps: [u8; 3]) -> Result<Vec<u8>, AllocError> {
    let plain = sample(alloc)?;
    let mut bytes = Vec::new(alloc);
    for (at, byte) in plain.iter().enumerate() {
        // Behind each row of sections the number of its first step, and behind the sections the steps.
        let behind: &[u8] = match at {
            0x8c => &[0, 0, 0, 0],
            0x94 => &[3, 0, 0, 0],
            _ => &[],
        };
        bytes.extend_from_slice(behind)?;
        if at == 0x94 {
            for step in steps {
                bytes.extend_from_slice(&[step, 0, 0, 0])?;
            }
        }
        bytes.push(match at {
            86 => 8,
            88 => 3,
            _ => *byte,
        })?;
    }
    Ok(bytes)
}

#[test]
fn hints_change_no_answer(rt: HostRuntime) -> Result<(), Fail> {
    let plain = sample(rt.alloc())?;
    let plain = Index::open(&plain)?;
    for steps in [
        [0, 1, 8],
        [0, 0, 0],
        [8, 8, 8],
        [1, 5, 9],
        [5, 6, 7],
        [3, 255, 0],
        [4, 1, 2],
    ] {
        let bytes = stepped(rt.alloc(), steps)?;
        let index = Index::open(&bytes)?;
        for offset in 0..0x400 {
            let place = Place { section: 1, offset };
            is(&rt, "run", &index.run_at(place), &plain.run_at(place));
        }
        let last = Place {
            section: 1,
            offset: 0xffff_ffff,
        };
        is(&rt, "last", &index.run_at(last), &plain.run_at(last));
    }
    Ok(())
}

#[test]
fn steps_of_no_section(rt: HostRuntime) -> Result<(), Fail> {
    let plain = sample(rt.alloc())?;
    let plain = Index::open(&plain)?;
    for (at, part) in [(0x8c, [9, 0, 0, 0]), (0x8c, [0xff; 4]), (0x98, [0xff; 4])] {
        let mut bytes = stepped(rt.alloc(), [0, 1, 8])?;
        for (i, byte) in part.iter().enumerate() {
            if at + i < bytes.len() {
                bytes[at + i] = *byte;
            }
        }
        let index = Index::open(&bytes)?;
        for offset in 0..0x200 {
            let place = Place { section: 1, offset };
            is(&rt, "run", &index.run_at(place), &plain.run_at(place));
        }
    }
    Ok(())
}
