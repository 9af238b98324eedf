//! Indexes that are damaged, and bytes that are none.

use super::is;
use crate::tests::sample::{changed, sample};
use crate::*;
use std::alloc::{AllocError, Global};
use std::test::Fail;

/// The error of the index by hand with other bytes at an offset.
fn error(alloc: Global, at: usize, part: &[u8]) -> Result<Option<OpenError>, AllocError> {
    let bytes = changed(alloc, at, part)?;
    Ok(Index::open(&bytes).err())
}

#[test]
fn one_field_of_the_header(rt: HostRuntime) -> Result<(), Fail> {
    for (label, at, byte, wanted) in [
        ("front", 0, 0x50, Some(OpenError::NotAnIndex)),
        ("front's end", 7, 0, Some(OpenError::NotAnIndex)),
        ("version", 8, 2, Some(OpenError::Version)),
        ("version", 11, 1, Some(OpenError::Version)),
        ("flags", 12, 0xff, None),
        ("segments", 40, 4, Some(OpenError::Length)),
        ("sections", 44, 2, Some(OpenError::Length)),
        ("runs", 0x30, 9, Some(OpenError::Length)),
        ("nodes", 52, 6, Some(OpenError::Length)),
        ("functions", 56, 3, Some(OpenError::Length)),
        ("files", 60, 1, Some(OpenError::Length)),
        ("names", 64, 8, Some(OpenError::Length)),
        ("names", 67, 0xff, Some(OpenError::Length)),
        ("width of values", 80, 2, Some(OpenError::Length)),
        ("width of columns", 85, 1, Some(OpenError::Length)),
        ("shift", 86, 31, None),
        ("shift", 86, 32, Some(OpenError::Length)),
        ("steps", 88, 1, Some(OpenError::Length)),
    ] {
        is(&rt, label, &error(rt.alloc(), at, &[byte])?, &wanted);
    }
    Ok(())
}

#[test]
fn widths_above_four(rt: HostRuntime) -> Result<(), Fail> {
    // Without rows of values and nodes their widths change no length.
    for at in 80..86 {
        let mut bytes = changed(rt.alloc(), 48, &[0, 0, 0, 0, 0])?;
        bytes.truncate(271 - 40 - 28);
        is(&rt, "whole", &Index::open(&bytes).err(), &None);
        if at < bytes.len() {
            bytes[at] = 4;
            is(&rt, "four", &Index::open(&bytes).err(), &None);
            bytes[at] = 5;
            is(
                &rt,
                "five",
                &Index::open(&bytes).err(),
                &Some(OpenError::Length),
            );
        }
    }
    Ok(())
}

#[test]
fn cuts(rt: HostRuntime) -> Result<(), Fail> {
    let bytes = sample(rt.alloc())?;
    for size in 0..271 {
        let wanted = if size < 96 {
            OpenError::NotAnIndex
        } else {
            OpenError::Length
        };
        if size < bytes.len() {
            is(
                &rt,
                "cut",
                &Index::open(&bytes[..size]).err(),
                &Some(wanted),
            );
        }
    }
    Ok(())
}

#[test]
fn texts_of_errors(rt: HostRuntime) -> Result<(), Fail> {
    for (error, wanted) in [
        (OpenError::NotAnIndex, "is no index of version 1"),
        (OpenError::Version, "is no index of version 1"),
        (OpenError::Length, "the index is cut or has bytes behind it"),
    ] {
        let text = format!(in rt.alloc(); "{error}")?;
        is(&rt, "text", &text.as_str(), &wanted);
    }
    let text = format!(in rt.alloc(); "{}", Damaged)?;
    is(&rt, "text", &text.as_str(), &"the index is damaged");
    Ok(())
}

/// Looks some addresses up, and returns how many frames they have at most.
fn look_up(bytes: &[u8]) -> usize {
    let mut most = 0;
    let Ok(index) = Index::open(bytes) else {
        return 0;
    };
    for address in [
        0,
        0xfff,
        0x1000,
        0x1104,
        0x110e,
        0x1110,
        0x1140,
        0x2000,
        0xffff_ffff,
    ] {
        if let Ok(frames) = index.frames(address) {
            most = most.max(frames.count());
        }
    }
    most
}

#[test]
fn each_byte_changed(rt: HostRuntime) -> Result<(), Fail> {
    for at in 0..271 {
        for byte in [0, 1, 2, 5, 0x7f, 0xff] {
            let bytes = changed(rt.alloc(), at, &[byte])?;
            let most = look_up(&bytes);
            // At most as many as the header says, and the error behind them.
            if at != 0x44 {
                assert!(rt; most <= 3, "{most} frames at {at}");
            }
        }
    }
    Ok(())
}

#[test]
fn damaged_tables(rt: HostRuntime) -> Result<(), Fail> {
    for (label, at, part, address) in [
        (
            "first segment behind the address",
            0x60,
            &[1, 0, 0, 0][..],
            0,
        ),
        ("section 65536", 0x70, &[0, 0, 1], 0x1100),
        ("section 65537", 0x72, &[1], 0x1100),
        ("first run behind the last", 0x88, &[8], 0x1100),
        ("last run behind the runs", 0x90, &[9], 0x1100),
        ("first start behind the offset", 0x94, &[1], 0x1000),
    ] {
        let bytes = changed(rt.alloc(), at, part)?;
        let error = Index::open(&bytes)?.frames(address).err();
        is(&rt, label, &error, &Some(Damaged));
    }
    for (label, at, byte) in [
        ("node 7", 0xb8, 14),
        ("function 2", 0xcd, 2),
        ("file 2", 0xce, 2),
        ("name past the end", 0xec, 8),
        ("file's name past the end", 0x104, 4),
    ] {
        let bytes = changed(rt.alloc(), at, &[byte])?;
        let frames = Index::open(&bytes)?.frames(0x110e)?;
        let last = frames.last();
        is(&rt, label, &last, &Some(Err(Damaged)));
    }
    Ok(())
}

#[test]
fn starts_that_fall(rt: HostRuntime) -> Result<(), Fail> {
    let bytes = changed(rt.alloc(), 0xa4, &[0x10, 1, 0, 0, 0x0e, 1, 0, 0])?;
    let index = Index::open(&bytes)?;
    let run = index.run_at(Place {
        section: 1,
        offset: 0x10f,
    })?;
    is(&rt, "some run", &run.map(|run| run.number < 8), &Some(true));
    Ok(())
}

#[test]
fn random_bytes_behind_a_header(rt: HostRuntime) -> Result<(), Fail> {
    let mut state = 1u32;
    for round in 0..400u32 {
        let mut bytes = sample(rt.alloc())?;
        for at in 96..271 {
            state = state.wrapping_mul(1_664_525).wrapping_add(1_013_904_223);
            if at < bytes.len() && round % 8 < state >> 29 {
                bytes[at] = (state >> 21 & 0xff) as u8;
            }
        }
        let most = look_up(&bytes);
        assert!(rt; most <= 3, "{most} frames in round {round}");
    }
    Ok(())
}
