//! Numbers at the ends of their types at each place of the sample.

use super::texts::{INFORMATION, TEXTS, changed, joined};
use crate::SAMPLE_COMMANDS;
use crate::command::Command;
use crate::engine::{RunError, run};
use crate::tests::fakes::{Slow, is};
use pdb::MemorySource;
use std::alloc::Global;
use std::process::Abort;
use std::test::Fail;

/// Numbers of one, two and four bytes.
const ENDS: [&[u8]; 7] = [
    b"\0",
    b"\xff",
    b"\xff\xff",
    b"\0\0\0\0",
    b"\x01\0\0\0",
    b"\xff\xff\xff\x7f",
    b"\xff\xff\xff\xff",
];

/// A run of all commands ends well, or the file isn't opened and nothing is written.
fn ends(rt: &impl Abort, alloc: Global, file: &[u8]) {
    let mut out = Slow::new(alloc, 4096, 4096);
    let ended = run(alloc, MemorySource::new(file), &SAMPLE_COMMANDS, &mut out);
    let well = match ended {
        Ok(()) => true,
        Err(RunError::Open(_)) => out.taken().is_empty(),
        Err(_) => false,
    };
    is(rt, "ended well or not opened", &well, &true);
}

#[test]
fn a_container_with_numbers_at_the_ends_of_their_types(rt: HostRuntime) -> Result<(), Fail> {
    let file = pdb_sample::file(rt.alloc())?;
    // The header, the directory, and the directory's page list.
    for (from, to) in [(0usize, 64usize), (4608, 4680), (5120, 5128)] {
        for at in from..to {
            for number in ENDS {
                let bad = changed(rt.alloc(), &file, at, number)?;
                ends(&rt, rt.alloc(), &bad);
            }
        }
    }
    Ok(())
}

/// A run of all commands over a file ends well, and its text begins and ends in this way.
fn stands_between(
    rt: &impl Abort,
    alloc: Global,
    file: &[u8],
    commands: &[Command],
    begins: &[u8],
    ends: &[u8],
) {
    let mut out = Slow::new(alloc, 4096, 4096);
    let ended = run(alloc, MemorySource::new(file), commands, &mut out);
    is(rt, "ended", &ended, &Ok(()));
    is(rt, "begins", &out.taken().starts_with(begins), &true);
    is(rt, "ends", &out.taken().ends_with(ends), &true);
}

/// At each place of a stream, which has `size` bytes from the place `from` of the file on, numbers at the ends of
/// their types stand in turn. A run ends well, and the texts of the commands that don't read the stream stay: those
/// before the ones that read it, and those behind them.
fn texts_stay(
    rt: &impl Abort,
    alloc: Global,
    (from, size): (usize, usize),
    commands: &[Command],
    before: &[&[u8]],
    behind: &[&[u8]],
) -> Result<(), Fail> {
    let file = pdb_sample::file(alloc)?;
    let begins = joined(alloc, before)?;
    let ends = joined(alloc, behind)?;
    for at in 0..size {
        for number in ENDS {
            let bad = changed(alloc, &file, from.wrapping_add(at), number)?;
            stands_between(rt, alloc, &bad, commands, &begins, &ends);
        }
    }
    Ok(())
}

#[test]
fn an_information_stream_with_numbers_at_the_ends_of_their_types(
    rt: HostRuntime,
) -> Result<(), Fail> {
    let behind = &TEXTS[2..];
    texts_stay(&rt, rt.alloc(), (1536, 67), &SAMPLE_COMMANDS, &[], behind)
}

#[test]
fn a_dbi_stream_with_numbers_at_the_ends_of_their_types(rt: HostRuntime) -> Result<(), Fail> {
    let mut commands = SAMPLE_COMMANDS;
    commands[0] = Command::Names;
    commands[1] = Command::Info;
    let before = [TEXTS[1], INFORMATION];
    texts_stay(&rt, rt.alloc(), (2048, 184), &commands, &before, &[])
}

#[test]
fn streams_with_numbers_at_the_ends_of_their_types(rt: HostRuntime) -> Result<(), Fail> {
    let rows: [((usize, usize), &[&[u8]], &[&[u8]]); 4] = [
        // The global symbols, the module, the strings, the section headers.
        ((2560, 92), &TEXTS[..5], &TEXTS[6..]),
        ((3072, 260), &TEXTS[..6], &[]),
        ((3584, 17), &TEXTS, &TEXTS),
        ((4096, 40), &TEXTS[..4], &TEXTS[5..]),
    ];
    for (place, before, behind) in rows {
        texts_stay(&rt, rt.alloc(), place, &SAMPLE_COMMANDS, before, behind)?;
    }
    Ok(())
}
