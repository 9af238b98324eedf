//! Runs of the program over files made by hand: texts and refusals from outside.

mod command;
mod commands;
mod container;
mod cuts;
mod ends;
mod fakes;
mod from_reader;
mod memory;
mod module_texts;
mod report;
mod sites;
mod sizes;
mod tables;
mod text;
mod texts;
mod views;

use crate::command::Command;
use crate::engine::{RunError, run};
use crate::tests::fakes::{Slow, is};
use pdb::{Error, FallibleIterator, MemorySource, Msf, PDB, Source, StreamIndex};
use pdb_sample::{FailingSource, streams};
use std::alloc::Global;
use std::process::Abort;
use std::test::Fail;
use texts::GLOBALS as TEXT;

const GLOBALS: [Command; 1] = [Command::Globals];

/// The sample with other bytes of streams 3 and 5.
fn sample_of<'b>(alloc: Global, dbi: &'b [u8], symbols: &'b [u8]) -> Result<Vec<u8>, Error> {
    pdb_sample::file_of(
        alloc,
        &[
            Some(&[]),
            Some(&streams::INFORMATION),
            None,
            Some(dbi),
            None,
            Some(symbols),
        ],
    )
}

/// Why a run over a file stopped, if it did.
fn ended(alloc: Global, file: &[u8], commands: &[Command]) -> Option<RunError> {
    run(
        alloc,
        MemorySource::new(file),
        commands,
        &mut Slow::new(alloc, 4096, 4096),
    )
    .err()
}

/// A run over a file writes this text.
fn lists(rt: &impl Abort, alloc: Global, file: &[u8], commands: &[Command], text: &[u8]) {
    let mut out = Slow::new(alloc, 4096, 4096);
    let ended = run(alloc, MemorySource::new(file), commands, &mut out);
    is(rt, "run", &ended, &Ok(()));
    is(rt, "text", &out.taken(), &text);
}

#[test]
fn the_sample_has_six_symbols(rt: HostRuntime) -> Result<(), Fail> {
    let file = pdb_sample::file(rt.alloc())?;
    lists(&rt, rt.alloc(), &file, &GLOBALS, TEXT);
    lists(&rt, rt.alloc(), &file, &[], b"");
    let mut twice = Vec::new(rt.alloc());
    twice.extend_from_slice(TEXT)?;
    twice.extend_from_slice(TEXT)?;
    lists(
        &rt,
        rt.alloc(),
        &file,
        &[Command::Globals, Command::Globals],
        &twice,
    );
    Ok(())
}

#[test]
fn a_file_of_another_format_is_not_opened(rt: HostRuntime) -> Result<(), Fail> {
    let refused = ended(rt.alloc(), b"", &GLOBALS);
    is(
        &rt,
        "refused",
        &refused,
        &Some(RunError::Open(Error::UnrecognizedFileFormat)),
    );
    let mut file = pdb_sample::file(rt.alloc())?;
    if let Some(byte) = file.get_mut(32) {
        *byte = 1;
    }
    let refused = ended(rt.alloc(), &file, &GLOBALS);
    is(
        &rt,
        "refused",
        &refused,
        &Some(RunError::Open(Error::InvalidPageSize(513))),
    );
    Ok(())
}

#[test]
fn a_fault_of_the_list_is_told_after_its_symbols(rt: HostRuntime) -> Result<(), Fail> {
    let file = sample_of(rt.alloc(), &streams::DBI, b"\x02\0\x06\0\x01\0")?;
    let text = b"symbol 00000000 0006 ScopeEnd\nerror 11\n";
    lists(&rt, rt.alloc(), &file, &GLOBALS, text);
    let file = sample_of(
        rt.alloc(),
        &streams::DBI,
        b"\x0c\0\x0e\x11\0\0\0\0\0\0\0\0\0\0",
    )?;
    let text = b"symbol 00000000 110e refused 1\n";
    lists(&rt, rt.alloc(), &file, &GLOBALS, text);
    Ok(())
}

#[test]
fn a_refused_command_is_followed_by_the_next(rt: HostRuntime) -> Result<(), Fail> {
    let mut dbi = streams::DBI;
    dbi[20] = 0xff;
    dbi[21] = 0xff;
    let file = sample_of(rt.alloc(), &dbi, &streams::SYMBOLS)?;
    let commands = [Command::Globals, Command::Globals];
    lists(&rt, rt.alloc(), &file, &commands, b"error 8\nerror 8\n");
    let file = sample_of(rt.alloc(), &dbi[..63], &streams::SYMBOLS)?;
    lists(&rt, rt.alloc(), &file, &GLOBALS, b"error 1\n");
    let file = sample_of(rt.alloc(), &[0; 64], &streams::SYMBOLS)?;
    lists(&rt, rt.alloc(), &file, &GLOBALS, b"error 2\n");
    Ok(())
}

#[test]
fn names_are_written_as_they_are(rt: HostRuntime) -> Result<(), Fail> {
    let symbols = b"\x10\0\x0e\x11\x02\0\0\0\0\x01\0\0\x01\0\xff\x0a\0\0";
    let file = sample_of(rt.alloc(), &streams::DBI, symbols)?;
    let text = b"symbol 00000000 110e Public \xff\n\n";
    lists(&rt, rt.alloc(), &file, &GLOBALS, text);
    Ok(())
}

/// The lines of the sample's first symbols.
fn first_lines(count: usize) -> &'static [u8] {
    let ends = [0, 33, 78, 123, 157, 185, 217];
    let end = if count < 7 { ends[count] } else { 217 };
    TEXT.get(..end).unwrap_or(TEXT)
}

#[test]
fn symbols_cut_at_each_place(rt: HostRuntime) -> Result<(), Fail> {
    let ends = [0usize, 20, 36, 56, 72, 88, 92];
    for k in 0..93usize {
        let file = sample_of(rt.alloc(), &streams::DBI, &streams::SYMBOLS[..k])?;
        let whole = ends.iter().filter(|end| **end <= k && **end > 0).count();
        let mut text = Vec::new(rt.alloc());
        for _ in 0..3 {
            text.extend_from_slice(first_lines(whole))?;
            if !ends.contains(&k) {
                text.extend_from_slice(b"error 1\n")?;
            }
        }
        let commands = [Command::Globals, Command::Globals, Command::Globals];
        lists(&rt, rt.alloc(), &file, &commands, &text);
    }
    Ok(())
}

#[test]
fn a_file_without_its_last_filling_has_all_streams(rt: HostRuntime) -> Result<(), Fail> {
    let file = pdb_sample::file(rt.alloc())?;
    let mut msf = Msf::open(
        rt.alloc(),
        MemorySource::new(file.get(..5124).unwrap_or(&[])),
    )?;
    for (number, size) in [
        (0u32, 0usize),
        (1, 67),
        (3, 184),
        (5, 92),
        (6, 260),
        (7, 17),
        (8, 40),
    ] {
        is(
            &rt,
            "stream",
            &msf.get(number, None)?.as_slice().len(),
            &size,
        );
    }
    Ok(())
}

#[test]
fn a_failing_writer_has_a_beginning(rt: HostRuntime) -> Result<(), Fail> {
    let file = pdb_sample::file(rt.alloc())?;
    for (step, calls, taken) in [
        (3usize, 3u32, 9usize),
        (0, 9, 0),
        (1, 0, 0),
        (1, 100, 100),
        (1, 216, 216),
        (50, 4, 200),
    ] {
        let mut out = Slow::new(rt.alloc(), step, calls);
        let refused = run(rt.alloc(), MemorySource::new(&file), &GLOBALS, &mut out).err();
        is(&rt, "bytes a call", &refused, &Some(RunError::Write));
        is(
            &rt,
            "bytes a call",
            &out.taken(),
            &TEXT.get(..taken).unwrap_or(TEXT),
        );
    }
    let mut out = Slow::new(rt.alloc(), 1, 217);
    assert!(rt; run(rt.alloc(), MemorySource::new(&file), &GLOBALS, &mut out).is_ok());
    is(&rt, "out.taken()", &out.taken(), &TEXT);
    Ok(())
}

#[test]
fn one_failing_view_is_told_once(rt: HostRuntime) -> Result<(), Fail> {
    let file = pdb_sample::file(rt.alloc())?;
    let commands = [Command::Globals, Command::Globals];
    for k in 0..9u64 {
        let mut out = Slow::new(rt.alloc(), 4096, 4096);
        let source = FailingSource::new(MemorySource::new(&file), k);
        let refused = run(rt.alloc(), source, &commands, &mut out).err();
        let mut text = Vec::new(rt.alloc());
        if k > 3 {
            text.extend_from_slice(if k < 6 { b"error 21\n" } else { TEXT })?;
            text.extend_from_slice(if k == 6 { b"error 21\n" } else { TEXT })?;
        }
        let wanted = if k > 3 {
            None
        } else {
            Some(RunError::Open(Error::IoError))
        };
        is(&rt, "view", &refused, &wanted);
        is(&rt, "view", &out.taken(), &text.as_slice());
    }
    let mut out = Slow::new(rt.alloc(), 4096, 4096);
    let spent = FailingSource::spent(MemorySource::new(&file));
    let refused = run(rt.alloc(), spent, &commands, &mut out).err();
    is(
        &rt,
        "refused",
        &refused,
        &Some(RunError::Open(Error::IoError)),
    );
    Ok(())
}

#[test]
fn the_front_answers_where_the_whole_is_refused(rt: HostRuntime) -> Result<(), Fail> {
    let mut dbi = Vec::new(rt.alloc());
    dbi.extend_from_slice(&streams::DBI)?;
    dbi.resize(3000, 0)?;
    let mut file = sample_of(rt.alloc(), &dbi, &streams::SYMBOLS)?;
    // Page 11 is the directory: a count, six sizes, the number of stream 1, and those of stream 3.
    let third = 512 * 11 + 4 + 4 * 6 + 4 + 8;
    is(&rt, "file.get(third)", &file.get(third), &Some(&6));
    if let Some(byte) = file.get_mut(third) {
        *byte = 16;
    }
    let mut pdb = PDB::open(rt.alloc(), MemorySource::new(&file))?;
    for _ in 0..2 {
        is(
            &rt,
            "pdb.global_symbols()?.iter().count()?",
            &pdb.global_symbols()?.iter().count()?,
            &6,
        );
        let refused = pdb.debug_information().err();
        is(
            &rt,
            "refused",
            &refused,
            &Some(Error::PageReferenceOutOfRange(16)),
        );
    }
    let commands = [Command::Globals, Command::Globals];
    let mut text = Vec::new(rt.alloc());
    text.extend_from_slice(TEXT)?;
    text.extend_from_slice(TEXT)?;
    lists(&rt, rt.alloc(), &file, &commands, &text);
    Ok(())
}

fn opened<'s>(
    alloc: Global,
    file: &'s [u8],
    k: u64,
) -> Result<PDB<'s, FailingSource<MemorySource<'s>>>, Error> {
    PDB::open(alloc, FailingSource::new(MemorySource::new(file), k))
}

#[test]
fn a_refused_view_changes_no_later_answer(rt: HostRuntime) -> Result<(), Fail> {
    let file = pdb_sample::file(rt.alloc())?;
    for k in 4..6u64 {
        let mut pdb = opened(rt.alloc(), &file, k)?;
        is(
            &rt,
            "view",
            &pdb.global_symbols().err(),
            &Some(Error::IoError),
        );
        is(&rt, "view", &pdb.failures(), &1);
        is(&rt, "view", &pdb.global_symbols()?.iter().count()?, &6);
    }
    let mut pdb = opened(rt.alloc(), &file, 4)?;
    is(
        &rt,
        "pdb.debug_information().err()",
        &pdb.debug_information().err(),
        &Some(Error::IoError),
    );
    is(
        &rt,
        "pdb.debug_information()?.age()",
        &pdb.debug_information()?.age(),
        &Some(2),
    );
    let mut pdb = opened(rt.alloc(), &file, 4)?;
    is(
        &rt,
        "pdb.raw_stream(StreamIndex(7)).err()",
        &pdb.raw_stream(StreamIndex(7)).err(),
        &Some(Error::IoError),
    );
    let stream = pdb.raw_stream(StreamIndex(7))?;
    assert!(rt; stream.is_some_and(|stream| stream.as_slice().len() == 17));
    is(&rt, "failures", &pdb.failures(), &1);
    is(&rt, "steady", &pdb.steady(), &true);
    Ok(())
}
