//! All commands over the sample and its streams, cut at each place.

use super::texts::{ERROR, TEXTS, joined, with_stream, writes_all};
use crate::SAMPLE_COMMANDS;
use crate::engine::{RunError, run};
use crate::tests::fakes::{Slow, is};
use pdb::{Error, MemorySource};
use pdb_sample::streams;
use std::alloc::Global;
use std::process::Abort;
use std::test::Fail;

/// A run of all commands over a file ends so, and writes this text.
fn ends(rt: &impl Abort, alloc: Global, file: &[u8], refused: Option<Error>, text: &[u8]) {
    let mut out = Slow::new(alloc, 4096, 4096);
    let ended = run(alloc, MemorySource::new(file), &SAMPLE_COMMANDS, &mut out);
    is(rt, "ended", &ended.err(), &refused.map(RunError::Open));
    is(rt, "text", &out.taken(), &text);
}

#[test]
fn all_commands_over_a_file_cut_at_each_place(rt: HostRuntime) -> Result<(), Fail> {
    let file = pdb_sample::file(rt.alloc())?;
    let whole = joined(rt.alloc(), &TEXTS)?;
    let (other, eof) = (Error::UnrecognizedFileFormat, Error::UnexpectedEof);
    for k in 0..5633usize {
        let cut = file.get(..k).unwrap_or(&[]);
        match k {
            0..52 => ends(&rt, rt.alloc(), cut, Some(other), b""),
            52..5124 => ends(&rt, rt.alloc(), cut, Some(eof), b""),
            _ => ends(&rt, rt.alloc(), cut, None, &whole),
        }
    }
    Ok(())
}

/// The texts of all commands over the sample with a stream of `k` bytes, where each is whole from its size in `needs`
/// on, and below that the end of data.
fn texts_of(needs: &[usize; 12], k: usize) -> [&'static [u8]; 12] {
    let mut texts = TEXTS;
    for (i, need) in needs.iter().enumerate() {
        if i < 12 && k < *need {
            texts[i] = ERROR;
        }
    }
    texts
}

/// Over the sample with a stream cut to each size, each command's text is whole from its size in `needs` on.
fn cut_stream(
    rt: &impl Abort,
    alloc: Global,
    number: usize,
    bytes: &[u8],
    needs: &[usize; 12],
) -> Result<(), Fail> {
    for (k, _byte) in bytes.iter().enumerate() {
        let file = with_stream(alloc, number, bytes.get(..k).unwrap_or(bytes))?;
        writes_all(rt, alloc, &file, &texts_of(needs, k))?;
    }
    Ok(())
}

#[test]
fn all_commands_over_an_information_stream_cut_at_each_place(rt: HostRuntime) -> Result<(), Fail> {
    let needs = [32, 67, 0, 0, 0, 0, 0, 0, 0, 0, 0, 0];
    cut_stream(&rt, rt.alloc(), 1, &streams::INFORMATION, &needs)
}

/// `info` where the DBI stream is refused.
const HALF: &[u8] = b"info 20000404 1 2 00112233445566778899aabbccddeeff\nerror 1\n";

#[test]
fn all_commands_over_a_dbi_stream_cut_at_each_place(rt: HostRuntime) -> Result<(), Fail> {
    let needs = [0, 0, 140, 172, 184, 64, 140, 140, 140, 140, 140, 140];
    for k in 0..185usize {
        let file = with_stream(rt.alloc(), 3, &streams::DBI[..k])?;
        let mut texts = texts_of(&needs, k);
        if k < 64 {
            texts[0] = HALF;
        }
        writes_all(&rt, rt.alloc(), &file, &texts)?;
    }
    Ok(())
}

#[test]
fn all_commands_over_a_modules_stream_cut_at_each_place(rt: HostRuntime) -> Result<(), Fail> {
    let needs = [0, 0, 0, 0, 0, 0, 84, 260, 260, 260, 260, 260];
    cut_stream(&rt, rt.alloc(), 6, &streams::MODULE, &needs)
}

#[test]
fn all_commands_over_strings_cut_at_each_place(rt: HostRuntime) -> Result<(), Fail> {
    cut_stream(&rt, rt.alloc(), 7, &streams::STRINGS, &[0; 12])
}

#[test]
fn all_commands_over_section_headers_cut_at_each_place(rt: HostRuntime) -> Result<(), Fail> {
    for k in 0..41usize {
        let file = with_stream(rt.alloc(), 8, &streams::SECTIONS[..k])?;
        let mut texts = TEXTS;
        texts[4] = match k {
            0 => b"",
            1..40 => ERROR,
            _ => TEXTS[4],
        };
        writes_all(&rt, rt.alloc(), &file, &texts)?;
    }
    let mut longer = Vec::new(rt.alloc());
    longer.extend_from_slice(&streams::SECTIONS)?;
    longer.push(0)?;
    let file = with_stream(rt.alloc(), 8, &longer)?;
    let mut texts = TEXTS;
    texts[4] = ERROR;
    writes_all(&rt, rt.alloc(), &file, &texts)
}

#[test]
fn all_commands_into_a_writer_that_fails_after_each_number_of_bytes(
    rt: HostRuntime,
) -> Result<(), Fail> {
    let file = pdb_sample::file(rt.alloc())?;
    let whole = joined(rt.alloc(), &TEXTS)?;
    is(&rt, "size", &whole.len(), &882);
    for k in 0..882u32 {
        let mut out = Slow::new(rt.alloc(), 1, k);
        let ended = run(
            rt.alloc(),
            MemorySource::new(&file),
            &SAMPLE_COMMANDS,
            &mut out,
        );
        is(&rt, "ended", &ended, &Err(RunError::Write));
        is(&rt, "beginning", &whole.starts_with(out.taken()), &true);
        is(&rt, "bytes", &out.taken().len(), &(k as usize));
    }
    Ok(())
}
