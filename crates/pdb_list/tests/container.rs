//! Numbers of the container at the ends of their types, over all commands.

use super::texts::{ERROR, TEXTS, changed, joined, writes_all};
use crate::SAMPLE_COMMANDS;
use crate::engine::{RunError, run};
use crate::tests::fakes::{Slow, is};
use pdb::{Error, MemorySource};
use std::alloc::Global;
use std::process::Abort;
use std::test::Fail;

/// A number at a place of the sample's file, and why the file isn't opened then, if it isn't.
fn opens(
    rt: &impl Abort,
    alloc: Global,
    at: usize,
    number: u32,
    refused: Option<Error>,
) -> Result<(), Fail> {
    let file = pdb_sample::file(alloc)?;
    let bad = changed(alloc, &file, at, &number.to_le_bytes())?;
    let mut out = Slow::new(alloc, 4096, 4096);
    let ended = run(alloc, MemorySource::new(&bad), &SAMPLE_COMMANDS, &mut out);
    let whole = match refused {
        Some(_) => Vec::new(alloc),
        None => joined(alloc, &TEXTS)?,
    };
    is(rt, "ended", &ended.err(), &refused.map(RunError::Open));
    is(rt, "text", &out.taken(), &whole.as_slice());
    Ok(())
}

#[test]
fn a_header_with_numbers_at_the_ends_of_their_types(rt: HostRuntime) -> Result<(), Fail> {
    for number in [
        0u32,
        1,
        128,
        511,
        0xffff,
        0x0100_0000,
        0x7fff_ffff,
        0xffff_ffff,
    ] {
        let refused = Some(Error::InvalidPageSize(number));
        opens(&rt, rt.alloc(), 32, number, refused)?;
    }
    for number in [0u32, 1, 0xffff, 0x7fff_ffff, 0xffff_ffff] {
        // The page of the free map, and what is reserved.
        opens(&rt, rt.alloc(), 36, number, None)?;
        opens(&rt, rt.alloc(), 48, number, None)?;
    }
    for number in [11u32, 12, 0xffff, 0x7fff_ffff, 0xffff_ffff] {
        // How many pages there are.
        opens(&rt, rt.alloc(), 40, number, None)?;
    }
    for number in [0x7fff_ffffu32, 0xffff_ffff] {
        // The size of the directory.
        opens(&rt, rt.alloc(), 44, number, Some(Error::UnexpectedEof))?;
    }
    Ok(())
}

#[test]
fn pages_that_are_not_there_are_refused(rt: HostRuntime) -> Result<(), Fail> {
    for number in [0u32, 11, 0xffff, 0x7fff_ffff, 0xffff_ffff] {
        // The page of the directory's list, and that of the directory.
        let refused = Some(Error::PageReferenceOutOfRange(number));
        opens(&rt, rt.alloc(), 52, number, refused)?;
        opens(&rt, rt.alloc(), 5120, number, refused)?;
    }
    for number in [0u32, 1, 10] {
        // How many pages there are: the list stands in page 10.
        let refused = Some(Error::PageReferenceOutOfRange(10));
        opens(&rt, rt.alloc(), 40, number, refused)?;
    }
    Ok(())
}

/// `info` where the DBI stream is refused as end of data.
const HALF: &[u8] = b"info 20000404 1 2 00112233445566778899aabbccddeeff\nerror 1\n";

#[test]
fn a_directory_of_each_size(rt: HostRuntime) -> Result<(), Fail> {
    let file = pdb_sample::file(rt.alloc())?;
    // Where the number of the last page ends that a command asks for.
    let needs: [u32; 12] = [44, 44, 48, 48, 64, 52, 56, 56, 56, 56, 56, 56];
    for k in 0..65u32 {
        let bad = changed(rt.alloc(), &file, 44, &k.to_le_bytes())?;
        let mut texts = TEXTS;
        if k < 48 {
            texts[0] = HALF;
        }
        for i in 0..12usize {
            if k < needs[i] {
                texts[i] = ERROR;
            }
        }
        writes_all(&rt, rt.alloc(), &bad, &texts)?;
    }
    Ok(())
}

/// `info` where the DBI stream has a bad page.
const BAD: &[u8] = b"info 20000404 1 2 00112233445566778899aabbccddeeff\nerror 5\n";

#[test]
fn a_bad_page_of_a_stream_refuses_those_who_read_it(rt: HostRuntime) -> Result<(), Fail> {
    let file = pdb_sample::file(rt.alloc())?;
    // The commands that read the streams 1, 3, 5, 6, 7 and 8, by their places from the last one on.
    let readers: [u32; 6] = [
        0b0000_0000_0011,
        0b1111_1111_1101,
        0b0000_0010_0000,
        0b1111_1100_0000,
        0,
        0b0000_0001_0000,
    ];
    for k in 0..6usize {
        for number in [0u32, 11, 0xffff, 0x7fff_ffff, 0xffff_ffff] {
            let bad = changed(rt.alloc(), &file, 4648 + 4 * k, &number.to_le_bytes())?;
            let mut texts = TEXTS;
            for i in 0..12usize {
                if readers[k] >> i & 1 == 1 {
                    texts[i] = b"error 5\n";
                }
            }
            if k == 1 {
                texts[0] = BAD;
            }
            writes_all(&rt, rt.alloc(), &bad, &texts)?;
        }
    }
    Ok(())
}
