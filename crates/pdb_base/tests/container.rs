//! Files made by hand. A page is filled with its number, so a stream's bytes tell which pages they come from.

use super::is;
use crate::*;
use std::alloc::Global;

pub fn put(bytes: &mut Vec<u8>, at: usize, number: u32) {
    for (i, byte) in number.to_le_bytes().iter().enumerate() {
        if at < bytes.len() && i < bytes.len() - at {
            bytes[at + i] = *byte;
        }
    }
}

const MAGIC: &[u8; 32] = b"Microsoft C/C++ MSF 7.00\r\n\x1aDS\0\0\0";

/// Six pages: 1 has the directory's list, 4 the directory, 2, 3 and 5 the streams. Stream 0 has a page and 44 bytes
/// in pages 2 and 3, stream 1 is absent, stream 2 has 4 bytes in page 5, stream 3 is empty.
pub fn file(alloc: Global, page_size: u32) -> Result<Vec<u8>> {
    let page = page_size as usize % 65536;
    let mut bytes = Vec::new(alloc);
    for number in 0..6u8 {
        for _ in 0..page {
            bytes.push(number)?;
        }
    }
    for (i, byte) in MAGIC.iter().enumerate() {
        if i < bytes.len() {
            bytes[i] = *byte;
        }
    }
    put(&mut bytes, 32, page_size);
    put(&mut bytes, 40, 6);
    put(&mut bytes, 44, 32);
    put(&mut bytes, 52, 1);
    put(&mut bytes, page, 4);
    let words = [4, page as u32 + 44, 0xffff_ffff, 4, 0, 2, 3, 5];
    for (i, word) in words.iter().enumerate() {
        put(&mut bytes, 4 * page + 4 * i, *word);
    }
    Ok(bytes)
}

fn open<'s>(alloc: Global, bytes: &'s [u8]) -> Result<Msf<'s, MemorySource<'s>>> {
    Msf::open(alloc, MemorySource::new(bytes))
}

#[test]
fn streams_at_each_page_size(rt: HostRuntime) -> Result<()> {
    for page in [256u32, 512, 1024, 4096] {
        let bytes = file(rt.alloc(), page)?;
        let mut msf = open(rt.alloc(), &bytes)?;
        let whole = msf.get(0, None)?;
        is(
            &rt,
            "whole.as_slice().len()",
            &whole.as_slice().len(),
            &(page as usize + 44),
        );
        for (i, byte) in whole.as_slice().iter().enumerate() {
            is(
                &rt,
                "byte at",
                &(*byte),
                &(if i < page as usize { 2 } else { 3 }),
            );
        }
        for (limit, size) in [
            (0, 0),
            (3, 3),
            (page, page),
            (page + 1, page + 1),
            (9000, page + 44),
        ] {
            let front = msf.get(0, Some(limit))?;
            is(&rt, "limit at", &front.as_slice().len(), &(size as usize));
            assert!(rt;
                whole.as_slice().starts_with(front.as_slice()),
                "limit {limit} at {page}"
            );
        }
        is(
            &rt,
            "msf.get(2, None)?.as_slice()",
            &msf.get(2, None)?.as_slice(),
            &[5, 5, 5, 5].as_slice(),
        );
        is(
            &rt,
            "msf.get(3, None)?.as_slice().len()",
            &msf.get(3, None)?.as_slice().len(),
            &0,
        );
        is(
            &rt,
            "msf.get(1, None).err()",
            &msf.get(1, None).err(),
            &Some(Error::StreamNotFound(1)),
        );
        is(
            &rt,
            "msf.get(4, None).err()",
            &msf.get(4, None).err(),
            &Some(Error::StreamNotFound(4)),
        );
        is(&rt, "msf.failures()", &msf.failures(), &0);
        assert!(rt; msf.steady());
    }
    Ok(())
}

fn refused(alloc: Global, at: usize, number: u32) -> Result<Option<Error>> {
    let mut bytes = file(alloc, 256)?;
    put(&mut bytes, at, number);
    Ok(open(alloc, &bytes).err())
}

#[test]
fn page_sizes_are_powers_of_two_from_256_to_2_23(rt: HostRuntime) -> Result<()> {
    for size in [0, 128, 255, 257, 513, 16777216, 0x8000_0000] {
        is(
            &rt,
            "refused(rt.alloc(), 32, size)?",
            &refused(rt.alloc(), 32, size)?,
            &Some(Error::InvalidPageSize(size)),
        );
    }
    is(
        &rt,
        "refused(rt.alloc(), 32, 8388608)?",
        &refused(rt.alloc(), 32, 8388608)?,
        &Some(Error::UnexpectedEof),
    );
    Ok(())
}

#[test]
fn pages_are_above_zero_and_below_pages_used(rt: HostRuntime) -> Result<()> {
    for page in [0, 6, 0xffff_ffff] {
        let wanted = Some(Error::PageReferenceOutOfRange(page));
        is(
            &rt,
            "in the list of the list",
            &refused(rt.alloc(), 52, page)?,
            &wanted,
        );
        is(
            &rt,
            "in the list",
            &refused(rt.alloc(), 256, page)?,
            &wanted,
        );
        let mut bytes = file(rt.alloc(), 256)?;
        put(&mut bytes, 1024 + 24, page);
        let mut msf = open(rt.alloc(), &bytes)?;
        is(&rt, "in a stream", &msf.get(0, None).err(), &wanted);
        let needed = msf.get(0, Some(257)).err();
        is(&rt, "in a front that needs the page", &needed, &wanted);
        is(
            &rt,
            "msf.get(0, Some(256))?.as_slice().len()",
            &msf.get(0, Some(256))?.as_slice().len(),
            &256,
        );
    }
    Ok(())
}

#[test]
fn a_missing_number_comes_before_a_bad_one(rt: HostRuntime) -> Result<()> {
    let mut bytes = file(rt.alloc(), 256)?;
    put(&mut bytes, 44, 24);
    put(&mut bytes, 1024 + 20, 0);
    let mut msf = open(rt.alloc(), &bytes)?;
    is(
        &rt,
        "msf.get(0, None).err()",
        &msf.get(0, None).err(),
        &Some(Error::UnexpectedEof),
    );
    is(
        &rt,
        "msf.get(0, Some(1)).err()",
        &msf.get(0, Some(1)).err(),
        &Some(Error::PageReferenceOutOfRange(0)),
    );
    Ok(())
}

fn refused_stream(alloc: Global, first: u32, second: u32) -> Result<Option<Error>> {
    let mut bytes = file(alloc, 256)?;
    put(&mut bytes, 40, 100);
    put(&mut bytes, 1024 + 20, first);
    put(&mut bytes, 1024 + 24, second);
    let mut msf = open(alloc, &bytes)?;
    Ok(msf.get(0, None).err())
}

#[test]
fn a_bad_number_comes_before_a_page_past_the_file(rt: HostRuntime) -> Result<()> {
    is(
        &rt,
        "refused_stream(rt.alloc(), 50, 3)?",
        &refused_stream(rt.alloc(), 50, 3)?,
        &Some(Error::UnexpectedEof),
    );
    is(
        &rt,
        "refused_stream(rt.alloc(), 50, 0)?",
        &refused_stream(rt.alloc(), 50, 0)?,
        &Some(Error::PageReferenceOutOfRange(0)),
    );
    Ok(())
}

#[test]
fn a_small_directory_opens(rt: HostRuntime) -> Result<()> {
    for size in [0, 3] {
        let mut bytes = file(rt.alloc(), 256)?;
        put(&mut bytes, 44, size);
        let mut msf = open(rt.alloc(), &bytes)?;
        is(
            &rt,
            "of bytes",
            &msf.get(0, None).err(),
            &Some(Error::UnexpectedEof),
        );
    }
    let mut bytes = file(rt.alloc(), 256)?;
    put(&mut bytes, 1024, 100);
    let mut msf = open(rt.alloc(), &bytes)?;
    is(
        &rt,
        "msf.get(100, None).err()",
        &msf.get(100, None).err(),
        &Some(Error::StreamNotFound(100)),
    );
    is(
        &rt,
        "msf.get(99, None).err()",
        &msf.get(99, None).err(),
        &Some(Error::UnexpectedEof),
    );
    is(
        &rt,
        "msf.get(1, None).err()",
        &msf.get(1, None).err(),
        &Some(Error::UnexpectedEof),
    );
    Ok(())
}

#[test]
fn the_directory_has_sizes(rt: HostRuntime) -> Result<()> {
    let bytes = file(rt.alloc(), 256)?;
    let msf = open(rt.alloc(), &bytes)?;
    is(&rt, "count", &msf.stream_count(), &Ok(4));
    let absent = Err(Error::StreamNotFound(1));
    let missing = Err(Error::StreamNotFound(4));
    let sizes = [Ok(300), absent, Ok(4), Ok(0), missing];
    for (number, size) in sizes.iter().enumerate() {
        is(&rt, "size", &msf.stream_size(number as u32), size);
    }
    Ok(())
}

#[test]
fn a_directory_without_all_sizes_has_none(rt: HostRuntime) -> Result<()> {
    let mut bytes = file(rt.alloc(), 256)?;
    put(&mut bytes, 1024, 8);
    let msf = open(rt.alloc(), &bytes)?;
    is(
        &rt,
        "count",
        &msf.stream_count(),
        &Err(Error::UnexpectedEof),
    );
    is(&rt, "size", &msf.stream_size(0), &Err(Error::UnexpectedEof));
    let beyond = Err(Error::StreamNotFound(8));
    is(&rt, "beyond", &msf.stream_size(8), &beyond);
    let mut bytes = file(rt.alloc(), 256)?;
    put(&mut bytes, 44, 3);
    let msf = open(rt.alloc(), &bytes)?;
    is(
        &rt,
        "of 3 bytes",
        &msf.stream_count(),
        &Err(Error::UnexpectedEof),
    );
    Ok(())
}

#[test]
fn a_page_list_ends_in_page_zero(rt: HostRuntime) -> Result<()> {
    let last = 51 * 64 * 256;
    is(
        &rt,
        "refused(rt.alloc(), 44, last)?",
        &refused(rt.alloc(), 44, last)?,
        &Some(Error::PageReferenceOutOfRange(0)),
    );
    is(
        &rt,
        "refused(rt.alloc(), 44, last + 1)?",
        &(refused(rt.alloc(), 44, last + 1)?),
        &Some(Error::UnexpectedEof),
    );
    is(
        &rt,
        "refused(rt.alloc(), 44, 0xffff_ffff)?",
        &refused(rt.alloc(), 44, 0xffff_ffff)?,
        &Some(Error::UnexpectedEof),
    );
    Ok(())
}

#[test]
fn other_formats_are_named(rt: HostRuntime) -> Result<()> {
    is(
        &rt,
        "open(rt.alloc(), ..).err()",
        &open(rt.alloc(), b"").err(),
        &Some(Error::UnrecognizedFileFormat),
    );
    let mut bytes = Vec::new(rt.alloc());
    bytes.extend_from_slice(
        b"Microsoft C/C++ program database 2.00\r\n\x1aJG\0\0\0\x04\0\0\0\0\0",
    )?;
    is(&rt, "bytes.len()", &bytes.len(), &51);
    is(
        &rt,
        "open(rt.alloc(), &bytes).err()",
        &open(rt.alloc(), &bytes).err(),
        &Some(Error::UnrecognizedFileFormat),
    );
    bytes.push(0)?;
    is(
        &rt,
        "open(rt.alloc(), &bytes).err()",
        &open(rt.alloc(), &bytes).err(),
        &Some(Error::UnimplementedFeature(Feature::SmallMsf)),
    );
    let whole = file(rt.alloc(), 256)?;
    for k in 0..52 {
        is(
            &rt,
            "cut to",
            &open(rt.alloc(), &whole.as_slice()[..k.min(whole.len())]).err(),
            &Some(Error::UnrecognizedFileFormat),
        );
    }
    let mut bytes = file(rt.alloc(), 256)?;
    put(&mut bytes, 28, 0x0100_0000);
    is(
        &rt,
        "open(rt.alloc(), &bytes).err()",
        &open(rt.alloc(), &bytes).err(),
        &Some(Error::UnrecognizedFileFormat),
    );
    Ok(())
}

/// A stream of neighbouring pages is borrowed, one of others copied.
#[test]
fn a_clone_has_the_bytes_of_its_stream(rt: HostRuntime) -> Result<()> {
    for pages in [[2, 3], [3, 2]] {
        let mut bytes = file(rt.alloc(), 512)?;
        put(&mut bytes, 4 * 512 + 20, pages[0]);
        put(&mut bytes, 4 * 512 + 24, pages[1]);
        let clone = open(rt.alloc(), &bytes)?.get(0, None)?.clone()?;
        is(&rt, "bytes", &clone.as_slice().len(), &556);
        let ends = [clone.as_slice()[0], clone.as_slice()[555]];
        is(&rt, "first and last", &ends, &pages.map(|page| page as u8));
    }
    Ok(())
}
