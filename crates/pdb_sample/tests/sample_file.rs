//! Tests of `sample`.

use super::is;
use crate::{STREAMS, file, file_of, streams};
use pdb_base::{Error, MemorySource, Msf, Part};
use std::alloc::Global;
use std::test::Fail;

fn stands_at(bytes: &[u8], at: usize, part: &[u8]) -> bool {
    bytes.get(at..).is_some_and(|rest| rest.starts_with(part))
}

#[test]
fn sample_file(rt: HostRuntime) -> std::result::Result<(), Fail> {
    let bytes = file(rt.alloc())?;
    is(&rt, "bytes.len()", &bytes.len(), &5632);
    assert!(rt; stands_at(&bytes, 0, b"Microsoft C/C++ MSF 7.00\r\n\x1aDS\0\0\0"));
    assert!(rt;
        stands_at(
            &bytes,
            32,
            b"\0\x02\0\0\x01\0\0\0\x0b\0\0\0\x40\0\0\0\0\0\0\0\x0a\0\0\0\0"
        )
    );
    assert!(rt; bytes.iter().skip(512).take(1024).all(|b| *b == 0));
    assert!(rt; stands_at(&bytes, 1536, &streams::INFORMATION));
    assert!(rt; stands_at(&bytes, 2048, &streams::DBI));
    assert!(rt; stands_at(&bytes, 2560, &streams::SYMBOLS));
    assert!(rt; stands_at(&bytes, 3072, &streams::MODULE));
    assert!(rt; stands_at(&bytes, 3584, &streams::STRINGS));
    assert!(rt; stands_at(&bytes, 4096, &streams::SECTIONS));
    assert!(rt;
        stands_at(
            &bytes,
            4608,
            b"\x09\0\0\0\0\0\0\0\x43\0\0\0\xff\xff\xff\xff\xb8\0\0\0"
        )
    );
    assert!(rt;
        stands_at(
            &bytes,
            4628,
            b"\xff\xff\xff\xff\x5c\0\0\0\x04\x01\0\0\x11\0\0\0\x28\0\0\0"
        )
    );
    assert!(rt;
        stands_at(
            &bytes,
            4648,
            b"\x03\0\0\0\x04\0\0\0\x05\0\0\0\x06\0\0\0\x07\0\0\0\x08\0\0\0\0"
        )
    );
    assert!(rt; stands_at(&bytes, 5120, b"\x09\0\0\0\0"));
    Ok(())
}

fn equal(xs: &[u8], ys: &[u8]) -> bool {
    xs == ys
}

fn gives<'s>(msf: &mut Msf<'s, MemorySource<'s>>, number: u32, want: &Option<&[u8]>) -> bool {
    match msf.get(number, None) {
        Ok(read) => want.is_some_and(|bytes| equal(bytes, read.as_slice())),
        Err(e) => want.is_none() && e == Error::StreamNotFound(number),
    }
}

/// Whether a file of the streams has each of them, and no absent one.
fn reads_back(alloc: Global, streams: &[Option<&[u8]>]) -> std::result::Result<bool, Fail> {
    let bytes = file_of(alloc, streams)?;
    let mut msf = Msf::open(alloc, MemorySource::new(&bytes))?;
    for (k, stream) in streams.iter().enumerate() {
        if !gives(&mut msf, u32::try_from(k)?, stream) {
            return Ok(false);
        }
    }
    Ok(true)
}

#[test]
fn streams_are_read_back(rt: HostRuntime) -> std::result::Result<(), Fail> {
    let alloc = rt.alloc();
    assert!(rt; reads_back(alloc, &STREAMS)?);
    assert!(rt; reads_back(alloc, &[])?);
    let mut long = Vec::new(alloc);
    for k in 0..3000u32 {
        long.push((k % 251) as u8)?;
    }
    let long = long.as_slice();
    for size in [0, 1, 511, 512, 513, 3000] {
        let stream = long.get(..size);
        assert!(rt;
            reads_back(alloc, &[stream, None, stream, Some(b"end")])?,
            "{size} bytes"
        );
    }
    Ok(())
}

#[test]
fn page_lists_that_page_0_has_room_for(rt: HostRuntime) -> std::result::Result<(), Fail> {
    let alloc = rt.alloc();
    let mut streams: Vec<Option<&[u8]>> = Vec::new(alloc);
    for _k in 0..1884159 {
        streams.push(None)?;
    }
    assert!(rt; reads_back(alloc, &streams)?);
    streams.push(None)?;
    let refused = file_of(alloc, &streams).err();
    is(
        &rt,
        "refused",
        &refused,
        &Some(Error::InvalidStreamLength(Part::Sample)),
    );
    Ok(())
}
