//! Keys of symbol servers.

use super::{file, is, put};
use crate::tests::put_numbers;
use crate::tests::sample::{DBI, INFORMATION, SAMPLE, changed, file_of};
use crate::*;
use std::alloc::Global;
use std::process::Abort;

/// The key of a file is this one.
fn has_key(rt: &impl Abort, label: &str, alloc: Global, file: &[u8], wanted: &[u8]) -> Result<()> {
    let key = key_of(alloc, MemorySource::new(file))?;
    is(rt, label, &key.as_slice(), &wanted);
    Ok(())
}

/// The sample with this age in its DBI stream.
fn aged(alloc: Global, age: u32) -> Result<Vec<u8>> {
    let mut dbi = Vec::new(alloc);
    dbi.extend_from_slice(&DBI)?;
    put_numbers(&mut dbi, 8, &[age]);
    changed(alloc, 3, Some(&dbi))
}

#[test]
fn the_age_is_that_of_the_dbi_stream(rt: HostRuntime) -> Result<()> {
    let alloc = rt.alloc();
    let bytes = file_of(alloc, &SAMPLE)?;
    let wanted = b"00112233445566778899AABBCCDDEEFF2";
    has_key(&rt, "sample", alloc, &bytes, wanted)?;
    let bytes = aged(alloc, 0x1abc)?;
    let wanted = b"00112233445566778899AABBCCDDEEFF1ABC";
    has_key(&rt, "age 0x1abc", alloc, &bytes, wanted)?;
    let bytes = aged(alloc, 0xffff_ffff)?;
    let wanted = b"00112233445566778899AABBCCDDEEFFFFFFFFFF";
    has_key(&rt, "greatest age", alloc, &bytes, wanted)
}

/// The sample's information stream with the age 0xb.
fn information(alloc: Global) -> Result<Vec<u8>> {
    let mut bytes = Vec::new(alloc);
    bytes.extend_from_slice(&INFORMATION)?;
    put_numbers(&mut bytes, 8, &[11]);
    Ok(bytes)
}

#[test]
fn without_a_dbi_stream_the_age_is_that_of_the_information_stream(rt: HostRuntime) -> Result<()> {
    let alloc = rt.alloc();
    let information = information(alloc)?;
    let wanted = b"00112233445566778899AABBCCDDEEFFB";
    let mut dbi = Vec::new(alloc);
    dbi.extend_from_slice(&DBI)?;
    put_numbers(&mut dbi, 8, &[0]);
    let cut = &DBI[..20];
    let streams: [Option<&[u8]>; 3] = [None, Some(cut), Some(&dbi)];
    for stream in streams {
        let mut all: [Option<&[u8]>; 9] = SAMPLE;
        all[1] = Some(&information);
        all[3] = stream;
        let bytes = file_of(alloc, &all)?;
        has_key(&rt, "without an age", alloc, &bytes, wanted)?;
    }
    Ok(())
}

/// A file whose DBI stream has the age 2 and a third page that isn't there; its information stream has the age 0xb.
pub fn broken_behind_the_front(alloc: Global) -> Result<Vec<u8>> {
    let mut bytes = file(alloc, 6, 5)?;
    let absent = 0xffff_ffff;
    put_numbers(&mut bytes, 44, &[48]);
    put_numbers(
        &mut bytes,
        2048,
        &[6, 0, 67, absent, 3000, absent, 12, 5, 3, 4, 6, 5],
    );
    put(&mut bytes, 5120, information(alloc)?.as_slice());
    Ok(bytes)
}

#[test]
fn the_age_is_in_the_front_of_the_dbi_stream(rt: HostRuntime) -> Result<()> {
    let alloc = rt.alloc();
    let bytes = broken_behind_the_front(alloc)?;
    let wanted = b"00112233445566778899AABBCCDDEEFF2";
    has_key(&rt, "broken behind the front", alloc, &bytes, wanted)
}

#[test]
fn a_file_without_an_information_stream_has_no_key(rt: HostRuntime) -> Result<()> {
    let alloc = rt.alloc();
    let bytes = changed(alloc, 1, None)?;
    let error = key_of(alloc, MemorySource::new(&bytes)).err();
    is(&rt, "no stream 1", &error, &Some(Error::StreamNotFound(1)));
    let bytes = changed(alloc, 1, Some(&INFORMATION[..27]))?;
    let error = key_of(alloc, MemorySource::new(&bytes)).err();
    is(&rt, "a cut GUID", &error, &Some(Error::UnexpectedEof));
    let error = key_of(alloc, MemorySource::new(b"MZ")).err();
    let wanted = Some(Error::UnrecognizedFileFormat);
    is(&rt, "no PDB", &error, &wanted);
    Ok(())
}

#[test]
fn the_key_of_an_opened_file_is_the_same(rt: HostRuntime) -> Result<()> {
    let alloc = rt.alloc();
    let bytes = file_of(alloc, &SAMPLE)?;
    let mut pdb = PDB::open(alloc, MemorySource::new(&bytes))?;
    let wanted = b"00112233445566778899AABBCCDDEEFF2".as_slice();
    for _ in 0..2 {
        let key = key_in(alloc, &mut pdb)?;
        is(&rt, "key_in", &key.as_slice(), &wanted);
    }
    let guid = [
        0xf0, 0x0f, 9, 0xa, 0x90, 0xa9, 6, 7, 8, 9, 10, 11, 12, 13, 14, 15,
    ];
    let key = key_text(alloc, &guid, 0)?;
    let wanted = b"F00F090A90A90607".as_slice();
    is(&rt, "GUID", &&key[..16], &wanted);
    is(&rt, "rest", &&key[16..], &b"08090A0B0C0D0E0F0".as_slice());
    let mut out = Vec::new(alloc);
    out.push(b'.')?;
    put_hex_bytes(&mut out, b"\x00\xff")?;
    is(&rt, "bytes", &out.as_slice(), &b".00FF".as_slice());
    Ok(())
}
