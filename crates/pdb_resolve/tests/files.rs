//! Files of few streams, and what tests compare.

use pdb::Result;
use std::alloc::Global;
use std::fmt::Debug;
use std::process::Abort;

// What was given is what was wanted: one proof for all comparisons of a type.
pub fn is<T: PartialEq + Debug>(rt: &impl Abort, label: &str, given: &T, wanted: &T) {
    assert!(rt; given == wanted, "{label}: {given:?}, and not {wanted:?}");
}

pub fn put(bytes: &mut Vec<u8>, at: usize, part: &[u8]) {
    for (i, byte) in part.iter().enumerate() {
        if at < bytes.len() && i < bytes.len() - at {
            bytes[at + i] = *byte;
        }
    }
}

pub fn put_numbers(bytes: &mut Vec<u8>, at: usize, numbers: &[u32]) {
    for (i, number) in numbers.iter().enumerate() {
        if i < 64 && at < 65536 {
            put(bytes, at + 4 * i, &number.to_le_bytes());
        }
    }
}

/// The bytes of these numbers, of four each.
pub fn numbers(alloc: Global, numbers: &[u32]) -> Result<Vec<u8>> {
    let mut bytes = Vec::new(alloc);
    for number in numbers {
        bytes.extend_from_slice(&number.to_le_bytes())?;
    }
    Ok(bytes)
}

/// A file of nine streams of at most a page each, which stand in the pages from 3 on; 1 has the directory's list, and 2
/// the directory.
pub fn file_of_streams(alloc: Global, streams: [&[u8]; 9]) -> Result<Vec<u8>> {
    let mut bytes = vec![in alloc; 0u8; 6144]?;
    put(&mut bytes, 0, b"Microsoft C/C++ MSF 7.00\r\n\x1aDS\0\0\0");
    put_numbers(&mut bytes, 512, &[2]);
    let mut sizes = numbers(alloc, &[9])?;
    let mut pages = Vec::new(alloc);
    for (i, stream) in streams.iter().enumerate() {
        let page = i.min(8) + 3;
        let size = stream.len().min(512) as u32;
        sizes.extend_from_slice(&size.to_le_bytes())?;
        if size > 0 {
            pages.extend_from_slice(&(page as u32).to_le_bytes())?;
        }
        put(&mut bytes, 512 * page, stream);
    }
    sizes.extend_from_slice(pages.as_slice())?;
    let size = sizes.len().min(512) as u32;
    put_numbers(&mut bytes, 32, &[512, 1, 12, size, 0, 1]);
    put(&mut bytes, 1024, sizes.as_slice());
    Ok(bytes)
}
