//! Files of few streams, and what tests compare.

use pdb::Result;
use std::alloc::Global;
use std::fmt::Debug;
use std::process::Abort;

// What was given is what was wanted: one proof for all comparisons of a type.
pub fn is<T: PartialEq + Debug>(rt: &impl Abort, label: &str, given: &T, wanted: &T) {
    assert!(rt; given == wanted, "{label}: {given:?}, and not {wanted:?}");
}

pub fn put(bytes: &mut Vec<u8>, at: usize, part: &[u8]) {
    for (i, byte) in part.iter().enumerate() {
        if at < bytes.len() && i < bytes.len() - at {
            bytes[at + i] = *byte;
        }
    }
}

pub fn put_numbers(bytes: &mut Vec<u8>, at: usize, numbers: &[u32]) {
    for (i, number) in numbers.iter().enumerate() {
        if i < 64 && at < 65536 {
            put(bytes, at + 4 * i, &number.to_le_bytes());
        }
    }
}

/// The bytes of these numbers, of four each.
pub fn numbers(alloc: Global, numbers: &[u32]) -> Result<Vec<u8>> {
    let mut bytes = Vec::new(alloc);
    for number in numbers {
        bytes.extend_from_slice(&number.to_le_bytes())?;
    }
    Ok(bytes)
}

/// Twelve pages of 512 bytes: 1 has the directory's list, 2 the directory, and each of the others one of nine streams,
/// of which 3, 5, 7 and 8 are given, and have 1 to 512 bytes each; 6 is empty, and the others are too.
pub fn file_of(
    alloc: Global,
    dbi: &[u8],
    table: &[u8],
    sections: &[u8],
    original: &[u8],
) -> Result<Vec<u8>> {
    let mut bytes = vec![in alloc; 0u8; 6144]?;
    let dbi_size = dbi.len().min(512) as u32;
    let table_size = table.len().min(512) as u32;
    let sections_size = sections.len().min(512) as u32;
    let original_size = original.len().min(512) as u32;
    let directory = [
        9,
        0,
        0,
        0,
        dbi_size,
        0,
        table_size,
        0,
        sections_size,
        original_size,
        6,
        8,
        10,
        11,
    ];
    put(&mut bytes, 0, b"Microsoft C/C++ MSF 7.00\r\n\x1aDS\0\0\0");
    put_numbers(&mut bytes, 32, &[512, 1, 12, 56, 0, 1]);
    put_numbers(&mut bytes, 512, &[2]);
    put_numbers(&mut bytes, 1024, &directory);
    put(&mut bytes, 3072, dbi);
    put(&mut bytes, 4096, table);
    put(&mut bytes, 5120, sections);
    put(&mut bytes, 5632, original);
    Ok(bytes)
}
