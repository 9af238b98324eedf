//! An index of 271 bytes: the segments have one section at address 0x1000, with eight runs.

use std::alloc::{AllocError, Global};

/// The header: version 1, a key, S 3, C 1, R 8, N 7, F 2, L 2, B 7, D 2, and widths of one byte but for columns.
const HEADER: [u8; 96] = [
    0x70, 0x64, 0x62, 0x69, 0x6e, 0x64, 0x65, 0x78, 1, 0, 0, 0, 1, 0, 0, 0, 0x00, 0x11, 0x22, 0x33,
    0x44, 0x55, 0x66, 0x77, 0x88, 0x99, 0xaa, 0xbb, 0xcc, 0xdd, 0xee, 0xff, 2, 0, 0, 0, 0x64, 0x86,
    0, 0, 3, 0, 0, 0, 1, 0, 0, 0, 8, 0, 0, 0, 7, 0, 0, 0, 2, 0, 0, 0, 2, 0, 0, 0, 7, 0, 0, 0, 2, 0,
    0, 0, 0, 0x16, 0, 0, 0, 0, 0, 0, 1, 1, 1, 1, 1, 0, 0, 0, 0, 0, 0, 0, 0, 0, 0, 0,
];

/// Segments at 0, 0x1000 and 0x2000, and the sections.
const PLACES: [u8; 52] = [
    0, 0, 0, 0, 0, 0, 0, 0, 0, 0, 0, 0, 0, 0x10, 0, 0, 1, 0, 0, 0, 0, 0, 0, 0, 0, 0x20, 0, 0, 0, 0,
    0, 0, 0, 0, 0, 0, 1, 0, 0, 0, 0, 0, 0, 0, 0, 0, 1, 0, 8, 0, 0, 0,
];

/// The starts and the values of the runs.
const RUNS: [u8; 40] = [
    0, 0, 0, 0, 0, 1, 0, 0, 8, 1, 0, 0, 0x0a, 1, 0, 0, 0x0e, 1, 0, 0, 0x10, 1, 0, 0, 0x13, 1, 0, 0,
    0x30, 1, 0, 0, 0, 2, 6, 4, 8, 12, 10, 0,
];

/// The nodes.
const NODES: [u8; 28] = [
    0, 0, 0, 0, 0, 1, 1, 1, 0, 1, 1, 2, 1, 0, 1, 10, 2, 0, 1, 12, 0, 1, 0, 0, 1, 0, 1, 12,
];

/// The functions, the files and the names.
const NAMES: [u8; 55] = [
    0, 0, 0, 0, 0, 0, 0, 0, 0, 0, 0, 0, 0, 0, 0, 0, 0, 0, 0, 0, 4, 0, 0, 0, 0, 1, 0, 0, 1, 0, 0, 0,
    0, 0, 0, 0, 0, 0, 0, 0, 4, 0, 0, 0, 3, 0, 0, 0, 0x6d, 0x61, 0x69, 0x6e, 0x61, 0x2e, 0x63,
];

/// The bytes of the index.
pub fn sample(alloc: Global) -> Result<Vec<u8>, AllocError> {
    let mut bytes = Vec::from_slice(alloc, &HEADER)?;
    bytes.extend_from_slice(&PLACES)?;
    bytes.extend_from_slice(&RUNS)?;
    bytes.extend_from_slice(&NODES)?;
    bytes.extend_from_slice(&NAMES)?;
    Ok(bytes)
}

/// The same with other bytes at an offset.
pub fn changed(alloc: Global, at: usize, part: &[u8]) -> Result<Vec<u8>, AllocError> {
    let mut bytes = sample(alloc)?;
    for (i, byte) in part.iter().enumerate() {
        if at < bytes.len() && i < bytes.len() - at {
            bytes[at + i] = *byte;
        }
    }
    Ok(bytes)
}
