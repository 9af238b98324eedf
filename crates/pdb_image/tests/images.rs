//! An image made by hand, and others that it becomes by a change of some bytes.

use super::is;
use crate::*;
use std::alloc::{AllocError, Global};

/// Puts a number of four bytes at an offset, least byte first.
pub fn put(bytes: &mut Vec<u8>, at: usize, number: u32) {
    put_bytes(bytes, at, &number.to_le_bytes());
}

/// Puts bytes at an offset.
pub fn put_bytes(bytes: &mut Vec<u8>, at: usize, part: &[u8]) {
    for (i, byte) in part.iter().enumerate() {
        if at < bytes.len() && i < bytes.len() - at {
            bytes[at + i] = *byte;
        }
    }
}

/// An image of this size: 0 everywhere but in its headers, which have a section at address 0x1000, of 58 bytes of raw
/// data at 296, and a debug directory of one entry there. The record of the entry has 30 bytes at 324.
pub fn sized(alloc: Global, size: usize) -> Result<Vec<u8>, AllocError> {
    let mut bytes = Vec::new(alloc);
    for _ in 0..size % 65536 {
        bytes.push(0)?;
    }
    put_bytes(&mut bytes, 0, b"MZ");
    put(&mut bytes, 60, 64);
    put_bytes(&mut bytes, 64, b"PE\0\0");
    put(&mut bytes, 68, 0x0001_8664);
    put(&mut bytes, 72, 0x1122_3344);
    put(&mut bytes, 84, 168);
    put(&mut bytes, 88, 0x20b);
    put(&mut bytes, 112, 0x4000_0000);
    put(&mut bytes, 116, 1);
    put(&mut bytes, 144, 0x3000);
    put(&mut bytes, 196, 7);
    put(&mut bytes, 248, 0x1000);
    put(&mut bytes, 252, 28);
    put(&mut bytes, 268, 0x1000);
    put(&mut bytes, 272, 58);
    put(&mut bytes, 276, 296);
    put(&mut bytes, 308, 2);
    put(&mut bytes, 312, 30);
    put(&mut bytes, 320, 324);
    put_bytes(&mut bytes, 324, b"RSDS");
    for i in 0..16u8 {
        put_bytes(&mut bytes, 328 + usize::from(i), &[i]);
    }
    put(&mut bytes, 344, 1);
    put_bytes(&mut bytes, 348, b"a.pdb\0");
    Ok(bytes)
}

/// The image of 354 bytes.
pub fn image(alloc: Global) -> Result<Vec<u8>, AllocError> {
    sized(alloc, 354)
}

/// The bytes 0 to 15 as a GUID.
pub const GUID: [u8; 16] = [3, 2, 1, 0, 5, 4, 7, 6, 8, 9, 10, 11, 12, 13, 14, 15];

/// What the image of 354 bytes names.
pub const REFERENCE: PdbReference<'static> = PdbReference {
    guid: GUID,
    age: 1,
    path: b"a.pdb",
};

/// What the image of 354 bytes says.
pub const SAID: Image<'static> = Image {
    machine: 0x8664,
    base: 0x1_4000_0000,
    time_stamp: 0x1122_3344,
    size: 0x3000,
    pdb: Some(REFERENCE),
};

#[test]
fn image_by_hand(rt: HostRuntime) -> Result<(), AllocError> {
    let bytes = image(rt.alloc())?;
    is(&rt, "is_image", &is_image(&bytes), &true);
    is(&rt, "parse", &Image::parse(&bytes), &Ok(SAID));
    Ok(())
}

#[test]
fn cuts_end_early(rt: HostRuntime) -> Result<(), AllocError> {
    let bytes = image(rt.alloc())?;
    for size in 0..354 {
        if size < bytes.len() {
            let wanted = if size < 2 {
                ImageError::NotAnImage
            } else {
                ImageError::UnexpectedEof
            };
            is(
                &rt,
                "cut",
                &Image::parse(&bytes[..size]).err(),
                &Some(wanted),
            );
            is(&rt, "is_image", &is_image(&bytes[..size]), &(size >= 2));
        }
    }
    Ok(())
}

#[test]
fn addresses_of_32_bits(rt: HostRuntime) -> Result<(), AllocError> {
    let mut bytes = image(rt.alloc())?;
    put(&mut bytes, 88, 0x10b);
    put(&mut bytes, 116, 0x40_0000);
    put(&mut bytes, 196, 0);
    put(&mut bytes, 180, 7);
    put(&mut bytes, 232, 0x1000);
    put(&mut bytes, 236, 28);
    put(&mut bytes, 248, 0);
    put(&mut bytes, 252, 0);
    let wanted = Image {
        base: 0x40_0000,
        ..SAID
    };
    is(&rt, "parse", &Image::parse(&bytes), &Ok(wanted));
    Ok(())
}

/// What the image names after a change.
fn named(bytes: &[u8]) -> Result<Option<PdbReference<'_>>, ImageError> {
    Ok(Image::parse(bytes)?.pdb)
}

#[test]
fn images_without_a_pdb(rt: HostRuntime) -> Result<(), AllocError> {
    // Six directories, an optional header too short for the seventh, no entry, and an entry of another type.
    for (at, number) in [(196, 6), (252, 27), (252, 0), (308, 16)] {
        let mut bytes = image(rt.alloc())?;
        put(&mut bytes, at, number);
        is(&rt, "none", &named(&bytes), &Ok(None));
    }
    let mut bytes = sized(rt.alloc(), 354)?;
    put(&mut bytes, 84, 167);
    put(&mut bytes, 252, 0);
    is(&rt, "short", &named(&bytes), &Ok(None));
    Ok(())
}

#[test]
fn first_entry_of_type_2(rt: HostRuntime) -> Result<(), AllocError> {
    // Three entries behind the record: one of type 16, and two of type 2, the first of which counts.
    let mut bytes = sized(rt.alloc(), 500)?;
    put(&mut bytes, 252, 84 + 27);
    put(&mut bytes, 272, 58 + 84);
    put(&mut bytes, 248, 0x1000 + 58);
    put(&mut bytes, 354 + 12, 16);
    put(&mut bytes, 354 + 16, 30);
    put(&mut bytes, 354 + 24, 438);
    put(&mut bytes, 382 + 12, 2);
    put(&mut bytes, 382 + 16, 30);
    put(&mut bytes, 382 + 24, 324);
    put(&mut bytes, 410 + 12, 2);
    put(&mut bytes, 410 + 16, 30);
    put(&mut bytes, 410 + 24, 438);
    put_bytes(&mut bytes, 438, b"RSDS");
    is(&rt, "first", &named(&bytes), &Ok(Some(REFERENCE)));
    Ok(())
}

#[test]
fn entries_in_the_second_section(rt: HostRuntime) -> Result<(), AllocError> {
    // The raw data of the first section ends before the directory's address, though its size in memory doesn't.
    let mut bytes = sized(rt.alloc(), 500)?;
    put(&mut bytes, 68, 0x0002_8664);
    put(&mut bytes, 264, 0x2000);
    put(&mut bytes, 272, 0x1000);
    put(&mut bytes, 296 + 8, 0x1000);
    put(&mut bytes, 296 + 12, 0x2000);
    put(&mut bytes, 296 + 16, 0x200);
    put(&mut bytes, 296 + 20, 0x100);
    put(&mut bytes, 248, 0x2000 + 0x60);
    put(&mut bytes, 352 + 12, 2);
    put(&mut bytes, 352 + 16, 30);
    put(&mut bytes, 352 + 24, 400);
    put_bytes(&mut bytes, 400, b"RSDS");
    for i in 0..16u8 {
        put_bytes(&mut bytes, 404 + usize::from(i), &[i]);
    }
    put(&mut bytes, 420, 1);
    put_bytes(&mut bytes, 424, b"a.pdb\0");
    is(&rt, "second", &named(&bytes), &Ok(Some(REFERENCE)));
    Ok(())
}

#[test]
fn path_to_its_zero_byte_or_the_end(rt: HostRuntime) -> Result<(), AllocError> {
    let mut bytes = image(rt.alloc())?;
    put_bytes(&mut bytes, 348, b"ab\0cde");
    let wanted = PdbReference {
        path: b"ab",
        ..REFERENCE
    };
    is(&rt, "zero byte", &named(&bytes), &Ok(Some(wanted)));
    put_bytes(&mut bytes, 348, b"abcdef");
    let wanted = PdbReference {
        path: b"abcdef",
        ..REFERENCE
    };
    is(&rt, "all", &named(&bytes), &Ok(Some(wanted)));
    put(&mut bytes, 312, 24);
    let wanted = PdbReference {
        path: b"",
        ..REFERENCE
    };
    is(&rt, "empty", &named(&bytes), &Ok(Some(wanted)));
    Ok(())
}
