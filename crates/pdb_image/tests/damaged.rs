//! Images that are damaged in one field, and the texts of errors.

use super::is;
use crate::tests::images::{image, put};
use crate::*;
use std::alloc::{AllocError, Global};

/// The error of the image by hand after a change of one number.
fn error(alloc: Global, at: usize, number: u32) -> Result<Option<ImageError>, AllocError> {
    let mut bytes = image(alloc)?;
    put(&mut bytes, at, number);
    Ok(Image::parse(&bytes).err())
}

#[test]
fn one_damaged_field(rt: HostRuntime) -> Result<(), AllocError> {
    for (label, at, number, wanted) in [
        ("MZ", 0, 0x5a4c, ImageError::NotAnImage),
        ("offset of PE", 60, 351, ImageError::UnexpectedEof),
        ("inside of PE", 60, 65, ImageError::NoSignature),
        ("file header", 60, 350, ImageError::NoSignature),
        ("PE", 64, 0x4650, ImageError::NoSignature),
        ("behind PE", 64, 0x0001_4550, ImageError::NoSignature),
        ("size 1", 84, 1, ImageError::UnexpectedEof),
        ("size 111", 84, 111, ImageError::UnexpectedEof),
        ("size 267", 84, 267, ImageError::UnexpectedEof),
        ("format", 88, 0x107, ImageError::UnknownOptionalHeader),
        ("sections", 68, 0x0003_8664, ImageError::UnexpectedEof),
        ("address", 248, 0x0fff, ImageError::UnexpectedEof),
        ("address", 248, 0x103a, ImageError::UnexpectedEof),
        ("entries", 252, 84, ImageError::UnexpectedEof),
        ("raw data", 276, 327, ImageError::UnexpectedEof),
        ("size of record", 312, 31, ImageError::UnexpectedEof),
        ("offset of record", 320, 325, ImageError::UnexpectedEof),
        ("record of 3 bytes", 312, 3, ImageError::UnexpectedEof),
        ("record of 23 bytes", 312, 23, ImageError::UnexpectedEof),
        ("NB10", 324, 0x3031_424e, ImageError::Nb10),
        ("NB11", 324, 0x3131_424e, ImageError::UnknownCodeView),
    ] {
        is(&rt, label, &error(rt.alloc(), at, number)?, &Some(wanted));
    }
    Ok(())
}

#[test]
fn texts_of_errors(rt: HostRuntime) -> Result<(), AllocError> {
    for (error, wanted) in [
        (ImageError::NotAnImage, "no image"),
        (
            ImageError::UnexpectedEof,
            "the data ends before a record does",
        ),
        (ImageError::NoSignature, "no PE signature"),
        (ImageError::UnknownOptionalHeader, "unknown optional header"),
        (
            ImageError::Nb10,
            "an NB10 record, which names a PDB of version 2.00",
        ),
        (ImageError::UnknownCodeView, "unknown CodeView record"),
    ] {
        let text = format!(in rt.alloc(); "{error}")?;
        is(&rt, "text", &text.as_str(), &wanted);
    }
    Ok(())
}
