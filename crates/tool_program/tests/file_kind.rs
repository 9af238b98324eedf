//! Kinds of files.

use crate::file_kind::{FileKind, file_kind, put_kind};
use crate::tests::fakes::is;
use std::test::Fail;

/// The header of a PDB of seven pages of 512 bytes.
static HEADER: &[u8; 52] = b"Microsoft C/C++ MSF 7.00\r\n\x1aDS\0\0\0\
    \0\x02\0\0\x01\0\0\0\x07\0\0\0\x0b\0\0\0\0\0\0\0";

#[test]
fn files_are_named_for_what_they_are(rt: HostRuntime) {
    let rows: [(&[u8], u64, Option<FileKind>); 11] = [
        (b"", 0, Some(FileKind::Empty)),
        (b"MZ\x90", 3, Some(FileKind::Image)),
        (b"M", 1, None),
        (b"BSJB\x01", 5, Some(FileKind::PortablePdb)),
        (
            b"Microsoft C/C++ program database 2.00\r\n",
            39,
            Some(FileKind::OldPdb),
        ),
        (b"\x1f\x8b\x08", 3, Some(FileKind::Gzip)),
        (b"hello", 5, None),
        (HEADER, 3583, Some(FileKind::Short(3584))),
        (HEADER, 3584, None),
        (&HEADER[..51], 51, None),
        (HEADER, 52, Some(FileKind::Short(3584))),
    ];
    for (front, size, wanted) in rows {
        is(&rt, "kind", &file_kind(front, size), &wanted);
    }
}

#[test]
fn kinds_have_texts(rt: HostRuntime) -> Result<(), Fail> {
    let mut out = Vec::new(rt.alloc());
    put_kind(&mut out, FileKind::Short(3584), 100)?;
    out.push(b'\n')?;
    put_kind(&mut out, FileKind::Gzip, 7)?;
    let wanted: &[u8] = b"it is cut short, and has 100 of 3584 bytes\nit is compressed by gzip";
    is(&rt, "texts", &out.as_slice(), &wanted);
    Ok(())
}
