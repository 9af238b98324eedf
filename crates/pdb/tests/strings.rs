//! The string table, which is the stream of a name.

use super::is;
use crate::tests::sample::{INFORMATION, SAMPLE, STRINGS, changed, file_of};
use crate::*;
use std::alloc::Global;
use std::process::Abort;

#[test]
fn the_sample_has_one_name(rt: HostRuntime) -> Result<()> {
    let bytes = file_of(rt.alloc(), &SAMPLE)?;
    let mut pdb = PDB::open(rt.alloc(), MemorySource::new(&bytes))?;
    for _ in 0..2 {
        let table = pdb.string_table()?;
        let name = table.get(StringRef(1))?;
        is(&rt, "name", &name.as_bytes(), &b"a.c".as_slice());
        let empty = table.get(StringRef(0))?;
        is(&rt, "empty", &empty.as_bytes(), &b"".as_slice());
        let past = table.get(StringRef(5)).err();
        is(&rt, "past", &past, &Some(Error::UnexpectedEof));
    }
    Ok(())
}

/// Two names `/names`, of the streams 7 and 8.
const TWICE: &[u8; 75] =
    b"\x94\x2e\x31\x01\x01\0\0\0\x02\0\0\0\x33\x22\x11\x00\x55\x44\x77\x66\x88\x99\xaa\xbb\xcc\xdd\xee\xff\x07\0\0\0/names\0\x02\0\0\0\x02\0\0\0\x01\0\0\0\x03\0\0\0\0\0\0\0\0\0\0\0\x07\0\0\0\0\0\0\0\x08\0\0\0";

/// How the string table of the sample with another information stream is refused, however often.
fn refusal(rt: &impl Abort, alloc: Global, information: &[u8]) -> Result<Option<Error>> {
    let bytes = changed(alloc, 1, Some(information))?;
    let mut pdb = PDB::open(alloc, MemorySource::new(&bytes))?;
    let first = pdb.string_table().err();
    let again = pdb.string_table().err();
    is(rt, "again", &again, &first);
    Ok(first)
}

#[test]
fn the_first_of_two_names_has_the_table(rt: HostRuntime) -> Result<()> {
    let bytes = changed(rt.alloc(), 1, Some(TWICE))?;
    let mut pdb = PDB::open(rt.alloc(), MemorySource::new(&bytes))?;
    let table = pdb.string_table()?;
    let name = table.get(StringRef(1))?;
    is(&rt, "name", &name.as_bytes(), &b"a.c".as_slice());
    let stream = pdb.named_stream(b"/names")?;
    is(&rt, "stream", &stream.as_slice(), &STRINGS.as_slice());
    Ok(())
}

#[test]
fn the_first_of_two_names_decides(rt: HostRuntime) -> Result<()> {
    let mut none = *TWICE;
    none[63] = 0xff;
    none[64] = 0xff;
    let missing = Some(Error::StreamNameNotFound);
    is(&rt, "none", &refusal(&rt, rt.alloc(), &none)?, &missing);
    let mut absent = *TWICE;
    absent[63] = 4;
    let told = Some(Error::StreamNotFound(4));
    is(&rt, "absent", &refusal(&rt, rt.alloc(), &absent)?, &told);
    let mut beyond = *TWICE;
    beyond[67] = 7;
    let end = Some(Error::UnexpectedEof);
    is(&rt, "beyond", &refusal(&rt, rt.alloc(), &beyond)?, &end);
    Ok(())
}

#[test]
fn no_name_is_no_table(rt: HostRuntime) -> Result<()> {
    let mut renamed = INFORMATION;
    renamed[33] = b'N';
    let missing = Some(Error::StreamNameNotFound);
    is(
        &rt,
        "renamed",
        &refusal(&rt, rt.alloc(), &renamed)?,
        &missing,
    );
    let cut = refusal(&rt, rt.alloc(), &INFORMATION[..66])?;
    is(&rt, "cut", &cut, &Some(Error::UnexpectedEof));
    Ok(())
}

/// How the string table of these bytes is refused.
fn table_refusal(alloc: Global, table: Option<&[u8]>) -> Result<Option<Error>> {
    let bytes = changed(alloc, 7, table)?;
    let mut pdb = PDB::open(alloc, MemorySource::new(&bytes))?;
    let refused = pdb.string_table().err();
    Ok(refused)
}

#[test]
fn another_table_is_refused(rt: HostRuntime) -> Result<()> {
    let end = Some(Error::UnexpectedEof);
    let cut = table_refusal(rt.alloc(), Some(&STRINGS[..16]))?;
    is(&rt, "cut", &cut, &end);
    let front = table_refusal(rt.alloc(), Some(&STRINGS[..11]))?;
    is(&rt, "front", &front, &end);
    let mut other = STRINGS;
    other[0] = 0;
    let other = table_refusal(rt.alloc(), Some(&other))?;
    let unknown = Error::UnimplementedFeature(Feature::StringTable);
    is(&rt, "other", &other, &Some(unknown));
    let absent = table_refusal(rt.alloc(), None)?;
    is(&rt, "absent", &absent, &Some(Error::StreamNotFound(7)));
    Ok(())
}
