//! The names of types.

use super::is;
use super::streams::{first_item, one_record};
use crate::*;
use pdb_base::{Error, RawString, Result};
use std::alloc::Global;
use std::process::Abort;

/// A record of each form, with different numbers in its fields. Each byte before the names is no letter of a name.
const STRUCTURE: &[u8; 22] =
    b"\x05\x15\x01\x02\x03\x04\x11\x12\x13\x14\x21\x22\x23\x24\x31\x32\x33\x34\x41\x42S\0";

const CLASS: &[u8; 24] =
    b"\x04\x15\x05\x06\x07\x08\x15\x16\x17\x18\x25\x26\x27\x28\x35\x36\x37\x38\x45\x46Cla\0";

const INTERFACE: &[u8; 25] =
    b"\x19\x15\x01\x02\x03\x04\x11\x12\x13\x14\x21\x22\x23\x24\x31\x32\x33\x34\x01\x80\x43\x44In\0";

const UNION: &[u8; 17] = b"\x06\x15\x01\x02\x03\x04\x11\x12\x13\x14\x02\x80\x43\x44Un\0";

const ENUM: &[u8; 18] = b"\x07\x15\x01\x02\x03\x04\x11\x12\x13\x14\x21\x22\x23\x24Enu\0";

/// Asserts the name of the type of this record, or its refusal.
fn named(
    rt: &impl Abort,
    alloc: Global,
    record: &[u8],
    wanted: Result<Option<&str>>,
) -> Result<()> {
    let bytes = one_record(alloc, record)?;
    let wanted = wanted.map(|name| name.map(|text| RawString::from(text)));
    is(rt, "name", &type_name(&first_item(rt, &bytes)?), &wanted);
    Ok(())
}

#[test]
fn names_of_types(rt: HostRuntime) -> Result<()> {
    let alloc = rt.alloc();
    named(&rt, alloc, STRUCTURE, Ok(Some("S")))?;
    named(&rt, alloc, CLASS, Ok(Some("Cla")))?;
    named(&rt, alloc, INTERFACE, Ok(Some("In")))?;
    named(&rt, alloc, UNION, Ok(Some("Un")))?;
    named(&rt, alloc, ENUM, Ok(Some("Enu")))
}

#[test]
fn sizes_of_types(rt: HostRuntime) -> Result<()> {
    let alloc = rt.alloc();
    let sizes: [&[u8]; 8] = [
        b"\xff\x7f",
        b"\0\x80\x07",
        b"\x01\x80\x07\x08",
        b"\x02\x80\x07\x08",
        b"\x03\x80\x07\x08\x09\x0a",
        b"\x04\x80\x07\x08\x09\x0a",
        b"\x09\x80\x07\x08\x09\x0a\x0b\x0c\x0d\x0e",
        b"\x0a\x80\x07\x08\x09\x0a\x0b\x0c\x0d\x0e",
    ];
    for size in sizes {
        let mut record = Vec::new(alloc);
        record.extend_from_slice(&STRUCTURE[..18])?;
        record.extend_from_slice(size)?;
        record.extend_from_slice(b"Na\0")?;
        named(&rt, alloc, &record, Ok(Some("Na")))?;
    }
    let unlisted = b"\x06\x15\0\0\0\0\0\0\0\0\x05\x80U\0";
    let refusal = Err(Error::UnexpectedNumericPrefix(0x8005));
    named(&rt, alloc, unlisted, refusal)
}

/// Asserts that the record is refused where a byte of it is missing, and that a byte behind it is free.
fn is_cut(rt: &impl Abort, alloc: Global, record: &[u8], name: &str) -> Result<()> {
    for n in 2..record.len() {
        named(rt, alloc, &record[..n], Err(Error::UnexpectedEof))?;
    }
    let mut longer = Vec::new(alloc);
    longer.extend_from_slice(record)?;
    longer.push(0xf1)?;
    named(rt, alloc, &longer, Ok(Some(name)))
}

#[test]
fn types_are_cut_at_each_byte(rt: HostRuntime) -> Result<()> {
    is_cut(&rt, rt.alloc(), STRUCTURE, "S")?;
    is_cut(&rt, rt.alloc(), CLASS, "Cla")?;
    is_cut(&rt, rt.alloc(), INTERFACE, "In")?;
    is_cut(&rt, rt.alloc(), UNION, "Un")?;
    is_cut(&rt, rt.alloc(), ENUM, "Enu")
}

#[test]
fn other_types_have_no_names(rt: HostRuntime) -> Result<()> {
    let kinds: [&[u8; 2]; 5] = [
        b"\x03\x15",
        b"\x08\x15",
        b"\x18\x15",
        b"\x01\x12",
        b"\x01\x16",
    ];
    for kind in kinds {
        named(&rt, rt.alloc(), kind, Ok(None))?;
    }
    Ok(())
}
