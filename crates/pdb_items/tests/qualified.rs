//! The qualified names of functions.

use super::is;
use super::streams::{IDS, TYPES, few, stream};
use crate::*;
use pdb_base::{IdIndex, RawString, Result};
use std::process::Abort;

/// Asserts the qualified name of an id, with an empty text for no scope; or that there is none.
fn named(
    rt: &impl Abort,
    ids: &ItemFinder<'_>,
    types: &ItemFinder<'_>,
    id: u32,
    wanted: Option<(&str, &str)>,
) {
    let wanted = wanted.map(|(scope, name)| QualifiedName {
        scope: Some(RawString::from(scope)).filter(|_| scope != ""),
        name: RawString::from(name),
    });
    is(
        rt,
        "name",
        &qualified_name(ids, types, IdIndex(id)),
        &wanted,
    );
}

#[test]
fn qualified_names(rt: HostRuntime) -> Result<()> {
    let ids = ItemFinder::new(rt.alloc(), &IDS)?;
    let types = ItemFinder::new(rt.alloc(), &TYPES)?;
    named(&rt, &ids, &types, 0xfff, None);
    named(&rt, &ids, &types, 0x1000, None);
    named(&rt, &ids, &types, 0x1001, Some(("ns", "ab")));
    named(&rt, &ids, &types, 0x1002, Some(("S", "m")));
    named(&rt, &ids, &types, 0x1003, Some(("", "f")));
    named(&rt, &ids, &types, 0x1004, Some(("", "g")));
    named(&rt, &ids, &types, 0x1005, Some(("", "h")));
    named(&rt, &ids, &types, 0x1006, None);
    named(&rt, &ids, &types, 0x1007, None);
    named(&rt, &ids, &types, 0x1008, None);
    Ok(())
}

#[test]
fn names_without_types(rt: HostRuntime) -> Result<()> {
    let ids = ItemFinder::new(rt.alloc(), &IDS)?;
    let types = ItemFinder::empty(rt.alloc());
    named(&rt, &ids, &types, 0x1001, Some(("ns", "ab")));
    named(&rt, &ids, &types, 0x1002, Some(("", "m")));
    named(&rt, &types, &ids, 0x1001, None);
    Ok(())
}

/// A scope whose text has no zero byte, a function in it, and one whose own name has none.
const UNREADABLE: &[u8; 38] =
    b"\x08\0\x05\x16\0\0\0\0ns\x0d\0\x01\x16\0\x10\0\0\x74\0\0\0ab\0\x0b\0\x01\x16\0\0\0\0\x74\0\0\0a";

#[test]
fn what_cannot_be_read_has_no_name(rt: HostRuntime) -> Result<()> {
    let alloc = rt.alloc();
    let ids = stream(alloc, 56, 0x1000, UNREADABLE)?;
    let ids = ItemFinder::new(alloc, few(&rt, &ids))?;
    let types = ItemFinder::empty(alloc);
    named(&rt, &ids, &types, 0x1001, Some(("", "ab")));
    named(&rt, &ids, &types, 0x1002, None);
    Ok(())
}

/// Members of the types 0x20 to 0x24, and a function whose scope is no id of the stream.
const MEMBERS: &[u8; 78] = b"\x0b\0\x02\x16\x20\0\0\0\x74\0\0\0\0\
\x0b\0\x02\x16\x21\0\0\0\x74\0\0\0\0\x0b\0\x02\x16\x22\0\0\0\x74\0\0\0\0\
\x0b\0\x02\x16\x23\0\0\0\x74\0\0\0\0\x0b\0\x02\x16\x24\0\0\0\x74\0\0\0\0\
\x0b\0\x01\x16\x99\0\0\0\x74\0\0\0\0";

/// A class `C`, a union `U`, an enumeration `E`, and a class whose name has no zero byte.
const PARENTS: &[u8; 76] = b"\x16\0\x04\x15\0\0\0\0\0\0\0\0\0\0\0\0\0\0\0\0\0\0C\0\
\x0e\0\x06\x15\0\0\0\0\0\0\0\0\0\0U\0\x10\0\x07\x15\0\0\0\0\0\0\0\0\0\0\0\0E\0\
\x10\0\x07\x15\0\0\0\0\0\0\0\0\0\0\0\0EE";

#[test]
fn names_of_members(rt: HostRuntime) -> Result<()> {
    let alloc = rt.alloc();
    let ids = stream(alloc, 56, 0x10, MEMBERS)?;
    let ids = ItemFinder::new(alloc, few(&rt, &ids))?;
    let types = stream(alloc, 56, 0x20, PARENTS)?;
    let types = ItemFinder::new(alloc, few(&rt, &types))?;
    named(&rt, &ids, &types, 0x10, Some(("C", "")));
    named(&rt, &ids, &types, 0x11, Some(("U", "")));
    named(&rt, &ids, &types, 0x12, Some(("E", "")));
    named(&rt, &ids, &types, 0x13, Some(("", "")));
    named(&rt, &ids, &types, 0x14, Some(("", "")));
    named(&rt, &ids, &types, 0x15, Some(("", "")));
    Ok(())
}
