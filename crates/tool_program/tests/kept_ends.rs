//! Ends of lines, kept and replaced.

use super::fakes::is;
use super::modules::{IDS, TYPES};
use pdb::{ItemFinder, TypeIndex};
use pdb_resolve::GlobalIds;
use pdb_types::TypeDefinitions;
use std::test::Fail;
use tool_types::kept_ends::KeptEnds;
use tool_types::line_names::LineNames;

/// `int`, `int*`, no type, `unsigned`; then two types of one place, which the second takes from the first.
const ASKED: [(Option<TypeIndex>, &[u8]); 9] = [
    (Some(TypeIndex(0x74)), b": int\n"),
    (Some(TypeIndex(0x674)), b": int*\n"),
    (None, b"\n"),
    (Some(TypeIndex(0)), b"\n"),
    (Some(TypeIndex(0x75)), b": unsigned\n"),
    (Some(TypeIndex(0x74)), b": int\n"),
    (Some(TypeIndex(0x01f4)), b": ??\n"),
    (Some(TypeIndex(0x0470)), b": char*\n"),
    (Some(TypeIndex(0x74)), b": int\n"),
];

#[test]
fn ends_are_those_of_the_types(rt: HostRuntime) -> Result<(), Fail> {
    let alloc = rt.alloc();
    let none = ItemFinder::empty(alloc);
    let definitions = TypeDefinitions::empty(alloc);
    let global = GlobalIds::empty(alloc);
    let names = LineNames::new(&none, &none, &definitions, &global);
    let mut kept = KeptEnds::new(alloc, names);
    for (index, wanted) in ASKED {
        let place = kept.keep(index)?;
        is(&rt, "end", &kept.at(place), &wanted);
    }
    is(&rt, "no place", &kept.at(1024), &b"".as_slice());
    Ok(())
}

/// A function, and two ids without one at the same place.
const CALLS: [(u32, &[u8]); 5] = [
    (0x1001, b" ns::ab: int\n"),
    (0x13fe, b" ??\n"),
    (0x17fa, b" ??\n"),
    (0x1001, b" ns::ab: int\n"),
    (0x1001, b" ns::ab: int\n"),
];

#[test]
fn ends_of_calls_are_those_of_the_ids(rt: HostRuntime) -> Result<(), Fail> {
    let alloc = rt.alloc();
    let ids = ItemFinder::new(alloc, &IDS)?;
    let types = ItemFinder::new(alloc, &TYPES)?;
    let definitions = TypeDefinitions::empty(alloc);
    let global = GlobalIds::empty(alloc);
    let names = LineNames::new(&ids, &types, &definitions, &global);
    let mut kept = KeptEnds::new(alloc, names);
    is(&rt, "no call", &kept.call_at(17), &b"".as_slice());
    for (id, wanted) in CALLS {
        let place = kept.keep_call(id)?;
        is(&rt, "end", &kept.call_at(place), &wanted);
    }
    Ok(())
}
