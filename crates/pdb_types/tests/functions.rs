//! The types of functions, by their ids.

use super::is;
use super::support::{first_item, stream};
use crate::*;
use pdb_base::{Result, TypeIndex};
use std::alloc::Global;
use std::process::Abort;

/// Asserts the type of the function whose id has this record.
fn has_type(
    rt: &impl Abort,
    alloc: Global,
    record: &[u8],
    wanted: Option<TypeIndex>,
) -> Result<()> {
    let bytes = stream(alloc, &[record])?;
    is(
        rt,
        "type",
        &function_type(&first_item(rt, &bytes)?),
        &wanted,
    );
    Ok(())
}

#[test]
fn types_of_functions(rt: HostRuntime) -> Result<()> {
    let alloc = rt.alloc();
    let index = Some(TypeIndex(0x2423_2221));
    let function = b"\x01\x16\x11\x12\x13\x14\x21\x22\x23\x24f\0";
    let method = b"\x02\x16\x11\x12\x13\x14\x21\x22\x23\x24f\0";
    let text = b"\x05\x16\x11\x12\x13\x14\x21\x22\x23\x24f\0";
    has_type(&rt, alloc, function, index)?;
    has_type(&rt, alloc, method, index)?;
    has_type(&rt, alloc, text, None)?;
    // No name is read.
    has_type(&rt, alloc, function.split_at(10).0, index)?;
    has_type(&rt, alloc, function.split_at(9).0, None)
}
