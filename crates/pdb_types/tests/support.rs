//! Streams of types.

ghost use Rattle.std.specs.Prelude.{◌<◌, ◌^◌, length};

use crate::*;
use pdb_base::{FallibleIterator, Result, TypeIndex};
use pdb_items::{Item, ItemFinder, ItemIter};
use std::alloc::Global;
use std::process::Abort;

/// The number of a test's bytes, which are few.
fn small(bytes: &[u8]) -> u16 {
    bytes.len().min(60000) as u16
}

/// A stream of these records, of which the first has the index 0x1000. Each is its bytes without the length.
pub(crate) fn stream(alloc: Global, records: &[&[u8]]) -> Result<Vec<u8>> {
    let mut counted = Vec::new(alloc);
    for record in records {
        counted.extend_from_slice(&small(record).to_le_bytes())?;
        counted.extend_from_slice(record)?;
    }
    let mut bytes = Vec::new(alloc);
    for number in [0x0131_ca0bu32, 56, 0x1000, 0, counted.len() as u32] {
        bytes.extend_from_slice(&number.to_le_bytes())?;
    }
    for _ in 20..56 {
        bytes.push(0)?;
    }
    bytes.extend_from_slice(&counted)?;
    Ok(bytes)
}

/// The bytes of a test's stream, which are few.
pub(crate) fn few<'t>(rt: &impl Abort, bytes: &'t [u8]) -> &'t [u8]
    ensures { length result.now < 2 ^ 32 }
{
    assert!(rt; bytes.len() < 1_000_000);
    bytes
}

/// The first item of a stream.
pub(crate) fn first_item<'t>(rt: &impl Abort, bytes: &'t [u8]) -> Result<Item<'t>> {
    let item = ItemIter::new(few(rt, bytes))?.next()?;
    Ok(item.expect(rt, "an item"))
}

/// The types of a stream, and their definitions.
pub(crate) fn types_of<'t>(
    rt: &impl Abort,
    alloc: Global,
    bytes: &'t [u8],
) -> Result<(ItemFinder<'t>, TypeDefinitions<'t>)> {
    let types = ItemFinder::new(alloc, few(rt, bytes))?;
    let definitions = TypeDefinitions::new(alloc, ItemIter::new(few(rt, bytes))?)?;
    Ok((types, definitions))
}

/// Asserts the name of a type, behind a text that is there already.
pub(crate) fn named(
    rt: &impl Abort,
    alloc: Global,
    types: &(ItemFinder<'_>, TypeDefinitions<'_>),
    index: u32,
    wanted: &[u8],
) -> Result<()> {
    let mut out = Vec::new(alloc);
    out.extend_from_slice(b"name: ")?;
    put_name(&types.0, &types.1, &mut out, TypeIndex(index))?;
    assert!(rt; out.starts_with(b"name: "));
    let given = out.as_slice().split_at(6).1;
    assert!(rt;
        given == wanted,
        "{index:x}: {:?}, and not {:?}",
        given,
        wanted
    );
    Ok(())
}
