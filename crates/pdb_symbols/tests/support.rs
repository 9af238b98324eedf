//! What the tests of records share.

use crate::{Heading, Symbol, SymbolData};
use pdb_base::{Error, RawString, Result, SymbolIndex};
use std::alloc::Global;
use std::fmt::Debug;
use std::process::Abort;

/// What a test answers where a record says another form than it should.
pub const OTHER_FORM: Error = Error::StreamNameNotFound;

/// What was found is what was worked out.
pub fn is<T: PartialEq + Debug>(rt: &impl Abort, label: &str, found: &T, wanted: &T) {
    assert!(rt; found == wanted, "{label}: {found:?}, not {wanted:?}");
}

/// The flag of this number is set, and no other.
pub fn is_alone(rt: &impl Abort, label: &str, flags: &[bool], set: usize) {
    for (k, flag) in flags.iter().enumerate() {
        is(rt, label, flag, &(k == set));
    }
}

/// A record's bytes: its kind, and two parts behind it.
pub fn record(alloc: Global, kind: u16, body: &[u8], more: &[u8]) -> Result<Vec<u8>> {
    let mut bytes = Vec::new(alloc);
    bytes.extend_from_slice(&kind.to_le_bytes())?;
    bytes.extend_from_slice(body)?;
    bytes.extend_from_slice(more)?;
    Ok(bytes)
}

/// What the record of these bytes says.
pub fn parsed(alloc: Global, bytes: &[u8]) -> Result<SymbolData<'_>> {
    match Symbol::new(SymbolIndex(0), bytes) {
        Some(symbol) => symbol.parse(alloc),
        None => Err(Error::SymbolTooShort),
    }
}

/// What heads the record of these bytes.
pub fn headed(alloc: Global, bytes: &[u8]) -> Result<Heading<'_>> {
    match Symbol::new(SymbolIndex(0), bytes) {
        Some(symbol) => symbol.heading(alloc),
        None => Err(Error::SymbolTooShort),
    }
}

/// The record of these bytes says this and has this name, and a copy of what it says is equal.
pub fn says(
    rt: &impl Abort,
    alloc: Global,
    label: &str,
    bytes: &[u8],
    wanted: &SymbolData<'_>,
    name: Option<&str>,
) -> Result<()> {
    let found = parsed(alloc, bytes)?;
    is(rt, label, &found, wanted);
    is(rt, label, &found.name(), &name.map(RawString::from));
    is(rt, label, &headed(alloc, bytes)?.name, &found.name());
    let copy = found.try_clone(alloc)?;
    is(rt, label, &copy, wanted);
    Ok(())
}

/// The record of these bytes says this, also with a byte more; and each beginning of it is the end of the data.
pub fn says_exactly(
    rt: &impl Abort,
    alloc: Global,
    label: &str,
    bytes: &[u8],
    wanted: &SymbolData<'_>,
    name: Option<&str>,
) -> Result<()> {
    says(rt, alloc, label, bytes, wanted, name)?;
    let mut longer = Vec::new(alloc);
    longer.extend_from_slice(bytes)?;
    longer.push(0x61)?;
    says(rt, alloc, label, &longer, wanted, name)?;
    for k in 2..bytes.len() {
        is_refused(rt, alloc, label, &bytes[..k], Error::UnexpectedEof);
    }
    Ok(())
}

/// The record of these bytes is refused so.
pub fn is_refused(rt: &impl Abort, alloc: Global, label: &str, bytes: &[u8], wanted: Error) {
    is(rt, label, &parsed(alloc, bytes).err(), &Some(wanted));
    is(rt, label, &headed(alloc, bytes).err(), &Some(wanted));
}
