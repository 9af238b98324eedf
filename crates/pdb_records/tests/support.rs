//! What the tests of records share.

use crate::{Gaps, Numbers, Record, Strings};
use pdb_base::{Error, FallibleIterator, PdbInternalSectionOffset, Result, SymbolIndex};
use pdb_symbols::Symbol;
use std::alloc::Global;
use std::fmt::Debug;
use std::process::Abort;

/// What was found is what was worked out.
pub fn is<T: PartialEq + Debug>(rt: &impl Abort, label: &str, found: &T, wanted: &T) {
    assert!(rt; found == wanted, "{label}: {found:?}, not {wanted:?}");
}

/// An offset in a section.
pub fn at(section: u16, offset: u32) -> PdbInternalSectionOffset {
    PdbInternalSectionOffset { offset, section }
}

/// What the record of these bytes says.
pub fn parsed(bytes: &[u8]) -> Result<Record<'_>> {
    match Symbol::new(SymbolIndex(0), bytes) {
        Some(symbol) => Record::parse(&symbol),
        None => Err(Error::SymbolTooShort),
    }
}

/// The record of these bytes says this; and each beginning of it is the end of the data.
pub fn says_exactly(rt: &impl Abort, label: &str, bytes: &[u8], wanted: &Record<'_>) {
    is(rt, label, &parsed(bytes), &Ok(*wanted));
    for k in 2..bytes.len() {
        is(rt, label, &parsed(&bytes[..k]), &Err(Error::UnexpectedEof));
    }
}

/// The record of these bytes says this, also with bytes behind it; and each beginning of it is the end of the data.
pub fn says(
    rt: &impl Abort,
    alloc: Global,
    label: &str,
    bytes: &[u8],
    wanted: &Record<'_>,
) -> Result<()> {
    says_exactly(rt, label, bytes, wanted);
    let mut longer = Vec::new(alloc);
    longer.extend_from_slice(bytes)?;
    longer.extend_from_slice(b"\xf1\xf2\xf3")?;
    is(rt, label, &parsed(&longer), &Ok(*wanted));
    Ok(())
}

/// The gaps are these, each as a start and a length.
pub fn has_gaps(rt: &impl Abort, label: &str, gaps: Gaps<'_>, wanted: &[(u16, u16)]) -> Result<()> {
    is(rt, label, &gaps.len(), &wanted.len());
    is(rt, label, &gaps.is_empty(), &wanted.is_empty());
    let mut it = gaps.iter();
    for (start, len) in wanted {
        let found = it.next()?.map(|gap| (gap.start, gap.len));
        is(rt, label, &found, &Some((*start, *len)));
    }
    is(rt, label, &it.next(), &Ok(None));
    is(rt, label, &it.next(), &Ok(None));
    Ok(())
}

/// The numbers are these.
pub fn has_numbers(
    rt: &impl Abort,
    label: &str,
    numbers: Numbers<'_>,
    wanted: &[u32],
) -> Result<()> {
    is(rt, label, &numbers.len(), &wanted.len());
    is(rt, label, &numbers.is_empty(), &wanted.is_empty());
    let mut it = numbers.iter();
    for number in wanted {
        is(rt, label, &it.next()?, &Some(*number));
    }
    is(rt, label, &it.next(), &Ok(None));
    is(rt, label, &it.next(), &Ok(None));
    Ok(())
}

/// The names are these.
pub fn has_strings(
    rt: &impl Abort,
    label: &str,
    strings: Strings<'_>,
    wanted: &[&[u8]],
) -> Result<()> {
    let mut it = strings.iter();
    for name in wanted {
        let found = it.next()?.map(|name| name.as_bytes());
        is(rt, label, &found, &Some(*name));
    }
    is(rt, label, &it.next(), &Ok(None));
    is(rt, label, &it.next(), &Ok(None));
    Ok(())
}

/// A record's bytes: its kind, and two parts behind it.
pub fn record(alloc: Global, kind: u16, body: &[u8], more: &[u8]) -> Result<Vec<u8>> {
    let mut bytes = Vec::new(alloc);
    bytes.extend_from_slice(&kind.to_le_bytes())?;
    bytes.extend_from_slice(body)?;
    bytes.extend_from_slice(more)?;
    Ok(bytes)
}
