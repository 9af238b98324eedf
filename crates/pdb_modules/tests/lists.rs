//! What tests compare: lists, by what they give and where they are refused.

use crate::tests::streams::lines_info;
use crate::*;
use pdb_base::{Error, FallibleIterator, FileIndex, PdbInternalSectionOffset, Result, StringRef};
use std::alloc::Global;
use std::fmt::Debug;
use std::process::Abort;

/// A value is the one that is wanted.
pub fn is<T: PartialEq + Debug>(rt: &impl Abort, label: &str, given: &T, wanted: &T) {
    assert_eq!(rt; given, wanted, "{label}");
}

/// A list gives these items, then this fault, if any, and then nothing.
pub fn gives<L: FallibleIterator>(
    rt: &impl Abort,
    label: &str,
    mut list: L,
    wanted: &[L::Item],
    fault: Option<Error>,
)
where
    L::Item: PartialEq,
{
    for item in wanted {
        match list.next() {
            Ok(Some(given)) => assert!(rt; given == *item, "{label}: an item"),
            _ => panic!(rt; "{label}: too few items"),
        }
    }
    match list.next() {
        Ok(Some(_)) => panic!(rt; "{label}: too many items"),
        Ok(None) => assert!(rt; fault.is_none(), "{label}: no fault"),
        Err(error) => assert!(rt; fault == Some(error), "{label}: a fault"),
    }
    assert!(rt; matches!(list.next(), Ok(None)), "{label}: the end");
}

/// A statement's record without columns, in file 0.
pub fn line_in(
    section: u16,
    offset: u32,
    length: Option<u32>,
    line_start: u32,
    line_end: u32,
) -> LineInfo {
    LineInfo {
        offset: PdbInternalSectionOffset::new(section, offset),
        length,
        file_index: FileIndex(0),
        line_start,
        line_end,
        column_start: None,
        column_end: None,
        kind: LineInfoKind::Statement,
    }
}

/// The same, in section 1.
pub fn line(offset: u32, length: Option<u32>, line_start: u32, line_end: u32) -> LineInfo {
    line_in(1, offset, length, line_start, line_end)
}

/// A list of line records, whichever it is, gives these, then this fault, if any, and then nothing.
pub fn gives_lines<L: LineRecords>(
    rt: &impl Abort,
    label: &str,
    mut lines: L,
    wanted: &[LineInfo],
    fault: Option<Error>,
) {
    for wanted in wanted {
        match lines.next_line() {
            Ok(Some(given)) => is(rt, label, &given, wanted),
            _ => panic!(rt; "{label}: too few records"),
        }
    }
    is(rt, label, &lines.next_line().err(), &fault);
    assert!(rt; matches!(lines.next_line(), Ok(None)), "{label}: the end");
}

/// All records of lines data.
pub fn lines_are(
    rt: &impl Abort,
    alloc: Global,
    label: &str,
    lines_data: &[u8],
    wanted: &[LineInfo],
    fault: Option<Error>,
) -> Result<()> {
    let info = lines_info(rt, lines_data)?;
    let program = info.line_program(alloc)?;
    gives(rt, label, program.lines(), wanted, fault);
    gives_lines(rt, label, program.lines(), wanted, fault);
    Ok(())
}

/// The records of a symbol in a section, at an offset.
pub fn lines_at(
    rt: &impl Abort,
    alloc: Global,
    label: &str,
    lines_data: &[u8],
    place: (u16, u32),
    wanted: &[LineInfo],
    fault: Option<Error>,
) -> Result<()> {
    let info = lines_info(rt, lines_data)?;
    let program = info.line_program(alloc)?;
    let offset = PdbInternalSectionOffset::new(place.0, place.1);
    gives(rt, label, program.lines_for_symbol(offset), wanted, fault);
    let counted = program.lines_for_symbol_counted(offset, &mut pdb_base::Steps::new());
    gives(rt, label, counted, wanted, fault);
    Ok(())
}

/// All records of lines data, which have these columns.
pub fn lines_with_columns(
    rt: &impl Abort,
    alloc: Global,
    label: &str,
    lines_data: &[u8],
    wanted: &[LineInfo],
    columns: &[Option<(u32, u32)>],
) -> Result<()> {
    let info = lines_info(rt, lines_data)?;
    let program = info.line_program(alloc)?;
    let mut lines = program.lines();
    for (wanted, columns) in wanted.iter().zip(columns) {
        match lines.next()? {
            Some(mut given) => {
                let found = match (given.column_start, given.column_end) {
                    (Some(start), Some(end)) => Some((start, end)),
                    _ => None,
                };
                is(rt, label, &found, columns);
                given.column_start = None;
                given.column_end = None;
                is(rt, label, &given, wanted);
            }
            None => panic!(rt; "{label}: too few items"),
        }
    }
    assert!(rt; lines.next()?.is_none(), "{label}: the end");
    Ok(())
}

/// Lines data has one record, an expression's, with these lines.
pub fn expression(
    rt: &impl Abort,
    alloc: Global,
    lines_data: &[u8],
    line_start: u32,
    line_end: u32,
) -> Result<()> {
    let info = lines_info(rt, lines_data)?;
    let program = info.line_program(alloc)?;
    let mut wanted = line(0x100, Some(4), line_start, line_end);
    wanted.kind = LineInfoKind::Expression;
    gives(rt, "an expression", program.lines(), &[wanted], None);
    Ok(())
}

/// Lines data has no line program.
pub fn refused(
    rt: &impl Abort,
    alloc: Global,
    label: &str,
    lines_data: &[u8],
    wanted: Error,
) -> Result<()> {
    let info = lines_info(rt, lines_data)?;
    is(rt, label, &info.line_program(alloc).err(), &Some(wanted));
    is(rt, label, &info.files().err(), &Some(wanted));
    Ok(())
}

/// A file with this checksum.
pub fn file(name: u32, checksum: FileChecksum<'_>) -> FileInfo<'_> {
    FileInfo {
        name: StringRef(name),
        checksum,
    }
}

/// The record that is found at a place in section 1.
pub fn line_is_found(
    rt: &impl Abort,
    alloc: Global,
    label: &str,
    lines_data: &[u8],
    offset: u32,
    wanted: Option<LineInfo>,
) -> Result<()> {
    let info = lines_info(rt, lines_data)?;
    let places = info.line_places(alloc)?;
    let found = places.find(PdbInternalSectionOffset::new(1, offset));
    is(rt, label, &found, &wanted);
    Ok(())
}
