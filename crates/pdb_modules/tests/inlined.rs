//! Line records of inline sites.

use crate::tests::lists::{gives, gives_lines};
use crate::tests::streams::info;
use crate::{LineInfo, LineInfoKind};
use pdb_base::{
    Error, FallibleIterator, FileIndex, IdIndex, PdbInternalSectionOffset, Result, SymbolIndex,
};
use pdb_symbols::{BinaryAnnotations, InlineSiteSymbol};
use std::process::Abort;

/// A record: its file and lines, and its columns where it has them.
fn inlined(
    offset: u32,
    length: Option<u32>,
    source: (u32, u32, u32),
    columns: Option<(u32, u32)>,
    kind: LineInfoKind,
) -> LineInfo {
    let (column_start, column_end) = match columns {
        Some((start, end)) => (Some(start), Some(end)),
        None => (None, None),
    };
    LineInfo {
        offset: PdbInternalSectionOffset::new(1, offset),
        length,
        file_index: FileIndex(source.0),
        line_start: source.1,
        line_end: source.2,
        column_start,
        column_end,
        kind,
    }
}

/// A record in line 10 with a start column alone.
fn start_column(offset: u32, column: u32) -> LineInfo {
    let mut line = inlined(offset, None, (0, 10, 11), None, LineInfoKind::Statement);
    line.column_start = Some(column);
    line
}

/// A site of these annotations has these records, where the procedure begins at an offset in section 1, and the
/// inlined function in a file and a line.
fn site_lines(
    rt: &impl Abort,
    label: &str,
    annotations: &[u8],
    from: (u32, u32, u32),
    wanted: &[LineInfo],
    fault: Option<Error>,
) -> Result<()> {
    let mut part =
        *b"\xf6\x00\x00\x00\x10\x00\x00\x00\x00\x00\x00\x00\x01\x10\x00\x00\x00\x00\x00\x00\x00\x00\x00\x00";
    part[16..20].copy_from_slice(&from.1.to_le_bytes());
    part[20..24].copy_from_slice(&from.2.to_le_bytes());
    let info = info(rt, &part, (0, 0, 24))?;
    let inlinee = info.inlinees()?.next()?.expect(rt, "an inlined function");
    let site = InlineSiteSymbol {
        parent: None,
        end: SymbolIndex(0),
        inlinee: IdIndex(0x1001),
        invocations: None,
        annotations: BinaryAnnotations::new(annotations),
    };
    let parent = PdbInternalSectionOffset::new(1, from.0);
    gives(rt, label, inlinee.lines(parent, &site), wanted, fault);
    gives_lines(rt, label, inlinee.lines(parent, &site), wanted, fault);
    Ok(())
}

#[test]
fn inlined_records_have_their_own_length(rt: HostRuntime) -> Result<()> {
    site_lines(
        &rt,
        "lengths of their own",
        b"\x0c\x02\x3f\x0c\x03\x09\x00\x00",
        (0x120, 0x270, 0x155),
        &[
            inlined(
                0x15f,
                Some(2),
                (0x270, 0x155, 0x156),
                None,
                LineInfoKind::Statement,
            ),
            inlined(
                0x168,
                Some(3),
                (0x270, 0x155, 0x156),
                None,
                LineInfoKind::Statement,
            ),
        ],
        None,
    )?;
    Ok(())
}

#[test]
fn inlined_lengths_reach_the_next_record(rt: HostRuntime) -> Result<()> {
    site_lines(
        &rt,
        "lengths by the next record",
        b"\x06\x26\x03\xba\x20\x0b\x47\x0b\x24\x04\x05\x00",
        (0x453f100, 0, 0x1f3),
        &[
            inlined(
                0x4542b20,
                Some(7),
                (0, 0x206, 0x207),
                None,
                LineInfoKind::Statement,
            ),
            inlined(
                0x4542b27,
                Some(4),
                (0, 0x208, 0x209),
                None,
                LineInfoKind::Statement,
            ),
            inlined(
                0x4542b2b,
                Some(5),
                (0, 0x209, 0x20a),
                None,
                LineInfoKind::Statement,
            ),
        ],
        None,
    )?;
    Ok(())
}

#[test]
fn an_inlined_length_is_told_in_its_kind_alone(rt: HostRuntime) -> Result<()> {
    site_lines(
        &rt,
        "a length by the kind",
        b"\x03\x04\x08\x00\x04\x06\x08\x01\x03\x02",
        (0x100, 0, 10),
        &[
            inlined(0x104, Some(8), (0, 10, 11), None, LineInfoKind::Statement),
            inlined(0x10c, None, (0, 10, 11), None, LineInfoKind::Statement),
        ],
        None,
    )?;
    Ok(())
}

#[test]
fn a_code_offset_is_set_and_not_added(rt: HostRuntime) -> Result<()> {
    site_lines(
        &rt,
        "a code offset is no delta",
        b"\x03\x04\x01\x20\x03\x01",
        (0x100, 0, 10),
        &[
            inlined(
                0x104,
                Some(0xffffff1d),
                (0, 10, 11),
                None,
                LineInfoKind::Statement,
            ),
            inlined(33, None, (0, 10, 11), None, LineInfoKind::Statement),
        ],
        None,
    )?;
    Ok(())
}

#[test]
fn columns_of_inlined_records(rt: HostRuntime) -> Result<()> {
    site_lines(
        &rt,
        "columns",
        b"\x09\x05\x0d\x0a\x03\x01\x0a\x06\x03\x02",
        (0x100, 0, 10),
        &[
            inlined(
                0x101,
                Some(2),
                (0, 10, 11),
                Some((5, 10)),
                LineInfoKind::Statement,
            ),
            inlined(
                0x103,
                None,
                (0, 10, 11),
                Some((5, 13)),
                LineInfoKind::Statement,
            ),
        ],
        None,
    )?;
    Ok(())
}

#[test]
fn lines_below_0_and_lengths_of_their_own(rt: HostRuntime) -> Result<()> {
    site_lines(
        &rt,
        "lines below 0",
        b"\x06\x03\x03\x01",
        (0x100, 0, 0),
        &[inlined(
            0x101,
            None,
            (0, 0xffffffff, 0),
            None,
            LineInfoKind::Statement,
        )],
        None,
    )?;
    site_lines(
        &rt,
        "an own length stays",
        b"\x0c\x02\x03\x04\x09",
        (0x100, 0, 10),
        &[inlined(0x103, Some(2), (0, 10, 11), None, LineInfoKind::Statement)],
        None,
    )?;
    Ok(())
}

#[test]
fn a_fault_of_annotations_comes_in_place_of_the_open_record(rt: HostRuntime) -> Result<()> {
    site_lines(
        &rt,
        "the open record before a fault",
        b"\x03\x04\x03\x02\x0e",
        (0x100, 0, 10),
        &[inlined(0x104, Some(2), (0, 10, 11), None, LineInfoKind::Statement)],
        Some(Error::UnknownBinaryAnnotation(14)),
    )?;
    Ok(())
}

#[test]
fn no_length_is_taken_past_the_next_record(rt: HostRuntime) -> Result<()> {
    site_lines(
        &rt,
        "not past the next record",
        b"\x03\x04\x08\x00\x03\x02\x08\x01\x04\x05",
        (0x100, 0, 10),
        &[
            inlined(0x104, None, (0, 10, 11), None, LineInfoKind::Statement),
            inlined(0x106, None, (0, 10, 11), None, LineInfoKind::Expression),
        ],
        None,
    )?;
    Ok(())
}

#[test]
fn inlined_offsets_wrap(rt: HostRuntime) -> Result<()> {
    site_lines(
        &rt,
        "offsets that wrap",
        b"\x03\x01\x03\x03",
        (0xfffffffe, 0, 10),
        &[
            inlined(
                0xffffffff,
                Some(3),
                (0, 10, 11),
                None,
                LineInfoKind::Statement,
            ),
            inlined(2, None, (0, 10, 11), None, LineInfoKind::Statement),
        ],
        None,
    )?;
    Ok(())
}

#[test]
fn bases_files_and_counts_of_lines(rt: HostRuntime) -> Result<()> {
    site_lines(
        &rt,
        "a base",
        b"\x02\x08\x03\x04\x03\x01",
        (0x100, 0, 10),
        &[
            inlined(0x10c, Some(1), (0, 10, 11), None, LineInfoKind::Statement),
            inlined(0x10d, None, (0, 10, 11), None, LineInfoKind::Statement),
        ],
        None,
    )?;
    site_lines(
        &rt,
        "a file and a count of lines",
        b"\x05\x07\x07\x03\x03\x04\x03\x02\x04\x01",
        (0x100, 0, 10),
        &[
            inlined(0x104, Some(2), (7, 10, 13), None, LineInfoKind::Statement),
            inlined(0x106, Some(1), (7, 10, 13), None, LineInfoKind::Statement),
        ],
        None,
    )?;
    Ok(())
}

#[test]
fn kinds_above_1_and_end_columns_that_are_not_there(rt: HostRuntime) -> Result<()> {
    site_lines(
        &rt,
        "kinds above 1 change nothing",
        b"\x08\x02\x03\x02\x08\x00\x08\x07\x03\x02\x04\x01\x08\x01",
        (0x100, 0, 10),
        &[
            inlined(0x102, None, (0, 10, 11), None, LineInfoKind::Statement),
            inlined(0x104, Some(1), (0, 10, 11), None, LineInfoKind::Expression),
        ],
        None,
    )?;
    site_lines(
        &rt,
        "no end column to move",
        b"\x09\x05\x0a\x06\x03\x02",
        (0x100, 0, 10),
        &[start_column(0x102, 5)],
        None,
    )?;
    Ok(())
}

#[test]
fn annotations_end_with_a_0_or_their_bytes(rt: HostRuntime) -> Result<()> {
    site_lines(
        &rt,
        "nothing behind a 0",
        b"\x03\x04\x00\x0e",
        (0x100, 0, 10),
        &[inlined(0x104, None, (0, 10, 11), None, LineInfoKind::Statement)],
        None,
    )?;
    site_lines(&rt, "no annotations", b"", (0x100, 0, 10), &[], None)?;
    site_lines(
        &rt,
        "a number that is cut",
        b"\x03\x04\x03\xc0",
        (0x100, 0, 10),
        &[],
        Some(Error::UnexpectedEof),
    )?;
    Ok(())
}
