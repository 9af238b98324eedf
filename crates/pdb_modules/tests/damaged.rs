//! Damaged lines data: which fault is told, and where.

use crate::tests::lists::*;
use pdb_base::{Error, Part, Result};

const BEHIND_TWO_ENTRIES: &[u8] = b"\
    \xf2\x00\x00\x00\x34\x00\x00\x00\x00\x01\x00\x00\x01\x00\x00\x00\x20\x00\x00\x00\
    \x00\x00\x00\x00\x02\x00\x00\x00\x1c\x00\x00\x00\x00\x00\x00\x00\x05\x00\x00\x80\
    \x08\x00\x00\x00\x06\x00\x00\x80\x00\x00\x00\x00\x00\x00\x00\x00\x0b\x00\x00\x00";

const THE_RECORD_STANDS_IN_AN_EARLIER_SUBSECTION: &[u8] = b"\
    \xf2\x00\x00\x00\x20\x00\x00\x00\x00\x01\x00\x00\x01\x00\x00\x00\x10\x00\x00\x00\
    \x00\x00\x00\x00\x01\x00\x00\x00\x14\x00\x00\x00\x00\x00\x00\x00\x05\x00\x00\x80\
    \xf2\x00\x00\x00\x18\x00\x00\x00\x00\x02\x00\x00\x01\x00\x00\x00\x10\x00\x00\x00\
    \x00\x00\x00\x00\x00\x00\x00\x00\x0b\x00\x00\x00\xf2\x00\x00\x00\x20\x00\x00\x00\
    \x00\x03\x00\x00\x01\x00\x00\x00\x10\x00\x00\x00\x00\x00\x00\x00\x01\x00\x00\x00\
    \x14\x00\x00\x00\x00\x00\x00\x00\x07\x00\x00\x80";

const AN_ENTRY_BEFORE_THE_FAULT_ENDS_THE_RECORD_BEFORE_IT: &[u8] = b"\
    \xf2\x00\x00\x00\x20\x00\x00\x00\x00\x01\x00\x00\x01\x00\x00\x00\x40\x00\x00\x00\
    \x00\x00\x00\x00\x01\x00\x00\x00\x14\x00\x00\x00\x00\x00\x00\x00\x05\x00\x00\x80\
    \xf2\x00\x00\x00\x2c\x00\x00\x00\x08\x01\x00\x00\x01\x00\x00\x00\x08\x00\x00\x00\
    \x00\x00\x00\x00\x01\x00\x00\x00\x14\x00\x00\x00\x00\x00\x00\x00\x06\x00\x00\x80\
    \x00\x00\x00\x00\x00\x00\x00\x00\x0b\x00\x00\x00";

const FIRST_BY_ORDER_LAST_IN_THE_FILE: &[u8] = b"\
    \xf2\x00\x00\x00\x20\x00\x00\x00\x00\x02\x00\x00\x01\x00\x00\x00\x08\x00\x00\x00\
    \x00\x00\x00\x00\x01\x00\x00\x00\x14\x00\x00\x00\x00\x00\x00\x00\x05\x00\x00\x80\
    \xf2\x00\x00\x00\x2c\x00\x00\x00\x00\x01\x00\x00\x01\x00\x00\x00\x10\x00\x00\x00\
    \x00\x00\x00\x00\x01\x00\x00\x00\x14\x00\x00\x00\x00\x00\x00\x00\x09\x00\x00\x80\
    \x00\x00\x00\x00\x00\x00\x00\x00\x0b\x00\x00\x00";

const IN_THE_MIDDLE: &[u8] = b"\
    \xf2\x00\x00\x00\x20\x00\x00\x00\x00\x03\x00\x00\x01\x00\x00\x00\x08\x00\x00\x00\
    \x00\x00\x00\x00\x01\x00\x00\x00\x14\x00\x00\x00\x00\x00\x00\x00\x07\x00\x00\x80\
    \xf2\x00\x00\x00\x2c\x00\x00\x00\x00\x02\x00\x00\x01\x00\x00\x00\x10\x00\x00\x00\
    \x00\x00\x00\x00\x01\x00\x00\x00\x14\x00\x00\x00\x00\x00\x00\x00\x09\x00\x00\x80\
    \x00\x00\x00\x00\x00\x00\x00\x00\x0b\x00\x00\x00\xf2\x00\x00\x00\x20\x00\x00\x00\
    \x00\x01\x00\x00\x01\x00\x00\x00\x08\x00\x00\x00\x00\x00\x00\x00\x01\x00\x00\x00\
    \x14\x00\x00\x00\x00\x00\x00\x00\x05\x00\x00\x80";

const LAST_BY_ORDER_FIRST_IN_THE_FILE: &[u8] = b"\
    \xf2\x00\x00\x00\x2c\x00\x00\x00\x00\x03\x00\x00\x01\x00\x00\x00\x10\x00\x00\x00\
    \x00\x00\x00\x00\x01\x00\x00\x00\x14\x00\x00\x00\x00\x00\x00\x00\x09\x00\x00\x80\
    \x00\x00\x00\x00\x00\x00\x00\x00\x0b\x00\x00\x00\xf2\x00\x00\x00\x20\x00\x00\x00\
    \x00\x01\x00\x00\x01\x00\x00\x00\x08\x00\x00\x00\x00\x00\x00\x00\x01\x00\x00\x00\
    \x14\x00\x00\x00\x00\x00\x00\x00\x05\x00\x00\x80\xf2\x00\x00\x00\x20\x00\x00\x00\
    \x00\x02\x00\x00\x01\x00\x00\x00\x08\x00\x00\x00\x00\x00\x00\x00\x01\x00\x00\x00\
    \x14\x00\x00\x00\x00\x00\x00\x00\x06\x00\x00\x80";

const TWO_FAULTS_THE_FIRST_BY_ORDER: &[u8] = b"\
    \xf2\x00\x00\x00\x0e\x00\x00\x00\x00\x02\x00\x00\x01\x00\x00\x00\x08\x00\x00\x00\
    \x00\x00\xf2\x00\x00\x00\x18\x00\x00\x00\x00\x01\x00\x00\x01\x00\x00\x00\x08\x00\
    \x00\x00\x00\x00\x00\x00\x00\x00\x00\x00\x0b\x00\x00\x00";

const A_HEADER_THAT_IS_CUT: &[u8] = b"\
    \xf2\x00\x00\x00\x0f\x00\x00\x00\x00\x01\x00\x00\x01\x00\x00\x00\x08\x00\x00\x00\
    \x00\x00\x00";

const A_SIZE_BELOW_12: &[u8] = b"\
    \xf2\x00\x00\x00\x18\x00\x00\x00\x00\x01\x00\x00\x01\x00\x00\x00\x08\x00\x00\x00\
    \x00\x00\x00\x00\x00\x00\x00\x00\x0b\x00\x00\x00";

const BYTES_THAT_ARE_NOT_THERE: &[u8] = b"\
    \xf2\x00\x00\x00\x1a\x00\x00\x00\x00\x01\x00\x00\x01\x00\x00\x00\x08\x00\x00\x00\
    \x00\x00\x00\x00\x00\x00\x00\x00\x14\x00\x00\x00\x00\x00";

const NO_ROOM_FOR_COLUMNS: &[u8] = b"\
    \xf2\x00\x00\x00\x20\x00\x00\x00\x00\x01\x00\x00\x01\x00\x01\x00\x08\x00\x00\x00\
    \x00\x00\x00\x00\x01\x00\x00\x00\x14\x00\x00\x00\x00\x00\x00\x00\x00\x00\x00\x00";

const A_COUNT_OF_4294967295: &[u8] = b"\
    \xf2\x00\x00\x00\x20\x00\x00\x00\x00\x01\x00\x00\x01\x00\x00\x00\x08\x00\x00\x00\
    \x00\x00\x00\x00\xff\xff\xff\xff\x14\x00\x00\x00\x00\x00\x00\x00\x00\x00\x00\x00";

const A_SUBSECTION_OF_LINES_OF_11_BYTES: &[u8] = b"\
    \xf2\x00\x00\x00\x0b\x00\x00\x00\x00\x00\x00\x00\x00\x00\x00\x00\x00\x00\x00";

const A_KIND_THAT_IS_NOT_KNOWN: &[u8] = b"\
    \xf6\x00\x00\x00\x04\x00\x00\x00\x00\x00\x00\x00\xff\x00\x00\x00\x00\x00\x00\x00";

const THE_FIRST_FAULT_BY_PLACE_A_SHORT_HEADER: &[u8] = b"\
    \xf2\x00\x00\x00\x00\x00\x00\x00\xff\x00\x00\x00\x00\x00\x00\x00";

const THE_FIRST_FAULT_BY_PLACE_A_KIND: &[u8] = b"\
    \xf0\x00\x00\x00\x00\x00\x00\x00\xf2\x00\x00\x00\x00\x00\x00\x00";

const MARKED_ONES_AND_OTHER_KNOWN_KINDS_ARE_PASSED_OVER: &[u8] = b"\
    \xf2\x00\x00\x80\x04\x00\x00\x00\x01\x02\x03\x04\x00\x00\x00\x80\x00\x00\x00\x00\
    \x01\x00\x00\x80\x01\x00\x00\x00\x01\xf1\x00\x00\x00\x02\x00\x00\x00\x01\x02\xfd\
    \x00\x00\x00\x00\x00\x00\x00";

#[test]
fn a_fault_comes_in_place_of_the_open_record(rt: HostRuntime) -> Result<()> {
    let alloc = rt.alloc();
    lines_are(
        &rt,
        alloc,
        "behind two entries",
        BEHIND_TWO_ENTRIES,
        &[line(0x100, Some(8), 5, 5)],
        Some(Error::InvalidStreamLength(Part::LinesBlock)),
    )?;
    lines_are(
        &rt,
        alloc,
        "the record stands in an earlier subsection",
        THE_RECORD_STANDS_IN_AN_EARLIER_SUBSECTION,
        &[],
        Some(Error::InvalidStreamLength(Part::LinesBlock)),
    )?;
    Ok(())
}

#[test]
fn only_the_damaged_subsection_has_its_fault(rt: HostRuntime) -> Result<()> {
    let alloc = rt.alloc();
    lines_at(
        &rt,
        alloc,
        "the subsection before the damaged one",
        THE_RECORD_STANDS_IN_AN_EARLIER_SUBSECTION,
        (1, 0x100),
        &[line(0x100, Some(16), 5, 5)],
        None,
    )?;
    lines_at(
        &rt,
        alloc,
        "the damaged one",
        THE_RECORD_STANDS_IN_AN_EARLIER_SUBSECTION,
        (1, 0x200),
        &[],
        Some(Error::InvalidStreamLength(Part::LinesBlock)),
    )?;
    lines_at(
        &rt,
        alloc,
        "the one behind it",
        THE_RECORD_STANDS_IN_AN_EARLIER_SUBSECTION,
        (1, 0x300),
        &[line(0x300, Some(16), 7, 7)],
        None,
    )?;
    Ok(())
}

#[test]
fn entries_before_a_fault_end_records(rt: HostRuntime) -> Result<()> {
    let alloc = rt.alloc();
    lines_are(
        &rt,
        alloc,
        "an entry before the fault ends the record before it",
        AN_ENTRY_BEFORE_THE_FAULT_ENDS_THE_RECORD_BEFORE_IT,
        &[line(0x100, Some(8), 5, 5)],
        Some(Error::InvalidStreamLength(Part::LinesBlock)),
    )?;
    lines_at(
        &rt,
        alloc,
        "its own record is the open one",
        AN_ENTRY_BEFORE_THE_FAULT_ENDS_THE_RECORD_BEFORE_IT,
        (1, 0x108),
        &[],
        Some(Error::InvalidStreamLength(Part::LinesBlock)),
    )?;
    Ok(())
}

#[test]
fn a_fault_first_by_order_or_in_the_middle(rt: HostRuntime) -> Result<()> {
    let alloc = rt.alloc();
    lines_are(
        &rt,
        alloc,
        "first by order, last in the file",
        FIRST_BY_ORDER_LAST_IN_THE_FILE,
        &[],
        Some(Error::InvalidStreamLength(Part::LinesBlock)),
    )?;
    lines_are(
        &rt,
        alloc,
        "in the middle",
        IN_THE_MIDDLE,
        &[line(0x100, Some(8), 5, 5)],
        Some(Error::InvalidStreamLength(Part::LinesBlock)),
    )?;
    Ok(())
}

#[test]
fn a_fault_last_by_order_and_two_faults(rt: HostRuntime) -> Result<()> {
    let alloc = rt.alloc();
    lines_are(
        &rt,
        alloc,
        "last by order, first in the file",
        LAST_BY_ORDER_FIRST_IN_THE_FILE,
        &[line(0x100, Some(8), 5, 5), line(0x200, Some(8), 6, 6)],
        Some(Error::InvalidStreamLength(Part::LinesBlock)),
    )?;
    lines_are(
        &rt,
        alloc,
        "two faults: the first by order",
        TWO_FAULTS_THE_FIRST_BY_ORDER,
        &[],
        Some(Error::InvalidStreamLength(Part::LinesBlock)),
    )?;
    Ok(())
}

#[test]
fn a_block_that_is_not_all_there(rt: HostRuntime) -> Result<()> {
    let alloc = rt.alloc();
    lines_are(
        &rt,
        alloc,
        "a header that is cut",
        A_HEADER_THAT_IS_CUT,
        &[],
        Some(Error::UnexpectedEof),
    )?;
    lines_are(
        &rt,
        alloc,
        "a size below 12",
        A_SIZE_BELOW_12,
        &[],
        Some(Error::InvalidStreamLength(Part::LinesBlock)),
    )?;
    lines_are(
        &rt,
        alloc,
        "bytes that are not there",
        BYTES_THAT_ARE_NOT_THERE,
        &[],
        Some(Error::UnexpectedEof),
    )?;
    Ok(())
}

#[test]
fn a_block_whose_entries_do_not_fit(rt: HostRuntime) -> Result<()> {
    let alloc = rt.alloc();
    lines_are(
        &rt,
        alloc,
        "no room for columns",
        NO_ROOM_FOR_COLUMNS,
        &[],
        Some(Error::InvalidStreamLength(Part::LinesBlock)),
    )?;
    lines_are(
        &rt,
        alloc,
        "a count of 4294967295",
        A_COUNT_OF_4294967295,
        &[],
        Some(Error::InvalidStreamLength(Part::LinesBlock)),
    )?;
    Ok(())
}

#[test]
fn a_short_subsection_of_lines_refuses_a_line_program(rt: HostRuntime) -> Result<()> {
    let alloc = rt.alloc();
    refused(
        &rt,
        alloc,
        "a subsection of lines of 11 bytes",
        A_SUBSECTION_OF_LINES_OF_11_BYTES,
        Error::UnexpectedEof,
    )?;
    refused(
        &rt,
        alloc,
        "a kind that is not known",
        A_KIND_THAT_IS_NOT_KNOWN,
        Error::UnimplementedDebugSubsection(255),
    )?;
    refused(
        &rt,
        alloc,
        "the first fault by place: a short header",
        THE_FIRST_FAULT_BY_PLACE_A_SHORT_HEADER,
        Error::UnexpectedEof,
    )?;
    Ok(())
}

#[test]
fn the_first_fault_by_place_refuses_a_line_program(rt: HostRuntime) -> Result<()> {
    let alloc = rt.alloc();
    refused(
        &rt,
        alloc,
        "the first fault by place: a kind",
        THE_FIRST_FAULT_BY_PLACE_A_KIND,
        Error::UnimplementedDebugSubsection(0xf0),
    )?;
    refused(
        &rt,
        alloc,
        "bytes that are not there",
        b"\xff\x00\x00\x00\x01\x00\x00\x00",
        Error::UnexpectedEof,
    )?;
    refused(
        &rt,
        alloc,
        "a header that is cut",
        b"\xf1\x00\x00\x00\x00\x00\x00",
        Error::UnexpectedEof,
    )?;
    Ok(())
}

#[test]
fn subsections_that_are_cut_refuse_a_line_program(rt: HostRuntime) -> Result<()> {
    let alloc = rt.alloc();
    refused(
        &rt,
        alloc,
        "the kind 0xfe",
        b"\xfe\x00\x00\x00\x00\x00\x00\x00",
        Error::UnimplementedDebugSubsection(0xfe),
    )?;
    refused(
        &rt,
        alloc,
        "the greatest kind without the ignore mark",
        b"\xff\xff\xff\x7f\x00\x00\x00\x00",
        Error::UnimplementedDebugSubsection(0x7fff_ffff),
    )?;
    Ok(())
}

#[test]
fn kinds_around_the_known_ones_are_refused(rt: HostRuntime) -> Result<()> {
    let alloc = rt.alloc();
    refused(
        &rt,
        alloc,
        "a marked one whose bytes are not there",
        b"\xff\xff\xff\xff\x01\x00\x00\x00",
        Error::UnexpectedEof,
    )?;
    lines_are(
        &rt,
        alloc,
        "marked ones and other known kinds are passed over",
        MARKED_ONES_AND_OTHER_KNOWN_KINDS_ARE_PASSED_OVER,
        &[],
        None,
    )?;
    Ok(())
}
