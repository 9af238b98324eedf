//! Line records: their lengths and order, and those of a symbol.

use crate::tests::lists::*;
use pdb_base::{PdbInternalSectionOffset, Result};

const ENTRIES_OF_ONE_BLOCK: &[u8] = b"\
    \xf4\x00\x00\x00\x18\x00\x00\x00\xa9\x31\x00\x00\x10\x01\x73\x79\x02\xc6\x2d\x74\
    \x58\x62\x9d\x0d\xdd\x52\xe1\x22\xc0\x33\x00\x00\xf2\x00\x00\x00\x30\x00\x00\x00\
    \x84\xa0\x00\x00\x01\x00\x00\x00\x0c\x00\x00\x00\x00\x00\x00\x00\x03\x00\x00\x00\
    \x24\x00\x00\x00\x00\x00\x00\x00\x16\x00\x00\x80\x00\x00\x00\x00\x17\x00\x00\x80\
    \x0b\x00\x00\x00\x18\x00\x00\x80";

const ENDS_OF_A_LATER_SUBSECTION: &[u8] = b"\
    \xf2\x00\x00\x00\x20\x00\x00\x00\x00\x01\x00\x00\x01\x00\x00\x00\x20\x00\x00\x00\
    \x00\x00\x00\x00\x01\x00\x00\x00\x14\x00\x00\x00\x00\x00\x00\x00\x05\x00\x00\x80\
    \xf2\x00\x00\x00\x0c\x00\x00\x00\x08\x01\x00\x00\x01\x00\x00\x00\x04\x00\x00\x00";

const TWO_ENTRIES_AND_A_DAMAGED_BLOCK: &[u8] = b"\
    \xf2\x00\x00\x00\x34\x00\x00\x00\x00\x01\x00\x00\x01\x00\x00\x00\x20\x00\x00\x00\
    \x00\x00\x00\x00\x02\x00\x00\x00\x1c\x00\x00\x00\x00\x00\x00\x00\x05\x00\x00\x80\
    \x04\x00\x00\x00\x06\x00\x00\x80\x00\x00\x00\x00\x00\x00\x00\x00\x0b\x00\x00\x00";

const TWO_SECTIONS: &[u8] = b"\
    \xf2\x00\x00\x00\x20\x00\x00\x00\x00\x01\x00\x00\x01\x00\x00\x00\x20\x00\x00\x00\
    \x00\x00\x00\x00\x01\x00\x00\x00\x14\x00\x00\x00\x00\x00\x00\x00\x05\x00\x00\x80\
    \xf2\x00\x00\x00\x20\x00\x00\x00\x00\x00\x00\x00\x02\x00\x00\x00\x10\x00\x00\x00\
    \x00\x00\x00\x00\x01\x00\x00\x00\x14\x00\x00\x00\x00\x00\x00\x00\x07\x00\x00\x80";

const AN_END_THAT_WRAPS: &[u8] = b"\
    \xf2\x00\x00\x00\x20\x00\x00\x00\xf0\xff\xff\xff\x01\x00\x00\x00\x20\x00\x00\x00\
    \x00\x00\x00\x00\x01\x00\x00\x00\x14\x00\x00\x00\x00\x00\x00\x00\x05\x00\x00\x80";

const OFFSETS_THAT_WRAP: &[u8] = b"\
    \xf2\x00\x00\x00\x28\x00\x00\x00\xf0\xff\xff\xff\x01\x00\x00\x00\x20\x00\x00\x00\
    \x00\x00\x00\x00\x02\x00\x00\x00\x1c\x00\x00\x00\x18\x00\x00\x00\x05\x00\x00\x80\
    \x20\x00\x00\x00\x06\x00\x00\x80";

const THE_NEXT_ENTRY_STANDS_BEFORE: &[u8] = b"\
    \xf2\x00\x00\x00\x28\x00\x00\x00\x00\x01\x00\x00\x01\x00\x00\x00\x20\x00\x00\x00\
    \x00\x00\x00\x00\x02\x00\x00\x00\x1c\x00\x00\x00\x08\x00\x00\x00\x05\x00\x00\x80\
    \x00\x00\x00\x00\x06\x00\x00\x80";

const ACROSS_BLOCKS: &[u8] = b"\
    \xf2\x00\x00\x00\x34\x00\x00\x00\x00\x01\x00\x00\x01\x00\x00\x00\x20\x00\x00\x00\
    \x00\x00\x00\x00\x01\x00\x00\x00\x14\x00\x00\x00\x00\x00\x00\x00\x05\x00\x00\x80\
    \x00\x00\x00\x00\x01\x00\x00\x00\x14\x00\x00\x00\x04\x00\x00\x00\x06\x00\x00\x80";

const AN_END_BEFORE_THE_NEXT_ENTRY_ALONE: &[u8] = b"\
    \xf2\x00\x00\x00\x20\x00\x00\x00\x00\x01\x00\x00\x01\x00\x00\x00\x08\x00\x00\x00\
    \x00\x00\x00\x00\x01\x00\x00\x00\x14\x00\x00\x00\x00\x00\x00\x00\x05\x00\x00\x80\
    \xf2\x00\x00\x00\x20\x00\x00\x00\x00\x01\x00\x00\x01\x00\x00\x00\x10\x00\x00\x00\
    \x00\x00\x00\x00\x01\x00\x00\x00\x14\x00\x00\x00\x00\x00\x00\x00\x06\x00\x00\x80";

const THE_LATER_PLACE_FIRST_IN_THE_FILE: &[u8] = b"\
    \xf2\x00\x00\x00\x20\x00\x00\x00\x00\x02\x00\x00\x01\x00\x00\x00\x10\x00\x00\x00\
    \x00\x00\x00\x00\x01\x00\x00\x00\x14\x00\x00\x00\x00\x00\x00\x00\x09\x00\x00\x80\
    \xf2\x00\x00\x00\x20\x00\x00\x00\x00\x01\x00\x00\x01\x00\x00\x00\x20\x00\x00\x00\
    \x00\x00\x00\x00\x01\x00\x00\x00\x14\x00\x00\x00\x00\x00\x00\x00\x05\x00\x00\x80";

const SECTIONS_BEFORE_OFFSETS: &[u8] = b"\
    \xf2\x00\x00\x00\x20\x00\x00\x00\x00\x00\x00\x00\x02\x00\x00\x00\x04\x00\x00\x00\
    \x00\x00\x00\x00\x01\x00\x00\x00\x14\x00\x00\x00\x00\x00\x00\x00\x09\x00\x00\x80\
    \xf2\x00\x00\x00\x20\x00\x00\x00\x00\x01\x00\x00\x01\x00\x00\x00\x04\x00\x00\x00\
    \x00\x00\x00\x00\x01\x00\x00\x00\x14\x00\x00\x00\x00\x00\x00\x00\x05\x00\x00\x80";

const TIES_AS_IN_THE_FILE: &[u8] = b"\
    \xf2\x00\x00\x00\x20\x00\x00\x00\x00\x01\x00\x00\x01\x00\x00\x00\x08\x00\x00\x00\
    \x00\x00\x00\x00\x01\x00\x00\x00\x14\x00\x00\x00\x00\x00\x00\x00\x07\x00\x00\x80\
    \xf2\x00\x00\x00\x20\x00\x00\x00\x00\x01\x00\x00\x01\x00\x00\x00\x08\x00\x00\x00\
    \x00\x00\x00\x00\x01\x00\x00\x00\x14\x00\x00\x00\x00\x00\x00\x00\x06\x00\x00\x80\
    \xf2\x00\x00\x00\x20\x00\x00\x00\x00\x01\x00\x00\x01\x00\x00\x00\x08\x00\x00\x00\
    \x00\x00\x00\x00\x01\x00\x00\x00\x14\x00\x00\x00\x00\x00\x00\x00\x05\x00\x00\x80";

const SUBSECTIONS_WITHOUT_BLOCKS_AND_BLOCKS_WITHOUT_ENTRIES: &[u8] = b"\
    \xf2\x00\x00\x00\x0c\x00\x00\x00\x00\x01\x00\x00\x01\x00\x00\x00\x04\x00\x00\x00\
    \xf2\x00\x00\x00\x38\x00\x00\x00\x00\x01\x00\x00\x01\x00\x00\x00\x20\x00\x00\x00\
    \x00\x00\x00\x00\x00\x00\x00\x00\x0c\x00\x00\x00\x00\x00\x00\x00\x01\x00\x00\x00\
    \x14\x00\x00\x00\x02\x00\x00\x00\x05\x00\x00\x80\x00\x00\x00\x00\x00\x00\x00\x00\
    \x0c\x00\x00\x00";

const A_SUBSECTION_BETWEEN_THAT_ENDS_BEFORE: &[u8] = b"\
    \xf2\x00\x00\x00\x20\x00\x00\x00\x00\x01\x00\x00\x01\x00\x00\x00\x40\x00\x00\x00\
    \x00\x00\x00\x00\x01\x00\x00\x00\x14\x00\x00\x00\x00\x00\x00\x00\x05\x00\x00\x80\
    \xf2\x00\x00\x00\x0c\x00\x00\x00\x10\x01\x00\x00\x01\x00\x00\x00\x04\x00\x00\x00\
    \xf2\x00\x00\x00\x20\x00\x00\x00\x20\x01\x00\x00\x01\x00\x00\x00\x04\x00\x00\x00\
    \x00\x00\x00\x00\x01\x00\x00\x00\x14\x00\x00\x00\x00\x00\x00\x00\x06\x00\x00\x80";

const INSIDE_IT: &[u8] = b"\
    \xf2\x00\x00\x00\x60\x00\x00\x00\x70\x89\x00\x00\x01\x00\x00\x00\x31\x00\x00\x00\
    \x00\x00\x00\x00\x09\x00\x00\x00\x54\x00\x00\x00\x10\x00\x00\x00\x2d\x00\x00\x80\
    \x10\x00\x00\x00\x2f\x00\x00\x80\x17\x00\x00\x00\x30\x00\x00\x80\x1a\x00\x00\x00\
    \x31\x00\x00\x80\x1e\x00\x00\x00\x32\x00\x00\x80\x23\x00\x00\x00\x33\x00\x00\x80\
    \x26\x00\x00\x00\x34\x00\x00\x80\x28\x00\x00\x00\x3e\x00\x00\x80\x2c\x00\x00\x00\
    \x42\x00\x00\x80";

#[test]
fn lengths_reach_the_next_entry_or_a_later_end(rt: HostRuntime) -> Result<()> {
    let alloc = rt.alloc();
    lines_are(
        &rt,
        alloc,
        "entries of one block",
        ENTRIES_OF_ONE_BLOCK,
        &[
            line(0xa084, Some(0), 22, 22),
            line(0xa084, Some(11), 23, 23),
            line(0xa08f, Some(1), 24, 24),
        ],
        None,
    )?;
    lines_are(
        &rt,
        alloc,
        "ends of a later subsection",
        ENDS_OF_A_LATER_SUBSECTION,
        &[line(0x100, Some(12), 5, 5)],
        None,
    )?;
    lines_are(
        &rt,
        alloc,
        "two sections",
        TWO_SECTIONS,
        &[line(0x100, Some(32), 5, 5), line_in(2, 0, Some(16), 7, 7)],
        None,
    )?;
    Ok(())
}

#[test]
fn lengths_stay_in_their_section_and_wrap(rt: HostRuntime) -> Result<()> {
    let alloc = rt.alloc();
    lines_are(
        &rt,
        alloc,
        "an end that wraps",
        AN_END_THAT_WRAPS,
        &[line(0xfffffff0, None, 5, 5)],
        None,
    )?;
    lines_are(
        &rt,
        alloc,
        "offsets that wrap",
        OFFSETS_THAT_WRAP,
        &[line(8, Some(8), 5, 5), line(16, Some(0), 6, 6)],
        None,
    )?;
    lines_are(
        &rt,
        alloc,
        "the next entry stands before",
        THE_NEXT_ENTRY_STANDS_BEFORE,
        &[line(0x108, None, 5, 5), line(0x100, Some(32), 6, 6)],
        None,
    )?;
    Ok(())
}

#[test]
fn lengths_reach_across_blocks_and_subsections(rt: HostRuntime) -> Result<()> {
    let alloc = rt.alloc();
    lines_are(
        &rt,
        alloc,
        "across blocks",
        ACROSS_BLOCKS,
        &[line(0x100, Some(4), 5, 5), line(0x104, Some(28), 6, 6)],
        None,
    )?;
    lines_are(
        &rt,
        alloc,
        "an end before the next entry alone",
        AN_END_BEFORE_THE_NEXT_ENTRY_ALONE,
        &[line(0x100, Some(0), 5, 5), line(0x100, Some(16), 6, 6)],
        None,
    )?;
    Ok(())
}

#[test]
fn subsections_stand_by_section_and_offset(rt: HostRuntime) -> Result<()> {
    let alloc = rt.alloc();
    lines_are(
        &rt,
        alloc,
        "the later place first in the file",
        THE_LATER_PLACE_FIRST_IN_THE_FILE,
        &[line(0x100, Some(32), 5, 5), line(0x200, Some(16), 9, 9)],
        None,
    )?;
    lines_are(
        &rt,
        alloc,
        "sections before offsets",
        SECTIONS_BEFORE_OFFSETS,
        &[line(0x100, Some(4), 5, 5), line_in(2, 0, Some(4), 9, 9)],
        None,
    )?;
    lines_are(
        &rt,
        alloc,
        "ties as in the file",
        TIES_AS_IN_THE_FILE,
        &[
            line(0x100, Some(0), 7, 7),
            line(0x100, Some(0), 6, 6),
            line(0x100, Some(8), 5, 5),
        ],
        None,
    )?;
    Ok(())
}

#[test]
fn subsections_without_entries_end_records(rt: HostRuntime) -> Result<()> {
    let alloc = rt.alloc();
    lines_are(
        &rt,
        alloc,
        "subsections without blocks and blocks without entries",
        SUBSECTIONS_WITHOUT_BLOCKS_AND_BLOCKS_WITHOUT_ENTRIES,
        &[line(0x102, Some(30), 5, 5)],
        None,
    )?;
    lines_are(
        &rt,
        alloc,
        "a subsection between that ends before",
        A_SUBSECTION_BETWEEN_THAT_ENDS_BEFORE,
        &[line(0x100, Some(20), 5, 5), line(0x120, Some(4), 6, 6)],
        None,
    )?;
    lines_are(&rt, alloc, "no subsections", b"", &[], None)?;
    Ok(())
}

#[test]
fn a_symbol_has_the_lines_of_its_subsection(rt: HostRuntime) -> Result<()> {
    let alloc = rt.alloc();
    lines_at(
        &rt,
        alloc,
        "at its place",
        ENTRIES_OF_ONE_BLOCK,
        (1, 0xa084),
        &[
            line(0xa084, Some(0), 22, 22),
            line(0xa084, Some(11), 23, 23),
            line(0xa08f, Some(1), 24, 24),
        ],
        None,
    )?;
    lines_at(
        &rt,
        alloc,
        "inside it",
        INSIDE_IT,
        (1, 0x8990),
        &[
            line(0x8980, Some(0), 45, 45),
            line(0x8980, Some(7), 47, 47),
            line(0x8987, Some(3), 48, 48),
            line(0x898a, Some(4), 49, 49),
            line(0x898e, Some(5), 50, 50),
            line(0x8993, Some(3), 51, 51),
            line(0x8996, Some(2), 52, 52),
            line(0x8998, Some(4), 62, 62),
            line(0x899c, Some(5), 66, 66),
        ],
        None,
    )?;
    Ok(())
}

#[test]
fn a_symbol_has_the_lengths_of_its_own_marks(rt: HostRuntime) -> Result<()> {
    let alloc = rt.alloc();
    lines_at(
        &rt,
        alloc,
        "with the lengths of its own marks",
        ENDS_OF_A_LATER_SUBSECTION,
        (1, 0x100),
        &[line(0x100, Some(32), 5, 5)],
        None,
    )?;
    lines_at(
        &rt,
        alloc,
        "just before the next one",
        ENDS_OF_A_LATER_SUBSECTION,
        (1, 0x107),
        &[line(0x100, Some(32), 5, 5)],
        None,
    )?;
    Ok(())
}

#[test]
fn a_symbol_without_lines(rt: HostRuntime) -> Result<()> {
    let alloc = rt.alloc();
    lines_at(
        &rt,
        alloc,
        "at one without records",
        ENDS_OF_A_LATER_SUBSECTION,
        (1, 0x108),
        &[],
        None,
    )?;
    lines_at(
        &rt,
        alloc,
        "before all",
        ENDS_OF_A_LATER_SUBSECTION,
        (1, 255),
        &[],
        None,
    )?;
    lines_at(
        &rt,
        alloc,
        "in a section without lines",
        ENDS_OF_A_LATER_SUBSECTION,
        (2, 0x100),
        &[],
        None,
    )?;
    Ok(())
}

#[test]
fn a_symbol_in_a_later_section_or_at_two_subsections(rt: HostRuntime) -> Result<()> {
    let alloc = rt.alloc();
    lines_at(
        &rt,
        alloc,
        "before the section",
        TWO_SECTIONS,
        (2, 0),
        &[line_in(2, 0, Some(16), 7, 7)],
        None,
    )?;
    lines_at(
        &rt,
        alloc,
        "ties: the last",
        AN_END_BEFORE_THE_NEXT_ENTRY_ALONE,
        (1, 0x100),
        &[line(0x100, Some(16), 6, 6)],
        None,
    )?;
    lines_at(&rt, alloc, "no subsections", b"", (1, 0x100), &[], None)?;
    Ok(())
}

#[test]
fn a_record_covers_its_bytes_alone(rt: HostRuntime) {
    for (length, section, offset, covers) in [
        (Some(3), 2, 15, false),
        (Some(3), 2, 16, true),
        (Some(3), 2, 18, true),
        (Some(3), 2, 19, false),
        (Some(3), 1, 16, false),
        (Some(0), 2, 16, false),
        (Some(0xffff_ffff), 2, 0xffff_ffff, true),
        (None, 2, 16, false),
    ] {
        let record = line_in(2, 16, length, 7, 7);
        let place = PdbInternalSectionOffset { offset, section };
        is(&rt, "covers", &record.covers(place), &covers);
    }
}

#[test]
fn the_record_at_a_place_is_found(rt: HostRuntime) -> Result<()> {
    let alloc = rt.alloc();
    let label = "entries of one block";
    let data = ENTRIES_OF_ONE_BLOCK;
    line_is_found(&rt, alloc, label, data, 0xa083, None)?;
    line_is_found(
        &rt,
        alloc,
        label,
        data,
        0xa084,
        Some(line(0xa084, Some(11), 23, 23)),
    )?;
    line_is_found(
        &rt,
        alloc,
        label,
        data,
        0xa08e,
        Some(line(0xa084, Some(11), 23, 23)),
    )?;
    line_is_found(
        &rt,
        alloc,
        label,
        data,
        0xa08f,
        Some(line(0xa08f, Some(1), 24, 24)),
    )?;
    line_is_found(&rt, alloc, label, data, 0xa090, None)?;
    let label = "the next entry stands before";
    let data = THE_NEXT_ENTRY_STANDS_BEFORE;
    line_is_found(
        &rt,
        alloc,
        label,
        data,
        0x108,
        Some(line(0x100, Some(32), 6, 6)),
    )?;
    let label = "across blocks";
    line_is_found(
        &rt,
        alloc,
        label,
        ACROSS_BLOCKS,
        0x103,
        Some(line(0x100, Some(4), 5, 5)),
    )?;
    line_is_found(
        &rt,
        alloc,
        label,
        ACROSS_BLOCKS,
        0x104,
        Some(line(0x104, Some(28), 6, 6)),
    )?;
    let label = "the later place first in the file";
    let data = THE_LATER_PLACE_FIRST_IN_THE_FILE;
    line_is_found(
        &rt,
        alloc,
        label,
        data,
        0x11f,
        Some(line(0x100, Some(32), 5, 5)),
    )?;
    line_is_found(
        &rt,
        alloc,
        label,
        data,
        0x200,
        Some(line(0x200, Some(16), 9, 9)),
    )?;
    Ok(())
}

#[test]
fn a_record_before_a_fault_is_found_where_the_next_one_begins(rt: HostRuntime) -> Result<()> {
    let alloc = rt.alloc();
    let label = "before a damaged block";
    let data = TWO_ENTRIES_AND_A_DAMAGED_BLOCK;
    line_is_found(
        &rt,
        alloc,
        label,
        data,
        0x103,
        Some(line(0x100, Some(4), 5, 5)),
    )?;
    line_is_found(&rt, alloc, label, data, 0x104, None)?;
    Ok(())
}
