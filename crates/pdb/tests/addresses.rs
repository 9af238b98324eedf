//! The section headers, and the address map of an image that was rearranged.

use super::is;
use crate::tests::sample::{
    MODULE, SAMPLE, SECTIONS, STRINGS, changed, dbi_with, file_of, file_with,
};
use crate::*;
use std::alloc::Global;
use std::process::Abort;

/// A section's name, and its numbers in their order.
fn seen(section: &ImageSectionHeader) -> ([u8; 8], [u32; 6], [u16; 2], u32) {
    (
        section.name,
        [
            section.virtual_size,
            section.virtual_address,
            section.size_of_raw_data,
            section.pointer_to_raw_data,
            section.pointer_to_relocations,
            section.pointer_to_line_numbers,
        ],
        [
            section.number_of_relocations,
            section.number_of_line_numbers,
        ],
        section.characteristics.0,
    )
}

/// The sample's section.
const TEXT: ([u8; 8], [u32; 6], [u16; 2], u32) = (
    *b".text\0\0\0",
    [0x1000, 0x1000, 0x200, 0x400, 0, 0],
    [0, 0],
    0x6000_0020,
);

/// A header whose fields all differ.
const OTHER: &[u8; 40] =
    b"numbered\x01\0\0\0\x02\0\0\0\x03\0\0\0\x04\0\0\0\x05\0\0\0\x06\0\0\0\x07\0\x08\0\x09\0\0\0";

/// Its fields.
const NUMBERED: ([u8; 8], [u32; 6], [u16; 2], u32) = (*b"numbered", [1, 2, 3, 4, 5, 6], [7, 8], 9);

#[test]
fn the_sample_has_one_section(rt: HostRuntime) -> Result<()> {
    let bytes = file_of(rt.alloc(), &SAMPLE)?;
    let mut pdb = PDB::open(rt.alloc(), MemorySource::new(&bytes))?;
    for _ in 0..2 {
        let sections = pdb.sections()?;
        let sections = sections.as_deref().unwrap_or(&[]);
        is(&rt, "how many", &sections.len(), &1);
        is(&rt, "it", &sections.first().map(seen), &Some(TEXT));
    }
    Ok(())
}

#[test]
fn sections_stand_in_their_order(rt: HostRuntime) -> Result<()> {
    let mut two = Vec::new(rt.alloc());
    two.extend_from_slice(OTHER)?;
    two.extend_from_slice(&SECTIONS)?;
    let bytes = changed(rt.alloc(), 8, Some(&two))?;
    let mut pdb = PDB::open(rt.alloc(), MemorySource::new(&bytes))?;
    let sections = pdb.sections()?;
    let sections = sections.as_deref().unwrap_or(&[]);
    is(&rt, "how many", &sections.len(), &2);
    is(&rt, "first", &sections.first().map(seen), &Some(NUMBERED));
    is(&rt, "last", &sections.last().map(seen), &Some(TEXT));
    Ok(())
}

/// What `sections` gives, however often: none, or how many.
fn count(rt: &impl Abort, alloc: Global, bytes: &[u8]) -> Result<Option<usize>> {
    let mut pdb = PDB::open(alloc, MemorySource::new(bytes))?;
    let first = pdb.sections()?.map(|sections| sections.len());
    let again = pdb.sections()?.map(|sections| sections.len());
    is(rt, "again", &again, &first);
    Ok(first)
}

#[test]
fn no_stream_of_sections_is_none(rt: HostRuntime) -> Result<()> {
    let bytes = file_with(rt.alloc(), b"")?;
    is(&rt, "no number", &count(&rt, rt.alloc(), &bytes)?, &None);
    let bytes = changed(rt.alloc(), 8, Some(b""))?;
    is(&rt, "empty", &count(&rt, rt.alloc(), &bytes)?, &Some(0));
    let bytes = changed(rt.alloc(), 8, None)?;
    let refused = count(&rt, rt.alloc(), &bytes).err();
    is(&rt, "absent", &refused, &Some(Error::StreamNotFound(8)));
    Ok(())
}

#[test]
fn a_section_that_is_cut_is_refused(rt: HostRuntime) -> Result<()> {
    let mut longer = Vec::new(rt.alloc());
    longer.extend_from_slice(&SECTIONS)?;
    longer.push(0)?;
    let cut: [&[u8]; 3] = [&longer, &SECTIONS[..39], &SECTIONS[..1]];
    for sections in cut {
        let bytes = changed(rt.alloc(), 8, Some(sections))?;
        let mut pdb = PDB::open(rt.alloc(), MemorySource::new(&bytes))?;
        let end = Some(Error::UnexpectedEof);
        is(&rt, "sections", &pdb.sections().err(), &end);
        is(&rt, "addresses", &pdb.address_map().err(), &end);
        is(&rt, "again", &pdb.sections().err(), &end);
        is(&rt, "frames", &pdb.frame_table().is_ok(), &true);
    }
    Ok(())
}

/// Eleven numbers, of which the fourth, fifth, sixth and eleventh are these: the tables to the image before and from
/// it, and the section headers as they are and before.
fn numbers(to_src: u8, from_src: u8, sections: u8, original: u8) -> [u8; 22] {
    let mut bytes = [0xff; 22];
    for (at, number) in [(3, to_src), (4, from_src), (5, sections), (10, original)] {
        if number < 255 && at < 11 {
            bytes[2 * at] = number;
            bytes[2 * at + 1] = 0;
        }
    }
    bytes
}

/// The address map of the sample with these numbers is refused so, however often it is asked for.
fn addresses_are_refused(
    rt: &impl Abort,
    alloc: Global,
    numbers: &[u8; 22],
    wanted: Error,
) -> Result<()> {
    let bytes = file_with(alloc, numbers)?;
    let mut pdb = PDB::open(alloc, MemorySource::new(&bytes))?;
    for _ in 0..2 {
        is(rt, "address map", &pdb.address_map().err(), &Some(wanted));
    }
    is(rt, "frames", &pdb.frame_table().is_ok(), &true);
    Ok(())
}

#[test]
fn an_address_map_without_both_tables_is_refused(rt: HostRuntime) -> Result<()> {
    let missing = Error::AddressMapNotFound;
    addresses_are_refused(&rt, rt.alloc(), &numbers(255, 255, 8, 8), missing)?;
    addresses_are_refused(&rt, rt.alloc(), &numbers(255, 7, 8, 8), missing)?;
    addresses_are_refused(&rt, rt.alloc(), &numbers(7, 255, 8, 8), missing)?;
    addresses_are_refused(&rt, rt.alloc(), &numbers(255, 255, 255, 8), missing)
}

#[test]
fn streams_of_an_address_map_are_read_in_order(rt: HostRuntime) -> Result<()> {
    let absent = Error::StreamNotFound(2);
    addresses_are_refused(&rt, rt.alloc(), &numbers(4, 4, 2, 4), absent)?;
    addresses_are_refused(&rt, rt.alloc(), &numbers(4, 4, 8, 2), absent)?;
    addresses_are_refused(&rt, rt.alloc(), &numbers(4, 2, 8, 8), absent)?;
    addresses_are_refused(&rt, rt.alloc(), &numbers(255, 2, 8, 8), absent)?;
    addresses_are_refused(&rt, rt.alloc(), &numbers(2, 7, 8, 8), absent)
}

/// Whether there is a table, of these bytes.
fn has(table: Option<&OMAPTable<'_>>, bytes: &[u8]) -> bool {
    match table {
        Some(table) => table.stream().as_slice() == bytes,
        None => false,
    }
}

/// The map is that of an image that wasn't rearranged.
fn is_of_original(rt: &impl Abort, map: &AddressMap<'_>) {
    is(
        rt,
        "transformed sections",
        &map.transformed_sections().is_some(),
        &false,
    );
    is(rt, "from", &map.omap_from_src().is_some(), &false);
    is(rt, "to", &map.omap_to_src().is_some(), &false);
}

#[test]
fn an_image_that_was_not_rearranged(rt: HostRuntime) -> Result<()> {
    let bytes = file_of(rt.alloc(), &SAMPLE)?;
    let mut pdb = PDB::open(rt.alloc(), MemorySource::new(&bytes))?;
    for _ in 0..2 {
        let map = pdb.address_map()?;
        let original = map.original_sections();
        is(&rt, "how many", &original.len(), &1);
        is(&rt, "it", &original.first().map(seen), &Some(TEXT));
        is_of_original(&rt, &map);
    }
    Ok(())
}

#[test]
fn tables_without_original_sections_are_not_read(rt: HostRuntime) -> Result<()> {
    let bytes = file_with(rt.alloc(), &numbers(7, 6, 255, 255))?;
    let mut pdb = PDB::open(rt.alloc(), MemorySource::new(&bytes))?;
    let map = pdb.address_map()?;
    is(&rt, "how many", &map.original_sections().len(), &0);
    is_of_original(&rt, &map);
    Ok(())
}

#[test]
fn one_stream_may_be_both_tables(rt: HostRuntime) -> Result<()> {
    let bytes = file_with(rt.alloc(), &numbers(7, 7, 8, 8))?;
    let mut pdb = PDB::open(rt.alloc(), MemorySource::new(&bytes))?;
    for _ in 0..2 {
        let map = pdb.address_map()?;
        is(&rt, "from", &has(map.omap_from_src(), &STRINGS), &true);
        is(&rt, "to", &has(map.omap_to_src(), &STRINGS), &true);
    }
    Ok(())
}

/// The sample whose image was rearranged: the tables are the streams 7 and 6, and the section headers before it these.
fn rearranged<'b>(alloc: Global, original: &'b [u8], dbi: &'b [u8]) -> Result<Vec<u8>> {
    let mut streams: [Option<&'b [u8]>; 9] = SAMPLE;
    streams[2] = Some(original);
    streams[3] = Some(dbi);
    file_of(alloc, &streams)
}

#[test]
fn an_image_that_was_rearranged(rt: HostRuntime) -> Result<()> {
    let dbi = dbi_with(rt.alloc(), &numbers(7, 6, 8, 2))?;
    let bytes = rearranged(rt.alloc(), OTHER, &dbi)?;
    let mut pdb = PDB::open(rt.alloc(), MemorySource::new(&bytes))?;
    let map = pdb.address_map()?;
    let original = map.original_sections();
    is(&rt, "before", &original.first().map(seen), &Some(NUMBERED));
    let sections = map.transformed_sections().unwrap_or(&[]);
    is(&rt, "now", &sections.first().map(seen), &Some(TEXT));
    let from_src = map.omap_from_src();
    is(&rt, "from", &has(from_src, &MODULE), &true);
    is(&rt, "to", &has(map.omap_to_src(), &STRINGS), &true);
    Ok(())
}
