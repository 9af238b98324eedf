//! The places of addresses.

use crate::address_places::AddressPlaces;
use crate::place_addresses::PlaceAddresses;
use crate::sections::{paint_sections, place_among};
use crate::tests::files::{file_of, is, numbers, put};
use pdb::{
    ImageSectionHeader, MemorySource, PDB, ParseBuffer, PdbInternalSectionOffset, Result, Steps,
};
use std::alloc::Global;
use std::process::Abort;

/// A DBI stream without modules, with eleven numbers of further streams: the fourth, fifth, sixth and eleventh name the
/// tables to the image before and from it, and the section headers as they are and before.
fn dbi(alloc: Global, to_src: u8, from_src: u8, original: u8) -> Result<Vec<u8>> {
    let mut bytes = vec![in alloc; 0u8; 86]?;
    put(&mut bytes, 0, b"\xff\xff\xff\xff\x77\x09\x31\x01");
    put(&mut bytes, 48, &[22]);
    put(&mut bytes, 64, &[0xff; 22]);
    for (at, number) in [(3, to_src), (4, from_src), (5, 7), (10, original)] {
        if number < 255 && at < 11 {
            put(&mut bytes, 64 + 2 * at, &[number, 0]);
        }
    }
    Ok(bytes)
}

/// Section headers with these addresses and sizes in memory.
fn headers(alloc: Global, sections: &[(u32, u32)]) -> Result<Vec<u8>> {
    let mut bytes = Vec::new(alloc);
    for (address, size) in sections {
        bytes.extend_from_slice(b".section")?;
        bytes.extend_from_slice(&size.to_le_bytes())?;
        bytes.extend_from_slice(&address.to_le_bytes())?;
        bytes.extend_from_slice(&[0; 24])?;
    }
    Ok(bytes)
}

/// The sections as they are.
const OWN: [(u32, u32); 1] = [(0x5000, 0x100)];

/// The original ones: the second overlaps the first, the third has no byte, and the last goes on past 2^32.
const ORIGINAL: [(u32, u32); 5] = [
    (0x1000, 0x100),
    (0x1080, 0x200),
    (0x2000, 0),
    (0x2000, 0x10),
    (0xffff_fff0, 0x20),
];

/// A file with a table of these bytes.
fn rearranged(alloc: Global, table: &[u8]) -> Result<Vec<u8>> {
    let own = headers(alloc, &OWN)?;
    let original = headers(alloc, &ORIGINAL)?;
    file_of(alloc, &dbi(alloc, 5, 6, 8)?, table, &own, &original)
}

/// These addresses of a file have these places.
fn places_are(
    rt: &impl Abort,
    alloc: Global,
    file: &[u8],
    rows: &[(u32, Option<(u16, u32)>)],
) -> Result<()> {
    let mut pdb = PDB::open(alloc, MemorySource::new(file))?;
    let places = AddressPlaces::new(alloc, Some(pdb.address_map()?))?;
    for (address, wanted) in rows {
        let given = places.place(*address).map(|it| (it.section, it.offset));
        is(rt, "place", &(*address, given), &(*address, *wanted));
    }
    Ok(())
}

#[test]
fn a_map_moves_addresses(rt: HostRuntime) -> Result<()> {
    let pairs = [
        0x100,
        0x1000,
        0x200,
        0,
        0x300,
        0x1100,
        0x300,
        0x2000,
        0x400,
        0xffff_fff8,
    ];
    let mut table = numbers(rt.alloc(), &pairs)?;
    table.extend_from_slice(b"\x05\x04\0")?;
    let file = rearranged(rt.alloc(), &table)?;
    let rows = [
        (0xff, None),
        (0x100, Some((1, 0))),
        (0x1ff, Some((1, 0xff))),
        (0x200, None),
        (0x2ff, None),
        (0x300, Some((4, 0))),
        (0x30f, Some((4, 0xf))),
        (0x310, None),
        (0x400, Some((5, 8))),
        (0x40f, Some((5, 0x17))),
        (0x417, Some((5, 0x1f))),
        (0x418, None),
        (0x5000, None),
        (0xffff_ffff, None),
    ];
    places_are(&rt, rt.alloc(), &file, &rows)
}

#[test]
fn the_last_listed_pair_counts(rt: HostRuntime) -> Result<()> {
    let table = numbers(rt.alloc(), &[0x300, 0x1000, 0x100, 0x2000, 0x200, 0x1080])?;
    let file = rearranged(rt.alloc(), &table)?;
    let rows = [
        (0xff, None),
        (0x100, Some((4, 0))),
        (0x10f, Some((4, 0xf))),
        (0x200, Some((1, 0x80))),
        (0x27f, Some((1, 0xff))),
        (0x280, Some((2, 0x80))),
        (0x300, Some((2, 0x100))),
        (0x3ff, Some((2, 0x1ff))),
        (0x400, None),
    ];
    places_are(&rt, rt.alloc(), &file, &rows)?;
    let empty = rearranged(rt.alloc(), b"\x00\x03\x00\x00\x00\x10\x00")?;
    places_are(
        &rt,
        rt.alloc(),
        &empty,
        &[(0, None), (0x1000, None), (0x5000, None)],
    )
}

#[test]
fn without_a_map_the_own_sections_count(rt: HostRuntime) -> Result<()> {
    let own = headers(rt.alloc(), &OWN)?;
    let dbi = dbi(rt.alloc(), 255, 255, 255)?;
    let file = file_of(rt.alloc(), &dbi, b"-", &own, b"-")?;
    let rows = [
        (0, None),
        (0x1000, None),
        (0x4fff, None),
        (0x5000, Some((1, 0))),
        (0x50ff, Some((1, 0xff))),
        (0x5100, None),
    ];
    places_are(&rt, rt.alloc(), &file, &rows)?;
    let none = AddressPlaces::new(rt.alloc(), None)?;
    is(&rt, "no map", &none.place(0x5000).is_none(), &true);
    Ok(())
}

#[test]
fn a_section_number_has_two_bytes(rt: HostRuntime) -> Result<()> {
    let empty = headers(rt.alloc(), &[(0x10, 0)])?;
    let full = headers(rt.alloc(), &[(0x10, 8)])?;
    let empty = ImageSectionHeader::parse(&mut ParseBuffer::from(empty.as_slice()))?;
    let full = ImageSectionHeader::parse(&mut ParseBuffer::from(full.as_slice()))?;
    let mut sections = vec![in rt.alloc(); empty; 65535]?;
    sections.push(full)?;
    let steps = &mut Steps::new();
    let cuts = paint_sections(rt.alloc(), &sections[1..])?;
    let last = place_among(&sections[1..], &cuts, 0x17, steps).map(|it| (it.section, it.offset));
    is(&rt, "number 65535", &last, &Some((65535, 7)));
    let cuts = paint_sections(rt.alloc(), &sections)?;
    let behind = place_among(&sections, &cuts, 0x17, steps).map(|it| (it.section, it.offset));
    is(&rt, "number 65536", &behind, &None);
    Ok(())
}

/// These places of a file have these addresses.
fn addresses_are(
    rt: &impl Abort,
    alloc: Global,
    file: &[u8],
    rows: &[((u16, u32), Option<u32>)],
) -> Result<()> {
    let mut pdb = PDB::open(alloc, MemorySource::new(file))?;
    let addresses = PlaceAddresses::new(Some(pdb.address_map()?));
    for ((section, offset), wanted) in rows {
        let place = PdbInternalSectionOffset {
            offset: *offset,
            section: *section,
        };
        let given = addresses.address(place);
        is(
            rt,
            "address",
            &(*section, *offset, given),
            &(*section, *offset, *wanted),
        );
    }
    Ok(())
}

#[test]
fn places_lead_back_to_addresses(rt: HostRuntime) -> Result<()> {
    let pairs = [
        0x1000,
        0x300,
        0x1100,
        0,
        0x2000,
        0x1100,
        0xffff_fff0,
        0xffff_fffe,
    ];
    let own = headers(rt.alloc(), &OWN)?;
    let original = headers(rt.alloc(), &ORIGINAL)?;
    let dbi = dbi(rt.alloc(), 6, 5, 8)?;
    let table = numbers(rt.alloc(), &pairs)?;
    let file = file_of(rt.alloc(), &dbi, &table, &own, &original)?;
    let rows = [
        ((0, 0), None),
        ((1, 0), Some(0x300)),
        ((1, 0xff), Some(0x3ff)),
        ((1, 0x100), None),
        ((2, 0x7f), Some(0x3ff)),
        ((2, 0x80), None),
        ((2, 0x1ff), None),
        ((3, 0), None),
        ((4, 0xf), Some(0x110f)),
        ((5, 1), Some(0xffff_ffff)),
        ((5, 2), None),
        ((5, 0x10), None),
        ((6, 0), None),
    ];
    addresses_are(&rt, rt.alloc(), &file, &rows)?;
    let later = numbers(rt.alloc(), &[0x1001, 0x300])?;
    let file = file_of(rt.alloc(), &dbi, &later, &own, &original)?;
    addresses_are(
        &rt,
        rt.alloc(),
        &file,
        &[((1, 0), None), ((1, 1), Some(0x300))],
    )
}

#[test]
fn without_a_map_places_are_in_the_own_sections(rt: HostRuntime) -> Result<()> {
    let own = headers(rt.alloc(), &OWN)?;
    let dbi = dbi(rt.alloc(), 255, 255, 255)?;
    let file = file_of(rt.alloc(), &dbi, b"-", &own, b"-")?;
    let rows = [
        ((1, 0), Some(0x5000)),
        ((1, 0xff), Some(0x50ff)),
        ((1, 0x100), None),
        ((2, 0), None),
    ];
    addresses_are(&rt, rt.alloc(), &file, &rows)?;
    let place = PdbInternalSectionOffset {
        offset: 0,
        section: 1,
    };
    is(
        &rt,
        "no map",
        &PlaceAddresses::new(None).address(place).is_none(),
        &true,
    );
    Ok(())
}
