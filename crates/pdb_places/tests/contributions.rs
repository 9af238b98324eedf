//! The modules at places.

use crate::module_places::ModulePlaces;
use crate::tests::files::{is, put, put_numbers};
use pdb::{DebugInformation, PdbInternalSectionOffset, Result, Stream};
use std::alloc::Global;
use std::process::Abort;

/// A DBI stream without modules, with contributions of these sections, offsets, sizes and modules, of which so many last
/// bytes are missing.
fn dbi(alloc: Global, rows: &[(u16, u32, u32, u16)], missing: usize) -> Result<Vec<u8>> {
    let mut bytes = vec![in alloc; 0u8; 68]?;
    put(&mut bytes, 0, b"\xff\xff\xff\xff\x77\x09\x31\x01");
    put(&mut bytes, 64, b"\x2d\xba\x2e\xf1");
    for (section, offset, size, module) in rows {
        bytes.extend_from_slice(&section.to_le_bytes())?;
        bytes.extend_from_slice(&[0xee; 2])?;
        bytes.extend_from_slice(&offset.to_le_bytes())?;
        bytes.extend_from_slice(&size.to_le_bytes())?;
        bytes.extend_from_slice(&[0xee; 4])?;
        bytes.extend_from_slice(&module.to_le_bytes())?;
        bytes.extend_from_slice(&[0xee; 10])?;
    }
    bytes.truncate(bytes.len().saturating_sub(missing));
    let size = bytes.len().saturating_sub(64).min(65536) as u32;
    put_numbers(&mut bytes, 28, &[size]);
    Ok(bytes)
}

/// The modules of a DBI stream.
fn places<'a>(information: &'a DebugInformation<'a>) -> ModulePlaces<'a> {
    ModulePlaces::new(Some(information))
}

/// At these places of a DBI stream stand these modules, whatever was asked before.
fn modules_are(
    rt: &impl Abort,
    alloc: Global,
    dbi: &[u8],
    rows: &[(u16, u32, Option<usize>)],
) -> Result<()> {
    let information = DebugInformation::parse(Stream::new(dbi).expect(rt, "a short stream"))?;
    let mut asked = places(&information);
    for (section, offset, wanted) in rows {
        let place = PdbInternalSectionOffset::new(*section, *offset);
        let wanted = (*section, *offset, *wanted);
        let mut fresh = places(&information);
        for _ in 0..3 {
            let given = (*section, *offset, fresh.find(alloc, place)?);
            is(rt, "fresh", &given, &wanted);
        }
        let given = (*section, *offset, asked.find(alloc, place)?);
        is(rt, "asked before", &given, &wanted);
    }
    Ok(())
}

/// Whether the contribution of the first offset in section 1 has the second offset too is this, whatever was asked
/// before. The table is made at the second question for a module.
fn reaches_are(
    rt: &impl Abort,
    alloc: Global,
    dbi: &[u8],
    rows: &[(u32, u32, bool)],
) -> Result<()> {
    let information = DebugInformation::parse(Stream::new(dbi).expect(rt, "a short stream"))?;
    let mut asked = places(&information);
    for questions in 0..4 {
        for (from, to, wanted) in rows {
            let public = PdbInternalSectionOffset::new(1, *from);
            let given = asked.reaches(public, PdbInternalSectionOffset::new(1, *to));
            let wanted = (questions, *from, *to, *wanted);
            is(rt, "reaches", &(questions, *from, *to, given), &wanted);
        }
        asked.find(alloc, PdbInternalSectionOffset::new(1, 0))?;
    }
    Ok(())
}

#[test]
fn contributions_are_found(rt: HostRuntime) -> Result<()> {
    let listed = [
        (2, 0, 0x10, 5),
        (1, 0x10, 0x10, 3),
        (1, 0x10, 0, 9),
        (1, 0, 0x10, 4),
        (1, 0x10, 0x10, 7),
        (1, 0xffff_fff0, 0x20, 0xffff),
    ];
    let dbi = dbi(rt.alloc(), &listed, 0)?;
    let rows = [
        (1, 0, Some(4)),
        (1, 0xf, Some(4)),
        (1, 0x10, Some(3)),
        (1, 0x1f, Some(3)),
        (1, 0x20, None),
        (2, 0, Some(5)),
        (2, 0xf, Some(5)),
        (2, 0x10, None),
        (0, 0, None),
        (3, 0, None),
        (1, 0xffff_ffef, None),
        (1, 0xffff_ffff, Some(0xffff)),
    ];
    modules_are(&rt, rt.alloc(), &dbi, &rows)
}

#[test]
fn of_contributions_that_overlap_the_first_listed_counts(rt: HostRuntime) -> Result<()> {
    let listed = [(1, 8, 8, 0), (1, 0, 12, 1), (1, 4, 100, 2)];
    let dbi = dbi(rt.alloc(), &listed, 0)?;
    let rows = [
        (1, 0, Some(1)),
        (1, 4, Some(1)),
        (1, 8, Some(0)),
        (1, 15, Some(0)),
        (1, 16, Some(2)),
        (1, 103, Some(2)),
        (1, 104, None),
    ];
    modules_are(&rt, rt.alloc(), &dbi, &rows)
}

#[test]
fn contributions_before_a_fault_count(rt: HostRuntime) -> Result<()> {
    let listed = [(1, 0, 8, 1), (1, 8, 8, 2), (1, 16, 8, 3)];
    let cut = dbi(rt.alloc(), &listed, 1)?;
    let rows = [(1, 0, Some(1)), (1, 15, Some(2)), (1, 16, None)];
    modules_are(&rt, rt.alloc(), &cut, &rows)?;
    let refused = dbi(rt.alloc(), &[], 1)?;
    modules_are(&rt, rt.alloc(), &refused, &[(1, 0, None)])?;
    let mut none = ModulePlaces::new(None);
    for _ in 0..3 {
        let given = none.find(rt.alloc(), PdbInternalSectionOffset::new(1, 0))?;
        is(&rt, "no stream", &given, &None);
    }
    Ok(())
}

#[test]
fn a_contribution_has_its_own_bytes(rt: HostRuntime) -> Result<()> {
    let alloc = rt.alloc();
    // The first has no byte, and the last stands in another section.
    let listed = [
        (1, 0x10, 0, 1),
        (1, 0x20, 0x10, 1),
        (1, 0x10, 0x10, 1),
        (2, 0x30, 0x10, 1),
    ];
    let rows = [
        (0x10, 0x10, true),
        (0x10, 0x1f, true),
        (0x1f, 0x1f, true),
        (0x1f, 0x10, true),
        // The next contribution, of the same module.
        (0x10, 0x20, false),
        (0x20, 0x1f, false),
        (0x20, 0x2f, true),
        // No contribution has the one, or the other.
        (0x20, 0x30, false),
        (0x0f, 0x10, false),
        (0x30, 0x30, false),
        (0x30, 0x31, false),
    ];
    reaches_are(&rt, alloc, &dbi(alloc, &listed, 0)?, &rows)?;
    let information = dbi(alloc, &[(1, 0xffff_fff0, 0x20, 1)], 0)?;
    reaches_are(
        &rt,
        alloc,
        &information,
        &[(0xffff_fff0, 0xffff_ffff, true), (0, 1, false)],
    )
}

#[test]
fn of_contributions_that_overlap_the_first_listed_one_of_the_first_offset_counts(
    rt: HostRuntime,
) -> Result<()> {
    let alloc = rt.alloc();
    let listed = [(1, 8, 8, 0), (1, 0, 12, 1), (1, 4, 100, 2)];
    let rows = [
        // From 0 to 8 that is the second.
        (0, 11, true),
        (0, 12, false),
        (7, 11, true),
        (7, 12, false),
        // From 8 to 16 the first.
        (8, 15, true),
        (8, 16, false),
        (8, 7, false),
        (15, 8, true),
        (15, 4, false),
        // From 16 on the third.
        (16, 103, true),
        (16, 104, false),
        (16, 4, true),
        (16, 3, false),
    ];
    reaches_are(&rt, alloc, &dbi(alloc, &listed, 0)?, &rows)
}

#[test]
fn without_contributions_every_offset_counts(rt: HostRuntime) -> Result<()> {
    let alloc = rt.alloc();
    let every = [(0, 0, true), (0, 8, true), (8, 0, true)];
    // An empty list, one that can't be read, and one whose first contribution is cut.
    reaches_are(&rt, alloc, &dbi(alloc, &[], 0)?, &every)?;
    reaches_are(&rt, alloc, &dbi(alloc, &[], 1)?, &every)?;
    reaches_are(&rt, alloc, &dbi(alloc, &[(1, 0, 8, 1)], 1)?, &every)?;
    // Those before a fault count.
    let cut = dbi(alloc, &[(1, 0, 8, 1), (1, 8, 8, 1)], 1)?;
    let rows = [(0, 7, true), (0, 8, false), (8, 8, false)];
    reaches_are(&rt, alloc, &cut, &rows)?;
    let none = ModulePlaces::new(None);
    let place = PdbInternalSectionOffset::new(1, 0);
    let other = PdbInternalSectionOffset::new(2, 0);
    is(&rt, "no stream", &none.reaches(place, other), &true);
    Ok(())
}
