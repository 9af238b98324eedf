//! Ranges of code.

use crate::range::CodeRange;
use crate::ranges::Ranges;
use pdb::{PdbInternalSectionOffset, Result};
use std::alloc::Global;

fn row(section: u16, offset: u32, length: u32, payload: u32) -> CodeRange {
    CodeRange::new(
        PdbInternalSectionOffset::new(section, offset),
        length,
        payload,
    )
}

#[test]
fn the_first_listed_range_is_found(rt: HostRuntime) {
    let rows = [
        row(2, 0, 4, 0),
        row(1, 8, 0, 1),
        row(1, 8, 8, 2),
        row(1, 0, 8, 3),
        row(1, 8, 8, 4),
        row(1, 0xffff_fff0, 0x20, 5),
    ];
    let ranges = Ranges::new(rt.alloc(), &rows).expect(&rt, "memory");
    let asked = [
        (1, 0, Some(3)),
        (1, 7, Some(3)),
        (1, 8, Some(2)),
        (1, 15, Some(2)),
        (1, 16, None),
        (2, 0, Some(0)),
        (2, 3, Some(0)),
        (2, 4, None),
        (0, 0, None),
        (3, 0, None),
        (1, 0xffff_ffff, Some(5)),
    ];
    for (section, offset, wanted) in &asked {
        let found = ranges.find(PdbInternalSectionOffset::new(*section, *offset));
        assert!(rt; found == *wanted);
    }
}

#[test]
fn the_first_listed_of_ranges_that_overlap_is_found(rt: HostRuntime) {
    let rows = [row(1, 8, 8, 0), row(1, 0, 12, 1), row(1, 4, 100, 2)];
    let ranges = Ranges::new(rt.alloc(), &rows).expect(&rt, "memory");
    let asked = [
        (0, Some(1)),
        (4, Some(1)),
        (8, Some(0)),
        (15, Some(0)),
        (16, Some(2)),
        (104, None),
    ];
    for (offset, wanted) in &asked {
        let found = ranges.find(PdbInternalSectionOffset::new(1, *offset));
        assert!(rt; found == *wanted);
    }
}

/// Ranges of so many different places and lengths, which overlap, as numbers that a multiplication gives.
fn scattered(alloc: Global, count: u32) -> Result<Vec<CodeRange>> {
    let mut rows = Vec::new(alloc);
    for k in 0..count {
        let seed = (k % 4096) * 7919 + 13;
        let section = (seed % 3) as u16;
        let offset = match seed % 11 {
            0 => 0xffff_ff00 + seed % 256,
            _ => seed * 31 % 4096,
        };
        rows.push(row(section, offset, seed * 17 % 600, k))?;
    }
    Ok(rows)
}

/// What a look at one range after the other finds.
fn found_one_by_one(rows: &[CodeRange], section: u16, offset: u32) -> Option<u32> {
    for row in rows {
        let end = u64::from(row.place.offset) + u64::from(row.length);
        let is_in = row.place.offset <= offset && u64::from(offset) < end;
        if row.place.section == section && is_in {
            return Some(row.payload);
        }
    }
    None
}

#[test]
fn painted_ranges_find_what_a_scan_finds(rt: HostRuntime) -> Result<()> {
    for count in [0, 1, 2, 3, 4, 5, 7, 8, 33, 200] {
        let rows = scattered(rt.alloc(), count)?;
        let ranges = Ranges::new(rt.alloc(), &rows)?;
        for section in 0..4u16 {
            for step in 0..1200u32 {
                let offset = match step < 1150 {
                    true => step * 4 + u32::from(section),
                    false => 0xffff_ff00 + (step - 1150) * 5,
                };
                let place = PdbInternalSectionOffset::new(section, offset);
                let wanted = found_one_by_one(&rows, section, offset);
                assert!(rt; ranges.find(place) == wanted);
            }
        }
    }
    Ok(())
}

#[test]
fn the_first_of_many_that_overlap_is_found(rt: HostRuntime) -> Result<()> {
    let mut rows = Vec::new(rt.alloc());
    for k in 0..2000 {
        rows.push(row(1, k, 4000, k))?;
    }
    let ranges = Ranges::new(rt.alloc(), &rows)?;
    for offset in 0..6100 {
        let found = ranges.find(PdbInternalSectionOffset::new(1, offset));
        let wanted = match offset {
            0..4000 => Some(0),
            4000..5999 => Some(offset - 3999),
            _ => None,
        };
        assert!(rt; found == wanted);
    }
    Ok(())
}
