//! Indexes whose tables agree, and others.

use super::is;
use crate::tests::sample::{changed, sample};
use crate::*;
use std::test::Fail;

#[test]
fn index_by_hand_is_well_made(rt: HostRuntime) -> Result<(), Fail> {
    let bytes = sample(rt.alloc())?;
    let is_well_made = Index::open(&bytes)?.is_well_made(rt.alloc())?;
    is(&rt, "well made", &is_well_made, &true);
    Ok(())
}

#[test]
fn one_rule_broken(rt: HostRuntime) -> Result<(), Fail> {
    for (label, at, byte, wanted) in [
        ("key", 0x20, 3, true),
        ("first segment", 0x60, 1, false),
        ("segments fall", 0x6d, 0x20, false),
        ("section 65536", 0x72, 1, false),
        ("section 2", 0x70, 2, true),
        ("sections fall", 0x84, 0xff, true),
        ("sections are alike", 0x86, 1, false),
        ("first run", 0x88, 1, false),
        ("last run", 0x90, 7, false),
        ("first start", 0x94, 1, false),
        ("starts are alike", 0xa4, 0x0a, false),
        ("starts rise by 1", 0xa4, 0x0b, true),
        ("last start falls", 0xb0, 0x12, false),
        ("node 6", 0xb8, 13, true),
        ("node 7", 0xb8, 14, false),
        ("outer node 0", 0xcc, 4, true),
        ("another outer node", 0xcc, 3, true),
        ("outer node before the first", 0xcc, 5, false),
        ("function 1", 0xcd, 1, true),
        ("function 2", 0xcd, 2, false),
        ("file 2", 0xce, 2, false),
        ("name past the end", 0xec, 8, false),
        ("name to the end", 0xec, 7, true),
        ("file's name past the end", 0x104, 4, false),
        ("stacks of 2", 0x44, 1, false),
        ("stacks of 3", 0xd0, 1, false),
        ("stacks of at most 3", 0x44, 3, true),
    ] {
        let bytes = changed(rt.alloc(), at, &[byte])?;
        let is_well_made = Index::open(&bytes)?.is_well_made(rt.alloc())?;
        is(&rt, label, &is_well_made, &wanted);
    }
    Ok(())
}
