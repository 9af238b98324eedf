//! Ranges of modules.

use super::fakes::is;
use crate::{ModuleRange, add_range, range_of};
use std::test::Fail;

/// The module that has an address.
fn module_at(ranges: &[ModuleRange], address: u64) -> Option<usize> {
    Some(range_of(ranges, address)?.module)
}

#[test]
fn addresses_in_ranges(rt: HostRuntime) -> Result<(), Fail> {
    let mut ranges = Vec::new(rt.alloc());
    is(&rt, "no range", &module_at(&ranges, 0), &None);
    add_range(
        &mut ranges,
        ModuleRange {
            start: 0x7ff6_1c2a_0000,
            size: 0x7000,
            module: 0,
        },
    )?;
    add_range(
        &mut ranges,
        ModuleRange {
            start: 0xe5_0000,
            size: 0x5000,
            module: 1,
        },
    )?;
    is(
        &rt,
        "first byte",
        &module_at(&ranges, 0x7ff6_1c2a_0000),
        &Some(0),
    );
    is(
        &rt,
        "last byte",
        &module_at(&ranges, 0x7ff6_1c2a_6fff),
        &Some(0),
    );
    is(&rt, "behind", &module_at(&ranges, 0x7ff6_1c2a_7000), &None);
    is(&rt, "before", &module_at(&ranges, 0x7ff6_1c29_ffff), &None);
    is(&rt, "the other", &module_at(&ranges, 0xe5_1086), &Some(1));
    is(&rt, "none", &module_at(&ranges, u64::MAX), &None);
    Ok(())
}

#[test]
fn ranges_are_replaced(rt: HostRuntime) -> Result<(), Fail> {
    let mut ranges = Vec::new(rt.alloc());
    add_range(
        &mut ranges,
        ModuleRange {
            start: 0x1_0000,
            size: 0x1_0000,
            module: 0,
        },
    )?;
    add_range(
        &mut ranges,
        ModuleRange {
            start: 0x2_0000,
            size: 0x1_0000,
            module: 1,
        },
    )?;
    add_range(
        &mut ranges,
        ModuleRange {
            start: 0x3_0000,
            size: 0x1_0000,
            module: 2,
        },
    )?;
    is(&rt, "side by side", &ranges.len(), &3);
    add_range(
        &mut ranges,
        ModuleRange {
            start: 0x1_8000,
            size: 0x1_0000,
            module: 3,
        },
    )?;
    is(&rt, "over two", &ranges.len(), &2);
    is(&rt, "replaced", &module_at(&ranges, 0x1_0000), &None);
    is(&rt, "new", &module_at(&ranges, 0x2_7fff), &Some(3));
    is(&rt, "stays", &module_at(&ranges, 0x3_0000), &Some(2));
    add_range(
        &mut ranges,
        ModuleRange {
            start: 0xffff_ffff_ffff_0000,
            size: 0x1_0000_0000,
            module: 4,
        },
    )?;
    is(&rt, "at the end", &module_at(&ranges, u64::MAX), &Some(4));
    is(&rt, "not around", &module_at(&ranges, 0), &None);
    Ok(())
}

#[test]
fn ranges_are_few(rt: HostRuntime) -> Result<(), Fail> {
    let mut ranges = Vec::new(rt.alloc());
    for module in 0..5000 {
        add_range(
            &mut ranges,
            ModuleRange {
                start: 0x10_0000 * (module as u64 + 1),
                size: 0x1000,
                module,
            },
        )?;
    }
    is(&rt, "ranges", &ranges.len(), &4096);
    is(
        &rt,
        "last",
        &module_at(&ranges, 0x10_0000 * 4096),
        &Some(4095),
    );
    is(
        &rt,
        "passed over",
        &module_at(&ranges, 0x10_0000 * 4097),
        &None,
    );
    add_range(
        &mut ranges,
        ModuleRange {
            start: 0x10_0000,
            size: 0x1000,
            module: 9999,
        },
    )?;
    is(&rt, "replaced", &module_at(&ranges, 0x10_0000), &Some(9999));
    Ok(())
}
