//! Relative addresses.

use super::fakes::is;
use crate::{relative_in_image, relative_of_pdb};
use std::test::Fail;

#[test]
fn relative_addresses_in_images(rt: HostRuntime) -> Result<(), Fail> {
    let rows: [(u64, u32, u64, bool, Option<u32>); 12] = [
        (0x40_0000, 0x5000, 0x1086, false, Some(0x1086)),
        (0x40_0000, 0x5000, 0x40_1085, true, Some(0x1085)),
        (0x40_0000, 0x5000, 0x40_1085, false, Some(0x1085)),
        (0x40_0000, 0x5000, 0x4fff, true, Some(0x4fff)),
        (0x40_0000, 0x5000, 0x5000, false, None),
        (0x40_0000, 0x5000, 0x40_5000, false, None),
        (0x40_0000, 0x80_0000, 0x40_1085, false, Some(0x40_1085)),
        (0x40_0000, 0x80_0000, 0x40_1085, true, None),
        (0x40_0000, 0x80_0000, 0x3f_ffff, true, Some(0x3f_ffff)),
        (0x40_0000, 0x80_0000, 0x80_0000, true, Some(0x40_0000)),
        (0x1_4000_0000, 0x7000, 0x1_4000_10c5, true, Some(0x10c5)),
        (0x1_4000_0000, 0, 0, false, None),
    ];
    for (base, size, number, is_closed, wanted) in rows {
        is(
            &rt,
            "in an image",
            &relative_in_image(base, size, number, is_closed),
            &wanted,
        );
    }
    Ok(())
}

#[test]
fn relative_addresses_of_pdbs(rt: HostRuntime) -> Result<(), Fail> {
    let rows: [(bool, u64, bool, Option<u32>); 16] = [
        (false, 0x1108, false, Some(0x1108)),
        (false, 0x1108, true, Some(0x1108)),
        (false, 0x40_1085, true, Some(0x40_1085)),
        (true, 0x40_1085, true, None),
        (true, 0x40_1085, false, Some(0x40_1085)),
        (true, 0x3f_ffff, true, Some(0x3f_ffff)),
        (true, 0x40_0000, true, None),
        (false, 0xffff_ffff, true, Some(0xffff_ffff)),
        (false, 0x1_0000_0000, false, None),
        (false, 0x1_3fff_ffff, false, None),
        (false, 0x1_4000_10c5, true, Some(0x10c5)),
        (false, 0x1_7fff_ffff, true, Some(0x3fff_ffff)),
        (false, 0x1_8000_0000, true, Some(0)),
        (false, 0x1_ffff_ffff, false, Some(0x7fff_ffff)),
        (false, 0x2_0000_0000, false, None),
        (true, u64::MAX, false, None),
    ];
    for (is_x86, number, is_closed, wanted) in rows {
        is(
            &rt,
            "of a PDB",
            &relative_of_pdb(is_x86, number, is_closed),
            &wanted,
        );
    }
    Ok(())
}
