//! An image of 354 bytes made by hand, and others that it becomes by a change of some bytes.

use super::{is, put, put_numbers};
use crate::*;
use std::alloc::{AllocError, Global};

/// An image with one section and a debug directory of one entry, which names a PDB.
fn image(alloc: Global) -> Result<Vec<u8>, AllocError> {
    let mut bytes = vec![in alloc; 0u8; 354]?;
    put(&mut bytes, 0, b"MZ");
    put_numbers(&mut bytes, 60, &[64]);
    put(&mut bytes, 64, b"PE\0\0");
    put_numbers(&mut bytes, 68, &[0x0001_8664, 0x1122_3344]);
    put_numbers(&mut bytes, 84, &[168, 0x20b]);
    put_numbers(&mut bytes, 112, &[0x4000_0000, 1]);
    put_numbers(&mut bytes, 144, &[0x3000]);
    put_numbers(&mut bytes, 196, &[7]);
    put_numbers(&mut bytes, 248, &[0x1000, 28]);
    put_numbers(&mut bytes, 268, &[0x1000, 58, 296]);
    put_numbers(&mut bytes, 308, &[2, 30, 0, 324]);
    put(&mut bytes, 324, b"RSDS");
    for i in 0..16u8 {
        put(&mut bytes, 328 + usize::from(i), &[i]);
    }
    put_numbers(&mut bytes, 344, &[9]);
    put(&mut bytes, 348, b"a.pdb\0");
    Ok(bytes)
}

const NOTHING: PdbImage<'static> = PdbImage {
    path: b"-",
    base: 99,
    guid: [99; 16],
    guid_bytes: [99; 16],
    machine: 99,
    time_stamp: 99,
    size: 99,
    age: 99,
    has_pdb: 99,
};

fn numbers_of(it: &PdbImage<'_>) -> (u64, [u32; 5]) {
    let numbers = [it.machine, it.time_stamp, it.size, it.age, it.has_pdb];
    (it.base, numbers)
}

#[test]
fn image_by_hand(rt: HostRuntime) -> Result<(), AllocError> {
    let bytes = image(rt.alloc())?;
    let mut out = NOTHING;
    is(&rt, "code", &pdb_image(&bytes, &mut out), &0);
    let wanted = (0x1_4000_0000, [0x8664, 0x1122_3344, 0x3000, 9, 1]);
    is(&rt, "numbers", &numbers_of(&out), &wanted);
    let guid = [3, 2, 1, 0, 5, 4, 7, 6, 8, 9, 10, 11, 12, 13, 14, 15];
    is(&rt, "guid", &out.guid, &guid);
    let bytes = [0, 1, 2, 3, 4, 5, 6, 7, 8, 9, 10, 11, 12, 13, 14, 15];
    is(&rt, "bytes of the guid", &out.guid_bytes, &bytes);
    is(&rt, "path", &out.path, &b"a.pdb".as_slice());
    Ok(())
}

#[test]
fn image_without_a_pdb(rt: HostRuntime) -> Result<(), AllocError> {
    let mut bytes = image(rt.alloc())?;
    put_numbers(&mut bytes, 308, &[16]);
    let mut out = NOTHING;
    is(&rt, "code", &pdb_image(&bytes, &mut out), &0);
    let wanted = (0x1_4000_0000, [0x8664, 0x1122_3344, 0x3000, 0, 0]);
    is(&rt, "numbers", &numbers_of(&out), &wanted);
    is(&rt, "guid", &out.guid, &[0; 16]);
    is(&rt, "bytes of the guid", &out.guid_bytes, &[0; 16]);
    is(&rt, "path", &out.path.len(), &0);
    Ok(())
}

#[test]
fn images_in_error(rt: HostRuntime) -> Result<(), AllocError> {
    // No `MZ`, an offset behind the end, no signature, another optional header, and records of other signatures.
    for (at, number, wanted) in [
        (0, 0, 34),
        (60, 351, 1),
        (60, 65, 35),
        (88, 0x107, 36),
        (324, 0x3031_424e, 37),
        (324, 0x5344_5353, 38),
    ] {
        let mut bytes = image(rt.alloc())?;
        put_numbers(&mut bytes, at, &[number]);
        let mut out = NOTHING;
        is(&rt, "code", &pdb_image(&bytes, &mut out), &wanted);
        is(&rt, "numbers", &numbers_of(&out), &(99, [99; 5]));
        is(&rt, "guid", &out.guid, &[99; 16]);
        is(&rt, "path", &out.path, &b"-".as_slice());
    }
    Ok(())
}
