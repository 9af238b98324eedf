//! The values of enumerators, and bit fields.

use super::is;
use super::support::{few, stream};
use crate::*;
use pdb_base::{Result, TypeIndex, Variant};
use pdb_items::ItemFinder;

const SIGNED: [(u32, i128); 11] = [
    (0x10, 8),
    (0x68, 8),
    (0x70, 8),
    (0x11, 16),
    (0x72, 16),
    (0x12, 32),
    (0x74, 32),
    (0x13, 64),
    (0x76, 64),
    (0x14, 128),
    (0x78, 128),
];

const UNSIGNED: [(u32, i128); 16] = [
    (0x20, 8),
    (0x30, 8),
    (0x69, 8),
    (0x7c, 8),
    (0x21, 16),
    (0x31, 16),
    (0x71, 16),
    (0x73, 16),
    (0x7a, 16),
    (0x22, 32),
    (0x32, 32),
    (0x75, 32),
    (0x7b, 32),
    (0x23, 64),
    (0x33, 64),
    (0x77, 64),
];

/// The numbers of signed types: -1 and the least one, in each way in which they are stored.
#[test]
fn signed_types(rt: HostRuntime) -> Result<()> {
    let alloc = rt.alloc();
    let types = ItemFinder::empty(alloc);
    for (index, bits) in SIGNED {
        let value = |stored| enumerator_value(&types, TypeIndex(index), stored);
        is(
            &rt,
            "I8",
            &value(Variant::I8(-1)),
            &EnumeratorValue::Signed(-1),
        );
        is(
            &rt,
            "U8",
            &value(Variant::U8(255)),
            &EnumeratorValue::Signed(-1),
        );
        is(
            &rt,
            "127",
            &value(Variant::U16(127)),
            &EnumeratorValue::Signed(127),
        );
        let all = if bits == 128 {
            i128::from(u64::MAX)
        } else {
            -1
        };
        is(
            &rt,
            "U64",
            &value(Variant::U64(u64::MAX)),
            &EnumeratorValue::Signed(all),
        );
        let half = if bits == 8 { -128 } else { 128 };
        is(
            &rt,
            "128",
            &value(Variant::U16(128)),
            &EnumeratorValue::Signed(half),
        );
        let least = if bits == 16 {
            -0x8000
        } else if bits == 8 {
            0
        } else {
            0x8000
        };
        is(
            &rt,
            "0x8000",
            &value(Variant::U16(0x8000)),
            &EnumeratorValue::Signed(least),
        );
        let least = if bits == 32 {
            -0x8000_0000
        } else if bits < 32 {
            0
        } else {
            0x8000_0000
        };
        is(
            &rt,
            "0x80000000",
            &value(Variant::U32(0x8000_0000)),
            &EnumeratorValue::Signed(least),
        );
    }
    Ok(())
}

/// The numbers of unsigned types: the greatest one is stored as -1 too.
#[test]
fn unsigned_types(rt: HostRuntime) -> Result<()> {
    let alloc = rt.alloc();
    let types = ItemFinder::empty(alloc);
    for (index, bits) in UNSIGNED {
        let value = |stored| enumerator_value(&types, TypeIndex(index), stored);
        let greatest = match bits {
            8 => 0xff,
            16 => 0xffff,
            32 => 0xffff_ffff,
            _ => 0xffff_ffff_ffff_ffff,
        };
        is(
            &rt,
            "I8",
            &value(Variant::I8(-1)),
            &EnumeratorValue::Signed(greatest),
        );
        is(
            &rt,
            "I64",
            &value(Variant::I64(-1)),
            &EnumeratorValue::Signed(greatest),
        );
        is(
            &rt,
            "U64",
            &value(Variant::U64(u64::MAX)),
            &EnumeratorValue::Signed(greatest),
        );
        is(
            &rt,
            "128",
            &value(Variant::U16(128)),
            &EnumeratorValue::Signed(128),
        );
        let rest = if bits == 8 { 0x34 } else { 0x1234 };
        is(
            &rt,
            "0x1234",
            &value(Variant::U16(0x1234)),
            &EnumeratorValue::Signed(rest),
        );
    }
    for index in [0x24, 0x34, 0x79] {
        let value = |stored| enumerator_value(&types, TypeIndex(index), stored);
        is(
            &rt,
            "I8",
            &value(Variant::I8(-1)),
            &EnumeratorValue::Unsigned(u128::MAX),
        );
        is(
            &rt,
            "7",
            &value(Variant::U16(7)),
            &EnumeratorValue::Unsigned(7),
        );
    }
    Ok(())
}

#[test]
fn other_types(rt: HostRuntime) -> Result<()> {
    let alloc = rt.alloc();
    // Modifiers, one in another, of `unsigned char`; a pointer; a modifier of itself.
    let bytes = stream(
        alloc,
        &[
            b"\x01\x10\x20\0\0\0\x01\0",
            b"\x01\x10\x00\x10\0\0\x02\0",
            b"\x02\x10\x20\0\0\0\x0c\0\x01\0",
            b"\x01\x10\x03\x10\0\0\x02\0",
        ],
    )?;
    let types = ItemFinder::new(alloc, few(&rt, &bytes))?;
    let value = |index| enumerator_value(&types, TypeIndex(index), Variant::I16(-2));
    is(&rt, "1001", &value(0x1001), &EnumeratorValue::Signed(254));
    for index in [0, 0x03, 0x40, 0x174, 0x620, 0x1002, 0x1003, 0x2000] {
        is(&rt, "stored", &value(index), &EnumeratorValue::Signed(-2));
    }
    Ok(())
}

#[test]
fn bits(rt: HostRuntime) -> Result<()> {
    let alloc = rt.alloc();
    let bytes = stream(
        alloc,
        &[
            b"\x05\x12\x75\0\0\0\x03\x05\xf2\xf1",
            b"\x05\x12\x75\0\0\0\x03\x05",
            b"\x05\x12\x75\0\0\0\x03",
            b"\x01\x10\x75\0\0\0\x03\x05",
        ],
    )?;
    let types = ItemFinder::new(alloc, few(&rt, &bytes))?;
    is(
        &rt,
        "1000",
        &bit_position(&types, TypeIndex(0x1000)),
        &Some(5),
    );
    is(
        &rt,
        "1001",
        &bit_position(&types, TypeIndex(0x1001)),
        &Some(5),
    );
    for index in [0x1002, 0x1003, 0x1004, 0x75] {
        is(&rt, "none", &bit_position(&types, TypeIndex(index)), &None);
    }
    Ok(())
}
