//! Full definitions and sizes.

use super::is;
use super::support::{named, stream, types_of};
use crate::*;
use pdb_base::{Result, TypeIndex};

/// Records of types, the first of which has the index 0x1000: forward references to `S`, and definitions of it.
const TAGS: [&[u8]; 14] = [
    // A forward reference to the structure `S`; a union of that name; a structure of another one.
    b"\x05\x15\0\0\x80\0\0\0\0\0\0\0\0\0\0\0\0\0\0\0S\0",
    b"\x06\x15\0\0\0\0\0\0\0\0\x05\0S\0",
    b"\x05\x15\0\0\0\0\0\0\0\0\0\0\0\0\0\0\0\0\x06\0T\0",
    // With a unique name; two without, of which the first counts.
    b"\x05\x15\0\0\0\x02\0\0\0\0\0\0\0\0\0\0\0\0\x07\0S\0.?AUS@@\0",
    b"\x05\x15\0\0\0\0\0\0\0\0\0\0\0\0\0\0\0\0\x08\0S\0",
    b"\x05\x15\0\0\0\0\0\0\0\0\0\0\0\0\0\0\0\0\x09\0S\0",
    // A forward reference by the unique name, and one that stands for nothing.
    b"\x05\x15\0\0\x80\x02\0\0\0\0\0\0\0\0\0\0\0\0\0\0U\0.?AUS@@\0",
    b"\x05\x15\0\0\x80\x02\0\0\0\0\0\0\0\0\0\0\0\0\0\0S\0.?AUT@@\0",
    // A forward reference to an enumeration of `short`, and that.
    b"\x07\x15\0\0\x80\0\0\0\0\0\0\0\0\0E\0",
    b"\x07\x15\0\0\0\0\x11\0\0\0\0\0\0\0E\0",
    // A structure whose unique name isn't there: it is named, but neither defined nor as large as it says.
    b"\x05\x15\0\0\0\x02\0\0\0\0\0\0\0\0\0\0\0\0\x07\0V\0.?AUV@@",
    // An array of each forward reference.
    b"\x03\x15\x00\x10\0\0\x23\0\0\0\x18\0\0",
    b"\x03\x15\x06\x10\0\0\x23\0\0\0\x15\0\0",
    b"\x03\x15\x07\x10\0\0\x23\0\0\0\x15\0\0",
];

#[test]
fn forward_references_stand_for_the_first_definition(rt: HostRuntime) -> Result<()> {
    let alloc = rt.alloc();
    let bytes = stream(alloc, &TAGS)?;
    let types = types_of(&rt, alloc, &bytes)?;
    let wanted = [
        Some(0x1004),
        Some(0x1001),
        Some(0x1002),
        Some(0x1003),
        Some(0x1004),
        Some(0x1005),
        Some(0x1003),
        None,
        Some(0x1009),
        Some(0x1009),
        None,
        None,
    ];
    let mut index = 0x1000;
    for full in wanted {
        let given = types.1.full(&types.0, TypeIndex(index));
        is(&rt, "full", &given.map(|full| full.0), &full);
        index += 1;
    }
    is(
        &rt,
        "simple",
        &types.1.full(&types.0, TypeIndex(0x74)),
        &None,
    );
    Ok(())
}

#[test]
fn sizes_of_full_definitions(rt: HostRuntime) -> Result<()> {
    let alloc = rt.alloc();
    let bytes = stream(alloc, &TAGS)?;
    let types = types_of(&rt, alloc, &bytes)?;
    let wanted: [Option<i128>; 14] = [
        Some(8),
        Some(5),
        Some(6),
        Some(7),
        Some(8),
        Some(9),
        Some(7),
        None,
        Some(2),
        Some(2),
        None,
        Some(24),
        Some(21),
        Some(21),
    ];
    let mut index = 0x1000;
    for size in wanted {
        is(
            &rt,
            "size",
            &types.1.size(&types.0, TypeIndex(index)),
            &size,
        );
        index += 1;
    }
    named(&rt, alloc, &types, 0x100a, b"V")?;
    named(&rt, alloc, &types, 0x100b, b"S[3]")?;
    named(&rt, alloc, &types, 0x100c, b"U[3]")?;
    named(&rt, alloc, &types, 0x100d, b"S[?]")
}

/// Records of types without tags, and their sizes.
const PLAIN: [(&[u8], Option<i128>); 14] = [
    // A modifier of a pointer to `int`, whose kind is 64 bits; near, far and huge pointers of 16 bits.
    (b"\x01\x10\x01\x10\0\0\x01\0", Some(8)),
    (b"\x02\x10\x74\0\0\0\x0c\0\x01\0", Some(8)),
    (b"\x02\x10\x74\0\0\0\0\0\x01\0", Some(2)),
    (b"\x02\x10\x74\0\0\0\x01\0\x01\0", Some(4)),
    (b"\x02\x10\x74\0\0\0\x02\0\x01\0", Some(4)),
    (b"\x02\x10\x74\0\0\0\x0a\x80\0\0", Some(4)),
    (b"\x02\x10\x74\0\0\0\x0b\x80\0\0", Some(6)),
    // A reference whose attributes have the size of what it refers to, and one by its own size alone.
    (b"\x02\x10\x74\0\0\0\x2c\0\x05\0", Some(8)),
    (b"\x02\x10\x74\0\0\0\x2d\0\x05\0", Some(40)),
    // Pointers to members: the size is stored, or isn't known.
    (b"\x02\x10\x74\0\0\0\x4c\x80\x01\0\x74\0\0\0\0\0", Some(12)),
    (b"\x02\x10\x74\0\0\0\x6c\0\0\0\x74\0\0\0\0\0", None),
    // Bits of `unsigned char`; an array of -1 bytes; a function.
    (b"\x05\x12\x20\0\0\0\x03\x05", Some(1)),
    (b"\x03\x15\x74\0\0\0\x23\0\0\0\x00\x80\xff\0", Some(-1)),
    (b"\x08\x10\x74\0\0\0\0\0\0\0\0\x10\0\0", None),
];

#[test]
fn sizes_of_plain_types(rt: HostRuntime) -> Result<()> {
    let alloc = rt.alloc();
    let mut records = Vec::new(alloc);
    for (record, _) in PLAIN {
        records.push(record)?;
    }
    let bytes = stream(alloc, &records)?;
    let types = types_of(&rt, alloc, &bytes)?;
    let mut index = 0x1000;
    for (_, size) in PLAIN {
        is(
            &rt,
            "size",
            &types.1.size(&types.0, TypeIndex(index)),
            &size,
        );
        index += 1;
    }
    named(&rt, alloc, &types, 0x100c, b"int[?]")
}

#[test]
fn sizes_end_64_deep(rt: HostRuntime) -> Result<()> {
    let alloc = rt.alloc();
    let modifiers: [[u8; 8]; 66] = std::array::from_fn(|k| {
        if k == 0 {
            [1, 0x10, 0x74, 0, 0, 0, 1, 0]
        } else {
            [1, 0x10, (k - 1) as u8, 0x10, 0, 0, 1, 0]
        }
    });
    let mut records = Vec::new(alloc);
    for modifier in &modifiers {
        records.push(modifier.as_slice())?;
    }
    let bytes = stream(alloc, &records)?;
    let types = types_of(&rt, alloc, &bytes)?;
    is(
        &rt,
        "64",
        &types.1.size(&types.0, TypeIndex(0x103f)),
        &Some(4),
    );
    is(&rt, "65", &types.1.size(&types.0, TypeIndex(0x1040)), &None);
    Ok(())
}
