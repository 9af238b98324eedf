//! A stream of types made by hand: names, sizes and members.

use super::is;
use crate::*;
use std::alloc::{AllocError, Global};
use std::process::Abort;

/// The members of `S`, one of each form that has an own row, and one that is cut off.
const MEMBERS: &[u8] = b"\x03\x12\
    \x00\x14\x03\0\x07\x10\0\0\x08\0\
    \x01\x14\x01\0\x01\x10\0\0\x07\x10\0\0\x04\0\x02\0\
    \x02\x14\x03\0\x02\x10\0\0\x07\x10\0\0\x05\0\x03\0\
    \x09\x14\0\0\x07\x10\0\0\
    \x0c\x14\0\0\x07\x10\0\0\xfd\xff\xff\xff\
    \x0a\x14\0\0\x04\x10\0\0\
    \x0c\x15\0\0\x07\x10\0\0ff\0\xf1\
    \x0d\x15\x02\0\x06\x10\0\0\x10\0bits\0\xf1\
    \x0e\x15\x03\0\x74\0\0\0s\0\
    \x0f\x15\x02\0\x03\x10\0\0m\0\
    \x10\x15\0\0\x04\x10\0\0N\0\
    \x11\x15\x13\0\x08\x10\0\0\x18\0\0\0v\0\
    \x0d\x15\x03\0";

/// Records from index 0x1000 on: the members of `S`, `S` itself, its declaration, overloads of which the second is cut
/// off, the enumeration `E` of `signed char` and its values, three bits of an `int`, and a pointer to `S`.
const RECORDS: [&[u8]; 8] = [
    MEMBERS,
    b"\x05\x15\x0c\0\0\0\x00\x10\0\0\0\0\0\0\0\0\0\0\x38\0S\0",
    b"\x05\x15\0\0\x80\0\0\0\0\0\0\0\0\0\0\0\0\0\0\0S\0",
    b"\x06\x12\x03\0\0\0\x08\x10\0\0\x01\0\0\0",
    b"\x07\x15\x02\0\0\0\x10\0\0\0\x05\x10\0\0E\0",
    b"\x03\x12\x02\x15\x03\0\xff\0low\0\x02\x15\x03\0\x07\0up\0",
    b"\x05\x12\x74\0\0\0\x03\x05",
    b"\x02\x10\x01\x10\0\0\x0c\0\x01\0",
];

fn stream(alloc: Global) -> Result<Vec<u8>, AllocError> {
    let mut counted = Vec::new(alloc);
    for record in RECORDS {
        counted.extend_from_slice(&(record.len().min(60000) as u16).to_le_bytes())?;
        counted.extend_from_slice(record)?;
    }
    let mut bytes = Vec::new(alloc);
    for number in [
        0x0131_ca0bu32,
        56,
        0x1000,
        0x1008,
        counted.len().min(60000) as u32,
    ] {
        bytes.extend_from_slice(&number.to_le_bytes())?;
    }
    for _ in 20..56 {
        bytes.push(0)?;
    }
    bytes.extend_from_slice(&counted)?;
    Ok(bytes)
}

/// `int`, `S*`, `S`, the bit field, and an index without a type.
const INDICES: [u32; 5] = [0x74, 0x1007, 0x1002, 0x1006, 0x2000];

const NO_NAME: PdbTypeName = PdbTypeName { at: 99, size: 99 };

#[test]
fn names_of_types(rt: HostRuntime) -> Result<(), AllocError> {
    let types = stream(rt.alloc())?;
    let (mut rows, mut names, mut size) = ([NO_NAME; 6], *b"................", 99);
    let code = pdb_type_name(
        rt.alloc(),
        &types,
        &INDICES,
        &mut rows,
        &mut names,
        &mut size,
    );
    is(&rt, "code", &code, &0);
    is(&rt, "size", &size, &15);
    is(&rt, "names", &names, b"intS*Sint : 3??.");
    let places = rows.map(|row| (row.at, row.size));
    is(
        &rt,
        "rows",
        &places,
        &[(0, 3), (3, 2), (5, 1), (6, 7), (13, 2), (99, 99)],
    );
    let (mut rows, mut names, mut size) = ([NO_NAME; 2], *b"....", 99);
    let code = pdb_type_name(
        rt.alloc(),
        &types,
        &INDICES,
        &mut rows,
        &mut names,
        &mut size,
    );
    is(&rt, "code of a small buffer", &(code, size), &(31, 15));
    is(&rt, "small names", &names, b"intS");
    is(
        &rt,
        "small rows",
        &rows.map(|row| (row.at, row.size)),
        &[(0, 3), (3, 2)],
    );
    let code = pdb_type_name(
        rt.alloc(),
        &types[..55],
        &INDICES,
        &mut rows,
        &mut names,
        &mut size,
    );
    is(&rt, "code of a short stream", &(code, size), &(1, 0));
    is(&rt, "no names", &names, b"intS");
    Ok(())
}

#[test]
fn sizes_of_types(rt: HostRuntime) -> Result<(), AllocError> {
    let types = stream(rt.alloc())?;
    let none = PdbTypeSize {
        size: 99,
        full: 99,
        has_size: 99,
    };
    let mut rows = [none; 6];
    let code = pdb_type_size(rt.alloc(), &types, &INDICES, &mut rows);
    is(&rt, "code", &code, &0);
    let told = rows.map(|row| (row.size, row.full, row.has_size));
    let wanted = [
        (4, 0, 1),
        (8, 0, 1),
        (56, 0x1001, 1),
        (4, 0, 1),
        (0, 0, 0),
        (99, 99, 99),
    ];
    is(&rt, "rows", &told, &wanted);
    let mut rows = [none; 1];
    let code = pdb_type_size(rt.alloc(), &types, &INDICES, &mut rows);
    is(&rt, "a small buffer", &(code, rows[0].size), &(31, 4));
    let code = pdb_type_size(rt.alloc(), &types[..55], &INDICES, &mut rows);
    is(&rt, "a short stream", &(code, rows[0].size), &(1, 4));
    Ok(())
}

const NO_MEMBER: PdbMember<'static> = PdbMember {
    name: b"nothing",
    value: 99,
    value_high: 99,
    entry: 99,
    owner: 99,
    type_index: 99,
    attributes: 99,
    form: 99,
    refused: 99,
    has_value: 99,
    has_bit: 99,
    bit: 99,
};

/// The numbers of a row: form, type, attributes, value and whether it has one.
fn numbers_of(row: &PdbMember<'_>) -> (u8, u32, u16, u64, u8) {
    let PdbMember {
        form,
        type_index,
        attributes,
        value,
        has_value,
        ..
    } = *row;
    (form, type_index, attributes, value, has_value)
}

const LOW: u64 = 0xffff_ffff_ffff_ffff;

#[test]
fn members_of_a_structure(rt: HostRuntime) -> Result<(), AllocError> {
    let types = stream(rt.alloc())?;
    let (mut rows, mut count) = ([NO_MEMBER; 16], 99);
    let code = pdb_members(rt.alloc(), &types, &[0x74, 0x1002], &mut rows, &mut count);
    is(&rt, "code and count", &(code, count), &(0, 14));
    let wanted: [(u8, u32, u16, u64, u8); 14] = [
        (1, 0x1007, 3, 8, 1),
        (2, 0x1001, 1, 4, 1),
        (3, 0x1002, 3, 5, 1),
        (4, 0x1007, 0, 0, 0),
        (5, 0x1007, 0, LOW - 2, 1),
        (6, 0x1004, 0, 0, 0),
        (7, 0x1007, 0, 0, 0),
        (9, 0x1006, 2, 16, 1),
        (10, 0x74, 3, 0, 0),
        (11, 0x1008, 3, 0, 0),
        (12, 0, 0, 0, 0),
        (13, 0x1004, 0, 0, 0),
        (11, 0x1008, 0x13, 24, 1),
        (0, 0, 0, 0, 0),
    ];
    let names: [&[u8]; 14] = [
        b"", b"", b"", b"", b"", b"", b"ff", b"bits", b"s", b"m", b"m", b"N", b"v", b"",
    ];
    for ((row, numbers), name) in rows.iter().zip(wanted).zip(names) {
        is(&rt, "row", &(numbers_of(row), row.name), &(numbers, name));
        is(&rt, "owner", &row.owner, &1);
    }
    is(
        &rt,
        "entries",
        &(rows[1].entry, rows[2].entry, rows[0].entry),
        &(2, 3, 0),
    );
    is(
        &rt,
        "a bit",
        &(rows[7].has_bit, rows[7].bit, rows[8].has_bit),
        &(1, 5, 0),
    );
    is(
        &rt,
        "high bits",
        &(rows[4].value_high, rows[0].value_high),
        &(LOW, 0),
    );
    is(
        &rt,
        "errors",
        &(rows[13].refused, rows[12].refused),
        &(1, 0),
    );
    is(&rt, "behind", &rows[14].form, &99);
    Ok(())
}

#[test]
fn values_of_an_enumeration(rt: HostRuntime) -> Result<(), AllocError> {
    let types = stream(rt.alloc())?;
    let (mut rows, mut count) = ([NO_MEMBER; 3], 99);
    let asked = [0x1004, 0x1007, 0x1004];
    let code = pdb_members(rt.alloc(), &types, &asked, &mut rows, &mut count);
    is(&rt, "code and count", &(code, count), &(31, 4));
    is(&rt, "low", &numbers_of(&rows[0]), &(8, 0, 3, LOW, 1));
    is(&rt, "low's high bits", &rows[0].value_high, &LOW);
    is(&rt, "up", &numbers_of(&rows[1]), &(8, 0, 3, 7, 1));
    is(&rt, "up's high bits", &rows[1].value_high, &0);
    is(
        &rt,
        "names",
        &(rows[0].name, rows[1].name),
        &(b"low", b"up"),
    );
    let owners = rows.map(|row| row.owner);
    is(&rt, "owners", &owners, &[0, 0, 2]);
    let code = pdb_members(rt.alloc(), &types[..55], &asked, &mut rows, &mut count);
    is(
        &rt,
        "a short stream",
        &(code, count, rows[0].form),
        &(1, 0, 8),
    );
    Ok(())
}
