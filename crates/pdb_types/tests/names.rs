//! The names of types.

use super::support::{named, stream, types_of};
use crate::*;
use pdb_base::{Result, Steps, TypeIndex};
use std::alloc::Global;

/// Records of types, the first of which has the index 0x1000, and their names as a C++ programmer writes them.
const ROWS: [(&[u8], &[u8]); 44] = [
    (
        b"\x05\x15\0\0\0\x02\0\0\0\0\0\0\0\0\0\0\0\0\x10\0\x53\0\x2e\x3f\x41\x55\x53\x40\x40\0\xf1",
        b"S",
    ),
    (b"\x01\x10\x70\0\0\0\x01\0\xf2\xf1", b"const char"),
    (b"\x02\x10\x01\x10\0\0\x0c\0\x01\0", b"const char*"),
    (b"\x02\x10\x01\x10\0\0\x0c\x04\x01\0", b"const char* const"),
    (
        b"\x01\x12\x02\0\0\0\x74\0\0\0\x02\x10\0\0",
        b"(int, const char*)",
    ),
    (
        b"\x08\x10\x74\0\0\0\0\0\x02\0\x04\x10\0\0",
        b"int (int, const char*)",
    ),
    (
        b"\x02\x10\x05\x10\0\0\x0c\0\x01\0",
        b"int (*)(int, const char*)",
    ),
    (
        b"\x01\x10\x06\x10\0\0\x01\0\xf2\xf1",
        b"int (* const)(int, const char*)",
    ),
    (b"\x03\x15\x74\0\0\0\x23\0\0\0\x0c\0\0\xf1", b"int[3]"),
    (b"\x03\x15\x08\x10\0\0\x23\0\0\0\x18\0\0\xf1", b"int[2][3]"),
    (b"\x02\x10\x08\x10\0\0\x2c\0\x01\0", b"int (&)[3]"),
    (
        b"\x03\x15\x06\x10\0\0\x23\0\0\0\x10\0\0\xf1",
        b"int (*[2])(int, const char*)",
    ),
    (b"\x01\x10\x08\x10\0\0\x02\0\xf2\xf1", b"volatile int[3]"),
    (
        b"\x03\x15\x02\x10\0\0\x23\0\0\0\x10\0\0\xf1",
        b"const char*[2]",
    ),
    (
        b"\x01\x10\x0d\x10\0\0\x01\0\xf2\xf1",
        b"const char* const[2]",
    ),
    (b"\x01\x10\0\x10\0\0\x03\0\xf2\xf1", b"const volatile S"),
    (b"\x02\x10\x0f\x10\0\0\x0c\0\x01\0", b"const volatile S*"),
    (b"\x01\x12\x01\0\0\0\0\0\0\0", b"(...)"),
    (
        b"\x09\x10\x03\0\0\0\0\x10\0\0\x10\x10\0\0\0\0\x01\0\x11\x10\0\0\0\0\0\0",
        b"void (...) const volatile",
    ),
    (
        b"\x02\x10\x12\x10\0\0\x6c\0\x01\0\0\x10\0\0\x05\0\xf2\xf1",
        b"void (S::*)(...) const volatile",
    ),
    (
        b"\x02\x10\x74\0\0\0\x4c\0\x01\0\0\x10\0\0\x01\0\xf2\xf1",
        b"int S::*",
    ),
    (
        b"\x02\x10\x08\x10\0\0\x4c\0\x01\0\0\x10\0\0\x01\0\xf2\xf1",
        b"int (S::*)[3]",
    ),
    (b"\x05\x12\x75\0\0\0\x03\x05\xf2\xf1", b"unsigned : 3"),
    (b"\x0a\0\x03\0\x55\x05", b"<vftable 3 methods>"),
    (b"\x02\x10\x17\x10\0\0\x0c\0\x01\0", b"<vftable 3 methods>*"),
    (
        b"\x08\x10\x06\x10\0\0\0\0\x02\0\x04\x10\0\0",
        b"int (* (int, const char*))(int, const char*)",
    ),
    (b"\x02\x10\xff\x0f\0\0\x0c\0\x01\0", b"??*"),
    (b"\x02\x10\xff\xff\0\0\x8c\0\x01\0", b"??&&"),
    (b"\x02\x10\x74\0\0\0\xac\0\x01\0", b"??"),
    (b"\x02\x10\x74\0\0\0\x0c\0", b"??"),
    (b"\x08\x10\x74\0\0\0\0\0\x02\0\x74\0\0\0", b"int (??)"),
    (b"\x03\x15\xff\xff\0\0\x23\0\0\0\x0c\0\0\xf1", b"??[?]"),
    (b"\x03\x15\xff\xff\0\0\x23\0\0\0\0\0\0\xf1", b"??[]"),
    (b"\x01\x12\x02\0\0\0\0\0\0\0\x74\0\0\0", b"(<no type>, int)"),
    (
        b"\x05\x15\0\0\x80\x02\0\0\0\0\0\0\0\0\0\0\0\0\0\0\x53\0\x2e\x3f\x41\x55\x53\x40\x40\0\xf1",
        b"S",
    ),
    (b"\x03\x15\x22\x10\0\0\x23\0\0\0\x30\0\0\xf1", b"S[3]"),
    (b"\x08\x10\x74\0\0\0\0\0\x02\0\x04", b"??"),
    (b"\x06\x12\0\0\0\0\x74\0\0\0", b"??"),
    (b"\x07\x15\x02\0\0\0\x74\0\0\0\0\0\0\0\x45\0", b"E"),
    (b"\x02\x10\x03\x01\0\0\x2c\0\x01\0", b"std::nullptr_t&"),
    (
        b"\x01\x10\x03\x01\0\0\x01\0\xf2\xf1",
        b"const std::nullptr_t",
    ),
    (b"\x01\x10\x70\x06\0\0\x01\0\xf2\xf1", b"char* const"),
    (
        b"\x02\x10\x74\0\0\0\x0c\x1e\x01\0",
        b"int* const volatile __unaligned __restrict",
    ),
    (b"\x03\x12\x02\x15", b"<field list>"),
];

/// A pointer to itself: index 0x102c.
const ITSELF: &[u8] = b"\x02\x10\x2c\x10\0\0\x0c\0\x01\0";

/// The stream of all rows, and a pointer to itself behind them.
fn all_rows(alloc: Global) -> Result<Vec<u8>> {
    let mut records = Vec::new(alloc);
    for (record, _) in ROWS {
        records.push(record)?;
    }
    records.push(ITSELF)?;
    stream(alloc, records.as_slice())
}

#[test]
fn names_of_types(rt: HostRuntime) -> Result<()> {
    let alloc = rt.alloc();
    let bytes = all_rows(alloc)?;
    let types = types_of(&rt, alloc, &bytes)?;
    let mut index = 0x1000;
    for (_, name) in ROWS {
        named(&rt, alloc, &types, index, name)?;
        index += 1;
    }
    Ok(())
}

#[test]
fn a_type_of_itself_is_cut_off_64_deep(rt: HostRuntime) -> Result<()> {
    let alloc = rt.alloc();
    let bytes = all_rows(alloc)?;
    let types = types_of(&rt, alloc, &bytes)?;
    let mut wanted = Vec::new(alloc);
    wanted.extend_from_slice(b"<...>")?;
    for _ in 0..64 {
        wanted.push(b'*')?;
    }
    named(&rt, alloc, &types, 0x102c, &wanted)
}

#[test]
fn indices_without_an_item_have_no_name(rt: HostRuntime) -> Result<()> {
    let alloc = rt.alloc();
    let bytes = all_rows(alloc)?;
    let types = types_of(&rt, alloc, &bytes)?;
    named(&rt, alloc, &types, 0x102d, b"??")?;
    named(&rt, alloc, &types, u32::MAX, b"??")?;
    named(&rt, alloc, &types, 0x0fff, b"??")
}

/// Indices of rows, and the declaration of `name` with each.
const DECLARED: [(u32, &[u8]); 12] = [
    (0x74, b"int name"),
    (0x1001, b"const char name"),
    (0x1002, b"const char*name"),
    (0x1003, b"const char* const name"),
    (0x1005, b"int name(int, const char*)"),
    (0x1006, b"int (*name)(int, const char*)"),
    (0x1007, b"int (* const name)(int, const char*)"),
    (0x1009, b"int name[2][3]"),
    (0x100a, b"int (&name)[3]"),
    (0x1013, b"void (S::*name)(...) const volatile"),
    (0x1016, b"unsigned name : 3"),
    (0x1019, b"int (*name(int, const char*))(int, const char*)"),
];

#[test]
fn declarations(rt: HostRuntime) -> Result<()> {
    let alloc = rt.alloc();
    let bytes = all_rows(alloc)?;
    let types = types_of(&rt, alloc, &bytes)?;
    for (index, wanted) in DECLARED {
        // What the buffer ends in is no part of the type.
        for before in [b"x*", b"x "] {
            let mut out = Vec::new(alloc);
            out.extend_from_slice(before)?;
            put_declaration(&types.0, &types.1, &mut out, TypeIndex(index), b"name")?;
            assert!(rt; out.starts_with(before));
            let given = out.as_slice().split_at(2).1;
            assert!(rt;
                given == wanted,
                "{index:x}: {:?}, and not {:?}",
                given,
                wanted
            );
        }
    }
    Ok(())
}

#[test]
fn a_declaration_of_more_than_65536_bytes_is_cut_off(rt: HostRuntime) -> Result<()> {
    let alloc = rt.alloc();
    let bytes = all_rows(alloc)?;
    let types = types_of(&rt, alloc, &bytes)?;
    let mut name = Vec::new(alloc);
    for _ in 0..65_532 {
        name.push(b'x')?;
    }
    let mut out = Vec::new(alloc);
    put_declaration(&types.0, &types.1, &mut out, TypeIndex(0x74), &name)?;
    assert!(rt; out.len() == 65_536 && out.ends_with(b"xx"));
    name.push(b'y')?;
    let mut out = Vec::new(alloc);
    put_declaration(&types.0, &types.1, &mut out, TypeIndex(0x74), &name)?;
    assert!(rt; out.len() == 65_541 && out.ends_with(b"xx<...>"));
    Ok(())
}

/// Modifiers whose bits have no word, and one of `const` around them, with their names.
const UNQUALIFIED: [(&[u8], &[u8]); 5] = [
    (b"\x01\x10\x74\0\0\0\0\0\xf2\xf1", b"int"),
    (b"\x01\x10\x70\x06\0\0\xf8\xff\xf2\xf1", b"char*"),
    (b"\x01\x10\0\x10\0\0\0\0\xf2\xf1", b"int"),
    (b"\x01\x10\x01\x10\0\0\x01\0\xf2\xf1", b"char* const"),
    (b"\x01\x10\x02\x10\0\0\x04\0\xf2\xf1", b"__unaligned int"),
];

#[test]
fn a_modifier_without_words_is_called_what_it_modifies(rt: HostRuntime) -> Result<()> {
    let alloc = rt.alloc();
    let mut records = Vec::new(alloc);
    for (record, _) in UNQUALIFIED {
        records.push(record)?;
    }
    let bytes = stream(alloc, records.as_slice())?;
    let types = types_of(&rt, alloc, &bytes)?;
    let mut index = 0x1000;
    for (_, name) in UNQUALIFIED {
        named(&rt, alloc, &types, index, name)?;
        index += 1;
    }
    Ok(())
}

/// A structure of a size and a name, which is forward or not.
fn structure(alloc: Global, forward: bool, size: u16, name: &[u8]) -> Result<Vec<u8>> {
    let mut record = Vec::new(alloc);
    record.extend_from_slice(b"\x05\x15\0\0")?;
    record.push(if forward { 0x80 } else { 0 })?;
    record.push(0)?;
    record.extend_from_slice(&[0; 12])?;
    record.extend_from_slice(&size.to_le_bytes())?;
    record.extend_from_slice(name)?;
    record.push(0)?;
    Ok(record)
}

#[test]
fn a_name_of_more_than_65536_bytes_is_cut_off(rt: HostRuntime) -> Result<()> {
    let alloc = rt.alloc();
    let mut name = Vec::new(alloc);
    for _ in 0..32_766 {
        name.push(b'x')?;
    }
    let long = structure(alloc, false, 4, &name)?;
    // Two names of 32,766 bytes, a comma, a blank and two parentheses: 65,536 bytes. A star behind them is too many.
    let list = b"\x01\x12\x02\0\0\0\0\x10\0\0\0\x10\0\0";
    let pointer = b"\x02\x10\x01\x10\0\0\x0c\0\x01\0";
    let bytes = stream(alloc, &[&long, list, pointer])?;
    let types = types_of(&rt, alloc, &bytes)?;
    let mut out = Vec::new(alloc);
    put_name(&types.0, &types.1, &mut out, TypeIndex(0x1001))?;
    assert!(rt; out.len() == 65_536 && out.ends_with(b"x)"));
    let mut out = Vec::new(alloc);
    put_name(&types.0, &types.1, &mut out, TypeIndex(0x1002))?;
    assert!(rt; out.len() == 65_541 && out.ends_with(b"x)<...>"));
    Ok(())
}

#[test]
fn the_beginning_of_a_name_is_what_is_asked_for(rt: HostRuntime) -> Result<()> {
    let alloc = rt.alloc();
    let bytes = nested_lists(alloc, 20)?;
    let types = types_of(&rt, alloc, &bytes)?;
    let wanted: [(usize, &[u8]); 4] = [
        (0, b"name: "),
        (13, b"name: ((int, int), "),
        (24, b"name: ((int, int), (int, int))"),
        (30, b"name: ((int, int), (int, int))"),
    ];
    for (most, text) in wanted {
        let mut out = Vec::new(alloc);
        out.extend_from_slice(b"name: ")?;
        let mut steps = Steps::new();
        put_name_start(
            &types.0,
            &types.1,
            &mut out,
            TypeIndex(0x1001),
            most,
            &mut steps,
        )?;
        assert!(rt; out.as_slice() == text, "{most}: {:?}", out.as_slice());
    }
    // The name of the last one would have 2^20 types. For its beginning few records are read.
    let mut out = Vec::new(alloc);
    let mut steps = Steps::new();
    put_name_start(
        &types.0,
        &types.1,
        &mut out,
        TypeIndex(0x1013),
        24,
        &mut steps,
    )?;
    assert!(rt; out.len() == 24 && out.ends_with(b"((((int,"));
    Ok(())
}

/// Lists of two, each of the list before it twice; the first of `int`.
fn nested_lists(alloc: Global, count: u32) -> Result<Vec<u8>> {
    let mut records = Vec::new(alloc);
    for k in 0..count {
        let index = if k == 0 { 0x74 } else { 0x0fff + k };
        let mut record = Vec::new(alloc);
        record.extend_from_slice(b"\x01\x12\x02\0\0\0")?;
        record.extend_from_slice(&u32::to_le_bytes(index))?;
        record.extend_from_slice(&u32::to_le_bytes(index))?;
        records.push(record)?;
    }
    let mut slices = Vec::new(alloc);
    for record in &records {
        slices.push(record.as_slice())?;
    }
    stream(alloc, slices.as_slice())
}

// The whole name would have 2^62 types.
#[test]
fn nested_lists_are_left_where_the_name_is_full(rt: HostRuntime) -> Result<()> {
    let alloc = rt.alloc();
    let bytes = nested_lists(alloc, 62)?;
    let types = types_of(&rt, alloc, &bytes)?;
    // The name of the 14th list has 114,684 bytes.
    let mut text = Vec::new(alloc);
    text.extend_from_slice(b"(int, int)")?;
    for _ in 1..14 {
        let mut next = Vec::new(alloc);
        next.push(b'(')?;
        next.extend_from_slice(&text)?;
        next.extend_from_slice(b", ")?;
        next.extend_from_slice(&text)?;
        next.push(b')')?;
        text = next;
    }
    assert!(rt; text.len() == 114_684);
    let mut wanted = Vec::new(alloc);
    for _ in 14..62 {
        wanted.push(b'(')?;
    }
    text.truncate(65_536 - 48);
    wanted.extend_from_slice(&text)?;
    wanted.extend_from_slice(b"<...>")?;
    named(&rt, alloc, &types, 0x103d, &wanted)?;
    let mut out = Vec::new(alloc);
    put_declaration(&types.0, &types.1, &mut out, TypeIndex(0x103d), b"name")?;
    assert!(rt; out.as_slice() == wanted.as_slice());
    Ok(())
}
