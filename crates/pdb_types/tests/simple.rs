//! Simple types.

use super::is;
use super::support::{stream, types_of};
use crate::*;
use pdb_base::{Result, TypeIndex};
use pdb_items::ItemFinder;
use std::alloc::Global;
use std::process::Abort;

/// The kinds of simple types that have names, each with its size in bytes: as `cvinfo.h` and LLVM have them.
const KINDS: [(u32, &[u8], Option<i128>); 47] = [
    (0x03, b"void", Some(0)),
    (0x07, b"<not translated>", None),
    (0x08, b"HRESULT", Some(4)),
    (0x10, b"signed char", Some(1)),
    (0x11, b"short", Some(2)),
    (0x12, b"long", Some(4)),
    (0x13, b"__int64", Some(8)),
    (0x14, b"__int128", Some(16)),
    (0x20, b"unsigned char", Some(1)),
    (0x21, b"unsigned short", Some(2)),
    (0x22, b"unsigned long", Some(4)),
    (0x23, b"unsigned __int64", Some(8)),
    (0x24, b"unsigned __int128", Some(16)),
    (0x30, b"bool", Some(1)),
    (0x31, b"__bool16", Some(2)),
    (0x32, b"__bool32", Some(4)),
    (0x33, b"__bool64", Some(8)),
    (0x34, b"__bool128", Some(16)),
    (0x40, b"float", Some(4)),
    (0x41, b"double", Some(8)),
    (0x42, b"long double", Some(10)),
    (0x43, b"__float128", Some(16)),
    (0x44, b"__float48", Some(6)),
    (0x45, b"float", Some(4)),
    (0x46, b"__half", Some(2)),
    (0x50, b"_Complex float", Some(8)),
    (0x51, b"_Complex double", Some(16)),
    (0x52, b"_Complex long double", Some(20)),
    (0x53, b"_Complex __float128", Some(32)),
    (0x54, b"_Complex __float48", Some(12)),
    (0x55, b"_Complex float", Some(8)),
    (0x56, b"_Complex __half", Some(4)),
    (0x68, b"__int8", Some(1)),
    (0x69, b"unsigned __int8", Some(1)),
    (0x70, b"char", Some(1)),
    (0x71, b"wchar_t", Some(2)),
    (0x72, b"__int16", Some(2)),
    (0x73, b"unsigned __int16", Some(2)),
    (0x74, b"int", Some(4)),
    (0x75, b"unsigned", Some(4)),
    (0x76, b"__int64", Some(8)),
    (0x77, b"unsigned __int64", Some(8)),
    (0x78, b"__int128", Some(16)),
    (0x79, b"unsigned __int128", Some(16)),
    (0x7a, b"char16_t", Some(2)),
    (0x7b, b"char32_t", Some(4)),
    (0x7c, b"char8_t", Some(1)),
];

/// The sizes of pointers, by their modes.
const MODES: [i128; 7] = [2, 4, 4, 4, 6, 8, 16];

/// The name and the size of a simple type of this kind and mode.
fn wanted(alloc: Global, kind: u32, mode: u32) -> Result<(Vec<u8>, Option<i128>)> {
    let mut name = Vec::new(alloc);
    if kind == 0 && mode == 0 {
        name.extend_from_slice(b"<no type>")?;
        return Ok((name, None));
    }
    if kind == 3 && mode == 1 {
        name.extend_from_slice(b"std::nullptr_t")?;
        return Ok((name, None));
    }
    for (number, text, size) in KINDS {
        if number == kind && mode == 0 {
            name.extend_from_slice(text)?;
            return Ok((name, size));
        }
        if number == kind && mode < 8 {
            name.extend_from_slice(text)?;
            name.push(b'*')?;
            return Ok((name, Some(MODES[mode as usize - 1])));
        }
    }
    name.extend_from_slice(b"??")?;
    Ok((name, None))
}

/// Asserts the name and the size of each simple type of a mode.
fn of_mode(
    rt: &impl Abort,
    alloc: Global,
    types: &(ItemFinder<'_>, TypeDefinitions<'_>),
    mode: u32,
) -> Result<()> {
    for kind in 0..0x100 {
        let index = TypeIndex(mode * 0x100 + kind);
        let (name, size) = wanted(alloc, kind, mode)?;
        let mut out = Vec::new(alloc);
        put_name(&types.0, &types.1, &mut out, index)?;
        assert!(rt;
            out.as_slice() == name.as_slice(),
            "{index:?}: {out:?}, and not {name:?}"
        );
        is(rt, "size", &types.1.size(&types.0, index), &size);
    }
    Ok(())
}

#[test]
fn names_and_sizes_of_all_simple_types(rt: HostRuntime) -> Result<()> {
    let alloc = rt.alloc();
    let bytes = stream(alloc, &[])?;
    let types = types_of(&rt, alloc, &bytes)?;
    for mode in 0..16 {
        of_mode(&rt, alloc, &types, mode)?;
    }
    Ok(())
}
