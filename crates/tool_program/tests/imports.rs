//! Names of inlined calls whose ids are those of another module.

use super::files::{debug_stream, file_of};
use super::program::prints;
use std::alloc::{AllocError, Global};
use std::process::Abort;
use std::test::Fail;

/// Information: stream 7 has the name `/names`.
static INFORMATION: &[u8] =
    b"\x94\x2e\x31\x01\x01\x00\x00\x00\x02\x00\x00\x00\x33\x22\x11\x00\x55\x44\x77\x66\x88\x99\xaa\xbb\xcc\xdd\xee\xff\x07\x00\x00\x00/names\x00\x01\x00\x00\x00\x01\x00\x00\x00\x01\x00\x00\x00\x01\x00\x00\x00\x00\x00\x00\x00\x00\x00\x00\x00\x07\x00\x00\x00";

/// Ids: 0x1000 is the string `ns`, 0x1001 the function `ab` of that scope, and 0x1002 the function `g`.
static IDS: [u8; 100] = [
    0x0b, 0xca, 0x31, 0x01, 0x38, 0x00, 0x00, 0x00, 0x00, 0x10, 0x00, 0x00, 0x03, 0x10, 0x00, 0x00,
    0x2c, 0x00, 0x00, 0x00, 0x00, 0x00, 0x00, 0x00, 0x00, 0x00, 0x00, 0x00, 0x00, 0x00, 0x00, 0x00,
    0x00, 0x00, 0x00, 0x00, 0x00, 0x00, 0x00, 0x00, 0x00, 0x00, 0x00, 0x00, 0x00, 0x00, 0x00, 0x00,
    0x00, 0x00, 0x00, 0x00, 0x00, 0x00, 0x00, 0x00, 0x0a, 0x00, 0x05, 0x16, 0x00, 0x00, 0x00, 0x00,
    0x6e, 0x73, 0x00, 0xf1, 0x0e, 0x00, 0x01, 0x16, 0x00, 0x10, 0x00, 0x00, 0x74, 0x00, 0x00, 0x00,
    0x61, 0x62, 0x00, 0xf1, 0x0e, 0x00, 0x01, 0x16, 0x00, 0x00, 0x00, 0x00, 0x75, 0x00, 0x00, 0x00,
    0x67, 0x00, 0xf2, 0xf1,
];

/// The string table, in which `a.c` stands at 1, and `b.obj` at 5.
static STRINGS: &[u8] =
    b"\xfe\xef\xfe\xef\x01\x00\x00\x00\x0b\x00\x00\x00\x00a\x2ec\x00b\x2eobj\x00";

/// The code of `a.obj`, without imports: `main` at 1:100, and a call whose id stands at 60; that of the inlined function
/// stands at 204.
static CODE: [u8; 216] = [
    0x04, 0x00, 0x00, 0x00, 0x2a, 0x00, 0x10, 0x11, 0x00, 0x00, 0x00, 0x00, 0x50, 0x00, 0x00, 0x00,
    0x00, 0x00, 0x00, 0x00, 0x30, 0x00, 0x00, 0x00, 0x04, 0x00, 0x00, 0x00, 0x2c, 0x00, 0x00, 0x00,
    0x07, 0x10, 0x00, 0x00, 0x00, 0x01, 0x00, 0x00, 0x01, 0x00, 0x00, 0x6d, 0x61, 0x69, 0x6e, 0x00,
    0x1a, 0x00, 0x4d, 0x11, 0x04, 0x00, 0x00, 0x00, 0x4c, 0x00, 0x00, 0x00, 0x01, 0x10, 0x00, 0x00,
    0x0c, 0x02, 0x08, 0x06, 0x04, 0x03, 0x06, 0x04, 0x05, 0x00, 0x00, 0x00, 0x02, 0x00, 0x4e, 0x11,
    0x02, 0x00, 0x06, 0x00, 0xf4, 0x00, 0x00, 0x00, 0x18, 0x00, 0x00, 0x00, 0x01, 0x00, 0x00, 0x00,
    0x10, 0x01, 0x00, 0x01, 0x02, 0x03, 0x04, 0x05, 0x06, 0x07, 0x08, 0x09, 0x0a, 0x0b, 0x0c, 0x0d,
    0x0e, 0x0f, 0x00, 0x00, 0xf2, 0x00, 0x00, 0x00, 0x30, 0x00, 0x00, 0x00, 0x00, 0x01, 0x00, 0x00,
    0x01, 0x00, 0x00, 0x00, 0x30, 0x00, 0x00, 0x00, 0x00, 0x00, 0x00, 0x00, 0x03, 0x00, 0x00, 0x00,
    0x24, 0x00, 0x00, 0x00, 0x00, 0x00, 0x00, 0x00, 0x01, 0x00, 0x00, 0x80, 0x08, 0x00, 0x00, 0x00,
    0x02, 0x00, 0x00, 0x80, 0x10, 0x00, 0x00, 0x00, 0xee, 0xef, 0xfe, 0x00, 0xf2, 0x00, 0x00, 0x00,
    0x0c, 0x00, 0x00, 0x00, 0x20, 0x01, 0x00, 0x00, 0x01, 0x00, 0x00, 0x00, 0x00, 0x00, 0x00, 0x00,
    0xf6, 0x00, 0x00, 0x00, 0x10, 0x00, 0x00, 0x00, 0x00, 0x00, 0x00, 0x00, 0x01, 0x10, 0x00, 0x00,
    0x00, 0x00, 0x00, 0x00, 0x0a, 0x00, 0x00, 0x00,
];

/// What module `a.obj` imports from `b.obj`: the numbers 0x80000011 and 0x80000022.
static IMPORTS: [u32; 6] = [0xf7, 16, 5, 2, 0x8000_0011, 0x8000_0022];

/// What it exports itself.
static EXPORTS: [u32; 6] = [0xf8, 16, 0x8000_0011, 0x1002, 0x8000_0022, 0x1002];

/// Module 0 has 48 bytes from 1:100 on.
static CONTRIBUTIONS: &[u8] =
    b"\x2d\xba\x2e\xf1\x01\x00\x00\x00\x00\x01\x00\x00\x30\x00\x00\x00\x20\x00\x50\x60\x00\x00\x00\x00\x00\x00\x00\x00\x00\x00\x00\x00";

fn put_numbers(bytes: &mut Vec<u8>, numbers: &[u32]) -> Result<(), AllocError> {
    for number in numbers {
        bytes.extend_from_slice(&number.to_le_bytes())?;
    }
    Ok(())
}

/// The stream of `a.obj`, whose call has this id.
fn caller(alloc: Global, id: u32) -> Result<Vec<u8>, AllocError> {
    let mut code = CODE;
    code[60..64].copy_from_slice(&id.to_le_bytes());
    code[204..208].copy_from_slice(&id.to_le_bytes());
    let mut bytes = Vec::new(alloc);
    bytes.extend_from_slice(&code)?;
    put_numbers(&mut bytes, &IMPORTS)?;
    put_numbers(&mut bytes, &EXPORTS)?;
    Ok(bytes)
}

/// The stream of a module that exports 0x80000022 as this id.
fn exporter(alloc: Global, id: u32) -> Result<Vec<u8>, AllocError> {
    let mut bytes = Vec::new(alloc);
    put_numbers(&mut bytes, &[0xf8, 8, 0x8000_0022, id])?;
    Ok(bytes)
}

/// The record of a module: its stream, the sizes of its symbols and its subsections, and its name.
fn module_record(stream: u8, symbols: u8, lines: u8, name: &[u8; 5]) -> [u8; 76] {
    let mut record = [0; 76];
    record[34] = stream;
    record[36] = symbols;
    record[44] = lines;
    record[64..69].copy_from_slice(name);
    record[70..75].copy_from_slice(name);
    record
}

/// A file of `a.obj`, whose call has this id, and twice `b.obj`: the first exports 0x1001, and the second 0x1002.
fn file(alloc: Global, id: u32) -> Result<Vec<u8>, AllocError> {
    let mut modules = Vec::new(alloc);
    modules.extend_from_slice(&module_record(6, 84, 180, b"a.obj"))?;
    modules.extend_from_slice(&module_record(8, 0, 16, b"b.obj"))?;
    modules.extend_from_slice(&module_record(5, 0, 16, b"b.obj"))?;
    let debug = debug_stream(alloc, 0, &modules, CONTRIBUTIONS, b"")?;
    let caller = caller(alloc, id)?;
    let first = exporter(alloc, 0x1001)?;
    let second = exporter(alloc, 0x1002)?;
    let streams: [Option<&[u8]>; 9] = [
        Some(b""),
        Some(INFORMATION),
        None,
        Some(&debug),
        Some(&IDS),
        Some(&second),
        Some(&caller),
        Some(STRINGS),
        Some(&first),
    ];
    file_of(alloc, &streams)
}

/// The texts of the code at 1:108, of scopes, of what is found by a name, and of a line.
fn texts_are(
    rt: &(impl Abort + AllocGlobal),
    id: u32,
    wanted: (&[u8], &[u8], &[u8], &[u8]),
) -> Result<(), Fail> {
    let bytes = file(rt.alloc(), id)?;
    prints(rt, &bytes, &["resolve", "a.pdb", "1:108"], wanted.0)?;
    prints(rt, &bytes, &["scopes", "a.pdb", "0"], wanted.1)?;
    prints(rt, &bytes, &["find", "a.pdb", "*ab"], wanted.2)?;
    prints(rt, &bytes, &["where", "a.pdb", "a.c:10"], wanted.3)
}

#[test]
fn calls_have_the_names_of_ids_of_other_modules(rt: HostRuntime) -> Result<(), Fail> {
    let found: (&[u8], &[u8], &[u8], &[u8]) = (
        b"ns::ab\na.c:10:0\nmain\na.c:2:0\n\n",
        b"procedure 0001:00000100 48 main: ??\n  inlined ns::ab: int\n",
        b"inlined 0001:00000108 - 2 ns::ab\n",
        b"inlined 0001:00000108 - 2 a.c:10:0 ns::ab\n",
    );
    texts_are(&rt, 0x8000_0001, found)?;
    // An id without the top bit is that of the file.
    texts_are(&rt, 0x1001, found)
}

#[test]
fn calls_of_ids_that_are_not_exported_have_no_names(rt: HostRuntime) -> Result<(), Fail> {
    let unnamed: (&[u8], &[u8], &[u8], &[u8]) = (
        b"??\na.c:10:0\nmain\na.c:2:0\n\n",
        b"procedure 0001:00000100 48 main: ??\n  inlined ??\n",
        b"",
        b"inlined 0001:00000108 - 2 a.c:10:0 ??\n",
    );
    // The first number is imported, but not exported; there is no third number, and no second module.
    texts_are(&rt, 0x8000_0000, unnamed)?;
    texts_are(&rt, 0x8000_0002, unnamed)?;
    texts_are(&rt, 0x8010_0001, unnamed)
}

#[test]
fn scopes_of_all_modules(rt: HostRuntime) -> Result<(), Fail> {
    let bytes = file(rt.alloc(), 0x8000_0001)?;
    let wanted: &[u8] =
        b"module 0 a.obj\nprocedure 0001:00000100 48 main: ??\n  inlined ns::ab: int\nmodule 1 b.obj\nmodule 2 b.obj\n";
    prints(&rt, &bytes, &["scopes", "a.pdb"], wanted)?;
    let two: &[u8] =
        b"module 1 b.obj\nmodule 0 a.obj\nprocedure 0001:00000100 48 main: ??\n  inlined ns::ab: int\n";
    prints(&rt, &bytes, &["scopes", "a.pdb", "1", "0"], two)
}
