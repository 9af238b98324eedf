//! The texts of modules whose streams are made by hand.

use super::streams::{Sizes, module_of, symbols_of};
use crate::tests::fakes::is;
use pdb::{ItemFinder, Stream, StringTable};
use pdb_records::Machine;
use pdb_resolve::GlobalIds;
use pdb_types::TypeDefinitions;
use std::alloc::Global;
use std::process::Abort;
use std::test::Fail;
use tool_symbols::line_texts::put_lines;
use tool_symbols::scope_texts::put_scopes;
use tool_symbols::symbol_texts::put_symbols_of;
use tool_types::line_names::LineNames;

/// Two files, four records with columns, and one without.
static LINES: &[u8] =
    b"\xf4\x00\x00\x00\x10\x00\x00\x00\x01\x00\x00\x00\x00\x00\x00\x00\x05\x00\x00\x00\x00\x00\x00\x00\xf2\x00\x00\x00\x60\x00\x00\x00\x40\x00\x00\x00\x02\x00\x01\x00\x20\x00\x00\x00\x00\x00\x00\x00\x02\x00\x00\x00\x24\x00\x00\x00\x00\x00\x00\x00\x07\x00\x00\x80\x08\x00\x00\x00\x09\x00\x00\x80\x03\x00\x05\x00\x04\x00\x06\x00\x08\x00\x00\x00\x01\x00\x00\x00\x18\x00\x00\x00\x0c\x00\x00\x00\x0b\x00\x00\x80\x02\x00\x00\x00\x99\x00\x00\x00\x01\x00\x00\x00\x18\x00\x00\x00\x18\x00\x00\x00\x0d\x00\x00\x80\x06\x00\x07\x00\xf2\x00\x00\x00\x20\x00\x00\x00\x80\x00\x00\x00\x02\x00\x00\x00\x08\x00\x00\x00\x08\x00\x00\x00\x01\x00\x00\x00\x14\x00\x00\x00\x00\x00\x00\x00\x0c\x00\x00\x80";

/// The names `a.c` at place 1 and `bc` at place 5.
static STRINGS: &[u8] = b"\xfe\xef\xfe\xef\x01\x00\x00\x00\x08\x00\x00\x00\x00a\x2ec\x00bc\x00";

/// The string `ns` of index 0x1000, and the function `ab` in it of index 0x1001.
pub static IDS: [u8; 84] = [
    0x0b, 0xca, 0x31, 0x01, 0x38, 0x00, 0x00, 0x00, 0x00, 0x10, 0x00, 0x00, 0x02, 0x10, 0x00, 0x00,
    0x1c, 0x00, 0x00, 0x00, 0x00, 0x00, 0x00, 0x00, 0x00, 0x00, 0x00, 0x00, 0x00, 0x00, 0x00, 0x00,
    0x00, 0x00, 0x00, 0x00, 0x00, 0x00, 0x00, 0x00, 0x00, 0x00, 0x00, 0x00, 0x00, 0x00, 0x00, 0x00,
    0x00, 0x00, 0x00, 0x00, 0x00, 0x00, 0x00, 0x00, 0x0a, 0x00, 0x05, 0x16, 0x00, 0x00, 0x00, 0x00,
    0x6e, 0x73, 0x00, 0xf1, 0x0e, 0x00, 0x01, 0x16, 0x00, 0x10, 0x00, 0x00, 0x74, 0x00, 0x00, 0x00,
    0x61, 0x62, 0x00, 0xf1,
];

/// Types from index 0x1000 on: `const char`, `const char*`, `(int, const char*)`, `int (int, const char*)`, a pointer to
/// it, `int[3]`, `volatile unsigned`, a pointer again, `S`, and `void (int, const char*)`.
pub static TYPES: [u8; 213] = [
    0x0b, 0xca, 0x31, 0x01, 0x38, 0x00, 0x00, 0x00, 0x00, 0x10, 0x00, 0x00, 0x0a, 0x10, 0x00, 0x00,
    0x9d, 0x00, 0x00, 0x00, 0x00, 0x00, 0x00, 0x00, 0x00, 0x00, 0x00, 0x00, 0x00, 0x00, 0x00, 0x00,
    0x00, 0x00, 0x00, 0x00, 0x00, 0x00, 0x00, 0x00, 0x00, 0x00, 0x00, 0x00, 0x00, 0x00, 0x00, 0x00,
    0x00, 0x00, 0x00, 0x00, 0x00, 0x00, 0x00, 0x00, 0x0a, 0x00, 0x01, 0x10, 0x70, 0x00, 0x00, 0x00,
    0x01, 0x00, 0xf2, 0xf1, 0x0a, 0x00, 0x02, 0x10, 0x00, 0x10, 0x00, 0x00, 0x0c, 0x00, 0x01, 0x00,
    0x0e, 0x00, 0x01, 0x12, 0x02, 0x00, 0x00, 0x00, 0x74, 0x00, 0x00, 0x00, 0x01, 0x10, 0x00, 0x00,
    0x0e, 0x00, 0x08, 0x10, 0x74, 0x00, 0x00, 0x00, 0x00, 0x00, 0x02, 0x00, 0x02, 0x10, 0x00, 0x00,
    0x0a, 0x00, 0x02, 0x10, 0x03, 0x10, 0x00, 0x00, 0x0c, 0x00, 0x01, 0x00, 0x0e, 0x00, 0x03, 0x15,
    0x74, 0x00, 0x00, 0x00, 0x23, 0x00, 0x00, 0x00, 0x0c, 0x00, 0x00, 0xf1, 0x0a, 0x00, 0x01, 0x10,
    0x75, 0x00, 0x00, 0x00, 0x02, 0x00, 0xf2, 0xf1, 0x0a, 0x00, 0x02, 0x10, 0x03, 0x10, 0x00, 0x00,
    0x0c, 0x00, 0x01, 0x00, 0x1f, 0x00, 0x05, 0x15, 0x00, 0x00, 0x00, 0x02, 0x00, 0x00, 0x00, 0x00,
    0x00, 0x00, 0x00, 0x00, 0x00, 0x00, 0x00, 0x00, 0x10, 0x00, 0x53, 0x00, 0x2e, 0x3f, 0x41, 0x55,
    0x53, 0x40, 0x40, 0x00, 0xf1, 0x0e, 0x00, 0x08, 0x10, 0x03, 0x00, 0x00, 0x00, 0x00, 0x00, 0x02,
    0x00, 0x02, 0x10, 0x00, 0x00,
];

/// A procedure.
static PROCEDURE: &[u8] =
    b"\x10\x11\x00\x00\x00\x00\x90\x00\x00\x00\x00\x00\x00\x00\x21\x00\x00\x00\x04\x00\x00\x00\x1e\x00\x00\x00\x09\x10\x00\x00\x50\x00\x00\x00\x01\x00\x00f\x00";

#[test]
fn lines_with_their_files(rt: HostRuntime) -> Result<(), Fail> {
    let sizes = Sizes {
        symbols: 0,
        older_lines: 0,
    };
    let info = module_of(&rt, LINES, &sizes)?;
    let strings = StringTable::parse(Stream::new(STRINGS).expect(&rt, "a short stream"))?;
    let mut out = Vec::new(rt.alloc());
    put_lines(rt.alloc(), &mut out, Some(&strings), &info)?;
    let wanted: &[u8] = b"0002:00000040 8 a.c:7:3\n\
        0002:00000048 4 a.c:9:4\n\
        0002:0000004c 12 bc:11:2\n\
        0002:00000058 8 ??:13:6\n\
        0002:00000080 8 bc:12:0\n";
    is(&rt, "out.as_slice()", &out.as_slice(), &wanted);
    Ok(())
}

#[test]
fn lines_without_names(rt: HostRuntime) -> Result<(), Fail> {
    let sizes = Sizes {
        symbols: 0,
        older_lines: 0,
    };
    let info = module_of(&rt, LINES, &sizes)?;
    let mut out = Vec::new(rt.alloc());
    put_lines(rt.alloc(), &mut out, None, &info)?;
    let wanted: &[u8] = b"0002:00000040 8 ??:7:3\n\
        0002:00000048 4 ??:9:4\n\
        0002:0000004c 12 ??:11:2\n\
        0002:00000058 8 ??:13:6\n\
        0002:00000080 8 ??:12:0\n";
    is(&rt, "out.as_slice()", &out.as_slice(), &wanted);
    Ok(())
}

#[test]
fn records_before_a_fault(rt: HostRuntime) -> Result<(), Fail> {
    let sizes = Sizes {
        symbols: 0,
        older_lines: 0,
    };
    // A block of two records, and one that has no room for its two.
    let lines =
        b"\xf2\x00\x00\x00\x3c\x00\x00\x00\x10\x00\x00\x00\x01\x00\x00\x00\x20\x00\x00\x00\x00\x00\x00\x00\x02\x00\x00\x00\x1c\x00\x00\x00\x00\x00\x00\x00\x03\x00\x00\x80\x08\x00\x00\x00\x04\x00\x00\x80\x00\x00\x00\x00\x02\x00\x00\x00\x14\x00\x00\x00\x10\x00\x00\x00\x05\x00\x00\x80";
    let info = module_of(&rt, lines, &sizes)?;
    let mut out = Vec::new(rt.alloc());
    put_lines(rt.alloc(), &mut out, None, &info)?;
    let wanted: &[u8] = b"0001:00000010 8 ??:3:0\n\
        \x00error 10 invalid length: DebugLinesBlock\n";
    is(&rt, "out.as_slice()", &out.as_slice(), &wanted);
    Ok(())
}

#[test]
fn refused_lines(rt: HostRuntime) -> Result<(), Fail> {
    let sizes = Sizes {
        symbols: 0,
        older_lines: 4,
    };
    let info = module_of(&rt, LINES, &sizes)?;
    let mut out = Vec::new(rt.alloc());
    put_lines(rt.alloc(), &mut out, None, &info)?;
    let wanted: &[u8] = b"\x00error 2 not supported: C11 line programs\n";
    is(&rt, "out.as_slice()", &out.as_slice(), &wanted);
    Ok(())
}

#[test]
fn scopes_as_a_tree(rt: HostRuntime) -> Result<(), Fail> {
    let records: [&[u8]; 29] = [
        PROCEDURE,
        b"\x12\x10\x68\0\0\0\0\0\0\0\0\0\0\0\x10\0\0\0\0\0\0\0\0\0\0\x80\x01\0",
        b"\x3e\x11\x07\x10\x00\x00\x01\x00p\x00",
        b"\x42\x11\xf4\xff\xff\xff\x50\x00\x00\x00\x01\x00\x21\x00\x08\x00\x04\x00",
        b"\x45\x11\x4f\x01\x41\x00\x28\x00\x00\x00\x50\x00\x00\x00\x01\x00\x05\x00",
        b"\x03\x11\x20\x00\x00\x00p\x00\x00\x00\x12\x00\x00\x00p\x00\x00\x00\x01\x00\x00",
        b"\x4d\x11\x00\x00\x00\x00\x60\x00\x00\x00\x01\x10\x00\x00",
        b"\x3e\x11\x07\x10\x00\x00\x00\x00x\x00",
        b"\x44\x11\x10\x00\x00\x00",
        b"\x4e\x11",
        b"\x41\x11\x11\x00\x00\x00\x50\x00\x00\x00\x01\x00\x21\x00",
        b"\x06\x11t\x00\x00\x00\x11\x00r\x00",
        b"\x4d\x11\x00\x00\x00\x00\x60\x00\x00\x00\x05\x10\x00\x00",
        b"\x4e\x11",
        b"\x06\x00",
        b"\x11\x11\xf8\xff\xff\xff\x08\x10\x00\x00\x4f\x01y\x00",
        b"\x06\x00",
        b"\x06\x00",
        b"\x32\x11\x30\x00\x00\x00\xb0\x00\x00\x00\x09\x00\x00\x00\x02\x00\x00\x00\xb0\x00\x00\x00\xc0\x00\x00\x00\x03\x00\x01\x00",
        b"\x05\x11\x60\x00\x00\x00\x01\x00\x00k\x00",
        b"\x06\x00",
        b"\x02\x11\x00\x00\x00\x00\x80\x00\x00\x00\x00\x00\x00\x00\x80\x00\x00\x00\x01\x00\x05\x00\x00th\x00",
        b"\x06\x00",
        b"\x04\x11\x00",
        b"\x0d\x11\x05\x10\x00\x00\x20\x00\x00\x00\x03\x00g\x00",
        b"\x06\x00",
        b"\x12\x11\x06\x10\x00\x00\x40\x00\x00\x00\x04\x00t\x00",
        b"\x08\x11\x03\x10\x00\x00u\x00",
        b"\x0e\x11\x01",
    ];
    let mut bytes = symbols_of(&rt, rt.alloc(), &records)?;
    bytes.push(9)?;
    let sizes = Sizes {
        symbols: bytes.len(),
        older_lines: 0,
    };
    let info = module_of(&rt, bytes.as_slice(), &sizes)?;
    let ids = ItemFinder::new(rt.alloc(), &IDS)?;
    let types = ItemFinder::new(rt.alloc(), &TYPES)?;
    let definitions = TypeDefinitions::empty(rt.alloc());
    let global = GlobalIds::empty(rt.alloc());
    let names = LineNames::new(&ids, &types, &definitions, &global);
    let mut out = Vec::new(rt.alloc());
    put_scopes(rt.alloc(), &mut out, names, Some(Machine::X64), &info)?;
    let wanted: &[u8] = b"procedure 0001:00000050 33 f: void (int, const char*)\n\
        \x20 local p: int (*)(int, const char*)\n\
        \x20   [rsp-12] 0001:00000050 8\n\
        \x20   [rsp-12] 0001:0000005c 21\n\
        \x20   +4:[rsp+40] 0001:00000050 5\n\
        \x20 block 0001:00000070 18\n\
        \x20   inlined ns::ab: int\n\
        \x20     local x: int (*)(int, const char*)\n\
        \x20       [rbp+16]\n\
        \x20   register eax r: int\n\
        \x20   inlined ??\n\
        \x20 relative [rsp-8] y: S\n\
        separated 0003:000000b0 9\n\
        \x20 label 0001:00000060 k\n\
        thunk 0001:00000080 5 th\n\
        \x20 data 0003:00000020 g: int[3]\n\
        thread 0004:00000040 t: volatile unsigned\n\
        \x00error 1 the data ends before a record does\n";
    is(&rt, "out.as_slice()", &out.as_slice(), &wanted);
    Ok(())
}

#[test]
fn symbols_by_their_scopes(rt: HostRuntime) -> Result<(), Fail> {
    let records: [&[u8]; 5] = [
        PROCEDURE,
        b"\x08\x11\x03\x10\x00\x00u\x00",
        b"\x06\x00",
        b"\x06\x00",
        b"\x0e\x11\x01",
    ];
    let mut bytes = symbols_of(&rt, rt.alloc(), &records)?;
    bytes.push(9)?;
    let sizes = Sizes {
        symbols: bytes.len(),
        older_lines: 0,
    };
    let info = module_of(&rt, bytes.as_slice(), &sizes)?;
    let ids = ItemFinder::new(rt.alloc(), &IDS)?;
    let types = ItemFinder::new(rt.alloc(), &TYPES)?;
    let definitions = TypeDefinitions::empty(rt.alloc());
    let global = GlobalIds::empty(rt.alloc());
    let names = LineNames::new(&ids, &types, &definitions, &global);
    let mut out = Vec::new(rt.alloc());
    put_symbols_of(rt.alloc(), &mut out, names, None, &info)?;
    let wanted: &[u8] = b"00000004 S_GPROC32 parent=- end=00000090 next=- len=33 \
        dbg_start_offset=4 dbg_end_offset=30 type_index=00001009 offset=0001:00000050 flags=- \
        global=true dpc=false f: void (int, const char*)\n\
        \x20 0000002d S_UDT type_index=00001003 u: int (int, const char*)\n\
        00000037 S_END\n\
        0000003b S_END\n\
        0000003f S_PUB32\x00 error 1 bytes=01\n\
        \x00error 1 the data ends before a record does\n";
    is(&rt, "out.as_slice()", &out.as_slice(), &wanted);
    Ok(())
}

#[test]
fn types_of_symbols(rt: HostRuntime) -> Result<(), Fail> {
    // Procedures whose type is that of an id, and one whose id isn't there; an inlined call; a constant and a variable of
    // index 0, which is no type.
    let records: [&[u8]; 6] = [
        b"\x46\x11\0\0\0\0\x90\0\0\0\0\0\0\0\x21\0\0\0\x04\0\0\0\x1e\0\0\0\x01\x10\0\0\x50\0\0\0\x01\0\0i\0",
        b"\x56\x11\0\0\0\0\x90\0\0\0\0\0\0\0\x21\0\0\0\x04\0\0\0\x1e\0\0\0\x00\x10\0\0\x50\0\0\0\x01\0\0j\0",
        b"\x4d\x11\x04\0\0\0\x60\0\0\0\x01\x10\0\0",
        b"\x4d\x11\x04\0\0\0\x60\0\0\0\x01\x10\0\x80",
        b"\x07\x11\x06\x10\0\0\x00\x80\xfec\0",
        b"\x3e\x11\0\0\0\0\0\0z\0",
    ];
    let bytes = symbols_of(&rt, rt.alloc(), &records)?;
    let sizes = Sizes {
        symbols: bytes.len(),
        older_lines: 0,
    };
    let info = module_of(&rt, bytes.as_slice(), &sizes)?;
    let ids = ItemFinder::new(rt.alloc(), &IDS)?;
    let types = ItemFinder::new(rt.alloc(), &TYPES)?;
    let definitions = TypeDefinitions::empty(rt.alloc());
    let global = GlobalIds::empty(rt.alloc());
    let names = LineNames::new(&ids, &types, &definitions, &global);
    let mut out = Vec::new(rt.alloc());
    put_symbols_of(rt.alloc(), &mut out, names, None, &info)?;
    let wanted: &[u8] = b"00000004 S_LPROC32_ID parent=- end=00000090 next=- len=33 \
        dbg_start_offset=4 dbg_end_offset=30 type_index=00001001 offset=0001:00000050 flags=- \
        global=false dpc=false i: int\n\
        \x20 0000002d S_LPROC32_DPC_ID parent=- end=00000090 next=- len=33 \
        dbg_start_offset=4 dbg_end_offset=30 type_index=00001000 offset=0001:00000050 flags=- \
        global=false dpc=true j\n\
        \x20   00000056 S_INLINESITE parent=00000004 end=00000060 inlinee=00001001 invocations=- \
        annotations=- ns::ab: int\n\
        \x20     00000066 S_INLINESITE parent=00000004 end=00000060 inlinee=80001001 invocations=- \
        annotations=- ??\n\
        \x20       00000076 S_CONSTANT type_index=00001006 value=-2 managed=false c: volatile unsigned\n\
        \x20       00000083 S_LOCAL type_index=00000000 flags=- z\n";
    is(&rt, "out.as_slice()", &out.as_slice(), &wanted);
    Ok(())
}

/// A record of a compiler for x64, one for a processor whose machine has no registers here, and a range.
const FOR_X64: &[u8] =
    b"\x3c\x11\x00\x00\x00\x00\xd0\x00\x01\x00\x02\x00\x03\x00\x04\x00\x05\x00\x06\x00\x07\x00\x08\x00c\x00";

const FOR_EBC: &[u8] =
    b"\x3c\x11\x00\x00\x00\x00\xe0\x00\x01\x00\x02\x00\x03\x00\x04\x00\x05\x00\x06\x00\x07\x00\x08\x00c\x00";

const FOR_ARM64: &[u8] =
    b"\x3c\x11\x00\x00\x00\x00\xf6\x00\x01\x00\x02\x00\x03\x00\x04\x00\x05\x00\x06\x00\x07\x00\x08\x00c\x00";

const RANGE: &[u8] = b"\x41\x11\x11\x00\x00\x00\x10\x00\x00\x00\x01\x00\x05\x00";

/// The register 17 of the range is this one in a module of these records whose file's header names this machine.
fn register_is(
    rt: &impl Abort,
    alloc: Global,
    header: Option<Machine>,
    records: &[&[u8]],
    wanted: &[u8],
) -> Result<(), Fail> {
    let bytes = symbols_of(rt, alloc, records)?;
    let sizes = Sizes {
        symbols: bytes.len(),
        older_lines: 0,
    };
    let info = module_of(rt, bytes.as_slice(), &sizes)?;
    let none = ItemFinder::empty(alloc);
    let definitions = TypeDefinitions::empty(alloc);
    let global = GlobalIds::empty(alloc);
    let names = LineNames::new(&none, &none, &definitions, &global);
    let mut out = Vec::new(alloc);
    put_symbols_of(alloc, &mut out, names, header, &info)?;
    let start = b"00000004 S_DEFRANGE_REGISTER register=".len();
    is(
        rt,
        "the register",
        &out.get(start..start + wanted.len()).expect(rt, "a line"),
        &wanted,
    );
    Ok(())
}

#[test]
fn registers_by_the_machine_of_a_module(rt: HostRuntime) -> Result<(), Fail> {
    let x86 = Some(Machine::X86);
    let alloc = rt.alloc();
    register_is(&rt, alloc, None, &[RANGE], b"0011 maybe")?;
    register_is(&rt, alloc, x86, &[RANGE], b"eax maybe")?;
    register_is(&rt, alloc, None, &[RANGE, FOR_X64], b"eax maybe")?;
    register_is(&rt, alloc, None, &[RANGE, FOR_ARM64], b"w7 maybe")?;
    register_is(&rt, alloc, x86, &[RANGE, FOR_ARM64], b"w7 maybe")?;
    register_is(&rt, alloc, x86, &[RANGE, FOR_EBC], b"eax maybe")?;
    register_is(&rt, alloc, x86, &[RANGE, FOR_EBC, FOR_ARM64], b"w7 maybe")?;
    register_is(&rt, alloc, x86, &[RANGE, FOR_ARM64, FOR_X64], b"w7 maybe")
}

#[test]
fn refused_symbols(rt: HostRuntime) -> Result<(), Fail> {
    let sizes = Sizes {
        symbols: 4,
        older_lines: 0,
    };
    let info = module_of(&rt, &[5, 0, 0, 0], &sizes)?;
    let none = ItemFinder::empty(rt.alloc());
    let definitions = TypeDefinitions::empty(rt.alloc());
    let global = GlobalIds::empty(rt.alloc());
    let names = LineNames::new(&none, &none, &definitions, &global);
    let mut out = Vec::new(rt.alloc());
    put_symbols_of(rt.alloc(), &mut out, names, None, &info)?;
    put_scopes(rt.alloc(), &mut out, names, None, &info)?;
    let wanted: &[u8] = b"\x00error 2 not supported: Unsupported symbol data format\n\
        \x00error 2 not supported: Unsupported symbol data format\n";
    is(&rt, "out.as_slice()", &out.as_slice(), &wanted);
    Ok(())
}
