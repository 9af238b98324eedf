//! Records as compilers wrote them, and what they say.

use crate::tests::support::{
    at, has_gaps, has_numbers, has_strings, is, parsed, says, says_exactly,
};
use crate::{
    AddressRange, BasePointerRelative, CallSiteInfo, CoffGroup, CookieKind, DefRange,
    DefRangeFramePointerRelative, DefRangeFramePointerRelativeFullScope, DefRangeRegister,
    DefRangeRegisterRelative, DefRangeSubfield, DefRangeSubfieldRegister, EntryKind, FileStatic,
    FrameCookie, FrameFlags, FrameProcedure, Gaps, HeapAllocationSite, HotPatchFunction, JumpTable,
    ManagedProcedure, Oem, PogoData, Record, Relation, Section, TokenReference, VariableFlags,
};
use pdb_base::{Error, IdIndex, RawString, Register, Result, SymbolIndex, TypeIndex};
use pdb_symbols::ProcedureFlags;

/// What a test returns where a record is of another kind than it should be.
const OTHER_RECORD: Error = Error::StreamNameNotFound;

fn frame_flags() -> FrameFlags {
    FrameFlags {
        alloca: false,
        setjmp: false,
        longjmp: false,
        inline_asm: false,
        eh: false,
        inline_spec: false,
        seh: false,
        naked: false,
        security_checks: false,
        async_eh: false,
        gs_no_stack_ordering: false,
        was_inlined: false,
        gs_check: false,
        safe_buffers: false,
        pogo_on: false,
        valid_counts: false,
        opt_speed: false,
        guard_cf: false,
        guard_cfw: false,
    }
}

fn range(offset: u32, len: u16) -> AddressRange {
    AddressRange {
        start: at(1, offset),
        len,
    }
}

#[test]
fn frames_of_procedures(rt: HostRuntime) -> Result<()> {
    let bytes = b"\x12\x10\x68\0\0\0\0\0\0\0\0\0\0\0\x10\0\0\0\0\0\0\0\0\0\0\x42\x05\0";
    let wanted = Record::FrameProcedure(FrameProcedure {
        frame_bytes: 104,
        padding_bytes: 0,
        padding_offset: 0,
        saved_register_bytes: 16,
        exception_handler: at(0, 0),
        flags: FrameFlags {
            async_eh: true,
            pogo_on: true,
            ..frame_flags()
        },
        local_base: 1,
        parameter_base: 1,
    });
    says(&rt, rt.alloc(), "of x64", bytes, &wanted)?;
    let bytes =
        b"\x12\x10\x2c\0\0\0\x02\x01\0\0\x03\0\x01\0\x0c\0\0\0\x05\x04\0\0\x06\0\0\x80\x03\0";
    let wanted = Record::FrameProcedure(FrameProcedure {
        frame_bytes: 44,
        padding_bytes: 258,
        padding_offset: 65539,
        saved_register_bytes: 12,
        exception_handler: at(6, 1029),
        flags: frame_flags(),
        local_base: 2,
        parameter_base: 3,
    });
    says(&rt, rt.alloc(), "of x86", bytes, &wanted)
}

#[test]
fn variables_by_the_base_pointer(rt: HostRuntime) -> Result<()> {
    let bytes = b"\x0b\x11\x08\0\0\0\x74\0\0\0\x61\0";
    let wanted = Record::BasePointerRelative(BasePointerRelative {
        offset: 8,
        type_index: TypeIndex(0x74),
        name: RawString::from("a"),
    });
    says(&rt, rt.alloc(), "0x110b", bytes, &wanted)?;
    let bytes = b"\x06\x10\xfc\xff\xff\xff\x74\x01\x02\x03\x01\x62";
    let wanted = Record::BasePointerRelative(BasePointerRelative {
        offset: -4,
        type_index: TypeIndex(0x0302_0174),
        name: RawString::from("b"),
    });
    says(&rt, rt.alloc(), "0x1006", bytes, &wanted)
}

#[test]
fn variables_of_programs(rt: HostRuntime) -> Result<()> {
    let bytes = b"\x3f\x11\x07\0\0\0\x10\0\0\0\x01\0\x20\0\x04\0\x08\0";
    let Record::DefRange(found) = parsed(bytes)? else {
        return Err(OTHER_RECORD);
    };
    is(&rt, "program", &found.program, &7);
    is(&rt, "range", &found.range, &range(0x10, 32));
    has_gaps(&rt, "one", found.gaps, &[(4, 8)])?;
    let wanted = Record::DefRange(DefRange {
        program: 7,
        range: range(0x10, 32),
        gaps: Gaps::new(b""),
    });
    says_exactly(&rt, "without gaps", &bytes[..14], &wanted);
    let bytes = b"\x40\x11\x07\0\0\0\x04\x01\0\0\x10\0\0\0\x01\0\x20\x02";
    let wanted = Record::DefRangeSubfield(DefRangeSubfield {
        program: 7,
        offset_in_parent: 260,
        range: range(0x10, 544),
        gaps: Gaps::new(b""),
    });
    says_exactly(&rt, "a part", bytes, &wanted);
    Ok(())
}

#[test]
fn variables_in_registers(rt: HostRuntime) -> Result<()> {
    let bytes = b"\x41\x11\x4a\x01\0\0\x10\x01\0\0\x01\0\x17\0\x08\0\x04\0";
    let wanted = Record::DefRangeRegister(DefRangeRegister {
        register: Register(330),
        maybe: false,
        range: range(0x110, 23),
        gaps: Gaps::new(b"\x08\0\x04\0"),
    });
    is(&rt, "with a gap", &parsed(bytes), &Ok(wanted));
    let bytes = b"\x41\x11\x4a\x01\x01\0\x10\x01\0\0\x01\0\x17\0\xf0\0\x01\0\xff";
    let Record::DefRangeRegister(found) = parsed(bytes)? else {
        return Err(OTHER_RECORD);
    };
    is(&rt, "maybe", &found.maybe, &true);
    has_gaps(&rt, "and a byte", found.gaps, &[(240, 1)])?;
    let wanted = Record::DefRangeRegister(DefRangeRegister {
        register: Register(330),
        maybe: true,
        range: range(0x110, 23),
        gaps: Gaps::new(b""),
    });
    says_exactly(&rt, "without gaps", &bytes[..14], &wanted);
    let bytes = b"\x43\x11\x6b\x01\0\0\x04\x30\x02\0\x10\0\0\0\x01\0\x15\0";
    let wanted = Record::DefRangeSubfieldRegister(DefRangeSubfieldRegister {
        register: Register(363),
        maybe: false,
        offset_in_parent: 4,
        range: range(0x10, 21),
        gaps: Gaps::new(b""),
    });
    says_exactly(&rt, "a part", bytes, &wanted);
    let bytes =
        b"\x43\x11\x6b\x01\x03\0\xff\xff\xff\xff\x10\0\0\0\x01\0\x15\0\x01\0\x02\0\x03\0\x04\0";
    let Record::DefRangeSubfieldRegister(found) = parsed(bytes)? else {
        return Err(OTHER_RECORD);
    };
    is(&rt, "maybe", &found.maybe, &true);
    is(&rt, "twelve bits", &found.offset_in_parent, &0xfff);
    has_gaps(&rt, "two", found.gaps, &[(1, 2), (3, 4)])
}

#[test]
fn variables_by_frames_and_registers(rt: HostRuntime) -> Result<()> {
    let bytes = b"\x42\x11\xf4\xff\xff\xff\x56\x11\0\0\x01\0\x47\x01";
    let wanted = Record::DefRangeFramePointerRelative(DefRangeFramePointerRelative {
        offset: -12,
        range: range(0x1156, 327),
        gaps: Gaps::new(b""),
    });
    says_exactly(&rt, "by the frame", bytes, &wanted);
    let bytes = b"\x44\x11\x28\0\0\0";
    let wanted = Record::DefRangeFramePointerRelativeFullScope(
        DefRangeFramePointerRelativeFullScope { offset: 40 },
    );
    says(&rt, rt.alloc(), "in the whole scope", bytes, &wanted)?;
    let bytes = b"\x45\x11\x4f\x01\x41\0\x28\0\0\0\x10\0\0\0\x01\0\x15\0";
    let mut register_relative = DefRangeRegisterRelative {
        register: Register(335),
        subfield: Some(4),
        offset: 40,
        range: range(0x10, 21),
        gaps: Gaps::new(b""),
    };
    let wanted = Record::DefRangeRegisterRelative(register_relative);
    says_exactly(&rt, "a part by a register", bytes, &wanted);
    let bytes = b"\x45\x11\x51\0\xf0\xff\x88\x01\0\0\x40\x01\0\0\x01\0\xb0\x01";
    register_relative = DefRangeRegisterRelative {
        register: Register(81),
        subfield: None,
        offset: 392,
        range: range(0x140, 432),
        gaps: Gaps::new(b""),
    };
    let wanted = Record::DefRangeRegisterRelative(register_relative);
    says_exactly(&rt, "a whole one", bytes, &wanted);
    Ok(())
}

#[test]
fn statics_and_cookies(rt: HostRuntime) -> Result<()> {
    let bytes = b"\x53\x11\x22\0\0\0\xc0\x30\0\0\0\x06\x67\0";
    let wanted = Record::FileStatic(FileStatic {
        type_index: TypeIndex(0x22),
        module_file: 12480,
        flags: VariableFlags {
            param: false,
            addrtaken: false,
            compgenx: false,
            aggregate: false,
            aggregated: false,
            aliased: false,
            alias: false,
            retvalue: false,
            optimizedout: false,
            enreg_glob: true,
            enreg_stat: true,
        },
        name: RawString::from("g"),
    });
    says(&rt, rt.alloc(), "a static", bytes, &wanted)?;
    let bytes = b"\x3a\x11\x38\0\0\0\x4f\x01\x01\x07";
    let wanted = Record::FrameCookie(FrameCookie {
        offset: 56,
        register: Register(335),
        cookie: CookieKind::XorStackPointer,
        flags: 7,
    });
    says(&rt, rt.alloc(), "a cookie", bytes, &wanted)
}

#[test]
fn calls_that_are_listed(rt: HostRuntime) -> Result<()> {
    let bytes = b"\x39\x11\x0d\x10\0\0\x01\0\x07\x08\xab\x10\0\0";
    let wanted = Record::CallSiteInfo(CallSiteInfo {
        offset: at(1, 0x100d),
        type_index: TypeIndex(0x10ab),
    });
    says(&rt, rt.alloc(), "a call", bytes, &wanted)?;
    let bytes = b"\x5e\x11\x44\x9f\0\0\x01\0\x05\0\x03\0\0\0";
    let wanted = Record::HeapAllocationSite(HeapAllocationSite {
        offset: at(1, 0x9f44),
        instruction_bytes: 5,
        type_index: TypeIndex(3),
    });
    says(&rt, rt.alloc(), "an allocation", bytes, &wanted)?;
    let bytes = b"\x69\x11\x02\x10\0\0\x68\0";
    let wanted = Record::HotPatchFunction(HotPatchFunction {
        id: IdIndex(0x1002),
        name: RawString::from("h"),
    });
    says(&rt, rt.alloc(), "a patched one", bytes, &wanted)
}

#[test]
fn lists_of_functions(rt: HostRuntime) -> Result<()> {
    let rows: [(&[u8], Relation, &[u32], &[u32]); 4] = [
        (
            b"\x5a\x11\x02\0\0\0\x07\x11\0\0\x08\x11\0\0\x05\0\0\0",
            Relation::Callees,
            &[0x1107, 0x1108],
            &[5],
        ),
        (
            b"\x68\x11\x01\0\0\0\x5f\x10\0\0",
            Relation::Inlinees,
            &[0x105f],
            &[],
        ),
        (
            b"\x5b\x11\x01\0\0\0\x5f\x10\0\0\x04\x03\x02\x01\x05\0\0\0",
            Relation::Callers,
            &[0x105f],
            &[0x0102_0304],
        ),
        (b"\x5a\x11\0\0\0\0\x05\0\0\0", Relation::Callees, &[], &[]),
    ];
    for (bytes, relation, functions, invocations) in rows {
        let Record::FunctionList(found) = parsed(bytes)? else {
            return Err(OTHER_RECORD);
        };
        is(&rt, "relation", &found.relation, &relation);
        has_numbers(&rt, "functions", found.functions, functions)?;
        has_numbers(&rt, "invocations", found.invocations, invocations)?;
        for k in 2..6 + 4 * functions.len() {
            is(&rt, "cut", &parsed(&bytes[..k]), &Err(Error::UnexpectedEof));
        }
    }
    Ok(())
}

#[test]
fn jumps_by_tables(rt: HostRuntime) -> Result<()> {
    let bytes = b"\x59\x11\x5c\0\0\0\x02\0\x04\0\xb9\x04\0\0\x5d\0\0\0\x01\0\x03\0\x07\x01\0\0";
    let wanted = Record::JumpTable(JumpTable {
        base: at(2, 0x5c),
        entry_kind: EntryKind::Int4,
        branch: at(1, 0x4b9),
        table: at(3, 0x5d),
        entries: 263,
    });
    says(&rt, rt.alloc(), "a table", bytes, &wanted)
}

#[test]
fn parts_of_the_image(rt: HostRuntime) -> Result<()> {
    let bytes = b"\x37\x11\x17\x10\0\0\x20\0\0\x60\x01\x02\0\0\x01\0\x2etext\0";
    let wanted = Record::CoffGroup(CoffGroup {
        len: 4119,
        characteristics: 0x6000_0020,
        offset: at(1, 0x201),
        name: RawString::from(".text"),
    });
    says(&rt, rt.alloc(), "a group", bytes, &wanted)?;
    let bytes = b"\x36\x11\x01\0\x0c\x05\0\x10\0\0\x17\x10\0\0\x20\0\0\x60\x2etext\0";
    let wanted = Record::Section(Section {
        section: 1,
        alignment: 12,
        address: 0x1000,
        len: 4119,
        characteristics: 0x6000_0020,
        name: RawString::from(".text"),
    });
    says(&rt, rt.alloc(), "a section", bytes, &wanted)
}

#[test]
fn environments(rt: HostRuntime) -> Result<()> {
    let rows: [(&[u8], bool, &[&[u8]]); 5] = [
        (b"\x3d\x11\0cwd\0C:\0\0", false, &[b"cwd", b"C:"]),
        (b"\x3d\x11\x01cwd\0C:\0", true, &[b"cwd", b"C:"]),
        (b"\x3d\x11\x02\0x\0", false, &[]),
        (b"\x3d\x11\0", false, &[]),
        (b"\x3d\x11\0a\0\0b", false, &[b"a"]),
    ];
    for (bytes, rev, strings) in rows {
        let Record::EnvironmentBlock(found) = parsed(bytes)? else {
            return Err(OTHER_RECORD);
        };
        is(&rt, "rev", &found.rev, &rev);
        has_strings(&rt, "strings", found.strings, strings)?;
    }
    for bytes in [&b"\x3d\x11"[..], b"\x3d\x11\0cw", b"\x3d\x11\0cwd\0C:"] {
        is(&rt, "cut", &parsed(bytes), &Err(Error::UnexpectedEof));
    }
    Ok(())
}

#[test]
fn annotations(rt: HostRuntime) -> Result<()> {
    let bytes = b"\x19\x10\x10\0\0\0\x01\0\x02\0one\0two\0";
    let Record::Annotation(found) = parsed(bytes)? else {
        return Err(OTHER_RECORD);
    };
    is(&rt, "offset", &found.offset, &at(1, 0x10));
    has_strings(&rt, "strings", found.strings, &[b"one", b"two"])?;
    for k in 2..bytes.len() {
        is(&rt, "cut", &parsed(&bytes[..k]), &Err(Error::UnexpectedEof));
    }
    let bytes = b"\x19\x10\x10\0\0\0\x01\0\x02\0\0two\0x\0";
    let Record::Annotation(found) = parsed(bytes)? else {
        return Err(OTHER_RECORD);
    };
    has_strings(&rt, "an empty one", found.strings, &[b"", b"two"])
}

#[test]
fn profiles(rt: HostRuntime) -> Result<()> {
    let bytes = b"\x5c\x11\x02\0\0\0\xff\xff\xff\xff\xff\xff\xff\xff\x03\0\0\0\x04\0\0\0";
    let mut profile = PogoData {
        invocations: 2,
        dynamic_count: -1,
        instructions: 3,
        live_instructions: 4,
    };
    says(&rt, rt.alloc(), "-1", bytes, &Record::PogoData(profile))?;
    let bytes = b"\x5c\x11\x02\0\0\0\x01\x02\x03\x04\x05\x06\x07\x08\x03\0\0\0\x04\0\0\0";
    profile.dynamic_count = 0x0807_0605_0403_0201;
    says(&rt, rt.alloc(), "more", bytes, &Record::PogoData(profile))
}

#[test]
fn managed_procedures(rt: HostRuntime) -> Result<()> {
    let body =
        b"\x04\x01\0\0\x68\0\0\0\0\0\0\0\x0d\0\0\0\x01\0\0\0\x0c\0\0\0\x01\0\0\x06\x05\0\0\0\x01\0\x81\x11\0";
    let rows: [(u16, bool, &[u8]); 4] = [
        (0x112a, true, b"Main\0"),
        (0x112b, false, b"Main\0"),
        (0x101a, true, b"\x04Main"),
        (0x101b, false, b"\x04Main"),
    ];
    for (kind, global, name) in rows {
        let mut bytes = Vec::new(rt.alloc());
        bytes.extend_from_slice(&kind.to_le_bytes())?;
        bytes.extend_from_slice(body)?;
        bytes.extend_from_slice(name)?;
        let wanted = Record::ManagedProcedure(ManagedProcedure {
            global,
            parent: Some(SymbolIndex(260)),
            end: SymbolIndex(0x68),
            next: None,
            len: 13,
            dbg_start_offset: 1,
            dbg_end_offset: 12,
            token: 0x0600_0001,
            offset: at(1, 5),
            flags: ProcedureFlags {
                nofpo: true,
                int: false,
                far: false,
                never: false,
                notreached: false,
                cust_call: false,
                noinline: false,
                optdbginfo: true,
            },
            return_register: Register(17),
            name: RawString::from("Main"),
        });
        says(&rt, rt.alloc(), "a procedure", &bytes, &wanted)?;
    }
    Ok(())
}

#[test]
fn tokens(rt: HostRuntime) -> Result<()> {
    let bytes = b"\x29\x11\x05\0\0\0\x04\0\0\0\x01\0\x30600\0";
    let mut reference = TokenReference {
        sum_name: 5,
        symbol_index: SymbolIndex(4),
        module: Some(0),
        name: RawString::from("0600"),
    };
    let wanted = Record::TokenReference(reference);
    says(&rt, rt.alloc(), "of a module", bytes, &wanted)?;
    reference.module = None;
    let bytes = b"\x29\x11\x05\0\0\0\x04\0\0\0\0\0\x30600\0";
    let wanted = Record::TokenReference(reference);
    says(&rt, rt.alloc(), "of none", bytes, &wanted)
}

#[test]
fn records_of_other_makers(rt: HostRuntime) -> Result<()> {
    let bytes =
        b"\x04\x04\xc9\x3f\xea\xc6\xb3\x59\xd6\x49\xbc\x25\x09\x02\xbb\xab\xb4\x60\x01\x02\x03\x04\x4d\0\x44\0\x32\0";
    let wanted = Record::Oem(Oem {
        id: &bytes[2..18],
        type_index: TypeIndex(0x0403_0201),
        content: b"\x4d\0\x44\0\x32\0",
    });
    is(&rt, "with content", &parsed(bytes), &Ok(wanted));
    let wanted = Record::Oem(Oem {
        id: &bytes[2..18],
        type_index: TypeIndex(0x0403_0201),
        content: b"",
    });
    says_exactly(&rt, "without", &bytes[..22], &wanted);
    Ok(())
}
