//! Records of older compilers, of managed code and of accelerators, and what they say.

use crate::tests::support::{at, is, parsed, record, says, says_exactly};
use crate::{
    Attributes, Compile, Discard, Discarded, LocalGroupShared, ManagedFrameRelative,
    ManagedRegister, ManagedRegisterRelative, ManagedSlot, MiniReference, MiniReferenceFlags,
    ModuleTypeFlags, ModuleTypeReference, PointerTag, Record, RegisterRelativeOld, Slot,
    StartSearch, VariableFlags, VirtualTablePath, With,
};
use pdb_base::{Error, FallibleIterator, RawString, Register, Result, SymbolIndex, TypeIndex};

/// What a test returns where a record is of another kind than it should be.
const OTHER_RECORD: Error = Error::StreamNameNotFound;

fn param() -> VariableFlags {
    VariableFlags {
        param: true,
        addrtaken: false,
        compgenx: false,
        aggregate: false,
        aggregated: false,
        aliased: false,
        alias: false,
        retvalue: false,
        optimizedout: false,
        enreg_glob: false,
        enreg_stat: false,
    }
}

// The name "x" as records of a kind have it.
fn name_of(kind: u16) -> &'static [u8] {
    if kind < 0x1100 { b"\x01x" } else { b"x\0" }
}

#[test]
fn slots(rt: HostRuntime) -> Result<()> {
    let rows = [
        (0x111a, false),
        (0x111b, true),
        (0x1017, false),
        (0x1018, true),
    ];
    for (kind, param) in rows {
        let body = b"\x02\x01\0\0\x74\0\0\x03";
        let bytes = record(rt.alloc(), kind, body, name_of(kind))?;
        let wanted = Record::Slot(Slot {
            param,
            slot: 258,
            type_index: TypeIndex(0x0300_0074),
            name: RawString::from("x"),
        });
        says(&rt, rt.alloc(), "a slot", &bytes, &wanted)?;
    }
    Ok(())
}

#[test]
fn managed_variables(rt: HostRuntime) -> Result<()> {
    let attributes = Attributes {
        live: at(2, 0x0304),
        flags: param(),
    };
    for kind in [0x1120, 0x1024] {
        let body = b"\x02\0\0\0\x74\0\0\0\x04\x03\0\0\x02\0\x01\0";
        let bytes = record(rt.alloc(), kind, body, name_of(kind))?;
        let wanted = Record::ManagedSlot(ManagedSlot {
            slot: 2,
            type_index: TypeIndex(0x74),
            attributes,
            name: RawString::from("x"),
        });
        says(&rt, rt.alloc(), "a slot", &bytes, &wanted)?;
    }
    for kind in [0x111e, 0x1022, 0x112e] {
        let body = b"\xf8\xff\xff\xff\x74\0\0\0\x04\x03\0\0\x02\0\x01\0";
        let bytes = record(rt.alloc(), kind, body, name_of(kind))?;
        let wanted = Record::ManagedFrameRelative(ManagedFrameRelative {
            offset: -8,
            type_index: TypeIndex(0x74),
            attributes,
            name: RawString::from("x"),
        });
        says(&rt, rt.alloc(), "by the frame", &bytes, &wanted)?;
    }
    for kind in [0x111f, 0x1023, 0x112f] {
        let body = b"\x74\0\0\0\x04\x03\0\0\x02\0\x01\0\x4a\x01";
        let bytes = record(rt.alloc(), kind, body, name_of(kind))?;
        let wanted = Record::ManagedRegister(ManagedRegister {
            type_index: TypeIndex(0x74),
            attributes,
            register: Register(330),
            name: RawString::from("x"),
        });
        says(&rt, rt.alloc(), "in a register", &bytes, &wanted)?;
    }
    for kind in [0x1122, 0x1026, 0x1130] {
        let body = b"\xf8\xff\xff\xff\x74\0\0\0\x4a\x01\x04\x03\0\0\x02\0\x01\0";
        let bytes = record(rt.alloc(), kind, body, name_of(kind))?;
        let wanted = Record::ManagedRegisterRelative(ManagedRegisterRelative {
            offset: -8,
            type_index: TypeIndex(0x74),
            register: Register(330),
            attributes,
            name: RawString::from("x"),
        });
        says(&rt, rt.alloc(), "by a register", &bytes, &wanted)?;
    }
    Ok(())
}

#[test]
fn records_of_older_compilers(rt: HostRuntime) -> Result<()> {
    let wanted = Record::RegisterRelativeOld(RegisterRelativeOld {
        offset: -8,
        type_index: TypeIndex(0x74),
        register: Register(330),
        name: RawString::from("x"),
    });
    let bytes = b"\x0d\x10\xf8\xff\xff\xff\x74\0\0\0\x4a\x01\x01x";
    says(&rt, rt.alloc(), "by a register", bytes, &wanted)?;
    for kind in [0x1104, 0x0208] {
        let body = b"\x04\x01\0\0\x08\x02\0\0\x0c\x03\0\0\x10\x04\0\0\x05\0";
        let bytes = record(rt.alloc(), kind, body, name_of(kind))?;
        let wanted = Record::With(With {
            parent: Some(SymbolIndex(260)),
            end: SymbolIndex(520),
            len: 780,
            offset: at(5, 1040),
            name: RawString::from("x"),
        });
        says(&rt, rt.alloc(), "with", &bytes, &wanted)?;
    }
    let bytes = b"\x0c\x10\x04\x10\0\0\x08\x20\0\0\x10\x04\0\0\x05\0";
    let wanted = Record::VirtualTablePath(VirtualTablePath {
        root: TypeIndex(0x1004),
        path: TypeIndex(0x2008),
        offset: at(5, 1040),
    });
    says(&rt, rt.alloc(), "a path", bytes, &wanted)?;
    let bytes = b"\x01\0\x07\x01\x03\x04\x02ab";
    let wanted = Record::Compile(Compile {
        cpu: 7,
        language: 1,
        flags: 0x0403,
        name: RawString::from("ab"),
    });
    says(&rt, rt.alloc(), "a compiler", bytes, &wanted)?;
    let bytes = b"\x05\0\x04\x03\x02\x01\x05\x06";
    let wanted = Record::StartSearch(StartSearch {
        start: SymbolIndex(0x0102_0304),
        section: 0x0605,
    });
    says(&rt, rt.alloc(), "a search", bytes, &wanted)?;
    says(
        &rt,
        rt.alloc(),
        "the end",
        b"\x0a\0",
        &Record::EndOfArguments,
    )
}

#[test]
fn what_was_discarded(rt: HostRuntime) -> Result<()> {
    let rows = [
        (0, Discard::NotSaid),
        (1, Discard::NotSelected),
        (2, Discard::NotReferenced),
        (3, Discard::Unknown(3)),
    ];
    for (number, why) in rows {
        let bytes = [
            0x3b, 0x11, number, 7, 0, 0, 2, 1, 0, 0, 10, 0, 3, 0, 0, 0x11,
        ];
        let wanted = Record::Discarded(Discarded {
            why,
            file: 258,
            line: 0x0003_000a,
            content: b"\0\x11",
        });
        is(&rt, "with content", &parsed(&bytes), &Ok(wanted));
        let wanted = Record::Discarded(Discarded {
            why,
            file: 258,
            line: 0x0003_000a,
            content: b"",
        });
        says_exactly(&rt, "without", &bytes[..14], &wanted);
    }
    Ok(())
}

#[test]
fn references_of_modules(rt: HostRuntime) -> Result<()> {
    let bytes = b"\x5f\x11\x12\0\0\0\x01\x02\x03\x04";
    let wanted = Record::ModuleTypeReference(ModuleTypeReference {
        flags: ModuleTypeFlags {
            none: false,
            ref_tmpct: true,
            own_tmpct: false,
            own_tmr: false,
            own_tm: true,
            ref_tm: false,
        },
        word0: 0x0201,
        word1: 0x0403,
    });
    says(&rt, rt.alloc(), "types", bytes, &wanted)?;
    let bytes = b"\x5f\x11\x2d\0\0\0\x01\x02\x03\x04";
    let wanted = Record::ModuleTypeReference(ModuleTypeReference {
        flags: ModuleTypeFlags {
            none: true,
            ref_tmpct: false,
            own_tmpct: true,
            own_tmr: true,
            own_tm: false,
            ref_tm: true,
        },
        word0: 0x0201,
        word1: 0x0403,
    });
    says(&rt, rt.alloc(), "other types", bytes, &wanted)?;
    for bit in 0..16u32 {
        let [low, high, _, _] = 1u32.wrapping_shl(bit).to_le_bytes();
        let bytes = [0x60, 0x11, 4, 3, 2, 1, 5, 0, low, high, 0x78, 0];
        let wanted = Record::MiniReference(MiniReference {
            value: 0x0102_0304,
            module: Some(4),
            flags: MiniReferenceFlags {
                local: bit == 0,
                data: bit == 1,
                udt: bit == 2,
                label: bit == 3,
                constant: bit == 4,
            },
            name: RawString::from("x"),
        });
        says(&rt, rt.alloc(), "a reference", &bytes, &wanted)?;
    }
    Ok(())
}

#[test]
fn variables_of_accelerators(rt: HostRuntime) -> Result<()> {
    let bytes = b"\x54\x11\x74\0\0\0\x01\0\x02\x03\x04\x05x\0";
    let wanted = Record::LocalGroupShared(LocalGroupShared {
        type_index: TypeIndex(0x74),
        flags: param(),
        data_slot: 0x0302,
        data_offset: 0x0504,
        name: RawString::from("x"),
    });
    says(&rt, rt.alloc(), "shared", bytes, &wanted)?;
    let bytes = b"\x58\x11\x01\x02\0\0\xfc\xff\xff\xff\x05\0\0\0\x06\0\0\0\x07\0\0\0";
    let Record::PointerTagMap(found) = parsed(bytes)? else {
        return Err(OTHER_RECORD);
    };
    is(&rt, "tags", &found.tags.len(), &2);
    is(&rt, "empty", &found.tags.is_empty(), &false);
    let mut it = found.tags.iter();
    let first = PointerTag {
        tag: 513,
        record_offset: -4,
    };
    let second = PointerTag {
        tag: 5,
        record_offset: 6,
    };
    is(&rt, "first", &it.next(), &Ok(Some(first)));
    is(&rt, "second", &it.next(), &Ok(Some(second)));
    is(&rt, "none", &it.next(), &Ok(None));
    let Record::PointerTagMap(none) = parsed(b"\x58\x11\x01\x02\0\0\xfc\xff\xff")? else {
        return Err(OTHER_RECORD);
    };
    is(&rt, "no tag", &none.tags.is_empty(), &true);
    is(&rt, "none", &none.tags.iter().next(), &Ok(None));
    Ok(())
}
