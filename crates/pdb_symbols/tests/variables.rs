//! Data and types.

use crate::tests::support::{OTHER_FORM, is, is_alone, is_refused, parsed, record, says_exactly};
use crate::{
    ConstantSymbol, DataSymbol, LocalSymbol, LocalVariableFlags, MultiRegisterVariableSymbol,
    PublicSymbol, RegisterRelativeSymbol, RegisterVariableSymbol, SymbolData, ThreadStorageSymbol,
    UserDefinedTypeSymbol,
};
use pdb_base::{Error, PdbInternalSectionOffset, RawString, Register, Result, TypeIndex, Variant};
use std::alloc::Global;

fn public(flags: [bool; 4], section: u16, offset: u32) -> SymbolData<'static> {
    let [code, function, managed, msil] = flags;
    SymbolData::Public(PublicSymbol {
        code,
        function,
        managed,
        msil,
        offset: PdbInternalSectionOffset::new(section, offset),
        name: RawString::from("a"),
    })
}

#[test]
fn publics_have_four_flags_and_a_place(rt: HostRuntime) -> Result<()> {
    let rows: [(&str, &[u8], [bool; 4], u16, u32); 6] = [
        (
            "a function",
            b"\x0e\x11\x02\x00\x00\x00\xc0\x55\x00\x00\x01\x00\x61\x00",
            [false, true, false, false],
            1,
            21952,
        ),
        (
            "all but a function",
            b"\x09\x10\xfd\xff\xff\xff\x01\x00\x00\x00\x02\x00\x01\x61",
            [true, false, true, true],
            2,
            1,
        ),
        (
            "code",
            b"\x0e\x11\x01\x00\x00\x00\x04\x03\x02\x01\x06\x05\x61\x00",
            [true, false, false, false],
            0x506,
            0x1020304,
        ),
        (
            "managed",
            b"\x0e\x11\x04\x00\x00\x00\x04\x03\x02\x01\x06\x05\x61\x00",
            [false, false, true, false],
            0x506,
            0x1020304,
        ),
        (
            "msil",
            b"\x09\x10\x08\x00\x00\x00\x04\x03\x02\x01\x06\x05\x01\x61",
            [false, false, false, true],
            0x506,
            0x1020304,
        ),
        (
            "no flag",
            b"\x0e\x11\x10\x00\x00\x00\x04\x03\x02\x01\x06\x05\x61\x00",
            [false, false, false, false],
            0x506,
            0x1020304,
        ),
    ];
    for (label, bytes, flags, section, offset) in rows {
        says_exactly(
            &rt,
            rt.alloc(),
            label,
            bytes,
            &public(flags, section, offset),
            Some("a"),
        )?;
    }
    Ok(())
}

#[test]
fn user_defined_types_name_a_type(rt: HostRuntime) -> Result<()> {
    let rows: [(u16, &[u8]); 4] = [
        (0x1108, b"\x61\x00"),
        (0x1109, b"\x61\x00"),
        (0x1003, b"\x01\x61"),
        (0x1004, b"\x01\x61"),
    ];
    for (kind, name) in rows {
        let bytes = record(rt.alloc(), kind, b"\x70\x06\x00\x00", name)?;
        let wanted = SymbolData::UserDefinedType(UserDefinedTypeSymbol {
            type_index: TypeIndex(1648),
            name: RawString::from("a"),
        });
        says_exactly(&rt, rt.alloc(), "a type's name", &bytes, &wanted, Some("a"))?;
    }
    Ok(())
}

fn constant(managed: bool, index: u32, value: Variant) -> SymbolData<'static> {
    SymbolData::Constant(ConstantSymbol {
        managed,
        type_index: TypeIndex(index),
        value,
        name: RawString::from("a"),
    })
}

#[test]
fn constants_have_their_value_behind_a_prefix(rt: HostRuntime) -> Result<()> {
    let rows: [(&str, &[u8], SymbolData<'_>); 11] = [
        (
            "prefix 0x8000",
            b"\x07\x11\x74\x00\x00\x00\x00\x80\xff\x61\x00",
            constant(false, 0x74, Variant::U8(255)),
        ),
        (
            "prefix 0x8003",
            b"\x07\x11\x74\x00\x00\x00\x03\x80\xff\xff\xff\xff\x61\x00",
            constant(false, 0x74, Variant::I32(-1)),
        ),
        (
            "the prefix itself",
            b"\x07\x11\xc9\x12\x00\x00\x01\x00\x61\x00",
            constant(false, 4809, Variant::U16(1)),
        ),
        (
            "the greatest prefix that is the value",
            b"\x07\x11\x74\x00\x00\x00\xff\x7f\x61\x00",
            constant(false, 0x74, Variant::U16(0x7fff)),
        ),
        (
            "prefix 0x8002",
            b"\x02\x10\x74\x00\x00\x00\x02\x80\xff\xff\x01\x61",
            constant(false, 0x74, Variant::U16(65535)),
        ),
        (
            "prefix 0x8002 of a small value",
            b"\x07\x11\x74\x00\x00\x00\x02\x80\x01\x00\x61\x00",
            constant(false, 0x74, Variant::U16(1)),
        ),
        (
            "prefix 0x800a",
            b"\x2d\x11\x74\x00\x00\x00\x0a\x80\x01\x02\x03\x04\x05\x06\x07\x08\x61\x00",
            constant(true, 0x74, Variant::U64(0x0807060504030201)),
        ),
        (
            "prefix 0x8001",
            b"\x07\x11\x74\x00\x00\x00\x01\x80\xfe\xff\x61\x00",
            constant(false, 0x74, Variant::I16(-2)),
        ),
        (
            "prefix 0x8004",
            b"\x07\x11\x74\x00\x00\x00\x04\x80\x04\x03\x02\x81\x61\x00",
            constant(false, 0x74, Variant::U32(0x81020304)),
        ),
        (
            "prefix 0x8009",
            b"\x2d\x11\x74\x00\x00\x00\x09\x80\xfd\xff\xff\xff\xff\xff\xff\xff\x61\x00",
            constant(true, 0x74, Variant::I64(-3)),
        ),
        (
            "a value of kind 0x1002",
            b"\x02\x10\x21\x43\x00\x00\x05\x00\x01\x61",
            constant(false, 0x4321, Variant::U16(5)),
        ),
    ];
    for (label, bytes, wanted) in &rows {
        says_exactly(&rt, rt.alloc(), label, bytes, wanted, Some("a"))?;
    }
    Ok(())
}

#[test]
fn a_constants_prefix_is_refused_only_where_it_is_there(rt: HostRuntime) {
    let rows: [(&str, &[u8], Error); 6] = [
        (
            "0x8005",
            b"\x07\x11\x74\x00\x00\x00\x05\x80",
            Error::UnexpectedNumericPrefix(0x8005),
        ),
        (
            "0x8008",
            b"\x02\x10\x74\x00\x00\x00\x08\x80\x00\x00",
            Error::UnexpectedNumericPrefix(0x8008),
        ),
        (
            "0x800b",
            b"\x2d\x11\x74\x00\x00\x00\x0b\x80\x00\x00",
            Error::UnexpectedNumericPrefix(0x800b),
        ),
        (
            "0xffff",
            b"\x07\x11\x74\x00\x00\x00\xff\xff",
            Error::UnexpectedNumericPrefix(0xffff),
        ),
        (
            "half a prefix",
            b"\x07\x11\x74\x00\x00\x00\x05",
            Error::UnexpectedEof,
        ),
        (
            "half a value",
            b"\x07\x11\x74\x00\x00\x00\x03\x80\xff",
            Error::UnexpectedEof,
        ),
    ];
    for (label, bytes, wanted) in rows {
        is_refused(&rt, rt.alloc(), label, bytes, wanted);
    }
}

#[test]
fn data_is_global_or_managed_by_its_kind(rt: HostRuntime) -> Result<()> {
    let rows: [(u16, bool, bool, &[u8]); 8] = [
        (0x110c, false, false, b"\x61\x00"),
        (0x1007, false, false, b"\x01\x61"),
        (0x110d, true, false, b"\x61\x00"),
        (0x1008, true, false, b"\x01\x61"),
        (0x111c, false, true, b"\x61\x00"),
        (0x1020, false, true, b"\x01\x61"),
        (0x111d, true, true, b"\x61\x00"),
        (0x1021, true, true, b"\x01\x61"),
    ];
    for (kind, global, managed, name) in rows {
        let bytes = record(
            rt.alloc(),
            kind,
            b"\x74\x00\x00\x00\xf0\x24\x01\x00\x02\x00",
            name,
        )?;
        let wanted = SymbolData::Data(DataSymbol {
            global,
            managed,
            type_index: TypeIndex(116),
            offset: PdbInternalSectionOffset::new(2, 74992),
            name: RawString::from("a"),
        });
        says_exactly(&rt, rt.alloc(), "data", &bytes, &wanted, Some("a"))?;
    }
    Ok(())
}

#[test]
fn thread_storage_is_global_by_its_kind(rt: HostRuntime) -> Result<()> {
    let rows: [(u16, bool, &[u8]); 4] = [
        (0x1112, false, b"\x61\x00"),
        (0x100e, false, b"\x01\x61"),
        (0x1113, true, b"\x61\x00"),
        (0x100f, true, b"\x01\x61"),
    ];
    for (kind, global, name) in rows {
        let bytes = record(
            rt.alloc(),
            kind,
            b"\x74\x00\x00\x00\x10\x00\x00\x00\x03\x00",
            name,
        )?;
        let wanted = SymbolData::ThreadStorage(ThreadStorageSymbol {
            global,
            type_index: TypeIndex(116),
            offset: PdbInternalSectionOffset::new(3, 16),
            name: RawString::from("a"),
        });
        says_exactly(
            &rt,
            rt.alloc(),
            "thread storage",
            &bytes,
            &wanted,
            Some("a"),
        )?;
    }
    Ok(())
}

#[test]
fn variables_in_a_register_have_no_name_of_their_own(rt: HostRuntime) -> Result<()> {
    let rows: [(u16, &[u8]); 2] = [(0x1106, b"\x61\x00"), (0x1001, b"\x01\x61")];
    for (kind, name) in rows {
        let bytes = record(rt.alloc(), kind, b"\x78\x22\x00\x00\x12\x00", name)?;
        let wanted = SymbolData::RegisterVariable(RegisterVariableSymbol {
            type_index: TypeIndex(8824),
            register: Register(18),
            name: RawString::from("a"),
        });
        says_exactly(&rt, rt.alloc(), "a register", &bytes, &wanted, None)?;
    }
    Ok(())
}

#[test]
fn register_relative_offsets_have_a_sign(rt: HostRuntime) -> Result<()> {
    let rows: [(&str, &[u8], i32); 2] = [
        (
            "before",
            b"\x11\x11\x0c\x00\x00\x00\x30\x10\x00\x00\x16\x00\x61\x00",
            12,
        ),
        (
            "behind",
            b"\x11\x11\xf4\xff\xff\xff\x30\x10\x00\x00\x16\x00\x61\x00",
            -12,
        ),
    ];
    for (label, bytes, offset) in rows {
        let wanted = SymbolData::RegisterRelative(RegisterRelativeSymbol {
            offset,
            type_index: TypeIndex(0x1030),
            register: Register(22),
            name: RawString::from("a"),
        });
        says_exactly(&rt, rt.alloc(), label, bytes, &wanted, Some("a"))?;
    }
    Ok(())
}

fn local_flags(flags: LocalVariableFlags) -> [bool; 10] {
    [
        flags.isparam,
        flags.addrtaken,
        flags.compgenx,
        flags.isaggregate,
        flags.isaliased,
        flags.isalias,
        flags.isretvalue,
        flags.isoptimizedout,
        flags.isenreg_glob,
        flags.isenreg_stat,
    ]
}

#[test]
fn locals_have_ten_flags(rt: HostRuntime) -> Result<()> {
    let bits: [u16; 10] = [1, 2, 4, 8, 16, 32, 64, 128, 256, 512];
    for (k, bit) in bits.iter().enumerate() {
        let bytes = record(rt.alloc(), 0x113e, b"\xc1\x13\x00\x00", &bit.to_le_bytes())?;
        let mut bytes = bytes;
        bytes.extend_from_slice(b"\x61\x00")?;
        let SymbolData::Local(local) = parsed(rt.alloc(), &bytes)? else {
            return Err(OTHER_FORM);
        };
        is_alone(&rt, "a flag", &local_flags(local.flags), k);
        is(&rt, "the type", &local.type_index, &TypeIndex(5057));
        let wanted = SymbolData::Local(local);
        says_exactly(
            &rt,
            rt.alloc(),
            "a local variable",
            &bytes,
            &wanted,
            Some("a"),
        )?;
    }
    let unlisted = parsed(rt.alloc(), b"\x3e\x11\xc1\x13\x00\x00\x00\xfc\x61\x00")?;
    let SymbolData::Local(local) = unlisted else {
        return Err(OTHER_FORM);
    };
    is(&rt, "no other bit", &local_flags(local.flags), &[false; 10]);
    Ok(())
}

fn registers(
    alloc: Global,
    list: &[(Register, RawString<'static>)],
) -> Result<SymbolData<'static>> {
    let mut registers = Vec::new(alloc);
    registers.extend_from_slice(list)?;
    Ok(SymbolData::MultiRegisterVariable(MultiRegisterVariableSymbol {
        type_index: TypeIndex(0x74),
        registers,
    }))
}

#[test]
fn variables_in_several_registers_list_them(rt: HostRuntime) -> Result<()> {
    let a = (Register(17), RawString::from("a"));
    let b = (Register(18), RawString::from("b"));
    let rows: [(&str, &[u8], &[(Register, RawString<'static>)]); 6] = [
        (
            "a count of one byte",
            b"\x05\x10\x74\x00\x00\x00\x02\x11\x00\x01\x61\x12\x00\x01\x62",
            &[a, b],
        ),
        (
            "a count of two bytes",
            b"\x17\x11\x74\x00\x00\x00\x01\x00\x11\x00\x61\x00",
            &[a],
        ),
        (
            "kind 0x110a",
            b"\x0a\x11\x74\x00\x00\x00\x02\x12\x00\x62\x00\x11\x00\x61\x00",
            &[b, a],
        ),
        (
            "kind 0x1014",
            b"\x14\x10\x74\x00\x00\x00\x02\x00\x11\x00\x01\x61\x11\x00\x01\x61",
            &[a, a],
        ),
        ("no register", b"\x0a\x11\x74\x00\x00\x00\x00", &[]),
        (
            "no register, counted in two bytes",
            b"\x17\x11\x74\x00\x00\x00\x00\x00",
            &[],
        ),
    ];
    for (label, bytes, list) in rows {
        let wanted = registers(rt.alloc(), list)?;
        says_exactly(&rt, rt.alloc(), label, bytes, &wanted, None)?;
    }
    Ok(())
}

#[test]
fn a_register_list_is_the_end_of_the_data_where_its_bytes_are_not_there(rt: HostRuntime) {
    let rows: [(&str, &[u8]); 5] = [
        (
            "the last name's byte",
            b"\x05\x10\x74\x00\x00\x00\x02\x11\x00\x01\x61\x12\x00\x01",
        ),
        (
            "a count one too great",
            b"\x0a\x11\x74\x00\x00\x00\x02\x11\x00\x61\x00",
        ),
        (
            "a count one too great, of two bytes",
            b"\x17\x11\x74\x00\x00\x00\x02\x00\x11\x00\x61\x00",
        ),
        (
            "the greatest count, and no bytes",
            b"\x17\x11\x74\x00\x00\x00\xff\xff",
        ),
        ("half a count", b"\x14\x10\x74\x00\x00\x00\x01"),
    ];
    for (label, bytes) in rows {
        is_refused(&rt, rt.alloc(), label, bytes, Error::UnexpectedEof);
    }
}
