//! Modules and compilers.

use crate::tests::support::{OTHER_FORM, is, is_alone, parsed, record, says_exactly};
use crate::{
    BuildInfoSymbol, CPUType, CompileFlags, CompileFlagsSymbol, CompilerVersion, ExportSymbol,
    ExportSymbolFlags, ObjNameSymbol, SourceLanguage, SymbolData, UsingNamespaceSymbol,
};
use pdb_base::{IdIndex, RawString, Result};

#[test]
fn object_names_have_a_signature(rt: HostRuntime) -> Result<()> {
    let rows: [(&[u8], u32); 2] = [
        (b"\x01\x11\x00\x00\x00\x00\x61\x00", 0),
        (b"\x09\x00\x04\x03\x02\x01\x01\x61", 0x0102_0304),
    ];
    for (bytes, signature) in rows {
        let wanted = SymbolData::ObjName(ObjNameSymbol {
            signature,
            name: RawString::from("a"),
        });
        says_exactly(
            &rt,
            rt.alloc(),
            "an object's name",
            bytes,
            &wanted,
            Some("a"),
        )?;
    }
    Ok(())
}

#[test]
fn namespaces_are_named(rt: HostRuntime) -> Result<()> {
    let wanted = SymbolData::UsingNamespace(UsingNamespaceSymbol {
        name: RawString::from("std"),
    });
    let rows: [&[u8]; 2] = [b"\x24\x11\x73\x74\x64\x00", b"\x29\x10\x03\x73\x74\x64"];
    for bytes in rows {
        says_exactly(&rt, rt.alloc(), "a namespace", bytes, &wanted, Some("std"))?;
    }
    Ok(())
}

#[test]
fn build_information_is_an_id(rt: HostRuntime) -> Result<()> {
    let wanted = SymbolData::BuildInfo(BuildInfoSymbol {
        id: IdIndex(0x115f),
    });
    says_exactly(
        &rt,
        rt.alloc(),
        "an id",
        b"\x4c\x11\x5f\x11\x00\x00",
        &wanted,
        None,
    )
}

const NO_FLAG: CompileFlags = CompileFlags {
    edit_and_continue: false,
    no_debug_info: false,
    link_time_codegen: false,
    no_data_align: false,
    managed: false,
    security_checks: false,
    hot_patch: false,
    cvtcil: false,
    msil_module: false,
    sdl: false,
    pgo: false,
    exp_module: false,
};

fn version(major: u16, minor: u16, build: u16, qfe: Option<u16>) -> CompilerVersion {
    CompilerVersion {
        major,
        minor,
        build,
        qfe,
    }
}

#[test]
fn compilers_of_the_older_kinds_have_versions_of_three_numbers(rt: HostRuntime) -> Result<()> {
    let wanted = SymbolData::CompileFlags(CompileFlagsSymbol {
        language: SourceLanguage::Link,
        flags: NO_FLAG,
        cpu_type: CPUType::Intel80386,
        frontend_version: version(0, 0, 0, None),
        backend_version: version(14, 10, 25203, None),
        version_string: RawString::from("a"),
    });
    let rows: [(u16, &[u8]); 2] = [(0x1116, b"\x61\x00"), (0x1013, b"\x01\x61")];
    for (kind, name) in rows {
        let bytes = record(
            rt.alloc(),
            kind,
            b"\x07\x00\x00\x00\x03\x00\x00\x00\x00\x00\x00\x00\x0e\x00\x0a\x00\x73\x62",
            name,
        )?;
        says_exactly(&rt, rt.alloc(), "a linker", &bytes, &wanted, None)?;
    }
    Ok(())
}

#[test]
fn compilers_of_the_newest_kind_have_versions_of_four_numbers(rt: HostRuntime) -> Result<()> {
    let mut flags = NO_FLAG;
    flags.link_time_codegen = true;
    flags.security_checks = true;
    flags.sdl = true;
    let same = SymbolData::CompileFlags(CompileFlagsSymbol {
        language: SourceLanguage::Cpp,
        flags,
        cpu_type: CPUType::Pentium3,
        frontend_version: version(19, 13, 26118, Some(0)),
        backend_version: version(19, 13, 26118, Some(0)),
        version_string: RawString::from("a"),
    });
    let bytes =
        b"\x3c\x11\x01\x24\x02\x00\x07\x00\x13\x00\x0d\x00\x06\x66\x00\x00\x13\x00\x0d\x00\x06\x66\x00\x00\x61\x00";
    says_exactly(&rt, rt.alloc(), "a compiler", bytes, &same, None)?;
    let distinct = SymbolData::CompileFlags(CompileFlagsSymbol {
        language: SourceLanguage::D,
        flags: NO_FLAG,
        cpu_type: CPUType::X64,
        frontend_version: version(0x0102, 0x0304, 0x0506, Some(0x0708)),
        backend_version: version(0x1112, 0x1314, 0x1516, Some(0x1718)),
        version_string: RawString::from("a"),
    });
    let bytes =
        b"\x3c\x11\x44\x00\xf0\xff\xd0\x00\x02\x01\x04\x03\x06\x05\x08\x07\x12\x11\x14\x13\x16\x15\x18\x17\x61\x00";
    says_exactly(&rt, rt.alloc(), "distinct numbers", bytes, &distinct, None)
}

fn compile_flags(flags: CompileFlags) -> [bool; 12] {
    [
        flags.edit_and_continue,
        flags.no_debug_info,
        flags.link_time_codegen,
        flags.no_data_align,
        flags.managed,
        flags.security_checks,
        flags.hot_patch,
        flags.cvtcil,
        flags.msil_module,
        flags.sdl,
        flags.pgo,
        flags.exp_module,
    ]
}

#[test]
fn a_compilers_last_three_flags_are_in_the_newest_kind_alone(rt: HostRuntime) -> Result<()> {
    let bits: [u16; 12] = [1, 2, 4, 8, 16, 32, 64, 128, 256, 512, 1024, 2048];
    for (k, bit) in bits.iter().enumerate() {
        let [low, high] = bit.to_le_bytes();
        let newest = [
            0x3c, 0x11, 1, low, high, 0, 7, 0, 1, 0, 2, 0, 3, 0, 4, 0, 1, 0, 2, 0, 3, 0, 4, 0,
            0x61, 0,
        ];
        let SymbolData::CompileFlags(compiler) = parsed(rt.alloc(), &newest)? else {
            return Err(OTHER_FORM);
        };
        is_alone(
            &rt,
            "a flag of the newest kind",
            &compile_flags(compiler.flags),
            k,
        );
        let older = [
            0x16, 0x11, 1, low, high, 0, 7, 0, 1, 0, 2, 0, 3, 0, 1, 0, 2, 0, 3, 0, 0x61, 0,
        ];
        let SymbolData::CompileFlags(compiler) = parsed(rt.alloc(), &older)? else {
            return Err(OTHER_FORM);
        };
        let set = if k < 9 { k } else { 12 };
        is_alone(
            &rt,
            "a flag of an older kind",
            &compile_flags(compiler.flags),
            set,
        );
    }
    Ok(())
}

fn export_flags(flags: ExportSymbolFlags) -> [bool; 6] {
    [
        flags.constant,
        flags.data,
        flags.private,
        flags.no_name,
        flags.ordinal,
        flags.forwarder,
    ]
}

#[test]
fn exports_have_six_flags_which_are_their_bits(rt: HostRuntime) -> Result<()> {
    let bits: [u8; 6] = [1, 2, 4, 8, 16, 32];
    for (k, bit) in bits.iter().enumerate() {
        let bytes = [0x38, 0x11, 2, 1, *bit, 0, 0x61, 0];
        let SymbolData::Export(export) = parsed(rt.alloc(), &bytes)? else {
            return Err(OTHER_FORM);
        };
        is_alone(&rt, "a flag", &export_flags(export.flags), k);
        is(&rt, "its bit", &export.flags.bits(), &u16::from(*bit));
    }
    let all = ExportSymbolFlags {
        constant: true,
        data: true,
        private: true,
        no_name: true,
        ordinal: true,
        forwarder: true,
    };
    is(&rt, "all bits", &all.bits(), &63);
    let wanted = SymbolData::Export(ExportSymbol {
        ordinal: 0x0102,
        flags: all,
        name: RawString::from("a"),
    });
    says_exactly(
        &rt,
        rt.alloc(),
        "other bits mean nothing",
        b"\x38\x11\x02\x01\xff\xff\x61\x00",
        &wanted,
        Some("a"),
    )
}
