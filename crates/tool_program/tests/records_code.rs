//! The fields of further records, worked out by hand: code, images, and records with errors.

use super::streams::line_on;
use pdb_records::Machine;
use std::test::Fail;

#[test]
fn things_in_code(rt: HostRuntime) -> Result<(), Fail> {
    let rows: [(Option<Machine>, &[u8], &str); 10] = [
        (
            Some(Machine::X64),
            b"\x39\x11\x0d\x10\x00\x00\x01\x00\x00\x00\xab\x10\x00\x00",
            "S_CALLSITEINFO offset=0001:0000100d type_index=000010ab",
        ),
        (
            Some(Machine::X64),
            b"\x5e\x11\x44\x9f\x00\x00\x01\x00\x05\x00\x03\x00\x00\x00",
            "S_HEAPALLOCSITE offset=0001:00009f44 instruction_bytes=5 type_index=00000003",
        ),
        (
            Some(Machine::X64),
            b"\x5a\x11\x02\x00\x00\x00\x07\x11\x00\x00\x08\x11\x00\x00\x05\x00\x00\x00",
            "S_CALLEES functions=00001107,00001108 invocations=5",
        ),
        (
            Some(Machine::X64),
            b"\x68\x11\x01\x00\x00\x00\x5f\x10\x00\x00",
            "S_INLINEES functions=0000105f invocations=-",
        ),
        (
            Some(Machine::X64),
            b"\x19\x10\x10\x00\x00\x00\x01\x00\x02\x00\x6f\x6e\x65\x00\x74\x77\x6f\x00",
            "S_ANNOTATION offset=0001:00000010 strings=one,two",
        ),
        (
            Some(Machine::X64),
            b"\x5c\x11\x02\x00\x00\x00\xff\xff\xff\xff\xff\xff\xff\xff\x03\x00\x00\x00\x04\x00\x00\x00",
            "S_POGODATA invocations=2 dynamic_count=-1 instructions=3 live_instructions=4",
        ),
        (
            Some(Machine::X64),
            b"\x69\x11\x02\x10\x00\x00\x68\x00",
            "S_HOTPATCHFUNC id=00001002 h",
        ),
        (
            Some(Machine::X64),
            b"\x5b\x11\x03\x00\x00\x00\x07\x11\x00\x00\x08\x11\x00\x00\x09\x11\x00\x00\x05\x00\x00\x00\x06\x00\x00\x00",
            "S_CALLERS functions=00001107,00001108,00001109 invocations=5,6",
        ),
        (
            Some(Machine::X64),
            b"\x5a\x11\x00\x00\x00\x00",
            "S_CALLEES functions=- invocations=-",
        ),
        (
            Some(Machine::X64),
            b"\x19\x10\x10\x00\x00\x00\x01\x00\x00\x00",
            "S_ANNOTATION offset=0001:00000010 strings=-",
        ),
    ];
    for (machine, record, wanted) in rows {
        line_on(&rt, rt.alloc(), machine, record, wanted)?;
    }
    Ok(())
}

#[test]
fn jump_tables(rt: HostRuntime) -> Result<(), Fail> {
    let rows: [(Option<Machine>, &[u8], &str); 13] = [
        (
            Some(Machine::X64),
            b"\x59\x11\x5c\x00\x00\x00\x02\x00\x04\x00\xb9\x04\x00\x00\x5c\x00\x00\x00\x01\x00\x02\x00\x07\x00\x00\x00",
            "S_ARMSWITCHTABLE base=0002:0000005c entry_kind=int4 branch=0001:000004b9 table=0002:0000005c entries=7",
        ),
        (
            Some(Machine::X64),
            b"\x59\x11\x5c\x00\x00\x00\x02\x00\x00\x00\xb9\x04\x00\x00\x5c\x00\x00\x00\x01\x00\x02\x00\x07\x00\x00\x00",
            "S_ARMSWITCHTABLE base=0002:0000005c entry_kind=int1 branch=0001:000004b9 table=0002:0000005c entries=7",
        ),
        (
            Some(Machine::X64),
            b"\x59\x11\x5c\x00\x00\x00\x02\x00\x01\x00\xb9\x04\x00\x00\x5c\x00\x00\x00\x01\x00\x02\x00\x07\x00\x00\x00",
            "S_ARMSWITCHTABLE base=0002:0000005c entry_kind=uint1 branch=0001:000004b9 table=0002:0000005c entries=7",
        ),
        (
            Some(Machine::X64),
            b"\x59\x11\x5c\x00\x00\x00\x02\x00\x02\x00\xb9\x04\x00\x00\x5c\x00\x00\x00\x01\x00\x02\x00\x07\x00\x00\x00",
            "S_ARMSWITCHTABLE base=0002:0000005c entry_kind=int2 branch=0001:000004b9 table=0002:0000005c entries=7",
        ),
        (
            Some(Machine::X64),
            b"\x59\x11\x5c\x00\x00\x00\x02\x00\x03\x00\xb9\x04\x00\x00\x5c\x00\x00\x00\x01\x00\x02\x00\x07\x00\x00\x00",
            "S_ARMSWITCHTABLE base=0002:0000005c entry_kind=uint2 branch=0001:000004b9 table=0002:0000005c entries=7",
        ),
        (
            Some(Machine::X64),
            b"\x59\x11\x5c\x00\x00\x00\x02\x00\x04\x00\xb9\x04\x00\x00\x5c\x00\x00\x00\x01\x00\x02\x00\x07\x00\x00\x00",
            "S_ARMSWITCHTABLE base=0002:0000005c entry_kind=int4 branch=0001:000004b9 table=0002:0000005c entries=7",
        ),
        (
            Some(Machine::X64),
            b"\x59\x11\x5c\x00\x00\x00\x02\x00\x05\x00\xb9\x04\x00\x00\x5c\x00\x00\x00\x01\x00\x02\x00\x07\x00\x00\x00",
            "S_ARMSWITCHTABLE base=0002:0000005c entry_kind=uint4 branch=0001:000004b9 table=0002:0000005c entries=7",
        ),
        (
            Some(Machine::X64),
            b"\x59\x11\x5c\x00\x00\x00\x02\x00\x06\x00\xb9\x04\x00\x00\x5c\x00\x00\x00\x01\x00\x02\x00\x07\x00\x00\x00",
            "S_ARMSWITCHTABLE base=0002:0000005c entry_kind=pointer branch=0001:000004b9 table=0002:0000005c entries=7",
        ),
        (
            Some(Machine::X64),
            b"\x59\x11\x5c\x00\x00\x00\x02\x00\x07\x00\xb9\x04\x00\x00\x5c\x00\x00\x00\x01\x00\x02\x00\x07\x00\x00\x00",
            "S_ARMSWITCHTABLE base=0002:0000005c entry_kind=uint1_shl1 branch=0001:000004b9 table=0002:0000005c entries=7",
        ),
        (
            Some(Machine::X64),
            b"\x59\x11\x5c\x00\x00\x00\x02\x00\x08\x00\xb9\x04\x00\x00\x5c\x00\x00\x00\x01\x00\x02\x00\x07\x00\x00\x00",
            "S_ARMSWITCHTABLE base=0002:0000005c entry_kind=uint2_shl1 branch=0001:000004b9 table=0002:0000005c entries=7",
        ),
        (
            Some(Machine::X64),
            b"\x59\x11\x5c\x00\x00\x00\x02\x00\x09\x00\xb9\x04\x00\x00\x5c\x00\x00\x00\x01\x00\x02\x00\x07\x00\x00\x00",
            "S_ARMSWITCHTABLE base=0002:0000005c entry_kind=int1_shl1 branch=0001:000004b9 table=0002:0000005c entries=7",
        ),
        (
            Some(Machine::X64),
            b"\x59\x11\x5c\x00\x00\x00\x02\x00\x0a\x00\xb9\x04\x00\x00\x5c\x00\x00\x00\x01\x00\x02\x00\x07\x00\x00\x00",
            "S_ARMSWITCHTABLE base=0002:0000005c entry_kind=int2_shl1 branch=0001:000004b9 table=0002:0000005c entries=7",
        ),
        (
            Some(Machine::X64),
            b"\x59\x11\x5c\x00\x00\x00\x02\x00\x0b\x00\xb9\x04\x00\x00\x5c\x00\x00\x00\x01\x00\x02\x00\x07\x00\x00\x00",
            "S_ARMSWITCHTABLE base=0002:0000005c entry_kind=11 branch=0001:000004b9 table=0002:0000005c entries=7",
        ),
    ];
    for (machine, record, wanted) in rows {
        line_on(&rt, rt.alloc(), machine, record, wanted)?;
    }
    Ok(())
}

#[test]
fn images_and_objects(rt: HostRuntime) -> Result<(), Fail> {
    let rows: [(Option<Machine>, &[u8], &str); 17] = [
        (
            Some(Machine::X64),
            b"\x37\x11\x17\x10\x00\x00\x20\x00\x00\x60\x00\x00\x00\x00\x01\x00\x2e\x74\x65\x78\x74\x00",
            "S_COFFGROUP len=4119 characteristics=60000020 offset=0001:00000000 .text",
        ),
        (
            Some(Machine::X64),
            b"\x36\x11\x01\x00\x0c\x00\x00\x10\x00\x00\x17\x10\x00\x00\x20\x00\x00\x60\x2e\x74\x65\x78\x74\x00",
            "S_SECTION section=1 alignment=12 address=00001000 len=4119 characteristics=60000020 .text",
        ),
        (
            Some(Machine::X64),
            b"\x3d\x11\x00\x63\x77\x64\x00\x43\x3a\x00\x00",
            "S_ENVBLOCK flags=- strings=cwd,C:",
        ),
        (
            Some(Machine::X64),
            b"\x04\x04\xc9\x3f\xea\xc6\xb3\x59\xd6\x49\xbc\x25\x09\x02\xbb\xab\xb4\x60\x00\x00\x00\x00\x4d\x00\x44\x00\x32\x00",
            "S_OEM oem=c93feac6b359d649bc250902bbabb460 type_index=00000000 data=4d0044003200",
        ),
        (
            Some(Machine::X64),
            b"\x3b\x11\x01\x00\x00\x00\x02\x00\x00\x00\x0a\x00\x00\x00\x00\x11",
            "S_DISCARDED why=not_selected file=2 line=10 data=0011",
        ),
        (
            Some(Machine::X64),
            b"\x5f\x11\x12\x00\x00\x00\x01\x00\x00\x00",
            "S_MOD_TYPEREF flags=ref_tmpct+own_tm word0=1 word1=0",
        ),
        (
            Some(Machine::X64),
            b"\x60\x11\x05\x00\x00\x00\x02\x00\x03\x00\x6e\x00",
            "S_REF_MINIPDB value=00000005 module=1 flags=local+data n",
        ),
        (
            Some(Machine::X64),
            b"\x60\x11\x07\x10\x00\x00\x00\x00\x1c\x00\x6e\x00",
            "S_REF_MINIPDB value=00001007 module=- flags=udt+label+const n",
        ),
        (
            Some(Machine::X86),
            b"\x01\x00\x03\x01\x02\x01\x05\x6d\x73\x76\x63\x31",
            "S_COMPILE cpu=3 language=1 flags=258 msvc1",
        ),
        (
            Some(Machine::X86),
            b"\x05\x00\x10\x00\x00\x00\x03\x00",
            "S_SSEARCH start=00000010 section=3",
        ),
        (Some(Machine::X86), b"\x0a\x00", "S_ENDARG"),
        (
            Some(Machine::X64),
            b"\x3d\x11\x01\x61\x00\x62\x00\x63\x00\x00",
            "S_ENVBLOCK flags=rev strings=a,b,c",
        ),
        (
            Some(Machine::X64),
            b"\x3d\x11\x00\x00",
            "S_ENVBLOCK flags=- strings=-",
        ),
        (
            Some(Machine::X64),
            b"\x3b\x11\x00\x00\x00\x00\xff\xff\xff\xff\x00\x00\x00\x00",
            "S_DISCARDED why=unknown file=4294967295 line=0 data=-",
        ),
        (
            Some(Machine::X64),
            b"\x3b\x11\x02\x00\x00\x00\x02\x00\x00\x00\x0a\x00\x00\x00\x00\x11",
            "S_DISCARDED why=not_referenced file=2 line=10 data=0011",
        ),
        (
            Some(Machine::X64),
            b"\x3b\x11\x07\x01\x00\x00\x02\x00\x00\x00\x0a\x00\x00\x00\x00\x11",
            "S_DISCARDED why=7 file=2 line=10 data=0011",
        ),
        (
            Some(Machine::X64),
            b"\x5f\x11\x2d\x00\x00\x00\x01\x00\x02\x00",
            "S_MOD_TYPEREF flags=none+own_tmpct+own_tmr+ref_tm word0=1 word1=2",
        ),
    ];
    for (machine, record, wanted) in rows {
        line_on(&rt, rt.alloc(), machine, record, wanted)?;
    }
    Ok(())
}

#[test]
fn records_that_are_not_read(rt: HostRuntime) -> Result<(), Fail> {
    let rows: [(Option<Machine>, &[u8], &str); 4] = [
        (
            Some(Machine::X64),
            b"\x67\x11\x01\x02",
            "S_FASTLINK bytes=0102",
        ),
        (
            Some(Machine::X64),
            b"\x41\x11\x4a\x01",
            "S_DEFRANGE_REGISTER\x00 error 1 bytes=4a01",
        ),
        (
            Some(Machine::X64),
            b"\x5a\x11\x02\x00\x00\x00\x07\x11\x00\x00",
            "S_CALLEES\x00 error 1 bytes=0200000007110000",
        ),
        (
            Some(Machine::X64),
            b"\x3d\x11\x00\x63\x77",
            "S_ENVBLOCK\x00 error 1 bytes=006377",
        ),
    ];
    for (machine, record, wanted) in rows {
        line_on(&rt, rt.alloc(), machine, record, wanted)?;
    }
    Ok(())
}

#[test]
fn processors_and_languages(rt: HostRuntime) -> Result<(), Fail> {
    let rows: [(&[u8], &str); 18] = [
        (
            b"\x3c\x11\x00\x00\x00\x00\xf6\x00\x01\x00\x02\x00\x03\x00\x04\x00\x05\x00\x06\x00\x07\x00\x08\x00\x63\x00",
            "S_COMPILE3 language=C flags=- cpu_type=ARM64 frontend_version=1.2.3.4 backend_version=5.6.7.8 version_string=c",
        ),
        (
            b"\x3c\x11\x00\x00\x00\x00\xf7\x00\x01\x00\x02\x00\x03\x00\x04\x00\x05\x00\x06\x00\x07\x00\x08\x00\x63\x00",
            "S_COMPILE3 language=C flags=- cpu_type=HybridX86ARM64 frontend_version=1.2.3.4 backend_version=5.6.7.8 version_string=c",
        ),
        (
            b"\x3c\x11\x00\x00\x00\x00\xf8\x00\x01\x00\x02\x00\x03\x00\x04\x00\x05\x00\x06\x00\x07\x00\x08\x00\x63\x00",
            "S_COMPILE3 language=C flags=- cpu_type=ARM64EC frontend_version=1.2.3.4 backend_version=5.6.7.8 version_string=c",
        ),
        (
            b"\x3c\x11\x00\x00\x00\x00\xf9\x00\x01\x00\x02\x00\x03\x00\x04\x00\x05\x00\x06\x00\x07\x00\x08\x00\x63\x00",
            "S_COMPILE3 language=C flags=- cpu_type=ARM64X frontend_version=1.2.3.4 backend_version=5.6.7.8 version_string=c",
        ),
        (
            b"\x3c\x11\x00\x00\x00\x00\xff\x00\x01\x00\x02\x00\x03\x00\x04\x00\x05\x00\x06\x00\x07\x00\x08\x00\x63\x00",
            "S_COMPILE3 language=C flags=- cpu_type=Unknown frontend_version=1.2.3.4 backend_version=5.6.7.8 version_string=c",
        ),
        (
            b"\x3c\x11\x00\x00\x00\x00\x69\x00\x01\x00\x02\x00\x03\x00\x04\x00\x05\x00\x06\x00\x07\x00\x08\x00\x63\x00",
            "S_COMPILE3 language=C flags=- cpu_type=0069 frontend_version=1.2.3.4 backend_version=5.6.7.8 version_string=c",
        ),
        (
            b"\x3c\x11\x00\x00\x00\x00\x07\x00\x01\x00\x02\x00\x03\x00\x04\x00\x05\x00\x06\x00\x07\x00\x08\x00\x63\x00",
            "S_COMPILE3 language=C flags=- cpu_type=Pentium3 frontend_version=1.2.3.4 backend_version=5.6.7.8 version_string=c",
        ),
        (
            b"\x3c\x11\x00\x00\x00\x00\xcd\xab\x01\x00\x02\x00\x03\x00\x04\x00\x05\x00\x06\x00\x07\x00\x08\x00\x63\x00",
            "S_COMPILE3 language=C flags=- cpu_type=abcd frontend_version=1.2.3.4 backend_version=5.6.7.8 version_string=c",
        ),
        (
            b"\x3c\x11\x11\x00\x00\x00\xd0\x00\x01\x00\x02\x00\x03\x00\x04\x00\x05\x00\x06\x00\x07\x00\x08\x00\x63\x00",
            "S_COMPILE3 language=ObjC flags=- cpu_type=X64 frontend_version=1.2.3.4 backend_version=5.6.7.8 version_string=c",
        ),
        (
            b"\x3c\x11\x12\x00\x00\x00\xd0\x00\x01\x00\x02\x00\x03\x00\x04\x00\x05\x00\x06\x00\x07\x00\x08\x00\x63\x00",
            "S_COMPILE3 language=ObjCpp flags=- cpu_type=X64 frontend_version=1.2.3.4 backend_version=5.6.7.8 version_string=c",
        ),
        (
            b"\x3c\x11\x13\x00\x00\x00\xd0\x00\x01\x00\x02\x00\x03\x00\x04\x00\x05\x00\x06\x00\x07\x00\x08\x00\x63\x00",
            "S_COMPILE3 language=Swift flags=- cpu_type=X64 frontend_version=1.2.3.4 backend_version=5.6.7.8 version_string=c",
        ),
        (
            b"\x3c\x11\x14\x00\x00\x00\xd0\x00\x01\x00\x02\x00\x03\x00\x04\x00\x05\x00\x06\x00\x07\x00\x08\x00\x63\x00",
            "S_COMPILE3 language=AliasObj flags=- cpu_type=X64 frontend_version=1.2.3.4 backend_version=5.6.7.8 version_string=c",
        ),
        (
            b"\x3c\x11\x15\x00\x00\x00\xd0\x00\x01\x00\x02\x00\x03\x00\x04\x00\x05\x00\x06\x00\x07\x00\x08\x00\x63\x00",
            "S_COMPILE3 language=Rust flags=- cpu_type=X64 frontend_version=1.2.3.4 backend_version=5.6.7.8 version_string=c",
        ),
        (
            b"\x3c\x11\x16\x00\x00\x00\xd0\x00\x01\x00\x02\x00\x03\x00\x04\x00\x05\x00\x06\x00\x07\x00\x08\x00\x63\x00",
            "S_COMPILE3 language=Go flags=- cpu_type=X64 frontend_version=1.2.3.4 backend_version=5.6.7.8 version_string=c",
        ),
        (
            b"\x3c\x11\x44\x00\x00\x00\xd0\x00\x01\x00\x02\x00\x03\x00\x04\x00\x05\x00\x06\x00\x07\x00\x08\x00\x63\x00",
            "S_COMPILE3 language=D flags=- cpu_type=X64 frontend_version=1.2.3.4 backend_version=5.6.7.8 version_string=c",
        ),
        (
            b"\x3c\x11\x53\x00\x00\x00\xd0\x00\x01\x00\x02\x00\x03\x00\x04\x00\x05\x00\x06\x00\x07\x00\x08\x00\x63\x00",
            "S_COMPILE3 language=OldSwift flags=- cpu_type=X64 frontend_version=1.2.3.4 backend_version=5.6.7.8 version_string=c",
        ),
        (
            b"\x3c\x11\x17\x00\x00\x00\xd0\x00\x01\x00\x02\x00\x03\x00\x04\x00\x05\x00\x06\x00\x07\x00\x08\x00\x63\x00",
            "S_COMPILE3 language=17 flags=- cpu_type=X64 frontend_version=1.2.3.4 backend_version=5.6.7.8 version_string=c",
        ),
        (
            b"\x3c\x11\xfe\x00\x00\x00\xd0\x00\x01\x00\x02\x00\x03\x00\x04\x00\x05\x00\x06\x00\x07\x00\x08\x00\x63\x00",
            "S_COMPILE3 language=fe flags=- cpu_type=X64 frontend_version=1.2.3.4 backend_version=5.6.7.8 version_string=c",
        ),
    ];
    for (record, wanted) in rows {
        line_on(&rt, rt.alloc(), None, record, wanted)?;
    }
    Ok(())
}
