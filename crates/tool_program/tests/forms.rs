//! The fields of each format, worked out by hand.

use super::streams::line_is;
use std::test::Fail;

#[test]
fn data_and_types(rt: HostRuntime) -> Result<(), Fail> {
    let rows: [(&[u8], &str); 15] = [
        (
            b"\x06\x11t\x00\x00\x00\x11\x00r\x00",
            "S_REGISTER type_index=00000074 register=0011: int",
        ),
        (
            b"\x07\x11\x02\x10\x00\x00\x03\x80\xfe\xff\xff\xffc\x00",
            "S_CONSTANT type_index=00001002 value=-2 managed=false c: ??",
        ),
        (
            b"\x2d\x11\x02\x10\x00\x00\x0a\x80\xff\xff\xff\xff\xff\xff\xff\xffm\x00",
            "S_MANCONSTANT type_index=00001002 value=18446744073709551615 managed=true m: ??",
        ),
        (
            b"\x08\x11\x03\x10\x00\x00t\x00",
            "S_UDT type_index=00001003 t: ??",
        ),
        (
            b"\x03\x10\x03\x10\x00\x00\x02ab",
            "S_UDT_ST type_index=00001003 ab: ??",
        ),
        (
            b"\x0a\x11\x04\x10\x00\x00\x02\x11\x00a\x00\x22\x01bc\x00",
            "S_MANYREG type_index=00001004 registers=0011:a,0122:bc: ??",
        ),
        (
            b"\x17\x11\x04\x10\x00\x00\x01\x00\x12\x00d\x00",
            "S_MANYREG2 type_index=00001004 registers=0012:d: ??",
        ),
        (
            b"\x0a\x11\x04\x10\x00\x00\x00",
            "S_MANYREG type_index=00001004 registers=-: ??",
        ),
        (
            b"\x0d\x11\x05\x10\x00\x00\x20\x00\x00\x00\x03\x00g\x00",
            "S_GDATA32 type_index=00001005 offset=0003:00000020 global=true managed=false g: ??",
        ),
        (
            b"\x1c\x11\x05\x10\x00\x00\x20\x00\x00\x00\x03\x00h\x00",
            "S_LMANDATA type_index=00001005 offset=0003:00000020 global=false managed=true h: ??",
        ),
        (
            b"\x0e\x11\x0b\x00\x00\x00\x30\x00\x00\x00\x02\x00p\x00",
            "S_PUB32 code=true function=true managed=false msil=true offset=0002:00000030 p",
        ),
        (
            b"\x0e\x11\x04\x00\x00\x00\x30\x00\x00\x00\x02\x00p\x00",
            "S_PUB32 code=false function=false managed=true msil=false offset=0002:00000030 p",
        ),
        (
            b"\x12\x11\x06\x10\x00\x00\x40\x00\x00\x00\x04\x00t\x00",
            "S_LTHREAD32 type_index=00001006 offset=0004:00000040 global=false t: ??",
        ),
        (
            b"\x13\x11\x06\x10\x00\x00\x40\x00\x00\x00\x04\x00t\x00",
            "S_GTHREAD32 type_index=00001006 offset=0004:00000040 global=true t: ??",
        ),
        (
            b"\x11\x11\xf8\xff\xff\xff\x08\x10\x00\x00\x4f\x01y\x00",
            "S_REGREL32 offset=-8 type_index=00001008 register=014f y: ??",
        ),
    ];
    for (record, wanted) in rows {
        line_is(&rt, rt.alloc(), record, wanted)?;
    }
    Ok(())
}

#[test]
fn values_of_constants(rt: HostRuntime) -> Result<(), Fail> {
    let rows: [(&[u8], &str); 6] = [
        (
            b"\x07\x11\x01\x10\x00\x00\xff\x7fa\x00",
            "S_CONSTANT type_index=00001001 value=32767 managed=false a: ??",
        ),
        (
            b"\x07\x11\x01\x10\x00\x00\x00\x80\xfea\x00",
            "S_CONSTANT type_index=00001001 value=-2 managed=false a: ??",
        ),
        (
            b"\x07\x11\x01\x10\x00\x00\x01\x80\x00\x80a\x00",
            "S_CONSTANT type_index=00001001 value=-32768 managed=false a: ??",
        ),
        (
            b"\x07\x11\x01\x10\x00\x00\x02\x80\xfe\xffa\x00",
            "S_CONSTANT type_index=00001001 value=65534 managed=false a: ??",
        ),
        (
            b"\x07\x11\x01\x10\x00\x00\x04\x80\xfe\xff\xff\xffa\x00",
            "S_CONSTANT type_index=00001001 value=4294967294 managed=false a: ??",
        ),
        (
            b"\x07\x11\x01\x10\x00\x00\x09\x80\x00\x00\x00\x00\x00\x00\x00\x80a\x00",
            "S_CONSTANT type_index=00001001 value=-9223372036854775808 managed=false a: ??",
        ),
    ];
    for (record, wanted) in rows {
        line_is(&rt, rt.alloc(), record, wanted)?;
    }
    Ok(())
}

#[test]
fn flags_of_locals(rt: HostRuntime) -> Result<(), Fail> {
    let rows: [(&[u8], &str); 16] = [
        (
            b"\x3e\x11\x07\x10\x00\x00\x00\x00x\x00",
            "S_LOCAL type_index=00001007 flags=- x: ??",
        ),
        (
            b"\x3e\x11\x07\x10\x00\x00\x01\x00x\x00",
            "S_LOCAL type_index=00001007 flags=param x: ??",
        ),
        (
            b"\x3e\x11\x07\x10\x00\x00\x02\x00x\x00",
            "S_LOCAL type_index=00001007 flags=addrtaken x: ??",
        ),
        (
            b"\x3e\x11\x07\x10\x00\x00\x04\x00x\x00",
            "S_LOCAL type_index=00001007 flags=compgenx x: ??",
        ),
        (
            b"\x3e\x11\x07\x10\x00\x00\x08\x00x\x00",
            "S_LOCAL type_index=00001007 flags=aggregate x: ??",
        ),
        (
            b"\x3e\x11\x07\x10\x00\x00\x10\x00x\x00",
            "S_LOCAL type_index=00001007 flags=aggregated x: ??",
        ),
        (
            b"\x3e\x11\x07\x10\x00\x00\x20\x00x\x00",
            "S_LOCAL type_index=00001007 flags=aliased x: ??",
        ),
        (
            b"\x3e\x11\x07\x10\x00\x00\x40\x00x\x00",
            "S_LOCAL type_index=00001007 flags=alias x: ??",
        ),
        (
            b"\x3e\x11\x07\x10\x00\x00\x80\x00x\x00",
            "S_LOCAL type_index=00001007 flags=retvalue x: ??",
        ),
        (
            b"\x3e\x11\x07\x10\x00\x00\x00\x01x\x00",
            "S_LOCAL type_index=00001007 flags=optimizedout x: ??",
        ),
        (
            b"\x3e\x11\x07\x10\x00\x00\x00\x02x\x00",
            "S_LOCAL type_index=00001007 flags=enreg_glob x: ??",
        ),
        (
            b"\x3e\x11\x07\x10\x00\x00\x11\x02x\x00",
            "S_LOCAL type_index=00001007 flags=param+aggregated+enreg_glob x: ??",
        ),
        (
            b"\x3e\x11\x07\x10\x00\x00\x01\x01x\x00",
            "S_LOCAL type_index=00001007 flags=param+optimizedout x: ??",
        ),
        (
            b"\x3e\x11\x74\x00\x00\x00\x00\x00\x00",
            "S_LOCAL type_index=00000074 flags=-: int",
        ),
        (
            b"\x3e\x11\x07\x10\x00\x00\x00",
            "S_LOCAL\x00 error 1 bytes=0710000000",
        ),
        (
            b"\x3e\x11\x07\x10\x00\x00\x00\x00x",
            "S_LOCAL\x00 error 1 bytes=07100000000078",
        ),
    ];
    for (record, wanted) in rows {
        line_is(&rt, rt.alloc(), record, wanted)?;
    }
    Ok(())
}

#[test]
fn flags_of_labels(rt: HostRuntime) -> Result<(), Fail> {
    let rows: [(&[u8], &str); 9] = [
        (
            b"\x05\x11\x60\x00\x00\x00\x01\x00\x01k\x00",
            "S_LABEL32 offset=0001:00000060 flags=nofpo k",
        ),
        (
            b"\x05\x11\x60\x00\x00\x00\x01\x00\x02k\x00",
            "S_LABEL32 offset=0001:00000060 flags=int k",
        ),
        (
            b"\x05\x11\x60\x00\x00\x00\x01\x00\x04k\x00",
            "S_LABEL32 offset=0001:00000060 flags=far k",
        ),
        (
            b"\x05\x11\x60\x00\x00\x00\x01\x00\x08k\x00",
            "S_LABEL32 offset=0001:00000060 flags=never k",
        ),
        (
            b"\x05\x11\x60\x00\x00\x00\x01\x00\x10k\x00",
            "S_LABEL32 offset=0001:00000060 flags=notreached k",
        ),
        (
            b"\x05\x11\x60\x00\x00\x00\x01\x00\x20k\x00",
            "S_LABEL32 offset=0001:00000060 flags=cust_call k",
        ),
        (
            b"\x05\x11\x60\x00\x00\x00\x01\x00\x40k\x00",
            "S_LABEL32 offset=0001:00000060 flags=noinline k",
        ),
        (
            b"\x05\x11\x60\x00\x00\x00\x01\x00\x80k\x00",
            "S_LABEL32 offset=0001:00000060 flags=optdbginfo k",
        ),
        (
            b"\x05\x11\x60\x00\x00\x00\x01\x00\x82k\x00",
            "S_LABEL32 offset=0001:00000060 flags=int+optdbginfo k",
        ),
    ];
    for (record, wanted) in rows {
        line_is(&rt, rt.alloc(), record, wanted)?;
    }
    Ok(())
}

#[test]
fn flags_of_exports(rt: HostRuntime) -> Result<(), Fail> {
    let rows: [(&[u8], &str); 7] = [
        (
            b"\x38\x11\x07\x00\x01\x00e\x00",
            "S_EXPORT ordinal=7 flags=constant e",
        ),
        (
            b"\x38\x11\x07\x00\x02\x00e\x00",
            "S_EXPORT ordinal=7 flags=data e",
        ),
        (
            b"\x38\x11\x07\x00\x04\x00e\x00",
            "S_EXPORT ordinal=7 flags=private e",
        ),
        (
            b"\x38\x11\x07\x00\x08\x00e\x00",
            "S_EXPORT ordinal=7 flags=no_name e",
        ),
        (
            b"\x38\x11\x07\x00\x10\x00e\x00",
            "S_EXPORT ordinal=7 flags=ordinal e",
        ),
        (
            b"\x38\x11\x07\x00\x20\x00e\x00",
            "S_EXPORT ordinal=7 flags=forwarder e",
        ),
        (
            b"\x38\x11\x07\x00\x22\x00e\x00",
            "S_EXPORT ordinal=7 flags=data+forwarder e",
        ),
    ];
    for (record, wanted) in rows {
        line_is(&rt, rt.alloc(), record, wanted)?;
    }
    Ok(())
}

#[test]
fn code(rt: HostRuntime) -> Result<(), Fail> {
    let rows: [(&[u8], &str); 14] = [
        (
            b"\x56\x11\x00\x00\x00\x00\x90\x00\x00\x00\xa0\x00\x00\x00\x21\x00\x00\x00\x04\x00\x00\x00\x1e\x00\x00\x00\x09\x10\x00\x00\x50\x00\x00\x00\x01\x00\x21f\x00",
            "S_LPROC32_DPC_ID parent=- end=00000090 next=000000a0 len=33 dbg_start_offset=4 dbg_end_offset=30 type_index=00001009 offset=0001:00000050 flags=nofpo+cust_call global=false dpc=true f",
        ),
        (
            b"\x10\x11\x08\x00\x00\x00\x90\x00\x00\x00\x00\x00\x00\x00\x21\x00\x00\x00\x04\x00\x00\x00\x1e\x00\x00\x00\x09\x10\x00\x00\x50\x00\x00\x00\x01\x00\x00f\x00",
            "S_GPROC32 parent=00000008 end=00000090 next=- len=33 dbg_start_offset=4 dbg_end_offset=30 type_index=00001009 offset=0001:00000050 flags=- global=true dpc=false f: ??",
        ),
        (
            b"\x5d\x11\x10\x00\x00\x00\x60\x00\x00\x00\x01\x10\x00\x00\x07\x00\x00\x00\x0c\x02\x08",
            "S_INLINESITE2 parent=00000010 end=00000060 inlinee=00001001 invocations=7 annotations=0c0208 ??",
        ),
        (
            b"\x4d\x11\x10\x00\x00\x00\x60\x00\x00\x00\x01\x10\x00\x00\x07\x00\x00\x00\x0c\x02\x08",
            "S_INLINESITE parent=00000010 end=00000060 inlinee=00001001 invocations=- annotations=070000000c0208 ??",
        ),
        (
            b"\x4d\x11\x10\x00\x00\x00\x60\x00\x00\x00\x01\x10\x00\x00\x01\x23\x45\x67\x89\xab\xcd\xef\xfe",
            "S_INLINESITE parent=00000010 end=00000060 inlinee=00001001 invocations=- annotations=0123456789abcdeffe ??",
        ),
        (
            b"\x4d\x11\x10\x00\x00\x00\x60\x00\x00\x00\x01\x10\x00\x00\x0c\x02",
            "S_INLINESITE parent=00000010 end=00000060 inlinee=00001001 invocations=- annotations=0c02 ??",
        ),
        (
            b"\x4d\x11\x10\x00\x00\x00\x60\x00\x00\x00\x01\x10\x00",
            "S_INLINESITE\x00 error 1 bytes=1000000060000000011000",
        ),
        (
            b"\x4d\x11\x00\x00\x00\x00\x60\x00\x00\x00\x01\x10\x00\x00",
            "S_INLINESITE parent=- end=00000060 inlinee=00001001 invocations=- annotations=- ??",
        ),
        (
            b"\x03\x11\x20\x00\x00\x00p\x00\x00\x00\x12\x00\x00\x00p\x00\x00\x00\x01\x00\x00",
            "S_BLOCK32 parent=00000020 end=00000070 len=18 offset=0001:00000070",
        ),
        (
            b"\x32\x11\x30\x00\x00\x00\xb0\x00\x00\x00\x09\x00\x00\x00\x02\x00\x00\x00\xb0\x00\x00\x00\xc0\x00\x00\x00\x03\x00\x01\x00",
            "S_SEPCODE parent=00000030 end=000000b0 len=9 flags=returnstoparent offset=0003:000000b0 parent_offset=0001:000000c0",
        ),
        (
            b"\x32\x11\x30\x00\x00\x00\xb0\x00\x00\x00\x09\x00\x00\x00\x01\x00\x00\x00\xb0\x00\x00\x00\xc0\x00\x00\x00\x03\x00\x01\x00",
            "S_SEPCODE parent=00000030 end=000000b0 len=9 flags=islexicalscope offset=0003:000000b0 parent_offset=0001:000000c0",
        ),
        (b"\x06\x00", "S_END"),
        (b"\x4e\x11", "S_INLINESITE_END"),
        (b"\x4f\x11", "S_PROC_ID_END"),
    ];
    for (record, wanted) in rows {
        line_is(&rt, rt.alloc(), record, wanted)?;
    }
    Ok(())
}

#[test]
fn thunks_and_trampolines(rt: HostRuntime) -> Result<(), Fail> {
    let rows: [(&[u8], &str); 9] = [
        (
            b"\x02\x11\x00\x00\x00\x00\x80\x00\x00\x00\x00\x00\x00\x00\x80\x00\x00\x00\x01\x00\x05\x00\x00th\x00",
            "S_THUNK32 parent=- end=00000080 next=- offset=0001:00000080 len=5 kind=no_type th",
        ),
        (
            b"\x02\x11\x18\x00\x00\x00\x80\x00\x00\x00\x88\x00\x00\x00\x80\x00\x00\x00\x01\x00\x05\x00\x01th\x00\x10\x00tg\x00",
            "S_THUNK32 parent=00000018 end=00000080 next=00000088 offset=0001:00000080 len=5 kind=adjustor:16:tg th",
        ),
        (
            b"\x02\x11\x00\x00\x00\x00\x80\x00\x00\x00\x00\x00\x00\x00\x80\x00\x00\x00\x01\x00\x05\x00\x02th\x00\x18\x00",
            "S_THUNK32 parent=- end=00000080 next=- offset=0001:00000080 len=5 kind=v_call:24 th",
        ),
        (
            b"\x02\x11\x00\x00\x00\x00\x80\x00\x00\x00\x00\x00\x00\x00\x80\x00\x00\x00\x01\x00\x05\x00\x03th\x00",
            "S_THUNK32 parent=- end=00000080 next=- offset=0001:00000080 len=5 kind=p_code th",
        ),
        (
            b"\x02\x11\x00\x00\x00\x00\x80\x00\x00\x00\x00\x00\x00\x00\x80\x00\x00\x00\x01\x00\x05\x00\x04th\x00",
            "S_THUNK32 parent=- end=00000080 next=- offset=0001:00000080 len=5 kind=load th",
        ),
        (
            b"\x02\x11\x00\x00\x00\x00\x80\x00\x00\x00\x00\x00\x00\x00\x80\x00\x00\x00\x01\x00\x05\x00\x09th\x00",
            "S_THUNK32 parent=- end=00000080 next=- offset=0001:00000080 len=5 kind=unknown:9 th",
        ),
        (
            b"\x2c\x11\x00\x00\x06\x00\x90\x00\x00\x00\xa0\x00\x00\x00\x01\x00\x02\x00",
            "S_TRAMPOLINE tramp_type=Incremental size=6 thunk=0001:00000090 target=0002:000000a0",
        ),
        (
            b"\x2c\x11\x01\x00\x06\x00\x90\x00\x00\x00\xa0\x00\x00\x00\x01\x00\x02\x00",
            "S_TRAMPOLINE tramp_type=BranchIsland size=6 thunk=0001:00000090 target=0002:000000a0",
        ),
        (
            b"\x2c\x11\x02\x00\x06\x00\x90\x00\x00\x00\xa0\x00\x00\x00\x01\x00\x02\x00",
            "S_TRAMPOLINE tramp_type=Unknown size=6 thunk=0001:00000090 target=0002:000000a0",
        ),
    ];
    for (record, wanted) in rows {
        line_is(&rt, rt.alloc(), record, wanted)?;
    }
    Ok(())
}

#[test]
fn modules_and_compilers(rt: HostRuntime) -> Result<(), Fail> {
    let rows: [(&[u8], &str); 6] = [
        (
            b"\x01\x11\x15\xcd\x5b\x07o\x2eobj\x00",
            "S_OBJNAME signature=123456789 o.obj",
        ),
        (
            b"\x3c\x11\x01\x01\x08\xff\xd0\x00\x13\x00\x1d\x00\xb5u\x01\x00\x0e\x00\x02\x00\x03\x00\x00\x00cl\x00",
            "S_COMPILE3 language=Cpp flags=edit_and_continue+exp_module cpu_type=X64 frontend_version=19.29.30133.1 backend_version=14.2.3.0 version_string=cl",
        ),
        (
            b"\x3c\x11\x00\xfe\x07\xff\xd0\x00\x13\x00\x1d\x00\xb5u\x01\x00\x0e\x00\x02\x00\x03\x00\x04\x00\x00",
            "S_COMPILE3 language=C flags=no_debug_info+link_time_codegen+no_data_align+managed+security_checks+hot_patch+cvtcil+msil_module+sdl+pgo cpu_type=X64 frontend_version=19.29.30133.1 backend_version=14.2.3.4 version_string=",
        ),
        (
            b"\x16\x11\x44\x00\x00\x00\x00\x01\x01\x00\x02\x00\x03\x00\x04\x00\x05\x00\x06\x00\x00",
            "S_COMPILE2 language=D flags=- cpu_type=D3D11_Shader frontend_version=1.2.3 backend_version=4.5.6 version_string=",
        ),
        (b"\x24\x11ns\x00", "S_UNAMESPACE ns"),
        (b"\x4c\x11\x34\x12\x00\x00", "S_BUILDINFO id=00001234"),
    ];
    for (record, wanted) in rows {
        line_is(&rt, rt.alloc(), record, wanted)?;
    }
    Ok(())
}

#[test]
fn references(rt: HostRuntime) -> Result<(), Fail> {
    let rows: [(&[u8], &str); 4] = [
        (
            b"\x25\x11\x09\x00\x00\x00\x44\x00\x00\x00\x02\x00q\x00",
            "S_PROCREF sum_name=9 symbol_index=00000044 module=1 global=true q",
        ),
        (
            b"\x03\x04\x09\x00\x00\x00\x44\x00\x00\x00\x00\x00",
            "S_LPROCREF_ST sum_name=9 symbol_index=00000044 module=- global=false",
        ),
        (
            b"\x26\x11\x0a\x00\x00\x00\x45\x00\x00\x00\x03\x00d\x00",
            "S_DATAREF sum_name=10 symbol_index=00000045 module=2 d",
        ),
        (
            b"\x28\x11\x0b\x00\x00\x00\x46\x00\x00\x00\x04\x00a\x00",
            "S_ANNOTATIONREF sum_name=11 symbol_index=00000046 module=3 a",
        ),
    ];
    for (record, wanted) in rows {
        line_is(&rt, rt.alloc(), record, wanted)?;
    }
    Ok(())
}

#[test]
fn refused_records(rt: HostRuntime) -> Result<(), Fail> {
    let rows: [(&[u8], &str); 5] = [
        (b"\x12\x10\xab\xcd", "S_FRAMEPROC\x00 error 1 bytes=abcd"),
        (b"f\x11", "1166 bytes="),
        (b"\xcd\xab\x0f", "abcd bytes=0f"),
        (b"\x0e\x11\x01", "S_PUB32\x00 error 1 bytes=01"),
        (
            b"\x07\x11\x02\x10\x00\x00\x05\x80",
            "S_CONSTANT\x00 error 20 bytes=021000000580",
        ),
    ];
    for (record, wanted) in rows {
        line_is(&rt, rt.alloc(), record, wanted)?;
    }
    Ok(())
}
