//! The fields of further records, worked out by hand: variables, their ranges, and frames.

use super::streams::line_on;
use pdb_records::Machine;
use std::test::Fail;

#[test]
fn ranges_of_variables(rt: HostRuntime) -> Result<(), Fail> {
    let rows: [(Option<Machine>, &[u8], &str); 13] = [
        (
            Some(Machine::X64),
            b"\x3f\x11\x07\x00\x00\x00\x10\x00\x00\x00\x01\x00\x20\x00\x04\x00\x08\x00",
            "S_DEFRANGE program=7 range=0001:00000010+32 gaps=4+8",
        ),
        (
            Some(Machine::X64),
            b"\x40\x11\x07\x00\x00\x00\x04\x00\x00\x00\x10\x00\x00\x00\x01\x00\x20\x00",
            "S_DEFRANGE_SUBFIELD program=7 offset_in_parent=4 range=0001:00000010+32 gaps=-",
        ),
        (
            Some(Machine::X64),
            b"\x41\x11\x4a\x01\x00\x00\x10\x01\x00\x00\x01\x00\x17\x00\x08\x00\x04\x00",
            "S_DEFRANGE_REGISTER register=rcx maybe=false range=0001:00000110+23 gaps=8+4",
        ),
        (
            Some(Machine::X64),
            b"\x41\x11\x4a\x01\x01\x00\x10\x01\x00\x00\x01\x00\x17\x00\xf0\x00\x01\x00\xff",
            "S_DEFRANGE_REGISTER register=rcx maybe=true range=0001:00000110+23 gaps=240+1",
        ),
        (
            Some(Machine::X64),
            b"\x42\x11\xf4\xff\xff\xff\x56\x11\x00\x00\x01\x00\x47\x01",
            "S_DEFRANGE_FRAMEPOINTER_REL offset=-12 range=0001:00001156+327 gaps=-",
        ),
        (
            Some(Machine::X64),
            b"\x43\x11\x6b\x01\x00\x00\x04\x00\x00\x00\x10\x00\x00\x00\x01\x00\x15\x00",
            "S_DEFRANGE_SUBFIELD_REGISTER register=r11d maybe=false offset_in_parent=4 range=0001:00000010+21 gaps=-",
        ),
        (
            Some(Machine::X64),
            b"\x44\x11\x28\x00\x00\x00",
            "S_DEFRANGE_FRAMEPOINTER_REL_FULL_SCOPE offset=40",
        ),
        (
            Some(Machine::X64),
            b"\x45\x11\x4f\x01\x41\x00\x28\x00\x00\x00\x10\x00\x00\x00\x01\x00\x15\x00",
            "S_DEFRANGE_REGISTER_REL register=rsp subfield=4 offset=40 range=0001:00000010+21 gaps=-",
        ),
        (
            Some(Machine::Arm64),
            b"\x45\x11\x51\x00\x00\x00\x88\x01\x00\x00\x40\x01\x00\x00\x01\x00\xb0\x01",
            "S_DEFRANGE_REGISTER_REL register=sp subfield=- offset=392 range=0001:00000140+432 gaps=-",
        ),
        (
            None,
            b"\x41\x11\x4a\x01\x00\x00\x10\x01\x00\x00\x01\x00\x17\x00",
            "S_DEFRANGE_REGISTER register=014a maybe=false range=0001:00000110+23 gaps=-",
        ),
        (
            Some(Machine::X64),
            b"\x41\x11\x0f\x27\x00\x00\x10\x01\x00\x00\x01\x00\x17\x00",
            "S_DEFRANGE_REGISTER register=270f maybe=false range=0001:00000110+23 gaps=-",
        ),
        (
            Some(Machine::X86),
            b"\x41\x11\x30\x75\x00\x00\x10\x01\x00\x00\x01\x00\x17\x00",
            "S_DEFRANGE_REGISTER register=7530 maybe=false range=0001:00000110+23 gaps=-",
        ),
        (
            Some(Machine::X86),
            b"\x41\x11\x36\x75\x00\x00\x10\x01\x00\x00\x01\x00\x17\x00\x01\x00\x02\x00\x03\x00\x04\x00\x05\x00\x06\x00",
            "S_DEFRANGE_REGISTER register=vframe maybe=false range=0001:00000110+23 gaps=1+2,3+4,5+6",
        ),
    ];
    for (machine, record, wanted) in rows {
        line_on(&rt, rt.alloc(), machine, record, wanted)?;
    }
    Ok(())
}

#[test]
fn frames_of_procedures(rt: HostRuntime) -> Result<(), Fail> {
    let rows: [(Option<Machine>, &[u8], &str); 10] = [
        (
            Some(Machine::X64),
            b"\x12\x10\x68\x00\x00\x00\x00\x00\x00\x00\x00\x00\x00\x00\x10\x00\x00\x00\x00\x00\x00\x00\x00\x00\x00\x42\x05\x00",
            "S_FRAMEPROC frame_bytes=104 padding_bytes=0 padding_offset=0 saved_register_bytes=16 exception_handler=0000:00000000 flags=async_eh+pogo_on local_base=rsp param_base=rsp",
        ),
        (
            Some(Machine::X86),
            b"\x12\x10\x2c\x00\x00\x00\x00\x00\x00\x00\x00\x00\x00\x00\x0c\x00\x00\x00\x00\x00\x00\x00\x00\x00\x00\x80\x02\x00",
            "S_FRAMEPROC frame_bytes=44 padding_bytes=0 padding_offset=0 saved_register_bytes=12 exception_handler=0000:00000000 flags=- local_base=ebp param_base=ebp",
        ),
        (
            Some(Machine::X64),
            b"\x3a\x11\x38\x00\x00\x00\x4f\x01\x01\x01",
            "S_FRAMECOOKIE offset=56 register=rsp cookie=xor_sp flags=1",
        ),
        (
            Some(Machine::X64),
            b"\x12\x10\x01\x00\x00\x00\x02\x00\x00\x00\x03\x00\x00\x00\x04\x00\x00\x00\x05\x00\x00\x00\x06\x00\xff\x7f\x7d\x00",
            "S_FRAMEPROC frame_bytes=1 padding_bytes=2 padding_offset=3 saved_register_bytes=4 exception_handler=0006:00000005 flags=alloca+setjmp+longjmp+inline_asm+eh+inline_spec+seh+naked+security_checks+async_eh+gs_no_stack_ordering+was_inlined+gs_check+safe_buffers+pogo_on+valid_counts+opt_speed+guard_cf+guard_cfw local_base=rsp param_base=rsp",
        ),
        (
            None,
            b"\x12\x10\x00\x00\x00\x00\x00\x00\x00\x00\x00\x00\x00\x00\x00\x00\x00\x00\x00\x00\x00\x00\x00\x00\x00\xc0\x00\x00",
            "S_FRAMEPROC frame_bytes=0 padding_bytes=0 padding_offset=0 saved_register_bytes=0 exception_handler=0000:00000000 flags=- local_base=3 param_base=-",
        ),
        (
            Some(Machine::Arm64),
            b"\x12\x10\x00\x00\x00\x00\x00\x00\x00\x00\x00\x00\x00\x00\x00\x00\x00\x00\x00\x00\x00\x00\x00\x00\x00\xc0\x02\x00",
            "S_FRAMEPROC frame_bytes=0 padding_bytes=0 padding_offset=0 saved_register_bytes=0 exception_handler=0000:00000000 flags=- local_base=3 param_base=fp",
        ),
        (
            Some(Machine::X64),
            b"\x3a\x11\xf8\xff\xff\xff\x4e\x01\x00\x02",
            "S_FRAMECOOKIE offset=-8 register=rbp cookie=copy flags=2",
        ),
        (
            Some(Machine::X64),
            b"\x3a\x11\xf8\xff\xff\xff\x4e\x01\x02\x00",
            "S_FRAMECOOKIE offset=-8 register=rbp cookie=xor_bp flags=0",
        ),
        (
            Some(Machine::X64),
            b"\x3a\x11\xf8\xff\xff\xff\x4e\x01\x03\x00",
            "S_FRAMECOOKIE offset=-8 register=rbp cookie=xor_r13 flags=0",
        ),
        (
            Some(Machine::X64),
            b"\x3a\x11\xf8\xff\xff\xff\x4e\x01\x09\x00",
            "S_FRAMECOOKIE offset=-8 register=rbp cookie=9 flags=0",
        ),
    ];
    for (machine, record, wanted) in rows {
        line_on(&rt, rt.alloc(), machine, record, wanted)?;
    }
    Ok(())
}

#[test]
fn further_variables(rt: HostRuntime) -> Result<(), Fail> {
    let rows: [(Option<Machine>, &[u8], &str); 13] = [
        (
            Some(Machine::X86),
            b"\x0b\x11\x08\x00\x00\x00\x74\x00\x00\x00\x61\x00",
            "S_BPREL32 offset=8 type_index=00000074 a",
        ),
        (
            Some(Machine::X86),
            b"\x06\x10\xfc\xff\xff\xff\x74\x00\x00\x00\x01\x62",
            "S_BPREL32_ST offset=-4 type_index=00000074 b",
        ),
        (
            Some(Machine::X64),
            b"\x53\x11\x22\x00\x00\x00\xc0\x30\x00\x00\x00\x06\x67\x00",
            "S_FILESTATIC type_index=00000022 module_file=12480 flags=enreg_glob+enreg_stat g",
        ),
        (
            Some(Machine::X86),
            b"\x0d\x10\xfc\xff\xff\xff\x74\x00\x00\x00\x16\x00\x01\x72",
            "S_REGREL32_ST offset=-4 type_index=00000074 register=ebp r",
        ),
        (
            Some(Machine::X64),
            b"\x04\x11\x00\x00\x00\x00\x44\x00\x00\x00\x20\x00\x00\x00\x10\x00\x00\x00\x01\x00\x6f\x62\x6a\x00",
            "S_WITH32 parent=- end=00000044 len=32 offset=0001:00000010 obj",
        ),
        (
            Some(Machine::X64),
            b"\x04\x11\x08\x00\x00\x00\x44\x00\x00\x00\x20\x00\x00\x00\x10\x00\x00\x00\x01\x00\x6f\x62\x6a\x00",
            "S_WITH32 parent=00000008 end=00000044 len=32 offset=0001:00000010 obj",
        ),
        (
            Some(Machine::X64),
            b"\x0c\x10\x02\x10\x00\x00\x03\x10\x00\x00\x10\x00\x00\x00\x02\x00",
            "S_VFTABLE32 root=00001002 path=00001003 offset=0002:00000010",
        ),
        (
            Some(Machine::X64),
            b"\x54\x11\x74\x00\x00\x00\x09\x00\x03\x00\x04\x00\x67\x00",
            "S_LOCAL_DPC_GROUPSHARED type_index=00000074 flags=param+aggregate data_slot=3 data_offset=4 g",
        ),
        (
            Some(Machine::X64),
            b"\x58\x11\x01\x00\x00\x00\xf8\xff\xff\xff\x02\x00\x00\x00\x07\x00\x00\x00\x01\x02",
            "S_DPC_SYM_TAG_MAP tags=1:-8,2:7",
        ),
        (
            Some(Machine::X64),
            b"\x58\x11\x01\x00",
            "S_DPC_SYM_TAG_MAP tags=-",
        ),
        (
            Some(Machine::X64),
            b"\x1a\x11\x03\x00\x00\x00\x74\x00\x00\x00\x73\x00",
            "S_LOCALSLOT slot=3 type_index=00000074 s",
        ),
        (
            Some(Machine::X64),
            b"\x1b\x11\x04\x00\x00\x00\x74\x00\x00\x00\x73\x00",
            "S_PARAMSLOT slot=4 type_index=00000074 s",
        ),
        (
            Some(Machine::X64),
            b"\x53\x11\x22\x00\x00\x00\xc0\x30\x00\x00\xff\x01\x67\x00",
            "S_FILESTATIC type_index=00000022 module_file=12480 flags=param+addrtaken+compgenx+aggregate+aggregated+aliased+alias+retvalue+optimizedout g",
        ),
    ];
    for (machine, record, wanted) in rows {
        line_on(&rt, rt.alloc(), machine, record, wanted)?;
    }
    Ok(())
}

#[test]
fn managed_code(rt: HostRuntime) -> Result<(), Fail> {
    let rows: [(Option<Machine>, &[u8], &str); 7] = [
        (
            Some(Machine::X64),
            b"\x2a\x11\x00\x00\x00\x00\x68\x00\x00\x00\x00\x00\x00\x00\x0d\x00\x00\x00\x00\x00\x00\x00\x00\x00\x00\x00\x01\x00\x00\x06\x00\x00\x00\x00\x01\x00\x00\x00\x00\x4d\x61\x69\x6e\x00",
            "S_GMANPROC parent=- end=00000068 next=- len=13 dbg_start_offset=0 dbg_end_offset=0 token=06000001 offset=0001:00000000 flags=- return_register=0000 Main",
        ),
        (
            Some(Machine::X64),
            b"\x29\x11\x00\x00\x00\x00\x04\x00\x00\x00\x01\x00\x30\x36\x30\x30\x30\x30\x30\x31\x00",
            "S_TOKENREF sum_name=0 symbol_index=00000004 module=0 06000001",
        ),
        (
            Some(Machine::X64),
            b"\x20\x11\x02\x00\x00\x00\x74\x00\x00\x00\x00\x00\x00\x00\x00\x00\x00\x00\x78\x00",
            "S_MANSLOT slot=2 type_index=00000074 live=0000:00000000 flags=- x",
        ),
        (
            Some(Machine::X64),
            b"\x1e\x11\xf8\xff\xff\xff\x74\x00\x00\x00\x04\x00\x00\x00\x01\x00\x01\x00\x70\x00",
            "S_MANFRAMEREL offset=-8 type_index=00000074 live=0001:00000004 flags=param p",
        ),
        (
            Some(Machine::X64),
            b"\x1f\x11\x74\x00\x00\x00\x04\x00\x00\x00\x01\x00\x01\x00\x48\x01\x72\x00",
            "S_MANREGISTER type_index=00000074 live=0001:00000004 flags=param register=rax r",
        ),
        (
            Some(Machine::X64),
            b"\x22\x11\xf8\xff\xff\xff\x74\x00\x00\x00\x4f\x01\x04\x00\x00\x00\x01\x00\x00\x00\x72\x00",
            "S_MANREGREL offset=-8 type_index=00000074 register=rsp live=0001:00000004 flags=- r",
        ),
        (
            Some(Machine::X64),
            b"\x2b\x11\x04\x00\x00\x00\x68\x00\x00\x00\x90\x00\x00\x00\x0d\x00\x00\x00\x02\x00\x00\x00\x0b\x00\x00\x00\x01\x00\x00\x06\x00\x00\x00\x00\x01\x00\x81\x48\x01\x4d\x61\x69\x6e\x00",
            "S_LMANPROC parent=00000004 end=00000068 next=00000090 len=13 dbg_start_offset=2 dbg_end_offset=11 token=06000001 offset=0001:00000000 flags=nofpo+optdbginfo return_register=rax Main",
        ),
    ];
    for (machine, record, wanted) in rows {
        line_on(&rt, rt.alloc(), machine, record, wanted)?;
    }
    Ok(())
}

#[test]
fn registers_of_variables(rt: HostRuntime) -> Result<(), Fail> {
    let rows: [(Option<Machine>, &[u8], &str); 6] = [
        (
            Some(Machine::X64),
            b"\x06\x11t\x00\x00\x00\x4a\x01r\x00",
            "S_REGISTER type_index=00000074 register=rcx: int",
        ),
        (
            Some(Machine::X86),
            b"\x06\x11t\x00\x00\x00\x4a\x01r\x00",
            "S_REGISTER type_index=00000074 register=014a: int",
        ),
        (
            Some(Machine::X64),
            b"\x11\x11\xf8\xff\xff\xff\x08\x10\x00\x00\x4f\x01y\x00",
            "S_REGREL32 offset=-8 type_index=00001008 register=rsp y: ??",
        ),
        (
            Some(Machine::Arm64),
            b"\x11\x11\xf8\xff\xff\xff\x08\x10\x00\x00\x51\x00y\x00",
            "S_REGREL32 offset=-8 type_index=00001008 register=sp y: ??",
        ),
        (
            Some(Machine::X86),
            b"\x0a\x11\x04\x10\x00\x00\x02\x11\x00a\x00\x12\x01bc\x00",
            "S_MANYREG type_index=00001004 registers=eax:a,0112:bc: ??",
        ),
        (
            Some(Machine::X86),
            b"\x17\x11\x04\x10\x00\x00\x01\x00\x12\x00d\x00",
            "S_MANYREG2 type_index=00001004 registers=ecx:d: ??",
        ),
    ];
    for (machine, record, wanted) in rows {
        line_on(&rt, rt.alloc(), machine, record, wanted)?;
    }
    Ok(())
}

#[test]
fn bits_that_no_field_has(rt: HostRuntime) -> Result<(), Fail> {
    let rows: [(Option<Machine>, &[u8], &str); 2] = [
        (
            None,
            b"\x3e\x11\x07\x10\x00\x00\x00\x04x\x00",
            "S_LOCAL type_index=00001007 flags=enreg_stat x: ??",
        ),
        (
            None,
            b"\x3e\x11\x07\x10\x00\x00\x01\xfex\x00",
            "S_LOCAL type_index=00001007 flags=param+enreg_glob+enreg_stat x: ??",
        ),
    ];
    for (machine, record, wanted) in rows {
        line_on(&rt, rt.alloc(), machine, record, wanted)?;
    }
    Ok(())
}
