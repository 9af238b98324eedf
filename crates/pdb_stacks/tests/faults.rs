//! Reports of a fault on two lines.

use super::fakes::{is, put_hex};
use crate::{fault_offset, faulting_module};
use std::test::Fail;

#[test]
fn modules_that_failed(rt: HostRuntime) -> Result<(), Fail> {
    let rows: [(&[u8], &[u8]); 10] = [
        (
            b"Faulting module name: cpp-lld.exe, version: 1.0.0.0, time stamp: 0x65a50521",
            b"cpp-lld.exe",
        ),
        (b"  Fault Module Name:\tapp.exe", b"app.exe"),
        (b"FAULT MODULE NAME:  C:\\dir\\my app.exe  ", b"my app.exe"),
        (b"faulting module name:a/b\\c.dll\r", b"c.dll"),
        (b"Faulting module name: \t,", b""),
        (b"Faulting module name:", b""),
        (b"Faulting module name: C:\\dir\\", b""),
        (b"Faulting application name: app.exe, version: 1.0.0.0", b""),
        (b"Fault Module Name: a, Faulting module name: b", b"a"),
        (b"Faulting module name: , Fault Module Name: b", b""),
    ];
    for (line, wanted) in rows {
        let name = match faulting_module(line) {
            Some(name) => name.of(line),
            None => b"".as_slice(),
        };
        is(&rt, "name", &name, &wanted);
    }
    Ok(())
}

#[test]
fn offsets_of_faults(rt: HostRuntime) -> Result<(), Fail> {
    let rows: [(&[u8], &[u8]); 9] = [
        (
            b"Fault offset: 0x0000000000001108",
            b"0x0000000000001108 1108",
        ),
        (b"Fault offset: 0x00001086", b"0x00001086 1086"),
        (
            b"  Exception Offset:\t0000000000001108",
            b"0000000000001108 1108",
        ),
        (b"exception offset:1F,", b"1F 1f"),
        (b"Fault offset: ", b""),
        (b"Fault offset: 0x", b""),
        (b"Fault offset: 1108h", b""),
        (b"Fault offset: 0X1108", b""),
        (b"Fault offset: x, Exception Offset: 1", b""),
    ];
    for (line, wanted) in rows {
        let mut out = Vec::new(rt.alloc());
        if let Some(offset) = fault_offset(line) {
            out.extend_from_slice(offset.text.of(line))?;
            out.push(b' ')?;
            put_hex(&mut out, offset.number)?;
        }
        is(&rt, "offset", &out.as_slice(), &wanted);
    }
    Ok(())
}
