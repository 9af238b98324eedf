//! Addresses of a process.

use super::fakes::{is, put_hex};
use crate::process_address;
use std::test::Fail;

#[test]
fn addresses_of_lines(rt: HostRuntime) -> Result<(), Fail> {
    let rows: [(&[u8], &[u8]); 20] = [
        (
            b"Exception thrown at 0x00007FF61C2A1108 in cpp-lld.exe: 0xC0000005: Access",
            b"0x00007FF61C2A1108 7ff61c2a1108",
        ),
        (
            b"Unhandled exception at 0x00E51086 in test-pdb.exe: 0xC0000005",
            b"0x00E51086 e51086",
        ),
        (
            b"\t(No symbol) [0x00007FF61C2A137E]",
            b"0x00007FF61C2A137E 7ff61c2a137e",
        ),
        (
            b"00 000000c1`2f6ff8b0 00007ff6`1c2a12a5",
            b"000000c1`2f6ff8b0 c12f6ff8b0",
        ),
        (b"rip=00007ff61c2a1108 rsp=000000c12f6ff8b0", b""),
        (b"    rip = 0x00007ff61c2a1108", b""),
        (b"eax=00e51080 ebx=00000000", b""),
        (
            b"code 0xC0000005 at 0x7ff61c2a1108",
            b"0x7ff61c2a1108 7ff61c2a1108",
        ),
        (b"0x00e51086 00e51090", b"0x00e51086 e51086"),
        (b"00e51086", b""),
        (b"0x12345", b""),
        (b"0x123456", b"0x123456 123456"),
        (b"0x1`23456789", b"0x1`23456789 123456789"),
        (b"0x`23456789", b""),
        (b"0x12`3456789", b""),
        (b"0x12345678901234567", b""),
        (b"0X00007FF61C2A1108", b""),
        (b"_0x7ff61c2a1108 0x7ff61c2a1108_", b""),
        (
            b"app.exe!00007ff61c2a10c6()",
            b"00007ff61c2a10c6 7ff61c2a10c6",
        ),
        (
            b"0xffffffffffffffff",
            b"0xffffffffffffffff ffffffffffffffff",
        ),
    ];
    for (line, wanted) in rows {
        let mut out = Vec::new(rt.alloc());
        if let Some(address) = process_address(line) {
            out.extend_from_slice(address.text.of(line))?;
            out.push(b' ')?;
            put_hex(&mut out, address.number)?;
        }
        is(&rt, "address", &out.as_slice(), &wanted);
    }
    Ok(())
}
