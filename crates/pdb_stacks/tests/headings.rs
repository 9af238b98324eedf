//! What lines are.

use super::fakes::{is, put_hex};
use crate::{Heading, heading_of};
use std::alloc::{AllocError, Global};
use std::test::Fail;

/// What a line is, as text.
fn text_of(alloc: Global, line: &[u8]) -> Result<Vec<u8>, AllocError> {
    let mut out = Vec::new(alloc);
    match heading_of(line) {
        Heading::Unloaded => out.extend_from_slice(b"unloaded")?,
        Heading::Inline => out.extend_from_slice(b"inline")?,
        Heading::Other => {}
        Heading::Module(module) => {
            out.extend_from_slice(module.name.of(line))?;
            out.push(b' ')?;
            put_hex(&mut out, module.start)?;
            out.push(b' ')?;
            put_hex(&mut out, module.size)?;
        }
    }
    Ok(out)
}

#[test]
fn modules_of_lists(rt: HostRuntime) -> Result<(), Fail> {
    let rows: [(&[u8], &[u8]); 15] = [
        (
            b"00007ff6`1c2a0000 00007ff6`1c2a7000   cpp_lld    (deferred)             ",
            b"cpp_lld 7ff61c2a0000 7000",
        ),
        (
            b"00e50000 00e55000   test_pdb   (deferred)             ",
            b"test_pdb e50000 5000",
        ),
        (
            b"0x7ff61c2a0000 - 0x7ff61c2a6fff  app.exe  1.0.0.0  (main)",
            b"app.exe 7ff61c2a0000 6fff",
        ),
        (
            b"00007FF61C2A0000-00007FF61C2A7000 app.exe\t1.0.0.0",
            b"app.exe 7ff61c2a0000 7000",
        ),
        (
            b"0x00007ff61c2a0000 - 0x00007ff61c2a7000 \tC:\\Program Files\\Tour\\app.dll",
            b"app.dll 7ff61c2a0000 7000",
        ),
        (
            b"00e50000 00e55000 \\\\server\\share\\a b.exe  \r",
            b"a b.exe e50000 5000",
        ),
        (b"00e50000 00e55000 a", b"a e50000 5000"),
        (b"00e50000 00e55000 a\r", b"a e50000 5000"),
        (b"\t00e50000\t-00e50001 a ", b"a e50000 1"),
        (b"0000000000010000 0000000100010000 a", b"a 10000 100000000"),
        (
            b"0x123456789abc0000 0x123456789abd0000 a",
            b"a 123456789abc0000 10000",
        ),
        (
            b"C:\\dir\\app.exe:app.exe (00007FF61C2A0000), size: 28672 (result: 0), SymType: '-deferred-'",
            b"app.exe 7ff61c2a0000 7000",
        ),
        (
            b"a (00e50000), size: 4294967295 (result: 0)",
            b"a e50000 ffffffff",
        ),
        (b"x (a (00e50000), size: 1 (result: ", b"a e50000 1"),
        (b"0x10000000 0x10010000 C:\\dir\\", b" 10000000 10000"),
    ];
    for (line, wanted) in rows {
        is(
            &rt,
            "module",
            &text_of(rt.alloc(), line)?.as_slice(),
            &wanted,
        );
    }
    Ok(())
}

#[test]
fn lines_that_list_none(rt: HostRuntime) -> Result<(), Fail> {
    let lines: [&[u8]; 21] = [
        b"",
        b"start             end                 module name",
        b"00e50001 00e55000 a",
        b"00e50000 00e50000 a",
        b"00e55000 00e50000 a",
        b"0000000000010000 0000000100010001 a",
        b"00e50000 00e55000",
        b"00e50000 00e55000 ",
        b"00e50000 00e55000 a(b)",
        b"00e50000 00e55000a",
        b"00e50000  00e5500 a",
        b"0e50000 0e55000 a",
        b"00e50000--00e55000 a",
        b"PE\t       140000000-       140007000\tDeferred        app",
        b"00007FF61C2A1108 0000000000000005 00007FF61C2A1160 0000000000000000  app.exe!nested+0x108",
        b"a (00e50000), size: 0 (result: 0)",
        b"a (00e50000), size: 4294967296 (result: 0)",
        b"a (00e50000), size: 00000000001 (result: 0)",
        b"a (00e50000), size: 1 (resul",
        b" (00e50000), size: 1 (result: 0)",
        b"a (00e50000 ), size: 1 (result: 0)",
    ];
    for line in lines {
        is(
            &rt,
            "none",
            &text_of(rt.alloc(), line)?.as_slice(),
            &b"".as_slice(),
        );
    }
    Ok(())
}

#[test]
fn other_headings(rt: HostRuntime) -> Result<(), Fail> {
    let rows: [(&[u8], &[u8]); 5] = [
        (b"Unloaded modules:", b"unloaded"),
        (b"Unloaded modules: 3", b"unloaded"),
        (b" Unloaded modules:", b""),
        (
            b"01 (Inline Function) --------`--------     cpp_lld!tour::clamp+0x5 [C:\\tour\\tour.h @ 12] ",
            b"inline",
        ),
        (b"01 (inline) app!f+0x5", b""),
    ];
    for (line, wanted) in rows {
        is(
            &rt,
            "heading",
            &text_of(rt.alloc(), line)?.as_slice(),
            &wanted,
        );
    }
    Ok(())
}
