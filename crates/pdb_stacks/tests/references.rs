//! The references of lines.

use super::fakes::{is, references_of, texts_of};
use std::test::Fail;

#[test]
fn references_of_each_form(rt: HostRuntime) -> Result<(), Fail> {
    let rows: [(&[u8], &[u8]); 14] = [
        (b"app+0x1108", b"app 1108;"),
        (b"app.exe + 0x1108", b"app.exe 1108;"),
        (b"app.exe@0x1108", b"app.exe 1108;"),
        (b"app(+0x10c6) [0x7f]", b"app 10c6;"),
        (
            b"  1 0x00000001400010c6 in app (+0x10c6) (0x0000000000000005)",
            b"app 10c6;",
        ),
        (b"app 0x00007ff61c2a0000 + 1108 ", b"app 1108;"),
        (b"cpp-lld \t0x00007FF61C2A0000 + 10C6", b"cpp-lld 10c6;"),
        (b"   at cpp-lld!<BaseAddress>+0x10c6", b"cpp-lld 10c6;"),
        (b"app!<BaseAddress> + 0x10c6", b"app 10c6;"),
        (
            b"02 cpp_lld!nested+0xc6 [C:\\tour\\main.cpp @ 62] ",
            b"cpp_lld nested c6;",
        ),
        (
            b" 1  tour-lld.exe!start + 0x31e",
            b"tour-lld.exe start 31e;",
        ),
        (
            b"tour-lld!mul_switch(int op = 0n3)+0x42 [x.c @ 3]",
            b"tour-lld mul_switch(int op = 0n3) 42;",
        ),
        (
            b"    #0 0x00e51085  (C:\\dir\\test-pdb.exe+0x401085)",
            b"test-pdb.exe 401085);",
        ),
        (
            b"C  [app.dll+0x10c6]  nested+0xc6  (main.cpp:62)",
            b"app.dll 10c6;",
        ),
    ];
    for (line, wanted) in rows {
        is(
            &rt,
            "references",
            &references_of(rt.alloc(), line)?.as_slice(),
            &wanted,
        );
    }
    Ok(())
}

#[test]
fn symbols_and_their_stops(rt: HostRuntime) -> Result<(), Fail> {
    let rows: [(&[u8], &[u8]); 14] = [
        (b"app!a::operator!=+0x12", b"app a::operator!= 12;"),
        (b"app!operator++0x12", b"app operator+ 12;"),
        (b"app!f at other!g+0x5", b"other g 5;"),
        (b"app!f [c.h : 3 + 0x5]", b""),
        (b"app!+0x5", b""),
        (b"app! + 0x5", b""),
        (b"app!f\x01+0x5", b""),
        (b"app!f\t+0x5", b""),
        (b"app!f \x20+0x5", b"app f   5;"),
        (b"app!operator!+0x5", b"app operator! 5;"),
        (b"app!operator[] + 0x5", b"app operator[] 5;"),
        (b"app!x::operator new+0x1f", b"app x::operator new 1f;"),
        (
            b"cpp-lld!operator delete+0x5",
            b"cpp-lld operator delete 5;",
        ),
        (
            b"app!app!app+0x1108!nested+0x108(+0x1108) app(+0x10c6))",
            b"app app 1108;0x108 1108;app 10c6);",
        ),
    ];
    for (line, wanted) in rows {
        is(
            &rt,
            "references",
            &references_of(rt.alloc(), line)?.as_slice(),
            &wanted,
        );
    }
    Ok(())
}

#[test]
fn lines_without_references(rt: HostRuntime) -> Result<(), Fail> {
    let lines: [&[u8]; 21] = [
        b"",
        b"app + 0x1108",
        b"o@0x1108",
        b"app+0x1108h",
        b"app+0x12(a)",
        b"app+0x12/",
        b"app+0x12_",
        b"app+0x12`",
        b"app+0x",
        b"app+0x11111111111111111",
        b"app+1108",
        b"app+0X1108",
        b"+0x1108",
        b"app(+0x1108",
        b"app  (+0x1108)",
        b"app(0x1108)",
        b"app 0x7ff61c2a0000 + 1108",
        b"app0x00007ff61c2a0000 + 1108",
        b"app 0x00007ff61c2a0000 + 0x1108",
        b"03 000000c1`2f6ff940 00000000`00000000     cpp_lld!mainCRTStartup",
        b"[0x00007FF61C2A1108+24]",
    ];
    for line in lines {
        is(
            &rt,
            "references",
            &references_of(rt.alloc(), line)?.as_slice(),
            &b"".as_slice(),
        );
    }
    Ok(())
}

#[test]
fn bare_names_count_alone(rt: HostRuntime) -> Result<(), Fail> {
    let rows: [(&[u8], &[u8]); 6] = [
        (
            b"in main+0x13 (C:\\main.exe+0x140001113)",
            b"main.exe 140001113);",
        ),
        (b"[app.dll+0x10c6]  nested+0xc6", b"app.dll 10c6;"),
        (b"main+0x13 app+0x10c6", b"main 13;app 10c6;"),
        (b"main+0x13 app!f+0x5", b"app f 5;"),
        (b"main+0x13 app(+0x10c6)", b"app 10c6;"),
        (
            b"caf\xe9 app+0x1108\x00 \x1b[31mapp+0x10c6",
            b"app 1108;31mapp 10c6;",
        ),
    ];
    for (line, wanted) in rows {
        is(
            &rt,
            "references",
            &references_of(rt.alloc(), line)?.as_slice(),
            &wanted,
        );
    }
    Ok(())
}

#[test]
fn numbers_of_references(rt: HostRuntime) -> Result<(), Fail> {
    let rows: [(&[u8], &[u8]); 5] = [
        (b"a+0xffffffffffffffff", b"a ffffffffffffffff;"),
        (b"a+0xFfAa09", b"a ffaa09;"),
        (b"a+0x0", b"a 0;"),
        (b"a+0x0000000000000001.b+0x2", b".b 2;"),
        (b"a.+0x1.b+0x2", b"a. 1;.b 2;"),
    ];
    for (line, wanted) in rows {
        is(
            &rt,
            "references",
            &references_of(rt.alloc(), line)?.as_slice(),
            &wanted,
        );
    }
    Ok(())
}

#[test]
fn texts_of_references(rt: HostRuntime) -> Result<(), Fail> {
    let rows: [(&[u8], &[u8]); 4] = [
        (b"01 app+0x1108", b"app+0x1108;"),
        (b"x app(+0x10c6))", b"app(+0x10c6);"),
        (
            b"<app 0x00007ff61c2a0000 + 10c6 ",
            b"app 0x00007ff61c2a0000 + 10c6;",
        ),
        (b"(a!b c + 0x1F)", b"a!b c + 0x1F;"),
    ];
    for (line, wanted) in rows {
        is(
            &rt,
            "texts",
            &texts_of(rt.alloc(), line)?.as_slice(),
            &wanted,
        );
    }
    Ok(())
}
