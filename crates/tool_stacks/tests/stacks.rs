//! Whole texts of crashes, with their frames.

use super::fakes::{Fake, is, written};
use crate::{KnownModule, StackText};
use pdb_stacks::ReturnAddresses;
use std::test::Fail;

const CLAMP: &[u8] =
    b"    tour::clamp /tour/./tour.h:12:0 (inlined)\n    nested /tour/main.cpp:63:23\n";

const NESTED: &[u8] = b"    nested /tour/main.cpp:63:20\n";

const UNROLL: &[u8] =
    b"    unroll<3>::run /tour/main.cpp:48:0 (inlined)\n    unroll<4>::run /tour/main.cpp:48:0 (inlined)\n    nested /tour/main.cpp:62:13\n";

/// A program that has one PDB.
fn program<'a>(name: &'a [u8], frames: &'a [(u32, &'a [u8])]) -> Fake<'a> {
    Fake {
        name,
        module: KnownModule::Pdb { is_x86: false },
        begin: 0x1000,
        frames,
    }
}

#[test]
fn texts_of_several_tools(rt: HostRuntime) -> Result<(), Fail> {
    let text: &[u8] = b"00007ff6`1c2a0000 00007ff6`1c2a7000   cpp_lld    (deferred)             \n \
# Child-SP          RetAddr               Call Site\n\
00 000000c1`2f6ff8b0 00007ff6`1c2a12a5     cpp_lld+0x1108\n\
01 (Inline Function) --------`--------     cpp_lld!tour::clamp+0x5 [C:\\tour\\tour.h @ 12] \n\
03 000000c1`2f6ff940 00000000`00000000     cpp_lld!mainCRTStartup\n\
Exception thrown at 0x00007FF61C2A1108 in cpp-lld.exe: 0xC0000005: Access violation reading location 0x0000000000000000.\n\
rip=00007ff61c2a1108 rsp=000000c12f6ff8b0 rbp=0000000000000000\n    \
#1 0x7ff61c2a10c5 in main+0x1108 (C:\\tour\\cpp-lld.exe+0x1400010c5)\n   \
at cpp-lld!<BaseAddress>+0x10c6\n\
Faulting module name: cpp-lld.exe, version: 1.0.0.0, time stamp: 0x65a50521\n\
Fault offset: 0x0000000000001108\n\
cpp-lld          0x00007ff61c2a0000 + 10c6 \n";
    let wanted: &[u8] =
        b"00007ff6`1c2a0000 00007ff6`1c2a7000   cpp_lld    (deferred)             \n \
# Child-SP          RetAddr               Call Site\n\
00 000000c1`2f6ff8b0 00007ff6`1c2a12a5     cpp_lld+0x1108\n    \
tour::clamp /tour/./tour.h:12:0 (inlined)\n    nested /tour/main.cpp:63:23\n\
01 (Inline Function) --------`--------     cpp_lld!tour::clamp+0x5 [C:\\tour\\tour.h @ 12] \n\
03 000000c1`2f6ff940 00000000`00000000     cpp_lld!mainCRTStartup\n\
Exception thrown at 0x00007FF61C2A1108 in cpp-lld.exe: 0xC0000005: Access violation reading location 0x0000000000000000.\n    \
tour::clamp /tour/./tour.h:12:0 (inlined)\n    nested /tour/main.cpp:63:23\n\
rip=00007ff61c2a1108 rsp=000000c12f6ff8b0 rbp=0000000000000000\n    \
#1 0x7ff61c2a10c5 in main+0x1108 (C:\\tour\\cpp-lld.exe+0x1400010c5)\n    \
nested /tour/main.cpp:63:20\n   \
at cpp-lld!<BaseAddress>+0x10c6\n    \
nested /tour/main.cpp:63:20\n\
Faulting module name: cpp-lld.exe, version: 1.0.0.0, time stamp: 0x65a50521\n\
Fault offset: 0x0000000000001108\n    \
tour::clamp /tour/./tour.h:12:0 (inlined)\n    nested /tour/main.cpp:63:23\n\
cpp-lld          0x00007ff61c2a0000 + 10c6 \n    \
unroll<3>::run /tour/main.cpp:48:0 (inlined)\n    unroll<4>::run /tour/main.cpp:48:0 (inlined)\n    nested /tour/main.cpp:62:13\n";
    let frames: &[(u32, &[u8])] = &[
        (0x1108, CLAMP),
        (0x10c6, UNROLL),
        (0x10c5, NESTED),
        (0x10c4, NESTED),
    ];
    let fake = program(b"cpp-lld.pdb", frames);
    let out = written(rt.alloc(), text, ReturnAddresses::ButFirst, fake)?;
    is(&rt, "text", &out.as_slice(), &wanted);
    Ok(())
}

#[test]
fn addresses_of_an_image(rt: HostRuntime) -> Result<(), Fail> {
    let text: &[u8] = b"00e50000 00e55000   test_pdb   (deferred)             \n\
00 00b9f8a4 00e5106e     test_pdb+0x10b5\n\
Unhandled exception at 0x00E51086 in test-pdb.exe: 0xC0000005: Access violation.\n    \
#0 0x00e51085  (C:\\dir\\test-pdb.exe+0x401085)\n\
eax=00e51080 ebx=00000000\n";
    let wanted: &[u8] = b"00e50000 00e55000   test_pdb   (deferred)             \n\
00 00b9f8a4 00e5106e     test_pdb+0x10b5\n    \
bar test-pdb-alt.cpp:8:0\n\
Unhandled exception at 0x00E51086 in test-pdb.exe: 0xC0000005: Access violation.\n    \
baz test-pdb-nested.h:6:0\n    \
#0 0x00e51085  (C:\\dir\\test-pdb.exe+0x401085)\n    \
baz test-pdb-nested.h:6:0\n\
eax=00e51080 ebx=00000000\n";
    let baz: &[u8] = b"    baz test-pdb-nested.h:6:0\n";
    let frames: &[(u32, &[u8])] = &[
        (0x10b5, b"    bar test-pdb-alt.cpp:8:0\n"),
        (0x1086, baz),
        (0x1085, baz),
    ];
    let mut fake = program(b"test-pdb.exe", frames);
    fake.module = KnownModule::Image {
        base: 0x40_0000,
        size: 0x5000,
    };
    let out = written(rt.alloc(), text, ReturnAddresses::ButFirst, fake)?;
    is(&rt, "text", &out.as_slice(), &wanted);
    Ok(())
}

#[test]
fn last_lines_get_an_end(rt: HostRuntime) -> Result<(), Fail> {
    let frames: &[(u32, &[u8])] = &[(0x1108, CLAMP), (0x10c6, UNROLL)];
    let fake = program(b"app", frames);
    let text = b"\xef\xbb\xbf app+0x1108 app+0x1108 app+0x10c6 app+0x1 app+0x10c6";
    let out = written(rt.alloc(), text, ReturnAddresses::Never, fake)?;
    let wanted: &[u8] = b"\xef\xbb\xbf app+0x1108 app+0x1108 app+0x10c6 app+0x1 app+0x10c6\n    \
tour::clamp /tour/./tour.h:12:0 (inlined)\n    nested /tour/main.cpp:63:23\n    \
unroll<3>::run /tour/main.cpp:48:0 (inlined)\n    unroll<4>::run /tour/main.cpp:48:0 (inlined)\n    nested /tour/main.cpp:62:13\n";
    is(&rt, "text", &out.as_slice(), &wanted);
    Ok(())
}

#[test]
fn return_addresses_are_of_the_byte_before(rt: HostRuntime) -> Result<(), Fail> {
    let frames: &[(u32, &[u8])] = &[
        (0xfff, b"    before\n"),
        (0x1000, b"    begin\n"),
        (0x1107, CLAMP),
        (0, b"    zero\n"),
    ];
    let fake = program(b"app.dll", frames);
    let text: &[u8] =
        b"app.dll+0x1000\napp.dll+0x1108\napp.dll+0x0\nFault Module Name: app.dll\nFault offset: 1000\n";
    let out = written(rt.alloc(), text, ReturnAddresses::Always, fake)?;
    let wanted: &[u8] = b"app.dll+0x1000\n    begin\napp.dll+0x1108\n    \
tour::clamp /tour/./tour.h:12:0 (inlined)\n    nested /tour/main.cpp:63:23\n\
app.dll+0x0\n    zero\nFault Module Name: app.dll\nFault offset: 1000\n    begin\n";
    is(&rt, "text", &out.as_slice(), &wanted);
    Ok(())
}

#[test]
fn ranges_are_added(rt: HostRuntime) -> Result<(), Fail> {
    let frames: &[(u32, &[u8])] = &[(0x37e, NESTED)];
    let mut fake = program(b"tour-lld", frames);
    let mut stack = StackText::new(rt.alloc(), ReturnAddresses::ButFirst);
    stack.add_module(b"tour-lld", 0x7ff6_1c2a_0000, 0x7000)?;
    let mut out = Vec::new(rt.alloc());
    stack.put_line(&mut out, &mut fake, b"0x00007ff61c2a037e x", true)?;
    let wanted: &[u8] = b"0x00007ff61c2a037e x\n    nested /tour/main.cpp:63:20\n";
    is(&rt, "line", &out.as_slice(), &wanted);
    is(&rt, "answered", &stack.is_answered(), &true);
    is(&rt, "missing", &stack.missing().len(), &0);
    out.clear();
    stack.put_line(&mut out, &mut fake, b"Unloaded modules:", true)?;
    stack.put_line(&mut out, &mut fake, b"00010000 00020000 other", true)?;
    stack.put_line(&mut out, &mut fake, b"0x00015000", false)?;
    let wanted: &[u8] = b"Unloaded modules:\n00010000 00020000 other\n0x00015000";
    is(&rt, "unloaded", &out.as_slice(), &wanted);
    is(&rt, "none missing", &stack.missing().len(), &0);
    Ok(())
}
