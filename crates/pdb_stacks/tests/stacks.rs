//! Whole texts of crashes, read line by line as a program reads them.

use super::fakes::{is, put_all, put_hex};
use crate::{
    Course, Heading, LineCode, ListedModule, ModuleRange, ReturnAddresses, add_range,
    faulting_module, frame_number, heading_of, put_line_code, range_of,
};
use std::alloc::{AllocError, Global};
use std::test::Fail;

/// A text that is read.
#[derive(Drop)]
struct Reading<'t> {
    course: Course,
    /// The module that failed.
    failed: Option<&'t [u8]>,
    /// The modules that are listed.
    names: Vec<&'t [u8]>,
    ranges: Vec<ModuleRange>,
    /// For each line what it is, or its references, and `r` where they are return addresses.
    out: Vec<u8>,
}

/// Adds a module, unless the list of unloaded ones runs.
fn put_module<'t>(
    it: &mut Reading<'t>,
    line: &'t [u8],
    module: ListedModule,
) -> Result<(), AllocError> {
    if it.course.lists_unloaded {
        return it.out.extend_from_slice(b"unloaded module");
    }
    let index = it.names.len();
    it.names.push(module.name.of(line))?;
    let range = ModuleRange {
        start: module.start,
        size: module.size,
        module: index,
    };
    add_range(&mut it.ranges, range)?;
    it.out.extend_from_slice(b"module")
}

/// Appends a name and a number.
fn put_pair(out: &mut Vec<u8>, name: &[u8], number: u64) -> Result<(), AllocError> {
    out.extend_from_slice(name)?;
    out.push(b' ')?;
    put_hex(out, number)?;
    Ok(out.push(b';')?)
}

/// Appends the address of a module that an address of the process is, and returns whether it is one.
fn put_address(it: &mut Reading<'_>, address: u64) -> Result<bool, AllocError> {
    let Some(range) = range_of(&it.ranges, address) else {
        return Ok(false);
    };
    put_pair(&mut it.out, it.names[range.module], address - range.start)?;
    Ok(true)
}

/// Appends the references of a line that is no heading, and returns whether it has some.
fn put_other<'t>(it: &mut Reading<'t>, line: &'t [u8]) -> Result<bool, AllocError> {
    if let Some(name) = faulting_module(line) {
        it.failed = Some(name.of(line));
    }
    let mut references = Vec::new(*it.out.allocator());
    match put_line_code(&mut references, line, it.failed.is_some())? {
        LineCode::Fault(offset) => {
            put_pair(&mut it.out, it.failed.unwrap_or(b"?"), offset.number)?;
            it.failed = None;
            Ok(!references.is_empty())
        }
        LineCode::References => {
            put_all(&mut it.out, line, &references)?;
            Ok(true)
        }
        LineCode::Address(address) => put_address(it, address.number),
        LineCode::Nothing => Ok(!references.is_empty()),
    }
}

/// Reads a line.
fn read_line<'t>(it: &mut Reading<'t>, line: &'t [u8]) -> Result<(), AllocError> {
    let heading = heading_of(line);
    let mut has_references = false;
    match heading {
        Heading::Unloaded => it.out.extend_from_slice(b"list")?,
        Heading::Inline => it.out.extend_from_slice(b"inline")?,
        Heading::Module(module) => put_module(it, line, module)?,
        Heading::Other => has_references = put_other(it, line)?,
    }
    let number = frame_number(line);
    if has_references
        && it
            .course
            .has_return_addresses(ReturnAddresses::ButFirst, number)
    {
        it.out.push(b'r')?;
    }
    it.course = it.course.after(heading, has_references);
    Ok(it.out.push(b'\n')?)
}

/// What each line of a text is.
fn read(alloc: Global, text: &[u8]) -> Result<Vec<u8>, AllocError> {
    let mut it = Reading {
        course: Course::begin(),
        failed: None,
        names: Vec::new(alloc),
        ranges: Vec::new(alloc),
        out: Vec::new(alloc),
    };
    for line in text.split(|b| *b == b'\n') {
        read_line(&mut it, line)?;
    }
    Ok(it.out)
}

#[test]
fn texts_of_several_tools(rt: HostRuntime) -> Result<(), Fail> {
    let text: &[u8] = b"start             end                 module name\n\
00007ff6`1c2a0000 00007ff6`1c2a7000   cpp_lld    (deferred)             \n \
# Child-SP          RetAddr               Call Site\n\
00 000000c1`2f6ff8b0 00007ff6`1c2a12a5     cpp_lld+0x1108\n\
01 (Inline Function) --------`--------     cpp_lld!tour::clamp+0x5 [C:\\tour\\tour.h @ 12] \n\
02 000000c1`2f6ff8e0 00007ff6`1c2a1160     cpp_lld!nested+0xc6 [C:\\tour\\main.cpp @ 62] \n\
03 000000c1`2f6ff940 00000000`00000000     cpp_lld!mainCRTStartup\n\
Exception thrown at 0x00007FF61C2A1108 in cpp-lld.exe: 0xC0000005: Access violation reading location 0x0000000000000000.\n\
rip=00007ff61c2a1108 rsp=000000c12f6ff8b0 rbp=0000000000000000\n    \
#1 0x7ff61c2a10c5 in main+0x1108 (C:\\tour\\cpp-lld.exe+0x1400010c5)\n   \
at cpp-lld!<BaseAddress>+0x10c6\n\
Faulting module name: cpp-lld.exe, version: 1.0.0.0, time stamp: 0x65a50521\n\
Fault offset: 0x0000000000001108\n\
cpp-lld          0x00007ff61c2a0000 + 10c6 \n\
cpp-lld!nested+0x14b\n\
cpp-lld!operator delete+0x5";
    let wanted: &[u8] = b"\n\
module\n\
\n\
cpp_lld 1108;\n\
inline\n\
cpp_lld nested c6;r\n\
\n\
cpp_lld 1108;\n\
\n\
cpp-lld.exe 1400010c5);r\n\
cpp-lld 10c6;r\n\
\n\
cpp-lld.exe 1108;\n\
cpp-lld 10c6;\n\
cpp-lld nested 14b;r\n\
cpp-lld operator delete 5;r\n";
    is(&rt, "text", &read(rt.alloc(), text)?.as_slice(), &wanted);
    Ok(())
}

#[test]
fn texts_of_a_debugger(rt: HostRuntime) -> Result<(), Fail> {
    let text: &[u8] = b"00007ff6`1c2a0000 00007ff6`1c2a7000   app        (deferred)             \n\
\n\
Unloaded modules:\n\
00007ffb`6a2b0000 00007ffb`6a2c0000   app.dll \n\
0:000> u 00007ff6`1c2a1108 L2\n\
00007ff6`1c2a1108 8b4510          mov     eax,dword ptr [rbp+10h]\n\
app+0x1108:\n\
00007ffb`6a2b0000  00007ff6`1c2a10c6 app+0x10c6\n\
00007ffb`6a2b0000  00007ff6`1c2a10c6";
    let wanted: &[u8] = b"module\n\
\n\
list\n\
unloaded module\n\
app 1108;\n\
app 1108;r\n\
app 1108;r\n\
app 10c6;r\n\
\n";
    is(&rt, "text", &read(rt.alloc(), text)?.as_slice(), &wanted);
    Ok(())
}

#[test]
fn faults_use_their_module_up(rt: HostRuntime) -> Result<(), Fail> {
    let text: &[u8] = b"  Fault Module Name:\tapp.exe\n  \
Exception Code:\tc0000005\n  \
Exception Offset:\t0000000000001108\n  \
Exception Offset:\t0000000000001108\n\
Fault offset: 0x5 a+0x1\n\
Faulting module name: b.exe, Fault offset: 0x6";
    let wanted: &[u8] = b"\n\napp.exe 1108;\n\na 1;\nb.exe 6;\n";
    is(&rt, "text", &read(rt.alloc(), text)?.as_slice(), &wanted);
    Ok(())
}
