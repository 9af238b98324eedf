//! The sites of inlined functions, as `inlinees` tells them.

use super::texts::{joined, with_module, with_module_at, writes};
use crate::command::Command;
use pdb_sample::streams::MODULE;
use std::alloc::Global;
use std::process::Abort;
use std::test::Fail;

const LISTED: &[u8] = b"inlinee 00001001\n";

/// A procedure at 1:0x200, and the beginning of one.
const SECOND: &[u8] =
    b"\x2a\0\x10\x11\0\0\0\0\x50\0\0\0\0\0\0\0\x30\0\0\0\x04\0\0\0\x2c\0\0\0\x07\x10\0\0\0\x02\0\0\x01\0\0main\0";

const CUT: &[u8] = b"\x06\0\x10\x11\0\0\0\0";

/// Sites of the function 0x1001, whose annotations have a fault behind one record and behind two, and of 0x1002, which
/// isn't listed.
const ONE: &[u8] = b"\x12\0\x4d\x11\x04\0\0\0\x4c\0\0\0\x01\x10\0\0\x0c\x02\x08\x0e";

const TWO: &[u8] = b"\x16\0\x4d\x11\x04\0\0\0\x4c\0\0\0\x01\x10\0\0\x0c\x02\x08\x0c\x03\x04\x0e\0";

const UNLISTED: &[u8] = b"\x12\0\x4d\x11\x04\0\0\0\x4c\0\0\0\x02\x10\0\0\x0c\x02\x08\x0e";

/// The sample whose module has these symbols writes this text behind the inlined function.
fn sites(rt: &impl Abort, alloc: Global, symbols: &[&[u8]], text: &[u8]) -> Result<(), Fail> {
    let symbols = joined(alloc, symbols)?;
    let file = with_module(alloc, &symbols, &MODULE[84..])?;
    writes(rt, alloc, &file, &[Command::Inlinees(0)], &[LISTED, text])
}

#[test]
fn a_site_stands_in_the_last_procedure_before_it(rt: HostRuntime) -> Result<(), Fail> {
    let (procedure, site, end) = (&MODULE[4..48], &MODULE[48..76], &MODULE[80..84]);
    let text =
        b"site 0000005c 00001001\nline 0001:00000208 2 0 10 11 - - S\nline 0001:0000020e 5 0 12 13 - - S\n";
    sites(&rt, rt.alloc(), &[procedure, SECOND, site], text)?;
    let text =
        b"site 00000034 00001001\nline 0001:00000108 2 0 10 11 - - S\nline 0001:0000010e 5 0 12 13 - - S\n";
    sites(&rt, rt.alloc(), &[procedure, end, site, SECOND], text)?;
    let text =
        b"site 00000038 00001001\nline 0001:00000108 2 0 10 11 - - S\nline 0001:0000010e 5 0 12 13 - - S\n";
    sites(&rt, rt.alloc(), &[procedure, CUT, site], text)
}

#[test]
fn a_site_without_a_procedure_or_a_function_has_no_records(rt: HostRuntime) -> Result<(), Fail> {
    let (procedure, site) = (&MODULE[4..48], &MODULE[48..76]);
    let text = b"site 00000004 00001001\n";
    sites(&rt, rt.alloc(), &[site, procedure], text)?;
    let text = b"site 0000000c 00001001\n";
    sites(&rt, rt.alloc(), &[CUT, site], text)?;
    // The annotations of these sites aren't read.
    let text = b"site 00000004 00001001\nsite 00000018 00001002\n";
    sites(&rt, rt.alloc(), &[ONE, UNLISTED], text)?;
    let text = b"site 00000030 00001002\n";
    sites(&rt, rt.alloc(), &[procedure, UNLISTED], text)?;
    sites(&rt, rt.alloc(), &[procedure, b"\x02\0\x4d\x11"], b"")
}

#[test]
fn a_fault_of_annotations_ends_the_text(rt: HostRuntime) -> Result<(), Fail> {
    let (procedure, site) = (&MODULE[4..48], &MODULE[48..76]);
    let text = b"site 00000030 00001001\nerror 16\n";
    sites(&rt, rt.alloc(), &[procedure, ONE, site], text)?;
    let text = b"site 00000030 00001001\nline 0001:00000108 2 0 10 11 - - S\nerror 16\n";
    sites(&rt, rt.alloc(), &[procedure, TWO, site, b"\x01\0"], text)
}

#[test]
fn a_fault_of_symbols_comes_behind_the_sites(rt: HostRuntime) -> Result<(), Fail> {
    let (procedure, site) = (&MODULE[4..48], &MODULE[48..76]);
    let text = b"site 00000004 00001001\nerror 11\n";
    sites(&rt, rt.alloc(), &[site, procedure, b"\x01\0"], text)?;
    sites(
        &rt,
        rt.alloc(),
        &[procedure, b"\x06\0\x4d\x11"],
        b"error 1\n",
    )?;
    let file = with_module_at(rt.alloc(), 0, b"\x01")?;
    let commands = [Command::Symbols(0), Command::Inlinees(0)];
    let texts = [b"error 2\n", LISTED, b"error 2\n"];
    writes(&rt, rt.alloc(), &file, &commands, &texts)
}

#[test]
fn a_fault_of_inlined_functions_ends_the_text(rt: HostRuntime) -> Result<(), Fail> {
    for size in [17u8, 20, 27] {
        let file = with_module_at(rt.alloc(), 196, &[size])?;
        let texts = [LISTED, b"error 1\n"];
        writes(&rt, rt.alloc(), &file, &[Command::Inlinees(0)], &texts)?;
    }
    for size in 0..16u8 {
        let file = with_module_at(rt.alloc(), 196, &[size])?;
        let text: &[u8] = if size == 4 {
            b"site 00000030 00001001\n"
        } else {
            b"error 1\n"
        };
        writes(&rt, rt.alloc(), &file, &[Command::Inlinees(0)], &[text])?;
    }
    Ok(())
}
