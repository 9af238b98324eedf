//! What a file hasn't is no error.

use super::files::{debug_stream, file_of, module_record};
use super::program::{checks, prints};
use std::alloc::{AllocError, Global};
use std::process::Abort;
use std::test::Fail;

/// An information stream without names.
static INFORMATION: [u8; 48] = [0; 48];

/// A file with this stream of debug information, which has no types and no ids.
fn file_with(alloc: Global, information: Option<&[u8]>) -> Result<Vec<u8>, AllocError> {
    let mut streams: [Option<&[u8]>; 9] = [None; 9];
    streams[1] = Some(&INFORMATION);
    streams[3] = information;
    file_of(alloc, &streams)
}

/// No command but `streams` writes a line of all that the file has, and `check` finds nothing wrong.
fn has_nothing(rt: &(impl Abort + AllocGlobal), bytes: &[u8]) -> Result<(), Fail> {
    for command in ["modules", "sections", "sources"] {
        prints(rt, bytes, &[command, "a.pdb"], b"")?;
        prints(rt, bytes, &[command, "a.pdb", "--json"], b"")?;
    }
    for command in ["find", "where"] {
        prints(rt, bytes, &[command, "a.pdb", "*"], b"")?;
        prints(rt, bytes, &[command, "--json", "a.pdb", "*"], b"")?;
    }
    prints(rt, bytes, &["lines", "a.pdb"], b"")?;
    prints(rt, bytes, &["scopes", "a.pdb"], b"")?;
    prints(rt, bytes, &["symbols", "a.pdb"], b"")?;
    prints(rt, bytes, &["symbols", "--all", "a.pdb"], b"")?;
    prints(rt, bytes, &["types", "a.pdb"], b"")?;
    checks(rt, bytes, true, b"a.pdb: ok\n")
}

#[test]
fn files_without_debug_information(rt: HostRuntime) -> Result<(), Fail> {
    let bytes = file_with(rt.alloc(), None)?;
    has_nothing(&rt, &bytes)?;
    prints(&rt, &bytes, &["lines", "a.pdb", "7"], b"none\n")?;
    prints(&rt, &bytes, &["scopes", "a.pdb", "0", "1"], b"none\nnone\n")?;
    let bytes = file_with(rt.alloc(), Some(b""))?;
    has_nothing(&rt, &bytes)?;
    prints(&rt, &bytes, &["symbols", "a.pdb", "7"], b"none\n")?;
    Ok(())
}

#[test]
fn a_file_without_global_symbols(rt: HostRuntime) -> Result<(), Fail> {
    let alloc = rt.alloc();
    let module = module_record(0xffff, 0, 0);
    let debug = debug_stream(alloc, 0xffff, &module, b"", b"")?;
    let bytes = file_with(alloc, Some(&debug))?;
    prints(&rt, &bytes, &["symbols", "a.pdb"], b"")?;
    prints(&rt, &bytes, &["find", "a.pdb", "*"], b"")?;
    let debug = debug_stream(alloc, 8, &module, b"", b"")?;
    let bytes = file_with(alloc, Some(&debug))?;
    prints(&rt, &bytes, &["symbols", "a.pdb"], b"")?;
    Ok(())
}

#[test]
fn a_byte_of_debug_information_is_damage(rt: HostRuntime) -> Result<(), Fail> {
    let bytes = file_with(rt.alloc(), Some(b"\xff"))?;
    let wanted: &[u8] = b"error 1 the data ends before a record does\n";
    prints(&rt, &bytes, &["modules", "a.pdb"], wanted)?;
    prints(&rt, &bytes, &["sections", "a.pdb"], wanted)?;
    prints(&rt, &bytes, &["lines", "a.pdb"], wanted)?;
    prints(&rt, &bytes, &["symbols", "a.pdb"], wanted)?;
    // The list of modules, and that of the global symbols.
    let twice: &[u8] = b"error 1 the data ends before a record does\n\
        error 1 the data ends before a record does\n";
    prints(&rt, &bytes, &["find", "a.pdb", "*"], twice)?;
    Ok(())
}
