//! Where the public symbol before a place counts, in whole files.

use crate::tests::code::{END, Symbols};
use crate::tests::files::{file_of_streams, put_numbers};
use crate::tests::resolver::{DBI, INFORMATION, SECTIONS, STRINGS, texts_are};
use pdb::Result;
use std::alloc::Global;
use std::process::Abort;

/// A DBI stream of one module, whose stream has so many bytes of symbols, with contributions of these offsets in section
/// 1, sizes and modules.
fn dbi(alloc: Global, symbols: u32, rows: &[(u32, u32, u16)]) -> Result<Vec<u8>> {
    let mut bytes = Vec::new(alloc);
    bytes.extend_from_slice(&DBI[0..144])?;
    for (offset, size, module) in rows {
        bytes.extend_from_slice(&[1, 0, 0, 0])?;
        bytes.extend_from_slice(&offset.to_le_bytes())?;
        bytes.extend_from_slice(&size.to_le_bytes())?;
        bytes.extend_from_slice(&[0x20, 0, 0x50, 0x60])?;
        bytes.extend_from_slice(&module.to_le_bytes())?;
        bytes.extend_from_slice(&[0; 10])?;
    }
    let size = bytes.len().saturating_sub(140).min(512) as u32;
    put_numbers(&mut bytes, 28, &[size]);
    put_numbers(&mut bytes, 100, &[symbols, 0, 0]);
    bytes.extend_from_slice(&DBI[172..184])?;
    Ok(bytes)
}

/// Public symbols at these offsets in section 1.
fn publics(alloc: Global, rows: &[(u32, &str)]) -> Result<Vec<u8>> {
    let mut bytes = Vec::new(alloc);
    for (offset, name) in rows {
        let size = 13 + name.len().min(100) as u16;
        bytes.extend_from_slice(&size.to_le_bytes())?;
        bytes.extend_from_slice(b"\x0e\x11\x02\0\0\0")?;
        bytes.extend_from_slice(&offset.to_le_bytes())?;
        bytes.extend_from_slice(&[1, 0])?;
        bytes.extend_from_slice(name.as_bytes())?;
        bytes.push(0)?;
    }
    Ok(bytes)
}

/// A file with these contributions and public symbols. Its module has a procedure of 16 bytes at 1:100, one without
/// bytes at 1:120, and one whose name is empty at 1:170.
fn file(
    alloc: Global,
    contributions: &[(u32, u32, u16)],
    names: &[(u32, &str)],
) -> Result<Vec<u8>> {
    let mut symbols = Symbols::new(alloc)?;
    symbols.procedure(0x100, 0x10, END, b"\x01\0\0main\0")?;
    symbols.procedure(0x120, 0, END, b"\x01\0\0zero\0")?;
    symbols.procedure(0x170, 0x10, END, b"\x01\0\0\0")?;
    file_with(alloc, &symbols, contributions, names)
}

/// A file of one module with these symbols, contributions and public symbols.
pub fn file_with(
    alloc: Global,
    symbols: &Symbols,
    contributions: &[(u32, u32, u16)],
    names: &[(u32, &str)],
) -> Result<Vec<u8>> {
    let dbi = dbi(alloc, symbols.next(), contributions)?;
    let publics = publics(alloc, names)?;
    let streams: [&[u8]; 9] = [
        b"",
        &INFORMATION,
        b"",
        dbi.as_slice(),
        b"",
        publics.as_slice(),
        symbols.bytes.as_slice(),
        STRINGS,
        &SECTIONS,
    ];
    file_of_streams(alloc, streams)
}

/// At each of these offsets in section 1 stands one frame of this name, without a line, whatever was asked before.
fn names_are(rt: &impl Abort, alloc: Global, file: &[u8], asked: &[(u32, &str)]) -> Result<()> {
    for (offset, name) in asked {
        let mut wanted = Vec::new(alloc);
        wanted.extend_from_slice(name.as_bytes())?;
        wanted.extend_from_slice(b"\n??:0:0\n\n")?;
        texts_are(rt, alloc, file, &[Some((1, *offset))], wanted.as_slice())?;
    }
    Ok(())
}

/// The public symbols of two of the files.
const NAMES: [(u32, &str); 6] = [
    (0x100, "pub"),
    (0x120, "nil"),
    (0x128, "own"),
    (0x170, "gap"),
    (0x1a4, "mod"),
    (0x1c0, "far"),
];

#[test]
fn a_public_symbol_counts_in_its_own_contribution(rt: HostRuntime) -> Result<()> {
    let alloc = rt.alloc();
    // Module 9 isn't listed.
    let listed = [
        (0x100, 0x30, 0),
        (0x130, 0x10, 0),
        (0x170, 0x20, 0),
        (0x1a0, 0x10, 9),
    ];
    let file = file(alloc, &listed, &NAMES)?;
    let asked = [
        // Before every public symbol, and a procedure.
        (0xff, "??"),
        (0x100, "main"),
        (0x10f, "main"),
        // Padding behind the procedure that begins at the public symbol, and at one without bytes.
        (0x110, "??"),
        (0x11f, "??"),
        (0x120, "??"),
        (0x127, "??"),
        // In the contribution of the public symbol, and in the next one of the same module.
        (0x128, "own"),
        (0x12f, "own"),
        (0x130, "??"),
        // In no contribution.
        (0x140, "??"),
        // A procedure with an empty name, and behind it.
        (0x170, "??"),
        (0x17f, "??"),
        (0x180, "??"),
        // In a contribution of a module that isn't listed.
        (0x1a0, "??"),
        (0x1a4, "mod"),
        (0x1af, "mod"),
        (0x1b0, "??"),
        // The public symbol is in no contribution.
        (0x1c0, "??"),
        (0x1c4, "??"),
    ];
    names_are(&rt, alloc, &file, &asked)
}

#[test]
fn without_contributions_a_public_symbol_counts(rt: HostRuntime) -> Result<()> {
    let alloc = rt.alloc();
    let file = file(alloc, &[], &NAMES)?;
    let asked = [
        (0xff, "??"),
        (0x100, "pub"),
        (0x110, "pub"),
        (0x120, "nil"),
        (0x140, "own"),
        (0x170, "gap"),
        (0x1a0, "gap"),
        (0x1c4, "far"),
    ];
    names_are(&rt, alloc, &file, &asked)
}

#[test]
fn of_contributions_that_overlap_the_public_symbols_own_is_the_first_listed(
    rt: HostRuntime,
) -> Result<()> {
    let alloc = rt.alloc();
    let listed = [(0x110, 0x10, 0), (0x100, 0x30, 0), (0x118, 0x90, 9)];
    let names = [
        (0x108, "one"),
        (0x114, "two"),
        (0x124, "six"),
        (0x130, "ten"),
    ];
    let file = file(alloc, &listed, &names)?;
    let asked = [
        (0x108, "main"),
        // The second contribution has 1:108, and 1:110 too.
        (0x110, "one"),
        (0x113, "one"),
        // The first has 1:114, and ends at 1:120.
        (0x114, "two"),
        (0x11f, "two"),
        (0x120, "??"),
        (0x123, "??"),
        // The second has 1:124.
        (0x124, "six"),
        (0x12f, "six"),
        // The third has 1:130; its module isn't listed.
        (0x130, "ten"),
        (0x170, "ten"),
        (0x1a7, "ten"),
        (0x1a8, "??"),
    ];
    names_are(&rt, alloc, &file, &asked)
}
