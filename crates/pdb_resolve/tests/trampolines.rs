//! The names of trampolines, of managed procedures and of public symbols, in whole files.

use crate::tests::code::{END, Symbols};
use crate::tests::files::is;
use crate::tests::publics::file_with;
use crate::tests::resolver::texts_are;
use crate::{Resolver, Streams};
use pdb::{MemorySource, PDB, PdbInternalSectionOffset, Result};
use std::alloc::Global;

impl Symbols {
    /// A trampoline of a type and a size, with the offset and the section of its code, and where it leads in section 1.
    fn trampoline(
        &mut self,
        (kind, size): (u32, u32),
        thunk: (u32, u32),
        target: u32,
    ) -> Result<u32> {
        let first = kind + (size << 16);
        let sections = thunk.1 + (1 << 16);
        self.push(0x112c, &[first, thunk.0, target, sections], b"")
    }
}

/// A module with a procedure at 1:100, trampolines, and a managed procedure at 1:190.
fn module(alloc: Global) -> Result<Symbols> {
    let mut symbols = Symbols::new(alloc)?;
    symbols.trampoline((0, 5), (0x45, 1), 0x100)?;
    symbols.procedure(0x100, 0x10, END, b"\x01\0\0main\0")?;
    symbols.trampoline((0, 5), (0x40, 1), 0x180)?;
    symbols.trampoline((1, 8), (0x50, 1), 0x999)?;
    // It leads into the procedure, and not to its begin.
    symbols.trampoline((7, 3), (0x60, 1), 0x104)?;
    // It covers what a trampoline before it does.
    symbols.trampoline((0, 64), (0x48, 1), 0x100)?;
    symbols.trampoline((0, 4), (0x4, 2), 0x100)?;
    symbols.push(
        0x112a,
        &[0, END, 0, 0x8, 0, 0, 0x0600_0001, 0x190],
        b"\x01\0\0\0\0Main\0",
    )?;
    // A procedure counts before a trampoline, whatever comes first.
    symbols.trampoline((0, 5), (0x108, 1), 0x180)?;
    Ok(symbols)
}

const CONTRIBUTIONS: [(u32, u32, u16); 1] = [(0x40, 0x200, 0)];

const NAMES: [(u32, &str); 5] = [
    (0x100, "?other@@YAXXZ"),
    (0x180, "?f@n@@YAXXZ"),
    (0x180, "?later@n@@YAXXZ"),
    (0x1a0, "_ZN3std3endE"),
    (0x1b0, "?no@"),
];

#[test]
fn a_trampoline_tells_where_it_leads(rt: HostRuntime) -> Result<()> {
    let alloc = rt.alloc();
    let file = file_with(alloc, &module(alloc)?, &CONTRIBUTIONS, &NAMES)?;
    let rows = [
        (0x40, "ILT+0(n::f)"),
        (0x44, "ILT+0(n::f)"),
        (0x45, "ILT+5(main)"),
        (0x49, "ILT+5(main)"),
        (0x4a, "ILT+8(main)"),
        (0x50, "island+16(??)"),
        (0x57, "island+16(??)"),
        (0x58, "ILT+8(main)"),
        (0x60, "ILT+32(??)"),
        (0x108, "main"),
        (0x88, "??"),
        (0x180, "n::f"),
        (0x190, "Main"),
        (0x197, "Main"),
        (0x198, "n::f"),
        (0x1a1, "std::end"),
        (0x1b5, "?no@"),
    ];
    for (offset, name) in rows {
        let mut wanted = Vec::new(alloc);
        wanted.extend_from_slice(name.as_bytes())?;
        wanted.extend_from_slice(b"\n??:0:0\n\n")?;
        texts_are(&rt, alloc, &file, &[Some((1, offset))], wanted.as_slice())?;
    }
    Ok(())
}

#[test]
fn a_place_is_behind_what_names_it(rt: HostRuntime) -> Result<()> {
    let alloc = rt.alloc();
    let file = file_with(alloc, &module(alloc)?, &CONTRIBUTIONS, &NAMES)?;
    let pdb = PDB::open(alloc, MemorySource::new(file.as_slice()))?;
    let mut streams = Streams::new(alloc);
    let mut resolver = Box::new(alloc, Resolver::new(alloc, pdb, &mut streams)?)?;
    let rows = [
        (0x40, "ILT+0(n::f)"),
        (0x43, "ILT+0(n::f)+0x3"),
        (0x4b, "ILT+8(main)+0x3"),
        (0x100, "main"),
        (0x10f, "main+0xf"),
        (0x192, "Main+0x2"),
        (0x19f, "n::f+0x1f"),
        (0x88, "??"),
    ];
    for (offset, name) in rows {
        let mut wanted = Vec::new(alloc);
        wanted.extend_from_slice(name.as_bytes())?;
        wanted.extend_from_slice(b"\n??:0:0\n\n")?;
        let mut text = Vec::new(alloc);
        let place = PdbInternalSectionOffset::new(1, offset);
        resolver.put_displaced_text(&mut text, Some(place))?;
        is(&rt, "text", &text.as_slice(), &wanted.as_slice());
    }
    Ok(())
}
