//! The streams of modules.

use super::is;
use crate::tests::put_numbers;
use crate::tests::sample::{DBI, SAMPLE, changed, file_of};
use crate::*;
use std::alloc::Global;
use std::process::Abort;

/// A symbol's index and kind.
fn seen(symbol: Option<Symbol<'_>>) -> Option<(u32, u16)> {
    match symbol {
        Some(symbol) => Some((symbol.index().0, symbol.raw_kind())),
        None => None,
    }
}

/// The parts of the sample's module.
fn is_that_of_the_sample(rt: &impl Abort, alloc: Global, info: &ModuleInfo<'_>) -> Result<()> {
    let mut symbols = info.symbols()?;
    is(rt, "first", &seen(symbols.next()?), &Some((4, 0x1110)));
    is(rt, "symbols", &info.symbols()?.count()?, &4);
    let lines = info.line_program(alloc)?;
    is(rt, "lines", &lines.lines().count()?, &2);
    is(rt, "inlined", &info.inlinees()?.count()?, &1);
    is(rt, "exports", &info.exports(alloc)?.len(), &2);
    Ok(())
}

#[test]
fn the_sample_has_one_module(rt: HostRuntime) -> Result<()> {
    let bytes = file_of(rt.alloc(), &SAMPLE)?;
    let mut pdb = PDB::open(rt.alloc(), MemorySource::new(&bytes))?;
    let information = pdb.debug_information()?;
    let mut modules = information.modules()?;
    let module = modules.next()?;
    assert!(rt; modules.next()?.is_none());
    let Some(module) = module else {
        return Err(Error::UnexpectedEof);
    };
    for _ in 0..2 {
        let info = pdb.module_info(&module)?;
        let Some(info) = info else {
            return Err(Error::UnexpectedEof);
        };
        is_that_of_the_sample(&rt, rt.alloc(), &info)?;
    }
    Ok(())
}

/// What `module_info` answers for the first module.
fn first_module<'s>(pdb: &mut PDB<'s, MemorySource<'s>>) -> Result<Option<ModuleInfo<'s>>> {
    let information = pdb.debug_information()?;
    match information.modules()?.next()? {
        Some(module) => pdb.module_info(&module),
        None => Err(Error::StreamNameNotFound),
    }
}

#[test]
fn a_module_without_a_stream_is_none(rt: HostRuntime) -> Result<()> {
    let mut dbi = DBI;
    dbi[98] = 0xff;
    dbi[99] = 0xff;
    let bytes = changed(rt.alloc(), 3, Some(&dbi))?;
    let mut pdb = PDB::open(rt.alloc(), MemorySource::new(&bytes))?;
    for _ in 0..2 {
        assert!(rt; first_module(&mut pdb)?.is_none());
    }
    Ok(())
}

#[test]
fn a_module_whose_stream_is_absent_is_refused(rt: HostRuntime) -> Result<()> {
    let bytes = changed(rt.alloc(), 6, None)?;
    let mut pdb = PDB::open(rt.alloc(), MemorySource::new(&bytes))?;
    for _ in 0..2 {
        let refused = first_module(&mut pdb).err();
        is(&rt, "absent", &refused, &Some(Error::StreamNotFound(6)));
    }
    is(&rt, "sections", &pdb.sections()?.is_some(), &true);
    is(&rt, "symbols", &pdb.global_symbols().is_ok(), &true);
    Ok(())
}

#[test]
fn a_module_is_read_only_when_asked(rt: HostRuntime) -> Result<()> {
    let bytes = changed(rt.alloc(), 6, Some(b"\x01\0\0\0"))?;
    let mut pdb = PDB::open(rt.alloc(), MemorySource::new(&bytes))?;
    let Some(info) = first_module(&mut pdb)? else {
        return Err(Error::StreamNameNotFound);
    };
    let end = Some(Error::UnexpectedEof);
    is(&rt, "symbols", &info.symbols().err(), &end);
    is(&rt, "inlined", &info.inlinees().err(), &end);
    Ok(())
}

#[test]
fn modules_are_had_by_their_places(rt: HostRuntime) -> Result<()> {
    let bytes = file_of(rt.alloc(), &SAMPLE)?;
    let mut pdb = PDB::open(rt.alloc(), MemorySource::new(&bytes))?;
    for _ in 0..2 {
        let Some(info) = pdb.module_at(0)? else {
            return Err(Error::UnexpectedEof);
        };
        is_that_of_the_sample(&rt, rt.alloc(), &info)?;
        assert!(rt; pdb.module_at(1)?.is_none());
        assert!(rt; pdb.module_at(usize::MAX)?.is_none());
    }
    Ok(())
}

/// The sample with so many bytes of its list of modules, of which the second module isn't all there.
#[test]
fn a_fault_behind_a_module_is_not_met(rt: HostRuntime) -> Result<()> {
    let mut dbi = DBI;
    dbi[24] = 0x50;
    let bytes = changed(rt.alloc(), 3, Some(&dbi))?;
    let mut pdb = PDB::open(rt.alloc(), MemorySource::new(&bytes))?;
    assert!(rt; pdb.module_at(0)?.is_some());
    for place in 1..3usize {
        let refused = pdb.module_at(place).err();
        is(&rt, "behind", &refused, &Some(Error::UnexpectedEof));
    }
    Ok(())
}

/// The name of a module of a list.
fn name_at(list: &mut ModuleList<'_>, k: u32) -> Result<usize> {
    list.read_to(k)?;
    match list.get(k)? {
        Some(module) => Ok(module.raw_module_name().as_bytes().len()),
        None => Ok(0),
    }
}

#[test]
fn modules_of_a_list_are_read_once(rt: HostRuntime) -> Result<()> {
    let mut dbi = Vec::new(rt.alloc());
    dbi.extend_from_slice(&DBI[..64])?;
    dbi.extend_from_slice(&DBI[64..140])?;
    let mut second = [0u8; 76];
    for (at, byte) in DBI[64..140].iter().enumerate() {
        if at < 76 {
            second[at] = *byte;
        }
    }
    second[68] = 0;
    second[69] = b'x';
    dbi.extend_from_slice(&second)?;
    dbi.extend_from_slice(&DBI[140..])?;
    put_numbers(&mut dbi, 24, &[152]);
    let bytes = changed(rt.alloc(), 3, Some(&dbi))?;
    let mut pdb = PDB::open(rt.alloc(), MemorySource::new(&bytes))?;
    let information = pdb.debug_information()?;
    let mut list = ModuleList::new(rt.alloc(), information.modules()?);
    for (k, size) in [(1, 4), (0, 5), (1, 4), (2, 0), (4294967295, 0), (0, 5)] {
        is(&rt, "the length of a name", &name_at(&mut list, k)?, &size);
    }
    Ok(())
}

#[test]
fn the_fault_of_a_list_stands_behind_its_modules(rt: HostRuntime) -> Result<()> {
    let mut dbi = DBI;
    dbi[24] = 77;
    let bytes = changed(rt.alloc(), 3, Some(&dbi))?;
    let mut pdb = PDB::open(rt.alloc(), MemorySource::new(&bytes))?;
    let information = pdb.debug_information()?;
    let mut list = ModuleList::new(rt.alloc(), information.modules()?);
    for _ in 0..2 {
        is(
            &rt,
            "behind it",
            &name_at(&mut list, 1),
            &Err(Error::UnexpectedEof),
        );
        is(&rt, "before it", &name_at(&mut list, 0), &Ok(5));
    }
    Ok(())
}
