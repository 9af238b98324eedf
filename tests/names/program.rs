//! Lists the inlined functions and the sites of each module of files as `pdb_list` does, each line with the qualified
//! name of its id. It is Rattle's source, a caller of `pdb`, which `check` runs.
#![tactic(auto)]

use pdb::{
    Error, FallibleIterator, IdIndex, ItemFinder, MemorySource, ModuleInfo, PDB, Result, SymbolData,
    qualified_name,
};
use std::alloc::Global;
use std::env;
use std::fs::{self, OpenFile};
use std::io::{self, Read, Write};
use std::process::ExitCode;
use std::rt::{Env, Files};

/// The ids and the types of a file, by their indices.
#[derive(Drop)]
struct Known<'t> {
    ids: ItemFinder<'t>,
    types: ItemFinder<'t>,
}

/// Ends a line with an id, and its qualified name; with nothing where it has none.
fn end_line(id: IdIndex, known: &Known<'_>, out: &mut Vec<u8>) -> Result<()> {
    write!(out, "{:08x} ", id.0).map_err(|_| Error::OutOfMemory)?;
    if let Some(it) = qualified_name(&known.ids, &known.types, id) {
        if let Some(scope) = it.scope {
            out.extend_from_slice(scope.as_bytes())?;
            out.extend_from_slice(b"::")?;
        }
        out.extend_from_slice(it.name.as_bytes())?;
    }
    out.push(b'\n')?;
    Ok(())
}

/// Adds the lines of a module's inlined functions.
fn put_inlinees(info: &ModuleInfo<'_>, known: &Known<'_>, out: &mut Vec<u8>) -> Result<()> {
    let mut inlinees = info.inlinees()?;
    while let Some(inlinee) = inlinees.next()? {
        out.extend_from_slice(b"inlinee ")?;
        end_line(inlinee.index(), known, out)?;
    }
    Ok(())
}

/// Adds the lines of a module's sites.
fn put_sites(alloc: Global, info: &ModuleInfo<'_>, known: &Known<'_>, out: &mut Vec<u8>) -> Result<()> {
    let mut symbols = info.symbols()?;
    while let Some(symbol) = symbols.next()? {
        if let Ok(SymbolData::InlineSite(site)) = symbol.parse(alloc) {
            write!(out, "site {:08x} ", symbol.index().0).map_err(|_| Error::OutOfMemory)?;
            end_line(site.inlinee, known, out)?;
        }
    }
    Ok(())
}

/// Adds the lines of all modules of a file.
fn put_names(alloc: Global, bytes: &[u8], out: &mut Vec<u8>) -> Result<()> {
    let mut pdb = PDB::open(alloc, MemorySource::new(bytes))?;
    let (types, ids) = (pdb.type_information()?, pdb.id_information()?);
    let known = Known {
        ids: ids.finder(alloc)?,
        types: types.finder(alloc)?,
    };
    let information = pdb.debug_information()?;
    let mut modules = information.modules()?;
    while let Some(module) = modules.next()? {
        if let Some(info) = pdb.module_info(&module)? {
            put_inlinees(&info, &known, out)?;
            put_sites(alloc, &info, &known, out)?;
        }
    }
    Ok(())
}

/// Lists each file that the program's words name, behind a line with its name.
fn list(rt: &(impl Env + Files + Print + AllocGlobal)) -> io::Result<()> {
    let mut out = Vec::new(rt.alloc());
    for name in env::args(rt)?.skip(1) {
        writeln!(out, "file {name}")?;
        let mut file = fs::open(rt, name.as_str())?;
        let mut bytes = vec![in rt.alloc(); 0u8; file.metadata()?.len() as usize]?;
        file.read_exact(&mut bytes)?;
        put_names(rt.alloc(), &bytes, &mut out)
            .map_err(|_| io::Error::from(io::ErrorKind::InvalidData))?;
    }
    io::writer(rt).write_all(&out)
}

fn main(rt: HostRuntime) -> ExitCode {
    match list(&rt) {
        Ok(()) => ExitCode::SUCCESS,
        Err(_) => ExitCode::FAILURE,
    }
}
