//! Finds each id of a file from 0x1000 on. With the words FILE `finder` it tells how many there are, and how many bytes
//! they have in all; with FILE `qualified` how many have qualified names, and how many bytes these have; with FILE `named`
//! how many types the file has, and how many bytes their names have. It is Rattle's source, a caller of `pdb`, which
//! `build` puts into a crate of its own.
#![tactic(auto)]

use pdb::{
    IdIndex, IdInformation, ItemFinder, MemorySource, PDB, Result, TypeDefinitions, TypeIndex,
    TypeInformation, put_name, qualified_name,
};
use std::alloc::Global;
use std::env;
use std::fs::{self, OpenFile};
use std::io::{self, Read, Write};
use std::process::ExitCode;
use std::rt::{Env, Files};

/// The first id.
const FIRST: u32 = 0x1000;

/// How many bytes of a file's room are filled at a time.
const PIECE: usize = 2048;

/// How many ids there are, and how many bytes their records have.
fn count_items(ids: &ItemFinder<'_>) -> (u32, usize) {
    let (mut count, mut size) = (0u32, 0usize);
    for index in FIRST..u32::MAX {
        let Some(item) = ids.find(index) else {
            break;
        };
        count = count.wrapping_add(1);
        size = size.wrapping_add(item.raw_bytes().len());
    }
    (count, size)
}

/// How many bytes the qualified name of an id has; none where it has no name.
fn name_size<'t>(ids: &ItemFinder<'t>, types: &ItemFinder<'t>, id: IdIndex) -> Option<usize> {
    let it = qualified_name(ids, types, id)?;
    let scope = match it.scope {
        Some(scope) => scope.as_bytes().len(),
        None => 0,
    };
    Some(scope.wrapping_add(it.name.as_bytes().len()))
}

/// How many ids have names, and how many bytes these have with their scopes.
fn count_names<'t>(ids: &ItemFinder<'t>, types: &ItemFinder<'t>) -> (u32, usize) {
    let (mut count, mut size) = (0u32, 0usize);
    for index in FIRST..u32::MAX {
        if ids.find(index).is_none() {
            break;
        }
        if let Some(n) = name_size(ids, types, IdIndex(index)) {
            count = count.wrapping_add(1);
            size = size.wrapping_add(n);
        }
    }
    (count, size)
}

/// How many types there are, and how many bytes their names have.
fn count_types(
    alloc: Global,
    types: &ItemFinder<'_>,
    definitions: &TypeDefinitions<'_>,
) -> Result<(u32, usize)> {
    let (mut count, mut size) = (0u32, 0usize);
    let mut name = Vec::new(alloc);
    for index in FIRST..u32::MAX {
        if types.find(index).is_none() {
            break;
        }
        name.clear();
        put_name(types, definitions, &mut name, TypeIndex(index))?;
        count = count.wrapping_add(1);
        size = size.wrapping_add(name.len());
    }
    Ok((count, size))
}

/// What a word asks for of both streams.
fn counted<'t>(
    alloc: Global,
    word: &str,
    ids: &'t IdInformation<'_>,
    types: &'t TypeInformation<'_>,
) -> Result<(u32, usize)> {
    if word == "named" {
        return count_types(alloc, &types.finder(alloc)?, &types.definitions(alloc)?);
    }
    let ids = ids.finder(alloc)?;
    if word == "finder" {
        return Ok(count_items(&ids));
    }
    Ok(count_names(&ids, &types.finder(alloc)?))
}

/// The same of a file.
fn counted_of(alloc: Global, word: &str, bytes: &[u8]) -> Result<(u32, usize)> {
    let mut pdb = PDB::open(alloc, MemorySource::new(bytes))?;
    let types = pdb.type_information()?;
    let ids = pdb.id_information()?;
    counted(alloc, word, &ids, &types)
}

/// So many zero bytes, made piece by piece: a long fill counts an instruction for each byte.
fn zeros(alloc: Global, size: usize) -> io::Result<Vec<u8>> {
    let mut bytes = Vec::with_capacity(alloc, size)?;
    for at in (0..size).step_by(PIECE) {
        bytes.resize(size.min(at.saturating_add(PIECE)), 0)?;
    }
    Ok(bytes)
}

/// A file's bytes.
fn bytes_of(rt: &(impl Files + AllocGlobal), name: &str) -> io::Result<Vec<u8>> {
    let mut file = fs::open(rt, name)?;
    let mut bytes = zeros(rt.alloc(), file.metadata()?.len() as usize)?;
    file.read_exact(&mut bytes)?;
    Ok(bytes)
}

/// Tells what the words ask for: a file, and a word of the three.
fn told(rt: &(impl Env + Files + Print + AllocGlobal)) -> io::Result<()> {
    let mut words = env::args(rt)?.skip(1);
    let (Some(name), Some(word)) = (words.next(), words.next()) else {
        return Err(io::Error::from(io::ErrorKind::InvalidInput));
    };
    let bytes = bytes_of(rt, &name)?;
    let (count, size) = counted_of(rt.alloc(), &word, &bytes)
        .map_err(|_| io::Error::from(io::ErrorKind::InvalidData))?;
    println!(rt; "{count} {size}")
}

fn main(rt: HostRuntime) -> ExitCode {
    match told(&rt) {
        Ok(()) => ExitCode::SUCCESS,
        Err(_) => ExitCode::FAILURE,
    }
}
