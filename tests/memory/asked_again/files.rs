//! Calls on a file that fail with out of memory once and are made again: every call has to return its usual result in
//! the end.

use super::{is, put};
use pdb::{
    Error, FallibleIterator, MemorySource, PDB, Stream, StreamIndex, StreamIndexExt, StringRef,
};
use pdb_sample::streams;
use std::alloc::Global;
use std::test::Fail;

type Answer = std::result::Result<usize, Error>;

/// A stream with zero bytes behind it, of four pages.
fn long(alloc: Global, bytes: &[u8]) -> Result<Vec<u8>, Error> {
    let mut all = Vec::new(alloc);
    all.extend_from_slice(bytes)?;
    all.resize(1600, 0)?;
    Ok(all)
}

/// The DBI stream with eleven numbers of further streams.
fn debug_stream(alloc: Global) -> Result<Vec<u8>, Error> {
    let mut all = long(alloc, &streams::DBI)?;
    put(&mut all, 48, b"\x16");
    put(&mut all, 172, b"\x02\0\xff\xff\xff\xff\x04\0\x07\0\x08\0");
    put(&mut all, 184, b"\xff\xff\xff\xff\xff\xff\x02\0\x08\0");
    Ok(all)
}

/// The sample with four pages in each of its streams, 2 and 4 among them.
fn long_file(alloc: Global) -> Result<Vec<u8>, Error> {
    let information = long(alloc, &streams::INFORMATION)?;
    let dbi = debug_stream(alloc)?;
    let symbols = long(alloc, &streams::SYMBOLS)?;
    let module = long(alloc, &streams::MODULE)?;
    let strings = long(alloc, &streams::STRINGS)?;
    let mut sections = long(alloc, &streams::SECTIONS)?;
    sections.truncate(1560);
    let all: [Option<&[u8]>; 9] = [
        Some(&[]),
        Some(&information),
        Some(&strings),
        Some(&dbi),
        Some(&strings),
        Some(&symbols),
        Some(&module),
        Some(&strings),
        Some(&sections),
    ];
    pdb_sample::file_of(alloc, &all)
}

/// The same, where the third and the fourth page of each stream, which are zero bytes, change places: so a stream's
/// pages aren't neighbours, and have to be joined.
fn scattered(alloc: Global) -> Result<Vec<u8>, Error> {
    let mut file = long_file(alloc)?;
    for i in 0..8u8 {
        // Page 35 is the directory: a count, nine sizes, and four numbers for each stream but the first.
        let at = 512 * 35 + 40 + 16 * i as usize;
        put(&mut file, at + 8, &[6 + 4 * i]);
        put(&mut file, at + 12, &[5 + 4 * i]);
    }
    Ok(file)
}

/// The scattered file, whichever growth fails as it is made.
fn made(alloc: Global) -> Result<Vec<u8>, Error> {
    match scattered(alloc) {
        Err(Error::OutOfMemory) => scattered(alloc),
        answer => answer,
    }
}

fn opened<'s>(alloc: Global, file: &'s [u8]) -> Result<PDB<'s, MemorySource<'s>>, Error> {
    match PDB::open(alloc, MemorySource::new(file)) {
        Err(Error::OutOfMemory) => PDB::open(alloc, MemorySource::new(file)),
        answer => answer,
    }
}

#[derive(Clone, Copy)]
enum Call {
    Information,
    Named,
    Debug,
    Globals,
    Types,
    Ids,
    Raw,
    Index,
    Strings,
    Sections,
    Frames,
    Addresses,
}

fn table<'s>(pdb: &mut PDB<'s, MemorySource<'s>>, call: Call) -> Answer {
    match call {
        Call::Frames => Ok(match pdb.frame_table()?.new_stream() {
            Some(stream) => stream.as_slice().len(),
            None => 0,
        }),
        Call::Addresses => Ok(pdb.address_map()?.original_sections().len()),
        _ => Ok(match pdb.sections()? {
            Some(sections) => sections.len(),
            None => 0,
        }),
    }
}

fn size(stream: Option<Stream<'_>>) -> usize {
    match stream {
        Some(stream) => stream.as_slice().len(),
        None => 0,
    }
}

fn stream<'s>(pdb: &mut PDB<'s, MemorySource<'s>>, call: Call) -> Answer {
    match call {
        Call::Named => Ok(pdb.named_stream(b"/names")?.as_slice().len()),
        Call::Types => Ok(pdb.type_information()?.stream().as_slice().len()),
        Call::Ids => Ok(pdb.id_information()?.stream().as_slice().len()),
        Call::Raw => Ok(size(pdb.raw_stream(StreamIndex(7))?)),
        _ => Ok(size(StreamIndex(6).get(pdb)?)),
    }
}

fn answer<'s>(pdb: &mut PDB<'s, MemorySource<'s>>, call: Call) -> Answer {
    match call {
        Call::Information => Ok(pdb.pdb_information()?.age as usize),
        Call::Debug => Ok(pdb.debug_information()?.age().unwrap_or(0) as usize),
        Call::Globals => Ok(usize::from(pdb.global_symbols()?.iter().next()?.is_some())),
        Call::Strings => Ok(pdb.string_table()?.get(StringRef(1))?.as_bytes().len()),
        Call::Sections | Call::Frames | Call::Addresses => table(pdb, call),
        _ => stream(pdb, call),
    }
}

fn usual<'s>(pdb: &mut PDB<'s, MemorySource<'s>>, call: Call) -> Answer {
    match answer(pdb, call) {
        Err(Error::OutOfMemory) => answer(pdb, call),
        answer => answer,
    }
}

#[test]
fn refused_calls_of_a_file_answer_when_asked_again(rt: HostRuntime) -> Result<(), Fail> {
    let file = made(rt.alloc())?;
    for (call, wanted) in [
        (Call::Information, 2usize),
        (Call::Named, 1600),
        (Call::Debug, 2),
        (Call::Globals, 1),
        (Call::Types, 1600),
        (Call::Ids, 1600),
        (Call::Raw, 1600),
        (Call::Index, 1600),
        (Call::Strings, 3),
        (Call::Sections, 39),
        (Call::Frames, 1600),
        (Call::Addresses, 39),
    ] {
        let mut pdb = opened(rt.alloc(), &file)?;
        is(&rt, "an answer", &usual(&mut pdb, call), &Ok(wanted));
        is(&rt, "asked again", &usual(&mut pdb, call), &Ok(wanted));
    }
    Ok(())
}
