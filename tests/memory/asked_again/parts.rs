//! Calls on parts of a file that fail with out of memory once and are made again, as those of `files` are.

use super::{is, put};
use pdb::{
    CrossModuleExports, CrossModuleImports, DebugInformation, Error, FallibleIterator, FileIndex,
    LineProgram, Local, Module, ModuleInfo, PDBInformation, ParseBuffer, PdbInternalSectionOffset,
    Stream, Symbol, SymbolData, SymbolIndex, SymbolIter, TypeIndex,
};
use pdb_sample::streams;
use std::alloc::Global;
use std::process::Abort;
use std::test::Fail;

type Answer = std::result::Result<usize, Error>;

#[derive(Clone, Copy)]
enum Call {
    Lines,
    Imports,
    Exports,
    Names,
    Module,
    Object,
    Text,
    List,
}

fn size_of_imports(imports: &CrossModuleImports<'_>) -> Answer {
    let found = imports.resolve_import(TypeIndex(0x8000_0000))?;
    Ok(found.0.0.0 as usize)
}

fn part(alloc: Global, info: &ModuleInfo<'_>, call: Call) -> Answer {
    match call {
        Call::Lines => info.line_program(alloc)?.lines().count(),
        Call::Imports => size_of_imports(&info.imports(alloc)?),
        _ => Ok(info.exports(alloc)?.len()),
    }
}

fn text(alloc: Global, module: &Module<'_>, call: Call) -> Answer {
    match call {
        Call::Module => Ok(module.module_name(alloc)?.len()),
        Call::Object => Ok(module.object_file_name(alloc)?.len()),
        _ => Ok(module.raw_module_name().to_string(alloc)?.len()),
    }
}

fn list(alloc: Global, call: Call) -> Answer {
    match call {
        Call::Names => {
            let stream = Stream::new(&streams::INFORMATION).ok_or(Error::UnexpectedEof)?;
            let information = PDBInformation::parse(stream)?;
            Ok(information.stream_names(alloc)?.iter().count())
        }
        _ => {
            let bytes: &[u8] = &streams::MODULE[4..84];
            let symbols = SymbolIter::new(ParseBuffer::from(bytes));
            Ok(symbols.collect(alloc)?.len())
        }
    }
}

fn answer(alloc: Global, info: &ModuleInfo<'_>, module: &Module<'_>, call: Call) -> Answer {
    match call {
        Call::Lines | Call::Imports | Call::Exports => part(alloc, info, call),
        Call::Module | Call::Object | Call::Text => text(alloc, module, call),
        Call::Names | Call::List => list(alloc, call),
    }
}

/// The call's result, called again where memory ran out.
fn gives(
    rt: &impl Abort,
    alloc: Global,
    info: &ModuleInfo<'_>,
    module: &Module<'_>,
    (call, wanted): (Call, usize),
) {
    let given = match answer(alloc, info, module, call) {
        Err(Error::OutOfMemory) => answer(alloc, info, module, call),
        given => given,
    };
    is(rt, "an answer", &given, &Ok(wanted));
}

/// A DBI stream whose module has names that are no text.
fn no_text(alloc: Global) -> Result<Vec<u8>, Error> {
    let mut bytes = Vec::new(alloc);
    bytes.extend_from_slice(&streams::DBI)?;
    put(&mut bytes, 128, b"\xff.obj\0\xff\xfe");
    Ok(bytes)
}

#[test]
fn refused_calls_of_parts_answer_when_asked_again(rt: HostRuntime) -> Result<(), Fail> {
    let bytes = match no_text(rt.alloc()) {
        Err(Error::OutOfMemory) => no_text(rt.alloc()),
        answer => answer,
    }?;
    let stream = Stream::new(&bytes).ok_or(Error::UnexpectedEof)?;
    let information = DebugInformation::parse(stream)?;
    let module = information.modules()?.next()?.ok_or(Error::UnexpectedEof)?;
    let stream = Stream::new(&streams::MODULE).ok_or(Error::UnexpectedEof)?;
    let info = ModuleInfo::parse(stream, &module);
    for case in [
        (Call::Lines, 2usize),
        (Call::Imports, 1),
        (Call::Exports, 2),
        (Call::Names, 1),
        (Call::Module, 7),
        (Call::Object, 9),
        (Call::Text, 7),
        (Call::List, 4),
    ] {
        gives(&rt, rt.alloc(), &info, &module, case);
    }
    Ok(())
}

/// How many registers a symbol of several has.
fn registers(data: &SymbolData<'_>) -> usize {
    match data {
        SymbolData::MultiRegisterVariable(it) => it.registers.len(),
        _ => 0,
    }
}

/// A record of several registers, and a copy of what it says, where the call that fails with out of memory is made
/// again.
fn registers_are_read(rt: &impl Abort, alloc: Global, bytes: &[u8]) -> Result<(), Error> {
    let symbol = Symbol::new(SymbolIndex(0), bytes).ok_or(Error::UnexpectedEof)?;
    let data = match symbol.parse(alloc) {
        Err(Error::OutOfMemory) => symbol.parse(alloc),
        answer => answer,
    }?;
    is(rt, "registers", &registers(&data), &2);
    let copy = match data.try_clone(alloc) {
        Err(Error::OutOfMemory) => data.try_clone(alloc),
        answer => answer,
    }?;
    is(rt, "in a copy", &registers(&copy), &2);
    Ok(())
}

#[test]
fn refused_registers_are_read_when_asked_again(rt: HostRuntime) -> Result<(), Fail> {
    let records: [&[u8]; 4] = [
        b"\x0a\x11\x74\0\0\0\x02\x11\0a\0\x12\0b\0",
        b"\x05\x10\x74\0\0\0\x02\x11\0\x01a\x12\0\x01b",
        b"\x17\x11\x74\0\0\0\x02\0\x11\0a\0\x12\0b\0",
        b"\x14\x10\x74\0\0\0\x02\0\x11\0\x01a\x12\0\x01b",
    ];
    for bytes in records {
        registers_are_read(&rt, rt.alloc(), bytes)?;
    }
    Ok(())
}

fn imports_are_copied(rt: &impl Abort, alloc: Global, info: &ModuleInfo<'_>) -> Result<(), Error> {
    let imports = match info.imports(alloc) {
        Err(Error::OutOfMemory) => info.imports(alloc),
        answer => answer,
    }?;
    let copy = match imports.try_clone(alloc) {
        Err(Error::OutOfMemory) => imports.try_clone(alloc),
        answer => answer,
    }?;
    is(rt, "imports", &size_of_imports(&copy), &Ok(1));
    Ok(())
}

fn exports_are_copied(rt: &impl Abort, alloc: Global, info: &ModuleInfo<'_>) -> Result<(), Error> {
    let exports = match info.exports(alloc) {
        Err(Error::OutOfMemory) => info.exports(alloc),
        answer => answer,
    }?;
    let copy = match exports.try_clone(alloc) {
        Err(Error::OutOfMemory) => exports.try_clone(alloc),
        answer => answer,
    }?;
    is(rt, "exports", &copy.len(), &2);
    Ok(())
}

#[test]
fn refused_copies_of_tables_are_made_when_asked_again(rt: HostRuntime) -> Result<(), Fail> {
    let stream = Stream::new(&streams::DBI).ok_or(Error::UnexpectedEof)?;
    let information = DebugInformation::parse(stream)?;
    let module = information.modules()?.next()?.ok_or(Error::UnexpectedEof)?;
    let stream = Stream::new(&streams::MODULE).ok_or(Error::UnexpectedEof)?;
    let info = ModuleInfo::parse(stream, &module);
    imports_are_copied(&rt, rt.alloc(), &info)?;
    exports_are_copied(&rt, rt.alloc(), &info)?;
    Ok(())
}

/// So much memory is never there. `tests/memory/check` takes it for a mark: until it is asked for again, no memory is
/// to be asked for.
pub fn mark(alloc: Global) -> bool {
    let room: std::result::Result<Vec<u8>, _> = Vec::with_capacity(alloc, 0x4000_0000_0000);
    room.is_ok()
}

/// What calls that take no memory return.
fn without_memory(
    program: &LineProgram<'_>,
    imports: &CrossModuleImports<'_>,
    exports: &CrossModuleExports,
) -> [Answer; 6] {
    let place = PdbInternalSectionOffset::new(1, 0x108);
    [
        program.lines().count(),
        program.lines_for_symbol(place).count(),
        program.files().count(),
        Ok(usize::from(program.get_file_info(FileIndex(0)).is_ok())),
        size_of_imports(imports),
        Ok(match exports.resolve_import(Local(TypeIndex(0x1020))) {
            Ok(Some(global)) => global.0 as usize,
            _ => 0,
        }),
    ]
}

#[test]
fn calls_without_memory_take_none(rt: HostRuntime) -> Result<(), Fail> {
    let stream = Stream::new(&streams::DBI).ok_or(Error::UnexpectedEof)?;
    let information = DebugInformation::parse(stream)?;
    let module = information.modules()?.next()?.ok_or(Error::UnexpectedEof)?;
    let stream = Stream::new(&streams::MODULE).ok_or(Error::UnexpectedEof)?;
    let info = ModuleInfo::parse(stream, &module);
    let program = info.line_program(rt.alloc())?;
    let imports = info.imports(rt.alloc())?;
    let exports = info.exports(rt.alloc())?;
    mark(rt.alloc());
    let given = without_memory(&program, &imports, &exports);
    mark(rt.alloc());
    is(
        &rt,
        "answers",
        &given,
        &[Ok(2), Ok(2), Ok(1), Ok(1), Ok(1), Ok(1)],
    );
    Ok(())
}
