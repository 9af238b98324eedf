//! Small streams, and their texts.

use crate::tests::fakes::is;
use pdb::{DebugInformation, FallibleIterator, ItemFinder, ModuleInfo, Stream, SymbolTable};
use pdb_records::Machine;
use pdb_resolve::GlobalIds;
use pdb_types::TypeDefinitions;
use std::alloc::{AllocError, Global};
use std::process::Abort;
use std::test::Fail;
use tool_symbols::symbol_texts::put_global_symbols;
use tool_types::line_names::LineNames;

/// The sizes of a module's symbols and of its older lines; the rest are its newer ones.
#[derive(Drop)]
pub struct Sizes {
    pub symbols: usize,
    pub older_lines: u32,
}

/// A DBI stream of one module with these sizes.
fn debug_stream(sizes: [u32; 3]) -> [u8; 132] {
    let mut stream = [0; 132];
    stream[0..4].copy_from_slice(&u32::MAX.to_le_bytes());
    stream[4..8].copy_from_slice(&19990903u32.to_le_bytes());
    stream[24] = 68;
    stream[100..104].copy_from_slice(&sizes[0].to_le_bytes());
    stream[104..108].copy_from_slice(&sizes[1].to_le_bytes());
    stream[108..112].copy_from_slice(&sizes[2].to_le_bytes());
    stream[128] = b'a';
    stream[130] = b'b';
    stream
}

/// A module whose stream has these bytes.
pub fn module_of<'s>(
    rt: &impl Abort,
    bytes: &'s [u8],
    sizes: &Sizes,
) -> Result<ModuleInfo<'s>, pdb::Error> {
    let newer = bytes.len().saturating_sub(sizes.symbols);
    let stream = debug_stream([
        u32::try_from(sizes.symbols).expect(rt, "a short stream"),
        sizes.older_lines,
        u32::try_from(newer).expect(rt, "a short stream"),
    ]);
    let information = DebugInformation::parse(Stream::new(&stream).expect(rt, "a short stream"))?;
    let module = information.modules()?.next()?.expect(rt, "a module");
    let stream = Stream::new(bytes).expect(rt, "a short stream");
    Ok(ModuleInfo::parse(stream, &module))
}

/// The record behind its length.
pub fn put_record(rt: &impl Abort, list: &mut Vec<u8>, record: &[u8]) -> Result<(), AllocError> {
    let len = u16::try_from(record.len()).expect(rt, "a short record");
    list.extend_from_slice(&len.to_le_bytes())?;
    list.extend_from_slice(record)
}

/// The symbols of a module: the number 4, and the records.
pub fn symbols_of(
    rt: &impl Abort,
    alloc: Global,
    records: &[&[u8]],
) -> Result<Vec<u8>, AllocError> {
    let mut list = Vec::new(alloc);
    list.extend_from_slice(&[4, 0, 0, 0])?;
    for record in records {
        put_record(rt, &mut list, record)?;
    }
    Ok(list)
}

/// The line of a record that is alone in a list is this one, behind the record's index, on a machine.
pub fn line_on(
    rt: &impl Abort,
    alloc: Global,
    machine: Option<Machine>,
    record: &[u8],
    wanted: &str,
) -> Result<(), Fail> {
    let mut list = Vec::new(alloc);
    put_record(rt, &mut list, record)?;
    let table = SymbolTable::new(Stream::new(list.as_slice()).expect(rt, "a short stream"));
    let none = ItemFinder::empty(alloc);
    let definitions = TypeDefinitions::empty(alloc);
    let global = GlobalIds::empty(alloc);
    let names = LineNames::new(&none, &none, &definitions, &global);
    let mut out = Vec::new(alloc);
    put_global_symbols(alloc, &mut out, names, machine, &table)?;
    let wanted = format!(in alloc; "00000000 {wanted}\n")?;
    is(rt, "out.as_slice()", &out.as_slice(), &wanted.as_bytes());
    Ok(())
}

/// The same where no machine is known.
pub fn line_is(rt: &impl Abort, alloc: Global, record: &[u8], wanted: &str) -> Result<(), Fail> {
    line_on(rt, alloc, None, record, wanted)
}
