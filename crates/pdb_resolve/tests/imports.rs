//! Names of inlined calls whose ids are those of another module.

use crate::exported_ids::ExportedIds;
use crate::global_ids::GlobalIds;
use crate::tests::files::{file_of_streams, is, numbers, put, put_numbers};
use crate::tests::modules::{SAMPLE, info_of};
use crate::tests::resolver::{DBI, INFORMATION, texts_are};
use pdb::{Error, FallibleIterator, IdIndex, Local, MemorySource, PDB, Result};
use std::alloc::Global;
use std::process::Abort;

/// Ids: 0x1000 is the string `ns`, 0x1001 the function `ab` of that scope, and 0x1002 the function `g`.
static IDS: [u8; 100] = [
    0x0b, 0xca, 0x31, 0x01, 0x38, 0x00, 0x00, 0x00, 0x00, 0x10, 0x00, 0x00, 0x03, 0x10, 0x00, 0x00,
    0x2c, 0x00, 0x00, 0x00, 0x00, 0x00, 0x00, 0x00, 0x00, 0x00, 0x00, 0x00, 0x00, 0x00, 0x00, 0x00,
    0x00, 0x00, 0x00, 0x00, 0x00, 0x00, 0x00, 0x00, 0x00, 0x00, 0x00, 0x00, 0x00, 0x00, 0x00, 0x00,
    0x00, 0x00, 0x00, 0x00, 0x00, 0x00, 0x00, 0x00, 0x0a, 0x00, 0x05, 0x16, 0x00, 0x00, 0x00, 0x00,
    0x6e, 0x73, 0x00, 0xf1, 0x0e, 0x00, 0x01, 0x16, 0x00, 0x10, 0x00, 0x00, 0x74, 0x00, 0x00, 0x00,
    0x61, 0x62, 0x00, 0xf1, 0x0e, 0x00, 0x01, 0x16, 0x00, 0x00, 0x00, 0x00, 0x75, 0x00, 0x00, 0x00,
    0x67, 0x00, 0xf2, 0xf1,
];

/// The string table, in which `a.c` stands at 1, `b.obj` at 5, and `c.obj` at 11; what stands at 17 has no end.
static STRINGS: &[u8] = b"\xfe\xef\xfe\xef\x01\0\0\0\x12\0\0\0\0a.c\0b.obj\0c.obj\0d";

/// A file whose module `a.obj` calls an inlined function by an id, and imports numbers from a module of another name.
#[derive(Clone, Copy)]
struct Made {
    // The id of the call, and that of the inlined function.
    site: u32,
    inlinee: u32,
    // Where the name of the other module stands.
    name: u32,
    // What the first module `b.obj` exports, and what the second one does: a local id and its global one.
    first: (u32, u32),
    second: (u32, u32),
}

/// The call has the second number of the first module that is imported from, which the first `b.obj` exports as 0x1001.
const FOUND: Made = Made {
    site: 0x8000_0001,
    inlinee: 0x8000_0001,
    name: 5,
    first: (0x8000_0022, 0x1001),
    second: (0x8000_0022, 0x1002),
};

/// The stream of `a.obj`: 84 bytes of symbols, and 180 of subsections. It exports the numbers that it imports, as 0x1002.
fn caller(alloc: Global, made: Made) -> Result<Vec<u8>> {
    let mut bytes = Vec::new(alloc);
    bytes.extend_from_slice(SAMPLE.split_at(216).0)?;
    put_numbers(&mut bytes, 60, &[made.site]);
    put_numbers(&mut bytes, 204, &[made.inlinee]);
    let imports = numbers(alloc, &[0xf7, 16, made.name, 2, 0x8000_0011, 0x8000_0022])?;
    bytes.extend_from_slice(imports.as_slice())?;
    let exports = numbers(alloc, &[0xf8, 16, 0x8000_0011, 0x1002, 0x8000_0022, 0x1002])?;
    bytes.extend_from_slice(exports.as_slice())?;
    Ok(bytes)
}

/// The stream of a module without symbols, which exports this.
fn exporter(alloc: Global, export: (u32, u32)) -> Result<Vec<u8>> {
    numbers(alloc, &[0xf8, 8, export.0, export.1])
}

/// The record of a module: its stream, the sizes of its symbols and its subsections, and its name.
fn put_module(
    alloc: Global,
    list: &mut Vec<u8>,
    stream: u32,
    sizes: (u32, u32),
    name: &[u8],
) -> Result<()> {
    let mut record = vec![in alloc; 0u8; 76]?;
    // The stream is a number of two bytes; the two before it are zeros.
    put_numbers(&mut record, 32, &[stream * 0x1_0000, sizes.0, 0, sizes.1]);
    put(&mut record, 64, name);
    put(&mut record, 70, name);
    list.extend_from_slice(record.as_slice())?;
    Ok(())
}

/// The DBI stream: `a.obj` with so many bytes of subsections, and twice `b.obj`.
fn debug_stream(alloc: Global, subsections: u32) -> Result<Vec<u8>> {
    let mut bytes = Vec::new(alloc);
    bytes.extend_from_slice(DBI.split_at(64).0)?;
    // No global symbols, and three records of modules.
    put(&mut bytes, 20, &[0xff, 0xff]);
    put_numbers(&mut bytes, 24, &[3 * 76]);
    put_module(alloc, &mut bytes, 6, (84, subsections), b"a.obj")?;
    put_module(alloc, &mut bytes, 8, (0, 16), b"b.obj")?;
    put_module(alloc, &mut bytes, 5, (0, 16), b"b.obj")?;
    bytes.extend_from_slice(DBI.split_at(140).1)?;
    Ok(bytes)
}

/// A file whose module `a.obj` has this stream.
fn file_with(alloc: Global, made: Made, caller: &[u8]) -> Result<Vec<u8>> {
    let debug = debug_stream(alloc, caller.len() as u32 - 84)?;
    let first = exporter(alloc, made.first)?;
    let second = exporter(alloc, made.second)?;
    let streams: [&[u8]; 9] = [
        b"",
        &INFORMATION,
        b"",
        debug.as_slice(),
        &IDS,
        second.as_slice(),
        caller,
        STRINGS,
        first.as_slice(),
    ];
    file_of_streams(alloc, streams)
}

fn file_made(alloc: Global, made: Made) -> Result<Vec<u8>> {
    let caller = caller(alloc, made)?;
    file_with(alloc, made, &caller)
}

/// At 1:108 stands this text.
fn has_text(rt: &impl Abort, alloc: Global, made: Made, wanted: &str) -> Result<()> {
    let file = file_made(alloc, made)?;
    texts_are(rt, alloc, &file, &[Some((1, 0x108))], wanted.as_bytes())
}

const NAMED: &str = "ns::ab\na.c:10:0\nmain\na.c:2:0\n\n";

const OTHER: &str = "g\na.c:10:0\nmain\na.c:2:0\n\n";

const UNNAMED: &str = "??\na.c:10:0\nmain\na.c:2:0\n\n";

#[test]
fn a_call_has_the_name_of_the_id_that_is_exported(rt: HostRuntime) -> Result<()> {
    has_text(&rt, rt.alloc(), FOUND, NAMED)?;
    // The second module has that name too, and the first exports something else.
    let made = Made {
        first: (0x8000_0011, 0x1001),
        ..FOUND
    };
    has_text(&rt, rt.alloc(), made, UNNAMED)?;
    let made = Made {
        first: (0x8000_0022, 0x1002),
        second: (0x8000_0022, 0x1001),
        ..FOUND
    };
    has_text(&rt, rt.alloc(), made, OTHER)?;
    // An id is what is exported, though it is that of no function.
    let made = Made {
        first: (0x8000_0022, 0x1000),
        ..FOUND
    };
    has_text(&rt, rt.alloc(), made, UNNAMED)?;
    let made = Made {
        first: (0x8000_0022, 0x8000_0022),
        ..FOUND
    };
    has_text(&rt, rt.alloc(), made, UNNAMED)
}

/// A call of another id, of which there is an inlined function too.
fn with_id(id: u32) -> Made {
    Made {
        site: id,
        inlinee: id,
        ..FOUND
    }
}

#[test]
fn a_call_whose_id_is_not_imported_has_no_name(rt: HostRuntime) -> Result<()> {
    // The first number, which `b.obj` doesn't export; no third number; no second module.
    has_text(&rt, rt.alloc(), with_id(0x8000_0000), UNNAMED)?;
    has_text(&rt, rt.alloc(), with_id(0x8000_0002), UNNAMED)?;
    has_text(&rt, rt.alloc(), with_id(0x8010_0001), UNNAMED)?;
    has_text(&rt, rt.alloc(), with_id(0xffff_ffff), UNNAMED)
}

#[test]
fn a_call_of_a_module_that_is_not_listed_has_no_name(rt: HostRuntime) -> Result<()> {
    // The other module would be `c.obj`, `a.c`, one without a name, or one whose name can't be read.
    for name in [11, 1, 0, 17, 18, 0xffff_ffff] {
        has_text(&rt, rt.alloc(), Made { name, ..FOUND }, UNNAMED)?;
    }
    // A part of the name.
    has_text(&rt, rt.alloc(), Made { name: 6, ..FOUND }, UNNAMED)
}

#[test]
fn an_id_without_the_top_bit_is_that_of_the_file(rt: HostRuntime) -> Result<()> {
    has_text(&rt, rt.alloc(), with_id(0x1001), NAMED)?;
    has_text(&rt, rt.alloc(), with_id(0x1002), OTHER)?;
    has_text(&rt, rt.alloc(), with_id(0x4000_0001), UNNAMED)
}

#[test]
fn an_inlined_function_has_the_id_of_the_call(rt: HostRuntime) -> Result<()> {
    // The id that is meant isn't the one by which the line is found.
    let made = Made {
        inlinee: 0x1001,
        ..FOUND
    };
    has_text(&rt, rt.alloc(), made, "main\na.c:2:0\n\n")?;
    let made = Made {
        inlinee: 0x8000_0022,
        ..FOUND
    };
    has_text(&rt, rt.alloc(), made, "main\na.c:2:0\n\n")
}

#[test]
fn the_first_export_of_a_number_is_found_in_any_order(rt: HostRuntime) -> Result<()> {
    let alloc = rt.alloc();
    let pairs = [
        0x8000_0022,
        7,
        0x8000_0011,
        8,
        0x8000_0022,
        9,
        0x8000_0000,
        10,
    ];
    let mut bytes = numbers(alloc, &[0xf8, 32])?;
    bytes.extend_from_slice(numbers(alloc, &pairs)?.as_slice())?;
    let info = info_of(&rt, bytes.as_slice(), (0, 0, 40))?;
    let exports = ExportedIds::new(alloc, info.exports(alloc)?)?;
    let wanted = [
        (0x8000_0022, Some(7)),
        (0x8000_0011, Some(8)),
        (0x8000_0000, Some(10)),
        (0x8000_0001, None),
    ];
    for (local, global) in wanted {
        let found = exports.find(Local(IdIndex(local)));
        is(&rt, "export", &found.map(|id| id.0), &global);
    }
    Ok(())
}

/// By the ids of `a.obj` the whole file knows these.
fn ids_are(
    rt: &impl Abort,
    alloc: Global,
    file: &[u8],
    wanted: &[(u32, Option<u32>)],
) -> Result<()> {
    let mut pdb = PDB::open(alloc, MemorySource::new(file))?;
    let information = pdb.debug_information()?;
    let Some(module) = information.modules()?.next()? else {
        return Err(Error::UnexpectedEof);
    };
    let Some(info) = pdb.module_info(&module)? else {
        return Err(Error::UnexpectedEof);
    };
    let global = GlobalIds::read(alloc, &mut pdb, &info)?;
    for (id, known) in wanted {
        is(rt, "id", &global.find(IdIndex(*id)).map(|id| id.0), known);
    }
    Ok(())
}

#[test]
fn ids_are_those_that_other_modules_export(rt: HostRuntime) -> Result<()> {
    let alloc = rt.alloc();
    // The second number of the first module; a number that it doesn't export, and one that isn't imported.
    let wanted = [
        (0x8000_0001, Some(0x1001)),
        (0x8000_0000, None),
        (0x8000_0002, None),
        (0x8010_0000, None),
        (0x1002, Some(0x1002)),
    ];
    ids_are(&rt, alloc, &file_made(alloc, FOUND)?, &wanted)?;
    // Of a module that isn't listed nothing is known.
    let unlisted = Made { name: 11, ..FOUND };
    ids_are(
        &rt,
        alloc,
        &file_made(alloc, unlisted)?,
        &[(0x8000_0001, None)],
    )
}

#[test]
fn modules_are_imported_from_again_and_again(rt: HostRuntime) -> Result<()> {
    let alloc = rt.alloc();
    let mut caller = Vec::new(alloc);
    caller.extend_from_slice(SAMPLE.split_at(216).0)?;
    // From `c.obj`, which isn't listed; and twice from `b.obj`.
    let imports = [
        0xf7,
        36,
        11,
        1,
        0x8000_0022,
        5,
        1,
        0x8000_0011,
        5,
        1,
        0x8000_0022,
    ];
    caller.extend_from_slice(numbers(alloc, &imports)?.as_slice())?;
    let wanted = [
        (0x8000_0000, None),
        (0x8010_0000, None),
        (0x8020_0000, Some(0x1001)),
        (0x8030_0000, None),
    ];
    ids_are(&rt, alloc, &file_with(alloc, FOUND, &caller)?, &wanted)
}
