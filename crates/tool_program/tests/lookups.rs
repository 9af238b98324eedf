//! What is found by names, and where lines of source files are.

use super::files::{debug_stream, file_of, module_record};
use super::program::{one, prints, said};
use super::streams::{Sizes, module_of, put_record, symbols_of};
use crate::tests::fakes::is;
use pdb::{Error, ItemFinder, MemorySource, Stream, StringTable, SymbolTable};
use pdb_resolve::{CallNames, GlobalIds, PlaceAddresses};
use std::alloc::{AllocError, Global};
use std::process::Abort;
use std::test::Fail;
use tool_arguments::operands::Operand;
use tool_arguments::options::OutputFormat;
use tool_arguments::sources_asked::source_of;
use tool_output::error_objects::put_error_in;
use tool_output::fault::Fault;
use tool_output::stop::Stop;
use tool_search::asking::Asking;
use tool_search::find_texts::{put_found_globals, put_found_symbols};
use tool_search::finder::Finder;
use tool_search::source_texts::put_sources;
use tool_search::where_texts::put_where;

/// The names `a.c` at offset 1 and `Src\bc.h` at offset 5.
pub static STRINGS: &[u8] =
    b"\xfe\xef\xfe\xef\x01\x00\x00\x00\x0e\x00\x00\x00\x00a\x2ec\x00Src\x5cbc\x2eh\x00";

/// Files without a checksum, with four bytes of MD5, with three of SHA-1, and with none of SHA-256.
pub static FILES: &[u8] =
    b"\xf4\x00\x00\x00\x28\x00\x00\x00\x01\x00\x00\x00\x00\x00\x00\x00\x05\x00\x00\x00\x04\x01\x01\x02\x03\x04\x00\x00\x01\x00\x00\x00\x03\x02\x0a\x0b\x0c\x00\x00\x00\x63\x00\x00\x00\x00\x03\x00\x00";

/// The two files, and in section 2 three records from 0x40 on: line 7 of the first file with eight bytes, and lines 9
/// and 11 of the second with four and none.
pub static LINES: &[u8] =
    b"\xf4\x00\x00\x00\x10\x00\x00\x00\x01\x00\x00\x00\x00\x00\x00\x00\x05\x00\x00\x00\x00\x00\x00\x00\xf2\x00\x00\x00\x3c\x00\x00\x00\x40\x00\x00\x00\x02\x00\x00\x00\x0c\x00\x00\x00\x00\x00\x00\x00\x01\x00\x00\x00\x14\x00\x00\x00\x00\x00\x00\x00\x07\x00\x00\x80\x08\x00\x00\x00\x02\x00\x00\x00\x1c\x00\x00\x00\x08\x00\x00\x00\x09\x00\x00\x80\x0c\x00\x00\x00\x0b\x00\x00\x80";

/// A procedure `fab` of 33 bytes in section 2.
pub static PROCEDURE: &[u8] =
    b"\x10\x11\x00\x00\x00\x00\x90\x00\x00\x00\x00\x00\x00\x00\x21\x00\x00\x00\x04\x00\x00\x00\x1e\x00\x00\x00\x09\x10\x00\x00\x40\x00\x00\x00\x02\x00\x00fab\x00";

/// Local data `gab`, a label `lab` and data of a thread `tab`.
pub static DATA: &[u8] = b"\x0c\x11\x74\x00\x00\x00\x10\x00\x00\x00\x03\x00gab\x00";

pub static LABEL: &[u8] = b"\x05\x11\x48\x00\x00\x00\x02\x00\x00lab\x00";

static THREAD: &[u8] = b"\x12\x11\x74\x00\x00\x00\x20\x00\x00\x00\x04\x00tab\x00";

/// A public symbol `_Z3fabv`, and global data `gab`.
static PUBLIC: &[u8] = b"\x0e\x11\x02\x00\x00\x00\x40\x00\x00\x00\x02\x00_Z3fabv\x00";

static GLOBAL: &[u8] = b"\x0d\x11\x74\x00\x00\x00\x10\x00\x00\x00\x03\x00gab\x00";

#[test]
fn source_files_with_checksums(rt: HostRuntime) -> Result<(), Fail> {
    let sizes = Sizes {
        symbols: 0,
        older_lines: 0,
    };
    let info = module_of(&rt, FILES, &sizes)?;
    let strings = StringTable::parse(Stream::new(STRINGS).expect(&rt, "a short stream"))?;
    let mut out = Vec::new(rt.alloc());
    put_sources(&mut out, OutputFormat::Text, 0, Some(&strings), &info)?;
    let wanted: &[u8] = b"none - a.c\nmd5 01020304 Src\\bc.h\nsha1 0a0b0c a.c\nsha256 - ??\n";
    is(&rt, "out", &out.as_slice(), &wanted);
    let mut out = Vec::new(rt.alloc());
    put_sources(&mut out, OutputFormat::Text, 0, None, &info)?;
    let wanted: &[u8] = b"none - ??\nmd5 01020304 ??\nsha1 0a0b0c ??\nsha256 - ??\n";
    is(&rt, "without names", &out.as_slice(), &wanted);
    Ok(())
}

#[test]
fn symbols_of_a_module_by_name(rt: HostRuntime) -> Result<(), Fail> {
    let symbols = symbols_of(
        &rt,
        rt.alloc(),
        &[PROCEDURE, DATA, LABEL, THREAD, b"\x05\x11"],
    )?;
    let sizes = Sizes {
        symbols: symbols.len(),
        older_lines: 0,
    };
    let info = module_of(&rt, &symbols, &sizes)?;
    let words = [
        Operand {
            argument: 2,
            word: "?ab",
        },
        Operand {
            argument: 3,
            word: "*ab",
        },
    ];
    let ids = ItemFinder::empty(rt.alloc());
    let types = ItemFinder::empty(rt.alloc());
    let finder = Finder::new(
        OutputFormat::Text,
        &words,
        ids,
        types,
        PlaceAddresses::new(None),
    );
    let mut out = Vec::new(rt.alloc());
    let global = GlobalIds::empty(rt.alloc());
    let names = CallNames::new(&finder.ids, &finder.types, &global);
    put_found_symbols(rt.alloc(), &mut out, &finder, 0, &names, &info)?;
    let wanted: &[u8] = b"procedure 0002:00000040 - 33 fab\n\
        data 0003:00000010 - - gab\n\
        label 0002:00000048 - - lab\n\
        thread 0004:00000020 - - tab\n";
    is(&rt, "out", &out.as_slice(), &wanted);
    Ok(())
}

/// Global symbols whose places and names are read at their offsets: a public symbol and data of a thread; an empty name;
/// a name without its zero byte, and a place without its last byte. Then local data, and a public symbol, `_ab` on x86,
/// whose name stands behind its length.
static GLOBALS: [&[u8]; 8] = [
    b"\x0e\x11\x02\x00\x00\x00\x44\x33\x22\x11\x66\x55pab\x00",
    b"\x13\x11\x74\x00\x00\x00\x20\x00\x00\x00\x04\x00ta\nb\x00\xf1",
    b"\x0d\x11\x74\x00\x00\x00\x30\x00\x00\x00\x04\x00\x00",
    b"\x0d\x11\x74\x00\x00\x00\x40\x00\x00\x00\x04\x00gab",
    b"\x0e\x11\x02\x00\x00\x00\x40\x00\x00\x00\x04",
    b"\x0c\x11\x74\x00\x00\x00\x10\x00\x00\x00\x03\x00lab\x00",
    b"\x12\x11\x74\x00\x00\x00\x20\x00\x00\x00\x04\x00lab\x00",
    b"\x09\x10\x02\x00\x00\x00\x50\x00\x00\x00\x01\x00\x03_ab",
];

/// The lines of these, of all names, in an image for x86 or not.
fn global_lines(rt: &(impl Abort + AllocGlobal), x86: bool, wanted: &[u8]) -> Result<(), Fail> {
    let mut list = Vec::new(rt.alloc());
    for record in &GLOBALS {
        put_record(rt, &mut list, record)?;
    }
    let table = SymbolTable::new(Stream::new(&list).expect(rt, "a short stream"));
    let words = [Operand {
        argument: 2,
        word: "*",
    }];
    let ids = ItemFinder::empty(rt.alloc());
    let types = ItemFinder::empty(rt.alloc());
    let finder = Finder::new(
        OutputFormat::Text,
        &words,
        ids,
        types,
        PlaceAddresses::new(None),
    );
    let mut out = Vec::new(rt.alloc());
    put_found_globals(rt.alloc(), &mut out, &finder, x86, &table)?;
    is(rt, "global lines", &out.as_slice(), &wanted);
    Ok(())
}

#[test]
fn global_symbols_at_offsets(rt: HostRuntime) -> Result<(), Fail> {
    let wanted: &[u8] = b"public 5566:11223344 - - pab\n\
        thread 0004:00000020 - - ta b\n\
        public 0001:00000050 - - _ab\n";
    global_lines(&rt, false, wanted)?;
    let wanted: &[u8] = b"public 5566:11223344 - - pab\n\
        thread 0004:00000020 - - ta b\n\
        public 0001:00000050 - - ab (_ab)\n";
    global_lines(&rt, true, wanted)
}

#[test]
fn records_of_requested_lines(rt: HostRuntime) -> Result<(), Fail> {
    let mut bytes = symbols_of(&rt, rt.alloc(), &[PROCEDURE])?;
    let sizes = Sizes {
        symbols: bytes.len(),
        older_lines: 0,
    };
    bytes.extend_from_slice(LINES)?;
    let info = module_of(&rt, &bytes, &sizes)?;
    let strings = StringTable::parse(Stream::new(STRINGS).expect(&rt, "a short stream"))?;
    let asked = [
        source_of(b"a.c:7").ok().expect(&rt, "a source file"),
        source_of(b"BC.H").ok().expect(&rt, "a source file"),
    ];
    let ids = ItemFinder::empty(rt.alloc());
    let types = ItemFinder::empty(rt.alloc());
    let asking = Asking::new(
        OutputFormat::Text,
        &asked,
        Some(&strings),
        ids,
        types,
        PlaceAddresses::new(None),
    );
    let mut out = Vec::new(rt.alloc());
    let global = GlobalIds::empty(rt.alloc());
    let names = CallNames::new(&asking.ids, &asking.types, &global);
    put_where(rt.alloc(), &mut out, &asking, 0, &names, &info)?;
    let wanted: &[u8] = b"line 0002:00000040 - 8 a.c:7:0 fab\n\
        line 0002:00000048 - 4 Src\\bc.h:9:0 fab\n";
    is(&rt, "out", &out.as_slice(), &wanted);
    Ok(())
}

/// A file of two modules, with three contributions of theirs; module 1 has no stream. Module 0 has a procedure.
pub fn file(alloc: Global) -> Result<Vec<u8>, AllocError> {
    let mut modules = Vec::new(alloc);
    modules.extend_from_slice(&module_record(6, 48, 0))?;
    modules.extend_from_slice(&module_record(0xffff, 0, 0))?;
    let mut contributions = Vec::new(alloc);
    contributions.extend_from_slice(b"\x2d\xba\x2e\xf1")?;
    for (module, size) in [(1u8, 5u8), (0, 7), (1, 9)] {
        contributions.extend_from_slice(&[1, 0, 0, 0, 0, 0, 0, 0, size, 1, 0, 0, 0, 0, 0, 0])?;
        contributions.extend_from_slice(&[module, 0, 0, 0, 0, 0, 0, 0, 0, 0, 0, 0])?;
    }
    let debug = debug_stream(alloc, 5, &modules, &contributions, &[])?;
    let mut module = Vec::new(alloc);
    module.extend_from_slice(b"\x04\x00\x00\x00\x2a\x00")?;
    module.extend_from_slice(PROCEDURE)?;
    module.extend_from_slice(b"\x00")?;
    let mut globals = Vec::new(alloc);
    globals.extend_from_slice(b"\x16\x00")?;
    globals.extend_from_slice(PUBLIC)?;
    globals.extend_from_slice(b"\x00\x00\x10\x00")?;
    globals.extend_from_slice(GLOBAL)?;
    let streams: [Option<&[u8]>; 9] = [
        Some(b""),
        Some(&[0; 48]),
        None,
        Some(&debug),
        None,
        Some(&globals),
        Some(&module),
        None,
        None,
    ];
    file_of(alloc, &streams)
}

/// The streams of that file. The numbers of the two indices in its DBI stream are 0.
static STREAMS: &[u8] = b"0 0 old directory, index of global symbols, index of publics\n\
    1 48 information\n\
    2 - types\n\
    3 288 debug information\n\
    4 - ids\n\
    5 42 global symbols\n\
    6 48 module 0\n\
    7 - -\n\
    8 - -\n";

/// The JSON objects of the first streams of that file.
static STREAM_OBJECTS: &[u8] =
    b"{\"stream\":0,\"size\":0,\"what\":[\"old directory\",\"index of global symbols\",\"index of publics\"]}\n{\"stream\":1,\"size\":48,\"what\":[\"information\"]}\n{\"stream\":2,\"size\":null,\"what\":[\"types\"]}\n";

/// What the commands over that file print as JSON.
fn objects_of_lists(rt: &(impl Abort + AllocGlobal), bytes: &[u8]) -> Result<(), Fail> {
    let wanted: &[u8] =
        b"{\"module\":0,\"bytes\":263,\"name\":\"a\",\"object\":\"b\"}\n{\"module\":1,\"bytes\":526,\"name\":\"a\",\"object\":\"b\"}\n";
    prints(rt, bytes, &["modules", "a.pdb", "--json"], wanted)?;
    let wanted: &[u8] = b"{\"module\":null,\"error\":null,\"text\":\"none\"}\n";
    prints(rt, bytes, &["sections", "a.pdb", "--json"], wanted)?;
    let files = [("a.pdb", bytes)];
    let streams = said(
        &one(rt.alloc(), &files, true),
        &["streams", "a.pdb", "--json"],
        b"",
    )?;
    is(
        rt,
        "streams",
        &streams.out.starts_with(STREAM_OBJECTS),
        &true,
    );
    let last: &[u8] = b"\n{\"stream\":8,\"size\":null,\"what\":[]}\n";
    is(rt, "last stream", &streams.out.ends_with(last), &true);
    let mut out = Vec::new(rt.alloc());
    put_error_in(&mut out, OutputFormat::Json, Error::StreamNotFound(9))?;
    let wanted: &[u8] = b"\x00{\"module\":null,\"error\":6,\"text\":\"there is no stream 9\"}\n";
    is(rt, "error", &out.as_slice(), &wanted);
    Ok(())
}

#[test]
fn commands_over_a_file(rt: HostRuntime) -> Result<(), Fail> {
    let file = file(rt.alloc())?;
    let bytes = file.as_slice();
    prints(
        &rt,
        bytes,
        &["modules", "a.pdb"],
        b"0 263 a [b]\n1 526 a [b]\n",
    )?;
    prints(&rt, bytes, &["sections", "a.pdb"], b"none\n")?;
    prints(&rt, bytes, &["streams", "a.pdb"], STREAMS)?;
    objects_of_lists(&rt, bytes)?;
    let wanted: &[u8] = b"module 1 a\nnone\nmodule 0 a\nnone\n";
    prints(&rt, bytes, &["sources", "a.pdb", "1", "0", "2"], wanted)?;
    let wanted: &[u8] = b"public 0002:00000040 - - fab (_Z3fabv)\n\
        data 0003:00000010 - - gab\n\
        procedure 0002:00000040 - 33 fab\n";
    prints(&rt, bytes, &["find", "a.pdb", "*ab*"], wanted)?;
    prints(&rt, bytes, &["where", "a.pdb", "a.c"], b"")?;
    let front = bytes.get(..40).unwrap_or(bytes);
    let files = [("a.pdb", front)];
    let refused = said(&one(rt.alloc(), &files, true), &["modules", "a.pdb"], b"")?;
    let is_open = matches!(refused.result, Err(Fault::Stopped(Stop::Open(_), 1)));
    is(&rt, "a file that is none", &is_open, &true);
    is(&rt, "nothing", &refused.out.len(), &0);
    Ok(())
}
