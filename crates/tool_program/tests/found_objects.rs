//! JSON objects of what is found, of source files, and of damage.

use super::checks::damaged;
use super::files::file_of;
use super::lookups::{DATA, FILES, LABEL, LINES, PROCEDURE, STRINGS, file};
use super::program::{one, prints, said};
use super::streams::{Sizes, module_of, symbols_of};
use crate::tests::fakes::is;
use pdb::{Error, FallibleIterator, ItemFinder, LineInfo, Stream, StringTable};
use pdb_resolve::{CallNames, GlobalIds, PlaceAddresses};
use std::alloc::AllocError;
use std::test::Fail;
use tool_arguments::operands::Operand;
use tool_arguments::options::OutputFormat;
use tool_arguments::sources_asked::source_of;
use tool_check::subject::{Subject, put_sound_in};
use tool_output::module_errors::{put_error_of, put_none_of, put_refusal_of, put_refused_of};
use tool_output::stop::Stop;
use tool_search::asking::Asking;
use tool_search::find_texts::put_found_symbols;
use tool_search::finder::Finder;
use tool_search::source_texts::put_sources;
use tool_search::where_texts::put_where;

#[test]
fn objects_of_source_files(rt: HostRuntime) -> Result<(), Fail> {
    let sizes = Sizes {
        symbols: 0,
        older_lines: 0,
    };
    let info = module_of(&rt, FILES, &sizes)?;
    let strings = StringTable::parse(Stream::new(STRINGS).expect(&rt, "a short stream"))?;
    let mut out = Vec::new(rt.alloc());
    put_sources(
        &mut out,
        OutputFormat::Json,
        4294967297,
        Some(&strings),
        &info,
    )?;
    let wanted: &[u8] =
        b"{\"module\":4294967297,\"checksum\":\"none\",\"digest\":null,\"file\":\"a.c\"}\n{\"module\":4294967297,\"checksum\":\"md5\",\"digest\":\"01020304\",\"file\":\"Src\\\\bc.h\"}\n{\"module\":4294967297,\"checksum\":\"sha1\",\"digest\":\"0a0b0c\",\"file\":\"a.c\"}\n{\"module\":4294967297,\"checksum\":\"sha256\",\"digest\":null,\"file\":null}\n";
    is(&rt, "out", &out.as_slice(), &wanted);
    Ok(())
}

#[test]
fn objects_of_symbols_by_name(rt: HostRuntime) -> Result<(), Fail> {
    let mut symbols = symbols_of(&rt, rt.alloc(), &[PROCEDURE, DATA, LABEL])?;
    symbols.extend_from_slice(b"\x01\x00\x00")?;
    let sizes = Sizes {
        symbols: symbols.len(),
        older_lines: 0,
    };
    let info = module_of(&rt, &symbols, &sizes)?;
    let words = [Operand {
        argument: 2,
        word: "*ab",
    }];
    let ids = ItemFinder::empty(rt.alloc());
    let types = ItemFinder::empty(rt.alloc());
    let finder = Finder::new(
        OutputFormat::Json,
        &words,
        ids,
        types,
        PlaceAddresses::new(None),
    );
    let mut out = Vec::new(rt.alloc());
    let global = GlobalIds::empty(rt.alloc());
    let names = CallNames::new(&finder.ids, &finder.types, &global);
    put_found_symbols(rt.alloc(), &mut out, &finder, 5, &names, &info)?;
    let wanted: &[u8] =
        b"{\"kind\":\"procedure\",\"at\":\"0002:00000040\",\"rva\":null,\"length\":33,\"name\":\"fab\"}\n{\"kind\":\"data\",\"at\":\"0003:00000010\",\"rva\":null,\"length\":null,\"name\":\"gab\"}\n{\"kind\":\"label\",\"at\":\"0002:00000048\",\"rva\":null,\"length\":null,\"name\":\"lab\"}\n\x00{\"module\":5,\"error\":11,\"text\":\"a symbol record is shorter than two bytes\"}\n";
    is(&rt, "out", &out.as_slice(), &wanted);
    Ok(())
}

#[test]
fn objects_of_requested_lines(rt: HostRuntime) -> Result<(), Fail> {
    let mut bytes = symbols_of(&rt, rt.alloc(), &[PROCEDURE])?;
    let sizes = Sizes {
        symbols: bytes.len(),
        older_lines: 0,
    };
    bytes.extend_from_slice(LINES)?;
    let info = module_of(&rt, &bytes, &sizes)?;
    let strings = StringTable::parse(Stream::new(STRINGS).expect(&rt, "a short stream"))?;
    let asked = [
        source_of(b"a.c:7").ok().expect(&rt, "a source file"),
        source_of(b"BC.H").ok().expect(&rt, "a source file"),
    ];
    let ids = ItemFinder::empty(rt.alloc());
    let types = ItemFinder::empty(rt.alloc());
    let addresses = PlaceAddresses::new(None);
    let asking = Asking::new(
        OutputFormat::Json,
        &asked,
        Some(&strings),
        ids,
        types,
        addresses,
    );
    let mut out = Vec::new(rt.alloc());
    let global = GlobalIds::empty(rt.alloc());
    let names = CallNames::new(&asking.ids, &asking.types, &global);
    put_where(rt.alloc(), &mut out, &asking, 3, &names, &info)?;
    let wanted: &[u8] =
        b"{\"kind\":\"line\",\"at\":\"0002:00000040\",\"rva\":null,\"length\":8,\"file\":\"a.c\",\"line\":7,\"column\":0,\"name\":\"fab\"}\n{\"kind\":\"line\",\"at\":\"0002:00000048\",\"rva\":null,\"length\":4,\"file\":\"Src\\\\bc.h\",\"line\":9,\"column\":0,\"name\":\"fab\"}\n";
    is(&rt, "out", &out.as_slice(), &wanted);
    let mut out = Vec::new(rt.alloc());
    asking.put_where(
        &mut out,
        b"inlined",
        &LineInfo {
            length: None,
            column_start: Some(6),
            ..info
                .line_program(rt.alloc())?
                .lines()
                .next()?
                .expect(&rt, "a record")
        },
        None,
        None,
    )?;
    let wanted: &[u8] =
        b"{\"kind\":\"inlined\",\"at\":\"0002:00000040\",\"rva\":null,\"length\":null,\"file\":null,\"line\":7,\"column\":6,\"name\":null}\n";
    is(&rt, "an unknown file", &out.as_slice(), &wanted);
    Ok(())
}

#[test]
fn objects_of_commands(rt: HostRuntime) -> Result<(), Fail> {
    let file = file(rt.alloc())?;
    let bytes = file.as_slice();
    let wanted: &[u8] =
        b"{\"module\":1,\"error\":null,\"text\":\"none\"}\n{\"module\":2,\"error\":null,\"text\":\"none\"}\n";
    prints(
        &rt,
        bytes,
        &["sources", "--json", "a.pdb", "1", "0", "2"],
        wanted,
    )?;
    let wanted: &[u8] =
        b"{\"kind\":\"public\",\"at\":\"0002:00000040\",\"rva\":null,\"length\":null,\"name\":\"fab (_Z3fabv)\"}\n{\"kind\":\"data\",\"at\":\"0003:00000010\",\"rva\":null,\"length\":null,\"name\":\"gab\"}\n{\"kind\":\"procedure\",\"at\":\"0002:00000040\",\"rva\":null,\"length\":33,\"name\":\"fab\"}\n";
    prints(&rt, bytes, &["find", "--json", "a.pdb", "*ab*"], wanted)?;
    prints(&rt, bytes, &["where", "--json", "a.pdb", "a.c"], b"")
}

/// A file whose DBI stream can't be read: its one stream has a byte.
#[test]
fn errors_outside_modules(rt: HostRuntime) -> Result<(), Fail> {
    let mut streams: [Option<&[u8]>; 9] = [None; 9];
    streams[3] = Some(b"x");
    let bytes = file_of(rt.alloc(), &streams)?;
    let wanted: &[u8] =
        b"{\"module\":null,\"error\":1,\"text\":\"the data ends before a record does\"}\n";
    prints(&rt, &bytes, &["sources", "--json", "a.pdb"], wanted)?;
    let wanted: &[u8] =
        b"{\"module\":7,\"error\":1,\"text\":\"the data ends before a record does\"}\n";
    prints(&rt, &bytes, &["sources", "--json", "a.pdb", "7"], wanted)
}

#[test]
fn objects_of_errors_of_modules(rt: HostRuntime) -> Result<(), AllocError> {
    let mut out = Vec::new(rt.alloc());
    put_error_of(&mut out, OutputFormat::Json, 3, Error::StreamNotFound(9))?;
    put_error_of(&mut out, OutputFormat::Text, 3, Error::StreamNotFound(9))?;
    put_none_of(&mut out, OutputFormat::Json, 18446744073709551615)?;
    put_none_of(&mut out, OutputFormat::Text, 3)?;
    put_refusal_of(&mut out, OutputFormat::Json, 0, Error::SymbolTooShort)?;
    let refused = put_refused_of(&mut out, OutputFormat::Json, 1, Error::UnexpectedEof);
    is(&rt, "refused", &refused, &Ok(()));
    let wanted: &[u8] =
        b"\x00{\"module\":3,\"error\":6,\"text\":\"there is no stream 9\"}\n\x00error 6 there is no stream 9\n{\"module\":18446744073709551615,\"error\":null,\"text\":\"none\"}\nnone\n\x00{\"module\":0,\"error\":11,\"text\":\"a symbol record is shorter than two bytes\"}\n\x00{\"module\":1,\"error\":1,\"text\":\"the data ends before a record does\"}\n";
    is(&rt, "out", &out.as_slice(), &wanted);
    let memory = put_refusal_of(&mut out, OutputFormat::Json, 0, Error::OutOfMemory);
    is(&rt, "out of memory", &memory.is_err(), &true);
    let memory = put_refused_of(&mut out, OutputFormat::Json, 0, Error::OutOfMemory);
    is(&rt, "out of memory", &memory, &Err(Stop::Memory));
    let failed = put_refused_of(&mut out, OutputFormat::Json, 0, Error::IoError);
    is(&rt, "a failed read", &failed, &Err(Stop::Read));
    is(&rt, "out", &out.len(), &wanted.len());
    Ok(())
}

#[test]
fn objects_of_damage(rt: HostRuntime) -> Result<(), Fail> {
    let mut out = Vec::new(rt.alloc());
    let subject = Subject::new(OutputFormat::Json, b"a\"\xff.pdb", b"module 1");
    subject.put_line(&mut out, b" symbol 0000000a", b"there is no stream 9")?;
    put_sound_in(&mut out, OutputFormat::Json, b"b\\\x07.pdb")?;
    put_sound_in(&mut out, OutputFormat::Text, b"c.pdb")?;
    let wanted =
        "{\"file\":\"a\\\"\u{fffd}.pdb\",\"where\":\"module 1 symbol 0000000a\",\"text\":\"there is no stream 9\"}\n{\"file\":\"b\\\\\\u0007.pdb\",\"where\":null,\"text\":null}\nc.pdb: ok\n";
    is(&rt, "out", &out.as_slice(), &wanted.as_bytes());
    let bytes = damaged(rt.alloc())?;
    let files = [("a.pdb", bytes.as_slice())];
    let given = said(
        &one(rt.alloc(), &files, false),
        &["check", "--json", "a.pdb"],
        b"",
    )?;
    is(&rt, "result", &given.result, &Ok(false));
    let out = given.out;
    let first: &[u8] =
        b"{\"file\":\"a.pdb\",\"where\":\"information\",\"text\":\"the data ends before a record does\"}\n{\"file\":\"a.pdb\",\"where\":\"names\",\"text\":";
    is(&rt, "the first", &out.starts_with(first), &true);
    let last: &[u8] =
        b"\n{\"file\":\"a.pdb\",\"where\":\"module 0 exports\",\"text\":\"invalid length: DebugCrossScopeExportsSubsection\"}\n{\"file\":\"a.pdb\",\"where\":\"module 2\",\"text\":\"there is no stream 20\"}\n";
    is(&rt, "the last", &out.ends_with(last), &true);
    is(
        &rt,
        "lines",
        &out.iter().filter(|b| **b == b'\n').count(),
        &21,
    );
    Ok(())
}
