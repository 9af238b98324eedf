//! What is wrong with files that are made by hand.

use super::files::{debug_stream, file_of, module_record};
use super::program::{checks, one, said};
use crate::tests::fakes::is;
use std::alloc::{AllocError, Global};
use std::process::Abort;
use std::test::Fail;

/// An information stream without names.
static INFORMATION: [u8; 48] = [0; 48];

/// The version of section contributions, and none.
static CONTRIBUTIONS: &[u8] = b"\x2d\xba\x2e\xf1";

/// A record of kind 0x110e that has one byte of its fields, and a byte that is no record.
static GLOBALS: &[u8] = b"\x03\x00\x0e\x11\x01\x09";

/// A record without its end behind a header.
static IDS: &[u8] =
    b"\x00\x00\x00\x00\x38\x00\x00\x00\x00\x10\x00\x00\x01\x10\x00\x00\x04\x00\x00\x00\x00\x00\x00\x00\x00\x00\x00\x00\x00\x00\x00\x00\x00\x00\x00\x00\x00\x00\x00\x00\x00\x00\x00\x00\x00\x00\x00\x00\x00\x00\x00\x00\x00\x00\x00\x00\x0a\x00\x05\x16";

/// A record as in `GLOBALS`, one of S_FRAMEPROC without its fields, one of a kind that isn't read, a site whose one
/// annotation is 14, and a byte that is no record.
static SYMBOLS: &[u8] =
    b"\x04\x00\x00\x00\x03\x00\x0e\x11\x01\x02\x00\x12\x10\x02\x00\x99\x99\x0f\x00\x4d\x11\x00\x00\x00\x00\x20\x00\x00\x00\x01\x10\x00\x00\x0e\x09";

/// A file of checksum kind 4, lines whose second block has no room for its two records, an empty part of inlined
/// functions, imports of four bytes and exports of four.
static LINES: &[u8] =
    b"\xf4\x00\x00\x00\x08\x00\x00\x00\x01\x00\x00\x00\x00\x04\x00\x00\xf2\x00\x00\x00\x3c\x00\x00\x00\x10\x00\x00\x00\x01\x00\x00\x00\x20\x00\x00\x00\x00\x00\x00\x00\x02\x00\x00\x00\x1c\x00\x00\x00\x00\x00\x00\x00\x03\x00\x00\x80\x08\x00\x00\x00\x04\x00\x00\x80\x00\x00\x00\x00\x02\x00\x00\x00\x14\x00\x00\x00\x10\x00\x00\x00\x05\x00\x00\x80\xf6\x00\x00\x00\x00\x00\x00\x00\xf7\x00\x00\x00\x04\x00\x00\x00\x01\x00\x00\x00\xf8\x00\x00\x00\x04\x00\x00\x00\x01\x00\x00\x00";

/// What is wrong with `damaged`.
static FINDINGS: &[u8] = b"a.pdb: information: the data ends before a record does\n\
    a.pdb: names: the data ends before a record does\n\
    a.pdb: modules: the data ends before a record does\n\
    a.pdb: contributions: the data ends before a record does\n\
    a.pdb: sections: invalid length: DbgDataHdr\n\
    a.pdb: address map: invalid length: DbgDataHdr\n\
    a.pdb: frame table: invalid length: DbgDataHdr\n\
    a.pdb: string table: the data ends before a record does\n\
    a.pdb: global symbols: the data ends before a record does\n\
    a.pdb: global symbol 00000000: the data ends before a record does\n\
    a.pdb: types: the data ends before a record does\n\
    a.pdb: module 0 symbols: the data ends before a record does\n\
    a.pdb: module 0 symbol 00000004: the data ends before a record does\n\
    a.pdb: module 0 symbol 00000009: the data ends before a record does\n\
    a.pdb: module 0 site 00000011: binary annotation 14 is unknown\n\
    a.pdb: module 0 lines: invalid length: DebugLinesBlock\n\
    a.pdb: module 0 files: file checksums of kind 4 are not supported\n\
    a.pdb: module 0 inlined functions: the data ends before a record does\n\
    a.pdb: module 0 imports: the data ends before a record does\n\
    a.pdb: module 0 exports: invalid length: DebugCrossScopeExportsSubsection\n\
    a.pdb: module 2: there is no stream 20\n";

/// A file with something wrong in all places but the DBI stream's header. Module 1 has no stream.
pub fn damaged(alloc: Global) -> Result<Vec<u8>, AllocError> {
    let mut module = Vec::new(alloc);
    module.extend_from_slice(SYMBOLS)?;
    module.extend_from_slice(LINES)?;
    let mut modules = Vec::new(alloc);
    modules.extend_from_slice(&module_record(6, 35, 116))?;
    modules.extend_from_slice(&module_record(0xffff, 0, 0))?;
    modules.extend_from_slice(&module_record(20, 0, 0))?;
    modules.push(0)?;
    let debug = debug_stream(alloc, 5, &modules, &[0], &[0])?;
    let streams: [Option<&[u8]>; 9] = [
        Some(b""),
        Some(&INFORMATION[..20]),
        Some(&IDS[..20]),
        Some(&debug),
        Some(IDS),
        Some(GLOBALS),
        Some(&module),
        None,
        None,
    ];
    file_of(alloc, &streams)
}

#[test]
fn all_that_is_wrong_is_told(rt: HostRuntime) -> Result<(), Fail> {
    let file = damaged(rt.alloc())?;
    checks(&rt, &file, false, FINDINGS)
}

/// Nothing is wrong with a file of one module without a stream, and these contributions.
fn is_well(rt: &(impl Abort + AllocGlobal), contributions: &[u8]) -> Result<(), Fail> {
    let alloc = rt.alloc();
    let modules = module_record(0xffff, 9, 9);
    let debug = debug_stream(alloc, 0xffff, &modules, contributions, &[0xff; 22])?;
    let mut streams: [Option<&[u8]>; 9] = [None; 9];
    streams[1] = Some(&INFORMATION);
    streams[3] = Some(&debug);
    let file = file_of(alloc, &streams)?;
    checks(rt, &file, true, b"a.pdb: ok\n")
}

#[test]
fn what_is_not_there_is_not_wrong(rt: HostRuntime) -> Result<(), Fail> {
    is_well(&rt, CONTRIBUTIONS)
}

#[test]
fn contributions_of_no_byte_are_not_wrong(rt: HostRuntime) -> Result<(), Fail> {
    is_well(&rt, b"")
}

#[test]
fn a_dbi_stream_of_no_byte_is_not_wrong(rt: HostRuntime) -> Result<(), Fail> {
    let mut streams: [Option<&[u8]>; 9] = [None; 9];
    streams[1] = Some(&INFORMATION);
    streams[2] = Some(&IDS[..20]);
    streams[3] = Some(b"");
    let file = file_of(rt.alloc(), &streams)?;
    let wanted: &[u8] = b"a.pdb: types: the data ends before a record does\n";
    checks(&rt, &file, false, wanted)
}

/// What stands behind the map of names, and what `check` writes of a stream of ids without its end.
static CODES: [(&[u8], &[u8]); 5] = [
    (b"", b"a.pdb: ok\n"),
    (b"NTSM", b"a.pdb: ok\n"),
    (b"NTSM\x41\x91\x32", b"a.pdb: ok\n"),
    (
        b"NTSM\x41\x91\x32\x01",
        b"a.pdb: ids: the data ends before a record does\n",
    ),
    (
        b"\xdc\x51\x33\x01INIM",
        b"a.pdb: ids: the data ends before a record does\n",
    ),
];

#[test]
fn ids_are_read_where_the_information_stream_says_so(rt: HostRuntime) -> Result<(), Fail> {
    for (codes, wanted) in &CODES {
        let mut information = Vec::new(rt.alloc());
        information.extend_from_slice(&INFORMATION)?;
        information.extend_from_slice(codes)?;
        let mut streams: [Option<&[u8]>; 9] = [None; 9];
        streams[1] = Some(&information);
        streams[3] = Some(b"");
        streams[4] = Some(IDS);
        let file = file_of(rt.alloc(), &streams)?;
        checks(&rt, &file, codes.len() < 8, wanted)?;
    }
    Ok(())
}

#[test]
fn an_older_header_refuses_what_stands_on_it(rt: HostRuntime) -> Result<(), Fail> {
    let mut streams: [Option<&[u8]>; 9] = [None; 9];
    streams[1] = Some(&INFORMATION);
    streams[3] = Some(&[0; 64]);
    let file = file_of(rt.alloc(), &streams)?;
    let wanted: &[u8] = b"a.pdb: debug information: not supported: ancient DBI header\n\
        a.pdb: modules: not supported: ancient DBI header\n\
        a.pdb: contributions: not supported: ancient DBI header\n\
        a.pdb: sections: not supported: ancient DBI header\n\
        a.pdb: address map: not supported: ancient DBI header\n\
        a.pdb: frame table: not supported: ancient DBI header\n\
        a.pdb: global symbols: not supported: ancient DBI header\n";
    checks(&rt, &file, false, wanted)
}

#[test]
fn a_file_that_is_none_has_no_text(rt: HostRuntime) -> Result<(), Fail> {
    let files = [("a.pdb", b"Microsoft".as_slice())];
    let given = said(&one(rt.alloc(), &files, false), &["check", "a.pdb"], b"")?;
    is(&rt, "result", &given.result, &Ok(false));
    is(&rt, "out", &given.out.len(), &0);
    let wanted: &[u8] = b"pdb_tool: a.pdb: this is no PDB file of the format MSF 7.00\n";
    is(&rt, "err", &given.err.as_slice(), &wanted);
    Ok(())
}
