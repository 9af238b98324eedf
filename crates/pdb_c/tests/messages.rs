//! The text of each code of `include/pdb.h`.

use super::is;
use crate::*;
use std::process::Abort;

const MESSAGES: [(u32, &[u8]); 32] = [
    (0, b"no error"),
    (1, b"bytes that a format needs are not present"),
    (2, b"a feature that this reader doesn't read"),
    (3, b"no file of the container MSF 7.00"),
    (4, b"the page size is no power of two from 256 to 8388608"),
    (5, b"a page number that is no page of the file"),
    (6, b"no stream of this number"),
    (7, b"no stream of this name"),
    (8, b"no stream of global symbols"),
    (9, b"the address map lacks a table"),
    (10, b"a length contradicts its format"),
    (11, b"a symbol record is too short for its kind"),
    (12, b"records of this kind are not read"),
    (13, b"debug subsections of this kind are not read"),
    (14, b"file checksums of this kind are not read"),
    (15, b"no file checksum begins there"),
    (16, b"a binary annotation of an unknown kind"),
    (
        17,
        b"a binary annotation whose number is not spelled as annotations spell numbers",
    ),
    (18, b"an index that refers to no import"),
    (
        19,
        b"the module doesn't have the import to which an index refers",
    ),
    (20, b"the prefix of a number is of no known kind"),
    (21, b"the file can't be read"),
    (22, b"out of memory"),
    (30, b"the list has ended"),
    (31, b"a buffer is too small"),
    (32, b"more bytes than a stream can have"),
    (33, b"no stream of section headers"),
    (34, b"no image: it doesn't begin with MZ"),
    (
        35,
        b"the number at offset 60 doesn't lead to a PE signature",
    ),
    (
        36,
        b"the optional header of an image is that of neither PE32 nor PE32+",
    ),
    (37, b"the image names a PDB of version 2.00"),
    (
        38,
        b"the debug record of an image begins with neither RSDS nor NB10",
    ),
];

fn has(rt: &impl Abort, code: u32, wanted: &[u8]) {
    let mut out = PdbName { bytes: b"-" };
    pdb_message(code, &mut out);
    is(rt, "message", &out.bytes, &wanted);
}

#[test]
fn each_code_has_a_text(rt: HostRuntime) {
    for (code, wanted) in MESSAGES {
        has(&rt, code, wanted);
    }
}

#[test]
fn other_codes_are_unknown(rt: HostRuntime) {
    for code in [23, 29, 39, u32::MAX] {
        has(&rt, code, b"unknown code");
    }
}
