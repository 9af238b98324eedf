//! Records of frame data, and their lines.

use super::files::{debug_stream, file_of};
use super::program::prints;
use std::alloc::{AllocError, Global};
use std::test::Fail;

/// A record of FRAMEDATA, whose program is at 1 in the string table.
const NEWER: &[u8] =
    b"\x10\x10\0\0\x12\0\0\0\x03\0\0\0\x08\0\0\0\0\x01\0\0\x01\0\0\0\x04\0\x0c\0\x02\0\0\0";

/// A record of FPO_DATA: three words of locals, two of parameters, five registers, a prolog of 9 bytes.
const OLDER: &[u8] = b"\x40\x20\0\0\x34\x12\0\0\x03\0\0\0\x02\0\x09\x5d";

/// An information stream that names stream 7 `/names`.
const INFORMATION: &[u8] =
    b"\x94\x2e\x31\x01\0\0\0\0\x01\0\0\0\0\0\0\0\0\0\0\0\0\0\0\0\0\0\0\0\x07\0\0\0/names\0\x01\0\0\0\x01\0\0\0\x01\0\0\0\x01\0\0\0\0\0\0\0\0\0\0\0\x07\0\0\0";

/// A string table: an empty name, and a program.
const STRINGS: &[u8] = b"\xfe\xef\xfe\xef\x01\0\0\0\x06\0\0\0\0$T0 \0";

/// A file with these streams of frame data, at 5 and 6, and perhaps a string table.
fn with_frames(
    alloc: Global,
    older: Option<&[u8]>,
    newer: Option<&[u8]>,
    strings: Option<&[u8]>,
) -> Result<Vec<u8>, AllocError> {
    let mut numbers = [0xff; 22];
    if older.is_some() {
        numbers[..2].copy_from_slice(&[5, 0]);
    }
    if newer.is_some() {
        numbers[18..20].copy_from_slice(&[6, 0]);
    }
    let debug = debug_stream(alloc, 0xffff, b"", b"", &numbers)?;
    let streams: [Option<&[u8]>; 9] = [
        Some(b""),
        Some(INFORMATION),
        None,
        Some(&debug),
        None,
        older,
        newer,
        strings,
        None,
    ];
    file_of(alloc, &streams)
}

const NEWER_LINE: &[u8] =
    b"0x1010 18 framedata locals=3 params=8 saved=12 prolog=4 max=256 eh $T0 \n";

const OLDER_LINE: &[u8] = b"0x2040 4660 trap locals=12 params=8 saved=20 prolog=9 max=0 seh bp\n";

#[test]
fn records_of_both_streams(rt: HostRuntime) -> Result<(), Fail> {
    let alloc = rt.alloc();
    let words = ["frames", "a.pdb"];
    let bytes = with_frames(alloc, Some(OLDER), Some(NEWER), Some(STRINGS))?;
    let mut both = Vec::from_slice(alloc, NEWER_LINE)?;
    both.extend_from_slice(OLDER_LINE)?;
    prints(&rt, &bytes, &words, &both)?;
    let bytes = with_frames(alloc, Some(OLDER), None, None)?;
    prints(&rt, &bytes, &words, OLDER_LINE)?;
    let bytes = with_frames(alloc, None, Some(NEWER), Some(STRINGS))?;
    prints(&rt, &bytes, &words, NEWER_LINE)?;
    let bytes = with_frames(alloc, None, None, None)?;
    prints(&rt, &bytes, &words, b"none\n")
}

#[test]
fn records_that_are_cut_and_programs_that_are_not_there(rt: HostRuntime) -> Result<(), Fail> {
    let alloc = rt.alloc();
    let words = ["frames", "a.pdb"];
    let line: &[u8] = b"0x1010 18 framedata locals=3 params=8 saved=12 prolog=4 max=256 eh ??\n";
    for strings in [
        None,
        Some(b"\xfe\xef\xfe\xef\x01\0\0\0\x01\0\0\0\0".as_slice()),
    ] {
        let bytes = with_frames(alloc, None, Some(NEWER), strings)?;
        prints(&rt, &bytes, &words, line)?;
    }
    let mut cut = Vec::from_slice(alloc, OLDER)?;
    cut.extend_from_slice(&OLDER[..15])?;
    let bytes = with_frames(alloc, Some(&cut), Some(&NEWER[..31]), None)?;
    prints(&rt, &bytes, &words, OLDER_LINE)
}

#[test]
fn objects_of_records(rt: HostRuntime) -> Result<(), Fail> {
    let bytes = with_frames(rt.alloc(), Some(OLDER), Some(NEWER), Some(STRINGS))?;
    let wanted: &[u8] =
        b"{\"rva\":4112,\"size\":18,\"kind\":\"framedata\",\"locals\":3,\"params\":8,\"saved\":12,\"prolog\":4,\"max\":256,\"seh\":false,\"eh\":true,\"start\":false,\"bp\":false,\"program\":\"$T0 \"}
{\"rva\":8256,\"size\":4660,\"kind\":\"trap\",\"locals\":12,\"params\":8,\"saved\":20,\"prolog\":9,\"max\":0,\"seh\":true,\"eh\":false,\"start\":false,\"bp\":true,\"program\":null}
";
    prints(&rt, &bytes, &["frames", "--json", "a.pdb"], wanted)
}
