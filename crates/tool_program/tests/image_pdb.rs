//! Commands over an image, whose PDB is looked for.

use super::program::{Fakes, one, said};
use super::wanted::{image, pdb, put, put_bytes};
use crate::key_line::key_line;
use crate::tests::fakes::is;
use std::alloc::Global;
use std::process::Abort;
use std::test::Fail;
use tool_arguments::mistakes::{Mistake, Wrong};
use tool_arguments::options::KeyFormat;
use tool_output::fault::Fault;
use tool_output::stop::{Stop, Unopened};

const NOWHERE: &[u8] = b"??\n??:0:0\n\n";

/// What the program does over these files is this, whole and in parts.
fn does(
    rt: &(impl Abort + AllocGlobal),
    files: &[(&str, &[u8])],
    words: &[&str],
    ended: Result<bool, Fault>,
    out: &[u8],
    err: &[u8],
) -> Result<(), Fail> {
    for is_whole in [false, true] {
        let given = said(&one(rt.alloc(), files, is_whole), words, b"17")?;
        is(rt, words[0], &given.err.as_slice(), &err);
        is(rt, words[0], &given.out.as_slice(), &out);
        is(rt, words[0], &given.result, &ended);
    }
    Ok(())
}

#[test]
fn the_pdb_stands_beside_its_image(rt: HostRuntime) -> Result<(), Fail> {
    let (image, bytes) = (image(rt.alloc())?, pdb(rt.alloc(), 1)?);
    let files = [
        ("bin/a.exe", image.as_slice()),
        ("bin/a.pdb", bytes.as_slice()),
    ];
    let rows: [&[&str]; 4] = [
        &["resolve", "bin/a.exe", "140000017"],
        &["resolve", "bin/a.exe", "17"],
        &["resolve", "bin/a.exe"],
        &["variables", "--base=0", "bin/a.exe", "17"],
    ];
    for words in rows {
        does(&rt, &files, words, Ok(true), NOWHERE, b"")?;
    }
    does(&rt, &files, &["modules", "bin/a.exe"], Ok(true), b"", b"")?;
    does(
        &rt,
        &files,
        &["find", "bin/a.exe", "x"],
        Ok(false),
        b"",
        b"",
    )
}

#[test]
fn the_pdb_is_in_a_folder(rt: HostRuntime) -> Result<(), Fail> {
    let (image, bytes, other) = (image(rt.alloc())?, pdb(rt.alloc(), 1)?, pdb(rt.alloc(), 2)?);
    let stored = "s/a.pdb/030201000504070608090A0B0C0D0E0F1/a.pdb";
    let fronted = "t/a./a.pdb/030201000504070608090a0b0c0d0e0f1/a.pdb";
    let exe = ("a.exe", image.as_slice());
    let words = ["modules", "--symbols=s", "a.exe", "--symbols", "t"];
    for path in [stored, "s/a.pdb", "t/a.pdb", "a.pdb"] {
        let files = [exe, (path, bytes.as_slice())];
        does(&rt, &files, &words, Ok(true), b"", b"")?;
    }
    // Another PDB before it is passed over, without a word.
    let files = [
        exe,
        ("a.pdb", other.as_slice()),
        ("t/a.pdb", bytes.as_slice()),
    ];
    does(&rt, &files, &words, Ok(true), b"", b"")?;
    // Folders by the first two bytes are there only where the store says so.
    let missing = Err(Fault::Reported(Stop::Unopened(Unopened::Missing)));
    let not_found =
        b"pdb_tool: a.exe: its PDB a.pdb 030201000504070608090A0B0C0D0E0F1 is not found\n";
    let files = [exe, (fronted, bytes.as_slice())];
    does(&rt, &files, &words, missing, b"", not_found)?;
    let files = [exe, (fronted, bytes.as_slice()), ("t/index2.txt", b"")];
    does(&rt, &files, &words, Ok(true), b"", b"")
}

#[test]
fn what_is_found_in_its_place(rt: HostRuntime) -> Result<(), Fail> {
    let (image, other) = (image(rt.alloc())?, pdb(rt.alloc(), 2)?);
    let exe = ("a.exe", image.as_slice());
    let words = ["modules", "--symbols=s", "--symbols=denied", "a.exe"];
    let files = [
        exe,
        ("s/a.pdb", other.as_slice()),
        ("denied/a.pdb", b""),
        ("a.pd_", b"x"),
        ("a.pdb", b"no PDB"),
    ];
    let wanted: &[u8] = b"pdb_tool: a.pdb: this is no PDB file of the format MSF 7.00\n\
        pdb_tool: denied/a.pdb: cannot read file: permission denied\n\
        pdb_tool: wrong PDB: s/a.pdb has the key 030201000504070608090A0B0C0D0E0F2, a.exe needs 030201000504070608090A0B0C0D0E0F1\n";
    let given = said(&one(rt.alloc(), &files, true), &words, b"")?;
    is(&rt, "err", &given.err.as_slice(), &wanted);
    is(&rt, "result", &given.result, &Err(Fault::OtherKey));
    let files = [exe, ("a.pd_", b"x"), ("s/a.pd_", b"x")];
    let wanted: &[u8] = b"pdb_tool: a.pd_: is compressed: expand it first\n\
        pdb_tool: s/a.pd_: is compressed: expand it first\n\
        pdb_tool: a.exe: its PDB a.pdb 030201000504070608090A0B0C0D0E0F1 is not found\n";
    let missing = Err(Fault::Reported(Stop::Unopened(Unopened::Missing)));
    does(&rt, &files, &words, missing, b"", wanted)
}

/// What the program prints on standard error over an image and a PDB in `v`, with this variable.
fn with_variable(alloc: Global, variable: &[u8], words: &[&str]) -> Result<Vec<u8>, Fail> {
    let (image, bytes) = (image(alloc)?, pdb(alloc, 1)?);
    let files = [("a.exe", image.as_slice()), ("v/a.pdb", bytes.as_slice())];
    let host = Fakes {
        variable: Some(variable),
        ..one(alloc, &files, false)
    };
    Ok(said(&host, words, b"")?.err)
}

#[test]
fn folders_of_the_variable(rt: HostRuntime) -> Result<(), Fail> {
    let not_found: &[u8] =
        b"pdb_tool: a.exe: its PDB a.pdb 030201000504070608090A0B0C0D0E0F1 is not found\n";
    let words = ["modules", "a.exe"];
    for value in [b"v".as_slice(), b"srv*v*https://x.y/z", b"x;cache*v"] {
        let err = with_variable(rt.alloc(), value, &words)?;
        is(&rt, "found", &err.as_slice(), &b"".as_slice());
    }
    let err = with_variable(rt.alloc(), b"https://v", &words)?;
    is(&rt, "no folder", &err.as_slice(), &not_found);
    // It counts only where no folder is given.
    let words = ["modules", "--symbols=s", "a.exe"];
    let err = with_variable(rt.alloc(), b"v", &words)?;
    is(&rt, "folders are given", &err.as_slice(), &not_found);
    let err = with_variable(rt.alloc(), b"v\xff", &["modules", "a.exe"])?;
    let wanted: &[u8] = b"pdb_tool: _NT_SYMBOL_PATH: is not UTF-8, and is passed over\n\
        pdb_tool: a.exe: its PDB a.pdb 030201000504070608090A0B0C0D0E0F1 is not found\n";
    is(&rt, "no text", &err.as_slice(), &wanted);
    let err = with_variable(rt.alloc(), b"v\xff", &["modules", "v/a.pdb"])?;
    is(&rt, "no image", &err.is_empty(), &true);
    Ok(())
}

#[test]
fn images_that_name_no_file(rt: HostRuntime) -> Result<(), Fail> {
    let alloc = rt.alloc();
    let bytes = pdb(alloc, 1)?;
    let mut up = image(alloc)?;
    put_bytes(&mut up, 348, b"a/..\0");
    let files = [("x.exe", up.as_slice()), ("..", bytes.as_slice())];
    let missing = Err(Fault::Reported(Stop::Unopened(Unopened::Missing)));
    let err = b"pdb_tool: x.exe: its PDB .. 030201000504070608090A0B0C0D0E0F1 is not found\n";
    does(&rt, &files, &["modules", "x.exe"], missing, b"", err)?;
    let mut none = image(alloc)?;
    put(&mut none, 308, 16);
    let files = [("x.exe", none.as_slice())];
    let fault = Err(Fault::Stopped(Stop::NoPdb, 1));
    let err = b"pdb_tool: x.exe: names no PDB\n";
    does(&rt, &files, &["modules", "x.exe"], fault, b"", err)
}

#[test]
fn an_address_needs_a_base_of_a_pdb(rt: HostRuntime) -> Result<(), Fail> {
    let (image, bytes) = (image(rt.alloc())?, pdb(rt.alloc(), 1)?);
    let files = [("a.exe", image.as_slice()), ("a.pdb", bytes.as_slice())];
    let words = ["resolve", "a.pdb", "17", "140000017"];
    let given = said(&one(rt.alloc(), &files, false), &words, b"")?;
    let mistake = Mistake {
        argument: 3,
        wrong: Wrong::NeedsBase,
    };
    is(&rt, "result", &given.result, &Err(Fault::Mistaken(mistake)));
    is(&rt, "out", &given.out.is_empty(), &true);
    let words = ["resolve", "--image=a.exe", "a.pdb", "17", "140000017"];
    let given = said(&one(rt.alloc(), &files, false), &words, b"")?;
    is(&rt, "image", &given.result, &Ok(true));
    Ok(())
}

#[test]
fn paths_below_a_store(rt: HostRuntime) -> Result<(), Fail> {
    let alloc = rt.alloc();
    let (mut image, bytes) = (image(alloc)?, pdb(alloc, 1)?);
    let files = [
        ("d/x.exe", image.as_slice()),
        ("d\\a.pdb", bytes.as_slice()),
    ];
    let out =
        b"112233443000 x.exe/112233443000/x.exe 030201000504070608090A0B0C0D0E0F1 a.pdb/030201000504070608090A0B0C0D0E0F1/a.pdb\n\
        030201000504070608090A0B0C0D0E0F1 a.pdb/030201000504070608090A0B0C0D0E0F1/a.pdb\n";
    let words = ["key", "--path", "d/x.exe", "d\\a.pdb"];
    does(&rt, &files, &words, Ok(true), out, b"")?;
    put_bytes(&mut image, 348, b"..\0");
    let line = key_line(alloc, KeyFormat::Paths, &image, image.len() as u64, b"d/")
        .ok()
        .expect(&rt, "line");
    let wanted: &[u8] = b"112233443000 - 030201000504070608090A0B0C0D0E0F1 -\n";
    is(&rt, "no file", &line.as_slice(), &wanted);
    put(&mut image, 308, 16);
    let line = key_line(alloc, KeyFormat::Paths, &image, image.len() as u64, b"x")
        .ok()
        .expect(&rt, "line");
    let wanted: &[u8] = b"112233443000 x/112233443000/x - -\n";
    is(&rt, "no PDB", &line.as_slice(), &wanted);
    Ok(())
}
