//! Files that are stored under their keys.

use super::program::{one, said};
use super::wanted::{image, pdb};
use crate::key_line::file_key;
use crate::store_paths::{folder_of, store_line, store_path};
use crate::tests::fakes::is;
use std::test::Fail;
use tool_output::fault::Fault;
use tool_output::stop::{Stop, Unopened};

const STORED: &str = "s/a.pdb/030201000504070608090A0B0C0D0E0F1/a.pdb";

#[test]
fn paths_and_lines(rt: HostRuntime) -> Result<(), Fail> {
    let alloc = rt.alloc();
    let rows: [(&[u8], &[u8], &[u8], Option<&[u8]>); 5] = [
        (
            b"/s",
            b"C:\\x\\App.pdb",
            b"1A",
            Some(b"/s/App.pdb/1A/App.pdb"),
        ),
        (b"/s/", b"x/a.exe", b"2b", Some(b"/s/a.exe/2b/a.exe")),
        (b"", b"a", b"3", Some(b"a/3/a")),
        (b"s", b"x/..", b"3", None),
        (b"s", b"x/", b"3", None),
    ];
    for (folder, path, key, wanted) in rows {
        let given = store_path(alloc, folder, path, key)?;
        is(&rt, "path", &given.as_deref(), &wanted);
    }
    let line = store_line(alloc, b"stored", b"a\nb")?;
    is(&rt, "line", &line.as_slice(), &b"stored a b\n".as_slice());
    is(&rt, "folder", &folder_of("/s/a/b"), &"/s/a");
    is(&rt, "no folder", &folder_of("a"), &"");
    Ok(())
}

#[test]
fn keys_of_files(rt: HostRuntime) -> Result<(), Fail> {
    let alloc = rt.alloc();
    let (image, bytes) = (image(alloc)?, pdb(alloc, 26)?);
    let key = file_key(alloc, &image, 354).ok().expect(&rt, "a key");
    is(&rt, "image", &key.as_slice(), &b"112233443000".as_slice());
    let key = file_key(alloc, &bytes, bytes.len() as u64)
        .ok()
        .expect(&rt, "a key");
    let wanted: &[u8] = b"030201000504070608090A0B0C0D0E0F1A";
    is(&rt, "PDB", &key.as_slice(), &wanted);
    is(&rt, "no PDB", &file_key(alloc, &key, 34).is_err(), &true);
    Ok(())
}

#[test]
fn files_are_stored_or_present(rt: HostRuntime) -> Result<(), Fail> {
    let alloc = rt.alloc();
    let (image, bytes, other) = (image(alloc)?, pdb(alloc, 1)?, pdb(alloc, 2)?);
    let longer = [other.as_slice(), b"x"].concat(alloc)?;
    let exe = ("x/b.exe", image.as_slice());
    let file = ("x/a.pdb", bytes.as_slice());
    let words = ["store", "x/a.pdb", "--symbols=s", "x/b.exe"];
    for is_whole in [false, true] {
        let files = [exe, file];
        let given = said(&one(alloc, &files, is_whole), &words, b"")?;
        let wanted: &[u8] =
            b"stored s/a.pdb/030201000504070608090A0B0C0D0E0F1/a.pdb\nstored s/b.exe/112233443000/b.exe\n";
        is(&rt, "out", &given.out.as_slice(), &wanted);
        is(&rt, "result", &given.result, &Ok(true));
        let files = [exe, file, (STORED, bytes.as_slice())];
        let given = said(&one(alloc, &files, is_whole), &words, b"")?;
        let wanted: &[u8] =
            b"present s/a.pdb/030201000504070608090A0B0C0D0E0F1/a.pdb\nstored s/b.exe/112233443000/b.exe\n";
        is(&rt, "out", &given.out.as_slice(), &wanted);
        is(&rt, "result", &given.result, &Ok(true));
        for there in [&other, &longer] {
            let files = [exe, file, (STORED, there.as_slice())];
            let host = one(alloc, &files, is_whole);
            let given = said(&host, &words, b"")?;
            is(
                &rt,
                "out",
                &given.out.as_slice(),
                &b"stored s/b.exe/112233443000/b.exe\n".as_slice(),
            );
            let wanted: &[u8] =
                b"pdb_tool: s/a.pdb/030201000504070608090A0B0C0D0E0F1/a.pdb: is there already, with other contents\n";
            is(&rt, "err", &given.err.as_slice(), &wanted);
            is(&rt, "result", &given.result, &Ok(false));
            let words = ["store", "--replace", "x/a.pdb", "--symbols", "s"];
            let given = said(&host, &words, b"")?;
            let wanted: &[u8] = b"stored s/a.pdb/030201000504070608090A0B0C0D0E0F1/a.pdb\n";
            is(&rt, "out", &given.out.as_slice(), &wanted);
            is(&rt, "result", &given.result, &Ok(true));
        }
    }
    Ok(())
}

#[test]
fn files_that_cannot_be_stored(rt: HostRuntime) -> Result<(), Fail> {
    let alloc = rt.alloc();
    let bytes = pdb(alloc, 1)?;
    let files = [("a.pdb", bytes.as_slice()), ("denied.pdb", b"".as_slice())];
    let host = one(alloc, &files, false);
    let rows: [(&str, &str, &str); 5] = [
        (
            "--symbols=d",
            "a.pdb",
            "pdb_tool: d/a.pdb/030201000504070608090A0B0C0D0E0F1/a.pdb: cannot write file: permission denied\n",
        ),
        (
            "--symbols=f",
            "a.pdb",
            "pdb_tool: f/a.pdb/030201000504070608090A0B0C0D0E0F1/a.pdb: cannot write file\n",
        ),
        (
            "--symbols=u",
            "a.pdb",
            "pdb_tool: a.pdb: cannot read file\n",
        ),
        (
            "--symbols=s",
            "denied.pdb",
            "pdb_tool: denied.pdb: cannot read file: permission denied\n",
        ),
        (
            "--symbols=s",
            "none",
            "pdb_tool: none: cannot read file: no such file\n",
        ),
    ];
    for (folder, file, wanted) in rows {
        let given = said(&host, &["store", folder, file], b"")?;
        is(&rt, folder, &given.err.as_slice(), &wanted.as_bytes());
        is(&rt, folder, &given.out.len(), &0);
        is(&rt, folder, &given.result, &Ok(false));
    }
    let given = said(&host, &["store", "--symbols=m", "a.pdb"], b"")?;
    is(
        &rt,
        "memory",
        &given.result,
        &Err(Fault::Stopped(Stop::Memory, 2)),
    );
    Ok(())
}
