//! Where the symbol file of a name and a key may be.

use super::fakes::is;
use crate::{candidates, put_filed};
use std::alloc::{AllocError, Global};
use std::test::Fail;

/// Paths, one a line.
fn lines_of(
    alloc: Global,
    has_fronts: bool,
    folder: &[u8],
    name: &[u8],
    key: &[u8],
) -> Result<Vec<u8>, AllocError> {
    let mut out = Vec::new(alloc);
    for path in candidates(alloc, has_fronts, folder, name, key)?.iter() {
        out.extend_from_slice(path)?;
        out.push(b'\n')?;
    }
    Ok(out)
}

#[test]
fn paths_below_a_store(rt: HostRuntime) -> Result<(), Fail> {
    let mut out = Vec::from_slice(rt.alloc(), b"/store/")?;
    put_filed(&mut out, b"ntdll.pdb", b"1EB9FACB04C73C5DEA7160764CD333D01")?;
    let wanted: &[u8] = b"/store/ntdll.pdb/1EB9FACB04C73C5DEA7160764CD333D01/ntdll.pdb";
    is(&rt, "path", &out.as_slice(), &wanted);
    Ok(())
}

#[test]
fn paths_in_a_folder(rt: HostRuntime) -> Result<(), Fail> {
    let given = lines_of(rt.alloc(), false, b"symbols", b"App.pdb", b"0A1")?;
    let wanted: &[u8] = b"symbols/App.pdb/0A1/App.pdb\n\
        symbols/App.pdb/0a1/App.pdb\n\
        symbols/app.pdb/0A1/app.pdb\n\
        symbols/app.pdb/0a1/app.pdb\n\
        symbols/App.pdb\n\
        symbols/app.pdb\n";
    is(&rt, "paths", &given.as_slice(), &wanted);
    let given = lines_of(rt.alloc(), false, b"/s/", b"app.pdb", b"01")?;
    let wanted: &[u8] = b"/s/app.pdb/01/app.pdb\n/s/app.pdb\n";
    is(&rt, "paths of lower letters", &given.as_slice(), &wanted);
    Ok(())
}

#[test]
fn paths_behind_first_letters(rt: HostRuntime) -> Result<(), Fail> {
    let given = lines_of(rt.alloc(), true, b"s", b"Ab.pdb", b"1")?;
    let wanted: &[u8] = b"s/Ab.pdb/1/Ab.pdb\n\
        s/ab.pdb/1/ab.pdb\n\
        s/Ab/Ab.pdb/1/Ab.pdb\n\
        s/ab/ab.pdb/1/ab.pdb\n\
        s/Ab.pdb\n\
        s/ab.pdb\n";
    is(&rt, "paths", &given.as_slice(), &wanted);
    let given = lines_of(rt.alloc(), true, b"s", b"..x", b"1")?;
    is(
        &rt,
        "dots",
        &given.as_slice(),
        &b"s/..x/1/..x\ns/..x\n".as_slice(),
    );
    let given = lines_of(rt.alloc(), true, b"s", b"x", b"1")?;
    is(
        &rt,
        "one byte",
        &given.as_slice(),
        &b"s/x/1/x\ns/x/x/1/x\ns/x\n".as_slice(),
    );
    let given = lines_of(rt.alloc(), true, b"s", b"..", b"1")?;
    is(&rt, "a folder", &given.is_empty(), &true);
    Ok(())
}
