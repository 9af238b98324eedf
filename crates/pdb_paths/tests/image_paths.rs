//! Where the PDB of an image may be.

use super::fakes::is;
use crate::{SymbolFolder, pdb_paths, put_compressed};
use std::alloc::{AllocError, Global};
use std::test::Fail;

/// Paths, one a line.
fn lines_of(
    alloc: Global,
    image: &[u8],
    folders: &[SymbolFolder<'_>],
    path: &[u8],
    key: &[u8],
) -> Result<Vec<u8>, AllocError> {
    let mut out = Vec::new(alloc);
    for path in pdb_paths(alloc, image, folders, path, key)?.iter() {
        out.extend_from_slice(path)?;
        out.push(b'\n')?;
    }
    Ok(out)
}

#[test]
fn paths_of_an_image(rt: HostRuntime) -> Result<(), Fail> {
    let path: &[u8] =
        b"D:\\src\\llvm\\tools\\lldb\\unittests\\SymbolFile\\PDB\\Inputs\\test-pdb.pdb";
    let folders = [SymbolFolder {
        has_fronts: false,
        path: b"sym",
    }];
    let key = b"C16A11CA886C4AE8AF7698A42C39DADD1";
    let given = lines_of(rt.alloc(), b"img/test-pdb.exe", &folders, path, key)?;
    let wanted: &[u8] = b"img/test-pdb.pdb\n\
        sym/test-pdb.pdb/C16A11CA886C4AE8AF7698A42C39DADD1/test-pdb.pdb\n\
        sym/test-pdb.pdb/c16a11ca886c4ae8af7698a42c39dadd1/test-pdb.pdb\n\
        sym/test-pdb.pdb\n";
    is(&rt, "paths", &given.as_slice(), &wanted);
    Ok(())
}

#[test]
fn paths_stand_once(rt: HostRuntime) -> Result<(), Fail> {
    let folders = [
        SymbolFolder {
            has_fronts: true,
            path: b"/s",
        },
        SymbolFolder {
            has_fronts: false,
            path: b"/s/",
        },
    ];
    let given = lines_of(rt.alloc(), b"/s/a.exe", &folders, b"/s/a.pdb", b"11")?;
    let wanted: &[u8] = b"/s/a.pdb\n/s/a.pdb/11/a.pdb\n/s/a./a.pdb/11/a.pdb\n";
    is(&rt, "paths", &given.as_slice(), &wanted);
    let given = lines_of(rt.alloc(), b"a.exe", &[], b"/o/App.pdb", b"1A")?;
    let wanted: &[u8] = b"App.pdb\napp.pdb\n/o/App.pdb\n";
    is(&rt, "an image without a folder", &given.as_slice(), &wanted);
    Ok(())
}

#[test]
fn names_that_name_no_file(rt: HostRuntime) -> Result<(), Fail> {
    let folders = [SymbolFolder {
        has_fronts: false,
        path: b"s",
    }];
    let paths: [&[u8]; 5] = [b"/", b"/a/..", b"a\n", b"C:\\", b"/a/\xff"];
    for path in paths {
        let given = lines_of(rt.alloc(), b"a.exe", &folders, path, b"1")?;
        is(&rt, "no path", &given.is_empty(), &true);
    }
    let given = lines_of(rt.alloc(), b"a.exe", &[], b"/\xff/a", b"1")?;
    let wanted: &[u8] = b"a\n";
    is(&rt, "a folder that is no text", &given.as_slice(), &wanted);
    Ok(())
}

#[test]
fn names_of_compressed_files(rt: HostRuntime) -> Result<(), Fail> {
    let mut out = Vec::new(rt.alloc());
    put_compressed(&mut out, b"sym/test-pdb.pdb")?;
    let wanted: &[u8] = b"sym/test-pdb.pd_";
    is(&rt, "path", &out.as_slice(), &wanted);
    Ok(())
}
