//! Names of files, and folders, in paths.

use super::fakes::is;
use crate::{file_name, is_sound, put_within};
use std::test::Fail;

#[test]
fn names_in_paths(rt: HostRuntime) -> Result<(), Fail> {
    let rows: [(&[u8], &[u8]); 9] = [
        (b"C:\\Windows\\System32\\kernel32.pdb", b"kernel32.pdb"),
        (b"D:\\a\\_work\\1\\s/bin/app.pdb", b"app.pdb"),
        (b"/home/me/tour.pdb", b"tour.pdb"),
        (b"app.pdb", b"app.pdb"),
        (b"folder/", b""),
        (b"C:\\", b""),
        (b"C:app.pdb", b"C:app.pdb"),
        (b"", b""),
        (b"..\\..", b".."),
    ];
    for (path, name) in rows {
        is(&rt, "name", &file_name(path), &name);
    }
    Ok(())
}

#[test]
fn names_that_name_a_file(rt: HostRuntime) -> Result<(), Fail> {
    let sound: [&[u8]; 6] = [
        b"a",
        b"app.pdb",
        b"...",
        b".hidden",
        b"~ app.pdb\x7f",
        b"\xd0\x9f.pdb",
    ];
    for name in sound {
        is(&rt, "sound", &is_sound(name), &true);
    }
    let other: [&[u8]; 10] = [
        b"",
        b".",
        b"..",
        b"a/b",
        b"a\\b",
        b"a\nb",
        b"\x1f",
        b"a\0",
        b"\xff.pdb",
        b"\xd0",
    ];
    for name in other {
        is(&rt, "not sound", &is_sound(name), &false);
    }
    Ok(())
}

#[test]
fn folders_end_with_one_slash(rt: HostRuntime) -> Result<(), Fail> {
    let rows: [(&[u8], &[u8]); 5] = [
        (b"symbols", b">symbols/"),
        (b"symbols/", b">symbols/"),
        (b"/", b">/"),
        (b"C:\\symbols\\", b">C:\\symbols\\/"),
        (b"", b">"),
    ];
    for (folder, wanted) in rows {
        let mut out = Vec::from_slice(rt.alloc(), b">")?;
        put_within(&mut out, folder)?;
        is(&rt, "folder", &out.as_slice(), &wanted);
    }
    Ok(())
}
