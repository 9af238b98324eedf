//! The text of frames.

use crate::tests::files::is;
use crate::{Frame, FunctionName, put_displaced_frames, put_file, put_frame};
use pdb::{QualifiedName, RawString, Result};

/// A name, with a scope where there is one.
fn named<'a>(scope: Option<&'a str>, name: &'a str) -> Option<QualifiedName<'a>> {
    Some(QualifiedName {
        scope: scope.map(|it| RawString::from(it)),
        name: RawString::from(name),
    })
}

#[test]
fn a_frame_has_two_lines(rt: HostRuntime) -> Result<()> {
    let alloc = rt.alloc();
    let rows = [
        (named(None, "main"), Some("a.c"), "main\na.c:7:0\n"),
        (named(Some("ns"), "f"), Some("a.c"), "ns::f\na.c:7:0\n"),
        // What is empty, or isn't there.
        (None, None, "??\n??:7:0\n"),
        (named(None, ""), Some(""), "??\n??:7:0\n"),
        (named(Some(""), "f"), None, "::f\n??:7:0\n"),
        (named(Some("ns"), ""), None, "ns::\n??:7:0\n"),
        (named(Some(""), ""), None, "::\n??:7:0\n"),
        // Line ends become blanks.
        (named(None, "a\nb\r"), Some("\r\n"), "a b \n  :7:0\n"),
        (named(Some("\n"), "\r\r"), Some("a\tb"), " ::  \na b:7:0\n"),
    ];
    for (name, file, wanted) in rows {
        let file = file.map(|it| RawString::from(it));
        let frame = Frame {
            name: name.map(|it| FunctionName::Read(it)),
            displacement: Some(9),
            file,
            line: 7,
            column: 0,
        };
        let mut text = Vec::new(alloc);
        put_frame(&mut text, &frame)?;
        is(&rt, "text", &text.as_slice(), &wanted.as_bytes());
    }
    Ok(())
}

#[test]
fn a_file_stands_on_one_line(rt: HostRuntime) -> Result<()> {
    let rows = [
        (Some("a.c"), "a.c"),
        (Some("a\r\nc"), "a  c"),
        (Some(""), "??"),
        (None, "??"),
    ];
    for (file, wanted) in rows {
        let mut text = Vec::new(rt.alloc());
        put_file(&mut text, file.map(|it| RawString::from(it)))?;
        is(&rt, "text", &text.as_slice(), &wanted.as_bytes());
    }
    Ok(())
}

#[test]
fn a_displacement_stands_behind_the_name(rt: HostRuntime) -> Result<()> {
    let alloc = rt.alloc();
    let rows = [
        ("main", Some(0x1f), "main+0x1f\n??:0:3\n\n"),
        ("main", Some(0), "main\n??:0:3\n\n"),
        ("main", None, "main\n??:0:3\n\n"),
        ("main", Some(0xffff_ffff), "main+0xffffffff\n??:0:3\n\n"),
        ("", Some(16), "??+0x10\n??:0:3\n\n"),
    ];
    for (name, displacement, wanted) in rows {
        let frames = [Frame {
            name: named(None, name).map(|it| FunctionName::Read(it)),
            displacement,
            file: None,
            line: 0,
            column: 3,
        }];
        let mut text = Vec::new(alloc);
        put_displaced_frames(&mut text, &frames)?;
        is(&rt, "text", &text.as_slice(), &wanted.as_bytes());
    }
    Ok(())
}
