//! Tests of `one_line`.

use crate::one_line::*;
use crate::tests::fakes::is;
use std::process::Abort;
use std::test::Fail;

/// Compares what both functions make of a name behind a line.
fn shows(rt: &(impl Abort + AllocGlobal), bytes: &[u8], wanted: &[u8]) -> Result<(), Fail> {
    let mut out = Vec::new(rt.alloc());
    out.extend_from_slice(b"x\n")?;
    put_one_line(&mut out, bytes)?;
    is(rt, "before", &&out.as_slice()[0..2], &b"x\n".as_slice());
    is(rt, "appended", &&out.as_slice()[2..], &wanted);
    let mut turned = Vec::new(rt.alloc());
    turned.extend_from_slice(b"x\n")?;
    turned.extend_from_slice(bytes)?;
    to_one_line(&mut turned, 2)?;
    is(rt, "turned", &turned, &out);
    Ok(())
}

#[test]
fn control_characters_become_blanks(rt: HostRuntime) -> Result<(), Fail> {
    let rows: [(&[u8], &[u8]); 8] = [
        (b"", b""),
        (b"main", b"main"),
        (b"\n", b" "),
        (b"a\r\nb", b"a  b"),
        (b"\ra\n", b" a "),
        (b"\x1b[2Jgone", b" [2Jgone"),
        // Their neighbours stay, and so do bytes that are no text.
        (
            b"\x1e\x1f\x20\x21\x7e\x7f\x80\x8d",
            b"  \x20\x21\x7e \x80\x8d",
        ),
        (b"\0\xff\t\x20", b" \xff  "),
    ];
    for (bytes, wanted) in rows {
        shows(&rt, bytes, wanted)?;
    }
    Ok(())
}

#[test]
fn a_long_name_is_cut(rt: HostRuntime) -> Result<(), Fail> {
    // What stands behind so many letters, how many letters are shown, and what of the rest is.
    let rows: [(usize, &[u8], &[u8]); 10] = [
        (4096, b"", b""),
        (4095, b"\n", b" "),
        (4096, b"b", b"..."),
        (4095, b"bc", b"b..."),
        (4095, b"\x1bc", b" ..."),
        // A character of two, three and four bytes would be cut.
        (4095, b"\xc3\xa9", b"..."),
        (4094, b"\xe2\x82\xac", b"..."),
        (4093, b"\xf0\x9f\x98\x80", b"..."),
        (4095, b"b\xc3\xa9", b"b..."),
        // More bytes that go on a character than one has.
        (4092, b"\x80\x81\x82\xbf\xbf\xbf", b"\x80..."),
    ];
    for (letters, rest, shown) in rows {
        let mut bytes = Vec::new(rt.alloc());
        bytes.resize(letters, b'a')?;
        let mut wanted = Vec::new(rt.alloc());
        wanted.extend_from_slice(&bytes)?;
        bytes.extend_from_slice(rest)?;
        wanted.extend_from_slice(shown)?;
        shows(&rt, &bytes, &wanted)?;
    }
    Ok(())
}
