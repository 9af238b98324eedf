//! What is printed of texts with marks.

use crate::{Printer, Printout, put_mark};
use pdb_text::CountedWriter;
use std::alloc::AllocError;
use std::fmt::Debug;
use std::process::Abort;
use std::test::Fail;

// What was given is what was wanted: one proof for all comparisons of a type.
fn is<T: PartialEq + Debug>(rt: &impl Abort, label: &str, given: &T, wanted: &T) {
    assert!(rt; given == wanted, "{label}: {given:?}, and not {wanted:?}");
}

#[test]
fn marks_are_no_bytes(rt: HostRuntime) -> Result<(), Fail> {
    let rows: [(&[u8], &[u8], bool, bool); 6] = [
        (b"", b"", false, false),
        (b"ab\n", b"ab\n", false, true),
        (b"\0", b"", true, false),
        (b"\0\0", b"", true, false),
        (b"a\0error 1\n", b"aerror 1\n", true, true),
        (b"\0a\0\0b\0", b"ab", true, true),
    ];
    for (text, wanted, is_damaged, has_text) in rows {
        let mut out = Vec::new(rt.alloc());
        let mut counted = CountedWriter::counting(&mut out);
        let mut printout = Printout::new(&mut counted);
        let printed = printout.print(text);
        is(&rt, "printed", &printed.is_ok(), &true);
        is(&rt, "is_damaged", &printout.is_damaged(), &is_damaged);
        is(&rt, "has_text", &printout.has_text(), &has_text);
        is(&rt, "out", &out.as_slice(), &wanted);
    }
    Ok(())
}

#[test]
fn bytes_as_they_are(rt: HostRuntime) -> Result<(), Fail> {
    let mut out = Vec::new(rt.alloc());
    let mut counted = CountedWriter::counting(&mut out);
    let mut printout = Printout::new(&mut counted);
    is(
        &rt,
        "first",
        &printout.print_bytes(b"a\0b", false).is_ok(),
        &true,
    );
    is(&rt, "not yet", &printout.is_damaged(), &false);
    is(
        &rt,
        "second",
        &printout.print_bytes(b"", true).is_ok(),
        &true,
    );
    is(&rt, "damaged", &printout.is_damaged(), &true);
    is(&rt, "third", &printout.print(b"c").is_ok(), &true);
    is(&rt, "still", &printout.is_damaged(), &true);
    is(&rt, "out", &out.as_slice(), &b"a\0bc".as_slice());
    Ok(())
}

#[test]
fn a_mark_is_a_byte_of_its_own(rt: HostRuntime) -> Result<(), AllocError> {
    let mut text = Vec::new(rt.alloc());
    text.push(b'a')?;
    put_mark(&mut text)?;
    text.push(b'b')?;
    is(&rt, "text", &text.as_slice(), &b"a\0b".as_slice());
    Ok(())
}
