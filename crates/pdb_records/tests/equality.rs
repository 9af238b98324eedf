//! Lists are equal where they say the same.

use crate::tests::support::{is, parsed};
use crate::{Gaps, Numbers, PointerTags};
use pdb_base::Result;

#[test]
fn lists_of_the_same_names_are_equal(rt: HostRuntime) -> Result<()> {
    let one = parsed(b"\x3d\x11\0cwd\0C:\0\0")?;
    // Bytes behind the empty name are none of the names, and the last name needs no empty one behind it.
    is(&rt, "behind", &parsed(b"\x3d\x11\0cwd\0C:\0\0x\0")?, &one);
    is(&rt, "at the end", &parsed(b"\x3d\x11\0cwd\0C:\0")?, &one);
    let others: [&[u8]; 4] = [
        b"\x3d\x11\0cwd\0D:\0\0",
        b"\x3d\x11\0cwd\0C:\0x\0\0",
        b"\x3d\x11\0cwd\0\0",
        b"\x3d\x11\0\0",
    ];
    for bytes in others {
        let other = parsed(bytes)?;
        assert!(rt; other != one && one != other && other == other);
    }
    Ok(())
}

#[test]
fn lists_of_the_same_items_are_equal(rt: HostRuntime) -> Result<()> {
    let gaps = Gaps::new(b"\x01\0\x02\0");
    is(
        &rt,
        "a cut gap",
        &Gaps::new(b"\x01\0\x02\0\x03\0\x04"),
        &gaps,
    );
    let two = Gaps::new(b"\x01\0\x02\0\x03\0\x04\0");
    assert!(rt; two != gaps && gaps != Gaps::new(b"\x02\0\x01\0") && gaps != Gaps::new(b""));
    let numbers = Numbers::new(b"\x01\0\0\x02");
    is(
        &rt,
        "a cut number",
        &Numbers::new(b"\x01\0\0\x02\x03"),
        &numbers,
    );
    assert!(rt; numbers != Numbers::new(b"\x01\0\0\x03") && numbers != Numbers::new(b"\x01\0\0"));
    let tags = PointerTags::new(b"\x01\0\0\0\x02\0\0\0");
    is(
        &rt,
        "a cut tag",
        &PointerTags::new(b"\x01\0\0\0\x02\0\0\0\x03\0\0\0"),
        &tags,
    );
    assert!(rt; tags != PointerTags::new(b"\x01\0\0\0\x03\0\0\0"));
    Ok(())
}
