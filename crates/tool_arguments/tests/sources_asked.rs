//! Tests of `sources_asked`.

use crate::mistakes::Wrong;
use crate::sources_asked::{asks_for, source_of};
use crate::tests::fakes::is;

#[test]
fn lines_that_an_argument_names(rt: HostRuntime) {
    // The argument, a name, and a line of it: whether it is requested.
    let cases: [(&[u8], &[u8], u32, bool); 26] = [
        (b"a.c", b"a.c", 7, true),
        (b"A.C", b"dir/a.c", 7, true),
        (b"a.c", b"dir\\A.c", 7, true),
        (b"dir/a.c", b"x\\Dir\\a.c", 7, true),
        (b"a.c", b"ba.c", 7, false),
        (b"dir/a.c", b"a.c", 7, false),
        (b"a.c:7", b"a.c", 7, true),
        (b"a.c:7", b"a.c", 8, false),
        (b"a.c:7-9", b"a.c", 9, true),
        (b"a.c:7-9", b"a.c", 10, false),
        (b"a.c:9999999999", b"a.c", 1410065407, false),
        (b"a.c:", b"a.c:", 1, true),
        (b"a.c:7-", b"a.c:7-", 1, true),
        (b"a.c:00000000007", b"a.c:00000000007", 1, true),
        (b"c:\\a.c:7", b"C:/a.c", 7, true),
        (b"a.c:-7", b"a.c:-7", 9, true),
        (b"a.c:7-7", b"a.c", 7, true),
        // A line and a column, as a frame has them.
        (b"a.c:7:23", b"a.c", 7, true),
        (b"a.c:7:23", b"a.c", 23, false),
        (b"a.c:7:23", b"a.c:7", 23, false),
        (b"c:\\a.c:9999999999:0", b"c:/a.c", 7, false),
        (b"a.c:1:7:23", b"a.c:1", 7, true),
        (b"c:7", b"c", 7, true),
        (b"7:23", b"7", 23, true),
        (b"a.c:7-9:23", b"a.c:7-9", 23, true),
        (b"a.c:7:00000000023", b"a.c:7:00000000023", 1, true),
    ];
    for (word, name, line, wanted) in cases {
        let asked = source_of(word).ok().expect(&rt, "a source file");
        is(&rt, "asks_for", &asks_for(&[asked], name, line), &wanted);
    }
    for word in [b"".as_slice(), b":7", b":7-8", b":8-7", b":7:8"] {
        is(
            &rt,
            "no file",
            &source_of(word).err(),
            &Some(Wrong::BadSource),
        );
    }
    for word in [b"a.c:9-7".as_slice(), b"a.c:8-7", b"a.c:9999999999-0"] {
        is(
            &rt,
            "no lines",
            &source_of(word).err(),
            &Some(Wrong::BadLines),
        );
    }
    let two = [
        source_of(b"a.c:1").ok().expect(&rt, "a source file"),
        source_of(b"b.c").ok().expect(&rt, "a source file"),
    ];
    is(&rt, "the second", &asks_for(&two, b"b.c", 3), &true);
    is(&rt, "neither", &asks_for(&two, b"a.c", 3), &false);
    is(&rt, "none", &asks_for(&[], b"a.c", 3), &false);
}
