//! Records that aren't read.

use crate::tests::support::{is, parsed};
use pdb_base::Error;

#[test]
fn kinds_without_a_layout(rt: HostRuntime) {
    let rows: [(&[u8], u16); 5] = [
        (b"\x67\x11\x01\x02", 0x1167),
        (b"\x10\x11\0\0\0\0", 0x1110),
        (b"\x06\0", 0x0006),
        (b"\0\0", 0),
        (b"\xff\xff", 0xffff),
    ];
    for (bytes, kind) in rows {
        let wanted = Err(Error::UnimplementedSymbolKind(kind));
        is(&rt, "a kind", &parsed(bytes), &wanted);
    }
}

#[test]
fn fields_that_are_not_there(rt: HostRuntime) {
    let rows: [&[u8]; 4] = [
        b"\x41\x11\x4a\x01",
        b"\x5a\x11\x02\0\0\0\x07\x11\0\0",
        b"\x5a\x11\xff\xff\xff\xff\x07\x11\0\0",
        b"\x3d\x11\0\x63\x77",
    ];
    for bytes in rows {
        is(&rt, "a record", &parsed(bytes), &Err(Error::UnexpectedEof));
    }
}
