//! Pieces of lines, and addresses in a range.

use super::fakes::is;
use crate::{ModuleRange, Span};
use std::test::Fail;

#[test]
fn bytes_of_pieces(rt: HostRuntime) -> Result<(), Fail> {
    let line: &[u8] = b"app+0x1108";
    let rows: [(usize, usize, &[u8]); 7] = [
        (0, 3, b"app"),
        (6, 10, b"1108"),
        (6, 11, b"1108"),
        (10, 12, b""),
        (11, 12, b""),
        (3, 3, b""),
        (4, 3, b""),
    ];
    for (start, end, wanted) in rows {
        let piece = Span { start, end };
        is(&rt, "piece", &piece.of(line), &wanted);
        is(&rt, "empty", &piece.is_empty(), &(end <= start));
    }
    Ok(())
}

#[test]
fn addresses_of_a_range(rt: HostRuntime) -> Result<(), Fail> {
    let range = ModuleRange {
        start: 0x7ff6_1c2a_0000,
        size: 0x7000,
        module: 0,
    };
    is(&rt, "before", &range.has(0x7ff6_1c29_ffff), &false);
    is(&rt, "first", &range.has(0x7ff6_1c2a_0000), &true);
    is(&rt, "last", &range.has(0x7ff6_1c2a_6fff), &true);
    is(&rt, "behind", &range.has(0x7ff6_1c2a_7000), &false);
    Ok(())
}
