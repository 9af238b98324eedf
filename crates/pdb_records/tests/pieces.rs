//! Pieces of ranges.

use crate::tests::support::is;
use crate::{Gaps, Piece, Pieces};
use std::alloc::AllocError;

/// A piece.
const fn piece(start: u16, len: u16) -> Piece {
    Piece { start, len }
}

#[test]
fn gaps_leave_the_longest_runs(rt: HostRuntime) -> Result<(), AllocError> {
    let mut pieces = Pieces::new(rt.alloc());
    // Not in order: 30 to 40, 8 to 12, 10 to 16 over it, an empty one at 20, and one past the end.
    let gaps = Gaps::new(b"\x1e\0\x0a\0\x08\0\x04\0\x0a\0\x06\0\x14\0\0\0\x2d\0\xff\xff");
    pieces.find(48, gaps)?;
    let wanted: &[Piece] = &[piece(0, 8), piece(16, 14), piece(40, 5)];
    is(&rt, "five gaps", &pieces.as_slice(), &wanted);
    pieces.find(3, Gaps::new(b""))?;
    let wanted: &[Piece] = &[piece(0, 3)];
    is(&rt, "no gap", &pieces.as_slice(), &wanted);
    pieces.find(65535, Gaps::new(b"\0\0\x01\0\x03\0\xfc\xff"))?;
    let wanted: &[Piece] = &[piece(1, 2)];
    is(&rt, "up to the end", &pieces.as_slice(), &wanted);
    pieces.find(7, Gaps::new(b"\0\0\x07\0"))?;
    is(&rt, "no byte", &pieces.as_slice().is_empty(), &true);
    Ok(())
}
