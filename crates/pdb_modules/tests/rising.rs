//! Places among line entries that rise, behind which others fall.

use crate::tests::lists::{line, line_is_found};
use pdb_base::Result;

/// A block of entries at 0, 4, 4, 8, a marker at 0x10, and entries at 0x18 and 0x14; then a block of one entry at 0x20.
const RISES_AND_FALLS: &[u8] = b"\
    \xf2\x00\x00\x00\x64\x00\x00\x00\x00\x01\x00\x00\x01\x00\x00\x00\x40\x00\x00\x00\
    \x00\x00\x00\x00\x07\x00\x00\x00\x44\x00\x00\x00\x00\x00\x00\x00\x05\x00\x00\x80\
    \x04\x00\x00\x00\x06\x00\x00\x80\x04\x00\x00\x00\x07\x00\x00\x80\x08\x00\x00\x00\
    \x08\x00\x00\x80\x10\x00\x00\x00\xee\xef\xfe\x80\x18\x00\x00\x00\x09\x00\x00\x80\
    \x14\x00\x00\x00\x0a\x00\x00\x80\x00\x00\x00\x00\x01\x00\x00\x00\x14\x00\x00\x00\
    \x20\x00\x00\x00\x0b\x00\x00\x80";

#[test]
fn entries_that_rise_are_halved_and_the_rest_looked_at(rt: HostRuntime) -> Result<()> {
    let alloc = rt.alloc();
    // An offset, and the place, the length and the line of its record.
    let asked = [
        (0xff, None),
        (0x100, Some((0x100, 4, 5))),
        (0x103, Some((0x100, 4, 5))),
        (0x104, Some((0x104, 4, 7))),
        (0x107, Some((0x104, 4, 7))),
        (0x108, Some((0x108, 8, 8))),
        (0x10f, Some((0x108, 8, 8))),
        (0x110, None),
        (0x113, None),
        (0x114, Some((0x114, 12, 10))),
        (0x118, Some((0x114, 12, 10))),
        (0x11f, Some((0x114, 12, 10))),
        (0x120, Some((0x120, 32, 11))),
        (0x13f, Some((0x120, 32, 11))),
        (0x140, None),
    ];
    for (offset, wanted) in &asked {
        let wanted = match wanted {
            Some((at, length, number)) => Some(line(*at, Some(*length), *number, *number)),
            None => None,
        };
        line_is_found(&rt, alloc, "rising", RISES_AND_FALLS, *offset, wanted)?;
    }
    Ok(())
}
