//! Tests of how texts begin, and of relative addresses.

use super::fakes::is;
use crate::address::relative_by;
use crate::{KnownModule, LineAddress, is_utf16};
use std::test::Fail;

#[test]
fn texts_of_utf16(rt: HostRuntime) -> Result<(), Fail> {
    is(&rt, "little", &is_utf16(b"\xff\xfea\0"), &true);
    is(&rt, "big", &is_utf16(b"\xfe\xff"), &true);
    is(&rt, "mark of UTF-8", &is_utf16(b"\xef\xbb\xbfa"), &false);
    is(&rt, "one byte", &is_utf16(b"\xff"), &false);
    is(&rt, "empty", &is_utf16(b""), &false);
    Ok(())
}

#[test]
fn relative_addresses(rt: HostRuntime) -> Result<(), Fail> {
    let image = KnownModule::Image {
        base: 0x40_0000,
        size: 0x5000,
    };
    let pdb = KnownModule::Pdb { is_x86: true };
    let number = |number, is_closed| LineAddress::Relative { number, is_closed };
    is(
        &rt,
        "relative",
        &relative_by(image, number(0x1085, true)),
        &Some(0x1085),
    );
    is(
        &rt,
        "from base",
        &relative_by(image, number(0x40_1085, true)),
        &Some(0x1085),
    );
    is(
        &rt,
        "behind",
        &relative_by(image, number(0x40_5000, false)),
        &None,
    );
    is(
        &rt,
        "x86",
        &relative_by(pdb, number(0x40_1085, true)),
        &None,
    );
    is(
        &rt,
        "program",
        &relative_by(pdb, number(0x1_4000_10c5, true)),
        &Some(0x10c5),
    );
    is(
        &rt,
        "range",
        &relative_by(pdb, LineAddress::InRange(0x1_0000_0000)),
        &None,
    );
    is(
        &rt,
        "symbol",
        &relative_by(pdb, LineAddress::FromSymbol),
        &None,
    );
    Ok(())
}
