//! Tests of `digits`.

use crate::digits::*;
use std::test::Fail;

#[test]
fn digits_of_numbers(rt: HostRuntime) -> Result<(), Fail> {
    let mut out = Vec::new(rt.alloc());
    put_hex4(&mut out, 0x110e)?;
    put_line_end(&mut out)?;
    put_hex8(&mut out, 0x9abcdef0)?;
    out.extend_from_slice(&hex8_field(0x58))?;
    put_line_end(&mut out)?;
    for n in [
        0,
        9,
        10,
        99,
        100,
        999,
        1000,
        12345,
        99_999_999,
        123_456_789,
        u64::MAX,
    ] {
        put_decimal(&mut out, n)?;
        put_field(&mut out, n)?;
        put_line_end(&mut out)?;
    }
    put_hex_bytes(&mut out, &[0x0a, 0xf1])?;
    let want: &[u8] = b"110e\n9abcdef0 00000058\n0 0\n9 9\n10 10\n99 99\n100 100\n999 999\n\
        1000 1000\n12345 12345\n99999999 99999999\n123456789 123456789\n\
        18446744073709551615 18446744073709551615\n0af1";
    assert!(rt; out.as_slice() == want);
    Ok(())
}
