//! Tests of `text`.

use crate::tests::fakes::is;
use crate::text::put_error;
use std::test::Fail;

#[test]
fn errors_are_told_by_their_numbers(rt: HostRuntime) -> Result<(), Fail> {
    let mut out = Vec::new(rt.alloc());
    put_error(&mut out, 22)?;
    let want: &[u8] = b"error 22\n";
    is(&rt, "out.as_slice()", &out.as_slice(), &want);
    Ok(())
}
