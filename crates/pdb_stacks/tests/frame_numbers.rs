//! Numbers of frames.

use super::fakes::is;
use crate::frame_number;
use std::test::Fail;

#[test]
fn numbers_of_frames(rt: HostRuntime) -> Result<(), Fail> {
    let rows: [(&[u8], Option<u64>); 22] = [
        (
            b"00 000000c1`2f6ff8b0 00007ff6`1c2a12a5     cpp_lld+0x1108",
            Some(0),
        ),
        (b"0a 000000c1`2f6ff8b0", Some(10)),
        (b"    #1 0x7ff61c2a10c5 in main+0x1108", Some(1)),
        (b" # 2 x", Some(2)),
        (b" 1  tour-lld.exe!start + 0x31e", Some(1)),
        (b"   0:     0x7ff61c2a1108 - <unknown>", Some(0)),
        (b"=>0 0x0000000140001108 nested+0x108(n=5)", Some(0)),
        (b"  =>#12# x", Some(18)),
        (b"fff x", None),
        (b"9ff\tx", Some(2559)),
        (b"#000 x", Some(0)),
        (b"0123 x", None),
        (b"1", None),
        (b"1:x", None),
        (b"1:# x", None),
        (b"1## x", None),
        (b"=> 1 x", None),
        (b"#=>1 x", None),
        (b"1h x", None),
        (
            b" # Child-SP          RetAddr               Call Site",
            None,
        ),
        (b"", None),
        (b" # ", None),
    ];
    for (line, wanted) in rows {
        is(&rt, "number", &frame_number(line), &wanted);
    }
    Ok(())
}
