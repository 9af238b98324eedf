//! Tests of `output`.

use crate::output::*;
use crate::tests::fakes::{FailsOnce, Slow, is};
use std::alloc::AllocError;

#[test]
fn writes_all_or_a_beginning(rt: HostRuntime) {
    let line = b"symbol 00000000";
    let mut whole = Slow::new(rt.alloc(), 64, 64);
    is(
        &rt,
        "write_out(&mut whole, line)",
        &write_out(&mut whole, line),
        &Ok(()),
    );
    is(&rt, "whole.taken()", &whole.taken(), &line.as_slice());
    let mut bytewise = Slow::new(rt.alloc(), 1, 64);
    is(
        &rt,
        "write_out(&mut bytewise, line)",
        &write_out(&mut bytewise, line),
        &Ok(()),
    );
    is(&rt, "bytewise.taken()", &bytewise.taken(), &line.as_slice());
    let mut fourth_fails = Slow::new(rt.alloc(), 3, 3);
    is(
        &rt,
        "write_out(&mut fourth_fails, line)",
        &write_out(&mut fourth_fails, line),
        &Err(WriteFailed),
    );
    is(
        &rt,
        "fourth_fails.taken()",
        &fourth_fails.taken(),
        &b"symbol 00".as_slice(),
    );
    let mut takes_nothing = Slow::new(rt.alloc(), 0, 64);
    is(
        &rt,
        "write_out(&mut takes_nothing, line)",
        &write_out(&mut takes_nothing, line),
        &Err(WriteFailed),
    );
    assert!(rt; takes_nothing.taken().is_empty());
    is(
        &rt,
        "write_out(&mut takes_nothing, ..)",
        &write_out(&mut takes_nothing, b""),
        &Ok(()),
    );
}

#[test]
fn fails_after_each_count_of_calls(rt: HostRuntime) {
    for calls in 0..7u32 {
        let mut out = Slow::new(rt.alloc(), 1, calls);
        let written = write_out(&mut out, b"error\n");
        is(&rt, "written.is_ok()", &written.is_ok(), &(calls == 6));
        is(
            &rt,
            "out.taken()",
            &out.taken(),
            &(b"error\n".split_at(calls.min(6) as usize).0),
        );
    }
}

#[test]
fn no_failed_write_is_tried_again(rt: HostRuntime) {
    for call in 0..3u32 {
        let mut out = FailsOnce::at(rt.alloc(), call);
        let written = write_out(&mut out, b"error\n");
        is(&rt, "written", &written, &Err(WriteFailed));
        let taken = b"error\n".split_at(2 * call as usize).0;
        is(&rt, "out.taken()", &out.taken(), &taken);
    }
}

#[test]
fn writes_long_texts(rt: HostRuntime) -> Result<(), AllocError> {
    let mut text = Vec::new(rt.alloc());
    text.resize(300_000, b'x')?;
    let mut out = Slow::new(rt.alloc(), 65_536, 64);
    is(&rt, "written", &write_out(&mut out, &text), &Ok(()));
    is(&rt, "out.taken().len()", &out.taken().len(), &300_000);
    Ok(())
}
