//! Tests of `counted`.

use crate::counted::*;
use crate::output::WriteFailed;
use crate::tests::fakes::{FailsOnce, Flushed, Slow, is};
use std::io::Write;
use std::mem::size_of;
use std::test::Fail;

#[test]
fn writes_all_or_a_beginning(rt: HostRuntime) {
    for (step, calls, size) in [(64, 64, 15), (1, 64, 15), (3, 3, 9), (0, 64, 0)] {
        let mut out = CountedWriter::counting(Slow::new(rt.alloc(), step, calls));
        let line = b"symbol 00000000";
        let written = write_counted(&mut out, line);
        is(&rt, "written.is_ok()", &written.is_ok(), &(size == 15));
        is(&rt, "taken()", &out.inner().taken(), &line.split_at(size).0);
    }
}

#[test]
fn no_failed_write_is_tried_again(rt: HostRuntime) {
    for call in 0..3u32 {
        let mut out = CountedWriter::counting(FailsOnce::at(rt.alloc(), call));
        let written = write_counted(&mut out, b"error\n");
        is(&rt, "written", &written, &Err(WriteFailed));
        let taken = b"error\n".split_at(2 * call as usize).0;
        is(&rt, "taken()", &out.inner().taken(), &taken);
    }
}

#[test]
fn no_bytes_need_no_writer(rt: HostRuntime) {
    let mut out = CountedWriter::counting(Slow::new(rt.alloc(), 1, 0));
    is(&rt, "no bytes", &write_counted(&mut out, b""), &Ok(()));
    is(&rt, "no part", &out.write_part(b""), &Ok(0));
    is(&rt, "a byte", &out.write_part(b"x"), &Err(WriteFailed));
}

#[test]
fn a_write_takes_what_the_writer_takes(rt: HostRuntime) -> Result<(), Fail> {
    let mut text = Vec::new(rt.alloc());
    text.resize(300_000, b'x')?;
    for (step, count) in [
        (1, 1),
        (65_536, 65_536),
        (65_537, 65_537),
        (300_000, 300_000),
    ] {
        let mut out = CountedWriter::counting(Slow::new(rt.alloc(), step, 2));
        is(&rt, "write", &out.write(&text)?, &count);
        is(&rt, "write_part", &out.write_part(&text), &Ok(count));
        is(&rt, "taken()", &out.inner().taken().len(), &(2 * count));
        is(&rt, "a third write", &out.write(&text).is_ok(), &false);
    }
    Ok(())
}

#[test]
fn a_flush_flushes_the_writer(rt: HostRuntime) {
    let mut out = CountedWriter::counting(Flushed::new());
    is(&rt, "the first flush", &out.flush().is_ok(), &true);
    is(&rt, "flushes()", &out.inner().flushes(), &1);
    is(&rt, "the second flush", &out.flush().is_ok(), &false);
    is(&rt, "flushes()", &out.inner().flushes(), &2);
}

#[test]
fn the_count_takes_no_bytes(rt: HostRuntime) {
    is(
        &rt,
        "size",
        &size_of::<CountedWriter<Slow>>(),
        &size_of::<Slow>(),
    );
}
