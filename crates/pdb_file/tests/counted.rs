//! Tests of `counted`.

use crate::counted::*;
use crate::tests::fakes::{FailsOnce, Plenty, ThreeBytes, is};
use std::io::Read;
use std::mem::size_of;
use std::test::Fail;

#[test]
fn a_read_gives_what_the_reader_gives(rt: HostRuntime) -> Result<(), Fail> {
    let mut room = Vec::new(rt.alloc());
    room.resize(300_000, 0)?;
    let mut input = CountedReader::counting(Plenty::of(500_000));
    is(&rt, "read", &input.read(&mut room)?, &300_000);
    is(&rt, "room", &room.iter().all(|byte| *byte == b'p'), &true);
    room.fill(0);
    is(&rt, "read_part", &input.read_part(&mut room), &Ok(200_000));
    is(
        &rt,
        "room[..200_000]",
        &room[..200_000].iter().all(|byte| *byte == b'p'),
        &true,
    );
    is(
        &rt,
        "room[200_000..]",
        &room[200_000..].iter().all(|byte| *byte == 0),
        &true,
    );
    is(&rt, "the end", &input.read_part(&mut room), &Ok(0));
    Ok(())
}

#[test]
fn short_reads_stay_short(rt: HostRuntime) -> Result<(), Fail> {
    let mut room = [0u8; 8];
    let mut input = CountedReader::counting(ThreeBytes::ending(2));
    is(&rt, "read", &input.read(&mut room)?, &3);
    is(&rt, "read_part", &input.read_part(&mut room), &Ok(3));
    is(&rt, "room", &room, b"abc\0\0\0\0\0");
    is(&rt, "the end", &input.read_part(&mut room), &Ok(0));
    Ok(())
}

#[test]
fn a_failure_is_one_of_the_reader(rt: HostRuntime) {
    let mut room = [0u8; 8];
    let mut input = CountedReader::counting(FailsOnce::at(2));
    is(&rt, "the first read", &input.read_part(&mut room), &Ok(2));
    is(
        &rt,
        "the second read",
        &input.read(&mut room).is_ok(),
        &true,
    );
    is(
        &rt,
        "the third read",
        &input.read_part(&mut room),
        &Err(ReadFailed),
    );
    let mut input = CountedReader::counting(ThreeBytes::failing(0));
    is(&rt, "a read", &input.read(&mut room).is_ok(), &false);
}

#[test]
fn the_count_takes_no_bytes(rt: HostRuntime) {
    is(
        &rt,
        "size",
        &size_of::<CountedReader<Plenty>>(),
        &size_of::<Plenty>(),
    );
}
