//! Tests of `whole`.

use crate::counted::CountedReader;
use crate::reading::FetchError;
use crate::tests::fakes::{FailsOnce, Plenty, ThreeBytes, is};
use crate::whole::{MOST_BYTES, read_all, read_up_to};

#[test]
fn reads_to_the_end(rt: HostRuntime) {
    let alloc = rt.alloc();
    let read = read_all(alloc, &mut CountedReader::counting(ThreeBytes::ending(1))).expect(
        &rt, "one read",
    );
    is(&rt, "read.as_slice()", &read.as_slice(), &b"abc".as_slice());
    let read = read_all(alloc, &mut CountedReader::counting(ThreeBytes::ending(20))).expect(
        &rt,
        "many reads",
    );
    is(&rt, "read.len()", &read.len(), &60);
    is(&rt, "read.last()", &read.last(), &Some(&b'c'));
    let read = read_all(alloc, &mut CountedReader::counting(Plenty::of(210000))).expect(
        &rt,
        "full reads",
    );
    is(&rt, "read.len()", &read.len(), &210000);
    is(&rt, "read.last()", &read.last(), &Some(&b'p'));
    let read = read_all(alloc, &mut CountedReader::counting(ThreeBytes::ending(0))).expect(
        &rt, "no byte",
    );
    assert!(rt; read.is_empty());
    is(
        &rt,
        "read_all(alloc, &mut CountedReader::counting(ThreeBytes::failing(1)))",
        &read_all(alloc, &mut CountedReader::counting(ThreeBytes::failing(1))).err(),
        &Some(FetchError::Read),
    );
}

#[test]
fn reads_no_more_than_allowed(rt: HostRuntime) {
    let alloc = rt.alloc();
    let read = read_up_to(
        alloc,
        6,
        &mut CountedReader::counting(ThreeBytes::ending(2)),
    )
    .expect(&rt, "six bytes");
    is(
        &rt,
        "read.as_slice()",
        &read.as_slice(),
        &b"abcabc".as_slice(),
    );
    let refused = read_up_to(
        alloc,
        5,
        &mut CountedReader::counting(ThreeBytes::ending(2)),
    )
    .err();
    is(&rt, "refused", &refused, &Some(FetchError::Read));
    let refused = read_up_to(
        alloc,
        5,
        &mut CountedReader::counting(ThreeBytes::ending(2_000_000_000)),
    )
    .err();
    is(&rt, "refused", &refused, &Some(FetchError::Read));
}

#[test]
fn no_failed_read_is_tried_again(rt: HostRuntime) {
    for call in 0..3u32 {
        let mut input = CountedReader::counting(FailsOnce::at(call));
        let refused = read_all(rt.alloc(), &mut input).err();
        is(&rt, "refused", &refused, &Some(FetchError::Read));
    }
}

#[test]
fn reads_files_of_some_megabytes(rt: HostRuntime) {
    is(&rt, "most", &MOST_BYTES, &1_099_511_627_776);
    let mut input = CountedReader::counting(Plenty::of(3_000_001));
    let read = read_all(rt.alloc(), &mut input).expect(&rt, "all bytes");
    is(&rt, "read.len()", &read.len(), &3_000_001);
}
