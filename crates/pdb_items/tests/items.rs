//! The list of a stream's items, and items found by their indices.

use super::is;
use super::streams::{IDS, TYPES, few, stream, stream_of_size};
use crate::*;
use pdb_base::{Error, FallibleIterator, Result};
use std::alloc::Global;
use std::process::Abort;

/// Two records of no fields, of the kinds 0x1201 and 0x1202.
const TWO: &[u8; 8] = b"\x02\0\x01\x12\x02\0\x02\x12";

/// How many items a stream has, or its refusal, or the fault behind the items.
fn count(rt: &impl Abort, bytes: &[u8]) -> Result<usize> {
    ItemIter::new(few(rt, bytes))?.count()
}

/// The kind of the item with an index; none where there is no such item.
fn kind_at(rt: &impl Abort, alloc: Global, bytes: &[u8], index: u32) -> Result<Option<u16>> {
    let items = ItemFinder::new(alloc, few(rt, bytes))?;
    Ok(items.find(index).map(|item| item.raw_kind()))
}

/// Asserts that so many items come, then the end of data, and then nothing.
fn assert_fault_after(rt: &impl Abort, items: usize, bytes: &[u8]) -> Result<()> {
    let mut list = ItemIter::new(few(rt, bytes))?;
    for _ in 0..items {
        assert!(rt; matches!(list.next(), Ok(Some(_))));
    }
    is(rt, "a fault", &list.next(), &Err(Error::UnexpectedEof));
    is(rt, "behind a fault", &list.next(), &Ok(None));
    is(rt, "behind the end", &list.next(), &Ok(None));
    Ok(())
}

#[test]
fn items_of_ids(rt: HostRuntime) -> Result<()> {
    let mut items = ItemIter::new(&IDS)?;
    let found = ItemFinder::new(rt.alloc(), &IDS)?;
    for (index, kind, place, size) in [
        (0x1000, 0x1605, 58, 10),
        (0x1001, 0x1601, 70, 14),
        (0x1002, 0x1602, 86, 14),
        (0x1003, 0x1601, 102, 14),
        (0x1004, 0x1601, 118, 14),
        (0x1005, 0x1602, 134, 14),
        (0x1006, 0x1603, 150, 14),
        (0x1007, 0x1606, 166, 14),
    ] {
        let item = items.next()?.expect(&rt, "an item");
        is(&rt, "index", &item.index(), &index);
        is(&rt, "kind", &item.raw_kind(), &kind);
        is(&rt, "bytes", &item.raw_bytes(), &&IDS[place..place + size]);
        is(&rt, "found", &found.find(index), &Some(item));
    }
    is(&rt, "end", &items.next(), &Ok(None));
    is(&rt, "one before", &found.find(0xfff), &None);
    is(&rt, "one behind", &found.find(0x1008), &None);
    is(&rt, "index 0", &found.find(0), &None);
    is(&rt, "last index", &found.find(0xffff_ffff), &None);
    Ok(())
}

#[test]
fn items_of_types(rt: HostRuntime) -> Result<()> {
    is(&rt, "count", &count(&rt, &TYPES), &Ok(2));
    let alloc = rt.alloc();
    is(
        &rt,
        "1000",
        &kind_at(&rt, alloc, &TYPES, 0x1000)?,
        &Some(0x1505),
    );
    is(
        &rt,
        "1001",
        &kind_at(&rt, alloc, &TYPES, 0x1001)?,
        &Some(0x1201),
    );
    is(&rt, "1002", &kind_at(&rt, alloc, &TYPES, 0x1002)?, &None);
    Ok(())
}

#[test]
fn no_items(rt: HostRuntime) -> Result<()> {
    is(&rt, "by default", &ItemIter::default().next(), &Ok(None));
    let empty = ItemFinder::empty(rt.alloc());
    is(&rt, "empty", &empty.find(0), &None);
    let none = stream(rt.alloc(), 56, 0x1000, b"")?;
    is(&rt, "no records", &count(&rt, &none), &Ok(0));
    Ok(())
}

#[test]
fn copies_go_on_alike(rt: HostRuntime) -> Result<()> {
    let mut items = ItemIter::new(&IDS)?;
    items.next()?;
    let copy = items.clone()?;
    is(&rt, "copy", &copy.count(), &Ok(7));
    is(&rt, "list", &items.count(), &Ok(7));
    Ok(())
}

/// These bytes with another one at a place.
fn with_byte(mut bytes: Vec<u8>, place: usize, byte: u8) -> Vec<u8> {
    if place < bytes.len() {
        bytes[place] = byte;
    }
    bytes
}

#[test]
fn headers(rt: HostRuntime) -> Result<()> {
    let alloc = rt.alloc();
    let eof = Err(Error::UnexpectedEof);
    is(&rt, "0 bytes", &count(&rt, &[]), &Ok(0));
    is(&rt, "no item", &kind_at(&rt, alloc, &[], 0)?, &None);
    for size in 1..56 {
        is(&rt, "short", &count(&rt, &IDS[..size]), &eof);
    }
    let finder = ItemFinder::new(alloc, &IDS[..55]).map(|_| ());
    is(&rt, "55 bytes", &finder, &Err(Error::UnexpectedEof));
    is(&rt, "cut", &count(&rt, &IDS[..179]), &eof);
    for header in [20, 56, 60] {
        let mut bytes = stream(alloc, header, 7, TWO)?;
        // Bytes behind the records are read by nobody, and a header below 56 bytes wants 56 bytes all the same.
        bytes.extend_from_slice(&[0xff; 40])?;
        is(&rt, "header", &count(&rt, &bytes), &Ok(2));
        is(&rt, "kind", &kind_at(&rt, alloc, &bytes, 8)?, &Some(0x1202));
    }
    let past = with_byte(stream(alloc, 56, 7, TWO)?, 4, 65);
    is(&rt, "header past the end", &count(&rt, &past), &eof);
    let past = with_byte(past, 4, 57);
    is(&rt, "records past the end", &count(&rt, &past), &eof);
    let none = with_byte(with_byte(past, 4, 64), 16, 0);
    is(&rt, "header to the end", &count(&rt, &none), &Ok(0));
    Ok(())
}

#[test]
fn sizes_of_records(rt: HostRuntime) -> Result<()> {
    let alloc = rt.alloc();
    let more = stream_of_size(alloc, 56, 7, 9, TWO)?;
    is(
        &rt,
        "one too many",
        &count(&rt, &more),
        &Err(Error::UnexpectedEof),
    );
    let fewer = stream_of_size(alloc, 56, 7, 7, TWO)?;
    assert_fault_after(&rt, 1, &fewer)?;
    is(
        &rt,
        "first",
        &kind_at(&rt, alloc, &fewer, 7)?,
        &Some(0x1201),
    );
    is(&rt, "cut", &kind_at(&rt, alloc, &fewer, 8)?, &None);
    let one = stream_of_size(alloc, 56, 7, 4, TWO)?;
    is(&rt, "one record", &count(&rt, &one), &Ok(1));
    is(&rt, "behind it", &kind_at(&rt, alloc, &one, 8)?, &None);
    Ok(())
}

#[test]
fn lengths_of_records(rt: HostRuntime) -> Result<()> {
    let alloc = rt.alloc();
    let records: [&[u8]; 5] = [
        b"\x02\0\x01\x12\0\0\x02\x12",
        b"\x02\0\x01\x12\x01\0\x02\x12",
        b"\x02\0\x01\x12\x02",
        b"\x02\0\x01\x12\x02\0\x02",
        b"\x02\0\x01\x12\x03\0\x02\x12",
    ];
    for each in records {
        let bytes = stream(alloc, 56, 7, each)?;
        assert_fault_after(&rt, 1, &bytes)?;
        is(
            &rt,
            "first",
            &kind_at(&rt, alloc, &bytes, 7)?,
            &Some(0x1201),
        );
        is(&rt, "faulty", &kind_at(&rt, alloc, &bytes, 8)?, &None);
    }
    Ok(())
}

#[test]
fn first_indices(rt: HostRuntime) -> Result<()> {
    let alloc = rt.alloc();
    let least = stream(alloc, 56, 0, TWO)?;
    is(&rt, "0", &kind_at(&rt, alloc, &least, 0)?, &Some(0x1201));
    is(&rt, "1", &kind_at(&rt, alloc, &least, 1)?, &Some(0x1202));
    is(&rt, "2", &kind_at(&rt, alloc, &least, 2)?, &None);
    let last_two = stream(alloc, 56, 0xffff_fffe, TWO)?;
    is(&rt, "two", &count(&rt, &last_two), &Ok(2));
    let last = kind_at(&rt, alloc, &last_two, 0xffff_ffff)?;
    is(&rt, "last of two", &last, &Some(0x1202));
    // Behind the last index the list ends whole, whatever stands there.
    let behind: [&[u8]; 2] = [TWO, b"\x02\0\x01\x12\x01\0"];
    for records in behind {
        let bytes = stream(alloc, 56, 0xffff_ffff, records)?;
        is(&rt, "one", &count(&rt, &bytes), &Ok(1));
        let last = kind_at(&rt, alloc, &bytes, 0xffff_ffff)?;
        is(&rt, "last", &last, &Some(0x1201));
        is(&rt, "none", &kind_at(&rt, alloc, &bytes, 0)?, &None);
    }
    Ok(())
}
