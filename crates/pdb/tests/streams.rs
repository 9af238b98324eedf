//! The streams that are handed on: of types, of ids, of frame data, and by their numbers.

use super::{is, put, put_numbers};
use crate::tests::sample::{DBI, SAMPLE, SECTIONS, STRINGS, changed, file_of, file_with};
use crate::*;
use std::alloc::Global;
use std::process::Abort;

/// The bytes of a stream, where there is one.
fn bytes_of<'a>(stream: Option<&'a Stream<'_>>) -> Option<&'a [u8]> {
    match stream {
        Some(stream) => Some(stream.as_slice()),
        None => None,
    }
}

#[test]
fn types_and_ids_that_are_absent_are_told(rt: HostRuntime) -> Result<()> {
    let bytes = file_of(rt.alloc(), &SAMPLE)?;
    let mut pdb = PDB::open(rt.alloc(), MemorySource::new(&bytes))?;
    for _ in 0..2 {
        let types = pdb.type_information().err();
        is(&rt, "types", &types, &Some(Error::StreamNotFound(2)));
        let ids = pdb.id_information().err();
        is(&rt, "ids", &ids, &Some(Error::StreamNotFound(4)));
    }
    is(&rt, "sections", &pdb.sections()?.is_some(), &true);
    Ok(())
}

#[test]
fn types_and_ids_are_handed_on(rt: HostRuntime) -> Result<()> {
    let mut streams = SAMPLE;
    streams[2] = Some(b"types");
    streams[4] = Some(b"ids");
    let bytes = file_of(rt.alloc(), &streams)?;
    let mut pdb = PDB::open(rt.alloc(), MemorySource::new(&bytes))?;
    for _ in 0..2 {
        let types = pdb.type_information()?;
        let ids = pdb.id_information()?;
        is(
            &rt,
            "types",
            &types.stream().as_slice(),
            &b"types".as_slice(),
        );
        is(&rt, "ids", &ids.stream().as_slice(), &b"ids".as_slice());
    }
    Ok(())
}

#[test]
fn streams_of_the_sample_by_their_numbers(rt: HostRuntime) -> Result<()> {
    let bytes = file_of(rt.alloc(), &SAMPLE)?;
    let mut pdb = PDB::open(rt.alloc(), MemorySource::new(&bytes))?;
    for _ in 0..2 {
        let beyond = pdb.raw_stream(StreamIndex(9)).err();
        is(&rt, "9", &beyond, &Some(Error::StreamNotFound(9)));
        let empty = pdb.raw_stream(StreamIndex(0))?;
        is(&rt, "0", &bytes_of(empty.as_ref()), &Some(b"".as_slice()));
        let none = pdb.raw_stream(StreamIndex(65535))?;
        is(&rt, "65535", &bytes_of(none.as_ref()), &None);
        let strings = pdb.raw_stream(StreamIndex(7))?;
        is(
            &rt,
            "7",
            &bytes_of(strings.as_ref()),
            &Some(STRINGS.as_slice()),
        );
    }
    Ok(())
}

/// The frame data of a file, the older and the newer, is these bytes, however often it is asked for.
fn has_frames(
    rt: &impl Abort,
    alloc: Global,
    bytes: &[u8],
    older: Option<&[u8]>,
    newer: Option<&[u8]>,
) -> Result<()> {
    let mut pdb = PDB::open(alloc, MemorySource::new(bytes))?;
    for _ in 0..2 {
        let frames = pdb.frame_table()?;
        is(rt, "older", &bytes_of(frames.old_stream()), &older);
        is(rt, "newer", &bytes_of(frames.new_stream()), &newer);
    }
    Ok(())
}

#[test]
fn the_sample_has_no_frame_data(rt: HostRuntime) -> Result<()> {
    let bytes = file_of(rt.alloc(), &SAMPLE)?;
    has_frames(&rt, rt.alloc(), &bytes, None, None)
}

/// Eleven numbers, of which the first names the older frame data, and the tenth the newer one.
const FRAMES: &[u8; 22] =
    b"\x07\0\xff\xff\xff\xff\xff\xff\xff\xff\xff\xff\xff\xff\xff\xff\xff\xff\x08\0\xff\xff";

#[test]
fn frame_data_of_both_forms(rt: HostRuntime) -> Result<()> {
    let (older, newer) = (Some(STRINGS.as_slice()), Some(SECTIONS.as_slice()));
    let bytes = file_with(rt.alloc(), FRAMES)?;
    has_frames(&rt, rt.alloc(), &bytes, older, newer)?;
    let bytes = file_with(rt.alloc(), &FRAMES[..18])?;
    has_frames(&rt, rt.alloc(), &bytes, older, None)?;
    let mut newer_alone = *FRAMES;
    newer_alone[0] = 0xff;
    newer_alone[1] = 0xff;
    let bytes = file_with(rt.alloc(), &newer_alone)?;
    has_frames(&rt, rt.alloc(), &bytes, None, newer)
}

#[test]
fn frame_data_that_is_absent_is_told(rt: HostRuntime) -> Result<()> {
    let mut numbers = *FRAMES;
    numbers[18] = 4;
    let bytes = file_with(rt.alloc(), &numbers)?;
    let mut pdb = PDB::open(rt.alloc(), MemorySource::new(&bytes))?;
    for _ in 0..2 {
        let refused = pdb.frame_table().err();
        is(&rt, "newer", &refused, &Some(Error::StreamNotFound(4)));
    }
    numbers[0] = 2;
    let bytes = file_with(rt.alloc(), &numbers)?;
    let mut pdb = PDB::open(rt.alloc(), MemorySource::new(&bytes))?;
    let refused = pdb.frame_table().err();
    is(
        &rt,
        "older first",
        &refused,
        &Some(Error::StreamNotFound(2)),
    );
    is(&rt, "sections", &pdb.sections()?.is_none(), &true);
    Ok(())
}

/// The three calls that want the numbers of further streams are refused so, however often they are made.
fn numbers_are_refused(rt: &impl Abort, alloc: Global, bytes: &[u8], wanted: Error) -> Result<()> {
    let mut pdb = PDB::open(alloc, MemorySource::new(bytes))?;
    for _ in 0..2 {
        is(rt, "sections", &pdb.sections().err(), &Some(wanted));
        is(rt, "frames", &pdb.frame_table().err(), &Some(wanted));
        is(rt, "addresses", &pdb.address_map().err(), &Some(wanted));
    }
    Ok(())
}

#[test]
fn no_numbers_of_further_streams(rt: HostRuntime) -> Result<()> {
    let bytes = changed(rt.alloc(), 3, None)?;
    numbers_are_refused(&rt, rt.alloc(), &bytes, Error::StreamNotFound(3))?;
    let bytes = changed(rt.alloc(), 3, Some(&DBI[..183]))?;
    numbers_are_refused(&rt, rt.alloc(), &bytes, Error::UnexpectedEof)?;
    let bytes = file_with(rt.alloc(), b"\x08\0\x08")?;
    numbers_are_refused(
        &rt,
        rt.alloc(),
        &bytes,
        Error::InvalidStreamLength(Part::DebugHeader),
    )?;
    let mut ancient = DBI;
    ancient[0] = 0;
    let bytes = changed(rt.alloc(), 3, Some(&ancient))?;
    numbers_are_refused(
        &rt,
        rt.alloc(),
        &bytes,
        Error::UnimplementedFeature(Feature::AncientDbiHeader),
    )
}

#[test]
fn refused_numbers_leave_the_rest(rt: HostRuntime) -> Result<()> {
    let bytes = file_with(rt.alloc(), b"\x08\0\x08")?;
    let mut pdb = PDB::open(rt.alloc(), MemorySource::new(&bytes))?;
    is(&rt, "sections", &pdb.sections().is_err(), &true);
    is(&rt, "age", &pdb.debug_information()?.age(), &Some(2));
    is(&rt, "symbols", &pdb.global_symbols().is_ok(), &true);
    let refused = pdb.frame_table().err();
    let odd = Some(Error::InvalidStreamLength(Part::DebugHeader));
    is(&rt, "frames", &refused, &odd);
    is(&rt, "failures", &pdb.failures(), &0);
    Ok(())
}

#[test]
fn the_directory_has_sizes(rt: HostRuntime) -> Result<()> {
    let bytes = file_with(rt.alloc(), b"")?;
    let pdb = PDB::open(rt.alloc(), MemorySource::new(&bytes))?;
    is(&rt, "count", &pdb.stream_count(), &Ok(9));
    is(&rt, "names", &pdb.stream_size(7), &Ok(17));
    let absent = Err(Error::StreamNotFound(4));
    is(&rt, "ids", &pdb.stream_size(4), &absent);
    let missing = Err(Error::StreamNotFound(9));
    is(&rt, "no such stream", &pdb.stream_size(9), &missing);
    Ok(())
}

/// A stream of one structure, `S`, with the index 0x1000.
const TYPES: [u8; 80] = [
    0x0b, 0xca, 0x31, 0x01, 0x38, 0x00, 0x00, 0x00, 0x00, 0x10, 0x00, 0x00, 0x01, 0x10, 0x00, 0x00,
    0x18, 0x00, 0x00, 0x00, 0x00, 0x00, 0x00, 0x00, 0x00, 0x00, 0x00, 0x00, 0x00, 0x00, 0x00, 0x00,
    0x00, 0x00, 0x00, 0x00, 0x00, 0x00, 0x00, 0x00, 0x00, 0x00, 0x00, 0x00, 0x00, 0x00, 0x00, 0x00,
    0x00, 0x00, 0x00, 0x00, 0x00, 0x00, 0x00, 0x00, 0x16, 0x00, 0x05, 0x15, 0x00, 0x00, 0x00, 0x00,
    0x00, 0x00, 0x00, 0x00, 0x00, 0x00, 0x00, 0x00, 0x00, 0x00, 0x00, 0x00, 0x04, 0x00, 0x53, 0x00,
];

/// A stream of two functions: `m`, a member of the type 0x1000, and `f`; then a record that is cut.
const IDS: [u8; 92] = [
    0x0b, 0xca, 0x31, 0x01, 0x38, 0x00, 0x00, 0x00, 0x00, 0x20, 0x00, 0x00, 0x02, 0x20, 0x00, 0x00,
    0x24, 0x00, 0x00, 0x00, 0x00, 0x00, 0x00, 0x00, 0x00, 0x00, 0x00, 0x00, 0x00, 0x00, 0x00, 0x00,
    0x00, 0x00, 0x00, 0x00, 0x00, 0x00, 0x00, 0x00, 0x00, 0x00, 0x00, 0x00, 0x00, 0x00, 0x00, 0x00,
    0x00, 0x00, 0x00, 0x00, 0x00, 0x00, 0x00, 0x00, 0x0e, 0x00, 0x02, 0x16, 0x00, 0x10, 0x00, 0x00,
    0x75, 0x00, 0x00, 0x00, 0x6d, 0x00, 0xf2, 0xf1, 0x0c, 0x00, 0x01, 0x16, 0x00, 0x00, 0x00, 0x00,
    0x76, 0x00, 0x00, 0x00, 0x66, 0x00, 0x07, 0x00, 0x01, 0x16, 0x00, 0x00,
];

/// The sample with these types and ids.
fn file_of_items<'b>(alloc: Global, types: &'b [u8], ids: &'b [u8]) -> Result<Vec<u8>> {
    let mut streams: [Option<&'b [u8]>; 9] = SAMPLE;
    streams[2] = Some(types);
    streams[4] = Some(ids);
    file_of(alloc, &streams)
}

/// The index and the kind of the next item; none where there is none, or a fault.
fn next_item(items: &mut ItemIter<'_>) -> Option<(u32, u16)> {
    match items.next() {
        Ok(Some(item)) => Some((item.index(), item.raw_kind())),
        _ => None,
    }
}

#[test]
fn types_are_listed(rt: HostRuntime) -> Result<()> {
    let bytes = file_of_items(rt.alloc(), &TYPES, &IDS)?;
    let mut pdb = PDB::open(rt.alloc(), MemorySource::new(&bytes))?;
    let types = pdb.type_information()?;
    let mut items = types.iter()?;
    is(
        &rt,
        "first",
        &next_item(&mut items),
        &Some((0x1000, 0x1505)),
    );
    is(&rt, "end", &items.count(), &Ok(0));
    Ok(())
}

#[test]
fn ids_are_listed(rt: HostRuntime) -> Result<()> {
    let bytes = file_of_items(rt.alloc(), &TYPES, &IDS)?;
    let mut pdb = PDB::open(rt.alloc(), MemorySource::new(&bytes))?;
    let ids = pdb.id_information()?;
    let mut items = ids.iter()?;
    is(
        &rt,
        "first",
        &next_item(&mut items),
        &Some((0x2000, 0x1602)),
    );
    is(
        &rt,
        "second",
        &next_item(&mut items),
        &Some((0x2001, 0x1601)),
    );
    is(&rt, "fault", &items.count(), &Err(Error::UnexpectedEof));
    Ok(())
}

/// Asserts the names of both functions, and that the record behind them isn't found.
fn names_are_found<'t>(rt: &impl Abort, ids: &ItemFinder<'t>, types: &ItemFinder<'t>) {
    let member = QualifiedName {
        scope: Some(RawString::from("S")),
        name: RawString::from("m"),
    };
    let function = QualifiedName {
        scope: None,
        name: RawString::from("f"),
    };
    let found = qualified_name(ids, types, IdIndex(0x2000));
    is(rt, "member", &found, &Some(member));
    let found = qualified_name(ids, types, IdIndex(0x2001));
    is(rt, "function", &found, &Some(function));
    is(rt, "cut", &ids.find(0x2002), &None);
}

#[test]
fn names_are_found_by_ids(rt: HostRuntime) -> Result<()> {
    let bytes = file_of_items(rt.alloc(), &TYPES, &IDS)?;
    let mut pdb = PDB::open(rt.alloc(), MemorySource::new(&bytes))?;
    let types = pdb.type_information()?;
    let ids = pdb.id_information()?;
    let known = ids.finder(rt.alloc())?;
    names_are_found(&rt, &known, &types.finder(rt.alloc())?);
    Ok(())
}

#[test]
fn types_and_ids_without_a_header_are_refused(rt: HostRuntime) -> Result<()> {
    let bytes = file_of_items(rt.alloc(), &TYPES[..55], &IDS[..91])?;
    let mut pdb = PDB::open(rt.alloc(), MemorySource::new(&bytes))?;
    let types = pdb.type_information()?;
    let ids = pdb.id_information()?;
    let refused = Some(Error::UnexpectedEof);
    is(&rt, "types", &types.iter().err(), &refused);
    is(&rt, "ids", &ids.iter().err(), &refused);
    is(
        &rt,
        "known types",
        &types.finder(rt.alloc()).err(),
        &refused,
    );
    is(&rt, "known ids", &ids.finder(rt.alloc()).err(), &refused);
    is(
        &rt,
        "definitions",
        &types.definitions(rt.alloc()).err(),
        &refused,
    );
    Ok(())
}

/// A declaration of `S`, and its definition of 12 bytes.
const STRUCTURES: [u8; 104] = *b"\x0b\xca\x31\x01\x38\0\0\0\0\x10\0\0\x02\x10\0\0\x30\0\0\0\
    \0\0\0\0\0\0\0\0\0\0\0\0\0\0\0\0\0\0\0\0\0\0\0\0\0\0\0\0\0\0\0\0\0\0\0\0\
    \x16\0\x05\x15\0\0\x80\0\0\0\0\0\0\0\0\0\0\0\0\0\0\0S\0\
    \x16\0\x05\x15\0\0\0\0\0\0\0\0\0\0\0\0\0\0\0\0\x0c\0S\0";

#[test]
fn definitions_of_types(rt: HostRuntime) -> Result<()> {
    let bytes = file_of_items(rt.alloc(), &STRUCTURES, &IDS)?;
    let mut pdb = PDB::open(rt.alloc(), MemorySource::new(&bytes))?;
    let information = pdb.type_information()?;
    let types = information.finder(rt.alloc())?;
    let definitions = information.definitions(rt.alloc())?;
    let full = definitions.full(&types, TypeIndex(0x1000));
    is(&rt, "definition", &full, &Some(TypeIndex(0x1001)));
    let size = definitions.size(&types, TypeIndex(0x1000));
    is(&rt, "size", &size, &Some(12));
    let mut name = Vec::new(rt.alloc());
    put_name(&types, &definitions, &mut name, TypeIndex(0x1000))?;
    is(&rt, "name", &name.as_slice(), &b"S".as_slice());
    Ok(())
}

/// A file of pages of 4096 bytes with so many streams, of which the last has eight bytes and the others none.
fn file_of_many(alloc: Global, count: u32) -> Result<Vec<u8>> {
    let mut bytes = vec![in alloc; 0u8; 49152]?;
    put(&mut bytes, 0, b"Microsoft C/C++ MSF 7.00\r\n\x1aDS\0\0\0");
    let size = count.saturating_add(2).saturating_mul(4);
    put_numbers(&mut bytes, 32, &[4096, 1, 12, size, 0, 2]);
    put_numbers(&mut bytes, 8192, &[4, 5, 6, 7, 8, 9, 10, 11]);
    let last = count.saturating_mul(4) as usize;
    put_numbers(&mut bytes, 16384, &[count]);
    put_numbers(&mut bytes, 16384 + last, &[8, 3]);
    put(&mut bytes, 12288, b"the last");
    Ok(bytes)
}

#[test]
fn streams_with_large_numbers_are_had(rt: HostRuntime) -> Result<()> {
    for number in [9u32, 300, 4660, 6000] {
        let bytes = file_of_many(rt.alloc(), number + 1)?;
        let mut pdb = PDB::open(rt.alloc(), MemorySource::new(&bytes))?;
        let last = pdb.raw_stream(StreamIndex(number as u16))?;
        is(
            &rt,
            "last",
            &bytes_of(last.as_ref()),
            &Some(b"the last".as_slice()),
        );
        let other = pdb.raw_stream(StreamIndex(number as u16 - 1))?;
        is(
            &rt,
            "other",
            &bytes_of(other.as_ref()),
            &Some(b"".as_slice()),
        );
    }
    Ok(())
}
