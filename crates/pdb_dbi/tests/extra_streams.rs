//! The numbers of further streams.

use super::is;
use crate::tests::sample::{changed, dbi, stream};
use crate::*;
use pdb_base::{Error, ParseBuffer, Part, Result, StreamIndex};
use std::process::Abort;

/// The streams' numbers, in the order in which the file has them.
fn numbers(streams: &DBIExtraStreams) -> [u16; 11] {
    [
        streams.fpo.0,
        streams.exception.0,
        streams.fixup.0,
        streams.omap_to_src.0,
        streams.omap_from_src.0,
        streams.section_headers.0,
        streams.token_rid_map.0,
        streams.xdata.0,
        streams.pdata.0,
        streams.framedata.0,
        streams.original_section_headers.0,
    ]
}

/// The further streams of a DBI stream.
fn read(rt: &impl Abort, bytes: &[u8]) -> Result<DBIExtraStreams> {
    let information = DebugInformation::parse(stream(rt, bytes))?;
    DBIExtraStreams::new(&information)
}

const NONE: u16 = 0xffff;

/// The sample's numbers: it has section headers alone.
const SAMPLE: [u16; 11] = [
    NONE, NONE, NONE, NONE, NONE, 8, NONE, NONE, NONE, NONE, NONE,
];

#[test]
fn the_sample_has_section_headers_alone(rt: HostRuntime) -> Result<()> {
    let streams = read(&rt, dbi())?;
    is(
        &rt,
        "streams.section_headers",
        &streams.section_headers,
        &StreamIndex(8),
    );
    is(&rt, "streams.fpo", &streams.fpo, &StreamIndex::none());
    is(&rt, "numbers(&streams)", &numbers(&streams), &SAMPLE);
    Ok(())
}

#[test]
fn numbers_that_are_not_all_there_are_refused(rt: HostRuntime) {
    for k in 64..184 {
        let refused = read(&rt, &dbi()[..k]).err();
        is(&rt, "cut to", &refused, &Some(Error::UnexpectedEof));
    }
}

#[test]
fn each_size_before_the_numbers_counts(rt: HostRuntime) -> Result<()> {
    for at in [24, 28, 32, 36, 40, 48, 52] {
        let bytes = changed(rt.alloc(), at, 0xffff_ffff)?;
        let refused = read(&rt, &bytes).err();
        is(&rt, "the size at", &refused, &Some(Error::UnexpectedEof));
    }
    Ok(())
}

#[test]
fn the_index_of_a_type_server_is_no_size(rt: HostRuntime) -> Result<()> {
    let bytes = changed(rt.alloc(), 44, 0xffff_ffff)?;
    is(
        &rt,
        "numbers(&read(&rt, &bytes)?)",
        &numbers(&read(&rt, &bytes)?),
        &SAMPLE,
    );
    Ok(())
}

#[test]
fn each_size_moves_the_numbers(rt: HostRuntime) -> Result<()> {
    for (at, size) in [(24, 80), (28, 36), (32, 4), (36, 4), (40, 4), (52, 4)] {
        let mut bytes = changed(rt.alloc(), at, size)?;
        bytes.extend_from_slice(b"\x34\x12\x78\x56")?;
        let streams = read(&rt, &bytes)?;
        is(&rt, "the size at", &streams.omap_to_src.0, &8);
        is(&rt, "the size at", &streams.omap_from_src.0, &0x1234);
        is(&rt, "the size at", &streams.section_headers.0, &0x5678);
    }
    Ok(())
}

#[test]
fn missing_numbers_are_those_of_no_stream(rt: HostRuntime) -> Result<()> {
    let bytes = b"\xff\xff\x01\x02\x03\x04\xff\xff\x05\x06";
    let streams = DBIExtraStreams::parse(&mut ParseBuffer::from(bytes.as_slice()))?;
    is(
        &rt,
        "streams.exception",
        &streams.exception,
        &StreamIndex(0x0201),
    );
    is(&rt, "streams.fixup", &streams.fixup, &StreamIndex(0x0403));
    is(
        &rt,
        "streams.omap_from_src",
        &streams.omap_from_src,
        &StreamIndex(0x0605),
    );
    let wanted = [
        NONE, 0x0201, 0x0403, NONE, 0x0605, NONE, NONE, NONE, NONE, NONE, NONE,
    ];
    is(&rt, "numbers(&streams)", &numbers(&streams), &wanted);
    Ok(())
}

#[test]
fn no_bytes_are_no_streams(rt: HostRuntime) -> Result<()> {
    let streams = DBIExtraStreams::parse(&mut ParseBuffer::default())?;
    is(&rt, "numbers(&streams)", &numbers(&streams), &[NONE; 11]);
    Ok(())
}

#[test]
fn an_odd_number_of_bytes_is_refused(rt: HostRuntime) {
    let bytes = [0u8; 25];
    for size in [1, 3, 21, 23, 25] {
        let mut buffer = ParseBuffer::from(&bytes[..size]);
        is(
            &rt,
            "bytes",
            &DBIExtraStreams::parse(&mut buffer).err(),
            &Some(Error::InvalidStreamLength(Part::DebugHeader)),
        );
    }
}

#[test]
fn a_twelfth_number_is_passed_over(rt: HostRuntime) -> Result<()> {
    let bytes =
        b"\x01\x00\x02\x00\x03\x00\x04\x00\x05\x00\x06\x00\x07\x00\x08\x00\x09\x00\x0a\x00\x0b\x00\x0c\x00";
    let mut buffer = ParseBuffer::from(bytes.as_slice());
    let streams = DBIExtraStreams::parse(&mut buffer)?;
    is(
        &rt,
        "numbers(&streams)",
        &numbers(&streams),
        &[1, 2, 3, 4, 5, 6, 7, 8, 9, 10, 11],
    );
    is(&rt, "buffer.len()", &buffer.len(), &0);
    Ok(())
}

#[test]
fn parse_reads_from_the_buffers_place(rt: HostRuntime) -> Result<()> {
    let mut buffer = ParseBuffer::from(b"\x01\x02\x03\x04\x05".as_slice());
    buffer.seek(1);
    let streams = DBIExtraStreams::parse(&mut buffer)?;
    is(&rt, "streams.fpo", &streams.fpo, &StreamIndex(0x0302));
    is(
        &rt,
        "streams.exception",
        &streams.exception,
        &StreamIndex(0x0504),
    );
    is(&rt, "streams.fixup", &streams.fixup, &StreamIndex::none());
    is(&rt, "buffer.pos()", &buffer.pos(), &5);
    Ok(())
}
