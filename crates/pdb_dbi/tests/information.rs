//! The information stream, and the names of streams.

use super::is;
use crate::tests::sample::{information, joined, stream};
use crate::*;
use pdb_base::{Error, Result, StreamIndex};
use std::alloc::Global;
use std::process::Abort;

/// The sample's fields, without the size of its names.
fn fields() -> &'static [u8] {
    &information()[0..28]
}

/// An information stream with these names, and behind them the map of these words.
fn with_names(alloc: Global, names: &[u8], words: &[u32]) -> Result<Vec<u8>> {
    let size = (names.len() % 65536) as u32;
    let mut bytes = joined(alloc, &[fields()])?;
    bytes.extend_from_slice(&size.to_le_bytes())?;
    bytes.extend_from_slice(names)?;
    for word in words {
        bytes.extend_from_slice(&word.to_le_bytes())?;
    }
    Ok(bytes)
}

/// Asserts that the list has these names and streams in this order, and no further one.
fn assert_names(rt: &impl Abort, names: &StreamNames<'_>, wanted: &[(&[u8], u16)]) {
    let mut rest = wanted.iter();
    for name in names {
        let (text, stream_id) = rest.next().expect(rt, "no further name");
        is(rt, "name.name.as_bytes()", &name.name.as_bytes(), &(*text));
        is(
            rt,
            "name.stream_id",
            &name.stream_id,
            &StreamIndex(*stream_id),
        );
    }
    assert!(rt; rest.next().is_none());
}

/// Asserts that an information stream with these names and words has this list.
fn assert_listed(
    rt: &impl Abort,
    alloc: Global,
    names: &[u8],
    words: &[u32],
    wanted: &[(&[u8], u16)],
) -> Result<()> {
    let bytes = with_names(alloc, names, words)?;
    let read = PDBInformation::parse(stream(rt, &bytes))?;
    assert_names(rt, &read.stream_names(alloc)?, wanted);
    Ok(())
}

/// Asserts that the names of an information stream are refused.
fn assert_refused(rt: &impl Abort, alloc: Global, read: &PDBInformation<'_>) {
    let refused = read.stream_names(alloc).err();
    is(rt, "refused", &refused, &Some(Error::UnexpectedEof));
}

#[test]
fn the_sample_says_which_file_it_is(rt: HostRuntime) -> Result<()> {
    let read = PDBInformation::parse(stream(&rt, information()))?;
    assert!(rt; matches!(read.version, HeaderVersion::OtherValue(20000404)));
    is(&rt, "read.signature", &read.signature, &1);
    is(&rt, "read.age", &read.age, &2);
    let guid = b"\x00\x11\x22\x33\x44\x55\x66\x77\x88\x99\xaa\xbb\xcc\xdd\xee\xff";
    is(&rt, "read.guid", &read.guid, &(*guid));
    is(&rt, "read.names_offset", &read.names_offset, &32);
    is(&rt, "read.names_size", &read.names_size, &7);
    Ok(())
}

#[test]
fn the_sample_names_one_stream(rt: HostRuntime) -> Result<()> {
    let read = PDBInformation::parse(stream(&rt, information()))?;
    let names = read.stream_names(rt.alloc())?;
    assert_names(&rt, &names, &[(b"/names", 7)]);
    let mut all = names.iter();
    let name = all.next().expect(&rt, "a name");
    is(
        &rt,
        "name.name.as_bytes()",
        &name.name.as_bytes(),
        &b"/names".as_slice(),
    );
    is(&rt, "name.stream_id", &name.stream_id, &StreamIndex(7));
    assert!(rt; all.next().is_none());
    Ok(())
}

#[test]
fn a_stream_below_32_bytes_is_refused(rt: HostRuntime) {
    for k in 0..32 {
        let parsed = PDBInformation::parse(stream(&rt, &information()[..k]));
        is(&rt, "cut to", &parsed.err(), &Some(Error::UnexpectedEof));
    }
}

#[test]
fn a_cut_stream_has_no_names(rt: HostRuntime) -> Result<()> {
    for k in 32..67 {
        let read = PDBInformation::parse(stream(&rt, &information()[..k]))?;
        assert_refused(&rt, rt.alloc(), &read);
    }
    Ok(())
}

#[test]
fn the_callers_place_and_size_of_the_names_are_used(rt: HostRuntime) -> Result<()> {
    let mut read = PDBInformation::parse(stream(&rt, information()))?;
    read.names_offset = 33;
    read.names_size = 6;
    assert_names(&rt, &read.stream_names(rt.alloc())?, &[(b"names", 7)]);
    for (offset, size) in [
        (usize::MAX, 7),
        (32, 0xffff_ffff),
        (usize::MAX, usize::MAX),
        (32, 36),
        (68, 0),
    ] {
        read.names_offset = offset;
        read.names_size = size;
        assert_refused(&rt, rt.alloc(), &read);
    }
    Ok(())
}

#[test]
fn any_fault_refuses_all_names(rt: HostRuntime) -> Result<()> {
    let rows: [(&[u8], &[u32]); 6] = [
        (b"a\0", &[2, 2, 0, 0, 0, 5, 2, 6]),
        (b"a\0", &[2, 2, 0, 0, 0, 5, 0xffff_ffff, 6]),
        (b"abc", &[1, 1, 0, 0, 0, 5]),
        (b"a\0", &[0xffff_ffff, 1, 0, 0, 0, 5]),
        (b"a\0", &[1, 1, 0xffff_ffff, 0, 0, 5]),
        (b"a\0", &[1, 1, 0, 0xffff_ffff, 0, 5]),
    ];
    for (names, words) in rows {
        let bytes = with_names(rt.alloc(), names, words)?;
        let read = PDBInformation::parse(stream(&rt, &bytes))?;
        assert_refused(&rt, rt.alloc(), &read);
    }
    Ok(())
}

#[test]
fn words_before_the_pairs_are_passed_over(rt: HostRuntime) -> Result<()> {
    let words = [1, 9, 3, 1, 2, 3, 2, 4, 5, 0, 7];
    assert_listed(&rt, rt.alloc(), b"a\0", &words, &[(b"a", 7)])
}

#[test]
fn a_streams_index_is_the_low_sixteen_bits(rt: HostRuntime) -> Result<()> {
    let words = [3, 3, 0, 0, 0, 0x1_ffff, 0, 0x1_0007, 0, 0x1234];
    let wanted: [(&[u8], u16); 3] = [(b"a", 0xffff), (b"a", 7), (b"a", 0x1234)];
    assert_listed(&rt, rt.alloc(), b"a\0", &words, &wanted)
}

#[test]
fn names_come_in_the_order_of_their_pairs(rt: HostRuntime) -> Result<()> {
    let words = [3, 3, 0, 0, 7, 9, 0, 4, 13, 5];
    let wanted: [(&[u8], u16); 3] = [(b"/names", 9), (b"/names", 4), (b"", 5)];
    assert_listed(&rt, rt.alloc(), b"/names\0/names\0", &words, &wanted)
}

#[test]
fn a_file_may_name_no_stream(rt: HostRuntime) -> Result<()> {
    assert_listed(&rt, rt.alloc(), b"", &[0, 0, 0, 0], &[])
}

/// A map of one pair, in which the numbers that say so stand in each place that counts for something else.
const MAP: [u32; 9] = [1, 9, 1, 20091201, 2, 20140508, 20091201, 0, 20140508];

/// Whether an information stream with these numbers behind its map says that stream 4 has ids.
fn says_ids(rt: &impl Abort, alloc: Global, codes: &[u32], rest: &[u8]) -> Result<bool> {
    let mut bytes = with_names(alloc, b"ab\0", &MAP)?;
    for code in codes {
        bytes.extend_from_slice(&code.to_le_bytes())?;
    }
    bytes.extend_from_slice(rest)?;
    PDBInformation::parse(stream(rt, &bytes))?.has_ids()
}

#[test]
fn ids_are_said_by_the_numbers_behind_the_map(rt: HostRuntime) -> Result<()> {
    let alloc = rt.alloc();
    is(&rt, "none", &says_ids(&rt, alloc, &[], b"")?, &false);
    is(
        &rt,
        "another",
        &says_ids(&rt, alloc, &[0x4d544f4e], b"")?,
        &false,
    );
    is(&rt, "2010", &says_ids(&rt, alloc, &[20091201], b"")?, &true);
    is(&rt, "2014", &says_ids(&rt, alloc, &[20140508], b"")?, &true);
    is(
        &rt,
        "second",
        &says_ids(&rt, alloc, &[7, 20140508], b"\x07")?,
        &true,
    );
    is(
        &rt,
        "cut",
        &says_ids(&rt, alloc, &[7], b"\xdc\x51\x33")?,
        &false,
    );
    Ok(())
}

#[test]
fn ids_are_not_said_where_the_map_is_cut(rt: HostRuntime) -> Result<()> {
    let bytes = with_names(rt.alloc(), b"ab\0", &MAP[..8])?;
    let read = PDBInformation::parse(stream(&rt, &bytes))?;
    is(&rt, "cut", &read.has_ids(), &Err(Error::UnexpectedEof));
    Ok(())
}
