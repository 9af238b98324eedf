//! Tests of a source that reads: far gaps, many runs, long views, empty and short slices, and readers that fail or end
//! early.

use crate::tests::fakes::{Counted, is};
use crate::tests::slice;
use crate::{AnyFile, ReadAt, ReadingSource};
use bumpalo::Bump;
use pdb_base::{Error, Source, SourceSlice, View};
use std::alloc::{AllocError, Global};
use std::process::Abort;
use std::test::Fail;

/// How far neighbours are apart that aren't read together.
const FAR: u64 = 200_000;

/// A file in which the byte at an offset is the remainder of the offset by 251.
fn file(alloc: Global, size: usize) -> Result<Vec<u8>, AllocError> {
    let mut bytes = Vec::new(alloc);
    bytes.resize(size, 0)?;
    for (at, byte) in bytes.iter_mut().enumerate() {
        *byte = (at % 251) as u8;
    }
    Ok(bytes)
}

/// So many slices of three bytes, each far from the next, the last ones first.
fn far_slices(alloc: Global, count: u64) -> Result<Vec<SourceSlice>, AllocError> {
    let mut slices = Vec::new(alloc);
    for k in 0..count {
        slices.push(slice(FAR * (count - 1 - k), 3))?;
    }
    Ok(slices)
}

/// A view has the bytes of these slices.
fn has_bytes(rt: &impl Abort, label: &str, view: &View<'_>, slices: &[SourceSlice]) {
    let mut bytes = view.as_slice().iter();
    for slice in slices {
        for k in 0..slice.size as u64 {
            let wanted = (slice.offset.saturating_add(k) % 251) as u8;
            is(rt, label, &bytes.next().copied(), &Some(wanted));
        }
    }
    is(rt, label, &bytes.next().copied(), &None);
}

/// A view of these slices has their bytes.
fn gives<'s, R: ReadAt>(
    rt: &impl Abort,
    label: &str,
    alloc: Global,
    source: &mut ReadingSource<'s, R, AnyFile>,
    slices: &[SourceSlice],
) {
    match source.view(alloc, slices) {
        Ok(view) => has_bytes(rt, label, &view, slices),
        Err(e) => is(rt, label, &Some(e), &None),
    }
}

/// A view of these slices has this error.
fn fails<'s, R: ReadAt>(
    rt: &impl Abort,
    label: &str,
    alloc: Global,
    source: &mut ReadingSource<'s, R, AnyFile>,
    slices: &[SourceSlice],
    error: Error,
) {
    is(rt, label, &source.view(alloc, slices).err(), &Some(error));
}

#[test]
fn many_far_runs_are_read_once(rt: HostRuntime) -> Result<(), Fail> {
    let alloc = rt.alloc();
    let bytes = file(alloc, 5_000_000)?;
    let input = Counted::of(&bytes);
    let arena = Bump::new(alloc);
    let mut source = ReadingSource::new(alloc, &arena, &input, &AnyFile, 5_000_000);
    let slices = far_slices(alloc, 25)?;
    gives(&rt, "far", alloc, &mut source, &slices);
    // A run of 65,536 bytes for each slice, by one read.
    is(&rt, "reads", &input.reads(), &25);
    is(&rt, "bytes", &input.given(), &(25 * 65_536));
    // What is held isn't read again.
    gives(&rt, "again", alloc, &mut source, &slices);
    gives(
        &rt,
        "beside",
        alloc,
        &mut source,
        &[slice(FAR + 60_000, 5_000)],
    );
    is(&rt, "reads again", &input.reads(), &25);
    is(&rt, "failures", &source.failures(), &0);
    Ok(())
}

/// These views of a file of so many bytes read so many bytes in all: each has where it begins, its size, and how many
/// bytes were read in all once it was made.
fn read_in_all(
    rt: &impl Abort,
    alloc: Global,
    size: usize,
    views: &[(u64, usize, u64)],
) -> Result<(), Fail> {
    let bytes = file(alloc, size)?;
    let input = Counted::of(&bytes);
    let arena = Bump::new(alloc);
    let mut source = ReadingSource::new(alloc, &arena, &input, &AnyFile, size as u64);
    for (offset, size, given) in views {
        gives(rt, "view", alloc, &mut source, &[slice(*offset, *size)]);
        is(rt, "bytes", &input.given(), given);
    }
    is(rt, "reads", &input.reads(), &(views.len() as u32));
    Ok(())
}

#[test]
fn short_gaps_are_read_once_a_quarter_is_held(rt: HostRuntime) -> Result<(), Fail> {
    let alloc = rt.alloc();
    let views = [
        (0, 3, 65_536),
        // A short gap in front stays, since less than a quarter is held.
        (100_000, 3, 131_072),
        (300_000, 200_000, 331_072),
        // A gap of 50,000 bytes is not short.
        (550_000, 3, 396_608),
        // From 165,536 to 300,000: a gap in front and one behind.
        (200_000, 3, 531_072),
        // From 65,536 to 100,000, all of the gap.
        (65_536, 10, 565_536),
    ];
    read_in_all(&rt, alloc, 1_000_000, &views)
}

#[test]
fn parts_in_falling_order_are_read_together(rt: HostRuntime) -> Result<(), Fail> {
    let alloc = rt.alloc();
    let views = [
        (500_000, 3, 65_536),
        // From 446,848 to 500,000.
        (496_000, 3, 118_688),
        // 50,000 bytes each: 848 in front of what is held, and 49,152 more.
        (446_000, 3, 168_688),
        (396_000, 3, 218_688),
        (346_000, 3, 268_688),
        // The same once a quarter is held.
        (296_000, 3, 318_688),
    ];
    read_in_all(&rt, alloc, 1_000_000, &views)
}

#[test]
fn long_gaps_are_read_once_five_eighths_are_held(rt: HostRuntime) -> Result<(), Fail> {
    let alloc = rt.alloc();
    let views = [
        (0, 570_000, 570_000),
        // A gap of 50,000 bytes is not short.
        (620_000, 60_000, 635_536),
        // A gap of 144,464 bytes in front, and all behind.
        (830_000, 3, 950_000),
    ];
    read_in_all(&rt, alloc, 1_000_000, &views)
}

#[test]
fn little_is_read_of_the_last_bytes(rt: HostRuntime) -> Result<(), Fail> {
    let alloc = rt.alloc();
    let views = [
        (0, 940_000, 940_000),
        // A gap of 13,000 bytes in front is left.
        (953_000, 3, 987_000),
        // Only what is asked for.
        (945_000, 3, 987_003),
        (940_000, 9, 987_012),
        (940_000, 5_000, 992_003),
    ];
    read_in_all(&rt, alloc, 1_000_000, &views)?;
    // A gap of 12,000 bytes is read.
    let views = [(0, 940_000, 940_000), (952_000, 3, 1_000_000)];
    read_in_all(&rt, alloc, 1_000_000, &views)
}

#[test]
fn a_slice_in_one_run_is_lent(rt: HostRuntime) -> Result<(), Fail> {
    let alloc = rt.alloc();
    let bytes = file(alloc, 300_000)?;
    let input = Counted::of(&bytes);
    let arena = Bump::new(alloc);
    let mut source = ReadingSource::new(alloc, &arena, &input, &AnyFile, 300_000);
    let lent = source.view(alloc, &[slice(100, 4)]);
    assert!(rt; matches!(lent, Ok(View::Borrowed(b"defg"))));
    // A slice of two runs is joined, and so are two slices.
    gives(&rt, "two runs", alloc, &mut source, &[slice(65_000, 3_000)]);
    let joined = source.view(alloc, &[slice(100, 2), slice(1, 1)]);
    assert!(rt; matches!(joined, Ok(View::Owned(_))));
    gives(
        &rt,
        "joined",
        alloc,
        &mut source,
        &[slice(100, 2), slice(1, 1)],
    );
    is(&rt, "reads", &input.reads(), &2);
    // The bytes stay while others are read.
    gives(&rt, "others", alloc, &mut source, &[slice(250_000, 9)]);
    assert!(rt; matches!(lent, Ok(View::Borrowed(b"defg"))));
    Ok(())
}

#[test]
fn a_view_of_101_slices_is_joined(rt: HostRuntime) -> Result<(), Fail> {
    let alloc = rt.alloc();
    let bytes = file(alloc, 300_000)?;
    let mut slices = Vec::new(alloc);
    for k in 0..101u64 {
        slices.push(slice(1000 * k, 2))?;
    }
    let input = Counted::of(&bytes);
    let arena = Bump::new(alloc);
    let mut source = ReadingSource::new(alloc, &arena, &input, &AnyFile, 300_000);
    gives(&rt, "joined", alloc, &mut source, &slices);
    // From 0 to the end of the last one.
    is(&rt, "reads", &input.reads(), &1);
    is(&rt, "bytes", &input.given(), &100_002);
    Ok(())
}

#[test]
fn an_empty_slice_is_not_read(rt: HostRuntime) -> Result<(), Fail> {
    let alloc = rt.alloc();
    let bytes = file(alloc, 100)?;
    let input = Counted::of(&bytes);
    let arena = Bump::new(alloc);
    let mut source = ReadingSource::new(alloc, &arena, &input, &AnyFile, 100);
    for offset in [0, 50, 100] {
        gives(&rt, "one", alloc, &mut source, &[slice(offset, 0)]);
        gives(
            &rt,
            "two",
            alloc,
            &mut source,
            &[slice(offset, 0), slice(100, 0)],
        );
    }
    is(&rt, "reads", &input.reads(), &0);
    fails(
        &rt,
        "past the end",
        alloc,
        &mut source,
        &[slice(101, 0)],
        Error::UnexpectedEof,
    );
    let past = [slice(0, 1), slice(99, 2)];
    fails(
        &rt,
        "one past the end",
        alloc,
        &mut source,
        &past,
        Error::UnexpectedEof,
    );
    is(&rt, "no reads", &input.reads(), &0);
    gives(
        &rt,
        "mixed",
        alloc,
        &mut source,
        &[slice(100, 0), slice(7, 1)],
    );
    is(&rt, "one read", &input.reads(), &1);
    Ok(())
}

#[test]
fn a_short_slice_does_not_cut_a_longer_one(rt: HostRuntime) -> Result<(), Fail> {
    let alloc = rt.alloc();
    let bytes = file(alloc, 400_000)?;
    let slices = [slice(100, 150_000), slice(200, 4), slice(100, 1)];
    let input = Counted::of(&bytes);
    let arena = Bump::new(alloc);
    let mut source = ReadingSource::new(alloc, &arena, &input, &AnyFile, 400_000);
    gives(&rt, "all", alloc, &mut source, &slices);
    is(&rt, "bytes", &input.given(), &150_100);
    Ok(())
}

#[test]
fn a_read_that_fails_is_an_error(rt: HostRuntime) -> Result<(), Fail> {
    let alloc = rt.alloc();
    let bytes = file(alloc, 1_000_000)?;
    let slices = far_slices(alloc, 5)?;
    for read in 0..5u32 {
        let input = Counted::failing(&bytes, read);
        let arena = Bump::new(alloc);
        let mut source = ReadingSource::new(alloc, &arena, &input, &AnyFile, 1_000_000);
        assert!(rt; !source.steady());
        fails(&rt, "failed", alloc, &mut source, &slices, Error::IoError);
        is(&rt, "failures", &source.failures(), &1);
        is(&rt, "reads", &input.reads(), &(read + 1));
        // What was read before is held, and the same call reads the rest.
        gives(&rt, "again", alloc, &mut source, &slices);
        is(&rt, "failures again", &source.failures(), &1);
        is(&rt, "reads again", &input.reads(), &6);
    }
    Ok(())
}

#[test]
fn a_file_that_ends_early_is_an_error(rt: HostRuntime) -> Result<(), Fail> {
    let alloc = rt.alloc();
    let bytes = file(alloc, 500_000)?;
    let slices = far_slices(alloc, 4)?;
    let input = Counted::of(&bytes);
    let arena = Bump::new(alloc);
    let mut source = ReadingSource::new(alloc, &arena, &input, &AnyFile, 1_000_000);
    for call in 1..4u64 {
        fails(&rt, "cut", alloc, &mut source, &slices, Error::IoError);
        is(&rt, "failures", &source.failures(), &call);
    }
    gives(&rt, "the others", alloc, &mut source, &slices[1..]);
    Ok(())
}

#[test]
fn bytes_in_memory_never_fail(rt: HostRuntime) -> Result<(), Fail> {
    let alloc = rt.alloc();
    let bytes = file(alloc, 1_000)?;
    let arena = Bump::new(alloc);
    let mut source = ReadingSource::new(alloc, &arena, &bytes, &AnyFile, 1_000);
    assert!(rt; source.steady());
    gives(&rt, "all", alloc, &mut source, &[slice(0, 1_000)]);
    // Of another size, they may.
    let source = ReadingSource::new(alloc, &arena, &bytes, &AnyFile, 1_001);
    assert!(rt; !source.steady());
    Ok(())
}
