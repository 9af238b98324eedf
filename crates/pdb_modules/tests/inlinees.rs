//! Inlined functions, found by their ids.

use crate::tests::streams::lines_info;
use crate::{Inlinee, InlineeFinder, ModuleInfo};
use pdb_base::{Error, FallibleIterator, Feature, IdIndex, Result, Stream};
use std::fmt::Debug;
use std::process::Abort;

fn is<T: PartialEq + Debug>(rt: &impl Abort, label: &str, given: &T, wanted: &T) {
    assert!(rt; given == wanted, "{label}: {given:?}, and not {wanted:?}");
}

/// A function's file and line.
fn told(found: Option<&Inlinee<'_>>) -> Option<(u32, u32)> {
    match found {
        Some(inlinee) => Some((inlinee.file_index().0, inlinee.line())),
        None => None,
    }
}

/// Five functions of the ids 1003, 1001, 1001, 1005 and 1002, each with a file and a line of its own.
const FIVE: &[u8] = b"\xf6\0\0\0\x40\0\0\0\0\0\0\0\
    \x03\x10\0\0\x18\0\0\0\x1e\0\0\0\x01\x10\0\0\x08\0\0\0\x0a\0\0\0\x01\x10\0\0\x10\0\0\0\x14\0\0\0\
    \x05\x10\0\0\x28\0\0\0\x32\0\0\0\x02\x10\0\0\x20\0\0\0\x28\0\0\0";

#[test]
fn functions_are_found_by_their_ids(rt: HostRuntime) -> Result<()> {
    let info = lines_info(&rt, FIVE)?;
    let finder = InlineeFinder::new(info.inlinees()?.collect(rt.alloc())?)?;
    for (id, wanted) in [
        (0x1000, None),
        (0x1001, Some((8, 10))),
        (0x1002, Some((32, 40))),
        (0x1003, Some((24, 30))),
        (0x1004, None),
        (0x1005, Some((40, 50))),
        (0x1006, None),
        (u32::MAX, None),
    ] {
        is(&rt, "an id", &told(finder.find(IdIndex(id))), &wanted);
    }
    Ok(())
}

#[test]
fn no_function_is_found_where_none_is_listed(rt: HostRuntime) -> Result<()> {
    let finder = InlineeFinder::new(Vec::new(rt.alloc()))?;
    is(&rt, "none", &told(finder.find(IdIndex(0))), &None);
    Ok(())
}

/// A module whose stream is that of the five functions, with these sizes of its parts.
fn sized<'s>(rt: &impl Abort, sizes: (u32, u32, u32)) -> ModuleInfo<'s> {
    let stream = Stream::new(FIVE).expect(rt, "a short stream");
    ModuleInfo::with_sizes(stream, sizes.0, sizes.1, sizes.2)
}

#[test]
fn a_module_is_had_by_the_sizes_of_its_parts(rt: HostRuntime) -> Result<()> {
    let end = Some(Error::UnexpectedEof);
    let older = Some(Error::UnimplementedFeature(Feature::C11LinePrograms));
    is(
        &rt,
        "all",
        &sized(&rt, (0, 0, 72)).inlinees()?.count(),
        &Ok(5),
    );
    is(
        &rt,
        "symbols",
        &sized(&rt, (73, 0, 0)).symbols().err(),
        &end,
    );
    is(&rt, "lines", &sized(&rt, (0, 0, 73)).inlinees().err(), &end);
    let info = sized(&rt, (0, 72, 0));
    is(
        &rt,
        "older lines",
        &info.line_program(rt.alloc()).err(),
        &older,
    );
    Ok(())
}
