//! Look-ups in the index by hand.

use super::is;
use crate::tests::sample::{changed, sample};
use crate::*;
use std::alloc::{AllocError, Global};
use std::test::Fail;

/// A frame of `main`, if it is named, and of `a.c`, if it has a line.
fn frame(is_main: bool, line: u32) -> Frame<'static> {
    let name: &[u8] = b"main";
    let file: &[u8] = b"a.c";
    Frame {
        name: is_main.then_some(name),
        start: is_main.then_some(0x100),
        file: (line != 0).then_some(file),
        line,
        column: 0,
    }
}

/// The frames of an address, with the error behind them, and whether its module is damaged.
fn frames(
    alloc: Global,
    bytes: &[u8],
    address: u32,
) -> Result<(Vec<Result<Frame<'_>, Damaged>>, bool), Fail> {
    let frames = Index::open(bytes)?.frames(address)?;
    let is_damaged = frames.is_damaged();
    let mut all = Vec::new(alloc);
    for frame in frames {
        all.push(frame)?;
    }
    Ok((all, is_damaged))
}

#[test]
fn header_by_hand(rt: HostRuntime) -> Result<(), Fail> {
    let bytes = sample(rt.alloc())?;
    let wanted = Header {
        key: Some(Key {
            guid: [
                0x00, 0x11, 0x22, 0x33, 0x44, 0x55, 0x66, 0x77, 0x88, 0x99, 0xaa, 0xbb, 0xcc, 0xdd,
                0xee, 0xff,
            ],
            age: 2,
        }),
        has_address_map: false,
        machine: 0x8664,
        segments: 3,
        sections: 1,
        runs: 8,
        nodes: 7,
        functions: 2,
        files: 2,
        name_bytes: 7,
        deepest: 2,
        pdb_size: 5632,
    };
    is(&rt, "header", &Index::open(&bytes)?.header(), &wanted);
    let bytes = changed(rt.alloc(), 12, &[2])?;
    let header = Index::open(&bytes)?.header();
    is(&rt, "no key", &header.key, &None);
    is(&rt, "address map", &header.has_address_map, &true);
    let bytes = changed(rt.alloc(), 76, &[1])?;
    let size = Index::open(&bytes)?.header().pdb_size;
    is(&rt, "size", &size, &0x1_0000_1600);
    Ok(())
}

#[test]
fn places_of_addresses(rt: HostRuntime) -> Result<(), Fail> {
    let bytes = sample(rt.alloc())?;
    let index = Index::open(&bytes)?;
    for (address, wanted) in [
        (0, None),
        (0xff0, None),
        (0xfff, None),
        (
            0x1000,
            Some(Place {
                section: 1,
                offset: 0,
            }),
        ),
        (
            0x110e,
            Some(Place {
                section: 1,
                offset: 0x10e,
            }),
        ),
        (
            0x1fff,
            Some(Place {
                section: 1,
                offset: 0xfff,
            }),
        ),
        (0x2000, None),
        (0xffff_ffff, None),
    ] {
        is(&rt, "place", &index.place(address), &Ok(wanted));
    }
    Ok(())
}

#[test]
fn runs_of_places(rt: HostRuntime) -> Result<(), Fail> {
    let bytes = sample(rt.alloc())?;
    let index = Index::open(&bytes)?;
    for (section, offset, wanted) in [
        (0, 0x10e, None),
        (1, 0, Some((0, 0))),
        (1, 0xff, Some((0, 0))),
        (1, 0x100, Some((1, 1))),
        (1, 0x10d, Some((3, 2))),
        (1, 0x10e, Some((4, 4))),
        (1, 0x110, Some((5, 6))),
        (1, 0x12f, Some((6, 5))),
        (1, 0x130, Some((7, 0))),
        (1, 0xffff_ffff, Some((7, 0))),
        (2, 0, None),
        (65535, 0, None),
    ] {
        let run = index.run_at(Place { section, offset })?;
        let wanted = wanted.map(|(number, node)| Run {
            number,
            node,
            is_damaged: false,
        });
        is(&rt, "run", &run, &wanted);
    }
    Ok(())
}

#[test]
fn runs_of_addresses(rt: HostRuntime) -> Result<(), Fail> {
    let bytes = sample(rt.alloc())?;
    let index = Index::open(&bytes)?;
    for (address, number) in [
        (0xff0, None),
        (0x110e, Some(4)),
        (0x1110, Some(5)),
        (0x1fff, Some(7)),
    ] {
        let run = index.run(address)?;
        is(&rt, "number", &run.map(|run| run.number), &number);
        let counted = index.run_counted(address, &mut Steps::new())?;
        is(&rt, "counted", &counted, &run);
    }
    Ok(())
}

#[test]
fn frames_of_addresses(rt: HostRuntime) -> Result<(), Fail> {
    let bytes = sample(rt.alloc())?;
    for (address, inner, outer) in [
        (0x110e, frame(false, 12), Some(frame(true, 2))),
        (0x1110, frame(false, 12), Some(frame(true, 0))),
        (0x1100, frame(true, 1), None),
        (0x1130, frame(false, 0), None),
        (0xff0, frame(false, 0), None),
    ] {
        let (frames, is_damaged) = frames(rt.alloc(), &bytes, address)?;
        is(&rt, "damaged", &is_damaged, &false);
        is(&rt, "first", &frames.first().copied(), &Some(Ok(inner)));
        is(&rt, "second", &frames.get(1).copied(), &outer.map(Ok));
        is(
            &rt,
            "count",
            &frames.len(),
            &(1 + usize::from(outer.is_some())),
        );
    }
    Ok(())
}

#[test]
fn place_without_runs(rt: HostRuntime) -> Result<(), Fail> {
    let bytes = sample(rt.alloc())?;
    let index = Index::open(&bytes)?;
    let run = index.run_at(Place {
        section: 2,
        offset: 0,
    })?;
    let mut frames = index.frames_of(run);
    is(&rt, "nothing", &frames.next(), &Some(Ok(frame(false, 0))));
    is(&rt, "end", &frames.next(), &None);
    is(&rt, "end", &frames.next(), &None);
    Ok(())
}

#[test]
fn damage_of_a_module(rt: HostRuntime) -> Result<(), Fail> {
    let bytes = changed(rt.alloc(), 0xb8, &[0x0d])?;
    let (frames, is_damaged) = frames(rt.alloc(), &bytes, 0x110e)?;
    is(&rt, "damaged", &is_damaged, &true);
    is(
        &rt,
        "first",
        &frames.first().copied(),
        &Some(Ok(frame(false, 12))),
    );
    is(
        &rt,
        "second",
        &frames.get(1).copied(),
        &Some(Ok(frame(true, 0))),
    );
    is(&rt, "count", &frames.len(), &2);
    Ok(())
}

#[test]
fn other_nodes_outside(rt: HostRuntime) -> Result<(), Fail> {
    let bytes = changed(rt.alloc(), 0xcc, &[3])?;
    let (found, _) = frames(rt.alloc(), &bytes, 0x110e)?;
    is(
        &rt,
        "second",
        &found.get(1).copied(),
        &Some(Ok(frame(true, 1))),
    );
    let bytes = changed(rt.alloc(), 0xcc, &[5])?;
    let (found, _) = frames(rt.alloc(), &bytes, 0x110e)?;
    is(&rt, "outside", &found.first().copied(), &Some(Err(Damaged)));
    is(&rt, "count", &found.len(), &1);
    let bytes = changed(rt.alloc(), 0x44, &[1])?;
    let (found, _) = frames(rt.alloc(), &bytes, 0x110e)?;
    is(
        &rt,
        "first",
        &found.first().copied(),
        &Some(Ok(frame(false, 12))),
    );
    is(&rt, "deepest", &found.get(1).copied(), &Some(Err(Damaged)));
    is(&rt, "count", &found.len(), &2);
    let (found, _) = frames(rt.alloc(), &bytes, 0x1100)?;
    is(
        &rt,
        "one",
        &found.first().copied(),
        &Some(Ok(frame(true, 1))),
    );
    is(&rt, "count", &found.len(), &1);
    Ok(())
}
