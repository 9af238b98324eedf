//! Which bytes of the file are asked for.

use super::container::{file, put};
use super::is;
use crate::*;
use std::alloc::Global;
use std::cell::Cell;

/// What a source was asked for: how many views, how many slices and bytes the last one had, and the pages of 256
/// bytes of which any view had a byte, a bit for each.
#[derive(Drop)]
struct Asked {
    views: Cell<u32>,
    slices: Cell<usize>,
    bytes: Cell<usize>,
    pages: Cell<u32>,
}

impl Asked {
    fn new() -> Self {
        Asked {
            views: Cell::new(0),
            slices: Cell::new(0),
            bytes: Cell::new(0),
            pages: Cell::new(0),
        }
    }

    fn note(&self, slices: &[SourceSlice]) {
        self.views.set(self.views.get().saturating_add(1));
        self.slices.set(slices.len());
        let mut bytes = 0usize;
        let mut pages = self.pages.get();
        for slice in slices {
            bytes = bytes.saturating_add(slice.size);
            pages |= pages_of(*slice);
        }
        self.bytes.set(bytes);
        self.pages.set(pages);
    }
}

/// The pages of which a slice has a byte.
fn pages_of(slice: SourceSlice) -> u32 {
    let end = slice.offset.saturating_add(slice.size as u64);
    let mut pages = 0;
    for (page, bit) in [1u32, 2, 4, 8, 16, 32].iter().enumerate() {
        let start = 256 * page as u64;
        if slice.offset < start + 256 && start < end {
            pages |= *bit;
        }
    }
    pages
}

/// A file in memory that notes what it is asked for.
#[derive(Drop)]
struct Watched<'s> {
    source: MemorySource<'s>,
    asked: &'s Asked,
}

impl<'s> Meaning for Watched<'s> {
    ghost use Rattle.std.specs.Prelude.{true};

    ghost state = { λ s. record { file = s.source; failures = 0; steady = true } };
}

impl<'s> Source<'s> for Watched<'s> {
    fn view(&mut self, alloc: Global, slices: &[SourceSlice]) -> Result<View<'s>> {
        self.asked.note(slices);
        self.source.view(alloc, slices)
    }

    fn failures(&self) -> u64 {
        0
    }

    fn steady(&self) -> bool {
        true
    }
}

fn opened<'s>(alloc: Global, bytes: &'s [u8], asked: &'s Asked) -> Result<Msf<'s, Watched<'s>>> {
    let source = MemorySource::new(bytes);
    Msf::open(alloc, Watched { source, asked })
}

#[test]
fn opening_reads_no_stream(rt: HostRuntime) -> Result<()> {
    let bytes = file(rt.alloc(), 256)?;
    let asked = Asked::new();
    let _msf = opened(rt.alloc(), &bytes, &asked)?;
    is(&rt, "views", &asked.views.get(), &4);
    is(&rt, "pages 0, 1 and 4", &asked.pages.get(), &0b010011);
    Ok(())
}

#[test]
fn a_limited_get_reads_what_the_limit_needs(rt: HostRuntime) -> Result<()> {
    let bytes = file(rt.alloc(), 256)?;
    let asked = Asked::new();
    let mut msf = opened(rt.alloc(), &bytes, &asked)?;
    for (limit, size, pages) in [
        (Some(1), 1, 0b000100),
        (Some(256), 256, 0b000100),
        (Some(257), 257, 0b001100),
        (Some(301), 300, 0b001100),
        (None, 300, 0b001100),
    ] {
        let before = asked.views.get();
        asked.pages.set(0);
        let _stream = msf.get(0, limit)?;
        is(&rt, "views", &asked.views.get().wrapping_sub(before), &1);
        is(&rt, "bytes", &asked.bytes.get(), &size);
        is(&rt, "pages", &asked.pages.get(), &pages);
    }
    Ok(())
}

#[test]
fn no_bytes_ask_for_no_view(rt: HostRuntime) -> Result<()> {
    let bytes = file(rt.alloc(), 256)?;
    let asked = Asked::new();
    let mut msf = opened(rt.alloc(), &bytes, &asked)?;
    for (number, limit) in [(3, None), (3, Some(9)), (0, Some(0))] {
        let stream = msf.get(number, limit)?;
        is(&rt, "bytes", &stream.as_slice().len(), &0);
        is(&rt, "views", &asked.views.get(), &4);
    }
    is(
        &rt,
        "absent",
        &msf.get(1, None).err(),
        &Some(Error::StreamNotFound(1)),
    );
    is(&rt, "views", &asked.views.get(), &4);
    Ok(())
}

#[test]
fn a_run_of_pages_is_one_slice(rt: HostRuntime) -> Result<()> {
    for (first, second, slices) in [(2, 3, 1), (3, 2, 2), (2, 2, 2), (2, 5, 2), (4, 5, 1)] {
        let mut bytes = file(rt.alloc(), 256)?;
        put(&mut bytes, 1024 + 20, first);
        put(&mut bytes, 1024 + 24, second);
        let asked = Asked::new();
        let mut msf = opened(rt.alloc(), &bytes, &asked)?;
        let stream = msf.get(0, None)?;
        is(&rt, "slices", &asked.slices.get(), &slices);
        is(&rt, "bytes", &asked.bytes.get(), &300);
        is(&rt, "views", &asked.views.get(), &5);
        let last = stream.as_slice().last().copied();
        is(&rt, "the last byte", &last, &Some(second as u8));
    }
    Ok(())
}

#[test]
fn sizes_of_slices_add_up(rt: HostRuntime) {
    let [one, none, two, most] = [1, 0, 2, usize::MAX].map(|size| SourceSlice { offset: 9, size });
    assert!(rt; bytes_in(&[]) == 0);
    assert!(rt; bytes_in(&[two, none, one]) == 3);
    assert!(rt; bytes_in(&[two, most, one]) == usize::MAX);
}

#[test]
fn memory_lends_one_slice(rt: HostRuntime) -> Result<()> {
    let mut source = MemorySource::new(b"abcdef");
    let (front, end) = (
        SourceSlice { offset: 2, size: 3 },
        SourceSlice { offset: 6, size: 0 },
    );
    let view = source.view(rt.alloc(), &[front])?;
    is(&rt, "one", &view.as_slice(), &b"cde".as_slice());
    assert!(rt; matches!(view, View::Borrowed(_)));
    let view = source.view(rt.alloc(), &[end])?;
    is(&rt, "none", &view.as_slice(), &b"".as_slice());
    assert!(rt; matches!(view, View::Borrowed(_)));
    let view = source.view(rt.alloc(), &[front, front])?;
    is(&rt, "two", &view.as_slice(), &b"cdecde".as_slice());
    assert!(rt; matches!(view, View::Owned(_)));
    let past = SourceSlice { offset: 4, size: 3 };
    let refused = source.view(rt.alloc(), &[past]).err();
    is(&rt, "past", &refused, &Some(Error::UnexpectedEof));
    Ok(())
}
