//! Which bytes of the file each accessor asks for.

use super::keys::broken_behind_the_front;
use super::{file, is};
use crate::tests::sample::{SAMPLE, dbi_with, file_of};
use crate::*;
use std::alloc::Global;
use std::cell::Cell;
use std::process::Abort;

/// What a source was asked for: how many views and bytes, and the pages of 512 bytes of which any view had a byte, a
/// bit for each.
#[derive(Drop)]
struct Asked {
    views: Cell<u32>,
    bytes: Cell<usize>,
    pages: Cell<u32>,
}

impl Asked {
    fn new() -> Self {
        Asked {
            views: Cell::new(0),
            bytes: Cell::new(0),
            pages: Cell::new(0),
        }
    }

    fn note(&self, slices: &[SourceSlice]) {
        self.views.set(self.views.get().saturating_add(1));
        for slice in slices {
            self.bytes.set(self.bytes.get().saturating_add(slice.size));
            self.pages.set(self.pages.get() | pages_of(*slice));
        }
    }

    /// The views and the pages since the last call.
    fn take(&self) -> (u32, u32) {
        let taken = (self.views.get(), self.pages.get());
        self.views.set(0);
        self.bytes.set(0);
        self.pages.set(0);
        taken
    }
}

/// The bit of each page of the sample.
const BITS: [u32; 12] = [1, 2, 4, 8, 16, 32, 64, 128, 256, 512, 1024, 2048];

/// The pages of which a slice has a byte.
fn pages_of(slice: SourceSlice) -> u32 {
    let end = slice.offset.saturating_add(slice.size as u64);
    let mut pages = 0;
    for (page, bit) in BITS.iter().enumerate() {
        let start = 512 * page as u64;
        if slice.offset < start + 512 && start < end {
            pages |= *bit;
        }
    }
    pages
}

/// The pages of the sample's streams.
const INFORMATION: u32 = 16;

const DBI: u32 = 64;

const SYMBOLS: u32 = 256;

const STRINGS: u32 = 1024;

const SECTIONS: u32 = 2048;

/// A file in memory that notes what it is asked for.
#[derive(Drop)]
struct Watched<'s> {
    source: MemorySource<'s>,
    asked: &'s Asked,
}

impl<'s> Meaning for Watched<'s> {
    ghost use Rattle.std.specs.Prelude.{true};

    ghost state = { λ s. record { file = s.source; failures = 0; steady = true } };
}

impl<'s> Source<'s> for Watched<'s> {
    fn view(&mut self, alloc: Global, slices: &[SourceSlice]) -> Result<View<'s>> {
        self.asked.note(slices);
        self.source.view(alloc, slices)
    }

    fn failures(&self) -> u64 {
        0
    }

    fn steady(&self) -> bool {
        true
    }
}

fn opened<'s>(alloc: Global, bytes: &'s [u8], asked: &'s Asked) -> Result<PDB<'s, Watched<'s>>> {
    let source = MemorySource::new(bytes);
    PDB::open(alloc, Watched { source, asked })
}

/// The call wasn't refused, and asked for these views and pages.
fn reads(rt: &impl Abort, asked: &Asked, refused: Option<Error>, wanted: (u32, u32)) {
    is(rt, "refused", &refused, &None);
    is(rt, "views and pages", &asked.take(), &wanted);
}

#[test]
fn each_accessor_reads_its_streams_alone(rt: HostRuntime) -> Result<()> {
    let bytes = file_of(rt.alloc(), &SAMPLE)?;
    let asked = Asked::new();
    let mut pdb = opened(rt.alloc(), &bytes, &asked)?;
    reads(&rt, &asked, None, (4, 7));
    reads(&rt, &asked, pdb.pdb_information().err(), (1, INFORMATION));
    reads(&rt, &asked, pdb.debug_information().err(), (1, DBI));
    let (names, symbols) = (INFORMATION | STRINGS, StreamIndex(5));
    reads(&rt, &asked, pdb.string_table().err(), (2, names));
    reads(&rt, &asked, pdb.raw_stream(symbols).err(), (1, SYMBOLS));
    reads(&rt, &asked, pdb.pdb_information().err(), (1, INFORMATION));
    Ok(())
}

#[test]
fn a_key_reads_the_front_of_the_dbi_stream(rt: HostRuntime) -> Result<()> {
    let alloc = rt.alloc();
    let bytes = broken_behind_the_front(alloc)?;
    let asked = Asked::new();
    let mut pdb = opened(alloc, &bytes, &asked)?;
    asked.take();
    // The start of the information stream, and the first of the three pages of the DBI stream.
    let (information, front) = (1024, 64 | 128);
    reads(
        &rt,
        &asked,
        key_in(alloc, &mut pdb).err(),
        (2, information | front),
    );
    reads(&rt, &asked, key_in(alloc, &mut pdb).err(), (1, information));
    Ok(())
}

#[test]
fn no_bytes_ask_for_no_view(rt: HostRuntime) -> Result<()> {
    let bytes = file_of(rt.alloc(), &SAMPLE)?;
    let asked = Asked::new();
    let mut pdb = opened(rt.alloc(), &bytes, &asked)?;
    reads(&rt, &asked, None, (4, 7));
    reads(&rt, &asked, pdb.raw_stream(StreamIndex(0)).err(), (0, 0));
    reads(
        &rt,
        &asked,
        pdb.raw_stream(StreamIndex::none()).err(),
        (0, 0),
    );
    let refused = pdb.type_information().err();
    is(&rt, "absent", &refused, &Some(Error::StreamNotFound(2)));
    reads(&rt, &asked, None, (0, 0));
    Ok(())
}

#[test]
fn what_is_kept_is_not_read_again(rt: HostRuntime) -> Result<()> {
    let bytes = file_of(rt.alloc(), &SAMPLE)?;
    let asked = Asked::new();
    let mut pdb = opened(rt.alloc(), &bytes, &asked)?;
    reads(&rt, &asked, None, (4, 7));
    reads(&rt, &asked, pdb.global_symbols().err(), (2, DBI | SYMBOLS));
    reads(&rt, &asked, pdb.global_symbols().err(), (1, SYMBOLS));
    reads(&rt, &asked, pdb.sections().err(), (2, DBI | SECTIONS));
    reads(&rt, &asked, pdb.sections().err(), (1, SECTIONS));
    reads(&rt, &asked, pdb.address_map().err(), (1, SECTIONS));
    reads(&rt, &asked, pdb.frame_table().err(), (0, 0));
    Ok(())
}

#[test]
fn the_header_of_the_whole_is_kept(rt: HostRuntime) -> Result<()> {
    let bytes = file_of(rt.alloc(), &SAMPLE)?;
    let asked = Asked::new();
    let mut pdb = opened(rt.alloc(), &bytes, &asked)?;
    reads(&rt, &asked, None, (4, 7));
    reads(&rt, &asked, pdb.debug_information().err(), (1, DBI));
    reads(&rt, &asked, pdb.global_symbols().err(), (1, SYMBOLS));
    Ok(())
}

#[test]
fn the_dbi_stream_is_read_once(rt: HostRuntime) -> Result<()> {
    let bytes = file_of(rt.alloc(), &SAMPLE)?;
    let asked = Asked::new();
    let mut pdb = opened(rt.alloc(), &bytes, &asked)?;
    reads(&rt, &asked, None, (4, 7));
    let (first, second) = (pdb.debug_information()?, pdb.debug_information()?);
    reads(&rt, &asked, None, (1, DBI));
    is(&rt, "again", &second.header().age, &first.header().age);
    reads(&rt, &asked, pdb.sections().err(), (1, SECTIONS));
    Ok(())
}

#[test]
fn symbols_need_the_front_alone(rt: HostRuntime) -> Result<()> {
    let bytes = file(rt.alloc(), 1, 5)?;
    let asked = Asked::new();
    let mut pdb = opened(rt.alloc(), &bytes, &asked)?;
    let _open = asked.take();
    is(&rt, "refused", &pdb.global_symbols().err(), &None);
    is(&rt, "the front and 12 bytes", &asked.bytes.get(), &1036);
    Ok(())
}

/// The pages of the streams of types, of ids and of a module.
const TYPES: u32 = 32;

const IDS: u32 = 128;

const MODULE: u32 = 512;

#[test]
fn the_other_accessors_read_their_streams_alone(rt: HostRuntime) -> Result<()> {
    let mut streams = SAMPLE;
    let dbi = dbi_with(
        rt.alloc(),
        b"\x02\0\xff\xff\xff\xff\xff\xff\xff\xff\x08\0\xff\xff\xff\xff\xff\xff\x04\0",
    )?;
    streams[2] = Some(b"types");
    streams[3] = Some(&dbi);
    streams[4] = Some(b"ids");
    let bytes = file_of(rt.alloc(), &streams)?;
    let asked = Asked::new();
    let mut pdb = opened(rt.alloc(), &bytes, &asked)?;
    reads(&rt, &asked, None, (4, 7));
    reads(&rt, &asked, pdb.type_information().err(), (1, TYPES));
    reads(&rt, &asked, pdb.id_information().err(), (1, IDS));
    reads(
        &rt,
        &asked,
        StreamIndex(5).get(&mut pdb).err(),
        (1, SYMBOLS),
    );
    reads(&rt, &asked, pdb.module_at(0).err(), (2, DBI | MODULE));
    let frames = pdb.frame_table()?;
    is(&rt, "older", &frames.old_stream().is_some(), &true);
    is(&rt, "newer", &frames.new_stream().is_some(), &true);
    reads(&rt, &asked, None, (2, TYPES | IDS));
    reads(&rt, &asked, pdb.address_map().err(), (1, SECTIONS));
    Ok(())
}

#[test]
fn the_header_is_kept_behind_sections(rt: HostRuntime) -> Result<()> {
    let bytes = file_of(rt.alloc(), &SAMPLE)?;
    let asked = Asked::new();
    let mut pdb = opened(rt.alloc(), &bytes, &asked)?;
    reads(&rt, &asked, None, (4, 7));
    reads(&rt, &asked, pdb.sections().err(), (2, DBI | SECTIONS));
    reads(&rt, &asked, pdb.global_symbols().err(), (1, SYMBOLS));
    Ok(())
}
