//! The frames of places in whole files.

use crate::tests::files::{file_of_streams, is};
use crate::tests::modules::SAMPLE;
use crate::{Resolver, Streams};
use pdb::{Error, MemorySource, PDB, PdbInternalSectionOffset, Result};
use std::alloc::Global;
use std::process::Abort;

/// Information: stream 7 has the name `/names`.
pub static INFORMATION: [u8; 67] = [
    0x94, 0x2e, 0x31, 0x01, 0x01, 0x00, 0x00, 0x00, 0x02, 0x00, 0x00, 0x00, 0x33, 0x22, 0x11, 0x00,
    0x55, 0x44, 0x77, 0x66, 0x88, 0x99, 0xaa, 0xbb, 0xcc, 0xdd, 0xee, 0xff, 0x07, 0x00, 0x00, 0x00,
    0x2f, 0x6e, 0x61, 0x6d, 0x65, 0x73, 0x00, 0x01, 0x00, 0x00, 0x00, 0x01, 0x00, 0x00, 0x00, 0x01,
    0x00, 0x00, 0x00, 0x01, 0x00, 0x00, 0x00, 0x00, 0x00, 0x00, 0x00, 0x00, 0x00, 0x00, 0x00, 0x07,
    0x00, 0x00, 0x00,
];

/// A DBI stream: the module of stream 6, whose contribution is 1:100 to 1:130, the symbols of stream 5, and the section
/// headers of stream 8.
pub static DBI: [u8; 184] = [
    0xff, 0xff, 0xff, 0xff, 0x77, 0x09, 0x31, 0x01, 0x02, 0x00, 0x00, 0x00, 0xff, 0xff, 0x00, 0x00,
    0xff, 0xff, 0x00, 0x00, 0x05, 0x00, 0x00, 0x00, 0x4c, 0x00, 0x00, 0x00, 0x20, 0x00, 0x00, 0x00,
    0x00, 0x00, 0x00, 0x00, 0x00, 0x00, 0x00, 0x00, 0x00, 0x00, 0x00, 0x00, 0x00, 0x00, 0x00, 0x00,
    0x0c, 0x00, 0x00, 0x00, 0x00, 0x00, 0x00, 0x00, 0x00, 0x00, 0x64, 0x86, 0x00, 0x00, 0x00, 0x00,
    0x00, 0x00, 0x00, 0x00, 0x01, 0x00, 0x00, 0x00, 0x00, 0x01, 0x00, 0x00, 0x30, 0x00, 0x00, 0x00,
    0x20, 0x00, 0x50, 0x60, 0x00, 0x00, 0x00, 0x00, 0x00, 0x00, 0x00, 0x00, 0x00, 0x00, 0x00, 0x00,
    0x00, 0x00, 0x06, 0x00, 0x54, 0x00, 0x00, 0x00, 0x00, 0x00, 0x00, 0x00, 0xb0, 0x00, 0x00, 0x00,
    0x01, 0x00, 0x00, 0x00, 0x00, 0x00, 0x00, 0x00, 0x00, 0x00, 0x00, 0x00, 0x00, 0x00, 0x00, 0x00,
    0x61, 0x2e, 0x6f, 0x62, 0x6a, 0x00, 0x61, 0x2e, 0x6f, 0x62, 0x6a, 0x00, 0x2d, 0xba, 0x2e, 0xf1,
    0x01, 0x00, 0x00, 0x00, 0x00, 0x01, 0x00, 0x00, 0x30, 0x00, 0x00, 0x00, 0x20, 0x00, 0x50, 0x60,
    0x00, 0x00, 0x00, 0x00, 0x00, 0x00, 0x00, 0x00, 0x00, 0x00, 0x00, 0x00, 0xff, 0xff, 0xff, 0xff,
    0xff, 0xff, 0xff, 0xff, 0xff, 0xff, 0x08, 0x00,
];

/// Global symbols: a public one at 1:100.
static GLOBALS: &[u8] = b"\x10\0\x0e\x11\x02\0\0\0\0\x01\0\0\x01\0pub\0";

/// Ids: 0x1000 is the string `ns`, and 0x1001 the function `ab` of that scope.
static IDS: [u8; 84] = [
    0x0b, 0xca, 0x31, 0x01, 0x38, 0x00, 0x00, 0x00, 0x00, 0x10, 0x00, 0x00, 0x08, 0x10, 0x00, 0x00,
    0x1c, 0x00, 0x00, 0x00, 0x00, 0x00, 0x00, 0x00, 0x00, 0x00, 0x00, 0x00, 0x00, 0x00, 0x00, 0x00,
    0x00, 0x00, 0x00, 0x00, 0x00, 0x00, 0x00, 0x00, 0x00, 0x00, 0x00, 0x00, 0x00, 0x00, 0x00, 0x00,
    0x00, 0x00, 0x00, 0x00, 0x00, 0x00, 0x00, 0x00, 0x0a, 0x00, 0x05, 0x16, 0x00, 0x00, 0x00, 0x00,
    0x6e, 0x73, 0x00, 0xf1, 0x0e, 0x00, 0x01, 0x16, 0x00, 0x10, 0x00, 0x00, 0x74, 0x00, 0x00, 0x00,
    0x61, 0x62, 0x00, 0xf1,
];

/// The string table, in which `a.c` stands at 1.
pub static STRINGS: &[u8] = b"\xfe\xef\xfe\xef\x01\0\0\0\x05\0\0\0\0a.c\0";

/// The headers of one section, from 0x1000 to 0x2000.
pub static SECTIONS: [u8; 40] = [
    0x2e, 0x74, 0x65, 0x78, 0x74, 0x00, 0x00, 0x00, 0x00, 0x10, 0x00, 0x00, 0x00, 0x10, 0x00, 0x00,
    0x00, 0x02, 0x00, 0x00, 0x00, 0x04, 0x00, 0x00, 0x00, 0x00, 0x00, 0x00, 0x00, 0x00, 0x00, 0x00,
    0x00, 0x00, 0x00, 0x00, 0x20, 0x00, 0x00, 0x60,
];

/// The sample with these ids.
fn sample(alloc: Global, ids: &[u8]) -> Result<Vec<u8>> {
    let streams: [&[u8]; 9] = [
        b"",
        &INFORMATION,
        b"",
        &DBI,
        ids,
        GLOBALS,
        &SAMPLE,
        STRINGS,
        &SECTIONS,
    ];
    file_of_streams(alloc, streams)
}

/// A resolver of a file, with rooms for its streams. It stands in a box, since the borrow checker doesn't cover the end
/// of a variable that is one.
fn resolver<'a, 's>(
    alloc: Global,
    file: &'s [u8],
    streams: &'a mut Streams<'s>,
) -> Result<Box<Resolver<'a, 's, MemorySource<'s>>>> {
    let pdb = PDB::open(alloc, MemorySource::new(file))?;
    Ok(Box::new(alloc, Resolver::new(alloc, pdb, streams)?)?)
}

/// Puts the texts of these places behind what is there.
fn put_texts<'s>(
    out: &mut Vec<u8>,
    resolver: &mut Resolver<'_, 's, MemorySource<'s>>,
    places: &[Option<(u16, u32)>],
) -> Result<()> {
    for place in places {
        let place = place.map(|it| PdbInternalSectionOffset::new(it.0, it.1));
        resolver.put_text(out, place)?;
    }
    Ok(())
}

/// The texts of these places, one after another, when they are asked for a second time.
fn texts<'s>(
    alloc: Global,
    file: &'s [u8],
    streams: &mut Streams<'s>,
    places: &[Option<(u16, u32)>],
) -> Result<Vec<u8>> {
    let mut resolver = resolver(alloc, file, streams)?;
    let mut text = Vec::new(alloc);
    put_texts(&mut text, &mut resolver, places)?;
    text.clear();
    put_texts(&mut text, &mut resolver, places)?;
    Ok(text)
}

/// The text of one place, when it is the first that is asked for.
fn first_text<'s>(
    alloc: Global,
    file: &'s [u8],
    streams: &mut Streams<'s>,
    place: Option<(u16, u32)>,
) -> Result<Vec<u8>> {
    let mut resolver = resolver(alloc, file, streams)?;
    let mut text = Vec::new(alloc);
    put_texts(&mut text, &mut resolver, &[place])?;
    Ok(text)
}

/// These places, one after another, have this text, whatever was asked before.
pub fn texts_are(
    rt: &impl Abort,
    alloc: Global,
    file: &[u8],
    places: &[Option<(u16, u32)>],
    wanted: &[u8],
) -> Result<()> {
    let mut fresh = Vec::new(alloc);
    for place in places {
        let text = first_text(alloc, file, &mut Streams::new(alloc), *place)?;
        fresh.extend_from_slice(text.as_slice())?;
    }
    is(rt, "fresh", &fresh.as_slice(), &wanted);
    let asked = texts(alloc, file, &mut Streams::new(alloc), places)?;
    is(rt, "asked before", &asked.as_slice(), &wanted);
    Ok(())
}

/// With another byte at a place of the sample's file, 1:108, which is in the module, and 1:130, which isn't, have these
/// texts.
fn with_another_byte(
    rt: &impl Abort,
    alloc: Global,
    (at, byte): (usize, u8),
    wanted: &str,
) -> Result<()> {
    let mut file = sample(alloc, &IDS)?;
    if at < file.len() {
        file[at] = byte;
    }
    let places = [Some((1, 0x108)), Some((1, 0x130))];
    texts_are(rt, alloc, &file, &places, wanted.as_bytes())
}

/// Where the DBI stream begins.
const DBI_AT: usize = 512 * 6;

#[test]
fn refused_code_leaves_the_rest(rt: HostRuntime) -> Result<()> {
    let no_lines = "main\n??:0:0\n\n??\n??:0:0\n\n";
    // The public symbol's contribution ends at 1:130.
    let no_module = "pub\n??:0:0\n\n??\n??:0:0\n\n";
    let no_contribution = "pub\n??:0:0\n\npub\n??:0:0\n\n";
    let nothing = "??\n??:0:0\n\n??\n??:0:0\n\n";
    // The size of older lines, the number of the module's stream, the size of the contributions, the mark of the DBI
    // stream.
    with_another_byte(&rt, rt.alloc(), (DBI_AT + 104, 1), no_lines)?;
    with_another_byte(&rt, rt.alloc(), (DBI_AT + 98, 99), no_module)?;
    with_another_byte(&rt, rt.alloc(), (DBI_AT + 30, 0xff), no_contribution)?;
    with_another_byte(&rt, rt.alloc(), (DBI_AT, 0), nothing)
}

#[test]
fn the_sample_without_ids_has_these_frames(rt: HostRuntime) -> Result<()> {
    let alloc = rt.alloc();
    let file = sample(alloc, b"")?;
    let places = [
        Some((1, 0x100)),
        Some((1, 0x108)),
        Some((1, 0x10c)),
        Some((2, 0)),
    ];
    let wanted = "main\na.c:1:0\n\n??\na.c:10:0\nmain\na.c:2:0\n\nmain\na.c:2:0\n\n??\n??:0:0\n\n";
    texts_are(&rt, alloc, &file, &places, wanted.as_bytes())?;
    let mut streams = Streams::new(alloc);
    let resolver = resolver(alloc, &file, &mut streams)?;
    let place = resolver.place(0x1100).map(|it| (it.section, it.offset));
    is(&rt, "the place of 1100", &place, &Some((1, 0x100)));
    is(&rt, "no place", &resolver.place(0x100).is_none(), &true);
    Ok(())
}

/// Where the stream of the module begins.
const MODULE_AT: usize = 512 * 9;

/// With these other bytes at offsets of the sample's file, the module at 1:108 has an error or not, before its frames are
/// asked for and behind that; at 1:130 there is none.
fn is_whole_with(
    rt: &impl Abort,
    alloc: Global,
    label: &str,
    others: &[(usize, u8)],
    wanted: bool,
) -> Result<()> {
    let mut file = sample(alloc, &IDS)?;
    is(rt, "the module's stream", &file[MODULE_AT + 6], &0x10);
    for (at, byte) in others {
        file[*at] = *byte;
    }
    let mut streams = Streams::new(alloc);
    let mut resolver = resolver(alloc, &file, &mut streams)?;
    let inside = PdbInternalSectionOffset::new(1, 0x108);
    let outside = PdbInternalSectionOffset::new(1, 0x130);
    is(rt, label, &resolver.is_whole_at(inside)?, &wanted);
    resolver.frames(Some(inside))?;
    is(rt, label, &resolver.is_whole_at(inside)?, &wanted);
    is(rt, label, &resolver.is_whole_at(outside)?, &true);
    is(rt, label, &resolver.is_whole_at(inside)?, &wanted);
    Ok(())
}

#[test]
fn a_module_with_an_error_is_not_whole(rt: HostRuntime) -> Result<()> {
    let alloc = rt.alloc();
    is_whole_with(&rt, alloc, "a sound file", &[], true)?;
    is_whole_with(&rt, alloc, "a cut symbol", &[(MODULE_AT + 80, 3)], false)?;
    is_whole_with(&rt, alloc, "older lines", &[(DBI_AT + 104, 1)], false)?;
    is_whole_with(
        &rt,
        alloc,
        "a cut inlined function",
        &[(MODULE_AT + 196, 15)],
        false,
    )?;
    is_whole_with(
        &rt,
        alloc,
        "no stream of its number",
        &[(DBI_AT + 98, 99)],
        false,
    )?;
    let none = [(DBI_AT + 98, 0xff), (DBI_AT + 99, 0xff)];
    is_whole_with(&rt, alloc, "no stream", &none, true)?;
    is_whole_with(&rt, alloc, "no list of modules", &[(DBI_AT, 0)], true)
}
