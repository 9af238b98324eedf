//! Code of modules that are put together record by record.

use crate::crossings::{Crossings, ListedCode};
use crate::frames::push_inlined;
use crate::tests::files::{file_of_streams, is};
use crate::tests::modules::info_of;
use crate::{FunctionNames, InlinedCall, ModuleCode};
use pdb::{
    FileIndex, IdIndex, ItemFinder, LineInfo, LineInfoKind, MemorySource, PDB,
    PdbInternalSectionOffset, Result, Stream, StringTable,
};
use std::alloc::Global;
use std::process::Abort;

/// The index that no scope of these modules reaches.
pub const END: u32 = 10_000;

/// A module's symbols; those of its inlined functions that are listed are 0x1001 and 0x1002.
#[derive(Drop)]
pub struct Symbols {
    pub bytes: Vec<u8>,
}

impl Symbols {
    pub fn new(alloc: Global) -> Result<Self> {
        let mut bytes = Vec::new(alloc);
        bytes.extend_from_slice(&[4, 0, 0, 0])?;
        Ok(Symbols { bytes })
    }

    /// The index of the next symbol.
    pub fn next(&self) -> u32 {
        self.bytes.len().min(60_000) as u32
    }

    /// One more record: its kind, and numbers of four bytes with others behind them.
    pub fn push(&mut self, kind: u16, numbers: &[u32], rest: &[u8]) -> Result<u32> {
        let index = self.next();
        let size = 2 + 4 * numbers.len().min(100) as u16 + rest.len().min(100) as u16;
        self.bytes.extend_from_slice(&size.to_le_bytes())?;
        self.bytes.extend_from_slice(&kind.to_le_bytes())?;
        for number in numbers {
            self.bytes.extend_from_slice(&number.to_le_bytes())?;
        }
        self.bytes.extend_from_slice(rest)?;
        Ok(index)
    }

    /// A procedure of so many bytes in section 1, whose scope ends at `end`. Its section, its flags and its name stand
    /// in `rest`.
    pub fn procedure(&mut self, offset: u32, length: u32, end: u32, rest: &[u8]) -> Result<u32> {
        self.push(0x1110, &[0, end, 0, length, 0, 0, 0, offset], rest)
    }

    /// A site of an inlined function, with these annotations.
    fn site(&mut self, id: u32, annotations: &[u8]) -> Result<u32> {
        self.push(0x114d, &[0, 0, id], annotations)
    }
}

/// The ids and the first lines of inlined functions.
static INLINEES: [u8; 36] = [
    0xf6, 0, 0, 0, 0x1c, 0, 0, 0, 0, 0, 0, 0, 0x01, 0x10, 0, 0, 0, 0, 0, 0, 0x0a, 0, 0, 0, 0x02,
    0x10, 0, 0, 0, 0, 0, 0, 0x14, 0, 0, 0,
];

/// At an offset in section 1 is this function of this name, and these ids and lines are inlined there.
fn stands(
    rt: &impl Abort,
    alloc: Global,
    symbols: &Symbols,
    offset: u32,
    wanted: (Option<u32>, Option<&str>, &[(u32, u32)]),
) -> Result<()> {
    let size = symbols.next();
    let mut bytes = symbols.bytes.clone()?;
    bytes.extend_from_slice(&INLINEES)?;
    let info = info_of(rt, bytes.as_slice(), (size, 0, 36))?;
    let mut code = ModuleCode::new(alloc, &info)?;
    let place = PdbInternalSectionOffset::new(1, offset);
    is(
        rt,
        "function",
        &code.function(place).map(|it| it.0),
        &wanted.0,
    );
    match (code.function_name(alloc, place)?, wanted.1) {
        (Some(name), Some(wanted)) => is(rt, "name", &name.as_bytes(), &wanted.as_bytes()),
        (given, wanted) => assert!(rt; given.is_none() && wanted.is_none(), "one has a name"),
    }
    calls_are(rt, alloc, &code, place, wanted.2)?;
    // They are the same once it is known what the sites cover.
    code.measure(alloc, place);
    calls_are(rt, alloc, &code, place, wanted.2)
}

/// These ids and lines are inlined at a place.
fn calls_are(
    rt: &impl Abort,
    alloc: Global,
    code: &ModuleCode<'_>,
    place: PdbInternalSectionOffset,
    wanted: &[(u32, u32)],
) -> Result<()> {
    let calls = code.inlined(alloc, place)?;
    is(rt, "calls", &calls.len(), &wanted.len());
    for (call, wanted) in calls.as_slice().iter().zip(wanted) {
        is(rt, "call", &(call.id.0, call.line.line_start), wanted);
    }
    Ok(())
}

#[test]
fn the_first_listed_procedure_counts_and_not_the_nearest(rt: HostRuntime) -> Result<()> {
    let alloc = rt.alloc();
    let mut symbols = Symbols::new(alloc)?;
    let outer = symbols.procedure(0x100, 0x40, END, b"\x01\0\0outer\0")?;
    symbols.procedure(0x110, 0x10, END, b"\x01\0\0inner\0")?;
    let later = symbols.procedure(0x138, 0x10, END, b"\x01\0\0later\0")?;
    stands(
        &rt,
        alloc,
        &symbols,
        0x110,
        (Some(outer), Some("outer"), &[]),
    )?;
    stands(
        &rt,
        alloc,
        &symbols,
        0x13f,
        (Some(outer), Some("outer"), &[]),
    )?;
    stands(
        &rt,
        alloc,
        &symbols,
        0x140,
        (Some(later), Some("later"), &[]),
    )?;
    stands(&rt, alloc, &symbols, 0x148, (None, None, &[]))
}

#[test]
fn a_procedure_comes_before_a_thunk(rt: HostRuntime) -> Result<()> {
    let alloc = rt.alloc();
    let mut symbols = Symbols::new(alloc)?;
    // Section 1, 32 bytes, no ordinal, and the name.
    let rest = b"\x01\0\x20\0\0thunk\0";
    let thunk = symbols.push(0x1102, &[0, END, 0, 0x100], rest)?;
    let procedure = symbols.procedure(0x100, 0x10, END, b"\x01\0\0code\0")?;
    stands(
        &rt,
        alloc,
        &symbols,
        0x100,
        (Some(procedure), Some("code"), &[]),
    )?;
    stands(
        &rt,
        alloc,
        &symbols,
        0x110,
        (Some(thunk), Some("thunk"), &[]),
    )
}

#[test]
fn separated_code_has_its_procedures_name(rt: HostRuntime) -> Result<()> {
    let alloc = rt.alloc();
    let mut symbols = Symbols::new(alloc)?;
    // Of 16 bytes at 1:200, of the procedure at 1:104; and at 1:300, of none.
    let rest = b"\x01\0\x01\0";
    let own = symbols.push(0x1132, &[0, END, 0x10, 0, 0x200, 0x104], rest)?;
    let none = symbols.push(0x1132, &[0, END, 0x10, 0, 0x300, 0x110], rest)?;
    symbols.procedure(0x100, 0x10, END, b"\x01\0\0parent\0")?;
    stands(
        &rt,
        alloc,
        &symbols,
        0x20f,
        (Some(own), Some("parent"), &[]),
    )?;
    stands(&rt, alloc, &symbols, 0x30f, (Some(none), None, &[]))?;
    stands(&rt, alloc, &symbols, 0x210, (None, None, &[]))
}

#[test]
fn a_procedure_begins_at_its_own_offset_alone(rt: HostRuntime) -> Result<()> {
    let alloc = rt.alloc();
    let mut symbols = Symbols::new(alloc)?;
    symbols.procedure(0x100, 0x10, END, b"\x01\0\0code\0")?;
    symbols.procedure(0x120, 0, END, b"\x01\0\0none\0")?;
    symbols.procedure(0x130, 0x10, END, b"\x02\0\0other\0")?;
    symbols.procedure(0xffff_ffff, 2, END, b"\x01\0\0last\0")?;
    // Two procedures at one offset, and a thunk.
    symbols.procedure(0x100, 0x20, END, b"\x01\0\0same\0")?;
    symbols.push(0x1102, &[0, END, 0, 0x140], b"\x01\0\x20\0\0thunk\0")?;
    let size = symbols.next();
    let info = info_of(&rt, symbols.bytes.as_slice(), (size, 0, 0))?;
    let mut code = ModuleCode::new(alloc, &info)?;
    let rows = [
        (1, 0x100, true),
        (1, 0x101, false),
        (1, 0xff, false),
        // Its procedure has no byte.
        (1, 0x120, true),
        (1, 0x121, false),
        (1, 0x130, false),
        (2, 0x130, true),
        (1, 0x140, false),
        (1, 0xffff_ffff, true),
    ];
    for (section, offset, wanted) in &rows {
        let place = PdbInternalSectionOffset::new(*section, *offset);
        for _ in 0..2 {
            let given = (*section, *offset, code.begins(alloc, place)?);
            is(&rt, "begins", &given, &(*section, *offset, *wanted));
        }
    }
    Ok(())
}

/// A record of eight bytes that begins 4 bytes behind the last one.
const FROM_4: &[u8] = b"\x03\x04\x04\x08";

#[test]
fn sites_count_up_to_their_procedures_end(rt: HostRuntime) -> Result<()> {
    let alloc = rt.alloc();
    let mut symbols = Symbols::new(alloc)?;
    // The record of the procedure has 41 bytes, and that of the site 20.
    let code = symbols.procedure(0x100, 0x40, 4 + 41 + 20, b"\x01\0\0a\0")?;
    symbols.site(0x1001, FROM_4)?;
    symbols.site(0x1002, FROM_4)?;
    stands(
        &rt,
        alloc,
        &symbols,
        0x104,
        (Some(code), Some("a"), &[(0x1001, 10)]),
    )?;
    stands(&rt, alloc, &symbols, 0x10c, (Some(code), Some("a"), &[]))
}

#[test]
fn sites_stand_in_their_order_whatever_their_parents_cover(rt: HostRuntime) -> Result<()> {
    let alloc = rt.alloc();
    let mut symbols = Symbols::new(alloc)?;
    let code = symbols.procedure(0x100, 0x40, END, b"\x01\0\0a\0")?;
    // The one around it has four bytes from 0x104 on, the one in it eight.
    symbols.site(0x1002, b"\x03\x04\x04\x04")?;
    symbols.site(0x1001, FROM_4)?;
    symbols.push(0x114e, &[], b"")?;
    symbols.push(0x114e, &[], b"")?;
    let both = [(0x1002, 20), (0x1001, 10)];
    stands(&rt, alloc, &symbols, 0x104, (Some(code), Some("a"), &both))?;
    stands(
        &rt,
        alloc,
        &symbols,
        0x108,
        (Some(code), Some("a"), &[(0x1001, 10)]),
    )
}

#[test]
fn a_site_of_an_id_that_is_not_listed_is_passed(rt: HostRuntime) -> Result<()> {
    let alloc = rt.alloc();
    let mut symbols = Symbols::new(alloc)?;
    let code = symbols.procedure(0x100, 0x40, END, b"\x01\0\0a\0")?;
    symbols.site(0x1003, FROM_4)?;
    symbols.site(0x1001, FROM_4)?;
    // Of three bytes of annotations less than there are: no site.
    symbols.push(0x114d, &[0, 0], b"\x01\x10")?;
    // With a count of invocations before the annotations.
    symbols.push(0x115d, &[0, 0, 0x1002, 9], FROM_4)?;
    let both = [(0x1001, 10), (0x1002, 20)];
    stands(&rt, alloc, &symbols, 0x104, (Some(code), Some("a"), &both))
}

#[test]
fn records_before_a_fault_count_where_the_next_one_begins(rt: HostRuntime) -> Result<()> {
    let alloc = rt.alloc();
    let mut symbols = Symbols::new(alloc)?;
    let code = symbols.procedure(0x100, 0x40, END, b"\x01\0\0a\0")?;
    // From 4 on, a line further from 8 on, and then an opcode that isn't known.
    symbols.site(0x1001, b"\x03\x04\x06\x02\x03\x04\x0f\x01")?;
    stands(
        &rt,
        alloc,
        &symbols,
        0x104,
        (Some(code), Some("a"), &[(0x1001, 10)]),
    )?;
    stands(&rt, alloc, &symbols, 0x108, (Some(code), Some("a"), &[]))
}

#[test]
fn records_without_bytes_or_length_cover_nothing(rt: HostRuntime) -> Result<()> {
    let alloc = rt.alloc();
    let mut symbols = Symbols::new(alloc)?;
    let code = symbols.procedure(0x100, 0x40, END, b"\x01\0\0a\0")?;
    // Of no bytes at 4, and then of eight there, a line further.
    symbols.site(0x1001, b"\x03\x04\x04\x00\x06\x02\x03\x00\x04\x08")?;
    // At 4, and its length isn't told.
    symbols.site(0x1002, b"\x03\x04")?;
    stands(
        &rt,
        alloc,
        &symbols,
        0x104,
        (Some(code), Some("a"), &[(0x1001, 11)]),
    )
}

/// The ids that are inlined at these offsets in section 1, one after another, each once it is known what the sites of
/// its procedure cover.
fn ids_at(alloc: Global, code: &mut ModuleCode<'_>, offsets: &[u32]) -> Result<Vec<(u32, u32)>> {
    let mut ids = Vec::new(alloc);
    for offset in offsets {
        let place = PdbInternalSectionOffset::new(1, *offset);
        code.measure(alloc, place);
        let calls = code.inlined(alloc, place)?;
        for call in calls.as_slice() {
            ids.push((*offset, call.id.0))?;
        }
    }
    Ok(ids)
}

#[test]
fn sites_are_those_of_their_procedure_in_any_order(rt: HostRuntime) -> Result<()> {
    let alloc = rt.alloc();
    let mut symbols = Symbols::new(alloc)?;
    // In front of all procedures. A site's record has 20 bytes, and a procedure's 41.
    symbols.site(0x1001, FROM_4)?;
    // Its scope has another procedure in it, and that one's site, which counts from this one's offset too.
    symbols.procedure(0x100, 0x40, 24 + 41 + 20 + 41 + 20, b"\x01\0\0a\0")?;
    symbols.site(0x1001, FROM_4)?;
    symbols.procedure(0x200, 0x40, 24 + 41 + 20 + 41 + 20, b"\x01\0\0b\0")?;
    symbols.site(0x1002, FROM_4)?;
    // It has no site: the last one stands behind its end.
    symbols.procedure(0x300, 0x40, 146 + 41, b"\x01\0\0c\0")?;
    symbols.site(0x1002, FROM_4)?;
    let size = symbols.next();
    let mut bytes = symbols.bytes.clone()?;
    bytes.extend_from_slice(&INLINEES)?;
    let info = info_of(&rt, bytes.as_slice(), (size, 0, 36))?;
    let mut code = ModuleCode::new(alloc, &info)?;
    let ids = ids_at(
        alloc,
        &mut code,
        &[0x304, 0x204, 0x104, 0x20c, 0x10b, 0x304, 0x204],
    )?;
    let wanted = [
        (0x204, 0x1002),
        (0x104, 0x1001),
        (0x104, 0x1002),
        (0x10b, 0x1001),
        (0x10b, 0x1002),
        (0x204, 0x1002),
    ];
    assert!(rt; ids.as_slice() == wanted.as_slice());
    Ok(())
}

/// The files of a module, whose names stand at 1 and at 5 of the string table.
static FILES: [u8; 24] = [
    0xf4, 0, 0, 0, 16, 0, 0, 0, 1, 0, 0, 0, 0, 0, 0, 0, 5, 0, 0, 0, 0, 0, 0, 0,
];

/// The call of a function whose line is in a file.
fn call_in(file: u32) -> InlinedCall {
    let line = LineInfo {
        offset: PdbInternalSectionOffset::new(1, 0),
        length: Some(1),
        file_index: FileIndex(file),
        line_start: 1,
        line_end: 1,
        column_start: None,
        column_end: None,
        kind: LineInfoKind::Statement,
    };
    InlinedCall {
        id: IdIndex(0x1001),
        line,
    }
}

#[test]
fn frames_have_the_files_of_their_own_lines(rt: HostRuntime) -> Result<()> {
    let alloc = rt.alloc();
    let mut bytes = Vec::new(alloc);
    bytes.extend_from_slice(&[4, 0, 0, 0])?;
    bytes.extend_from_slice(&FILES)?;
    let info = info_of(&rt, bytes.as_slice(), (4, 0, 24))?;
    let code = ModuleCode::new(alloc, &info)?;
    let table = b"\xfe\xef\xfe\xef\x01\0\0\0\x09\0\0\0\0a.c\0b.c\0";
    let strings = StringTable::parse(Stream::new(table).expect(&rt, "a short stream"))?;
    let names = FunctionNames {
        ids: ItemFinder::empty(alloc),
        types: ItemFinder::empty(alloc),
    };
    // There is no file at 16.
    let mut calls = Vec::new(alloc);
    for file in [16, 8, 0, 0, 8] {
        calls.push(call_in(file))?;
    }
    let mut frames = Vec::new(alloc);
    let file = file_of_streams(alloc, [b"", b"", b"", b"", b"", b"", b"", b"", b""])?;
    let mut pdb = PDB::open(alloc, MemorySource::new(file.as_slice()))?;
    let asked = ListedCode {
        listed: &[],
        number: 0,
        code: &code,
    };
    push_inlined(
        alloc,
        &mut pdb,
        &mut frames,
        &mut Crossings::new(alloc),
        &asked,
        &names,
        Some(&strings),
        calls.as_slice(),
    )?;
    let wanted: [Option<&[u8]>; 5] = [Some(b"b.c"), Some(b"a.c"), Some(b"a.c"), Some(b"b.c"), None];
    is(&rt, "frames", &frames.len(), &5);
    for (frame, wanted) in frames.as_slice().iter().zip(&wanted) {
        is(&rt, "file", &frame.file.map(|it| it.as_bytes()), wanted);
    }
    Ok(())
}
