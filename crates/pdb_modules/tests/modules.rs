//! Streams of modules: their parts, and where they are refused.

use crate::ModuleInfo;
use crate::tests::lists::is;
use crate::tests::streams::{info, lines_info, sample};
use pdb_base::{Error, FallibleIterator, Feature, IdIndex, Result, SymbolIndex, TypeIndex};
use pdb_symbols::Symbol;
use std::alloc::Global;
use std::process::Abort;

/// A symbol's index and kind.
fn seen(symbol: Option<Symbol<'_>>) -> Option<(u32, u16)> {
    match symbol {
        Some(symbol) => Some((symbol.index().0, symbol.raw_kind())),
        None => None,
    }
}

#[test]
fn symbols_stand_behind_their_number(rt: HostRuntime) -> Result<()> {
    let part = b"\x04\x00\x00\x00\x02\x00\x06\x00";
    let info = info(&rt, part, (8, 0, 0))?;
    let mut symbols = info.symbols()?;
    is(&rt, "the first", &seen(symbols.next()?), &Some((4, 6)));
    is(&rt, "the end", &seen(symbols.next()?), &None);
    let mut symbols = info.symbols_at(SymbolIndex(0))?;
    is(
        &rt,
        "at 0 whatever stands there",
        &seen(symbols.next()?),
        &Some((0, 0)),
    );
    is(
        &rt,
        "then a fault",
        &symbols.next().err(),
        &Some(Error::UnexpectedEof),
    );
    symbols.seek(SymbolIndex(4));
    is(&rt, "again", &seen(symbols.next()?), &Some((4, 6)));
    Ok(())
}

#[test]
fn symbols_are_refused(rt: HostRuntime) -> Result<()> {
    let cases: [(&[u8], u32, Option<Error>); 6] = [
        (b"\0\0", 2, Some(Error::UnexpectedEof)),
        (
            b"\x01\0\0\0\x02\0\x06\0",
            8,
            Some(Error::UnimplementedFeature(Feature::SymbolDataFormat)),
        ),
        (b"\x04\0\0\0", 5, Some(Error::UnexpectedEof)),
        (b"", 1, Some(Error::UnexpectedEof)),
        (b"", 0, None),
        (b"\x01\0\0\0", 0, None),
    ];
    for (bytes, size, wanted) in cases {
        let info = info(&rt, bytes, (size, 0, 0))?;
        is(&rt, "symbols", &info.symbols().err(), &wanted);
        is(
            &rt,
            "symbols at an index",
            &info.symbols_at(SymbolIndex(9)).err(),
            &wanted,
        );
    }
    Ok(())
}

/// The refusals of the calls that look at lines data: of a line program, of files, of inlined functions, of imports and
/// of exports.
fn refusals(alloc: Global, info: &ModuleInfo<'_>) -> [Option<Error>; 5] {
    [
        info.line_program(alloc).err(),
        info.files().err(),
        info.inlinees().err(),
        info.imports(alloc).err(),
        info.exports(alloc).err(),
    ]
}

const END: Option<Error> = Some(Error::UnexpectedEof);

#[test]
fn lines_data_is_all_there_or_refused(rt: HostRuntime) -> Result<()> {
    for k in 0..260 {
        let info = info(&rt, &sample()[..k], (84, 0, 176))?;
        is(&rt, "symbols", &info.symbols().is_ok(), &(k >= 84));
        is(&rt, "lines data", &refusals(rt.alloc(), &info), &[END; 5]);
    }
    let info = info(&rt, sample(), (84, 0, 176))?;
    is(&rt, "all", &refusals(rt.alloc(), &info), &[None; 5]);
    Ok(())
}

/// The end of the data, or no refusal of what is whole.
fn unless(whole: bool) -> Option<Error> {
    if whole { None } else { END }
}

#[test]
fn lines_data_of_each_size(rt: HostRuntime) -> Result<()> {
    for k in 0..177 {
        let info = info(&rt, sample(), (84, 0, k))?;
        let whole = k == 0 || k == 32 || k == 88 || k == 108 || k == 132 || k == 152 || k == 176;
        let given = refusals(rt.alloc(), &info);
        is(&rt, "lines", &given[0], &unless(whole));
        is(&rt, "files", &given[1], &unless(whole));
        is(
            &rt,
            "inlined functions",
            &given[2],
            &unless(whole || k >= 132),
        );
        is(&rt, "imports", &given[3], &unless(whole || k >= 152));
        is(&rt, "exports", &given[4], &unless(whole));
    }
    Ok(())
}

#[test]
fn symbols_of_each_size(rt: HostRuntime) -> Result<()> {
    for k in 1..85 {
        let info = info(&rt, sample(), (k, 0, 0))?;
        let whole = k == 4 || k == 48 || k == 76 || k == 80 || k == 84;
        match info.symbols() {
            Ok(symbols) => is(&rt, "symbols", &symbols.count().is_ok(), &whole),
            Err(error) => is(
                &rt,
                "no number",
                &(error, k < 4),
                &(Error::UnexpectedEof, true),
            ),
        }
    }
    Ok(())
}

#[test]
fn older_lines_leave_the_others_empty(rt: HostRuntime) -> Result<()> {
    let info = info(&rt, b"", (0, 1, 8))?;
    let old = Some(Error::UnimplementedFeature(Feature::C11LinePrograms));
    is(
        &rt,
        "refusals",
        &refusals(rt.alloc(), &info),
        &[old, old, None, None, None],
    );
    is(&rt, "inlined functions", &info.inlinees()?.count()?, &0);
    is(&rt, "exports", &info.exports(rt.alloc())?.len(), &0);
    let found = info
        .imports(rt.alloc())?
        .resolve_import(TypeIndex(0x8000_0000));
    is(
        &rt,
        "imports",
        &found.err(),
        &Some(Error::CrossModuleRefNotFound(0x8000_0000)),
    );
    Ok(())
}

/// Lines data has inlined functions of these ids, or is refused.
fn ids(rt: &impl Abort, label: &str, lines_data: &[u8], wanted: &[u32]) -> Result<()> {
    let info = lines_info(rt, lines_data)?;
    let mut inlinees = info.inlinees()?;
    for id in wanted {
        match inlinees.next()? {
            Some(inlinee) => is(rt, label, &inlinee.index(), &IdIndex(*id)),
            None => panic!(rt; "{label}: too few"),
        }
    }
    is(rt, label, &inlinees.next()?.is_none(), &true);
    Ok(())
}

#[test]
fn inlined_functions_are_those_of_the_first_part(rt: HostRuntime) -> Result<()> {
    ids(
        &rt,
        "a fault behind it",
        b"\xf6\0\0\0\x04\0\0\0\0\0\0\0\xff\0\0\0\0\0\0\0",
        &[],
    )?;
    ids(
        &rt,
        "passed over",
        b"\0\0\0\x80\0\0\0\0\x01\0\0\x80\0\0\0\0",
        &[],
    )?;
    ids(
        &rt,
        "without further files",
        b"\xf6\0\0\0\x1c\0\0\0\0\0\0\0\xfe\x12\0\0h\x01\0\0\x18\0\0\0\xfd\x12\0\0h\x01\0\0\x1c\0\0\0",
        &[0x12fe, 0x12fd],
    )?;
    ids(
        &rt,
        "with further files",
        b"\xf6\0\0\0\x2c\0\0\0\x01\0\0\0\xebf\x09\0\xe8%\0\0\x13\0\0\0\x01\0\0\0\xd8\x1a\0\0\xf0\xa3\x07\0\xb0,\0\0\x78\0\0\0\x01\0\0\0\x78\x03\0\0",
        &[0x966eb, 0x7a3f0],
    )?;
    ids(
        &rt,
        "a signature above 1 has none",
        b"\xf6\0\0\0\x10\0\0\0\x02\0\0\0\x01\x10\0\0\0\0\0\0\x0a\0\0\0",
        &[0x1001],
    )?;
    ids(
        &rt,
        "two of one id, of the first part",
        b"\xf6\0\0\0\x1c\0\0\0\0\0\0\0\x01\x10\0\0\0\0\0\0\x0a\0\0\0\x01\x10\0\0\0\0\0\0\x14\0\0\0\xf6\0\0\0\x04\0\0\0\0\0\0\0",
        &[0x1001, 0x1001],
    )?;
    Ok(())
}

#[test]
fn inlined_functions_are_refused(rt: HostRuntime) -> Result<()> {
    let unknown = Some(Error::UnimplementedDebugSubsection(255));
    let cases: [(&[u8], Option<Error>); 4] = [
        (b"\xff\0\0\0\0\0\0\0\xf6\0\0\0\x04\0\0\0\0\0\0\0", unknown),
        (b"\xff\0\0\0\x01\0\0\0", END),
        (b"\xf6\0\0\0\x03\0\0\0\0\0\0", END),
        (b"\xf6\0\0\0\0\0\0\0", END),
    ];
    for (lines_data, wanted) in cases {
        let info = lines_info(&rt, lines_data)?;
        is(&rt, "refused", &info.inlinees().err(), &wanted);
    }
    let info = lines_info(&rt, b"\xf6\0\0\0\x05\0\0\0\0\0\0\0\x01")?;
    is(
        &rt,
        "a function that is cut",
        &info.inlinees()?.count().err(),
        &END,
    );
    Ok(())
}

#[test]
fn sizes_past_the_stream_refuse_lines(rt: HostRuntime) -> Result<()> {
    let info = info(&rt, b"", (1, 0, 0))?;
    is(&rt, "all", &refusals(rt.alloc(), &info), &[END; 5]);
    Ok(())
}

#[test]
fn one_subsection_alone(rt: HostRuntime) -> Result<()> {
    let ignored = lines_info(&rt, b"\x01\0\0\x80\0\0\0\0")?;
    is(&rt, "ignored", &refusals(rt.alloc(), &ignored), &[None; 5]);
    is(
        &rt,
        "no lines",
        &ignored.line_program(rt.alloc())?.lines().count()?,
        &0,
    );
    let unknown = lines_info(&rt, b"\xfe\0\0\0\0\0\0\0")?;
    let refused = Some(Error::UnimplementedDebugSubsection(0xfe));
    is(
        &rt,
        "unknown",
        &refusals(rt.alloc(), &unknown),
        &[refused; 5],
    );
    Ok(())
}
