//! Sizes that the sample tells of its parts, at each value and at the ends of their types.

use super::texts::{
    ERROR, EXPORTS, FILES, IMPORTS, INLINEES, LINES, OF_LINES, OF_MODULE, SITE, SYMBOLS, TEXTS,
    changed, refused, with_dbi_at, with_module_at, with_stream, writes, writes_all,
};
use crate::command::Command;
use crate::tests::fakes::is;
use pdb_sample::streams;
use std::alloc::Global;
use std::process::Abort;
use std::test::Fail;

const NOT_FOUND: &[u8] = b"error 19\n";

/// The text of a command that is whole from a size on, and below it is `none` where no part of the data is cut.
fn from_size(
    k: u32,
    from: u32,
    text: &'static [u8],
    is_cut: bool,
    none: &'static [u8],
) -> &'static [u8] {
    if k >= from {
        text
    } else if is_cut {
        ERROR
    } else {
        none
    }
}

/// The texts of the commands over so many bytes of the lines data. `lines` and `files` read all parts.
fn texts_of_lines(k: u32) -> [&'static [u8]; 5] {
    let is_cut = ![0u32, 32, 88, 108, 132, 152, 176].contains(&k);
    let (lines, files) = if is_cut {
        (ERROR, ERROR)
    } else {
        (LINES, FILES)
    };
    [
        from_size(k, 88, lines, is_cut, b""),
        from_size(k, 32, files, is_cut, b""),
        from_size(k, 132, INLINEES, is_cut, SITE),
        from_size(k, 152, IMPORTS, is_cut, NOT_FOUND),
        from_size(k, 176, EXPORTS, is_cut, b""),
    ]
}

#[test]
fn lines_data_of_each_size(rt: HostRuntime) -> Result<(), Fail> {
    for k in 0..177u32 {
        let file = with_dbi_at(rt.alloc(), 108, &k.to_le_bytes())?;
        writes(&rt, rt.alloc(), &file, &OF_LINES, &texts_of_lines(k))?;
        let texts = [TEXTS[0], TEXTS[5], SYMBOLS];
        let commands = [Command::Info, Command::Globals, Command::Symbols(0)];
        writes(&rt, rt.alloc(), &file, &commands, &texts)?;
    }
    Ok(())
}

/// The lines of the module's symbols that are whole in a part of `k` bytes.
fn whole_symbols(k: u32) -> &'static [u8] {
    let end = match k {
        0..48 => 0,
        48..76 => 36,
        76..80 => 68,
        80..84 => 103,
        _ => 133,
    };
    SYMBOLS.get(..end).unwrap_or(SYMBOLS)
}

#[test]
fn symbols_of_each_size(rt: HostRuntime) -> Result<(), Fail> {
    for k in 0..85u32 {
        let file = with_dbi_at(rt.alloc(), 100, &k.to_le_bytes())?;
        let whole = [0u32, 4, 48, 76, 80, 84].contains(&k);
        let fault = if whole { b"".as_slice() } else { ERROR };
        let texts = [whole_symbols(k), fault];
        writes(&rt, rt.alloc(), &file, &[Command::Symbols(0)], &texts)?;
    }
    Ok(())
}

/// Sizes that no part has.
const PAST: [u32; 4] = [0xffff, 0x7fff_ffff, 0x8000_0000, 0xffff_ffff];

#[test]
fn a_size_past_the_end_refuses_the_parts_behind(rt: HostRuntime) -> Result<(), Fail> {
    let behind_modules = [2usize, 3, 4, 6, 7, 8, 9, 10, 11];
    let rows: [(usize, &[usize]); 8] = [
        (24, &behind_modules),
        (28, &[3, 4]),
        (32, &[4]),
        (36, &[4]),
        (40, &[4]),
        (44, &[]),
        (48, &[4]),
        (52, &[4]),
    ];
    for (at, places) in rows {
        let texts = refused(places);
        for size in PAST {
            let file = with_dbi_at(rt.alloc(), at, &size.to_le_bytes())?;
            writes_all(&rt, rt.alloc(), &file, &texts)?;
        }
    }
    Ok(())
}

#[test]
fn names_of_a_size_past_the_end_are_refused(rt: HostRuntime) -> Result<(), Fail> {
    let mut texts = TEXTS;
    texts[1] = ERROR;
    // The size of the names, and how many there are.
    for at in [28usize, 39] {
        for size in PAST {
            let information = changed(rt.alloc(), &streams::INFORMATION, at, &size.to_le_bytes())?;
            let file = with_stream(rt.alloc(), 1, &information)?;
            writes_all(&rt, rt.alloc(), &file, &texts)?;
        }
    }
    Ok(())
}

#[test]
fn a_size_of_the_directory_counts_for_its_stream(rt: HostRuntime) -> Result<(), Fail> {
    let file = pdb_sample::file(rt.alloc())?;
    // Page 9 is the directory: a count, and the sizes of the streams 0 to 8.
    let at = 512 * 9 + 4 + 4 * 8;
    is(&rt, "its size", &file.get(at), &Some(&40));
    let rows: [(u32, &[u8]); 10] = [
        (0, b""),
        (1, ERROR),
        (39, ERROR),
        (41, ERROR),
        (512, ERROR),
        (513, ERROR),
        (0xffff, ERROR),
        (0x7fff_ffff, ERROR),
        (0xffff_fffe, ERROR),
        (0xffff_ffff, b"error 6\n"),
    ];
    for (size, text) in rows {
        let bad = changed(rt.alloc(), &file, at, &size.to_le_bytes())?;
        let mut texts = TEXTS;
        texts[4] = text;
        writes_all(&rt, rt.alloc(), &bad, &texts)?;
    }
    Ok(())
}

/// The commands over the module write these texts, whatever size above those of its parts stands at a place of the DBI
/// stream.
fn of_module(rt: &impl Abort, alloc: Global, at: usize, texts: &[&[u8]; 6]) -> Result<(), Fail> {
    for size in PAST {
        let file = with_dbi_at(alloc, at, &size.to_le_bytes())?;
        writes(rt, alloc, &file, &OF_MODULE, texts)?;
    }
    Ok(())
}

#[test]
fn sizes_of_a_module_count_for_its_parts(rt: HostRuntime) -> Result<(), Fail> {
    let alloc = rt.alloc();
    of_module(&rt, alloc, 100, &[ERROR, ERROR, ERROR, ERROR, ERROR, ERROR])?;
    let older: &[u8] = b"error 2\n";
    of_module(
        &rt,
        alloc,
        104,
        &[SYMBOLS, older, older, SITE, NOT_FOUND, b""],
    )?;
    of_module(
        &rt,
        alloc,
        108,
        &[SYMBOLS, ERROR, ERROR, ERROR, ERROR, ERROR],
    )
}

/// Where the parts of the sample's lines data begin in the module's stream.
const PARTS: [usize; 6] = [84, 116, 172, 192, 216, 236];

/// The texts of the commands where the part of a place is refused in this way: `lines` and `files` read all parts, the
/// others those up to the first one of their kind.
fn refused_from(part: usize, fault: &'static [u8]) -> [&'static [u8]; 5] {
    [
        fault,
        fault,
        if part <= 3 { fault } else { INLINEES },
        if part <= 4 { fault } else { IMPORTS },
        fault,
    ]
}

#[test]
fn a_part_past_the_end_refuses_those_who_read_it(rt: HostRuntime) -> Result<(), Fail> {
    for (part, at) in PARTS.iter().enumerate() {
        let texts = refused_from(part, ERROR);
        for size in PAST {
            let file = with_module_at(rt.alloc(), *at + 4, &size.to_le_bytes())?;
            writes(&rt, rt.alloc(), &file, &OF_LINES, &texts)?;
        }
    }
    Ok(())
}

#[test]
fn a_part_of_an_unknown_kind_refuses_those_who_read_it(rt: HostRuntime) -> Result<(), Fail> {
    for (part, at) in PARTS.iter().enumerate() {
        let texts = refused_from(part, b"error 13\n");
        for kind in [0u32, 1, 0xf0, 0xfe, 0xffff, 0x7fff_ffff] {
            let file = with_module_at(rt.alloc(), *at, &kind.to_le_bytes())?;
            writes(&rt, rt.alloc(), &file, &OF_LINES, &texts)?;
        }
    }
    Ok(())
}

#[test]
fn a_part_with_the_top_bit_is_passed_over(rt: HostRuntime) -> Result<(), Fail> {
    let rows: [(usize, usize, &[u8]); 6] = [
        (84, 1, b""),
        (116, 0, b""),
        (172, 0, LINES),
        (192, 2, SITE),
        (216, 3, NOT_FOUND),
        (236, 4, b""),
    ];
    for (at, command, text) in rows {
        let mut texts = [LINES, FILES, INLINEES, IMPORTS, EXPORTS];
        if command < 5 {
            texts[command] = text;
        }
        for kind in [0x8000_0000u32, 0x8000_00f6, 0xffff_fffe, 0xffff_ffff] {
            let file = with_module_at(rt.alloc(), at, &kind.to_le_bytes())?;
            writes(&rt, rt.alloc(), &file, &OF_LINES, &texts)?;
        }
    }
    Ok(())
}
