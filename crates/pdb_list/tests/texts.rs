//! The sample with other bytes, and the texts of all commands over the sample.

use crate::SAMPLE_COMMANDS;
use crate::command::Command;
use crate::engine::run;
use crate::tests::fakes::{Slow, is};
use pdb::{Error, MemorySource};
use pdb_sample::streams;
use std::alloc::Global;
use std::process::Abort;
use std::test::Fail;

pub const INFORMATION: &[u8] = b"info 20000404 1 2 00112233445566778899aabbccddeeff\n";

pub const INFO: &[u8] = b"info 20000404 1 2 00112233445566778899aabbccddeeff\ndbi 2 Amd64\n";

pub const NAMES: &[u8] = b"name 7 /names\n";

pub const MODULES: &[u8] = b"module 0 6 84 0 176 a.obj\nobject a.obj\n";

pub const CONTRIBUTIONS: &[u8] = b"contribution 0001:00000100 48 60500020 0 00000000 00000000\n";

pub const SECTIONS: &[u8] = b"section 00001000 00001000 00000200 00000400 60000020 .text\n";

pub const GLOBALS: &[u8] =
    b"symbol 00000000 110e Public main\nsymbol 00000014 1108 UserDefinedType va_list\nsymbol 00000024 1125 ProcedureReference main\nsymbol 00000038 1107 Constant ONE\nsymbol 00000048 110d Data g\nsymbol 00000058 1012 refused 12\n";

pub const SYMBOLS: &[u8] =
    b"symbol 00000004 1110 Procedure main\nsymbol 00000030 114d InlineSite\nsymbol 0000004c 114e InlineSiteEnd\nsymbol 00000050 0006 ScopeEnd\n";

pub const LINES: &[u8] = b"line 0001:00000100 8 0 1 1 - - S\nline 0001:00000108 8 0 2 2 - - S\n";

pub const FILES: &[u8] = b"file 1 md5 000102030405060708090a0b0c0d0e0f\n";

pub const INLINEES: &[u8] =
    b"inlinee 00001001\nsite 00000030 00001001\nline 0001:00000108 2 0 10 11 - - S\nline 0001:0000010e 5 0 12 13 - - S\n";

/// `inlinees` where no inlined function is listed.
pub const SITE: &[u8] = b"site 00000030 00001001\n";

pub const IMPORTS: &[u8] = b"import 1 80001368\n";

pub const EXPORTS: &[u8] = b"export type 00001020 00000001\nexport type 0000101f 00000002\n";

/// The texts of all commands over the sample, in the order of `SAMPLE_COMMANDS`.
pub const TEXTS: [&[u8]; 12] = [
    INFO,
    NAMES,
    MODULES,
    CONTRIBUTIONS,
    SECTIONS,
    GLOBALS,
    SYMBOLS,
    LINES,
    FILES,
    INLINEES,
    IMPORTS,
    EXPORTS,
];

/// The commands over a module, which are the last six of all.
pub const OF_MODULE: [Command; 6] = [
    Command::Symbols(0),
    Command::Lines(0),
    Command::Files(0),
    Command::Inlinees(0),
    Command::Imports(0, 2147483648),
    Command::Exports(0),
];

/// Those of them that read the lines data.
pub const OF_LINES: [Command; 5] = [
    Command::Lines(0),
    Command::Files(0),
    Command::Inlinees(0),
    Command::Imports(0, 2147483648),
    Command::Exports(0),
];

/// A refusal as end of data.
pub const ERROR: &[u8] = b"error 1\n";

/// The texts of all commands over the sample, where those of these places are refused as end of data.
pub fn refused(places: &[usize]) -> [&'static [u8]; 12] {
    let mut texts = TEXTS;
    for i in 0..12usize {
        if places.contains(&i) {
            texts[i] = ERROR;
        }
    }
    texts
}

/// Some texts, one after the other.
pub fn joined(alloc: Global, texts: &[&[u8]]) -> Result<Vec<u8>, Fail> {
    let mut all = Vec::new(alloc);
    for text in texts {
        all.extend_from_slice(text)?;
    }
    Ok(all)
}

/// Other bytes at a place.
pub fn put(bytes: &mut Vec<u8>, at: usize, part: &[u8]) {
    for (i, byte) in part.iter().enumerate() {
        if at < bytes.len() && i < bytes.len() - at {
            bytes[at + i] = *byte;
        }
    }
}

/// Bytes with other ones at a place.
pub fn changed(alloc: Global, bytes: &[u8], at: usize, part: &[u8]) -> Result<Vec<u8>, Fail> {
    let mut all = Vec::new(alloc);
    all.extend_from_slice(bytes)?;
    put(&mut all, at, part);
    Ok(all)
}

/// The sample with another DBI stream, and with other bytes of one stream.
pub fn sample_with<'b>(
    alloc: Global,
    dbi: &'b [u8],
    number: usize,
    bytes: &'b [u8],
) -> Result<Vec<u8>, Error> {
    let mut all: [Option<&'b [u8]>; 9] = [
        Some(&[]),
        Some(&streams::INFORMATION),
        None,
        Some(dbi),
        None,
        Some(&streams::SYMBOLS),
        Some(&streams::MODULE),
        Some(&streams::STRINGS),
        Some(&streams::SECTIONS),
    ];
    if number < 9 {
        all[number] = Some(bytes);
    }
    pdb_sample::file_of(alloc, &all)
}

/// The sample with other bytes of one stream.
pub fn with_stream(alloc: Global, number: usize, bytes: &[u8]) -> Result<Vec<u8>, Error> {
    sample_with(alloc, &streams::DBI, number, bytes)
}

/// The sample whose module has these symbols, behind their signature, and this lines data.
pub fn with_module(alloc: Global, symbols: &[u8], lines: &[u8]) -> Result<Vec<u8>, Fail> {
    let module = joined(alloc, &[b"\x04\0\0\0", symbols, lines])?;
    let size = u32::try_from(symbols.len())?.wrapping_add(4);
    let dbi = changed(alloc, &streams::DBI, 100, &size.to_le_bytes())?;
    let size = u32::try_from(lines.len())?;
    let dbi = changed(alloc, &dbi, 108, &size.to_le_bytes())?;
    Ok(sample_with(alloc, &dbi, 6, &module)?)
}

/// The sample with other bytes at a place of the DBI stream.
pub fn with_dbi_at(alloc: Global, at: usize, part: &[u8]) -> Result<Vec<u8>, Fail> {
    let dbi = changed(alloc, &streams::DBI, at, part)?;
    Ok(with_stream(alloc, 3, &dbi)?)
}

/// The sample with other bytes at a place of the module's stream.
pub fn with_module_at(alloc: Global, at: usize, part: &[u8]) -> Result<Vec<u8>, Fail> {
    let bytes = changed(alloc, &streams::MODULE, at, part)?;
    Ok(with_stream(alloc, 6, &bytes)?)
}

/// A run over a file writes these texts, one after the other.
pub fn writes(
    rt: &impl Abort,
    alloc: Global,
    file: &[u8],
    commands: &[Command],
    texts: &[&[u8]],
) -> Result<(), Fail> {
    let text = joined(alloc, texts)?;
    let mut out = Slow::new(alloc, 4096, 4096);
    let ended = run(alloc, MemorySource::new(file), commands, &mut out);
    is(rt, "run", &ended, &Ok(()));
    is(rt, "text", &out.taken(), &text.as_slice());
    Ok(())
}

/// A run of all commands over a file writes these texts.
pub fn writes_all(
    rt: &impl Abort,
    alloc: Global,
    file: &[u8],
    texts: &[&[u8]],
) -> Result<(), Fail> {
    writes(rt, alloc, file, &SAMPLE_COMMANDS, texts)
}
