//! Damaged tables, as the commands tell them.

use super::texts::{
    EXPORTS, FILES, INLINEES, LINES, TEXTS, joined, with_dbi_at, with_module, writes, writes_all,
};
use crate::command::Command;
use crate::tests::fakes::is;
use pdb_sample::streams;
use std::test::Fail;

#[test]
fn a_module_without_a_stream_is_none(rt: HostRuntime) -> Result<(), Fail> {
    let file = with_dbi_at(rt.alloc(), 98, b"\xff\xff")?;
    let mut texts = TEXTS;
    texts[2] = b"module 0 - 84 0 176 a.obj\nobject a.obj\n";
    for i in 6..12usize {
        texts[i] = b"none\n";
    }
    writes_all(&rt, rt.alloc(), &file, &texts)
}

#[test]
fn a_module_whose_stream_is_absent_is_refused(rt: HostRuntime) -> Result<(), Fail> {
    for number in [2u16, 4, 9, 0x7fff, 0xfffe] {
        let file = with_dbi_at(rt.alloc(), 98, &number.to_le_bytes())?;
        for command in [Command::Symbols(0), Command::Lines(0), Command::Exports(0)] {
            writes(&rt, rt.alloc(), &file, &[command], &[b"error 6\n"])?;
        }
    }
    Ok(())
}

#[test]
fn a_module_past_the_last_one_is_none(rt: HostRuntime) -> Result<(), Fail> {
    let file = pdb_sample::file(rt.alloc())?;
    for k in [1u32, 0xffff, 0x7fff_ffff, 0xffff_ffff] {
        let commands = [
            Command::Symbols(k),
            Command::Lines(k),
            Command::Files(k),
            Command::Inlinees(k),
            Command::Imports(k, 1),
            Command::Exports(k),
        ];
        writes(
            &rt,
            rt.alloc(),
            &file,
            &commands,
            &[b"none\n".as_slice(); 6],
        )?;
    }
    Ok(())
}

#[test]
fn an_index_that_no_module_has_is_refused(rt: HostRuntime) -> Result<(), Fail> {
    let file = pdb_sample::file(rt.alloc())?;
    for (index, text) in [
        (0u32, b"error 18\n"),
        (1, b"error 18\n"),
        (0x7fff_ffff, b"error 18\n"),
        (0x8000_0001, b"error 19\n"),
        (0x8010_0000, b"error 19\n"),
        (0xffff_ffff, b"error 19\n"),
    ] {
        let command = Command::Imports(0, index);
        writes(&rt, rt.alloc(), &file, &[command], &[text])?;
    }
    Ok(())
}

/// A part of two inlined functions of one id, from the lines 10 and 20.
const TWO_OF_ONE_ID: &[u8] =
    b"\xf6\0\0\0\x1c\0\0\0\0\0\0\0\x01\x10\0\0\0\0\0\0\x0a\0\0\0\x01\x10\0\0\0\0\0\0\x14\0\0\0";

#[test]
fn the_first_inlined_function_with_an_id_is_taken(rt: HostRuntime) -> Result<(), Fail> {
    let parts = [
        &streams::MODULE[84..192],
        TWO_OF_ONE_ID,
        &streams::MODULE[216..],
    ];
    let lines = joined(rt.alloc(), &parts)?;
    is(&rt, "twelve bytes more", &lines.len(), &188);
    let file = with_module(rt.alloc(), &streams::MODULE[4..84], &lines)?;
    let both = [b"inlinee 00001001\n", INLINEES];
    writes(&rt, rt.alloc(), &file, &[Command::Inlinees(0)], &both)?;
    let commands = [Command::Lines(0), Command::Files(0), Command::Exports(0)];
    writes(&rt, rt.alloc(), &file, &commands, &[LINES, FILES, EXPORTS])
}
