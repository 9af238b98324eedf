//! Tests of `help` and `list_help`.

use crate::commands::{COMMANDS, Command};
use crate::help::{VERSION, help_text};
use crate::list_help::LIST;
use crate::tests::fakes::is;
use crate::usage::put_usage;
use bstr::ByteSlice;
use std::test::Fail;

#[test]
fn the_help_of_all_has_each_command(rt: HostRuntime) -> Result<(), Fail> {
    let help = help_text(rt.alloc(), None)?;
    let first: &[u8] = b"pdb_tool prints what Microsoft symbol files (PDB) say about a program.\n";
    is(&rt, "first line", &help.starts_with(first), &true);
    for command in COMMANDS {
        let mut line = Vec::new(rt.alloc());
        line.extend_from_slice(b"\n  pdb_tool ")?;
        line.extend_from_slice(command.name().as_bytes())?;
        line.extend_from_slice(b" ")?;
        is(
            &rt,
            command.name(),
            &help.as_slice().find(line.as_slice()).is_some(),
            &true,
        );
    }
    Ok(())
}

#[test]
fn the_help_of_a_command_begins_with_its_usage(rt: HostRuntime) -> Result<(), Fail> {
    for command in COMMANDS {
        let help = help_text(rt.alloc(), Some(command))?;
        let mut front = Vec::new(rt.alloc());
        put_usage(&mut front, command)?;
        front.extend_from_slice(b"\n\n")?;
        is(
            &rt,
            command.name(),
            &help.starts_with(front.as_slice()),
            &true,
        );
        let mut example = Vec::new(rt.alloc());
        example.extend_from_slice(b"\n  $ pdb_tool ")?;
        example.extend_from_slice(command.name().as_bytes())?;
        is(
            &rt,
            command.name(),
            &help.as_slice().find(example.as_slice()).is_some(),
            &true,
        );
    }
    let help = help_text(rt.alloc(), Some(Command::Modules))?;
    let front: &[u8] = b"pdb_tool modules [--symbols=DIR].. [--json] FILE\n\nPrints the modules ";
    is(&rt, "modules", &help.starts_with(front), &true);
    Ok(())
}

#[test]
fn the_help_of_pdb_list_has_its_commands_and_22_errors(rt: HostRuntime) {
    let text = LIST.as_bytes();
    is(
        &rt,
        "first line",
        &text.starts_with(b"pdb_list FILE COMMAND..\n"),
        &true,
    );
    let pieces: [&[u8]; 16] = [
        b"\n  info  ",
        b"\n  names  ",
        b"\n  modules  ",
        b"\n  contributions\n",
        b"\n  sections  ",
        b"\n  globals  ",
        b"\n  symbols K  ",
        b"\n  lines K  ",
        b"\n  files K  ",
        b"\n  inlinees K  ",
        b"\n  imports K I  ",
        b"\n  exports K  ",
        b"\n   1  the data ends before a record does\n",
        b"\n   9  the file has no complete address map\n",
        b"\n  10  invalid length: ",
        b"\n  22  out of memory\n",
    ];
    for piece in pieces {
        is(&rt, "piece", &text.find(piece).is_some(), &true);
    }
}

#[test]
fn the_version_has_the_name_of_the_program(rt: HostRuntime) {
    is(&rt, "version", &VERSION, &"pdb_tool 0.1.0\n");
}
