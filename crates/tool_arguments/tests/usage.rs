//! Tests of `usage`.

use crate::commands::Command;
use crate::tests::fakes::is;
use crate::usage::*;
use std::test::Fail;

#[test]
fn usage_has_the_options_before_the_operands(rt: HostRuntime) -> Result<(), Fail> {
    // The command, its usage, and the names of its options.
    let rows: [(Command, &[u8], &[u8]); 19] = [
        (
            Command::Resolve,
            b"pdb_tool resolve [--base=HEX] [--key=KEY | --image=IMAGE] [--symbols=DIR].. [--addresses] [--offsets] [--json] FILE [ADDRESS..]",
            b" --base --key --image --symbols --addresses --offsets --json",
        ),
        (
            Command::Variables,
            b"pdb_tool variables [--base=HEX] [--key=KEY | --image=IMAGE] [--symbols=DIR].. [--addresses] FILE [ADDRESS..]",
            b" --base --key --image --symbols --addresses",
        ),
        (
            Command::Find,
            b"pdb_tool find [--symbols=DIR].. [--json] FILE NAME..",
            b" --symbols --json",
        ),
        (
            Command::Where,
            b"pdb_tool where [--symbols=DIR].. [--json] FILE SOURCE..",
            b" --symbols --json",
        ),
        (
            Command::Lines,
            b"pdb_tool lines [--symbols=DIR].. FILE [K..]",
            b" --symbols",
        ),
        (
            Command::Scopes,
            b"pdb_tool scopes [--symbols=DIR].. FILE [K..]",
            b" --symbols",
        ),
        (
            Command::Symbols,
            b"pdb_tool symbols [--symbols=DIR].. [--all] FILE [K..]",
            b" --symbols --all",
        ),
        (
            Command::Types,
            b"pdb_tool types [--symbols=DIR].. FILE [INDEX..]",
            b" --symbols",
        ),
        (
            Command::Sources,
            b"pdb_tool sources [--symbols=DIR].. [--json] FILE [K..]",
            b" --symbols --json",
        ),
        (
            Command::Modules,
            b"pdb_tool modules [--symbols=DIR].. [--json] FILE",
            b" --symbols --json",
        ),
        (
            Command::Sections,
            b"pdb_tool sections [--symbols=DIR].. [--json] FILE",
            b" --symbols --json",
        ),
        (
            Command::Frames,
            b"pdb_tool frames [--symbols=DIR].. [--json] FILE",
            b" --symbols --json",
        ),
        (
            Command::Streams,
            b"pdb_tool streams [--symbols=DIR].. [--json] FILE",
            b" --symbols --json",
        ),
        (
            Command::Stream,
            b"pdb_tool stream [--symbols=DIR].. FILE STREAM",
            b" --symbols",
        ),
        (
            Command::Store,
            b"pdb_tool store [--symbols=DIR].. [--replace] FILE..",
            b" --symbols --replace",
        ),
        (
            Command::Key,
            b"pdb_tool key [--path] [--json] FILE..",
            b" --path --json",
        ),
        (
            Command::Check,
            b"pdb_tool check [--json] FILE..",
            b" --json",
        ),
        (Command::Help, b"pdb_tool help [COMMAND]", b""),
        (Command::Version, b"pdb_tool version", b""),
    ];
    for (command, usage, names) in rows {
        let mut out = Vec::new(rt.alloc());
        out.push(b'x')?;
        put_usage(&mut out, command)?;
        is(&rt, "before", &out[0], &b'x');
        is(&rt, command.name(), &&out.as_slice()[1..], &usage);
        let mut out = Vec::new(rt.alloc());
        put_option_names(&mut out, command)?;
        is(&rt, command.name(), &out.as_slice(), &names);
        is(
            &rt,
            command.name(),
            &has_options(command),
            &!names.is_empty(),
        );
    }
    Ok(())
}
