//! Tests of `messages`.

use crate::closest::closest;
use crate::commands::Command;
use crate::messages::*;
use crate::mistakes::{Mistake, TaskError, Wrong};
use crate::tasks::task_in;
use crate::tests::fakes::{is, words};
use std::process::Abort;
use std::test::Fail;

/// The line of the commands.
const COMMAND_LINE: &str =
    "commands: resolve variables find where lines scopes symbols types sources modules sections frames streams stream key store check help version";

/// How `resolve` is written.
const RESOLVE: &str =
    "usage: pdb_tool resolve [--base=HEX] [--key=KEY | --image=IMAGE] [--symbols=DIR].. [--addresses] [--offsets] [--json] FILE [ADDRESS..]";

/// Whether the message on the arguments of a line is this one, and behind it a second line.
fn says(
    rt: &(impl Abort + AllocGlobal),
    line: &str,
    message: &str,
    second: &str,
) -> Result<(), Fail> {
    let words = words(rt.alloc(), line)?;
    let mut out = Vec::new(rt.alloc());
    match task_in(rt.alloc(), &words) {
        Err(TaskError::Mistake(mistake)) => {
            let near = closest(word_at(&words, mistake.argument));
            put_mistake(&mut out, &words, mistake, near)?;
        }
        _ => out.extend_from_slice(b"no mistake")?,
    }
    let mut wanted = Vec::new(rt.alloc());
    for piece in ["pdb_tool: ", message, "\n", second, "\n"] {
        wanted.extend_from_slice(piece.as_bytes())?;
    }
    let given = String::from_utf8_lossy(rt.alloc(), &out)?;
    let wanted = String::from_utf8_lossy(rt.alloc(), &wanted)?;
    is(rt, line, &given, &wanted);
    Ok(())
}

#[test]
fn an_unknown_command_is_answered_by_the_commands(rt: HostRuntime) -> Result<(), Fail> {
    let rows = [
        (
            "reslove a",
            "unknown command: reslove; did you mean resolve?",
        ),
        ("Find a b", "unknown command: Find; did you mean find?"),
        ("lins a", "unknown command: lins; did you mean lines?"),
        ("disassemble a", "unknown command: disassemble"),
        ("", "unknown command: "),
        ("-j", "unknown command: -j"),
        (
            "help modul",
            "unknown command: modul; did you mean modules?",
        ),
        // A name can't forge a line.
        ("a\x1b[2J\nb", "unknown command: a [2J b"),
    ];
    for (line, message) in rows {
        says(&rt, line, message, COMMAND_LINE)?;
    }
    Ok(())
}

#[test]
fn a_wrong_option_is_answered_by_what_there_is(rt: HostRuntime) -> Result<(), Fail> {
    let rows = [
        (
            "resolve --bas=7 a",
            "unknown option --bas: resolve has --base --key --image --symbols --addresses --offsets --json",
        ),
        (
            "resolve a -x\n",
            "unknown option -x : resolve has --base --key --image --symbols --addresses --offsets --json",
        ),
        ("resolve --image", "--image needs a value: --image=IMAGE"),
        ("resolve a --base", "--base needs a value: --base=HEX"),
        ("resolve a --key", "--key needs a value: --key=KEY"),
        ("resolve --json=1 a", "--json takes no value"),
        ("resolve a --offsets=", "--offsets takes no value"),
        ("resolve --base=1 a --base=1", "--base is given twice"),
        ("resolve --image=b a --image b", "--image is given twice"),
        (
            "resolve --addresses --addresses",
            "--addresses is given twice",
        ),
        (
            "resolve --key=00112233445566778899AABBCCDDEEFF2 --image=b a",
            "--key and --image exclude each other",
        ),
        (
            "resolve --image=b --key 00112233445566778899AABBCCDDEEFF2 a",
            "--key and --image exclude each other",
        ),
        (
            "resolve --base=xyz a",
            "--base=xyz: HEX is 1 to 16 hex digits",
        ),
        ("resolve --base xyz a", "xyz: HEX is 1 to 16 hex digits"),
        ("resolve --key=00 a", "--key=00: KEY is 33 to 40 hex digits"),
        ("resolve --key 00 a", "00: KEY is 33 to 40 hex digits"),
    ];
    for (line, message) in rows {
        says(&rt, line, message, RESOLVE)?;
    }
    let rows = [
        (
            "modules -j a",
            "unknown option -j: modules has --symbols --json",
            "usage: pdb_tool modules [--symbols=DIR].. [--json] FILE",
        ),
        (
            "version --json",
            "unknown option --json: version has no options",
            "usage: pdb_tool version",
        ),
        (
            "help --all",
            "unknown option --all: help has no options",
            "usage: pdb_tool help [COMMAND]",
        ),
        (
            "check a --json b --json",
            "--json is given twice",
            "usage: pdb_tool check [--json] FILE..",
        ),
        (
            "variables a --offsets",
            "unknown option --offsets: variables has --base --key --image --symbols --addresses",
            "usage: pdb_tool variables [--base=HEX] [--key=KEY | --image=IMAGE] [--symbols=DIR].. [--addresses] FILE [ADDRESS..]",
        ),
    ];
    for (line, message, second) in rows {
        says(&rt, line, message, second)?;
    }
    Ok(())
}

#[test]
fn a_wrong_operand_is_answered_by_usage(rt: HostRuntime) -> Result<(), Fail> {
    let rows = [
        (
            "find",
            "FILE is missing",
            "usage: pdb_tool find [--symbols=DIR].. [--json] FILE NAME..",
        ),
        (
            "key --json",
            "FILE is missing",
            "usage: pdb_tool key [--path] [--json] FILE..",
        ),
        (
            "find a",
            "NAME is missing",
            "usage: pdb_tool find [--symbols=DIR].. [--json] FILE NAME..",
        ),
        (
            "find a ",
            "NAME is empty",
            "usage: pdb_tool find [--symbols=DIR].. [--json] FILE NAME..",
        ),
        (
            "stream a",
            "STREAM is missing",
            "usage: pdb_tool stream [--symbols=DIR].. FILE STREAM",
        ),
        (
            "stream a 1 2",
            "stream takes one STREAM, and not 2",
            "usage: pdb_tool stream [--symbols=DIR].. FILE STREAM",
        ),
        (
            "store a",
            "store needs a folder: --symbols=DIR",
            "usage: pdb_tool store [--symbols=DIR].. [--replace] FILE..",
        ),
        (
            "where a",
            "SOURCE is missing",
            "usage: pdb_tool where [--symbols=DIR].. [--json] FILE SOURCE..",
        ),
        (
            "where a :7",
            "':7' names no source file: write SOURCE, SOURCE:63 or SOURCE:63-70",
            "usage: pdb_tool where [--symbols=DIR].. [--json] FILE SOURCE..",
        ),
        (
            "where a x/a.c:9-7",
            "'x/a.c:9-7' names no lines: write the lower line first, as in SOURCE:63-70",
            "usage: pdb_tool where [--symbols=DIR].. [--json] FILE SOURCE..",
        ),
        (
            "modules a X",
            "modules takes one FILE, and not X",
            "usage: pdb_tool modules [--symbols=DIR].. [--json] FILE",
        ),
        (
            "sections a 0 1",
            "sections takes one FILE, and not 0",
            "usage: pdb_tool sections [--symbols=DIR].. [--json] FILE",
        ),
        (
            "streams a -- --x",
            "streams takes one FILE, and not --x",
            "usage: pdb_tool streams [--symbols=DIR].. [--json] FILE",
        ),
        (
            "help find key",
            "help takes one COMMAND, and not key",
            "usage: pdb_tool help [COMMAND]",
        ),
        (
            "version x",
            "version takes no operands, and not x",
            "usage: pdb_tool version",
        ),
        (
            "lines a x",
            "'x' is not the index of a module: pdb_tool modules FILE lists them",
            "usage: pdb_tool lines [--symbols=DIR].. FILE [K..]",
        ),
        (
            "symbols --all a 0",
            "0: symbols --all prints all modules, and takes no K",
            "usage: pdb_tool symbols [--symbols=DIR].. [--all] FILE [K..]",
        ),
        (
            "types a x",
            "'x' is not the index of a type: write HEX, as in 1000",
            "usage: pdb_tool types [--symbols=DIR].. FILE [INDEX..]",
        ),
        (
            "resolve a z\nz",
            "'z z' is not an address: write 1108, 0x1108 or 1:108; find prints the addresses of names",
            RESOLVE,
        ),
    ];
    for (line, message, second) in rows {
        says(&rt, line, message, second)?;
    }
    Ok(())
}

#[test]
fn a_message_is_appended(rt: HostRuntime) -> Result<(), Fail> {
    let near = words(rt.alloc(), "fnid")?;
    let mistake = Mistake {
        argument: 0,
        wrong: Wrong::UnknownCommand,
    };
    let mut out = Vec::new(rt.alloc());
    out.extend_from_slice(b"x\n")?;
    put_mistake(&mut out, &near, mistake, Some(Command::Find))?;
    let wanted: &[u8] = b"x\npdb_tool: unknown command: fnid; did you mean find?\ncommands: ";
    is(&rt, "text", &&out[..wanted.len()], &wanted);
    let far = words(rt.alloc(), "resolve a 140001108")?;
    let mistake = Mistake {
        argument: 2,
        wrong: Wrong::NeedsBase,
    };
    let mut out = Vec::new(rt.alloc());
    put_mistake(&mut out, &far, mistake, None)?;
    let wanted: &[u8] = b"pdb_tool: 140001108 needs the load address: --base=HEX\nusage: ";
    is(&rt, "far", &&out[..wanted.len()], &wanted);
    is(&rt, "first", &word_at(&near, 0), &"fnid");
    is(&rt, "none", &word_at(&near, 1), &"");
    is(&rt, "no argument", &word_at(&[], 0), &"");
    Ok(())
}
