//! Tests of `commands`.

use crate::commands::*;
use crate::tests::fakes::{is, words};
use std::test::Fail;

/// Each command by its name, and its operands.
const ROWS: [(Command, &str, &str); 19] = [
    (Command::Resolve, "resolve", "FILE [ADDRESS..]"),
    (Command::Variables, "variables", "FILE [ADDRESS..]"),
    (Command::Find, "find", "FILE NAME.."),
    (Command::Where, "where", "FILE SOURCE.."),
    (Command::Lines, "lines", "FILE [K..]"),
    (Command::Scopes, "scopes", "FILE [K..]"),
    (Command::Symbols, "symbols", "FILE [K..]"),
    (Command::Types, "types", "FILE [INDEX..]"),
    (Command::Sources, "sources", "FILE [K..]"),
    (Command::Modules, "modules", "FILE"),
    (Command::Sections, "sections", "FILE"),
    (Command::Frames, "frames", "FILE"),
    (Command::Streams, "streams", "FILE"),
    (Command::Stream, "stream", "FILE STREAM"),
    (Command::Key, "key", "FILE.."),
    (Command::Store, "store", "FILE.."),
    (Command::Check, "check", "FILE.."),
    (Command::Help, "help", "[COMMAND]"),
    (Command::Version, "version", ""),
];

#[test]
fn each_command_has_a_name_and_operands(rt: HostRuntime) {
    for ((command, name, operands), listed) in ROWS.iter().zip(COMMANDS) {
        is(&rt, name, &listed, command);
        is(&rt, name, &command.name(), name);
        is(&rt, name, &command.operands(), operands);
        is(&rt, name, &command_in(name), &Some(*command));
        is(&rt, name, &named_in(name), &Some(*command));
    }
}

#[test]
fn other_words_name_no_command(rt: HostRuntime) {
    for word in [
        "", "Resolve", "resolv", "resolve ", "list", "pdb_tool", "-v",
    ] {
        is(&rt, word, &command_in(word), &None);
        is(&rt, word, &named_in(word), &None);
    }
    let rows = [
        ("-V", Command::Version),
        ("--version", Command::Version),
        ("-h", Command::Help),
        ("--help", Command::Help),
    ];
    for (word, command) in rows {
        is(&rt, word, &command_in(word), &None);
        is(&rt, word, &named_in(word), &Some(command));
    }
}

#[test]
fn the_first_argument_names_the_command(rt: HostRuntime) -> Result<(), Fail> {
    let rows = [
        ("find a b", Command::Find),
        ("-V find", Command::Version),
        ("nothing find", Command::Help),
        ("", Command::Help),
    ];
    for (line, wanted) in rows {
        is(&rt, line, &command_of(&words(rt.alloc(), line)?), &wanted);
    }
    is(&rt, "no argument", &command_of(&[]), &Command::Help);
    Ok(())
}
