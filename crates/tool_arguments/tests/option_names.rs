//! Tests of `option_names`.

use crate::commands::{COMMANDS, Command};
use crate::option_names::*;
use crate::tests::fakes::is;

#[test]
fn each_option_has_a_name_and_perhaps_a_value(rt: HostRuntime) {
    let rows = [
        (OptionName::Base, "--base", "HEX"),
        (OptionName::Key, "--key", "KEY"),
        (OptionName::Image, "--image", "IMAGE"),
        (OptionName::Symbols, "--symbols", "DIR"),
        (OptionName::Addresses, "--addresses", ""),
        (OptionName::Offsets, "--offsets", ""),
        (OptionName::All, "--all", ""),
        (OptionName::Path, "--path", ""),
        (OptionName::Replace, "--replace", ""),
        (OptionName::Json, "--json", ""),
    ];
    for ((option, name, value), listed) in rows.iter().zip(OPTIONS) {
        is(&rt, name, &listed, option);
        is(&rt, name, &option.spelled(), name);
        is(&rt, name, &option.placeholder(), value);
        is(&rt, name, &option_in(name), &Some(*option));
    }
    // The beginning of a name is none.
    for word in [
        "", "-", "--", "--bas", "--base=", "--js", "--JSON", "base", "-j",
    ] {
        is(&rt, word, &option_in(word), &None);
    }
}

/// How many commands have an option.
fn commands_with(option: OptionName) -> usize {
    let mut count = 0;
    for command in COMMANDS {
        if has_option(command, option) {
            count += 1;
        }
    }
    count
}

#[test]
fn commands_have_the_options_of_usage(rt: HostRuntime) {
    let in_folders = [
        Command::Resolve,
        Command::Variables,
        Command::Find,
        Command::Where,
        Command::Lines,
        Command::Scopes,
        Command::Symbols,
        Command::Types,
        Command::Sources,
        Command::Modules,
        Command::Sections,
        Command::Frames,
        Command::Streams,
        Command::Stream,
        Command::Store,
    ];
    let rows: [(OptionName, &[Command]); 9] = [
        (OptionName::Base, &[Command::Resolve, Command::Variables]),
        (OptionName::Key, &[Command::Resolve, Command::Variables]),
        (OptionName::Image, &[Command::Resolve, Command::Variables]),
        (
            OptionName::Addresses,
            &[Command::Resolve, Command::Variables],
        ),
        (OptionName::Offsets, &[Command::Resolve]),
        (OptionName::All, &[Command::Symbols]),
        (OptionName::Path, &[Command::Key]),
        (OptionName::Replace, &[Command::Store]),
        (OptionName::Symbols, &in_folders),
    ];
    for (option, commands) in rows {
        is(
            &rt,
            option.spelled(),
            &commands_with(option),
            &commands.len(),
        );
        for command in commands {
            is(&rt, option.spelled(), &has_option(*command, option), &true);
        }
    }
    // The commands that take --json, and those that never will.
    let with_json = [
        Command::Resolve,
        Command::Find,
        Command::Where,
        Command::Sources,
        Command::Modules,
        Command::Sections,
        Command::Frames,
        Command::Streams,
        Command::Key,
        Command::Check,
    ];
    for command in with_json {
        is(
            &rt,
            command.name(),
            &has_option(command, OptionName::Json),
            &true,
        );
    }
    for command in [Command::Help, Command::Version] {
        is(
            &rt,
            command.name(),
            &has_option(command, OptionName::Json),
            &false,
        );
    }
}

#[test]
fn the_first_equals_sign_ends_the_name(rt: HostRuntime) {
    let rows = [
        ("--base=7", "--base", Some("7")),
        ("--image=a=b", "--image", Some("a=b")),
        ("--image=", "--image", Some("")),
        ("--base", "--base", None),
        ("=", "", Some("")),
        ("", "", None),
        ("--\u{436}=\u{436}", "--\u{436}", Some("\u{436}")),
    ];
    for (word, name, value) in rows {
        is(&rt, word, &name_part(word), &name);
        is(&rt, word, &value_part(word), &value);
    }
}
