//! Tests of `options`.

use crate::commands::command_of;
use crate::mistakes::{Mistake, TaskError, Wrong};
use crate::option_names::OptionName;
use crate::options::*;
use crate::tests::fakes::{is, words};
use std::alloc::Global;
use std::test::Fail;

/// What the options of a line say.
fn options_of(alloc: Global, line: &str) -> Result<Options, TaskError> {
    let all = words(alloc, line)?;
    Ok(options_in(command_of(&all), &all[1..], 1)?)
}

/// That an argument is wrong.
fn wrong(argument: usize, wrong: Wrong) -> Result<Options, TaskError> {
    Err(TaskError::Mistake(Mistake { argument, wrong }))
}

/// A base, and nothing else.
fn based(base: u64) -> Options {
    Options {
        base: Some(base),
        ..Options::default()
    }
}

/// The options with JSON as the format.
fn as_json(options: Options) -> Options {
    Options {
        format: OutputFormat::Json,
        ..options
    }
}

/// The options with each text behind its address.
fn with_addresses(options: Options) -> Options {
    Options {
        addresses: true,
        ..options
    }
}

/// The options with displacements.
fn with_offsets(options: Options) -> Options {
    Options {
        detail: Detail::Offsets,
        ..options
    }
}

/// The symbols of all modules.
fn of_all() -> Options {
    Options {
        all: true,
        ..Options::default()
    }
}

#[test]
fn options_stand_anywhere(rt: HostRuntime) {
    let none = Options::default();
    let rows = [
        ("resolve a", none),
        ("resolve", none),
        ("resolve --base=400000 a 1", based(0x400000)),
        ("resolve --base 0x400000 a 1", based(0x400000)),
        ("resolve a --base 400000h 1", based(0x400000)),
        ("resolve a 1 --base=00000000`00400000", based(0x400000)),
        ("resolve a 1 2 --base 400000", based(0x400000)),
        ("resolve --base=0 a", based(0)),
        ("resolve --base=ffffffffffffffff a", based(u64::MAX)),
        ("resolve a --addresses", with_addresses(none)),
        ("resolve --addresses --base 7 a", with_addresses(based(7))),
        ("resolve a --offsets", with_offsets(none)),
        ("resolve --offsets --base 7 a 1", with_offsets(based(7))),
        (
            "resolve --json 1 --addresses a --offsets 2 --base=7",
            as_json(with_addresses(with_offsets(based(7)))),
        ),
        ("variables --base=7 a --addresses", with_addresses(based(7))),
        ("symbols a --all", of_all()),
        ("symbols --all a", of_all()),
        ("key a b", none),
        // A dash alone is no option.
        ("key - --json -", as_json(none)),
        ("find a -", none),
    ];
    for (line, wanted) in rows {
        is(&rt, line, &options_of(rt.alloc(), line), &Ok(wanted));
    }
}

#[test]
fn nothing_behind_dashes_is_an_option(rt: HostRuntime) {
    let none = Options::default();
    let rows = [
        ("find -- a --json", Ok(none)),
        ("find --json -- a --json", Ok(as_json(none))),
        ("find a -- --json --", Ok(none)),
        ("find -- --nothing -x", Ok(none)),
        ("resolve -- --base", Ok(none)),
        ("resolve --base=7 -- a --base", Ok(based(7))),
        ("resolve --base 7 -- --base=x", Ok(based(7))),
        // The argument behind an option with a value is its value, also dashes.
        ("resolve --base -- 7", wrong(2, Wrong::BadBase)),
    ];
    for (line, wanted) in rows {
        is(&rt, line, &options_of(rt.alloc(), line), &wanted);
    }
}

#[test]
fn json_is_given_once(rt: HostRuntime) {
    let json = as_json(Options::default());
    let rows = [
        ("resolve --json a", json),
        ("resolve a 1 --json", json),
        ("resolve --base 7 --json a", as_json(based(7))),
        ("resolve --json --base=7 a", as_json(based(7))),
        ("modules --json a", json),
        ("sections a --json", json),
        ("streams --json a", json),
        ("key a --json b", json),
        ("find a --json b", json),
        ("where --json a b", json),
        ("sources a 0 --json", json),
        ("check --json a", json),
    ];
    for (line, wanted) in rows {
        is(&rt, line, &options_of(rt.alloc(), line), &Ok(wanted));
    }
    let twice = Wrong::GivenTwice(OptionName::Json);
    let rows = [
        ("check --json a --json", 3, twice),
        ("key --json a --json", 3, twice),
        ("resolve --json --json a", 2, twice),
        ("resolve --json a --json", 3, twice),
        (
            "resolve --json=1 a",
            1,
            Wrong::TakesNoValue(OptionName::Json),
        ),
        ("find a --json=", 2, Wrong::TakesNoValue(OptionName::Json)),
        ("resolve --jso a", 1, Wrong::UnknownOption),
        ("resolve --base --json a", 2, Wrong::BadBase),
        ("help --json", 1, Wrong::UnknownOption),
        ("version --json", 1, Wrong::UnknownOption),
    ];
    for (line, argument, what) in rows {
        is(
            &rt,
            line,
            &options_of(rt.alloc(), line),
            &wrong(argument, what),
        );
    }
}

#[test]
fn the_first_wrong_option_is_named(rt: HostRuntime) {
    let rows = [
        (
            "resolve --base 1 a --base 400000",
            5,
            Wrong::GivenTwice(OptionName::Base),
        ),
        (
            "resolve --base=1 a --base=1",
            3,
            Wrong::GivenTwice(OptionName::Base),
        ),
        (
            "resolve --addresses a --addresses",
            3,
            Wrong::GivenTwice(OptionName::Addresses),
        ),
        (
            "resolve --offsets a --offsets",
            3,
            Wrong::GivenTwice(OptionName::Offsets),
        ),
        (
            "symbols --all --all a",
            2,
            Wrong::GivenTwice(OptionName::All),
        ),
        (
            "resolve --addresses=1 a",
            1,
            Wrong::TakesNoValue(OptionName::Addresses),
        ),
        (
            "resolve a --offsets=",
            2,
            Wrong::TakesNoValue(OptionName::Offsets),
        ),
        ("symbols --all=0 a", 1, Wrong::TakesNoValue(OptionName::All)),
        ("resolve a --base", 3, Wrong::NeedsValue(OptionName::Base)),
        ("resolve --key", 2, Wrong::NeedsValue(OptionName::Key)),
        (
            "variables a 1 --image",
            4,
            Wrong::NeedsValue(OptionName::Image),
        ),
        ("resolve a --base x", 3, Wrong::BadBase),
        ("resolve a --base=", 2, Wrong::BadBase),
        ("resolve a --base=1:2", 2, Wrong::BadBase),
        ("resolve --base=00000000000000001 a", 1, Wrong::BadBase),
        ("resolve --base --base a", 2, Wrong::BadBase),
        ("resolve --bas=7 a", 1, Wrong::UnknownOption),
        ("resolve --Base=7 a", 1, Wrong::UnknownOption),
        ("resolve -base=7 a", 1, Wrong::UnknownOption),
        ("resolve ---base=7 a", 1, Wrong::UnknownOption),
        ("resolve a -1", 2, Wrong::UnknownOption),
        ("resolve a --all", 2, Wrong::UnknownOption),
        ("variables a --offsets", 2, Wrong::UnknownOption),
        ("symbols a --offsets", 2, Wrong::UnknownOption),
        ("symbols a --addresses", 2, Wrong::UnknownOption),
        ("lines --base=7 a", 1, Wrong::UnknownOption),
        ("check a --x b", 2, Wrong::UnknownOption),
        ("modules -j a", 1, Wrong::UnknownOption),
        ("key --image=b a", 1, Wrong::UnknownOption),
        ("lines a --image=b", 2, Wrong::UnknownOption),
        // The first of two.
        ("resolve --x --y a", 1, Wrong::UnknownOption),
        ("resolve --base=x --y a", 1, Wrong::BadBase),
    ];
    for (line, argument, what) in rows {
        is(
            &rt,
            line,
            &options_of(rt.alloc(), line),
            &wrong(argument, what),
        );
    }
}

/// A value behind the `=` of an argument.
fn joined(argument: usize) -> ValueAt {
    ValueAt {
        argument,
        is_joined: true,
    }
}

/// A value that is an argument.
fn alone(argument: usize) -> ValueAt {
    ValueAt {
        argument,
        is_joined: false,
    }
}

#[test]
fn one_option_names_the_wanted_file(rt: HostRuntime) {
    let rows = [
        (
            "resolve --key=00112233445566778899AABBCCDDEEFF2 a",
            Wanted::Key(joined(1)),
        ),
        (
            "resolve --key 00112233445566778899aabbccddeeff2 a",
            Wanted::Key(alone(2)),
        ),
        (
            "resolve a --key=00112233445566778899AABBCCDDEEFF12345678 1",
            Wanted::Key(joined(2)),
        ),
        (
            "resolve --key={00112233-4455-6677-8899-AABBCCDDEEFF}-2 a",
            Wanted::Key(joined(1)),
        ),
        (
            "variables --key -{0}0112233445566778899AABBCCDDEEFF2--- a",
            Wanted::Key(alone(2)),
        ),
        ("resolve --image=b a", Wanted::Image(joined(1))),
        ("resolve --image b a", Wanted::Image(alone(2))),
        ("resolve a --image=", Wanted::Image(joined(2))),
        ("resolve a --image --json", Wanted::Image(alone(3))),
        ("variables a 1 --image=x=y", Wanted::Image(joined(3))),
    ];
    for (line, wanted) in rows {
        let wanted = Options {
            wanted: Some(wanted),
            ..Options::default()
        };
        is(&rt, line, &options_of(rt.alloc(), line), &Ok(wanted));
    }
    let line = "resolve --base 7 --image=b a";
    let wanted = Options {
        wanted: Some(Wanted::Image(joined(3))),
        ..based(7)
    };
    is(&rt, line, &options_of(rt.alloc(), line), &Ok(wanted));
}

#[test]
fn a_wrong_key_or_a_second_one_is_named(rt: HostRuntime) {
    let rows = [
        (
            "resolve --key=00112233445566778899AABBCCDDEEFF a",
            1,
            Wrong::BadKey,
        ),
        (
            "resolve --key 00112233445566778899AABBCCDDEEFF a",
            2,
            Wrong::BadKey,
        ),
        (
            "resolve --key=00112233445566778899AABBCCDDEEFF123456789 a",
            1,
            Wrong::BadKey,
        ),
        (
            "resolve --key=00112233445566778899AABBCCDDEEFFG a",
            1,
            Wrong::BadKey,
        ),
        (
            "resolve --key=00112233445566778899AABBCCDDEEFF2G a",
            1,
            Wrong::BadKey,
        ),
        ("resolve --key= a", 1, Wrong::BadKey),
        ("resolve --key a", 2, Wrong::BadKey),
        (
            "resolve --key={}-----------------------------------{} a",
            1,
            Wrong::BadKey,
        ),
        (
            "resolve --image=b a --image=b",
            3,
            Wrong::GivenTwice(OptionName::Image),
        ),
        (
            "resolve --image b a --image c",
            5,
            Wrong::GivenTwice(OptionName::Image),
        ),
        (
            "resolve --key=00112233445566778899AABBCCDDEEFF2 --key=00112233445566778899AABBCCDDEEFF2 a",
            2,
            Wrong::GivenTwice(OptionName::Key),
        ),
        (
            "resolve --image=b a --key=00112233445566778899AABBCCDDEEFF2",
            3,
            Wrong::KeyAndImage,
        ),
        (
            "resolve --key=00112233445566778899AABBCCDDEEFF2 --image b a",
            3,
            Wrong::KeyAndImage,
        ),
    ];
    for (line, argument, what) in rows {
        is(
            &rt,
            line,
            &options_of(rt.alloc(), line),
            &wrong(argument, what),
        );
    }
}

#[test]
fn values_are_read_where_they_stand(rt: HostRuntime) -> Result<(), Fail> {
    let all = words(rt.alloc(), "resolve --image=b=c --image d=e --image=")?;
    let rows = [
        (joined(1), "b=c"),
        (alone(1), "--image=b=c"),
        (alone(3), "d=e"),
        (joined(4), ""),
        (alone(0), "resolve"),
        (joined(5), ""),
        (alone(5), ""),
    ];
    for (at, wanted) in rows {
        is(&rt, "value", &value_in(&all, at), &wanted);
    }
    Ok(())
}

#[test]
fn arguments_of_each_kind(rt: HostRuntime) {
    // Whether it is spelled as an option is, and whether it ends the options.
    let rows = [
        ("", false, false),
        ("-", false, false),
        ("a", false, false),
        ("a-b", false, false),
        ("-a", true, false),
        ("--a", true, false),
        ("--", true, true),
        ("---", true, false),
        ("- ", true, false),
    ];
    for (word, is_option, ends) in rows {
        is(&rt, word, &is_option_word(word), &is_option);
        is(&rt, word, &is_dashes(word), &ends);
    }
    for byte in [b'0', b'9', b'a', b'f', b'A', b'F'] {
        is(&rt, "digit", &is_key_digit(byte), &true);
    }
    for byte in [b'/', b':', b'g', b'G', b'{', b'}', b'-', b'@', b'`', b'\0'] {
        is(&rt, "none", &is_key_digit(byte), &false);
    }
}

#[test]
fn what_is_expected_behind_an_argument(rt: HostRuntime) {
    let rows = [
        (Next::Word, "a", Next::Word),
        (Next::Word, "-", Next::Word),
        (Next::Word, "--", Next::Operand),
        (Next::Word, "--base", Next::Value(OptionName::Base)),
        (Next::Word, "--key", Next::Value(OptionName::Key)),
        (Next::Word, "--image", Next::Value(OptionName::Image)),
        (Next::Word, "--base=7", Next::Word),
        (Next::Word, "--json", Next::Word),
        (Next::Word, "--nothing", Next::Word),
        (Next::Value(OptionName::Base), "--", Next::Word),
        (Next::Value(OptionName::Key), "--base", Next::Word),
        (Next::Operand, "--", Next::Operand),
        (Next::Operand, "--base", Next::Operand),
        (Next::Operand, "a", Next::Operand),
    ];
    for (next, word, wanted) in rows {
        is(&rt, word, &behind_word(next, word), &wanted);
    }
}

#[test]
fn a_base_of_ones_own_is_taken_where_none_is_given(rt: HostRuntime) {
    let own = 0x1_4000_0000;
    is(
        &rt,
        "none",
        &Options::default().with_base_of(own, 7),
        &Options {
            own_size: 7,
            ..based(own)
        },
    );
    is(&rt, "given", &based(0).with_base_of(own, 7), &based(0));
    let json = as_json(Options::default());
    is(
        &rt,
        "others",
        &json.with_base_of(own, 0),
        &as_json(based(own)),
    );
}

#[test]
fn keys_are_written_as_options_say(rt: HostRuntime) -> Result<(), Fail> {
    let rows = [
        ("key a", KeyFormat::Names),
        ("key --path a", KeyFormat::Paths),
        ("key --json a", KeyFormat::Json),
        ("key a --json --path", KeyFormat::Json),
    ];
    for (line, wanted) in rows {
        let options = options_of(rt.alloc(), line).ok().expect(&rt, line);
        is(&rt, line, &options.key_format(), &wanted);
    }
    let twice = wrong(3, Wrong::GivenTwice(OptionName::Path));
    is(
        &rt,
        "twice",
        &options_of(rt.alloc(), "key --path a --path"),
        &twice,
    );
    let valued = wrong(1, Wrong::TakesNoValue(OptionName::Path));
    is(
        &rt,
        "a value",
        &options_of(rt.alloc(), "key --path=a"),
        &valued,
    );
    let unknown = wrong(1, Wrong::UnknownOption);
    is(
        &rt,
        "another",
        &options_of(rt.alloc(), "check --path a"),
        &unknown,
    );
    Ok(())
}

/// The options that have their first folder of symbol files there, and nothing else.
fn in_folder(argument: usize, is_joined: bool) -> Options {
    Options {
        folder: Some(ValueAt {
            argument,
            is_joined,
        }),
        ..Options::default()
    }
}

#[test]
fn folders_are_given_any_number_of_times(rt: HostRuntime) -> Result<(), Fail> {
    let rows = [
        (
            "resolve --symbols=a --symbols b --symbols=a c",
            Ok(in_folder(1, true)),
        ),
        ("find --symbols= a b", Ok(in_folder(1, true))),
        ("find a --symbols b --symbols=c", Ok(in_folder(3, false))),
        ("find a b", Ok(Options::default())),
        (
            "store a --replace --symbols=b",
            Ok(Options {
                replace: true,
                ..in_folder(3, true)
            }),
        ),
        (
            "store --replace --replace a",
            wrong(2, Wrong::GivenTwice(OptionName::Replace)),
        ),
        (
            "store --replace=1 a",
            wrong(1, Wrong::TakesNoValue(OptionName::Replace)),
        ),
        ("find --replace a b", wrong(1, Wrong::UnknownOption)),
        (
            "types --symbols",
            wrong(2, Wrong::NeedsValue(OptionName::Symbols)),
        ),
        ("key --symbols=a b", wrong(1, Wrong::UnknownOption)),
    ];
    for (line, wanted) in rows {
        is(&rt, line, &options_of(rt.alloc(), line), &wanted);
    }
    Ok(())
}
