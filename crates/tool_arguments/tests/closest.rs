//! Tests of `closest`.

use crate::closest::closest;
use crate::commands::{COMMANDS, Command};
use crate::tests::fakes::is;

#[test]
fn the_closest_command_has_two_other_letters_at_most(rt: HostRuntime) {
    let rows = [
        ("reslove", Some(Command::Resolve)),
        ("kye", Some(Command::Key)),
        ("strems", Some(Command::Streams)),
        ("scope", Some(Command::Scopes)),
        ("line", Some(Command::Lines)),
        ("sectionss", Some(Command::Sections)),
        ("resolver!", Some(Command::Resolve)),
        ("Check", Some(Command::Check)),
        ("verson", Some(Command::Version)),
        ("varables", Some(Command::Variables)),
        ("resolve!!!", None),
        ("", None),
        ("x", None),
        ("abcdefghijklmnop", None),
        ("abcdefghijklmnopq", None),
    ];
    for (word, wanted) in rows {
        is(&rt, word, &closest(word), &wanted);
    }
    for command in COMMANDS {
        let name = command.name();
        is(&rt, name, &closest(name), &Some(command));
    }
}
