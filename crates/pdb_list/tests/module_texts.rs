//! Lines, files, imports and exports of modules, as the commands tell them.

use super::texts::{SYMBOLS, with_module, writes};
use crate::command::Command;
use pdb_sample::streams::MODULE;
use std::alloc::Global;
use std::process::Abort;
use std::test::Fail;

/// The sample with this lines data writes this text by a command, and the symbols' own text.
fn tells(
    rt: &impl Abort,
    alloc: Global,
    command: Command,
    lines: &[u8],
    text: &[u8],
) -> Result<(), Fail> {
    let file = with_module(alloc, &MODULE[4..84], lines)?;
    let commands = [command, Command::Symbols(0)];
    writes(rt, alloc, &file, &commands, &[text, SYMBOLS])
}

#[test]
fn lines_have_columns_kinds_and_lengths(rt: HostRuntime) -> Result<(), Fail> {
    let columns =
        b"\xf2\0\0\0\x30\0\0\0\0\x01\0\0\x01\0\x01\0\x10\0\0\0\x07\0\0\0\x02\0\0\0\x24\0\0\0\0\0\0\0\x05\0\0\x80\x04\0\0\0\x06\0\0\x02\x01\0\x02\0\x05\0\xff\xff";
    let text = b"line 0001:00000100 4 7 5 5 1 2 S\nline 0001:00000104 12 7 6 8 5 65535 E\n";
    tells(&rt, rt.alloc(), Command::Lines(0), columns, text)?;
    let no_length =
        b"\xf2\0\0\0\x20\0\0\0\xff\xff\xff\xff\x0a\0\0\0\0\0\0\0\0\0\0\0\x01\0\0\0\x14\0\0\0\0\0\0\0\x05\0\0\x80";
    let text = b"line 000a:ffffffff 0 0 5 5 - - S\n";
    tells(&rt, rt.alloc(), Command::Lines(0), no_length, text)?;
    let behind_the_end =
        b"\xf2\0\0\0\x20\0\0\0\0\x01\0\0\x0a\0\0\0\x02\0\0\0\0\0\0\0\x01\0\0\0\x14\0\0\0\x08\0\0\0\x05\0\0\x80";
    let text = b"line 000a:00000108 - 0 5 5 - - S\n";
    tells(&rt, rt.alloc(), Command::Lines(0), behind_the_end, text)
}

#[test]
fn lines_are_told_up_to_the_fault(rt: HostRuntime) -> Result<(), Fail> {
    let damaged =
        b"\xf2\0\0\0\x34\0\0\0\0\x01\0\0\x01\0\0\0\x20\0\0\0\0\0\0\0\x02\0\0\0\x1c\0\0\0\0\0\0\0\x05\0\0\x80\x08\0\0\0\x06\0\0\x80\0\0\0\0\0\0\0\0\x0b\0\0\0";
    let text = b"line 0001:00000100 8 0 5 5 - - S\nerror 10\n";
    tells(&rt, rt.alloc(), Command::Lines(0), damaged, text)?;
    tells(&rt, rt.alloc(), Command::Files(0), damaged, b"")
}

#[test]
fn files_have_digests_of_their_kind(rt: HostRuntime) -> Result<(), Fail> {
    let files =
        b"\xf4\0\0\0\x68\0\0\0\x01\0\0\0\0\0\0\0\x02\0\0\0\x04\0abcd\0\0\x03\0\0\0\0\x01\0\0\x04\0\0\0\x14\x020123456789abcdefghij\0\0\x05\0\0\0\x20\x030123456789abcdef0123456789abcdef\0\0\xff\xff\xff\xff\x01\x01\xff\0";
    let text =
        b"file 1 none\nfile 2 none\nfile 3 md5\nfile 4 sha1 303132333435363738396162636465666768696a\nfile 5 sha256 3031323334353637383961626364656630313233343536373839616263646566\nfile 4294967295 md5 ff\n";
    tells(&rt, rt.alloc(), Command::Files(0), files, text)?;
    let unknown = b"\xf4\0\0\0\x10\0\0\0\x01\0\0\0\0\0\0\0\x02\0\0\0\0\x04\0\0";
    let text = b"file 1 none\nerror 14\n";
    tells(&rt, rt.alloc(), Command::Files(0), unknown, text)?;
    let cut = b"\xf4\0\0\0\x0e\0\0\0\x01\0\0\0\0\0\0\0\x02\0\0\0\0\x01";
    let text = b"file 1 none\nerror 1\n";
    tells(&rt, rt.alloc(), Command::Files(0), cut, text)
}

#[test]
fn imports_and_exports_have_numbers(rt: HostRuntime) -> Result<(), Fail> {
    let exports = b"\xf8\0\0\0\x10\0\0\0\x5c\x11\0\x80\x61\x11\0\0\xff\xff\xff\x7f\xff\xff\xff\xff";
    let text = b"export id 8000115c 00001161\nexport type 7fffffff ffffffff\n";
    tells(&rt, rt.alloc(), Command::Exports(0), exports, text)?;
    let odd = b"\xf8\0\0\0\x0c\0\0\0\x5c\x11\0\x80\x61\x11\0\0\0\0\0\0";
    tells(&rt, rt.alloc(), Command::Exports(0), odd, b"error 10\n")?;
    let imports =
        b"\xf7\0\0\0\x1c\0\0\0\x01\0\0\0\x01\0\0\0\x05\0\0\0\x01\0\0\0\x02\0\0\0\x06\0\0\0\x07\0\0\0";
    let command = Command::Imports(0, 0x8010_0001);
    tells(&rt, rt.alloc(), command, imports, b"import 1 00000007\n")?;
    let command = Command::Imports(0, 0x8000_0001);
    tells(&rt, rt.alloc(), command, imports, b"error 19\n")?;
    let endless = b"\xf7\0\0\0\x08\0\0\0\x01\0\0\0\xff\xff\xff\xff";
    tells(&rt, rt.alloc(), command, endless, b"error 1\n")?;
    // The module is looked for before the index.
    let command = Command::Imports(1, 1);
    tells(&rt, rt.alloc(), command, endless, b"none\n")
}
