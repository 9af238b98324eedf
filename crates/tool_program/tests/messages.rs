//! Messages on what went wrong.

use super::program::{Fakes, one, said};
use crate::tasks::exit_status;
use crate::tests::fakes::is;
use std::process::Abort;
use std::test::Fail;

// The program ends with this status, and writes this to standard error and nothing to standard output.
fn fails(
    rt: &impl Abort,
    host: &Fakes<'_>,
    words: &[&str],
    status: u8,
    wanted: &str,
) -> Result<(), Fail> {
    let given = said(host, words, b"")?;
    is(rt, "err", &given.err.as_slice(), &wanted.as_bytes());
    is(rt, "status", &exit_status(given.result), &status);
    is(rt, "out", &given.out.len(), &0);
    Ok(())
}

/// Files that are no PDB: a text, an image without its headers, nothing, and a packed one.
static FILES: [(&str, &[u8]); 4] = [
    ("text", b"Microsoft"),
    ("image", b"MZ"),
    ("empty", b""),
    ("packed", b"\x1f\x8b\x08"),
];

#[test]
fn files_that_are_no_pdb(rt: HostRuntime) -> Result<(), Fail> {
    let host = one(rt.alloc(), &FILES, false);
    let rows = [
        (
            "text",
            4,
            "pdb_tool: text: this is no PDB file of the format MSF 7.00\n",
        ),
        (
            "image",
            4,
            "pdb_tool: image: the data ends before a record does\n",
        ),
        (
            "empty",
            4,
            "pdb_tool: empty: this is no PDB file of the format MSF 7.00: it is empty\n",
        ),
        (
            "packed",
            4,
            "pdb_tool: packed: this is no PDB file of the format MSF 7.00: it is compressed by gzip\n",
        ),
        (
            "none",
            3,
            "pdb_tool: none: cannot read file: no such file\n",
        ),
        ("a\nb", 3, "pdb_tool: a b: cannot read file: no such file\n"),
    ];
    for (name, status, wanted) in rows {
        fails(&rt, &host, &["lines", name], status, wanted)?;
    }
    let wanted =
        "pdb_tool: image: this is no PDB file of the format MSF 7.00: it is an image (EXE or DLL)\n";
    fails(&rt, &host, &["check", "image"], 1, wanted)?;
    let piped = one(rt.alloc(), &FILES, true);
    let wanted = "pdb_tool: image: this is no PDB file of the format MSF 7.00\n";
    fails(&rt, &piped, &["check", "image"], 1, wanted)
}

#[test]
fn images_that_name_nothing(rt: HostRuntime) -> Result<(), Fail> {
    let host = one(rt.alloc(), &FILES, false);
    let words = ["resolve", "--image=none", "text", "17"];
    let wanted = "pdb_tool: none: cannot read file: no such file\n";
    fails(&rt, &host, &words, 3, wanted)?;
    let words = ["resolve", "text", "17", "--image", "text"];
    let wanted = "pdb_tool: text: no image\n";
    fails(&rt, &host, &words, 4, wanted)
}

#[test]
fn words_and_standard_input(rt: HostRuntime) -> Result<(), Fail> {
    let host = Fakes {
        not_text: &[2],
        has_input: false,
        ..one(rt.alloc(), &FILES, false)
    };
    let wanted = "pdb_tool: \u{fffd}: the argument is not UTF-8\n";
    fails(&rt, &host, &["find", "text", "\u{fffd}"], 2, wanted)?;
    fails(&rt, &host, &["where", "text", "\u{fffd}"], 2, wanted)?;
    let wanted = "pdb_tool: \u{fffd}: cannot read file: its name is not UTF-8\n";
    fails(&rt, &host, &["lines", "--", "\u{fffd}"], 3, wanted)?;
    let wanted = "pdb_tool: standard input is closed: no addresses can be read from it\n";
    fails(&rt, &host, &["resolve", "text"], 3, wanted)?;
    let wanted = "pdb_tool: none: cannot read file: no such file\n";
    fails(&rt, &host, &["resolve", "none"], 3, wanted)?;
    let asked = Fakes {
        is_asked_by_hand: true,
        ..one(rt.alloc(), &FILES, true)
    };
    let wanted = "pdb_tool: reading addresses from standard input, one a line\n\
        pdb_tool: text: this is no PDB file of the format MSF 7.00\n";
    fails(&rt, &asked, &["resolve", "text"], 4, wanted)
}

#[test]
fn closest_commands(rt: HostRuntime) -> Result<(), Fail> {
    let host = one(rt.alloc(), &FILES, false);
    let given = said(&host, &["resolv", "text"], b"")?;
    let wanted: &[u8] = b"pdb_tool: unknown command: resolv; did you mean resolve?\ncommands: ";
    is(&rt, "err", &given.err.starts_with(wanted), &true);
    is(&rt, "status", &exit_status(given.result), &2);
    is(&rt, "found", &exit_status(Ok(true)), &0);
    is(&rt, "not found", &exit_status(Ok(false)), &1);
    Ok(())
}
