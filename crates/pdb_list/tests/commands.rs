//! The information, the names, the modules and the contributions.

use super::texts::{
    CONTRIBUTIONS as CONTRIBUTIONS_TEXT, INFORMATION as INFORMATION_TEXT, MODULES as MODULES_TEXT,
    NAMES as NAMES_TEXT, changed, joined, with_stream,
};
use super::{TEXT, lists};
use crate::command::Command;
use crate::tests::fakes::is;
use pdb::{Error, MemorySource, PDB};
use pdb_sample::streams;
use std::alloc::Global;
use std::test::Fail;

const HEADER_TEXT: &[u8] = b"dbi 2 Amd64\n";

fn with_information(alloc: Global, information: &[u8]) -> Result<Vec<u8>, Error> {
    with_stream(alloc, 1, information)
}

fn with_dbi(alloc: Global, dbi: &[u8]) -> Result<Vec<u8>, Error> {
    with_stream(alloc, 3, dbi)
}

#[test]
fn the_sample_tells_its_information_names_modules_and_contributions(
    rt: HostRuntime,
) -> Result<(), Fail> {
    let file = pdb_sample::file(rt.alloc())?;
    let commands = [
        Command::Info,
        Command::Names,
        Command::Modules,
        Command::Contributions,
    ];
    let text = joined(
        rt.alloc(),
        &[
            INFORMATION_TEXT,
            HEADER_TEXT,
            NAMES_TEXT,
            MODULES_TEXT,
            CONTRIBUTIONS_TEXT,
        ],
    )?;
    lists(&rt, rt.alloc(), &file, &commands, &text);
    Ok(())
}

/// The sample, its DBI stream lengthened with zero bytes to 3000. The numbers of that stream's second and third page
/// stand at 7216 and 7220.
fn long_sample(alloc: Global) -> Result<Vec<u8>, Fail> {
    let mut dbi = Vec::new(alloc);
    dbi.extend_from_slice(&streams::DBI)?;
    dbi.resize(3000, 0)?;
    Ok(with_dbi(alloc, &dbi)?)
}

#[test]
fn a_bad_page_refuses_the_whole_stream_alone(rt: HostRuntime) -> Result<(), Fail> {
    let file = long_sample(rt.alloc())?;
    is(&rt, "second page", &file.get(7216), &Some(&5));
    is(&rt, "third page", &file.get(7220), &Some(&6));
    let bad = changed(rt.alloc(), &file, 7220, b"\x10")?;
    let text = joined(rt.alloc(), &[TEXT, b"error 5\n", TEXT])?;
    let commands = [Command::Globals, Command::Modules, Command::Globals];
    lists(&rt, rt.alloc(), &bad, &commands, &text);
    let text = joined(rt.alloc(), &[b"error 5\n", TEXT])?;
    let commands = [Command::Modules, Command::Globals];
    lists(&rt, rt.alloc(), &bad, &commands, &text);
    let text = joined(rt.alloc(), &[INFORMATION_TEXT, b"error 5\nerror 5\n"])?;
    let commands = [Command::Info, Command::Contributions];
    lists(&rt, rt.alloc(), &bad, &commands, &text);
    let swapped = changed(rt.alloc(), &file, 7216, b"\x06\0\0\0\x05")?;
    lists(&rt, rt.alloc(), &swapped, &[Command::Modules], MODULES_TEXT);
    Ok(())
}

#[test]
fn versions_ages_and_machines_are_shown(rt: HostRuntime) -> Result<(), Fail> {
    let dbi = changed(rt.alloc(), &streams::DBI, 8, b"\0\0\0\0")?;
    let dbi = changed(rt.alloc(), &dbi, 58, b"\x34\x12")?;
    let file = with_dbi(rt.alloc(), &dbi)?;
    let text = joined(rt.alloc(), &[INFORMATION_TEXT, b"dbi - Unknown\n"])?;
    lists(&rt, rt.alloc(), &file, &[Command::Info], &text);
    let versions: [(u32, &[u8]); 6] = [
        (930803, b"info V41"),
        (19960307, b"info V50"),
        (19970606, b"info V60"),
        (19990903, b"info V70"),
        (20091201, b"info V110"),
        (20091202, b"info 20091202"),
    ];
    for (number, begins) in versions {
        let information = changed(rt.alloc(), &streams::INFORMATION, 0, &number.to_le_bytes())?;
        let file = with_information(rt.alloc(), &information)?;
        let rest: &[u8] = b" 1 2 00112233445566778899aabbccddeeff\n";
        let text = joined(rt.alloc(), &[begins, rest, HEADER_TEXT])?;
        lists(&rt, rt.alloc(), &file, &[Command::Info], &text);
    }
    Ok(())
}

#[test]
fn streams_and_names_are_shown_as_they_are(rt: HostRuntime) -> Result<(), Fail> {
    let dbi = changed(rt.alloc(), &streams::DBI, 98, b"\xff\xff")?;
    let file = with_dbi(rt.alloc(), &dbi)?;
    let text = b"module 0 - 84 0 176 a.obj\nobject a.obj\n";
    lists(&rt, rt.alloc(), &file, &[Command::Modules], text);
    let dbi = changed(rt.alloc(), &streams::DBI, 128, b"\xff\x0a\0\0ab\0")?;
    let file = with_dbi(rt.alloc(), &dbi)?;
    let text = b"module 0 6 84 0 176 \xff\x0a\nobject \nerror 1\n";
    lists(&rt, rt.alloc(), &file, &[Command::Modules], text);
    Ok(())
}

/// Two names `/names`, of the stream that isn't there and of stream 7.
const TWICE: &[u8; 75] =
    b"\x94\x2e\x31\x01\x01\0\0\0\x02\0\0\0\x33\x22\x11\0\x55\x44\x77\x66\x88\x99\xaa\xbb\xcc\xdd\xee\xff\x07\0\0\0/names\0\x02\0\0\0\x01\0\0\0\x01\0\0\0\x01\0\0\0\0\0\0\0\0\0\0\0\xff\xff\x01\0\0\0\0\0\x07\0\x01\0";

#[test]
fn the_first_name_is_taken(rt: HostRuntime) -> Result<(), Fail> {
    let file = with_information(rt.alloc(), TWICE)?;
    let text = b"name - /names\nname 7 /names\n";
    lists(&rt, rt.alloc(), &file, &[Command::Names], text);
    let mut pdb = PDB::open(rt.alloc(), MemorySource::new(&file))?;
    let refused = pdb.named_stream(b"/names").err();
    is(&rt, "refused", &refused, &Some(Error::StreamNameNotFound));
    let file = pdb_sample::file(rt.alloc())?;
    let mut pdb = PDB::open(rt.alloc(), MemorySource::new(&file))?;
    is(
        &rt,
        "pdb.named_stream(..)?.as_slice()",
        &pdb.named_stream(b"/names")?.as_slice(),
        &streams::STRINGS.as_slice(),
    );
    is(
        &rt,
        "pdb.named_stream(..).err()",
        &pdb.named_stream(b"/name").err(),
        &Some(Error::StreamNameNotFound),
    );
    is(
        &rt,
        "pdb.named_stream(..).err()",
        &pdb.named_stream(b"").err(),
        &Some(Error::StreamNameNotFound),
    );
    Ok(())
}

#[test]
fn contributions_are_told_up_to_the_fault(rt: HostRuntime) -> Result<(), Fail> {
    let longer = changed(rt.alloc(), &streams::DBI, 28, b"\x24\0\0\0")?;
    let file = with_dbi(rt.alloc(), &longer)?;
    let text = joined(rt.alloc(), &[CONTRIBUTIONS_TEXT, b"error 1\n"])?;
    lists(&rt, rt.alloc(), &file, &[Command::Contributions], &text);
    let second_version = changed(rt.alloc(), &longer, 140, b"\xe4\x51\x31\xf1")?;
    let file = with_dbi(rt.alloc(), &second_version)?;
    lists(
        &rt,
        rt.alloc(),
        &file,
        &[Command::Contributions],
        CONTRIBUTIONS_TEXT,
    );
    let none = changed(rt.alloc(), &streams::DBI, 28, b"\0")?;
    let file = with_dbi(rt.alloc(), &none)?;
    lists(
        &rt,
        rt.alloc(),
        &file,
        &[Command::Contributions],
        b"error 1\n",
    );
    Ok(())
}
