//! Files and their checksums.

use crate::tests::lists::{gives, is};
use crate::tests::streams::lines_info;
use crate::{FileChecksum, FileInfo, FileIterator};
use pdb_base::{Error, FallibleIterator, FileIndex, Result, StringRef};
use std::alloc::Global;
use std::process::Abort;

/// The kind of a checksum.
#[derive(Clone, Copy, Debug, PartialEq)]
enum Digest {
    None,
    Md5,
    Sha1,
    Sha256,
}

fn kind_of(file: &FileInfo<'_>) -> Digest {
    match file.checksum {
        FileChecksum::None => Digest::None,
        FileChecksum::Md5(_) => Digest::Md5,
        FileChecksum::Sha1(_) => Digest::Sha1,
        FileChecksum::Sha256(_) => Digest::Sha256,
    }
}

/// Files have these names and kinds, and then this fault.
fn are_files(
    rt: &impl Abort,
    label: &str,
    mut files: FileIterator<'_>,
    wanted: &[(u32, Digest)],
    fault: Option<Error>,
) -> Result<()> {
    for (name, kind) in wanted {
        match files.next()? {
            Some(file) => {
                is(rt, label, &file.name.0, name);
                is(rt, label, &kind_of(&file), kind);
            }
            None => panic!(rt; "{label}: too few items"),
        }
    }
    gives(rt, label, files, &[], fault);
    Ok(())
}

/// Lines data has files of these names and kinds, and then this fault.
fn seen_files(
    rt: &impl Abort,
    alloc: Global,
    label: &str,
    lines_data: &[u8],
    wanted: &[(u32, Digest)],
    fault: Option<Error>,
) -> Result<()> {
    let info = lines_info(rt, lines_data)?;
    let program = info.line_program(alloc)?;
    are_files(rt, label, program.files(), wanted, fault)?;
    are_files(rt, label, info.files()?, wanted, fault)
}

#[test]
fn files_are_those_of_the_last_part_of_checksums(rt: HostRuntime) -> Result<()> {
    let alloc = rt.alloc();
    seen_files(
        &rt,
        alloc,
        "two parts",
        b"\xf4\x00\x00\x00\x08\x00\x00\x00\x01\x00\x00\x00\x00\x00\x00\x00\xf4\x00\x00\x00\x08\x00\
          \x00\x00\x02\x00\x00\x00\x00\x00\x00\x00",
        &[(2, Digest::None)],
        None,
    )?;
    seen_files(
        &rt,
        alloc,
        "the second one marked",
        b"\xf4\x00\x00\x00\x08\x00\x00\x00\x01\x00\x00\x00\x00\x00\x00\x00\xf4\x00\x00\x80\x08\x00\
          \x00\x00\x02\x00\x00\x00\x00\x00\x00\x00",
        &[(1, Digest::None)],
        None,
    )?;
    seen_files(
        &rt,
        alloc,
        "md5",
        b"\xf4\x00\x00\x00\x18\x00\x00\x00\xa9\x31\x00\x00\x10\x01\x73\x79\x02\xc6\x2d\x74\x58\x62\
          \x9d\x0d\xdd\x52\xe1\x22\xc0\x33\x00\x00",
        &[(0x31a9, Digest::Md5)],
        None,
    )?;
    Ok(())
}

#[test]
fn damaged_blocks_of_lines_leave_the_files(rt: HostRuntime) -> Result<()> {
    seen_files(
        &rt,
        rt.alloc(),
        "a block of 8 bytes",
        b"\xf2\0\0\0\x18\0\0\0\0\0\0\0\x01\0\0\0\x10\0\0\0\0\0\0\0\x01\0\0\0\x08\0\0\0\xf4\0\0\0\x08\0\0\0\
          \x05\0\0\0\0\0\0\0",
        &[(5, Digest::None)],
        None,
    )
}

#[test]
fn files_of_each_kind_and_of_no_part(rt: HostRuntime) -> Result<()> {
    let alloc = rt.alloc();
    seen_files(
        &rt,
        alloc,
        "padding, and bytes of no kind",
        b"\xf4\x00\x00\x00\x1c\x00\x00\x00\x01\x00\x00\x00\x01\x02\xaa\x00\x02\x00\x00\x00\x02\x03\
          \xbb\xcc\x03\x00\x00\x00\x03\x00\x11\x22\x33\x00\x00\x00",
        &[(1, Digest::Sha1), (2, Digest::Sha256), (3, Digest::None)],
        None,
    )?;
    seen_files(&rt, alloc, "no part", b"", &[], None)?;
    Ok(())
}

#[test]
fn damaged_checksums_end_the_files(rt: HostRuntime) -> Result<()> {
    let alloc = rt.alloc();
    seen_files(
        &rt,
        alloc,
        "a kind above 3",
        b"\xf4\x00\x00\x00\x08\x00\x00\x00\x01\x00\x00\x00\x00\x04\x00\x00",
        &[],
        Some(Error::UnimplementedFileChecksumKind(4)),
    )?;
    seen_files(
        &rt,
        alloc,
        "the bytes before the kind",
        b"\xf4\x00\x00\x00\x06\x00\x00\x00\x01\x00\x00\x00\x01\x09",
        &[],
        Some(Error::UnexpectedEof),
    )?;
    seen_files(
        &rt,
        alloc,
        "padding that is not there",
        b"\xf4\x00\x00\x00\x0e\x00\x00\x00\x01\x00\x00\x00\x00\x00\x00\x00\x02\x00\x00\x00\x00\x00",
        &[(1, Digest::None)],
        Some(Error::UnexpectedEof),
    )?;
    Ok(())
}

#[test]
fn a_file_is_found_at_the_place_of_its_record(rt: HostRuntime) -> Result<()> {
    let alloc = rt.alloc();
    let info = lines_info(
        &rt,
        b"\xf4\x00\x00\x00\x18\x00\x00\x00\xa9\x31\x00\x00\x10\x01\x73\x79\x02\xc6\x2d\x74\x58\x62\
          \x9d\x0d\xdd\x52\xe1\x22\xc0\x33\x00\x00",
    )?;
    let program = info.line_program(alloc)?;
    let found = program.get_file_info(FileIndex(0))?;
    is(&rt, "its name", &found.name, &StringRef(0x31a9));
    is(&rt, "its digest", &kind_of(&found), &Digest::Md5);
    is(
        &rt,
        "equal to itself",
        &(found == program.get_file_info(FileIndex(0))?),
        &true,
    );
    for (place, error) in [
        (24, Error::InvalidFileChecksumOffset(24)),
        (25, Error::UnexpectedEof),
        (4, Error::UnimplementedFileChecksumKind(198)),
    ] {
        is(
            &rt,
            "a place without a record",
            &program.get_file_info(FileIndex(place)).err(),
            &Some(error),
        );
    }
    Ok(())
}

#[test]
fn no_part_of_checksums_is_an_empty_one(rt: HostRuntime) -> Result<()> {
    let alloc = rt.alloc();
    let info = lines_info(&rt, b"")?;
    let program = info.line_program(alloc)?;
    is(
        &rt,
        "no part: its end",
        &program.get_file_info(FileIndex(0)).err(),
        &Some(Error::InvalidFileChecksumOffset(0)),
    );
    is(
        &rt,
        "no part: past it",
        &program.get_file_info(FileIndex(1)).err(),
        &Some(Error::UnexpectedEof),
    );
    Ok(())
}

#[test]
fn checksums_are_equal_for_one_kind_and_equal_bytes(rt: HostRuntime) {
    let md5 = FileChecksum::Md5(b"\x01\x02");
    is(
        &rt,
        "the same",
        &(md5 == FileChecksum::Md5(b"\x01\x02")),
        &true,
    );
    is(
        &rt,
        "another kind",
        &(md5 == FileChecksum::Sha1(b"\x01\x02")),
        &false,
    );
    is(
        &rt,
        "other bytes",
        &(md5 == FileChecksum::Md5(b"\x01\x03")),
        &false,
    );
    is(
        &rt,
        "fewer bytes",
        &(md5 == FileChecksum::Md5(b"\x01")),
        &false,
    );
    is(
        &rt,
        "none",
        &(FileChecksum::None == FileChecksum::None),
        &false,
    );
}
