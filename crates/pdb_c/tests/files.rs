//! A file made by hand: its section headers, its contributions, and the names of its streams.

use super::{is, put, put_numbers};
use crate::*;
use std::alloc::{AllocError, Global};

const ABSENT: u32 = 0xffff_ffff;

/// The DBI stream: two contributions, and stream 5 as that of the section headers.
const DBI_SIZE: u32 = 64 + 60 + 22;

/// Six pages of 1024 bytes: 1 has the directory's list, 2 the directory, 3 the information stream, 4 the DBI stream, 5
/// the section headers, which are stream 5.
fn file(alloc: Global) -> Result<Vec<u8>, AllocError> {
    let mut bytes = vec![in alloc; 0u8; 6144]?;
    put(&mut bytes, 0, b"Microsoft C/C++ MSF 7.00\r\n\x1aDS\0\0\0");
    put_numbers(&mut bytes, 32, &[1024, 1, 6, 40, 0, 1]);
    put_numbers(&mut bytes, 1024, &[2]);
    let sizes = [6, 0, 77, ABSENT, DBI_SIZE, ABSENT, 80];
    put_numbers(&mut bytes, 2048, &sizes);
    put_numbers(&mut bytes, 2048 + 28, &[3, 4, 5]);
    put_information(&mut bytes, 3072);
    put_dbi(&mut bytes, 4096);
    put_section(&mut bytes, 5120, b".text\0\0\0", 0x1000);
    put_section(&mut bytes, 5160, b"longname", 0x2000);
    Ok(bytes)
}

/// The names `a` and `/names`, listed the other way round.
fn put_information(bytes: &mut Vec<u8>, at: usize) {
    put_numbers(bytes, at, &[20000404, 7, 1]);
    put_numbers(bytes, at + 28, &[9]);
    put(bytes, at + 32, b"a\0/names\0");
    put_numbers(bytes, at + 41, &[2, 4, 1, 3, 0, 2, 4, 0, 5]);
}

fn put_dbi(bytes: &mut Vec<u8>, at: usize) {
    put_numbers(bytes, at, &[ABSENT, 19990903, 1]);
    put_numbers(bytes, at + 28, &[60]);
    put_numbers(bytes, at + 48, &[22]);
    put_numbers(bytes, at + 64, &[0xf12e_ba2d]);
    let first = [0xaaaa_0001, 0x10, 0x20, 0x6050_0020, 0xbbbb_0003, 11, 12];
    put_numbers(bytes, at + 68, &first);
    let second = [0xaaaa_0002, 0x30, 0x40, 0xc000_0040, 0xbbbb_ffff, 21, 22];
    put_numbers(bytes, at + 96, &second);
    for k in 0..11 {
        put(bytes, at + 124 + 2 * k, b"\xff\xff");
    }
    put(bytes, at + 134, b"\x05\0");
}

fn put_section(bytes: &mut Vec<u8>, at: usize, name: &[u8], address: u32) {
    put(bytes, at, name);
    put_numbers(
        bytes,
        at + 8,
        &[address + 1, address, 3, 4, 5, 6, 0x0008_0007, 9],
    );
}

const NO_SECTION: PdbSection = PdbSection {
    name: *b"nothing ",
    name_size: 99,
    virtual_size: 99,
    virtual_address: 99,
    size_of_raw_data: 99,
    pointer_to_raw_data: 99,
    pointer_to_relocations: 99,
    pointer_to_line_numbers: 99,
    number_of_relocations: 99,
    number_of_line_numbers: 99,
    characteristics: 99,
};

/// The numbers of a section header in their order.
fn numbers_of(it: &PdbSection) -> [u32; 10] {
    [
        it.name_size,
        it.virtual_size,
        it.virtual_address,
        it.size_of_raw_data,
        it.pointer_to_raw_data,
        it.pointer_to_relocations,
        it.pointer_to_line_numbers,
        u32::from(it.number_of_relocations),
        u32::from(it.number_of_line_numbers),
        it.characteristics,
    ]
}

#[test]
fn section_headers(rt: HostRuntime) -> Result<(), AllocError> {
    let bytes = file(rt.alloc())?;
    let mut rows = [NO_SECTION; 3];
    let mut count = 77;
    let code = pdb_sections(rt.alloc(), &bytes, &mut rows, &mut count);
    is(&rt, "code and count", &(code, count), &(0, 2));
    is(&rt, "name", &rows[0].name, b".text\0\0\0");
    let wanted = [5, 0x1001, 0x1000, 3, 4, 5, 6, 7, 8, 9];
    is(&rt, "numbers", &numbers_of(&rows[0]), &wanted);
    is(&rt, "name", &rows[1].name, b"longname");
    let wanted = [8, 0x2001, 0x2000, 3, 4, 5, 6, 7, 8, 9];
    is(&rt, "numbers", &numbers_of(&rows[1]), &wanted);
    is(&rt, "behind them", &rows[2].name, b"nothing ");
    is(&rt, "behind them", &numbers_of(&rows[2]), &[99; 10]);
    Ok(())
}

#[test]
fn a_buffer_of_one_section_header(rt: HostRuntime) -> Result<(), AllocError> {
    let bytes = file(rt.alloc())?;
    let mut rows = [NO_SECTION; 1];
    let mut count = 77;
    let code = pdb_sections(rt.alloc(), &bytes, &mut rows, &mut count);
    is(&rt, "code and count", &(code, count), &(31, 2));
    is(&rt, "name", &rows[0].name, b".text\0\0\0");
    Ok(())
}

#[test]
fn files_without_section_headers(rt: HostRuntime) -> Result<(), AllocError> {
    // No stream of them; a stream that isn't there; headers of 79 bytes; a stream that the file lacks.
    for (at, number, wanted) in [
        (4096 + 134, 0xffff_ffff, 33),
        (4096 + 134, 0xffff_0002, 6),
        (2048 + 24, 79, 1),
        (4096 + 134, 0xffff_0009, 6),
    ] {
        let mut bytes = file(rt.alloc())?;
        put_numbers(&mut bytes, at, &[number]);
        let mut rows = [NO_SECTION; 2];
        let mut count = 77;
        let code = pdb_sections(rt.alloc(), &bytes, &mut rows, &mut count);
        is(&rt, "code and count", &(code, count), &(wanted, 0));
        is(&rt, "untouched", &numbers_of(&rows[0]), &[99; 10]);
    }
    Ok(())
}

/// The numbers of a contribution in their order.
fn fields_of(it: &PdbContribution) -> (usize, [u32; 6]) {
    let numbers = [
        u32::from(it.section),
        it.offset,
        it.size,
        it.characteristics,
        it.data_crc,
        it.reloc_crc,
    ];
    (it.module, numbers)
}

const NO_CONTRIBUTION: PdbContribution = PdbContribution {
    module: 99,
    offset: 99,
    size: 99,
    characteristics: 99,
    data_crc: 99,
    reloc_crc: 99,
    section: 99,
};

#[test]
fn contributions(rt: HostRuntime) -> Result<(), AllocError> {
    let bytes = file(rt.alloc())?;
    if bytes.len() < 4096 + 146 {
        return Ok(());
    }
    let mut rows = [NO_CONTRIBUTION; 3];
    let mut count = 77;
    let code = pdb_contributions(&bytes[4096..4096 + 146], &mut rows, &mut count);
    is(&rt, "code and count", &(code, count), &(0, 2));
    let wanted = (3, [1, 0x10, 0x20, 0x6050_0020, 11, 12]);
    is(&rt, "first", &fields_of(&rows[0]), &wanted);
    let wanted = (0xffff, [2, 0x30, 0x40, 0xc000_0040, 21, 22]);
    is(&rt, "second", &fields_of(&rows[1]), &wanted);
    is(&rt, "behind", &fields_of(&rows[2]), &(99, [99; 6]));
    let code = pdb_contributions(&bytes[4096..4096 + 146], &mut [], &mut count);
    is(&rt, "no rows", &(code, count), &(31, 2));
    // A part that ends within a record, one that isn't all there, no header, and another signature.
    let mut cut = file(rt.alloc())?;
    put_numbers(&mut cut, 4096 + 28, &[59]);
    let mut rows = [NO_CONTRIBUTION; 3];
    let code = pdb_contributions(&cut[4096..4096 + 146], &mut rows, &mut count);
    is(&rt, "cut", &(code, count), &(1, 1));
    let code = pdb_contributions(&cut[4096..4096 + 122], &mut rows, &mut count);
    is(&rt, "short", &(code, count), &(1, 0));
    let code = pdb_contributions(&cut[4096..4096 + 63], &mut rows, &mut count);
    is(&rt, "no header", &(code, count), &(1, 0));
    let code = pdb_contributions(&cut[4097..4096 + 146], &mut rows, &mut count);
    is(&rt, "signature", &(code, count), &(2, 0));
    Ok(())
}

const NO_NAME: PdbStreamName = PdbStreamName {
    at: 99,
    size: 99,
    number: 99,
};

fn name_of(it: &PdbStreamName) -> (usize, usize, u32) {
    (it.at, it.size, it.number)
}

// The code of a call, how many rows there are, and how many bytes of names.
fn put_names(
    alloc: Global,
    bytes: &[u8],
    rows: &mut [PdbStreamName],
    names: &mut [u8],
) -> (u32, usize, usize) {
    let (mut count, mut size) = (77, 77);
    let code = pdb_stream_names(alloc, bytes, rows, &mut count, names, &mut size);
    (code, count, size)
}

#[test]
fn stream_names(rt: HostRuntime) -> Result<(), AllocError> {
    let bytes = file(rt.alloc())?;
    let mut rows = [NO_NAME; 3];
    let mut names = [b'-'; 8];
    let got = put_names(rt.alloc(), &bytes, &mut rows, &mut names);
    is(&rt, "code and sizes", &got, &(0, 2, 7));
    is(&rt, "names", &names, b"/namesa-");
    is(&rt, "first", &name_of(&rows[0]), &(0, 6, 4));
    is(&rt, "second", &name_of(&rows[1]), &(6, 1, 5));
    is(&rt, "behind them", &name_of(&rows[2]), &(99, 99, 99));
    Ok(())
}

#[test]
fn stream_names_in_small_buffers(rt: HostRuntime) -> Result<(), AllocError> {
    let bytes = file(rt.alloc())?;
    let mut rows = [NO_NAME; 1];
    let mut names = [b'-'; 7];
    let got = put_names(rt.alloc(), &bytes, &mut rows, &mut names);
    is(&rt, "rows", &got, &(31, 2, 7));
    is(&rt, "names", &names, b"/namesa");
    let mut rows = [NO_NAME; 2];
    let mut names = [b'-'; 3];
    let got = put_names(rt.alloc(), &bytes, &mut rows, &mut names);
    is(&rt, "names", &got, &(31, 2, 7));
    is(&rt, "names", &names, b"/na");
    is(&rt, "second", &name_of(&rows[1]), &(6, 1, 5));
    Ok(())
}

#[test]
fn stream_names_in_error(rt: HostRuntime) -> Result<(), AllocError> {
    // No file, an information stream of 31 bytes, a name behind the others, and a map that isn't all there.
    for (at, number, wanted) in [
        (0, 0, 3),
        (2048 + 8, 31, 1),
        (3072 + 41 + 20, 9, 1),
        (3072 + 41, 3, 1),
    ] {
        let mut bytes = file(rt.alloc())?;
        put_numbers(&mut bytes, at, &[number]);
        let mut rows = [NO_NAME; 2];
        let mut names = [b'-'; 7];
        let got = put_names(rt.alloc(), &bytes, &mut rows, &mut names);
        is(&rt, "code and sizes", &got, &(wanted, 0, 0));
        is(&rt, "untouched", &names, b"-------");
        is(&rt, "untouched", &name_of(&rows[0]), &(99, 99, 99));
    }
    Ok(())
}
