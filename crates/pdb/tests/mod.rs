//! Tests of what no clause says: values from outside, and that calls succeed with ample memory.

mod addresses;
mod keys;
mod modules;
mod reads;
mod sample;
mod streams;
mod strings;

use crate::*;
use std::alloc::Global;
use std::fmt::Debug;
use std::process::Abort;
use std::test::Fail;

// What was given is what was wanted: one proof for all comparisons of a type.
fn is<T: PartialEq + Debug>(rt: &impl Abort, label: &str, given: &T, wanted: &T) {
    assert!(rt; given == wanted, "{label}: {given:?}, and not {wanted:?}");
}

fn put(bytes: &mut Vec<u8>, at: usize, part: &[u8]) {
    for (i, byte) in part.iter().enumerate() {
        if at < bytes.len() && i < bytes.len() - at {
            bytes[at + i] = *byte;
        }
    }
}

fn put_numbers(bytes: &mut Vec<u8>, at: usize, numbers: &[u32]) {
    for (i, number) in numbers.iter().enumerate() {
        if i < 64 && at < 65536 {
            put(bytes, at + 4 * i, &number.to_le_bytes());
        }
    }
}

const SYMBOLS: &[u8; 12] = b"\x02\0\x4e\x11\x06\0\x08\x11\x07\0\0\0";

/// Six pages of 1024 bytes: 1 has the directory's list, 2 the directory, 3 and 4 the first pages of the DBI stream,
/// whose third page number is given, and 5 the symbol records. The DBI stream is stream 3, of 3000 bytes; stream 0 is
/// empty, 1, 2 and 4 are absent, and stream 5 has the symbol records.
fn file(alloc: Global, third_page: u32, symbol_records: u16) -> Result<Vec<u8>> {
    let mut bytes = vec![in alloc; 0u8; 6144]?;
    put(&mut bytes, 0, b"Microsoft C/C++ MSF 7.00\r\n\x1aDS\0\0\0");
    put_numbers(&mut bytes, 32, &[1024, 1, 6, 44, 0, 1]);
    put_numbers(&mut bytes, 1024, &[2]);
    let absent = 0xffff_ffff;
    put_numbers(
        &mut bytes,
        2048,
        &[6, 0, absent, absent, 3000, absent, 12, 3, 4, third_page, 5],
    );
    put(
        &mut bytes,
        3072,
        b"\xff\xff\xff\xff\x77\x09\x31\x01\x02\0\0\0\xff\xff\0\0\xff\xff\0\0",
    );
    put(&mut bytes, 3072 + 20, &symbol_records.to_le_bytes());
    put(&mut bytes, 3072 + 58, b"\x64\x86");
    put(&mut bytes, 5120, SYMBOLS);
    Ok(bytes)
}

#[test]
fn the_front_answers_where_the_whole_is_refused(rt: HostRuntime) -> Result<()> {
    let bytes = file(rt.alloc(), 6, 5)?;
    let mut pdb = PDB::open(rt.alloc(), MemorySource::new(&bytes))?;
    let refused = Some(Error::PageReferenceOutOfRange(6));
    for _ in 0..3 {
        is(
            &rt,
            "pdb.debug_information().err()",
            &pdb.debug_information().err(),
            &refused,
        );
        let symbols = pdb.global_symbols()?;
        is(
            &rt,
            "symbols.iter().next()?.map(|symbol| symbol.r",
            &symbols.iter().next()?.map(|symbol| symbol.raw_kind()),
            &Some(0x114e),
        );
    }
    let mut pdb = PDB::open(rt.alloc(), MemorySource::new(&bytes))?;
    for _ in 0..3 {
        is(
            &rt,
            "pdb.global_symbols()?.iter().count()?",
            &pdb.global_symbols()?.iter().count()?,
            &2,
        );
        is(
            &rt,
            "pdb.debug_information().err()",
            &pdb.debug_information().err(),
            &refused,
        );
    }
    is(&rt, "pdb.failures()", &pdb.failures(), &0);
    assert!(rt; pdb.steady());
    Ok(())
}

#[test]
fn debug_information_is_read_whole(rt: HostRuntime) -> Result<()> {
    let bytes = file(rt.alloc(), 1, 5)?;
    let mut pdb = PDB::open(rt.alloc(), MemorySource::new(&bytes))?;
    let information = pdb.debug_information()?;
    is(&rt, "information.age()", &information.age(), &Some(2));
    is(
        &rt,
        "information.machine_type()?",
        &information.machine_type()?,
        &MachineType::Amd64,
    );
    is(
        &rt,
        "pdb.global_symbols()?.iter().count()?",
        &pdb.global_symbols()?.iter().count()?,
        &2,
    );
    Ok(())
}

#[test]
fn no_stream_of_symbol_records_is_told(rt: HostRuntime) -> Result<()> {
    let bytes = file(rt.alloc(), 1, 0xffff)?;
    let mut pdb = PDB::open(rt.alloc(), MemorySource::new(&bytes))?;
    is(
        &rt,
        "pdb.global_symbols().err()",
        &pdb.global_symbols().err(),
        &Some(Error::GlobalSymbolsNotFound),
    );
    is(
        &rt,
        "pdb.debug_information()?.age()",
        &pdb.debug_information()?.age(),
        &Some(2),
    );
    is(
        &rt,
        "pdb.global_symbols().err()",
        &pdb.global_symbols().err(),
        &Some(Error::GlobalSymbolsNotFound),
    );
    Ok(())
}

#[test]
fn an_ancient_header_is_not_kept(rt: HostRuntime) -> Result<()> {
    let mut bytes = file(rt.alloc(), 1, 5)?;
    put(&mut bytes, 3072, b"\0");
    let mut pdb = PDB::open(rt.alloc(), MemorySource::new(&bytes))?;
    let ancient = Some(Error::UnimplementedFeature(Feature::AncientDbiHeader));
    for _ in 0..2 {
        is(
            &rt,
            "pdb.global_symbols().err()",
            &pdb.global_symbols().err(),
            &ancient,
        );
        is(
            &rt,
            "pdb.debug_information().err()",
            &pdb.debug_information().err(),
            &ancient,
        );
    }
    Ok(())
}

#[test]
fn streams_are_had_by_their_indices(rt: HostRuntime) -> Result<()> {
    let bytes = file(rt.alloc(), 1, 5)?;
    let mut pdb = PDB::open(rt.alloc(), MemorySource::new(&bytes))?;
    let empty = pdb.raw_stream(StreamIndex(0))?;
    is(
        &rt,
        "empty.map(|stream| stream.as_slice().len())",
        &empty.map(|stream| stream.as_slice().len()),
        &Some(0),
    );
    is(
        &rt,
        "pdb.raw_stream(StreamIndex(9)).err()",
        &pdb.raw_stream(StreamIndex(9)).err(),
        &Some(Error::StreamNotFound(9)),
    );
    assert!(rt; pdb.raw_stream(StreamIndex(65535))?.is_none());
    assert!(rt; StreamIndex::none().get(&mut pdb)?.is_none());
    let symbols = StreamIndex(5).get(&mut pdb)?;
    is(
        &rt,
        "symbols.map(|stream| stream.as_slice().len()",
        &symbols.map(|stream| stream.as_slice().len()),
        &Some(12),
    );
    is(
        &rt,
        "StreamIndex(1).get(&mut pdb).err()",
        &StreamIndex(1).get(&mut pdb).err(),
        &Some(Error::StreamNotFound(1)),
    );
    Ok(())
}

#[test]
fn a_file_of_another_format_is_refused(rt: HostRuntime) -> std::result::Result<(), Fail> {
    let refused = PDB::open(rt.alloc(), MemorySource::new(b"")).err();
    is(
        &rt,
        "refused",
        &refused,
        &Some(Error::UnrecognizedFileFormat),
    );
    Ok(())
}

#[test]
fn an_error_of_the_closure_leaves_the_rest(rt: HostRuntime) -> Result<()> {
    let bytes = file(rt.alloc(), 1, 5)?;
    let mut pdb = PDB::open(rt.alloc(), MemorySource::new(&bytes))?;
    let table = pdb.global_symbols()?;
    let mut symbols = table.iter();
    let refused = symbols.find(|_| Err(Error::StreamNameNotFound)).err();
    is(&rt, "refused", &refused, &Some(Error::StreamNameNotFound));
    is(
        &rt,
        "symbols .find(|symbol| Ok(symbol.raw_kind()",
        &symbols
            .find(|symbol| Ok(symbol.raw_kind() == 0x1108))?
            .map(|symbol| symbol.index()),
        &Some(SymbolIndex(4)),
    );
    is(
        &rt,
        "table.iter().collect(rt.alloc())?.len()",
        &table.iter().collect(rt.alloc())?.len(),
        &2,
    );
    Ok(())
}

/// Five pages of 1024 bytes: 1 has the directory's list, 2 the directory, 3 the information stream, which is stream 1,
/// and 4 the three bytes of stream 4.
fn named_file(alloc: Global, information: &[u8]) -> Result<Vec<u8>> {
    let mut bytes = vec![in alloc; 0u8; 5120]?;
    put(&mut bytes, 0, b"Microsoft C/C++ MSF 7.00\r\n\x1aDS\0\0\0");
    put_numbers(&mut bytes, 32, &[1024, 1, 5, 32, 0, 1]);
    put_numbers(&mut bytes, 1024, &[2]);
    let size = information.len().min(1024) as u32;
    let absent = 0xffff_ffff;
    put_numbers(&mut bytes, 2048, &[5, 0, size, absent, absent, 3, 3, 4]);
    put(&mut bytes, 3072, information);
    put(&mut bytes, 4096, b"abc");
    Ok(bytes)
}

/// Three names: `a` of stream 4, `b` of no stream, and `a` of stream 0.
const NAMED: &[u8; 76] =
    b"\x94\x2e\x31\x01\x07\0\0\0\x03\0\0\0\x04\x03\x02\x01\x06\x05\x08\x07\x09\x0a\x0b\x0c\x0d\x0e\x0f\x10\x04\0\0\0a\0b\0\x03\0\0\0\0\0\0\0\0\0\0\0\0\0\0\0\0\0\0\0\x04\0\0\0\x02\0\0\0\xff\xff\0\0\0\0\0\0\0\0\0\0";

#[test]
fn the_information_stream_is_read(rt: HostRuntime) -> Result<()> {
    let bytes = named_file(rt.alloc(), NAMED)?;
    let mut pdb = PDB::open(rt.alloc(), MemorySource::new(&bytes))?;
    for _ in 0..2 {
        let information = pdb.pdb_information()?;
        assert!(rt; matches!(information.version, HeaderVersion::OtherValue(20000404)));
        is(&rt, "information.signature", &information.signature, &7);
        is(&rt, "information.age", &information.age, &3);
        is(
            &rt,
            "information.guid",
            &information.guid,
            &[1, 2, 3, 4, 5, 6, 7, 8, 9, 10, 11, 12, 13, 14, 15, 16],
        );
        is(
            &rt,
            "information.names_offset",
            &information.names_offset,
            &32,
        );
        is(&rt, "information.names_size", &information.names_size, &4);
        is(
            &rt,
            "information.stream_names(rt.alloc())?.iter()",
            &information.stream_names(rt.alloc())?.iter().count(),
            &3,
        );
        let refused = pdb.debug_information().err();
        is(&rt, "refused", &refused, &Some(Error::StreamNotFound(3)));
    }
    Ok(())
}

#[test]
fn a_named_stream_is_that_of_the_first_name(rt: HostRuntime) -> Result<()> {
    let bytes = named_file(rt.alloc(), NAMED)?;
    let mut pdb = PDB::open(rt.alloc(), MemorySource::new(&bytes))?;
    let none = Some(Error::StreamNameNotFound);
    for _ in 0..2 {
        is(
            &rt,
            "pdb.named_stream(..)?.as_slice()",
            &pdb.named_stream(b"a")?.as_slice(),
            &b"abc".as_slice(),
        );
        is(
            &rt,
            "pdb.named_stream(..).err()",
            &pdb.named_stream(b"b").err(),
            &none,
        );
        is(
            &rt,
            "pdb.named_stream(..).err()",
            &pdb.named_stream(b"c").err(),
            &none,
        );
        is(
            &rt,
            "pdb.named_stream(..).err()",
            &pdb.named_stream(b"").err(),
            &none,
        );
        is(
            &rt,
            "pdb.named_stream(..).err()",
            &pdb.named_stream(b"a\0").err(),
            &none,
        );
    }
    is(&rt, "failures", &pdb.failures(), &0);
    is(&rt, "steady", &pdb.steady(), &true);
    Ok(())
}

#[test]
fn damaged_names_refuse_every_name(rt: HostRuntime) -> Result<()> {
    for k in 0..76usize {
        let bytes = named_file(rt.alloc(), &NAMED[..k])?;
        let mut pdb = PDB::open(rt.alloc(), MemorySource::new(&bytes))?;
        is(
            &rt,
            "cut to",
            &pdb.named_stream(b"a").err(),
            &Some(Error::UnexpectedEof),
        );
        let short = Some(Error::UnexpectedEof);
        let refused = pdb.pdb_information().err();
        is(
            &rt,
            "cut to",
            &refused,
            &(if k < 32 { short } else { None }),
        );
    }
    let mut beyond = *NAMED;
    beyond[68] = 4;
    let bytes = named_file(rt.alloc(), &beyond)?;
    let mut pdb = PDB::open(rt.alloc(), MemorySource::new(&bytes))?;
    is(
        &rt,
        "pdb.named_stream(..).err()",
        &pdb.named_stream(b"a").err(),
        &Some(Error::UnexpectedEof),
    );
    Ok(())
}
