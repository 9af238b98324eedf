//! What id records say.

use super::is;
use super::streams::{IDS, first_item, one_record};
use crate::*;
use pdb_base::{Error, IdIndex, RawString, Result, StringRef, TypeIndex};
use std::alloc::Global;
use std::process::Abort;

/// A record of each kind, with different numbers in its fields.
const FUNCTION: &[u8; 13] = b"\x01\x16\x01\x02\x03\x04\x05\x06\x07\x08ab\0";

const MEMBER_FUNCTION: &[u8; 13] = b"\x02\x16\x11\x12\x13\x14\x15\x16\x17\x18cd\0";

const BUILD_INFO: &[u8; 16] = b"\x03\x16\x03\0\x21\x22\x23\x24\0\0\0\0\x25\x26\x27\x28";

const STRING_LIST: &[u8; 14] = b"\x04\x16\x02\0\0\0\x31\x32\x33\x34\x35\x36\x37\x38";

const STRING: &[u8; 9] = b"\x05\x16\x41\x42\x43\x44ef\0";

const LOCAL: &[u8; 14] = b"\x06\x16\x51\x52\x53\x54\x55\x56\x57\x58\x59\x5a\x5b\x5c";

const REMOTE: &[u8; 16] = b"\x07\x16\x61\x62\x63\x64\x65\x66\x67\x68\x69\x6a\x6b\x6c\x6d\x6e";

/// Asserts what the record of these bytes says.
fn says(rt: &impl Abort, alloc: Global, record: &[u8], wanted: IdData<'_>) -> Result<()> {
    let bytes = one_record(alloc, record)?;
    let given = IdData::parse(&first_item(rt, &bytes)?);
    is(rt, "says", &given, &Ok(Some(wanted)));
    Ok(())
}

#[test]
fn functions(rt: HostRuntime) -> Result<()> {
    let mut function = FunctionId {
        scope: Some(IdIndex(0x0403_0201)),
        function_type: TypeIndex(0x0807_0605),
        name: RawString::from("ab"),
    };
    says(&rt, rt.alloc(), FUNCTION, IdData::Function(function))?;
    function.scope = None;
    let without_scope = b"\x01\x16\0\0\0\0\x05\x06\x07\x08ab\0";
    says(&rt, rt.alloc(), without_scope, IdData::Function(function))?;
    let member_function = MemberFunctionId {
        parent: TypeIndex(0x1413_1211),
        function_type: TypeIndex(0x1817_1615),
        name: RawString::from("cd"),
    };
    let wanted = IdData::MemberFunction(member_function);
    says(&rt, rt.alloc(), MEMBER_FUNCTION, wanted)
}

#[test]
fn strings(rt: HostRuntime) -> Result<()> {
    let mut string = StringId {
        substrings: Some(IdIndex(0x4443_4241)),
        name: RawString::from("ef"),
    };
    says(&rt, rt.alloc(), STRING, IdData::String(string))?;
    string.substrings = None;
    let alone = b"\x05\x16\0\0\0\0ef\0";
    says(&rt, rt.alloc(), alone, IdData::String(string))
}

#[test]
fn build_information(rt: HostRuntime) -> Result<()> {
    let bytes = one_record(rt.alloc(), BUILD_INFO)?;
    let Some(IdData::BuildInfo(build)) = IdData::parse(&first_item(&rt, &bytes)?)? else {
        panic!(rt; "no build information");
    };
    is(&rt, "len", &build.len(), &3);
    is(&rt, "0", &build.get(0), &Some(Some(IdIndex(0x2423_2221))));
    is(&rt, "1", &build.get(1), &Some(None));
    is(&rt, "2", &build.get(2), &Some(Some(IdIndex(0x2827_2625))));
    is(&rt, "3", &build.get(3), &None);
    is(&rt, "last", &build.get(usize::MAX), &None);
    Ok(())
}

#[test]
fn lists_of_strings(rt: HostRuntime) -> Result<()> {
    let bytes = one_record(rt.alloc(), STRING_LIST)?;
    let Some(IdData::StringList(list)) = IdData::parse(&first_item(&rt, &bytes)?)? else {
        panic!(rt; "no list of strings");
    };
    is(&rt, "len", &list.len(), &2);
    is(&rt, "0", &list.get(0), &Some(IdIndex(0x3433_3231)));
    is(&rt, "1", &list.get(1), &Some(IdIndex(0x3837_3635)));
    is(&rt, "2", &list.get(2), &None);
    is(&rt, "last", &list.get(usize::MAX), &None);
    Ok(())
}

#[test]
fn sources_of_types(rt: HostRuntime) -> Result<()> {
    let local = UserDefinedTypeSourceId {
        udt: TypeIndex(0x5453_5251),
        source_file: UserDefinedTypeSourceFileRef::Local(IdIndex(0x5857_5655)),
        line: 0x5c5b_5a59,
    };
    says(&rt, rt.alloc(), LOCAL, IdData::UserDefinedTypeSource(local))?;
    let remote = UserDefinedTypeSourceId {
        udt: TypeIndex(0x6463_6261),
        source_file: UserDefinedTypeSourceFileRef::Remote(0x6e6d, StringRef(0x6867_6665)),
        line: 0x6c6b_6a69,
    };
    says(
        &rt,
        rt.alloc(),
        REMOTE,
        IdData::UserDefinedTypeSource(remote),
    )
}

/// Asserts that the record is refused where a byte of it is missing, and that a byte behind it is free.
fn is_cut(rt: &impl Abort, alloc: Global, record: &[u8]) -> Result<()> {
    for n in 2..record.len() {
        let bytes = one_record(alloc, &record[..n])?;
        let cut = IdData::parse(&first_item(rt, &bytes)?);
        is(rt, "cut", &cut, &Err(Error::UnexpectedEof));
    }
    let whole = one_record(alloc, record)?;
    let whole = IdData::parse(&first_item(rt, &whole)?)?;
    let mut longer = Vec::new(alloc);
    longer.extend_from_slice(record)?;
    longer.push(0xf1)?;
    let longer = one_record(alloc, &longer)?;
    let longer = IdData::parse(&first_item(rt, &longer)?)?;
    is(rt, "a byte too many", &longer, &whole);
    is(rt, "whole", &whole.is_some(), &true);
    Ok(())
}

#[test]
fn records_are_cut_at_each_byte(rt: HostRuntime) -> Result<()> {
    let alloc = rt.alloc();
    is_cut(&rt, alloc, FUNCTION)?;
    is_cut(&rt, alloc, MEMBER_FUNCTION)?;
    is_cut(&rt, alloc, BUILD_INFO)?;
    is_cut(&rt, alloc, STRING_LIST)?;
    is_cut(&rt, alloc, STRING)?;
    is_cut(&rt, alloc, LOCAL)?;
    is_cut(&rt, alloc, REMOTE)
}

#[test]
fn other_kinds_say_nothing(rt: HostRuntime) -> Result<()> {
    let kinds: [&[u8; 2]; 4] = [b"\0\x16", b"\x08\x16", b"\x01\x12", b"\x05\x15"];
    for kind in kinds {
        let bytes = one_record(rt.alloc(), kind)?;
        is(
            &rt,
            "kind",
            &IdData::parse(&first_item(&rt, &bytes)?),
            &Ok(None),
        );
    }
    Ok(())
}

/// What the id record of an index says.
fn found<'t>(ids: &ItemFinder<'t>, index: u32) -> Result<Option<IdData<'t>>> {
    match ids.find(index) {
        Some(item) => IdData::parse(&item),
        None => Ok(None),
    }
}

#[test]
fn ids_of_a_stream(rt: HostRuntime) -> Result<()> {
    let ids = ItemFinder::new(rt.alloc(), &IDS)?;
    let string = IdData::String(StringId {
        substrings: None,
        name: RawString::from("ns"),
    });
    is(&rt, "1000", &found(&ids, 0x1000), &Ok(Some(string)));
    let function = IdData::Function(FunctionId {
        scope: Some(IdIndex(0x1000)),
        function_type: TypeIndex(0x74),
        name: RawString::from("ab"),
    });
    is(&rt, "1001", &found(&ids, 0x1001), &Ok(Some(function)));
    let member_function = IdData::MemberFunction(MemberFunctionId {
        parent: TypeIndex(0x1000),
        function_type: TypeIndex(0x75),
        name: RawString::from("m"),
    });
    is(
        &rt,
        "1002",
        &found(&ids, 0x1002),
        &Ok(Some(member_function)),
    );
    let source = IdData::UserDefinedTypeSource(UserDefinedTypeSourceId {
        udt: TypeIndex(0x1000),
        source_file: UserDefinedTypeSourceFileRef::Local(IdIndex(0x1000)),
        line: 7,
    });
    is(&rt, "1007", &found(&ids, 0x1007), &Ok(Some(source)));
    let Some(IdData::BuildInfo(build)) = found(&ids, 0x1006)? else {
        panic!(rt; "no build information");
    };
    is(&rt, "len", &build.len(), &2);
    is(&rt, "0", &build.get(0), &Some(Some(IdIndex(0x1000))));
    is(&rt, "1", &build.get(1), &Some(None));
    Ok(())
}
