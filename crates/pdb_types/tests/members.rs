//! Members of types, and the lists that go on in one another.

use super::is;
use super::support::{few, stream};
use crate::*;
use pdb_base::{Error, FallibleIterator, Feature, Result, TypeIndex, Variant};
use pdb_items::{ItemFinder, ItemIter};
use std::alloc::Global;
use std::process::Abort;

/// A record that is a list of these members.
fn list_of(alloc: Global, members: &[&[u8]]) -> Result<Vec<u8>> {
    let mut bytes = Vec::new(alloc);
    bytes.extend_from_slice(b"\x03\x12")?;
    for member in members {
        bytes.extend_from_slice(member)?;
    }
    Ok(bytes)
}

/// Asserts the members of the first record, and the error behind them.
fn gives(
    rt: &impl Abort,
    alloc: Global,
    records: &[&[u8]],
    wanted: &[Member<'_>],
    fault: Option<Error>,
) -> Result<()> {
    let bytes = stream(alloc, records)?;
    let types = ItemFinder::new(alloc, few(rt, &bytes))?;
    let mut members = MemberIter::new(&types, TypeIndex(0x1000));
    for member in wanted {
        is(rt, "member", &members.next(), &Ok(Some(*member)));
    }
    if let Some(error) = fault {
        is(rt, "fault", &members.next(), &Err(error));
    }
    is(rt, "end", &members.next(), &Ok(None));
    is(rt, "end", &members.next(), &Ok(None));
    Ok(())
}

/// Asserts what a member says, and that it is refused wherever it is cut.
fn says(rt: &impl Abort, alloc: Global, member: &[u8], wanted: Member<'_>) -> Result<()> {
    let whole = list_of(alloc, &[member])?;
    gives(rt, alloc, &[&whole], &[wanted], None)?;
    let twice = list_of(alloc, &[member, b"\xf3\xf2\xf1", member, b"\xf1"])?;
    gives(rt, alloc, &[&twice], &[wanted, wanted], None)?;
    for len in 1..member.len() {
        let cut = list_of(alloc, &[member, member.split_at(len).0])?;
        gives(rt, alloc, &[&cut], &[wanted], Some(Error::UnexpectedEof))?;
    }
    Ok(())
}

const FIRST: FieldAttributes = FieldAttributes(0x0201);

const INDEX: TypeIndex = TypeIndex(0x1413_1211);

#[test]
fn base_classes(rt: HostRuntime) -> Result<()> {
    let alloc = rt.alloc();
    let base = Member::BaseClass {
        attributes: FIRST,
        base_type: INDEX,
        offset: Variant::U32(0x2423_2221),
    };
    let bytes = b"\x00\x14\x01\x02\x11\x12\x13\x14\x04\x80\x21\x22\x23\x24";
    says(&rt, alloc, bytes, base)?;
    let bytes = b"\x1a\x15\x01\x02\x11\x12\x13\x14\x04\x80\x21\x22\x23\x24";
    says(&rt, alloc, bytes, base)?;
    for direct in [true, false] {
        let wanted = Member::VirtualBaseClass {
            direct,
            attributes: FIRST,
            base_type: INDEX,
            base_pointer_offset: Variant::I8(-2),
            base_offset: Variant::U16(0x4241),
        };
        let mut bytes = Vec::new(alloc);
        bytes.extend_from_slice(if direct { b"\x01\x14" } else { b"\x02\x14" })?;
        bytes.extend_from_slice(b"\x01\x02\x11\x12\x13\x14\x31\x32\x33\x34\x00\x80\xfe\x41\x42")?;
        says(&rt, alloc, &bytes, wanted)?;
    }
    Ok(())
}

#[test]
fn tables_and_friends(rt: HostRuntime) -> Result<()> {
    let alloc = rt.alloc();
    let table = Member::VirtualTablePointer { table: INDEX };
    says(&rt, alloc, b"\x09\x14\x01\x02\x11\x12\x13\x14", table)?;
    let bytes = b"\x0c\x14\x01\x02\x11\x12\x13\x14\xfd\xff\xff\xff";
    let offset = Member::VirtualTableOffset {
        table: INDEX,
        offset: -3,
    };
    says(&rt, alloc, bytes, offset)?;
    let class = Member::FriendClass { class_type: INDEX };
    says(&rt, alloc, b"\x0a\x14\x01\x02\x11\x12\x13\x14", class)?;
    let function = Member::FriendFunction {
        function: INDEX,
        name: b"fn",
    };
    says(
        &rt,
        alloc,
        b"\x0c\x15\x01\x02\x11\x12\x13\x14fn\0",
        function,
    )?;
    let nested = Member::Nested {
        nested_type: INDEX,
        name: b"T",
    };
    says(&rt, alloc, b"\x10\x15\x01\x02\x11\x12\x13\x14T\0", nested)?;
    says(&rt, alloc, b"\x12\x15\x01\x02\x11\x12\x13\x14T\0", nested)
}

#[test]
fn values_and_fields(rt: HostRuntime) -> Result<()> {
    let alloc = rt.alloc();
    let value = Member::Enumerate {
        attributes: FIRST,
        value: Variant::U64(0x3837_3635_3433_3231),
        name: b"one",
    };
    let bytes = b"\x02\x15\x01\x02\x0a\x80\x31\x32\x33\x34\x35\x36\x37\x38one\0";
    says(&rt, alloc, bytes, value)?;
    let field = Member::Member {
        attributes: FIRST,
        field_type: INDEX,
        offset: Variant::U16(0x3231),
        name: b"m",
    };
    says(
        &rt,
        alloc,
        b"\x0d\x15\x01\x02\x11\x12\x13\x14\x31\x32m\0",
        field,
    )?;
    let shared = Member::StaticMember {
        attributes: FIRST,
        field_type: INDEX,
        name: b"s",
    };
    says(&rt, alloc, b"\x0e\x15\x01\x02\x11\x12\x13\x14s\0", shared)
}

#[test]
fn functions(rt: HostRuntime) -> Result<()> {
    let alloc = rt.alloc();
    let overloads = Member::Method {
        count: 0x0201,
        method_list: INDEX,
        name: b"f",
    };
    says(
        &rt,
        alloc,
        b"\x0f\x15\x01\x02\x11\x12\x13\x14f\0",
        overloads,
    )?;
    for kind in 0..8u8 {
        let attributes = FieldAttributes(u16::from(kind) * 4 + 0x0203);
        let introduced = kind == 4 || kind == 6;
        let mut bytes = Vec::new(alloc);
        bytes.extend_from_slice(b"\x11\x15")?;
        bytes.extend_from_slice(&attributes.0.to_le_bytes())?;
        bytes.extend_from_slice(b"\x11\x12\x13\x14")?;
        if introduced {
            bytes.extend_from_slice(b"\x21\x22\x23\x24")?;
        }
        bytes.extend_from_slice(b"g\0")?;
        let wanted = Member::OneMethod {
            attributes,
            method_type: INDEX,
            vtable_offset: if introduced { Some(0x2423_2221) } else { None },
            name: b"g",
        };
        says(&rt, alloc, &bytes, wanted)?;
        assert!(rt; attributes.access() == 3);
        assert!(rt; attributes.method_properties() == kind);
        assert!(rt; attributes.is_static() == (kind == 2));
        assert!(rt; attributes.is_virtual() == (kind == 1));
        assert!(rt; attributes.is_pure_virtual() == (kind == 5));
        assert!(rt; attributes.is_intro_virtual() == introduced);
    }
    Ok(())
}

#[test]
fn faults(rt: HostRuntime) -> Result<()> {
    let alloc = rt.alloc();
    let table = b"\x09\x14\x01\x02\x11\x12\x13\x14";
    let wanted = [Member::VirtualTablePointer { table: INDEX }];
    let unknown = Some(Error::UnimplementedFeature(Feature::SymbolDataFormat));
    let list = list_of(alloc, &[table, b"\x03\x14\x01\x02\x11\x12\x13\x14", table])?;
    gives(&rt, alloc, &[&list], &wanted, unknown)?;
    // 0xf0 is no padding, and padding has to be there.
    let list = list_of(alloc, &[table, b"\xf0\xf1"])?;
    gives(&rt, alloc, &[&list], &wanted, unknown)?;
    let list = list_of(alloc, &[table, b"\xff\x01\x02\x03"])?;
    gives(&rt, alloc, &[&list], &[], Some(Error::UnexpectedEof))?;
    let list = list_of(
        alloc,
        &[b"\x00\x14\x01\x02\x11\x12\x13\x14\x05\x80\x21\x22\x23\x24"],
    )?;
    gives(
        &rt,
        alloc,
        &[&list],
        &[],
        Some(Error::UnexpectedNumericPrefix(0x8005)),
    )?;
    // A list that isn't there, and an item that is no list.
    let list = list_of(alloc, &[b"\x04\x14\0\0\x01\x10\0\0", table])?;
    gives(&rt, alloc, &[&list], &wanted, Some(Error::UnexpectedEof))?;
    gives(
        &rt,
        alloc,
        &[&list, b"\x01\x12\0\0\0\0"],
        &wanted,
        Some(Error::UnexpectedEof),
    )?;
    gives(
        &rt,
        alloc,
        &[b"\x01\x12\0\0\0\0"],
        &[],
        Some(Error::UnexpectedEof),
    )?;
    gives(&rt, alloc, &[b"\x03\x12"], &[], None)
}

#[test]
fn lists_go_on(rt: HostRuntime) -> Result<()> {
    let alloc = rt.alloc();
    let first = b"\x09\x14\0\0\x11\0\0\0";
    let second = b"\x09\x14\0\0\x22\0\0\0";
    let third = b"\x09\x14\0\0\x33\0\0\0";
    let table = |n: u32| Member::VirtualTablePointer {
        table: TypeIndex(n),
    };
    let to_1001 = b"\x04\x14\0\0\x01\x10\0\0";
    let to_1002 = b"\x04\x14\0\0\x02\x10\0\0";
    // The last index counts, behind the members of the list itself.
    let one = list_of(alloc, &[first, to_1001, second, to_1002, first])?;
    let two = list_of(alloc, &[second])?;
    let three = list_of(alloc, &[third, to_1001])?;
    let wanted = [
        table(0x11),
        table(0x22),
        table(0x11),
        table(0x33),
        table(0x22),
    ];
    gives(&rt, alloc, &[&one, &two, &three], &wanted, None)?;
    // A list behind a fault isn't read.
    let cut = list_of(alloc, &[to_1001, b"\x09\x14\0"])?;
    gives(&rt, alloc, &[&cut, &two], &[], Some(Error::UnexpectedEof))
}

#[test]
fn a_list_goes_on_in_itself(rt: HostRuntime) -> Result<()> {
    let alloc = rt.alloc();
    let list = list_of(
        alloc,
        &[b"\x09\x14\0\0\x11\0\0\0", b"\x04\x14\0\0\0\x10\0\0"],
    )?;
    let bytes = stream(alloc, &[&list])?;
    let types = ItemFinder::new(alloc, few(&rt, &bytes))?;
    let mut members = MemberIter::new(&types, TypeIndex(0x1000));
    let table = Member::VirtualTablePointer {
        table: TypeIndex(0x11),
    };
    is(&rt, "table", &members.next(), &Ok(Some(table)));
    is(&rt, "endless", &members.next(), &Ok(Some(Member::Endless)));
    is(&rt, "end", &members.next(), &Ok(None));
    let mut none = MemberIter::new(&types, TypeIndex(0));
    is(&rt, "none", &none.next(), &Ok(None));
    Ok(())
}

/// Tables that lists have, and what stands behind them, of lists that go on in one another.
fn goes_round(
    rt: &impl Abort,
    alloc: Global,
    lists: &[(u8, u16)],
    tables: &[u8],
    last: Member<'_>,
) -> Result<()> {
    let mut records = Vec::new(alloc);
    for (table, next) in lists {
        let mut entry = Vec::new(alloc);
        entry.extend_from_slice(b"\x09\x14\0\0")?;
        entry.extend_from_slice(&u32::from(*table).to_le_bytes())?;
        let mut goes_on = Vec::new(alloc);
        goes_on.extend_from_slice(b"\x04\x14\0\0")?;
        goes_on.extend_from_slice(&u32::from(*next).to_le_bytes())?;
        records.push(list_of(alloc, &[entry.as_slice(), goes_on.as_slice()])?)?;
    }
    let mut slices = Vec::new(alloc);
    for record in &records {
        slices.push(record.as_slice())?;
    }
    let bytes = stream(alloc, slices.as_slice())?;
    let types = ItemFinder::new(alloc, few(rt, &bytes))?;
    let mut members = MemberIter::new(&types, TypeIndex(0x1000));
    for number in tables {
        let table = Member::VirtualTablePointer {
            table: TypeIndex(u32::from(*number)),
        };
        is(rt, "table", &members.next(), &Ok(Some(table)));
    }
    is(rt, "last", &members.next(), &Ok(Some(last)));
    is(rt, "end", &members.next(), &Ok(None));
    is(rt, "end", &members.next(), &Ok(None));
    Ok(())
}

#[test]
fn lists_go_on_in_a_round(rt: HostRuntime) -> Result<()> {
    let alloc = rt.alloc();
    // The third goes on with the second.
    let lists = [(7, 0x1002), (8, 0x1001), (9, 0x1003), (10, 0x1002)];
    goes_round(&rt, alloc, &lists, &[7, 9, 10], Member::Endless)?;
    let lists = [(7, 0x1001), (8, 0x1002), (9, 0x1001)];
    goes_round(&rt, alloc, &lists, &[7, 8, 9], Member::Endless)
}

#[test]
fn more_than_1024_lists(rt: HostRuntime) -> Result<()> {
    let alloc = rt.alloc();
    let mut lists = Vec::new(alloc);
    for number in 1..1026 {
        lists.push((1, 0x1000 + number))?;
    }
    let tables = [1; 1024];
    goes_round(&rt, alloc, &lists, &tables, Member::More)?;
    // The last of 1,024 goes on with the first.
    let whole = lists.as_slice();
    let (front, _) = whole.split_at(1023);
    let mut round = Vec::new(alloc);
    round.extend_from_slice(front)?;
    round.push((1, 0x1000))?;
    goes_round(&rt, alloc, &round, &tables, Member::Endless)
}

#[test]
fn overloads(rt: HostRuntime) -> Result<()> {
    let alloc = rt.alloc();
    let list =
        b"\x06\x12\x03\x02\x07\x08\x11\x12\x13\x14\x11\x00\x07\x08\x21\x22\x23\x24\x31\x32\x33\x34";
    let plain = MethodListEntry {
        attributes: FieldAttributes(0x0203),
        method_type: INDEX,
        vtable_offset: None,
    };
    let introduced = MethodListEntry {
        attributes: FieldAttributes(0x0011),
        method_type: TypeIndex(0x2423_2221),
        vtable_offset: Some(0x3433_3231),
    };
    let bytes = stream(
        alloc,
        &[list, list.split_at(21).0, list.split_at(11).0, b"\x07\x12"],
    )?;
    let types = ItemFinder::new(alloc, few(&rt, &bytes))?;
    let mut whole = OverloadIter::new(&types, TypeIndex(0x1000))?;
    is(&rt, "overload", &whole.next(), &Ok(Some(plain)));
    is(&rt, "overload", &whole.next(), &Ok(Some(introduced)));
    is(&rt, "overload", &whole.next(), &Ok(None));
    for index in 0x1001..0x1003 {
        let mut cut = OverloadIter::new(&types, TypeIndex(index))?;
        is(&rt, "overload", &cut.next(), &Ok(Some(plain)));
        is(&rt, "overload", &cut.next(), &Err(Error::UnexpectedEof));
        is(&rt, "overload", &cut.next(), &Ok(None));
    }
    for index in 0x1003..0x1005 {
        match OverloadIter::new(&types, TypeIndex(index)) {
            Ok(_) => assert!(rt; false, "a list at {index:x}"),
            Err(error) => is(&rt, "overloads", &error, &Error::UnexpectedEof),
        }
    }
    Ok(())
}

/// A structure with a table of virtual functions, and an enumeration of `unsigned char`.
#[test]
fn a_structure_and_an_enumeration(rt: HostRuntime) -> Result<()> {
    let alloc = rt.alloc();
    let list = list_of(
        alloc,
        &[
            b"\x09\x14\0\0\x10\x10\0\0",
            b"\x0e\x15\x03\0\x74\0\0\0sm\0\xf1",
            b"\x0d\x15\x03\0\x11\x10\0\0\x08\0n\0",
            b"\x0d\x15\x03\0\x01\x10\0\0\x10\0bf1\0\xf2\xf1",
            b"\x0d\x15\x01\0\x12\0\0\0\x38\0q\0",
            b"\x11\x15\x13\0\x12\x10\0\0\0\0\0\0f\0\xf2\xf1",
            b"\x11\x15\x1b\0\x13\x10\0\0\x08\0\0\0g\0\xf2\xf1",
            b"\x11\x15\x0b\0\x14\x10\0\0st\0\xf1",
        ],
    )?;
    let bits = b"\x05\x12\x74\0\0\0\x03\0\xf2\xf1";
    let field = |attributes, field_type, offset, name| Member::Member {
        attributes: FieldAttributes(attributes),
        field_type: TypeIndex(field_type),
        offset: Variant::U16(offset),
        name,
    };
    let method = |attributes, method_type, vtable_offset, name| Member::OneMethod {
        attributes: FieldAttributes(attributes),
        method_type: TypeIndex(method_type),
        vtable_offset,
        name,
    };
    let shared: &[u8] = b"sm";
    let wanted = [
        Member::VirtualTablePointer {
            table: TypeIndex(0x1010),
        },
        Member::StaticMember {
            attributes: FieldAttributes(3),
            field_type: TypeIndex(0x74),
            name: shared,
        },
        field(3, 0x1011, 8, b"n"),
        field(3, 0x1001, 16, b"bf1"),
        field(1, 0x12, 56, b"q"),
        method(0x13, 0x1012, Some(0), b"f"),
        method(0x1b, 0x1013, Some(8), b"g"),
        method(0x0b, 0x1014, None, b"st"),
    ];
    gives(&rt, alloc, &[&list, bits], &wanted, None)?;
    let values = list_of(alloc, &[b"\x02\x15\x03\0\x07\0round\0\xf2\xf1"])?;
    let round = Member::Enumerate {
        attributes: FieldAttributes(3),
        value: Variant::U16(7),
        name: b"round",
    };
    gives(&rt, alloc, &[&values], &[round], None)
}

#[test]
fn faults_of_lists_that_many_types_have(rt: HostRuntime) -> Result<()> {
    let alloc = rt.alloc();
    let table = b"\x09\x14\0\0\x11\0\0\0";
    let goes_on = list_of(alloc, &[b"\x04\x14\0\0\x01\x10\0\0", table])?;
    let cut = list_of(alloc, &[table, b"\x09\x14\0"])?;
    let unknown = list_of(alloc, &[table, b"\x77\x77\0\0"])?;
    let itself = list_of(alloc, &[table, b"\x04\x14\0\0\x03\x10\0\0"])?;
    let whole = list_of(alloc, &[table, table])?;
    let class = b"\x01\x10\x74\0\0\0\x01\0";
    let bytes = stream(alloc, &[&goes_on, &cut, &unknown, &itself, &whole, class])?;
    let types = ItemFinder::new(alloc, few(&rt, &bytes))?;
    let eof = ChainEnd::Refused(Error::UnexpectedEof);
    let member = ChainEnd::Refused(Error::UnimplementedFeature(Feature::SymbolDataFormat));
    let wanted = [
        (0, ChainEnd::Whole),
        (0x1000, eof),
        (0x1001, eof),
        (0x1002, member),
        (0x1003, ChainEnd::Endless),
        (0x1004, ChainEnd::Whole),
        (0x1005, eof),
        (0x1006, eof),
        (0xfff, eof),
    ];
    let faults = MemberFaults::of_types(alloc, &types, ItemIter::new(few(&rt, &bytes))?)?;
    for (list, end) in wanted {
        is(&rt, "end", &faults.chain_end(TypeIndex(list)), &end);
    }
    // The items of another stream take time, and change nothing.
    let other = stream(alloc, &[class, &whole])?;
    let faults = MemberFaults::of_types(alloc, &types, ItemIter::new(few(&rt, &other))?)?;
    for (list, end) in wanted {
        is(&rt, "end", &faults.chain_end(TypeIndex(list)), &end);
    }
    Ok(())
}
