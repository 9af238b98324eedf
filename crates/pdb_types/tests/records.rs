//! What type records say.

use super::is;
use super::support::{few, first_item, stream};
use crate::*;
use pdb_base::{Error, FallibleIterator, Result, TypeIndex};
use pdb_items::ItemIter;
use std::alloc::Global;
use std::process::Abort;

/// Asserts what the type record of these bytes says.
fn says(rt: &impl Abort, alloc: Global, record: &[u8], wanted: TypeData<'_>) -> Result<()> {
    let bytes = stream(alloc, &[record])?;
    is(
        rt,
        "type",
        &TypeData::parse(&first_item(rt, &bytes)?),
        &Ok(Some(wanted)),
    );
    Ok(())
}

/// Asserts that the record is no longer read where its last byte isn't there.
fn ends(rt: &impl Abort, alloc: Global, record: &[u8]) -> Result<()> {
    let bytes = stream(alloc, &[record.split_at(record.len() - 1).0])?;
    is(
        rt,
        "end",
        &TypeData::parse(&first_item(rt, &bytes)?),
        &Err(Error::UnexpectedEof),
    );
    Ok(())
}

#[test]
fn modifiers_and_pointers(rt: HostRuntime) -> Result<()> {
    let alloc = rt.alloc();
    let modifier = b"\x01\x10\x11\x12\x13\x14\x05\0";
    let qualifiers = Qualifiers {
        is_const: true,
        is_volatile: false,
        is_unaligned: true,
        is_restrict: false,
    };
    let underlying = TypeIndex(0x1413_1211);
    says(
        &rt,
        alloc,
        modifier,
        TypeData::Modifier(Modifier {
            underlying,
            qualifiers,
        }),
    )?;
    ends(&rt, alloc, modifier)?;
    let member = b"\x02\x10\x21\x22\x23\x24\x4c\x14\x19\0\x31\x32\x33\x34";
    let pointer = Pointer {
        referent: TypeIndex(0x2423_2221),
        attributes: PointerAttributes(0x0019_144c),
        mode: PointerMode::DataMember(TypeIndex(0x3433_3231)),
    };
    says(&rt, alloc, member, TypeData::Pointer(pointer))?;
    ends(&rt, alloc, member)?;
    let words = pointer.attributes.qualifiers();
    assert!(rt; words.is_const && words.is_restrict && !words.is_volatile && !words.is_unaligned);
    is(&rt, "size", &pointer.attributes.size(), &Some(8));
    assert!(rt; pointer.attributes.is_lvalue_this() && !pointer.attributes.is_rvalue_this());
    assert!(rt; PointerAttributes(0x20_0000).is_rvalue_this());
    Ok(())
}

/// Asserts what a pointer of these attributes is, before a class.
fn mode(rt: &impl Abort, alloc: Global, attributes: u8, wanted: Result<PointerMode>) -> Result<()> {
    let mut record = Vec::new(alloc);
    record.extend_from_slice(b"\x02\x10\x74\0\0\0")?;
    record.push(attributes)?;
    record.extend_from_slice(b"\0\0\0\x51\x52\x53\x54")?;
    let bytes = stream(alloc, &[&record])?;
    let given = match TypeData::parse(&first_item(rt, &bytes)?) {
        Ok(Some(TypeData::Pointer(pointer))) => Ok(pointer.mode),
        Ok(_) => Err(Error::IoError),
        Err(error) => Err(error),
    };
    is(rt, "mode", &given, &wanted);
    Ok(())
}

#[test]
fn modes_of_pointers(rt: HostRuntime) -> Result<()> {
    let alloc = rt.alloc();
    let class = TypeIndex(0x5453_5251);
    mode(&rt, alloc, 0x0c, Ok(PointerMode::Pointer))?;
    mode(&rt, alloc, 0x2c, Ok(PointerMode::LvalueReference))?;
    mode(&rt, alloc, 0x4c, Ok(PointerMode::DataMember(class)))?;
    mode(&rt, alloc, 0x6c, Ok(PointerMode::MemberFunction(class)))?;
    mode(&rt, alloc, 0x8c, Ok(PointerMode::RvalueReference))?;
    mode(&rt, alloc, 0xac, Err(Error::UnexpectedEof))?;
    mode(&rt, alloc, 0xec, Err(Error::UnexpectedEof))
}

/// Asserts the size of an array, as its record has it.
fn array(rt: &impl Abort, alloc: Global, size: &[u8], wanted: Result<i128>) -> Result<()> {
    let mut record = Vec::new(alloc);
    record.extend_from_slice(b"\x03\x15\x41\x42\x43\x44\x45\x46\x47\x48")?;
    record.extend_from_slice(size)?;
    let bytes = stream(alloc, &[&record])?;
    let element = TypeIndex(0x4443_4241);
    let wanted = wanted.map(|size| Some(TypeData::Array(Array { element, size })));
    is(
        rt,
        "array",
        &TypeData::parse(&first_item(rt, &bytes)?),
        &wanted,
    );
    Ok(())
}

#[test]
fn sizes_of_arrays(rt: HostRuntime) -> Result<()> {
    let alloc = rt.alloc();
    array(&rt, alloc, b"\xff\x7f", Ok(0x7fff))?;
    array(&rt, alloc, b"\0\x80\xfe", Ok(-2))?;
    array(&rt, alloc, b"\x01\x80\xfe\xff", Ok(-2))?;
    array(&rt, alloc, b"\x02\x80\xfe\xff", Ok(0xfffe))?;
    array(&rt, alloc, b"\x03\x80\xfe\xff\xff\xff", Ok(-2))?;
    array(&rt, alloc, b"\x04\x80\xfe\xff\xff\xff", Ok(0xffff_fffe))?;
    array(
        &rt,
        alloc,
        b"\x09\x80\xfe\xff\xff\xff\xff\xff\xff\xff",
        Ok(-2),
    )?;
    array(
        &rt,
        alloc,
        b"\x0a\x80\xfe\xff\xff\xff\xff\xff\xff\xff",
        Ok(0xffff_ffff_ffff_fffe),
    )?;
    array(
        &rt,
        alloc,
        b"\x05\x80\0\0\0\0",
        Err(Error::UnexpectedNumericPrefix(0x8005)),
    )?;
    array(&rt, alloc, b"\x04\x80\0\0\0", Err(Error::UnexpectedEof))
}

#[test]
fn bits_functions_and_shapes(rt: HostRuntime) -> Result<()> {
    let alloc = rt.alloc();
    let bits = b"\x05\x12\x61\x62\x63\x64\x03";
    let underlying = TypeIndex(0x6463_6261);
    says(
        &rt,
        alloc,
        bits,
        TypeData::Bitfield(Bitfield { underlying, len: 3 }),
    )?;
    ends(&rt, alloc, bits)?;
    let procedure = b"\x08\x10\x11\x12\x13\x14\x01\x02\x03\x04\x21\x22\x23\x24";
    let return_type = TypeIndex(0x1413_1211);
    let argument_list = TypeIndex(0x2423_2221);
    says(
        &rt,
        alloc,
        procedure,
        TypeData::Procedure(Procedure {
            return_type,
            argument_list,
        }),
    )?;
    ends(&rt, alloc, procedure)?;
    let method =
        b"\x09\x10\x11\x12\x13\x14\x31\x32\x33\x34\x41\x42\x43\x44\x01\x02\x03\x04\x21\x22\x23\x24";
    let wanted = MemberFunction {
        return_type,
        class_type: TypeIndex(0x3433_3231),
        this_type: TypeIndex(0x4443_4241),
        argument_list,
    };
    says(&rt, alloc, method, TypeData::MemberFunction(wanted))?;
    ends(&rt, alloc, method)?;
    let shape = b"\x0a\0\x07\x01";
    says(
        &rt,
        alloc,
        shape,
        TypeData::VirtualTableShape(VirtualTableShape { methods: 0x0107 }),
    )?;
    ends(&rt, alloc, shape)?;
    says(&rt, alloc, b"\x03\x12", TypeData::FieldList)
}

#[test]
fn lists_of_arguments(rt: HostRuntime) -> Result<()> {
    let alloc = rt.alloc();
    let record = b"\x01\x12\x02\0\0\0\x11\x12\x13\x14\0\0\0\0";
    let bytes = stream(alloc, &[record])?;
    let Some(TypeData::ArgumentList(list)) = TypeData::parse(&first_item(&rt, &bytes)?)? else {
        panic!(rt; "no list of arguments");
    };
    is(&rt, "len", &list.len(), &2);
    is(&rt, "0", &list.get(0), &Some(TypeIndex(0x1413_1211)));
    is(&rt, "1", &list.get(1), &Some(TypeIndex(0)));
    is(&rt, "2", &list.get(2), &None);
    is(&rt, "last", &list.get(usize::MAX), &None);
    ends(&rt, alloc, record)
}

/// Asserts the fields of a tag.
fn tag(rt: &impl Abort, tag: Tag<'_>, forward: bool, name: &[u8], unique: Option<&[u8]>) {
    is(rt, "forward", &tag.is_forward, &forward);
    is(rt, "fields", &tag.fields, &TypeIndex(0x2423_2221));
    is(rt, "name", &tag.name.as_bytes(), &name);
    is(
        rt,
        "unique",
        &tag.unique_name().map(|name| name.as_bytes()),
        &unique,
    );
}

#[test]
fn classes_and_unions(rt: HostRuntime) -> Result<()> {
    let alloc = rt.alloc();
    for kind in [b"\x04\x15", b"\x05\x15", b"\x19\x15"] {
        let mut record = Vec::new(alloc);
        record.extend_from_slice(kind)?;
        record.extend_from_slice(
            b"\x01\x02\x80\x02\x21\x22\x23\x24\x31\x32\x33\x34\x41\x42\x43\x44",
        )?;
        record.extend_from_slice(b"\x51\x52Cl\0.?AU\0")?;
        let bytes = stream(alloc, &[&record])?;
        let Some(TypeData::Class(class)) = TypeData::parse(&first_item(&rt, &bytes)?)? else {
            panic!(rt; "no class");
        };
        is(&rt, "size", &class.size, &0x5251);
        tag(&rt, class.tag, true, b"Cl", Some(b".?AU"));
    }
    let union = b"\x06\x15\x01\x02\0\x02\x21\x22\x23\x24\x51\x52Un\0.?AT";
    let bytes = stream(alloc, &[union])?;
    let Some(TypeData::Union(union)) = TypeData::parse(&first_item(&rt, &bytes)?)? else {
        panic!(rt; "no union");
    };
    is(&rt, "size", &union.size, &0x5251);
    tag(&rt, union.tag, false, b"Un", None);
    ends(
        &rt,
        alloc,
        b"\x06\x15\x01\x02\0\0\x21\x22\x23\x24\x51\x52Un\0",
    )
}

#[test]
fn tags_of_the_same_names_are_equal(rt: HostRuntime) -> Result<()> {
    let alloc = rt.alloc();
    // Two of each row say the same. The last three have no unique name: no flag, no zero byte behind it.
    let rows: [(&[u8], &[u8]); 5] = [
        (b"\x02Un\0.?AT\0", b"\x02Un\0.?AT\0\xf3\xf2\xf1"),
        (b"\x02Un\0.?AU\0", b"\x02Un\0.?AU\0x\0"),
        (b"\0Un\0.?AT\0", b"\0Un\0.?AU\0"),
        (b"\0Um\0", b"\0Um\0\xf1"),
        (b"\x02Un\0.?AT", b"\x02Un\0.?AU"),
    ];
    let mut records = Vec::new(alloc);
    for (one, other) in rows {
        for it in [one, other] {
            let mut record = Vec::new(alloc);
            record.extend_from_slice(b"\x06\x15\0\0\0")?;
            record.push(it[0])?;
            record.extend_from_slice(b"\0\x10\0\0\x08\0")?;
            record.extend_from_slice(&it[1..])?;
            records.push(record)?;
        }
    }
    let mut slices = Vec::new(alloc);
    for record in &records {
        slices.push(record.as_slice())?;
    }
    let bytes = stream(alloc, slices.as_slice())?;
    let mut items = ItemIter::new(few(&rt, &bytes))?;
    let mut says = Vec::new(alloc);
    while let Some(item) = items.next()? {
        says.push(TypeData::parse(&item)?)?;
    }
    for i in 0..10 {
        for k in 0..10 {
            let same = says[i] == says[k];
            assert!(rt; same == (i / 2 == k / 2), "{i} and {k}");
        }
    }
    Ok(())
}

#[test]
fn enumerations_and_aliases(rt: HostRuntime) -> Result<()> {
    let alloc = rt.alloc();
    let record = b"\x07\x15\x01\x02\0\0\x11\x12\x13\x14\x21\x22\x23\x24En\0.?AW\0";
    let bytes = stream(alloc, &[record])?;
    let Some(TypeData::Enumeration(it)) = TypeData::parse(&first_item(&rt, &bytes)?)? else {
        panic!(rt; "no enumeration");
    };
    is(&rt, "underlying", &it.underlying, &TypeIndex(0x1413_1211));
    tag(&rt, it.tag, false, b"En", None);
    let alias = b"\x0a\x15\x11\x12\x13\x14Al\0";
    let bytes = stream(alloc, &[alias])?;
    let Some(TypeData::Alias(it)) = TypeData::parse(&first_item(&rt, &bytes)?)? else {
        panic!(rt; "no alias");
    };
    is(&rt, "name", &it.name.as_bytes(), &b"Al".as_slice());
    ends(&rt, alloc, alias)
}

#[test]
fn other_kinds_say_nothing(rt: HostRuntime) -> Result<()> {
    let alloc = rt.alloc();
    let bytes = stream(alloc, &[b"\x06\x12\0\0\0\0\x74\0\0\0"])?;
    is(
        &rt,
        "other",
        &TypeData::parse(&first_item(&rt, &bytes)?),
        &Ok(None),
    );
    Ok(())
}
