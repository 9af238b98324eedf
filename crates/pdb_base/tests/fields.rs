use super::is;
use crate::part::append;
use crate::*;
use std::borrow::CowStr;
use std::test::Fail;

#[test]
fn numbers_are_little_endian_at_any_place(rt: HostRuntime) -> Result<()> {
    let bytes: [u8; 16] = [1, 2, 3, 4, 5, 6, 7, 8, 9, 255, 255, 255, 255, 255, 255, 255];
    let mut buffer = ParseBuffer::from(bytes.as_slice());
    is(&rt, "buffer.parse_u8()?", &buffer.parse_u8()?, &1);
    is(&rt, "buffer.parse_u16()?", &buffer.parse_u16()?, &0x0302);
    is(
        &rt,
        "buffer.parse_u32()?",
        &buffer.parse_u32()?,
        &0x0706_0504,
    );
    is(&rt, "buffer.pos()", &buffer.pos(), &7);
    is(&rt, "buffer.len()", &buffer.len(), &9);
    is(
        &rt,
        "buffer.parse_u64()?",
        &buffer.parse_u64()?,
        &0xffff_ffff_ffff_0908,
    );
    is(
        &rt,
        "buffer.parse_u16()",
        &buffer.parse_u16(),
        &Err(Error::UnexpectedEof),
    );
    buffer.seek(9);
    is(&rt, "buffer.parse_i16()?", &buffer.parse_i16()?, &-1);
    buffer.seek(8);
    is(&rt, "buffer.parse_i32()?", &buffer.parse_i32()?, &-247);
    buffer.seek(8);
    is(&rt, "buffer.parse_i64()?", &buffer.parse_i64()?, &-247);
    assert!(rt; buffer.is_empty());
    Ok(())
}

#[test]
fn a_zero_byte_ends_a_name(rt: HostRuntime) -> Result<()> {
    let mut buffer = ParseBuffer::from(b"ab\0\0cd".as_slice());
    is(
        &rt,
        "buffer.parse_cstring()?.as_bytes()",
        &buffer.parse_cstring()?.as_bytes(),
        &b"ab".as_slice(),
    );
    is(&rt, "buffer.pos()", &buffer.pos(), &3);
    is(
        &rt,
        "buffer.parse_cstring()?.as_bytes()",
        &buffer.parse_cstring()?.as_bytes(),
        &b"".as_slice(),
    );
    is(
        &rt,
        "buffer.parse_cstring()",
        &buffer.parse_cstring(),
        &Err(Error::UnexpectedEof),
    );
    Ok(())
}

#[test]
fn a_length_byte_names_its_bytes(rt: HostRuntime) -> Result<()> {
    let mut buffer = ParseBuffer::from(b"\x02ab\x00\x03cd".as_slice());
    is(
        &rt,
        "buffer.parse_u8_pascal_string()?.as_bytes()",
        &buffer.parse_u8_pascal_string()?.as_bytes(),
        &b"ab".as_slice(),
    );
    is(
        &rt,
        "buffer.parse_u8_pascal_string()?.as_bytes()",
        &buffer.parse_u8_pascal_string()?.as_bytes(),
        &b"".as_slice(),
    );
    is(
        &rt,
        "buffer.parse_u8_pascal_string()",
        &buffer.parse_u8_pascal_string(),
        &Err(Error::UnexpectedEof),
    );
    Ok(())
}

#[test]
fn padding_is_counted_from_the_start(rt: HostRuntime) -> Result<()> {
    let bytes = [0u8; 10];
    for (place, aligned) in [
        (0, 0),
        (1, 4),
        (2, 4),
        (3, 4),
        (4, 4),
        (5, 8),
        (7, 8),
        (8, 8),
    ] {
        let mut buffer = ParseBuffer::from(bytes.as_slice());
        buffer.seek(place);
        buffer.align(4)?;
        is(&rt, "from", &buffer.pos(), &aligned);
    }
    for place in [9, 10] {
        let mut buffer = ParseBuffer::from(bytes.as_slice());
        buffer.seek(place);
        is(&rt, "from", &buffer.align(4), &Err(Error::UnexpectedEof));
    }
    Ok(())
}

#[test]
fn seek_past_the_end_stands_at_the_end(rt: HostRuntime) -> std::result::Result<(), Fail> {
    let mut buffer = ParseBuffer::from(b"abc".as_slice());
    buffer.seek(7);
    is(&rt, "buffer.pos()", &buffer.pos(), &3);
    let again = buffer.clone()?;
    is(&rt, "again.pos()", &again.pos(), &3);
    buffer.seek(1);
    is(&rt, "buffer.take(2)?", &buffer.take(2)?, &b"bc".as_slice());
    is(
        &rt,
        "ParseBuffer::default().len()",
        &ParseBuffer::default().len(),
        &0,
    );
    Ok(())
}

#[test]
fn truncate_keeps_the_first_bytes(rt: HostRuntime) -> Result<()> {
    for (n, place, left) in [(2, 2, 0), (3, 3, 0), (4, 3, 1), (5, 3, 2)] {
        let mut buffer = ParseBuffer::from(b"abcde".as_slice());
        buffer.seek(3);
        buffer.truncate(n)?;
        is(&rt, "buffer.pos()", &buffer.pos(), &place);
        is(&rt, "buffer.len()", &buffer.len(), &left);
    }
    let mut buffer = ParseBuffer::from(b"abcde".as_slice());
    is(
        &rt,
        "buffer.truncate(6)",
        &buffer.truncate(6),
        &Err(Error::UnexpectedEof),
    );
    Ok(())
}

fn variant(bytes: &[u8]) -> Result<Variant> {
    Variant::parse(&mut ParseBuffer::from(bytes))
}

#[test]
fn a_prefix_says_the_kind_of_number(rt: HostRuntime) -> Result<()> {
    is(
        &rt,
        "variant(..)?",
        &variant(b"\xff\x7f")?,
        &Variant::U16(0x7fff),
    );
    is(
        &rt,
        "variant(..)?",
        &variant(b"\x00\x80\xff")?,
        &Variant::U8(255),
    );
    is(
        &rt,
        "variant(..)?",
        &variant(b"\x01\x80\xff\xff")?,
        &Variant::I16(-1),
    );
    is(
        &rt,
        "variant(..)?",
        &variant(b"\x02\x80\xff\xff")?,
        &Variant::U16(65535),
    );
    is(
        &rt,
        "variant(..)?",
        &variant(b"\x03\x80\xff\xff\xff\xff")?,
        &Variant::I32(-1),
    );
    is(
        &rt,
        "variant(..)?",
        &variant(b"\x04\x80\x01\x00\x00\x80")?,
        &Variant::U32(0x8000_0001),
    );
    is(
        &rt,
        "variant(..)?",
        &variant(b"\x09\x80\xfe\xff\xff\xff\xff\xff\xff\xff")?,
        &Variant::I64(-2),
    );
    is(
        &rt,
        "variant(..)?",
        &variant(b"\x0a\x80\xfe\xff\xff\xff\xff\xff\xff\xff")?,
        &Variant::U64(u64::MAX - 1),
    );
    for unlisted in [0x8005u16, 0x8006, 0x8007, 0x8008, 0x800b, 0xffff] {
        is(
            &rt,
            "variant(&unlisted.to_le_bytes())",
            &variant(&unlisted.to_le_bytes()),
            &Err(Error::UnexpectedNumericPrefix(unlisted)),
        );
    }
    is(
        &rt,
        "variant(..)",
        &variant(b"\x03\x80\xff"),
        &Err(Error::UnexpectedEof),
    );
    is(
        &rt,
        "variant(..)",
        &variant(b"\x00\x80"),
        &Err(Error::UnexpectedEof),
    );
    is(
        &rt,
        "variant(..)",
        &variant(b"\x00"),
        &Err(Error::UnexpectedEof),
    );
    Ok(())
}

#[test]
fn names_become_text(rt: HostRuntime) -> Result<()> {
    let mut buffer = ParseBuffer::from(b"a\xff\0".as_slice());
    let text = buffer.parse_cstring()?.to_string(rt.alloc())?;
    is(
        &rt,
        "text.as_str().as_bytes()",
        &text.as_str().as_bytes(),
        &b"a\xef\xbf\xbd".as_slice(),
    );
    assert!(rt; matches!(text, CowStr::Owned(_)));
    let name = RawString::from("name");
    let text = name.to_string(rt.alloc())?;
    is(
        &rt,
        "text.as_str().as_bytes()",
        &text.as_str().as_bytes(),
        &b"name".as_slice(),
    );
    assert!(rt; matches!(text, CowStr::Borrowed(_)));
    Ok(())
}

#[test]
fn indices_have_numbers(rt: HostRuntime) -> std::result::Result<(), Fail> {
    is(
        &rt,
        "TypeIndex::from_number(7).number()",
        &TypeIndex::from_number(7).number(),
        &7,
    );
    is(
        &rt,
        "TypeIndex::from(7)",
        &TypeIndex::from(7),
        &TypeIndex(7),
    );
    is(
        &rt,
        "IdIndex::from_number(0x8000_0000).number()",
        &IdIndex::from_number(0x8000_0000).number(),
        &0x8000_0000,
    );
    is(&rt, "IdIndex::from(9)", &IdIndex::from(9), &IdIndex(9));
    assert!(rt; IdIndex(0x8000_0000).is_cross_module());
    assert!(rt; !TypeIndex(0x7fff_ffff).is_cross_module());
    is(
        &rt,
        "Local(TypeIndex(3))",
        &Local(TypeIndex(3)),
        &Local(TypeIndex(3)),
    );
    is(
        &rt,
        "StreamIndex::none()",
        &StreamIndex::none(),
        &StreamIndex(0xffff),
    );
    is(
        &rt,
        "StreamIndex::none().msf_number()",
        &StreamIndex::none().msf_number(),
        &None,
    );
    is(
        &rt,
        "StreamIndex(0xfffe).msf_number()",
        &StreamIndex(0xfffe).msf_number(),
        &Some(0xfffe),
    );
    let shown = StringRef(0x2cbd).to_string(rt.alloc())?;
    is(&rt, "shown.as_str()", &shown.as_str(), &("0x2cbd"));
    let shown = StringRef(0).to_string(rt.alloc())?;
    is(&rt, "shown.as_str()", &shown.as_str(), &("0x0"));
    Ok(())
}

#[test]
fn offsets_wrap_and_compare_within_a_section(rt: HostRuntime) {
    let low = PdbInternalSectionOffset::new(1, 0x10);
    let high = low.wrapping_add(0xffff_fff8);
    is(
        &rt,
        "high",
        &high,
        &PdbInternalSectionOffset {
            offset: 8,
            section: 1,
        },
    );
    assert!(rt; high < low);
    assert!(rt; low > high);
    let other = PdbInternalSectionOffset::new(2, 0x10);
    assert!(rt; low.partial_cmp(&other).is_none());
    assert!(rt; low.partial_cmp(&low).is_some());
    is(
        &rt,
        "PdbInternalSectionOffset::default()",
        &PdbInternalSectionOffset::default(),
        &PdbInternalSectionOffset::new(0, 0),
    );
}

#[test]
fn refusals_are_numbered_and_named(rt: HostRuntime) -> std::result::Result<(), Fail> {
    is(
        &rt,
        "Error::UnexpectedEof.number()",
        &Error::UnexpectedEof.number(),
        &1,
    );
    is(
        &rt,
        "Error::InvalidStreamLength(Part::Sample).num",
        &Error::InvalidStreamLength(Part::Sample).number(),
        &10,
    );
    is(
        &rt,
        "Error::OutOfMemory.number()",
        &Error::OutOfMemory.number(),
        &22,
    );
    let shown = Error::InvalidPageSize(513).to_string(rt.alloc())?;
    is(
        &rt,
        "shown.as_str()",
        &shown.as_str(),
        &("the container has an invalid page size: 513"),
    );
    let shown = Error::UnimplementedFeature(Feature::AncientDbiHeader).to_string(rt.alloc())?;
    is(
        &rt,
        "shown.as_str()",
        &shown.as_str(),
        &("not supported: ancient DBI header"),
    );
    let shown = Error::InvalidStreamLength(Part::DebugHeader).to_string(rt.alloc())?;
    is(
        &rt,
        "shown.as_str()",
        &shown.as_str(),
        &("invalid length: DbgDataHdr"),
    );
    is(
        &rt,
        "Feature::StringTable.as_str()",
        &Feature::StringTable.as_str(),
        &("string table"),
    );
    is(
        &rt,
        "Part::LinesBlock.as_str()",
        &Part::LinesBlock.as_str(),
        &("DebugLinesBlock"),
    );
    Ok(())
}

#[test]
fn bytes_are_put_behind_others(rt: HostRuntime) -> Result<()> {
    let mut many = Vec::new(rt.alloc());
    for n in 0..10_000u32 {
        many.push((n % 251) as u8)?;
    }
    let mut all = Vec::new(rt.alloc());
    for part in [&b"front"[..], many.as_slice(), &[][..]] {
        append(&mut all, part)?;
    }
    is(&rt, "how many", &all.len(), &10_005);
    is(&rt, "front", &&all[..5], &&b"front"[..]);
    is(&rt, "behind it", &&all[5..], &many.as_slice());
    Ok(())
}
