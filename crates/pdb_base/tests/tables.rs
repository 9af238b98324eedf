use super::is;
use crate::*;
use std::process::Abort;
use std::test::Fail;

const TABLE: &[u8; 17] = b"\xfe\xef\xfe\xef\x01\0\0\0\x05\0\0\0\0a.c\0";

fn table<'s>(rt: &impl Abort, bytes: &'s [u8]) -> Result<StringTable<'s>> {
    let stream = Stream::new(bytes).expect(rt, "a short stream");
    StringTable::parse(stream)
}

#[test]
fn the_string_table_gives_names(rt: HostRuntime) -> Result<()> {
    let names = table(&rt, TABLE)?;
    is(
        &rt,
        "names.get(StringRef(1))?.as_bytes()",
        &names.get(StringRef(1))?.as_bytes(),
        &b"a.c".as_slice(),
    );
    is(
        &rt,
        "names.get(StringRef(3))?.as_bytes()",
        &names.get(StringRef(3))?.as_bytes(),
        &b"c".as_slice(),
    );
    is(
        &rt,
        "names.get(StringRef(0))?.as_bytes()",
        &names.get(StringRef(0))?.as_bytes(),
        &b"".as_slice(),
    );
    for place in [5, 6, 0xffff_ffff] {
        is(
            &rt,
            "names.get(StringRef(place))",
            &names.get(StringRef(place)),
            &Err(Error::UnexpectedEof),
        );
    }
    let unended = table(&rt, b"\xfe\xef\xfe\xef\x01\0\0\0\x02\0\0\0ab\0")?;
    is(
        &rt,
        "unended.get(StringRef(0))",
        &unended.get(StringRef(0)),
        &Err(Error::UnexpectedEof),
    );
    Ok(())
}

#[test]
fn a_cut_string_table_is_refused(rt: HostRuntime) {
    for k in 0..17 {
        let refused = table(&rt, &TABLE[..k]).err();
        is(&rt, "refused", &refused, &Some(Error::UnexpectedEof));
    }
    let refused = table(&rt, b"\xff\xef\xfe\xef\x01\0\0\0\x05\0\0\0").err();
    is(
        &rt,
        "refused",
        &refused,
        &Some(Error::UnimplementedFeature(Feature::StringTable)),
    );
    let refused = table(&rt, b"\xff\xef\xfe\xef\x01\0\0\0\x05\0\0").err();
    is(&rt, "refused", &refused, &Some(Error::UnexpectedEof));
}

const HEADER: &[u8; 40] =
    b".text\0\0\0\0\x10\0\0\0\x20\0\0\0\x30\0\0\0\x40\0\0\0\x50\0\0\0\x60\0\0\x07\0\x08\0\x20\0\0\x60";

#[test]
fn a_section_header_has_forty_bytes(rt: HostRuntime) -> Result<()> {
    let mut buffer = ParseBuffer::from(HEADER.as_slice());
    let header = ImageSectionHeader::parse(&mut buffer)?;
    assert!(rt; buffer.is_empty());
    is(&rt, "header.name()", &header.name(), &b".text".as_slice());
    is(&rt, "header.virtual_size", &header.virtual_size, &0x1000);
    is(
        &rt,
        "header.virtual_address",
        &header.virtual_address,
        &0x2000,
    );
    is(
        &rt,
        "header.size_of_raw_data",
        &header.size_of_raw_data,
        &0x3000,
    );
    is(
        &rt,
        "header.pointer_to_raw_data",
        &header.pointer_to_raw_data,
        &0x4000,
    );
    is(
        &rt,
        "header.pointer_to_relocations",
        &header.pointer_to_relocations,
        &0x5000,
    );
    is(
        &rt,
        "header.pointer_to_line_numbers",
        &header.pointer_to_line_numbers,
        &0x6000,
    );
    is(
        &rt,
        "header.number_of_relocations",
        &header.number_of_relocations,
        &7,
    );
    is(
        &rt,
        "header.number_of_line_numbers",
        &header.number_of_line_numbers,
        &8,
    );
    is(
        &rt,
        "header.characteristics",
        &header.characteristics,
        &SectionCharacteristics(0x6000_0020),
    );
    let full = ImageSectionHeader {
        name: *b"12345678",
        ..header
    };
    is(&rt, "full.name()", &full.name(), &b"12345678".as_slice());
    for k in 0..40 {
        let mut buffer = ParseBuffer::from(&HEADER[..k]);
        is(
            &rt,
            "ImageSectionHeader::parse(&mut buffer).err()",
            &ImageSectionHeader::parse(&mut buffer).err(),
            &Some(Error::UnexpectedEof),
        );
    }
    Ok(())
}

const STEPS_SIZE: usize = size_of::<Steps>();

#[test]
fn steps_take_no_bytes(rt: HostRuntime) -> std::result::Result<(), Fail> {
    is(&rt, "STEPS_SIZE", &STEPS_SIZE, &0);
    let mut steps = Steps::default();
    steps.tick();
    let _copy = steps.clone()?;
    Ok(())
}
