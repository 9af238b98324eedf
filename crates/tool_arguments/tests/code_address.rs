//! Tests of `code_address`.

use crate::code_address::*;
use crate::tests::fakes::is;
use pdb_base::PdbInternalSectionOffset;
use std::process::Abort;

fn rva(address: u32) -> Option<CodeAddress> {
    Some(CodeAddress::Rva(address))
}

fn place(section: u16, offset: u32) -> Option<CodeAddress> {
    Some(CodeAddress::Place(PdbInternalSectionOffset { section, offset }))
}

/// Whether a word is this address, by a base.
fn address_is(rt: &impl Abort, base: Option<u64>, word: &[u8], wanted: Option<CodeAddress>) {
    let given = match spelled_in(word) {
        Some(spelled) => code_address(base, 0, spelled),
        None => None,
    };
    assert!(rt; given == wanted, "{word:?}: {given:?}, and not {wanted:?}");
}

#[test]
fn addresses_and_places(rt: HostRuntime) {
    let rows: [(&[u8], Option<CodeAddress>); 29] = [
        (b"1100", rva(0x1100)),
        (b"0x1100", rva(0x1100)),
        (b"fFfF", rva(0xffff)),
        (b"ffffffff", rva(0xffff_ffff)),
        (b"000000001100", rva(0x1100)),
        (b"100000000", None),
        (b"0x", None),
        (b"", None),
        (b"x1", None),
        (b"0X11", rva(0x11)),
        (b"11h", rva(0x11)),
        (b"00000000`00001100", rva(0x1100)),
        (b"0`fffffffe", rva(0xffff_fffe)),
        (b"1`00000000", None),
        (b"`00001100", None),
        (b"0`0001100", None),
        (b"0x0`00001100", None),
        (b"0x11h", None),
        (b"h", None),
        (b"00000000000001100", None),
        (b"+11", None),
        (b"10000000000000000000000000000001", None),
        (b"1:100", place(1, 0x100)),
        (b"ffff:ffffffff", place(0xffff, 0xffff_ffff)),
        (b"10000:1", None),
        (b"1:100000000", None),
        (b"1:", None),
        (b":1", None),
        (b"1:2:3", None),
    ];
    for (word, wanted) in rows {
        address_is(&rt, None, word, wanted);
    }
}

#[test]
fn addresses_are_taken_from_a_base(rt: HostRuntime) {
    let base = Some(0x1_4000_0000);
    let nowhere = Some(CodeAddress::Nowhere);
    address_is(&rt, base, b"140001100", rva(0x1100));
    address_is(&rt, base, b"0x140000000", rva(0));
    address_is(&rt, base, b"13fffffff", nowhere);
    address_is(&rt, base, b"23fffffff", rva(0xffff_ffff));
    address_is(&rt, base, b"240000000", nowhere);
    address_is(&rt, base, b"ffffffffffffffff", nowhere);
    address_is(&rt, base, b"00000001`40001100", rva(0x1100));
    address_is(&rt, Some(0), b"100000000", nowhere);
    address_is(&rt, base, b"2:10", place(2, 0x10));
}

#[test]
fn an_address_is_spelled_before_it_is_judged(rt: HostRuntime) {
    let rows: [(&[u8], Option<SpelledAddress>); 4] = [
        (b"100000000", Some(SpelledAddress::Number(0x1_0000_0000))),
        (b"ffffffffffffffffh", Some(SpelledAddress::Number(u64::MAX))),
        (
            b"a:b",
            Some(SpelledAddress::Place(PdbInternalSectionOffset {
                section: 10,
                offset: 11,
            })),
        ),
        (b"0x1:2", None),
    ];
    for (word, wanted) in rows {
        is(&rt, "spelled", &spelled_in(word), &wanted);
    }
    let far = SpelledAddress::Number(0x1_0000_0000);
    is(&rt, "far", &code_address(None, 0, far), &None);
    is(
        &rt,
        "based",
        &code_address(Some(0xffff_ffff), 0, far),
        &rva(1),
    );
}

#[test]
fn an_address_in_an_image_below_its_base_is_relative(rt: HostRuntime) {
    let base = Some(0x1_4000_0000);
    let nowhere = Some(CodeAddress::Nowhere);
    let rows = [
        (0, rva(0)),
        (0x4fff, rva(0x4fff)),
        (0x5000, nowhere),
        (0x1_3fff_ffff, nowhere),
        (0x1_4000_0000, rva(0)),
        (0x1_4000_1108, rva(0x1108)),
    ];
    for (address, wanted) in rows {
        let spelled = SpelledAddress::Number(address);
        is(
            &rt,
            "in the image",
            &code_address(base, 0x5000, spelled),
            &wanted,
        );
    }
    // Both below the base and below the size.
    let at = |address| code_address(Some(0x1000), 0x5000, SpelledAddress::Number(address));
    is(&rt, "below the base", &at(0xfff), &rva(0xfff));
    is(&rt, "at the base", &at(0x1000), &rva(0));
    is(&rt, "behind it", &at(0x4fff), &rva(0x3fff));
}

#[test]
fn hex_digits_are_a_number(rt: HostRuntime) {
    let rows: [(&[u8], Option<u64>); 8] = [
        (b"0", Some(0)),
        (b"0Af", Some(0xaf)),
        (b"fedcba9876543210", Some(0xfedc_ba98_7654_3210)),
        (b"0fedcba9876543210", None),
        (b"", None),
        (b"1g", None),
        (b"-1", None),
        (b"\xc3\xa9", None),
    ];
    for (word, wanted) in rows {
        is(&rt, "hex", &hex_in(word), &wanted);
        // None of them has a prefix, a backtick or a suffix.
        is(&rt, "address", &address_number(word), &wanted);
    }
    is(&rt, "prefix", &address_number(b"0xffh"), &None);
    is(&rt, "suffix", &address_number(b"ffh"), &Some(0xff));
    is(
        &rt,
        "halves",
        &address_number(b"12`00000034"),
        &Some(0x12_0000_0034),
    );
    is(&rt, "digits", &is_all_hex(b"09afAF"), &true);
    is(&rt, "a letter", &is_all_hex(b"09g"), &false);
    is(&rt, "no digit", &is_all_hex(b""), &true);
}
