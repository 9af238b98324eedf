//! Tests of `requests`.

use crate::code_address::{CodeAddress, SpelledAddress};
use crate::options::{Detail, Options, OutputFormat};
use crate::requests::*;
use crate::tests::fakes::is;
use pdb_base::PdbInternalSectionOffset;

/// The line before a text.
fn heading_of(style: Style<'_>) -> Option<&[u8]> {
    match style {
        Style::Headed(word) => Some(word),
        _ => None,
    }
}

/// The argument of an object.
fn object_of(style: Style<'_>) -> Option<&[u8]> {
    match style {
        Style::Object(word) => Some(word),
        _ => None,
    }
}

/// An address with its argument.
const ELEVEN: AddressWord<'static> = AddressWord {
    argument: 2,
    word: b"0x11",
    address: SpelledAddress::Number(0x11),
};

#[test]
fn an_address_is_requested_as_options_say(rt: HostRuntime) {
    let plain = request_of(Options::default(), ELEVEN);
    is(&rt, "address", &plain.address, &CodeAddress::Rva(0x11));
    is(&rt, "detail", &plain.detail, &Detail::Plain);
    is(&rt, "heading", &heading_of(plain.style), &None);
    is(&rt, "object", &object_of(plain.style), &None);
    let options = Options {
        base: Some(1),
        addresses: true,
        detail: Detail::Variables,
        ..Options::default()
    };
    let headed = request_of(options, ELEVEN);
    is(&rt, "address", &headed.address, &CodeAddress::Rva(0x10));
    is(&rt, "detail", &headed.detail, &Detail::Variables);
    is(
        &rt,
        "heading",
        &heading_of(headed.style),
        &Some(b"0x11".as_slice()),
    );
    // An object has its argument, with --addresses too.
    for addresses in [false, true] {
        let options = Options {
            format: OutputFormat::Json,
            addresses,
            ..options
        };
        let object = request_of(options, ELEVEN);
        is(&rt, "address", &object.address, &CodeAddress::Rva(0x10));
        is(&rt, "heading", &heading_of(object.style), &None);
        is(
            &rt,
            "object",
            &object_of(object.style),
            &Some(b"0x11".as_slice()),
        );
    }
}

#[test]
fn an_argument_without_its_base_is_nowhere(rt: HostRuntime) {
    let far = AddressWord {
        argument: 2,
        word: b"100000000",
        address: SpelledAddress::Number(0x1_0000_0000),
    };
    let given = request_of(Options::default(), far);
    is(&rt, "address", &given.address, &CodeAddress::Nowhere);
}

#[test]
fn the_first_argument_that_needs_a_base(rt: HostRuntime) {
    let far = |argument| AddressWord {
        argument,
        word: b"100000000",
        address: SpelledAddress::Number(0x1_0000_0000),
    };
    let none = Options::default();
    let all = [ELEVEN, far(3), far(4)];
    is(&rt, "far", &first_needing(none, &all), &Some(3));
    is(&rt, "near", &first_needing(none, &[ELEVEN]), &None);
    is(&rt, "no address", &first_needing(none, &[]), &None);
    let based = none.with_base_of(0x1000, 0x5000);
    is(&rt, "base", &first_needing(based, &all), &None);
    let given = request_of(based, ELEVEN);
    is(&rt, "in the image", &given.address, &CodeAddress::Rva(0x11));
}

#[test]
fn a_line_is_a_request_where_it_is_an_address(rt: HostRuntime) {
    let plain = Options::default();
    for line in ["", "x", "100000000", "1:2:3", " 1"] {
        is(
            &rt,
            line,
            &request_in(plain, line.as_bytes()).is_none(),
            &true,
        );
    }
    let given = request_in(plain, b"1:10c").expect(&rt, "a place");
    let place = CodeAddress::Place(PdbInternalSectionOffset {
        section: 1,
        offset: 0x10c,
    });
    is(&rt, "place", &given.address, &place);
    let options = Options {
        base: Some(0x1_4000_0000),
        addresses: true,
        detail: Detail::Offsets,
        ..plain
    };
    let given = request_in(options, b"140001108").expect(&rt, "an address");
    is(&rt, "address", &given.address, &CodeAddress::Rva(0x1108));
    is(&rt, "detail", &given.detail, &Detail::Offsets);
    is(
        &rt,
        "heading",
        &heading_of(given.style),
        &Some(b"140001108".as_slice()),
    );
}
