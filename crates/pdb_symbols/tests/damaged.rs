//! Records that say nothing.

use crate::Symbol;
use crate::tests::support::{is, is_refused};
use pdb_base::{Error, SymbolIndex};
use std::alloc::AllocError;

#[test]
fn kinds_without_a_form_are_refused_by_their_number(rt: HostRuntime) {
    let rows: [(&[u8], u16); 8] = [
        (b"\x12\x10", 0x1012),
        (b"\xff\xff\x00", 0xffff),
        (b"\x00\x00", 0),
        (b"\x07\x00", 7),
        (b"\x02\x04", 0x0402),
        (b"\x04\x11", 0x1104),
        (b"\x48\x11\x00\x00\x00\x00", 0x1148),
        (b"\x61\x11", 0x1161),
    ];
    for (bytes, kind) in rows {
        is_refused(
            &rt,
            rt.alloc(),
            "no form",
            bytes,
            Error::UnimplementedSymbolKind(kind),
        );
    }
}

#[test]
fn names_that_are_not_all_there_are_the_end_of_the_data(rt: HostRuntime) {
    let rows: [(&str, &[u8]); 6] = [
        ("no name", b"\x08\x11\x70\x06\x00\x00"),
        ("no zero byte", b"\x08\x11\x70\x06\x00\x00\x61\x61"),
        ("no length", b"\x03\x10\x70\x06\x00\x00"),
        (
            "longer than the record",
            b"\x03\x10\x70\x06\x00\x00\x03\x61\x61",
        ),
        ("as long as a byte can say", b"\x29\x10\xff\x61"),
        (
            "a reference's name without its zero byte",
            b"\x26\x11\x00\x00\x00\x00\x00\x00\x00\x00\x01\x00\x61",
        ),
    ];
    for (label, bytes) in rows {
        is_refused(&rt, rt.alloc(), label, bytes, Error::UnexpectedEof);
    }
}

#[test]
fn a_symbol_is_its_index_and_at_least_two_bytes(rt: HostRuntime) {
    let symbol = Symbol::new(SymbolIndex(0), b"\x06\x00");
    is(
        &rt,
        "bytes",
        &symbol.map(|s| s.raw_bytes() == &b"\x06\x00"[..]),
        &Some(true),
    );
    is(
        &rt,
        "index",
        &symbol.map(|s| s.index()),
        &Some(SymbolIndex(0)),
    );
    is(&rt, "kind", &symbol.map(|s| s.raw_kind()), &Some(6));
    is(
        &rt,
        "the same",
        &(symbol == Symbol::new(SymbolIndex(0), b"\x06\x00")),
        &true,
    );
    is(
        &rt,
        "another index",
        &(symbol == Symbol::new(SymbolIndex(4), b"\x06\x00")),
        &false,
    );
    is(
        &rt,
        "other bytes",
        &(symbol == Symbol::new(SymbolIndex(0), b"\x06\x00\x00")),
        &false,
    );
    is(
        &rt,
        "one byte",
        &Symbol::new(SymbolIndex(0), b"\x06").is_none(),
        &true,
    );
}

#[test]
fn a_symbol_is_shown_by_its_kind_and_size(rt: HostRuntime) -> std::result::Result<(), AllocError> {
    let symbol = Symbol::new(SymbolIndex(12), b"\x06\x00");
    let text = format!(in rt.alloc(); "{symbol:?}")?;
    is(
        &rt,
        "two bytes",
        &text.as_str(),
        &"Some(Symbol{ kind: 0x6 [2 bytes] })",
    );
    let symbol = Symbol::new(
        SymbolIndex(0),
        b"\x4d\x11\x00\x00\x00\x00\x00\x00\x00\x00\x00\x00",
    );
    let text = format!(in rt.alloc(); "{symbol:?}")?;
    is(
        &rt,
        "twelve bytes",
        &text.as_str(),
        &"Some(Symbol{ kind: 0x114d [12 bytes] })",
    );
    Ok(())
}
