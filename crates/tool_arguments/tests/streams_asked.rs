//! Tests of `streams_asked`.

use crate::streams_asked::*;
use crate::tests::fakes::is;

/// The number of the stream that a word asks for, or the bytes of its name.
fn asked(word: &str) -> Result<u64, &[u8]> {
    match stream_of(word) {
        StreamAsked::Number(number) => Ok(number),
        StreamAsked::Name(name) => Err(name),
    }
}

#[test]
fn up_to_ten_digits_are_a_number(rt: HostRuntime) {
    let rows = [
        ("0", 0),
        ("7", 7),
        ("0012", 12),
        ("4294967296", 4294967296),
        ("9999999999", 9999999999),
    ];
    for (word, number) in rows {
        is(&rt, word, &asked(word), &Ok(number));
    }
}

#[test]
fn any_other_word_is_a_name(rt: HostRuntime) {
    let rows = [
        "",
        "/names",
        "-1",
        "0x1",
        "1 ",
        "00000000001",
        "99999999999",
        "/LinkInfo",
    ];
    for word in rows {
        is(&rt, word, &asked(word), &Err(word.as_bytes()));
    }
}
