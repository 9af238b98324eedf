//! Lists of records.

ghost use Rattle.std.specs.Prelude.{◌≤◌, length};

use crate::tests::support::is;
use crate::{Symbol, SymbolIter, SymbolTable};
use pdb_base::{Error, FallibleIterator, ParseBuffer, Result, Stream, SymbolIndex};

// Two records behind the number with which a module's symbols begin.
const MODULE: &[u8] = b"\x00\x00\x00\x00\x02\x00\x4e\x11\x02\x00\x06\x00";

// A record of four bytes, the last two of which look like a length.
const NESTED: &[u8] = b"\x04\x00\x00\x00\x02\x00\x06\x00";

fn over(bytes: &[u8], place: usize) -> SymbolIter<'_>
    requires { length bytes.now ≤ 4294967295 }
{
    let mut buffer = ParseBuffer::from(bytes);
    buffer.seek(place);
    SymbolIter::new(buffer)
}

// What a call of `next` or `skip_to` gave: a symbol's index and kind, nothing, or a refusal.
#[derive(Clone, Copy, Debug, PartialEq)]
enum Answer {
    At(u32, u16),
    End,
    Refused(Error),
}

fn answer_of(answer: Result<Option<Symbol<'_>>>) -> Answer {
    match answer {
        Ok(Some(symbol)) => Answer::At(symbol.index().0, symbol.raw_kind()),
        Ok(None) => Answer::End,
        Err(error) => Answer::Refused(error),
    }
}

#[test]
fn a_list_begins_at_the_buffers_place_and_indices_are_places(rt: HostRuntime) {
    let mut all = over(MODULE, 4);
    is(&rt, "first", &answer_of(all.next()), &Answer::At(4, 0x114e));
    is(&rt, "second", &answer_of(all.next()), &Answer::At(8, 6));
    is(&rt, "end", &answer_of(all.next()), &Answer::End);
    is(&rt, "end again", &answer_of(all.next()), &Answer::End);
}

#[test]
fn seek_and_skip_to_go_on_after_the_end(rt: HostRuntime) {
    let mut all = over(MODULE, 12);
    is(&rt, "end", &answer_of(all.next()), &Answer::End);
    all.seek(SymbolIndex(8));
    is(&rt, "sought", &answer_of(all.next()), &Answer::At(8, 6));
    is(
        &rt,
        "skipped to",
        &answer_of(all.skip_to(SymbolIndex(8))),
        &Answer::At(8, 6),
    );
    is(&rt, "end behind it", &answer_of(all.next()), &Answer::End);
    is(
        &rt,
        "back",
        &answer_of(all.skip_to(SymbolIndex(4))),
        &Answer::At(4, 0x114e),
    );
    is(&rt, "on", &answer_of(all.next()), &Answer::At(8, 6));
}

#[test]
fn after_a_fault_the_list_has_ended_until_a_seek(rt: HostRuntime) {
    let mut all = over(NESTED, 0);
    let first = Symbol::new(SymbolIndex(0), b"\x00\x00\x02\x00");
    is(&rt, "first", &all.next(), &Ok(first));
    is(
        &rt,
        "fault",
        &answer_of(all.next()),
        &Answer::Refused(Error::UnexpectedEof),
    );
    is(&rt, "end", &answer_of(all.next()), &Answer::End);
    all.seek(SymbolIndex(4));
    is(&rt, "woken", &answer_of(all.next()), &Answer::At(4, 6));
    is(&rt, "end again", &answer_of(all.next()), &Answer::End);
}

#[test]
fn skip_to_gives_the_same_symbol_each_time(rt: HostRuntime) {
    let mut all = over(NESTED, 0);
    for _ in 0..1000 {
        is(
            &rt,
            "skipped to",
            &answer_of(all.skip_to(SymbolIndex(4))),
            &Answer::At(4, 6),
        );
        is(&rt, "end", &answer_of(all.next()), &Answer::End);
    }
}

#[test]
fn skip_to_past_the_end_gives_nothing_and_damage_is_refused(rt: HostRuntime) {
    let mut all = over(NESTED, 0);
    is(
        &rt,
        "past",
        &answer_of(all.skip_to(SymbolIndex(4294967295))),
        &Answer::End,
    );
    let refused = answer_of(all.skip_to(SymbolIndex(6)));
    is(
        &rt,
        "damage",
        &refused,
        &Answer::Refused(Error::UnexpectedEof),
    );
    is(&rt, "end", &answer_of(all.next()), &Answer::End);
    is(
        &rt,
        "woken",
        &answer_of(all.skip_to(SymbolIndex(4))),
        &Answer::At(4, 6),
    );
}

#[test]
fn records_that_fill_a_gap_make_no_symbol(rt: HostRuntime) {
    let bytes = b"\x03\x00\x07\x00\xff\x02\x00\x02\x04\x02\x00\x06\x00\x02\x00\x02\x04";
    let mut all = over(bytes, 0);
    is(&rt, "behind two", &answer_of(all.next()), &Answer::At(9, 6));
    is(&rt, "one at the end", &answer_of(all.next()), &Answer::End);
}

#[test]
fn damaged_lists_are_refused_by_name(rt: HostRuntime) {
    let rows: [(&str, &[u8], Answer); 6] = [
        (
            "a length of 1",
            b"\x01\x00\x06\x00",
            Answer::Refused(Error::SymbolTooShort),
        ),
        (
            "a length of 0",
            b"\x00\x00",
            Answer::Refused(Error::SymbolTooShort),
        ),
        (
            "half a length",
            b"\x02",
            Answer::Refused(Error::UnexpectedEof),
        ),
        (
            "a length past the end",
            b"\x03\x00\x06\x00",
            Answer::Refused(Error::UnexpectedEof),
        ),
        (
            "a length of 1 at the end",
            b"\x01\x00",
            Answer::Refused(Error::SymbolTooShort),
        ),
        ("no bytes", b"", Answer::End),
    ];
    for (label, bytes, wanted) in rows {
        assert!(rt; bytes.len() < 5);
        is(&rt, label, &answer_of(over(bytes, 0).next()), &wanted);
    }
}

#[test]
fn a_table_lists_its_stream(rt: HostRuntime) {
    let Some(stream) = Stream::new(NESTED) else {
        return;
    };
    let table = SymbolTable::new(stream);
    is(
        &rt,
        "all",
        &answer_of(table.iter().next()),
        &Answer::At(0, 0),
    );
    is(
        &rt,
        "from 4",
        &answer_of(table.iter_at(SymbolIndex(4)).next()),
        &Answer::At(4, 6),
    );
    is(
        &rt,
        "from past the end",
        &answer_of(table.iter_at(SymbolIndex(9)).next()),
        &Answer::End,
    );
    is(&rt, "one", &table.iter_at(SymbolIndex(4)).count(), &Ok(1));
}
