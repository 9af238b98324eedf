//! Thunks and trampolines.

use crate::tests::support::{OTHER_FORM, is, parsed, record, says_exactly};
use crate::{SymbolData, ThunkKind, ThunkSymbol, TrampolineSymbol, TrampolineType};
use pdb_base::{PdbInternalSectionOffset, RawString, Result, SymbolIndex};

#[test]
fn a_thunk_of_an_older_kind_adjusts_this(rt: HostRuntime) -> Result<()> {
    let bytes =
        b"\x06\x02\x00\x00\x00\x00\x10\x00\x00\x00\x00\x00\x00\x00\x20\x00\x00\x00\x01\x00\x09\x00\x01\x01\x74\x08\x00\x75\x00";
    let SymbolData::Thunk(thunk) = parsed(rt.alloc(), bytes)? else {
        return Err(OTHER_FORM);
    };
    is(&rt, "parent", &thunk.parent, &None);
    is(&rt, "end", &thunk.end, &SymbolIndex(16));
    is(&rt, "next", &thunk.next, &None);
    is(
        &rt,
        "offset",
        &thunk.offset,
        &PdbInternalSectionOffset::new(1, 0x20),
    );
    is(&rt, "len", &thunk.len, &9);
    is(&rt, "name", &thunk.name, &RawString::from("t"));
    let ThunkKind::Adjustor(adjustor) = thunk.kind else {
        return Err(OTHER_FORM);
    };
    is(&rt, "delta", &adjustor.delta(), &8);
    is(&rt, "target", &adjustor.target(), &RawString::from("u"));
    let wanted = SymbolData::Thunk(thunk);
    says_exactly(
        &rt,
        rt.alloc(),
        "the target cut too",
        bytes,
        &wanted,
        Some("t"),
    )
}

#[test]
fn a_thunk_of_pcode(rt: HostRuntime) -> Result<()> {
    let wanted = SymbolData::Thunk(ThunkSymbol {
        parent: None,
        end: SymbolIndex(0x166c),
        next: None,
        offset: PdbInternalSectionOffset::new(1, 0xb8c),
        len: 9,
        kind: ThunkKind::PCode,
        name: RawString::from("a"),
    });
    let bytes =
        b"\x02\x11\x00\x00\x00\x00\x6c\x16\x00\x00\x00\x00\x00\x00\x8c\x0b\x00\x00\x01\x00\x09\x00\x03\x61\x00";
    says_exactly(&rt, rt.alloc(), "pcode", bytes, &wanted, Some("a"))
}

#[test]
fn what_a_thunk_does_hangs_on_its_ordinal(rt: HostRuntime) -> Result<()> {
    let rows: [(&[u8], ThunkKind<'_>); 6] = [
        (b"\x00\x61\x00", ThunkKind::NoType),
        (b"\x02\x61\x00\x02\x01", ThunkKind::VCall(0x0102)),
        (b"\x03\x61\x00", ThunkKind::PCode),
        (b"\x04\x61\x00", ThunkKind::Load),
        (b"\x05\x61\x00", ThunkKind::Unknown(5)),
        (b"\xff\x61\x00", ThunkKind::Unknown(255)),
    ];
    for (more, kind) in rows {
        let bytes = record(
            rt.alloc(),
            0x1102,
            b"\x01\x00\x00\x00\x02\x00\x00\x00\x03\x00\x00\x00\x04\x00\x00\x00\x05\x00\x06\x00",
            more,
        )?;
        let wanted = SymbolData::Thunk(ThunkSymbol {
            parent: Some(SymbolIndex(1)),
            end: SymbolIndex(2),
            next: Some(SymbolIndex(3)),
            offset: PdbInternalSectionOffset::new(5, 4),
            len: 6,
            kind,
            name: RawString::from("a"),
        });
        says_exactly(&rt, rt.alloc(), "an ordinal", &bytes, &wanted, Some("a"))?;
    }
    Ok(())
}

#[test]
fn an_adjustors_target_is_zero_ended_whatever_the_kind(rt: HostRuntime) -> Result<()> {
    let rows: [(u16, &[u8]); 2] = [
        (0x1102, b"\x01\x61\x00\x08\x00\x75\x00"),
        (0x0206, b"\x01\x01\x61\x08\x00\x75\x00"),
    ];
    for (kind, more) in rows {
        let bytes = record(
            rt.alloc(),
            kind,
            b"\x01\x00\x00\x00\x02\x00\x00\x00\x03\x00\x00\x00\x04\x00\x00\x00\x05\x00\x06\x00",
            more,
        )?;
        let SymbolData::Thunk(thunk) = parsed(rt.alloc(), &bytes)? else {
            return Err(OTHER_FORM);
        };
        let ThunkKind::Adjustor(adjustor) = thunk.kind else {
            return Err(OTHER_FORM);
        };
        is(&rt, "target", &adjustor.target(), &RawString::from("u"));
        let wanted = SymbolData::Thunk(thunk);
        says_exactly(
            &rt,
            rt.alloc(),
            "the target cut too",
            &bytes,
            &wanted,
            Some("a"),
        )?;
    }
    Ok(())
}

#[test]
fn trampolines_have_two_places(rt: HostRuntime) -> Result<()> {
    let rows: [(&[u8], TrampolineType); 4] = [
        (b"\x00\x00", TrampolineType::Incremental),
        (b"\x01\x00", TrampolineType::BranchIsland),
        (b"\x02\x00", TrampolineType::Unknown),
        (b"\x00\x01", TrampolineType::Unknown),
    ];
    for (number, tramp_type) in rows {
        let bytes = record(
            rt.alloc(),
            0x112c,
            number,
            b"\x05\x00\x05\x00\x00\x00\x20\x7c\x00\x00\x02\x00\x03\x00",
        )?;
        let wanted = SymbolData::Trampoline(TrampolineSymbol {
            tramp_type,
            size: 5,
            thunk: PdbInternalSectionOffset::new(2, 5),
            target: PdbInternalSectionOffset::new(3, 0x7c20),
        });
        says_exactly(&rt, rt.alloc(), "a trampoline", &bytes, &wanted, None)?;
    }
    let wanted = SymbolData::Trampoline(TrampolineSymbol {
        tramp_type: TrampolineType::Incremental,
        size: 5,
        thunk: PdbInternalSectionOffset::new(2, 5),
        target: PdbInternalSectionOffset::new(2, 0x7c20),
    });
    let bytes = b"\x2c\x11\x00\x00\x05\x00\x05\x00\x00\x00\x20\x7c\x00\x00\x02\x00\x02\x00";
    says_exactly(&rt, rt.alloc(), "of one section", bytes, &wanted, None)
}
