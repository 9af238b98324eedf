//! Procedures and scopes.

use crate::tests::support::{
    OTHER_FORM, is, is_alone, is_refused, parsed, record, says, says_exactly,
};
use crate::{
    BinaryAnnotations, BlockSymbol, InlineSiteSymbol, LabelSymbol, ProcedureFlags, ProcedureSymbol,
    SeparatedCodeFlags, SeparatedCodeSymbol, Symbol, SymbolData,
};
use pdb_base::{
    Error, IdIndex, PdbInternalSectionOffset, RawString, Result, SymbolIndex, TypeIndex,
};

const NO_FLAG: ProcedureFlags = ProcedureFlags {
    nofpo: false,
    int: false,
    far: false,
    never: false,
    notreached: false,
    cust_call: false,
    noinline: false,
    optdbginfo: false,
};

#[test]
fn ends_of_scopes_say_nothing_more(rt: HostRuntime) -> Result<()> {
    let rows: [(&[u8], SymbolData<'_>); 3] = [
        (b"\x06\x00", SymbolData::ScopeEnd),
        (b"\x4e\x11", SymbolData::InlineSiteEnd),
        (b"\x4f\x11", SymbolData::ProcedureEnd),
    ];
    for (bytes, wanted) in &rows {
        says_exactly(&rt, rt.alloc(), "an end", bytes, wanted, None)?;
    }
    Ok(())
}

#[test]
fn a_global_procedure_without_parent_and_next(rt: HostRuntime) -> Result<()> {
    let wanted = SymbolData::Procedure(ProcedureSymbol {
        global: true,
        dpc: false,
        parent: None,
        end: SymbolIndex(560),
        next: None,
        len: 6,
        dbg_start_offset: 5,
        dbg_end_offset: 5,
        type_index: TypeIndex(4103),
        offset: PdbInternalSectionOffset::new(1, 21824),
        flags: NO_FLAG,
        name: RawString::from("a"),
    });
    let bytes =
        b"\x10\x11\x00\x00\x00\x00\x30\x02\x00\x00\x00\x00\x00\x00\x06\x00\x00\x00\x05\x00\x00\x00\x05\x00\x00\x00\x07\x10\x00\x00\x40\x55\x00\x00\x01\x00\x00\x61\x00";
    says_exactly(
        &rt,
        rt.alloc(),
        "a global procedure",
        bytes,
        &wanted,
        Some("a"),
    )
}

#[test]
fn a_local_procedure_with_debug_information_on_optimized_code(rt: HostRuntime) -> Result<()> {
    let mut flags = NO_FLAG;
    flags.optdbginfo = true;
    let wanted = SymbolData::Procedure(ProcedureSymbol {
        global: false,
        dpc: false,
        parent: None,
        end: SymbolIndex(412),
        next: None,
        len: 18,
        dbg_start_offset: 4,
        dbg_end_offset: 9,
        type_index: TypeIndex(4224),
        offset: PdbInternalSectionOffset::new(1, 22468),
        flags,
        name: RawString::from("a"),
    });
    let bytes =
        b"\x0f\x11\x00\x00\x00\x00\x9c\x01\x00\x00\x00\x00\x00\x00\x12\x00\x00\x00\x04\x00\x00\x00\x09\x00\x00\x00\x80\x10\x00\x00\xc4\x57\x00\x00\x01\x00\x80\x61\x00";
    says_exactly(
        &rt,
        rt.alloc(),
        "a local procedure",
        bytes,
        &wanted,
        Some("a"),
    )
}

#[test]
fn procedures_are_global_or_deferred_by_their_kind(rt: HostRuntime) -> Result<()> {
    let rows: [(u16, bool, bool, &[u8]); 8] = [
        (0x110f, false, false, b"\x61\x00"),
        (0x100a, false, false, b"\x01\x61"),
        (0x1110, true, false, b"\x61\x00"),
        (0x100b, true, false, b"\x01\x61"),
        (0x1146, false, false, b"\x61\x00"),
        (0x1147, true, false, b"\x61\x00"),
        (0x1155, false, true, b"\x61\x00"),
        (0x1156, false, true, b"\x61\x00"),
    ];
    let body =
        b"\x01\x00\x00\x00\x02\x00\x00\x00\x03\x00\x00\x00\x04\x00\x00\x00\x05\x00\x00\x00\x06\x00\x00\x00\x07\x00\x00\x00\x08\x00\x00\x00\x09\x00\x00";
    for (kind, global, dpc, name) in rows {
        let bytes = record(rt.alloc(), kind, body, name)?;
        let wanted = SymbolData::Procedure(ProcedureSymbol {
            global,
            dpc,
            parent: Some(SymbolIndex(1)),
            end: SymbolIndex(2),
            next: Some(SymbolIndex(3)),
            len: 4,
            dbg_start_offset: 5,
            dbg_end_offset: 6,
            type_index: TypeIndex(7),
            offset: PdbInternalSectionOffset::new(9, 8),
            flags: NO_FLAG,
            name: RawString::from("a"),
        });
        says_exactly(&rt, rt.alloc(), "a procedure", &bytes, &wanted, Some("a"))?;
    }
    Ok(())
}

fn procedure_flags(flags: ProcedureFlags) -> [bool; 8] {
    [
        flags.nofpo,
        flags.int,
        flags.far,
        flags.never,
        flags.notreached,
        flags.cust_call,
        flags.noinline,
        flags.optdbginfo,
    ]
}

#[test]
fn labels_have_the_eight_flags_of_procedures(rt: HostRuntime) -> Result<()> {
    let bits: [u8; 8] = [1, 2, 4, 8, 16, 32, 64, 128];
    for (k, bit) in bits.iter().enumerate() {
        let bytes = [0x05, 0x11, 0xe0, 0x5f, 0x97, 0, 1, 0, *bit, 0x61, 0];
        let SymbolData::Label(label) = parsed(rt.alloc(), &bytes)? else {
            return Err(OTHER_FORM);
        };
        is_alone(&rt, "a flag", &procedure_flags(label.flags), k);
    }
    let wanted = SymbolData::Label(LabelSymbol {
        offset: PdbInternalSectionOffset::new(1, 0x975fe0),
        flags: NO_FLAG,
        name: RawString::from("a"),
    });
    let rows: [(u16, &[u8]); 2] = [(0x1105, b"\x61\x00"), (0x0209, b"\x01\x61")];
    for (kind, name) in rows {
        let bytes = record(rt.alloc(), kind, b"\xe0\x5f\x97\x00\x01\x00\x00", name)?;
        says_exactly(&rt, rt.alloc(), "a label", &bytes, &wanted, Some("a"))?;
    }
    Ok(())
}

#[test]
fn blocks_have_a_parent_always(rt: HostRuntime) -> Result<()> {
    let rows: [(&[u8], u32, &str); 3] = [
        (
            b"\x03\x11\xf4\x95\x09\x00\x28\x97\x09\x00\x87\x01\x00\x00\x6c\xbf\xb8\x02\x01\x00\x00",
            0x995f4,
            "",
        ),
        (
            b"\x07\x02\xf4\x95\x09\x00\x28\x97\x09\x00\x87\x01\x00\x00\x6c\xbf\xb8\x02\x01\x00\x01\x61",
            0x995f4,
            "a",
        ),
        (
            b"\x03\x11\x00\x00\x00\x00\x28\x97\x09\x00\x87\x01\x00\x00\x6c\xbf\xb8\x02\x01\x00\x61\x00",
            0,
            "a",
        ),
    ];
    for (bytes, parent, name) in rows {
        let wanted = SymbolData::Block(BlockSymbol {
            parent: SymbolIndex(parent),
            end: SymbolIndex(0x99728),
            len: 391,
            offset: PdbInternalSectionOffset::new(1, 0x02b8_bf6c),
            name: RawString::from(name),
        });
        says_exactly(&rt, rt.alloc(), "a block", bytes, &wanted, Some(name))?;
    }
    Ok(())
}

#[test]
fn inlined_calls_keep_what_is_left_as_annotations(rt: HostRuntime) -> Result<()> {
    let bytes = b"\x4d\x11\x90\x01\x00\x00\xd0\x01\x00\x00\x79\x11\x00\x00\x0c\x06\x03\x00";
    let wanted = SymbolData::InlineSite(InlineSiteSymbol {
        parent: Some(SymbolIndex(0x190)),
        end: SymbolIndex(0x1d0),
        inlinee: IdIndex(4473),
        invocations: None,
        annotations: BinaryAnnotations::new(b"\x0c\x06\x03\x00"),
    });
    says(&rt, rt.alloc(), "an inlined call", bytes, &wanted, None)?;
    let counted = b"\x5d\x11\x00\x00\x00\x00\xd0\x01\x00\x00\x79\x11\x00\x00\x04\x03\x02\x01\x0c";
    let wanted = SymbolData::InlineSite(InlineSiteSymbol {
        parent: None,
        end: SymbolIndex(0x1d0),
        inlinee: IdIndex(4473),
        invocations: Some(0x0102_0304),
        annotations: BinaryAnnotations::new(b"\x0c"),
    });
    says(&rt, rt.alloc(), "a counted call", counted, &wanted, None)?;
    let bare = b"\x4d\x11\x00\x00\x00\x00\xd0\x01\x00\x00\x79\x11\x00\x00";
    let wanted = SymbolData::InlineSite(InlineSiteSymbol {
        parent: None,
        end: SymbolIndex(0x1d0),
        inlinee: IdIndex(4473),
        invocations: None,
        annotations: BinaryAnnotations::default(),
    });
    says(
        &rt,
        rt.alloc(),
        "a call without annotations",
        bare,
        &wanted,
        None,
    )?;
    for k in 2..14 {
        is_refused(
            &rt,
            rt.alloc(),
            "a call cut short",
            &bytes[..k],
            Error::UnexpectedEof,
        );
    }
    for k in 2..18 {
        is_refused(
            &rt,
            rt.alloc(),
            "a counted call cut short",
            &counted[..k],
            Error::UnexpectedEof,
        );
    }
    Ok(())
}

#[test]
fn separated_code_stands_apart_from_its_parent(rt: HostRuntime) -> Result<()> {
    let rows: [(&[u8], bool, bool); 4] = [
        (b"\x00\x00\x00\x00", false, false),
        (b"\x01\x00\x00\x00", true, false),
        (b"\x02\x00\x00\x00", false, true),
        (b"\xfc\xff\xff\xff", false, false),
    ];
    for (flags, islexicalscope, returnstoparent) in rows {
        let bytes = record(
            rt.alloc(),
            0x1132,
            b"\x00\x00\x00\x00\x6c\x00\x00\x00\x58\x00\x00\x00",
            flags,
        )?;
        let mut bytes = bytes;
        bytes.extend_from_slice(b"\xc4\xfc\x0a\x00\x38\x43\x00\x00\x01\x00\x02\x00")?;
        let wanted = SymbolData::SeparatedCode(SeparatedCodeSymbol {
            parent: SymbolIndex(0),
            end: SymbolIndex(0x6c),
            len: 88,
            flags: SeparatedCodeFlags {
                islexicalscope,
                returnstoparent,
            },
            offset: PdbInternalSectionOffset::new(1, 0xafcc4),
            parent_offset: PdbInternalSectionOffset::new(2, 0x4338),
        });
        says_exactly(&rt, rt.alloc(), "separated code", &bytes, &wanted, None)?;
    }
    let wanted = SymbolData::SeparatedCode(SeparatedCodeSymbol {
        parent: SymbolIndex(0),
        end: SymbolIndex(0x6c),
        len: 88,
        flags: SeparatedCodeFlags {
            islexicalscope: false,
            returnstoparent: false,
        },
        offset: PdbInternalSectionOffset::new(1, 0xafcc4),
        parent_offset: PdbInternalSectionOffset::new(1, 0x4338),
    });
    let bytes =
        b"\x32\x11\x00\x00\x00\x00\x6c\x00\x00\x00\x58\x00\x00\x00\x00\x00\x00\x00\xc4\xfc\x0a\x00\x38\x43\x00\x00\x01\x00\x01\x00";
    says_exactly(&rt, rt.alloc(), "of one section", bytes, &wanted, None)
}

// Each kind that starts a scope, each that ends one, and neighbours that do neither.
const STARTS: [u16; 38] = [
    0x0104, 0x0105, 0x0106, 0x0107, 0x0108, 0x0206, 0x0207, 0x0208, 0x100a, 0x100b, 0x1010, 0x1011,
    0x1015, 0x1016, 0x101a, 0x101b, 0x1102, 0x1103, 0x1104, 0x110f, 0x1110, 0x1114, 0x1115, 0x1118,
    0x1119, 0x112a, 0x112b, 0x1132, 0x1146, 0x1147, 0x1148, 0x1149, 0x114a, 0x114b, 0x114d, 0x1155,
    0x1156, 0x115d,
];

const ENDS: [u16; 3] = [0x0006, 0x114e, 0x114f];

const NEITHER: [u16; 12] = [
    0x0000, 0x0007, 0x0103, 0x0109, 0x0205, 0x0209, 0x1009, 0x100c, 0x1101, 0x1105, 0x114c, 0xffff,
];

#[test]
fn scopes_start_and_end_by_the_kind(rt: HostRuntime) {
    for (kinds, starts, ends) in [
        (&STARTS[..], true, false),
        (&ENDS[..], false, true),
        (&NEITHER[..], false, false),
    ] {
        for kind in kinds {
            let bytes = kind.to_le_bytes();
            let symbol = Symbol::new(SymbolIndex(0), &bytes);
            is(
                &rt,
                "starts a scope",
                &symbol.map(|s| s.starts_scope()),
                &Some(starts),
            );
            is(
                &rt,
                "ends a scope",
                &symbol.map(|s| s.ends_scope()),
                &Some(ends),
            );
        }
    }
}

#[test]
fn a_scope_starts_though_its_record_is_cut(rt: HostRuntime) {
    let symbol = Symbol::new(SymbolIndex(0), b"\x46\x11");
    is(
        &rt,
        "starts",
        &symbol.map(|s| s.starts_scope()),
        &Some(true),
    );
    is_refused(&rt, rt.alloc(), "cut", b"\x46\x11", Error::UnexpectedEof);
}
