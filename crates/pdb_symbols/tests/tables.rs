//! Tables whole, and every byte of every field.

use crate::tests::support::{OTHER_FORM, is, is_alone, parsed};
use crate::{BuildInfoSymbol, Symbol, SymbolData, SymbolIter, ThunkKind, TrampolineType};
use pdb_base::{
    Error, FallibleIterator, IdIndex, ParseBuffer, PdbInternalSectionOffset, Register, Result,
    SymbolIndex, TypeIndex,
};

#[test]
fn sixty_six_kinds_have_a_form(rt: HostRuntime) {
    let mut listed = 0u32;
    for number in 0..0x1_0000u32 {
        let [low, high, _, _] = number.to_le_bytes();
        let bytes = [low, high];
        let kind = u16::from_le_bytes(bytes);
        let refused = parsed(rt.alloc(), &bytes).err();
        if refused != Some(Error::UnimplementedSymbolKind(kind)) {
            listed = listed.saturating_add(1);
        }
    }
    is(&rt, "listed", &listed, &66);
}

#[test]
fn thirty_eight_kinds_start_scopes(rt: HostRuntime) {
    let mut starts = 0u32;
    for number in 0..0x1_0000u32 {
        let [low, high, _, _] = number.to_le_bytes();
        let bytes = [low, high];
        if let Some(symbol) = Symbol::new(SymbolIndex(0), &bytes) {
            if symbol.starts_scope() {
                starts = starts.saturating_add(1);
            }
        }
    }
    is(&rt, "starts", &starts, &38);
}

#[test]
fn three_kinds_end_scopes(rt: HostRuntime) {
    let mut ends = 0u32;
    for number in 0..0x1_0000u32 {
        let [low, high, _, _] = number.to_le_bytes();
        let bytes = [low, high];
        if let Some(symbol) = Symbol::new(SymbolIndex(0), &bytes) {
            if symbol.ends_scope() {
                ends = ends.saturating_add(1);
            }
        }
    }
    is(&rt, "ends", &ends, &3);
}

#[test]
fn two_kinds_fill_gaps(rt: HostRuntime) {
    let mut none = 0u32;
    for number in 0..0x1_0000u32 {
        let [low, high, _, _] = number.to_le_bytes();
        let bytes = [2, 0, low, high];
        let mut all = SymbolIter::new(ParseBuffer::from(&bytes[..]));
        if all.next() == Ok(None) {
            none = none.saturating_add(1);
        }
    }
    is(&rt, "none", &none, &2);
}

#[test]
fn kind_0x1013_has_nine_flags(rt: HostRuntime) -> Result<()> {
    let bytes =
        b"\x13\x10\x01\x00\xfe\x00\x07\x00\x01\x00\x02\x00\x03\x00\x01\x00\x02\x00\x03\x00\x01\x61";
    let SymbolData::CompileFlags(compiler) = parsed(rt.alloc(), bytes)? else {
        return Err(OTHER_FORM);
    };
    let flags = compiler.flags;
    is_alone(&rt, "a flag", &[flags.sdl, flags.pgo, flags.exp_module], 3);
    Ok(())
}

#[test]
fn types_and_registers_have_all_bytes(rt: HostRuntime) -> Result<()> {
    let bytes = b"\x06\x11\x04\x03\x02\x01\x06\x00\x61\x00";
    let SymbolData::RegisterVariable(variable) = parsed(rt.alloc(), bytes)? else {
        return Err(OTHER_FORM);
    };
    is(&rt, "type", &variable.type_index, &TypeIndex(0x0102_0304));
    Ok(())
}

#[test]
fn registers_have_two_bytes(rt: HostRuntime) -> Result<()> {
    let bytes = b"\x06\x11\x04\x03\x00\x00\x06\x05\x61\x00";
    let SymbolData::RegisterVariable(variable) = parsed(rt.alloc(), bytes)? else {
        return Err(OTHER_FORM);
    };
    is(&rt, "register", &variable.register, &Register(0x0506));
    Ok(())
}

const THUNK: &[u8] =
    b"\x02\x11\x01\x02\x03\x04\x05\x06\x07\x08\x09\x0a\x0b\x0c\x0d\x0e\x0f\x10\x11\x12\x13\x14\x01\x61\x00\x15\x16\x62\x00";

#[test]
fn thunks_have_a_length_of_two_bytes(rt: HostRuntime) -> Result<()> {
    let SymbolData::Thunk(thunk) = parsed(rt.alloc(), THUNK)? else {
        return Err(OTHER_FORM);
    };
    is(&rt, "len", &thunk.len, &0x1413);
    Ok(())
}

#[test]
fn thunks_have_a_parent_of_four_bytes(rt: HostRuntime) -> Result<()> {
    let SymbolData::Thunk(thunk) = parsed(rt.alloc(), THUNK)? else {
        return Err(OTHER_FORM);
    };
    is(
        &rt,
        "parent",
        &thunk.parent,
        &Some(SymbolIndex(0x0403_0201)),
    );
    Ok(())
}

#[test]
fn thunks_have_an_end_of_four_bytes(rt: HostRuntime) -> Result<()> {
    let SymbolData::Thunk(thunk) = parsed(rt.alloc(), THUNK)? else {
        return Err(OTHER_FORM);
    };
    is(&rt, "end", &thunk.end, &SymbolIndex(0x0807_0605));
    Ok(())
}

#[test]
fn adjustors_have_a_delta_of_two_bytes(rt: HostRuntime) -> Result<()> {
    let SymbolData::Thunk(thunk) = parsed(rt.alloc(), THUNK)? else {
        return Err(OTHER_FORM);
    };
    let ThunkKind::Adjustor(adjustor) = thunk.kind else {
        return Err(OTHER_FORM);
    };
    is(&rt, "delta", &adjustor.delta(), &0x1615);
    Ok(())
}

#[test]
fn references_have_a_sum(rt: HostRuntime) -> Result<()> {
    let bytes = b"\x25\x11\x01\x02\x03\x04\x05\x00\x00\x00\x09\x00\x61\x00";
    let SymbolData::ProcedureReference(reference) = parsed(rt.alloc(), bytes)? else {
        return Err(OTHER_FORM);
    };
    is(&rt, "sum", &reference.sum_name, &0x0403_0201);
    Ok(())
}

#[test]
fn ids_have_four_bytes(rt: HostRuntime) -> Result<()> {
    let wanted = SymbolData::BuildInfo(BuildInfoSymbol {
        id: IdIndex(0x8403_0201),
    });
    is(
        &rt,
        "id",
        &parsed(rt.alloc(), b"\x4c\x11\x01\x02\x03\x84")?,
        &wanted,
    );
    Ok(())
}

#[test]
fn procedures_have_a_body_of_whole_numbers(rt: HostRuntime) -> Result<()> {
    let bytes =
        b"\x10\x11\x00\x00\x00\x00\x02\x00\x00\x00\x00\x00\x00\x00\x01\x02\x03\x04\x05\x06\x07\x08\x09\x0a\x0b\x0c\x07\x00\x00\x00\x08\x00\x00\x00\x09\x00\x00\x61\x00";
    let SymbolData::Procedure(procedure) = parsed(rt.alloc(), bytes)? else {
        return Err(OTHER_FORM);
    };
    is(&rt, "len", &procedure.len, &0x0403_0201);
    is(&rt, "start", &procedure.dbg_start_offset, &0x0807_0605);
    is(&rt, "end", &procedure.dbg_end_offset, &0x0c0b_0a09);
    Ok(())
}

const TRAMPOLINE: &[u8] =
    b"\x2c\x11\x00\x00\x01\x02\x03\x04\x05\x06\x07\x08\x09\x0a\x0b\x0c\x0d\x0e";

#[test]
fn trampolines_have_a_size_of_two_bytes(rt: HostRuntime) -> Result<()> {
    let SymbolData::Trampoline(trampoline) = parsed(rt.alloc(), TRAMPOLINE)? else {
        return Err(OTHER_FORM);
    };
    is(&rt, "size", &trampoline.size, &0x0201);
    Ok(())
}

#[test]
fn trampolines_have_sections_of_two_bytes(rt: HostRuntime) -> Result<()> {
    let SymbolData::Trampoline(trampoline) = parsed(rt.alloc(), TRAMPOLINE)? else {
        return Err(OTHER_FORM);
    };
    is(
        &rt,
        "thunk",
        &trampoline.thunk,
        &PdbInternalSectionOffset::new(0x0c0b, 0x0605_0403),
    );
    is(
        &rt,
        "target",
        &trampoline.target,
        &PdbInternalSectionOffset::new(0x0e0d, 0x0a09_0807),
    );
    Ok(())
}

#[test]
fn ordinals_from_5_on_are_unknown(rt: HostRuntime) -> Result<()> {
    for ordinal in 5..=255u8 {
        let bytes = [
            0x02, 0x11, 1, 0, 0, 0, 2, 0, 0, 0, 3, 0, 0, 0, 4, 0, 0, 0, 5, 0, 6, 0, ordinal, 0x61,
            0,
        ];
        let SymbolData::Thunk(thunk) = parsed(rt.alloc(), &bytes)? else {
            return Err(OTHER_FORM);
        };
        is(&rt, "ordinal", &thunk.kind, &ThunkKind::Unknown(ordinal));
    }
    Ok(())
}

#[test]
fn trampolines_from_2_on_are_unknown(rt: HostRuntime) -> Result<()> {
    for number in 2..300u16 {
        let [low, high] = number.to_le_bytes();
        let bytes = [
            0x2c, 0x11, low, high, 1, 2, 3, 4, 5, 6, 7, 8, 9, 10, 11, 12, 13, 14,
        ];
        let SymbolData::Trampoline(trampoline) = parsed(rt.alloc(), &bytes)? else {
            return Err(OTHER_FORM);
        };
        is(
            &rt,
            "number",
            &trampoline.tramp_type,
            &TrampolineType::Unknown,
        );
    }
    Ok(())
}

#[test]
fn publics_have_no_other_flag(rt: HostRuntime) -> Result<()> {
    let bytes = b"\x0e\x11\xf0\xff\xff\xff\x04\x03\x02\x01\x06\x05\x61\x00";
    let SymbolData::Public(public) = parsed(rt.alloc(), bytes)? else {
        return Err(OTHER_FORM);
    };
    is_alone(
        &rt,
        "a flag",
        &[public.code, public.function, public.managed, public.msil],
        4,
    );
    Ok(())
}

#[test]
fn separated_code_has_a_length_of_four_bytes(rt: HostRuntime) -> Result<()> {
    let bytes =
        b"\x32\x11\x01\x02\x03\x04\x05\x06\x07\x08\x09\x0a\x0b\x0c\x00\x00\x00\x00\x0d\x0e\x0f\x10\x11\x12\x13\x14\x15\x16\x17\x18";
    let SymbolData::SeparatedCode(code) = parsed(rt.alloc(), bytes)? else {
        return Err(OTHER_FORM);
    };
    is(&rt, "len", &code.len, &0x0c0b_0a09);
    Ok(())
}

#[test]
fn data_stands_at_its_place(rt: HostRuntime) -> Result<()> {
    let rows: [(&[u8], u16, u32); 2] = [
        (b"\x0d\x11\x74\0\0\0\x10\0\0\0\x03\0\x61\0", 3, 16),
        (b"\x0c\x11\x20\0\0\0\xf0\x24\x01\0\x02\0\x61\0", 2, 74992),
    ];
    for (bytes, section, offset) in rows {
        let SymbolData::Data(data) = parsed(rt.alloc(), bytes)? else {
            return Err(OTHER_FORM);
        };
        let place = PdbInternalSectionOffset::new(section, offset);
        is(&rt, "place", &data.offset, &place);
    }
    Ok(())
}
