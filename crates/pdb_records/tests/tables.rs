//! Tables whole.

use crate::tests::support::{is, parsed};
use crate::{CookieKind, EntryKind, Record};
use pdb_base::{Error, Result, SymbolIndex};
use pdb_symbols::Symbol;

/// What a test returns where a record is of another kind than it should be.
const OTHER_RECORD: Error = Error::StreamNameNotFound;

#[test]
fn no_kind_is_read_by_both_layers(rt: HostRuntime) {
    let mut further = 0u32;
    let mut forms = 0u32;
    for number in 0..0x1_0000u32 {
        let [low, high, _, _] = number.to_le_bytes();
        let bytes = [low, high];
        let wanted = Error::UnimplementedSymbolKind(u16::from_le_bytes(bytes));
        let unread = parsed(&bytes).err() == Some(wanted);
        if !unread {
            further = further.saturating_add(1);
        }
        if let Some(symbol) = Symbol::new(SymbolIndex(0), &bytes) {
            if symbol.parse(rt.alloc()).err() != Some(wanted) {
                forms = forms.saturating_add(1);
                is(&rt, "read twice", &unread, &true);
            }
        }
    }
    is(&rt, "further records", &further, &57);
    is(&rt, "forms", &forms, &66);
}

#[test]
fn frame_flags_have_a_bit_each(rt: HostRuntime) -> Result<()> {
    for bit in 0..32u32 {
        let mut bytes = *b"\x12\x10\x68\0\0\0\0\0\0\0\0\0\0\0\x10\0\0\0\0\0\0\0\0\0\0\0\0\0";
        bytes[24..28].copy_from_slice(&1u32.wrapping_shl(bit).to_le_bytes());
        let Record::FrameProcedure(found) = parsed(&bytes)? else {
            return Err(OTHER_RECORD);
        };
        let f = found.flags;
        let flags = [
            f.alloca,
            f.setjmp,
            f.longjmp,
            f.inline_asm,
            f.eh,
            f.inline_spec,
            f.seh,
            f.naked,
            f.security_checks,
            f.async_eh,
            f.gs_no_stack_ordering,
            f.was_inlined,
            f.gs_check,
            f.safe_buffers,
            found.local_base == 1,
            found.local_base == 2,
            found.parameter_base == 1,
            found.parameter_base == 2,
            f.pogo_on,
            f.valid_counts,
            f.opt_speed,
            f.guard_cf,
            f.guard_cfw,
        ];
        for (k, flag) in flags.iter().enumerate() {
            is(&rt, "a flag", flag, &(k == bit as usize));
        }
    }
    Ok(())
}

#[test]
fn flags_of_variables_have_a_bit_each(rt: HostRuntime) -> Result<()> {
    for bit in 0..16u32 {
        let mut bytes = *b"\x53\x11\x22\0\0\0\xc0\x30\0\0\0\0\x67\0";
        let [low, high, _, _] = 1u32.wrapping_shl(bit).to_le_bytes();
        bytes[10] = low;
        bytes[11] = high;
        let Record::FileStatic(found) = parsed(&bytes)? else {
            return Err(OTHER_RECORD);
        };
        let f = found.flags;
        let flags = [
            f.param,
            f.addrtaken,
            f.compgenx,
            f.aggregate,
            f.aggregated,
            f.aliased,
            f.alias,
            f.retvalue,
            f.optimizedout,
            f.enreg_glob,
            f.enreg_stat,
        ];
        for (k, flag) in flags.iter().enumerate() {
            is(&rt, "a flag", flag, &(k == bit as usize));
        }
    }
    Ok(())
}

#[test]
fn kinds_of_cookies(rt: HostRuntime) -> Result<()> {
    let wanted = [
        CookieKind::Copy,
        CookieKind::XorStackPointer,
        CookieKind::XorBasePointer,
        CookieKind::XorR13,
        CookieKind::Unknown(4),
    ];
    for (k, kind) in wanted.iter().enumerate() {
        let bytes = [0x3a, 0x11, 1, 0, 0, 0, 2, 0, k as u8, 0];
        let Record::FrameCookie(found) = parsed(&bytes)? else {
            return Err(OTHER_RECORD);
        };
        is(&rt, "a cookie", &found.cookie, kind);
    }
    Ok(())
}

#[test]
fn kinds_of_entries(rt: HostRuntime) -> Result<()> {
    let wanted = [
        EntryKind::Int1,
        EntryKind::Uint1,
        EntryKind::Int2,
        EntryKind::Uint2,
        EntryKind::Int4,
        EntryKind::Uint4,
        EntryKind::Pointer,
        EntryKind::Uint1Shl1,
        EntryKind::Uint2Shl1,
        EntryKind::Int1Shl1,
        EntryKind::Int2Shl1,
        EntryKind::Unknown(11),
    ];
    for (k, kind) in wanted.iter().enumerate() {
        let mut bytes =
            *b"\x59\x11\x5c\0\0\0\x02\0\0\0\xb9\x04\0\0\x5d\0\0\0\x01\0\x03\0\x07\0\0\0";
        bytes[8] = k as u8;
        let Record::JumpTable(found) = parsed(&bytes)? else {
            return Err(OTHER_RECORD);
        };
        is(&rt, "an entry", &found.entry_kind, kind);
    }
    Ok(())
}
