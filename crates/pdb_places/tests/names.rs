//! The public symbols before places.

use crate::public_names::{PublicName, PublicNames};
use crate::tests::files::is;
use pdb::{PdbInternalSectionOffset, Result, Stream, SymbolTable};
use std::alloc::Global;
use std::process::Abort;

/// A record of a kind with flags, a place and a name of one letter, which in older kinds has its length in front.
fn put(bytes: &mut Vec<u8>, kind: u16, place: (u16, u32), name: u8) -> Result<()> {
    bytes.extend_from_slice(&[14, 0])?;
    bytes.extend_from_slice(&kind.to_le_bytes())?;
    bytes.extend_from_slice(&[2, 0, 0, 0])?;
    bytes.extend_from_slice(&place.1.to_le_bytes())?;
    bytes.extend_from_slice(&place.0.to_le_bytes())?;
    let name = if kind < 0x1100 { [1, name] } else { [name, 0] };
    bytes.extend_from_slice(&name)?;
    Ok(())
}

/// The public symbols of a table.
fn publics<'a>(symbols: &'a SymbolTable<'a>) -> PublicNames<'a> {
    PublicNames::new(Some(symbols))
}

/// Where a public symbol stands, and the first letter of its name.
fn shown(public: Option<PublicName<'_>>) -> Option<(u16, u32, u8)> {
    let public = public?;
    let letter = *public.name.as_bytes().first()?;
    Some((public.place.section, public.place.offset, letter))
}

/// Before these places stand these public symbols, whatever was asked before.
fn publics_are(
    rt: &impl Abort,
    alloc: Global,
    bytes: &[u8],
    rows: &[(u16, u32, Option<(u16, u32, u8)>)],
) -> Result<()> {
    let symbols = SymbolTable::new(Stream::new(bytes).expect(rt, "a short stream"));
    let mut asked = publics(&symbols);
    for (section, offset, wanted) in rows {
        let place = PdbInternalSectionOffset::new(*section, *offset);
        let wanted = (*section, *offset, *wanted);
        let mut fresh = publics(&symbols);
        for _ in 0..3 {
            let given = (*section, *offset, shown(fresh.find(alloc, place)?));
            is(rt, "fresh", &given, &wanted);
        }
        let given = (*section, *offset, shown(asked.find(alloc, place)?));
        is(rt, "asked before", &given, &wanted);
    }
    Ok(())
}

#[test]
fn the_nearest_public_symbol_is_found(rt: HostRuntime) -> Result<()> {
    let mut bytes = Vec::new(rt.alloc());
    put(&mut bytes, 0x110e, (1, 0x20), b'a')?;
    put(&mut bytes, 0x110e, (2, 0), b'b')?;
    put(&mut bytes, 0x110d, (1, 0x18), b'd')?;
    put(&mut bytes, 0x1009, (1, 0x10), b'c')?;
    put(&mut bytes, 0x110e, (1, 0x20), b'e')?;
    put(&mut bytes, 0x110e, (1, 0x10), b'f')?;
    put(&mut bytes, 0x110e, (1, 0xffff_ffff), b'g')?;
    let rows = [
        (1, 0, None),
        (1, 0xf, None),
        (1, 0x10, Some((1, 0x10, b'c'))),
        (1, 0x1f, Some((1, 0x10, b'c'))),
        (1, 0x20, Some((1, 0x20, b'a'))),
        (1, 0xffff_fffe, Some((1, 0x20, b'a'))),
        (1, 0xffff_ffff, Some((1, 0xffff_ffff, b'g'))),
        (2, 0, Some((2, 0, b'b'))),
        (2, 0xffff_ffff, Some((2, 0, b'b'))),
        (0, 0xffff_ffff, None),
        (3, 0, None),
    ];
    publics_are(&rt, rt.alloc(), &bytes, &rows)
}

#[test]
fn symbols_that_cannot_be_read_are_passed(rt: HostRuntime) -> Result<()> {
    let mut bytes = Vec::new(rt.alloc());
    put(&mut bytes, 0x110e, (1, 0x10), b'a')?;
    // Its name has no zero byte.
    bytes.extend_from_slice(b"\x0e\0\x0e\x11\x02\0\0\0\x14\0\0\0\x01\0xy")?;
    put(&mut bytes, 0x110e, (1, 0x18), b'b')?;
    // A record that is too short ends the list.
    bytes.extend_from_slice(b"\x01\0\0\0")?;
    put(&mut bytes, 0x110e, (1, 0x1c), b'c')?;
    let rows = [
        (1, 0xf, None),
        (1, 0x14, Some((1, 0x10, b'a'))),
        (1, 0x1b, Some((1, 0x18, b'b'))),
        (1, 0x1c, Some((1, 0x18, b'b'))),
    ];
    publics_are(&rt, rt.alloc(), &bytes, &rows)?;
    publics_are(&rt, rt.alloc(), b"", &[(1, 0, None)])?;
    let mut none = PublicNames::new(None);
    for _ in 0..3 {
        let name = none.find(rt.alloc(), PdbInternalSectionOffset::new(1, 0))?;
        is(&rt, "no stream", &name.is_none(), &true);
    }
    Ok(())
}
