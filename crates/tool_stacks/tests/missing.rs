//! Tests of the names without a PDB.

use super::fakes::{Fake, is, written};
use crate::KnownModule;
use pdb_stacks::ReturnAddresses;
use std::test::Fail;

/// A program that knows no module of these texts.
fn nothing<'a>() -> Fake<'a> {
    Fake {
        name: b"other",
        module: KnownModule::Pdb { is_x86: false },
        begin: 0,
        frames: &[],
    }
}

#[test]
fn names_are_counted(rt: HostRuntime) -> Result<(), Fail> {
    let text = b"b.dll+0x10 a.dll!f+0x1 B.dll+0x5\na.dll+0x3 a.dll+0x3";
    let out = written(rt.alloc(), text, ReturnAddresses::ButFirst, nothing())?;
    let wanted: &[u8] = b"b.dll+0x10 a.dll!f+0x1 B.dll+0x5\n\
a.dll+0x3 a.dll+0x3no PDB for b.dll (1 address)\n\
no PDB for a.dll (3 addresses)\n\
no PDB for B.dll (1 address)\n\
not answered\n";
    is(&rt, "text", &out.as_slice(), &wanted);
    Ok(())
}

#[test]
fn texts_without_references(rt: HostRuntime) -> Result<(), Fail> {
    let text: &[u8] = b"hello\n\nworld 0x00007ff61c2a1108";
    let out = written(rt.alloc(), text, ReturnAddresses::ButFirst, nothing())?;
    is(&rt, "text", &out.as_slice(), &text);
    Ok(())
}
