//! The lines of variables, and the frames behind which they stand.

use crate::tests::fakes::is;
use pdb::{PdbInternalSectionOffset, QualifiedName, RawString, Register, TypeIndex, Variant};
use pdb_records::Machine;
use pdb_resolve::{Frame, FunctionName, Location, Storage, VariableAt, VariableKind, VariablePart};
use std::alloc::{AllocError, Global};
use std::process::Abort;
use std::test::Fail;
use tool_addresses::variable_texts::{put_framed, put_variable};

/// A variable of the function itself.
fn variable<'a>(kind: VariableKind, location: Location, name: &'a str) -> VariableAt<'a> {
    VariableAt {
        owner: None,
        kind,
        type_index: TypeIndex(0x74),
        name: RawString::from(name),
        location,
    }
}

/// A local variable of a call, or of the function.
fn owned<'a>(owner: Option<usize>, name: &'a str) -> VariableAt<'a> {
    VariableAt {
        owner,
        ..variable(VariableKind::Local, Location::Nowhere, name)
    }
}

/// Where a part is.
fn parts(alloc: Global, rows: &[(u32, Storage)]) -> Result<Location, AllocError> {
    let mut all = Vec::new(alloc);
    for (offset, storage) in rows {
        all.push(VariablePart {
            offset: *offset,
            storage: *storage,
        })?;
    }
    Ok(Location::Parts(all))
}

/// That a variable has this line on x64.
fn line(
    rt: &impl Abort,
    alloc: Global,
    wanted: &str,
    variable: &VariableAt<'_>,
) -> Result<(), Fail> {
    let mut out = Vec::new(alloc);
    put_variable(&mut out, Some(Machine::X64), variable)?;
    is(rt, wanted, &out.as_slice(), &wanted.as_bytes());
    Ok(())
}

#[test]
fn words_and_names(rt: HostRuntime) -> Result<(), Fail> {
    let rows = [
        (VariableKind::Parameter, "a", "  param - a\n"),
        (VariableKind::Local, "b c", "  local - b c\n"),
        (VariableKind::Static, "", "  static -\n"),
        (VariableKind::Thread, "a\nb", "  thread - a b\n"),
        (VariableKind::Constant, "d", "  constant - d\n"),
    ];
    for (kind, name, wanted) in rows {
        line(
            &rt,
            rt.alloc(),
            wanted,
            &variable(kind, Location::Nowhere, name),
        )?;
    }
    Ok(())
}

#[test]
fn wheres(rt: HostRuntime) -> Result<(), Fail> {
    let place = PdbInternalSectionOffset {
        section: 3,
        offset: 0x10,
    };
    let rows = [
        (Location::Whole(Storage::Register(Register(330))), "rcx"),
        (
            Location::Whole(Storage::RegisterRelative(Register(335), 40)),
            "[rsp+40]",
        ),
        (
            Location::Whole(Storage::RegisterRelative(Register(335), 0)),
            "[rsp]",
        ),
        (Location::Whole(Storage::BasePointerRelative(-8)), "[rbp-8]"),
        (Location::Whole(Storage::FrameRelative(0, 8)), "[frame+8]"),
        (Location::Whole(Storage::FrameRelative(1, 8)), "[rsp+8]"),
        (Location::Whole(Storage::FrameRelative(2, -8)), "[rbp-8]"),
        (Location::Whole(Storage::Program(12)), "program:12"),
        (Location::At(place), "0003:00000010"),
        (Location::Value(Variant::U16(300)), "300"),
        (Location::Value(Variant::I32(-7)), "-7"),
    ];
    for (location, wanted) in rows {
        let text = format!(in rt.alloc(); "  local {wanted} x\n")?;
        let it = variable(VariableKind::Local, location, "x");
        line(&rt, rt.alloc(), text.as_str(), &it)?;
    }
    Ok(())
}

#[test]
fn parts_are_joined(rt: HostRuntime) -> Result<(), Fail> {
    let alloc = rt.alloc();
    let one = [(8, Storage::Register(Register(330)))];
    let two = [
        (0, Storage::Register(Register(331))),
        (4, Storage::RegisterRelative(Register(335), 16)),
        (12, Storage::Program(3)),
    ];
    let it = variable(VariableKind::Local, parts(alloc, &one)?, "x");
    line(&rt, alloc, "  local +8:rcx x\n", &it)?;
    let it = variable(VariableKind::Local, parts(alloc, &two)?, "x");
    line(
        &rt,
        alloc,
        "  local +0:rdx,+4:[rsp+16],+12:program:3 x\n",
        &it,
    )?;
    let it = variable(VariableKind::Local, parts(alloc, &[])?, "x");
    line(&rt, alloc, "  local  x\n", &it)
}

/// A frame of this name.
fn frame<'a>(name: &'a str) -> Frame<'a> {
    Frame {
        name: Some(FunctionName::Read(QualifiedName {
            scope: None,
            name: RawString::from(name),
        })),
        displacement: Some(1),
        file: None,
        line: 0,
        column: 0,
    }
}

#[test]
fn variables_stand_with_their_frames(rt: HostRuntime) -> Result<(), Fail> {
    let alloc = rt.alloc();
    let variables = [
        owned(None, "a"),
        owned(Some(1), "b"),
        owned(Some(0), "c"),
        owned(None, "d"),
        owned(Some(1), "e"),
        owned(Some(2), "f"),
    ];
    // Frames go from the last call to the first; a variable of another call has none.
    let frames = [frame("last"), frame("first"), frame("function")];
    let mut out = Vec::new(alloc);
    put_framed(&mut out, None, &variables, &frames)?;
    let wanted =
        "last\n??:0:0\n  local - b\n  local - e\nfirst\n??:0:0\n  local - c\nfunction\n??:0:0\n  local - a\n  local - d\n";
    is(&rt, "three frames", &out.as_slice(), &wanted.as_bytes());
    out.clear();
    put_framed(&mut out, None, &variables, &frames[2..])?;
    let wanted = "function\n??:0:0\n  local - a\n  local - d\n";
    is(&rt, "one frame", &out.as_slice(), &wanted.as_bytes());
    out.clear();
    put_framed(&mut out, None, &variables, &[])?;
    is(&rt, "no frame", &out.as_slice(), &b"".as_slice());
    Ok(())
}
