//! Decorated names and what is put for them.

use crate::*;
use std::alloc::{AllocError, Global};
use std::process::Abort;

/// A name is put behind what is there, and whether a rule answered it is returned.
pub(crate) fn is(
    rt: &impl Abort,
    alloc: Global,
    decorated: &[u8],
    x86: bool,
    wanted: Option<&[u8]>,
) -> Result<(), AllocError> {
    let mut out = Vec::from_slice(alloc, b"> ")?;
    let is_answered = put_name(&mut out, decorated, x86)?;
    let mut text = Vec::from_slice(alloc, b"> ")?;
    text.extend_from_slice(wanted.unwrap_or(decorated))?;
    assert!(rt; is_answered == wanted.is_some(), "{decorated:?}");
    assert!(rt; out == text, "{decorated:?}: {out:?}");
    Ok(())
}

/// Each name is answered by the text beside it, on all machines.
pub(crate) fn are(
    rt: &impl Abort,
    alloc: Global,
    names: &[(&[u8], &[u8])],
) -> Result<(), AllocError> {
    for (decorated, wanted) in names {
        for x86 in [true, false] {
            is(rt, alloc, decorated, x86, Some(wanted))?;
        }
    }
    Ok(())
}

/// No rule answers these names, on any machine.
pub(crate) fn stay(rt: &impl Abort, alloc: Global, names: &[&[u8]]) -> Result<(), AllocError> {
    for decorated in names {
        for x86 in [true, false] {
            is(rt, alloc, decorated, x86, None)?;
        }
    }
    Ok(())
}

#[test]
fn names_of_c(rt: HostRuntime) -> Result<(), AllocError> {
    for (decorated, wanted) in [
        (b"_main".as_slice(), b"main".as_slice()),
        (b"_CloseHandle@4", b"CloseHandle"),
        (b"@f@8", b"f"),
        (b"__imp__CloseHandle@4", b"__imp_CloseHandle"),
        (b"__imp_@f@8", b"__imp_f"),
        (b"__start", b"_start"),
        (b"_f@65535", b"f"),
    ] {
        is(&rt, rt.alloc(), decorated, true, Some(wanted))?;
        is(&rt, rt.alloc(), decorated, false, None)?;
    }
    Ok(())
}

#[test]
fn names_of_one_part(rt: HostRuntime) -> Result<(), AllocError> {
    for (decorated, wanted) in [
        (b"_Z3addii".as_slice(), b"add".as_slice()),
        (b"_ZSt9terminatev", b"std::terminate"),
        (b"_Z10operationsv", b"operations"),
        (b"_Z12_GLOBAL__N_1v", b"(anonymous namespace)"),
        (b"__imp__Z1fv", b"__imp_f"),
        (b"_Z1f", b"f"),
    ] {
        for x86 in [true, false] {
            is(&rt, rt.alloc(), decorated, x86, Some(wanted))?;
        }
    }
    is(&rt, rt.alloc(), b"__Z3addii", true, Some(b"add"))?;
    is(&rt, rt.alloc(), b"__Z3addii", false, None)
}

#[test]
fn names_that_no_rule_answers(rt: HostRuntime) -> Result<(), AllocError> {
    for decorated in [
        b"main".as_slice(),
        b"",
        b"_",
        b"@",
        b"@f",
        b"_@4",
        b"_f@",
        b"_f@x",
        b"_f@123456",
        b"_f@4@4",
        b"_f?",
        b"_f\n",
        b"_f\x7f",
        b"?bar@D@@WBA@EAAXXZ",
        b"__imp_f",
        b"_Z1fIiEvT_",
        b"_Z1fB5cxx11v",
        b"_Z01fv",
        b"_Z5addi",
        b"_Z3add.cold",
        b"_Z00001f",
        b"_ZSt",
        b"_Z",
    ] {
        is(&rt, rt.alloc(), decorated, true, None)?;
        is(&rt, rt.alloc(), decorated, false, None)?;
    }
    Ok(())
}

#[test]
fn longest_name(rt: HostRuntime) -> Result<(), AllocError> {
    let mut decorated = Vec::from_slice(rt.alloc(), b"_")?;
    for _ in 0..4095 {
        decorated.push(b'f')?;
    }
    is(&rt, rt.alloc(), &decorated, true, decorated.get(1..))?;
    decorated.push(b'f')?;
    is(&rt, rt.alloc(), &decorated, true, None)
}
