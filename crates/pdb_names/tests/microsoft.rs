//! Names as Microsoft's C++ decorates them, with what `undname` prints for them without types and access.

use super::names::{are, is, stay};
use std::alloc::{AllocError, Global};
use std::process::Abort;

#[test]
fn plain_names(rt: HostRuntime) -> Result<(), AllocError> {
    are(
        &rt,
        rt.alloc(),
        [
            (
                b"?clamp@tour@@YAHHHH@Z".as_slice(),
                b"tour::clamp".as_slice(),
            ),
            (b"?f@@YAXXZ", b"f"),
            (b"?x@@3HA", b"x"),
            (b"?a@b@c@d@@QEAAXXZ", b"d::c::b::a"),
            (b"?f@f@@YAXXZ", b"f::f"),
            (b"__imp_?f@n@@YAXXZ", b"__imp_n::f"),
            (b"?f$1@n.m@@YAXXZ", b"n.m::f$1"),
        ]
        .as_slice(),
    )
}

#[test]
fn names_that_stay(rt: HostRuntime) -> Result<(), AllocError> {
    stay(
        &rt,
        rt.alloc(),
        [
            b"?bar@D@@WBA@EAAXXZ".as_slice(),
            b"??_C@_03FAAAOPJM@red?$AA@",
            b"?x@?1??f@@YAXXZ@4HA",
            b"?f@1@YAXXZ",
            b"?f@@",
            b"?",
            b"??",
            b"?f",
            b"?f@",
            b"?f@@@YAXXZ",
            b"?@@YAXXZ",
            b"?f@n@",
            b"?f@n@@",
            b"?1f@@YAXXZ",
            b"?f@?n@@YAXXZ",
            b"?f?g@@YAXXZ",
            b"?f@?Q@@YAXXZ",
            b"?f@n\n@@YAXXZ",
            b"__imp_?f@@",
            b"__imp___imp_?f@@YAXXZ",
            b"_?f@@YAXXZ",
        ]
        .as_slice(),
    )
}

/// What a name is of stands behind its components.
#[test]
fn kinds(rt: HostRuntime) -> Result<(), AllocError> {
    for kind in 0x20..0x7fu8 {
        let mut decorated = Vec::from_slice(rt.alloc(), b"?f@n@@")?;
        decorated.push(kind)?;
        let is_kind = b"0123456789ABCDEFIJKLMNQRSTUVYZ".contains(&kind);
        let wanted = is_kind.then_some(b"n::f".as_slice());
        is(&rt, rt.alloc(), &decorated, false, wanted)?;
    }
    Ok(())
}

#[test]
fn back_references(rt: HostRuntime) -> Result<(), AllocError> {
    are(
        &rt,
        rt.alloc(),
        [
            (b"?f@0@YAXXZ".as_slice(), b"f::f".as_slice()),
            (b"?f@n@1@YAXXZ", b"n::n::f"),
            (b"?f@n@0@YAXXZ", b"f::n::f"),
            (b"?f@n@n@m@2@YAXXZ", b"m::m::n::n::f"),
            (b"??0n@0@YAXXZ", b"n::n::n"),
            (
                b"?f@?A0x1@1@YAXXZ",
                b"`anonymous namespace'::`anonymous namespace'::f",
            ),
            (
                b"?a@b@c@d@e@f@g@h@i@j@9@YAXXZ",
                b"j::j::i::h::g::f::e::d::c::b::a",
            ),
            (
                b"?a@b@c@d@e@f@g@h@i@j@k@9@YAXXZ",
                b"j::k::j::i::h::g::f::e::d::c::b::a",
            ),
            (
                b"?a@b@c@d@e@f@g@h@i@i@j@9@YAXXZ",
                b"j::j::i::i::h::g::f::e::d::c::b::a",
            ),
        ]
        .as_slice(),
    )?;
    stay(
        &rt,
        rt.alloc(),
        [
            b"?f@n@2@YAXXZ".as_slice(),
            b"?f@f@1@YAXXZ",
            b"?a@b@c@d@e@f@g@h@i@9@YAXXZ",
            b"??0@YAXXZ",
            b"??00@YAXXZ",
        ]
        .as_slice(),
    )
}

#[test]
fn anonymous_namespaces(rt: HostRuntime) -> Result<(), AllocError> {
    are(
        &rt,
        rt.alloc(),
        [
            (
                b"?f@?A0x12345678@@YAXXZ".as_slice(),
                b"`anonymous namespace'::f".as_slice(),
            ),
            (b"?f@?A@@YAXXZ", b"`anonymous namespace'::f"),
            (b"?f@c@?A0x1@n@@YAXXZ", b"n::`anonymous namespace'::c::f"),
            (
                b"?f@?A0x1@?A0x2@2@YAXXZ",
                b"`anonymous namespace'::`anonymous namespace'::`anonymous namespace'::f",
            ),
        ]
        .as_slice(),
    )
}

#[test]
fn constructors(rt: HostRuntime) -> Result<(), AllocError> {
    are(
        &rt,
        rt.alloc(),
        [
            (
                b"??0bottom@tour@@QEAA@XZ".as_slice(),
                b"tour::bottom::bottom".as_slice(),
            ),
            (b"??1bottom@tour@@QEAA@XZ", b"tour::bottom::~bottom"),
            (b"??0c@@QEAA@XZ", b"c::c"),
            (
                b"??1?A0x1@@QEAA@XZ",
                b"`anonymous namespace'::~`anonymous namespace'",
            ),
        ]
        .as_slice(),
    )?;
    stay(
        &rt,
        rt.alloc(),
        [b"??0@QEAA@XZ".as_slice(), b"??1@QEAA@XZ", b"??0", b"??1"].as_slice(),
    )
}

/// A special name of the class c.
fn special(
    rt: &impl Abort,
    alloc: Global,
    code: &[u8],
    text: Option<&[u8]>,
) -> Result<(), AllocError> {
    let mut decorated = Vec::from_slice(alloc, b"??")?;
    decorated.extend_from_slice(code)?;
    decorated.extend_from_slice(b"c@@QEAAXXZ")?;
    let Some(text) = text else {
        return is(rt, alloc, &decorated, false, None);
    };
    let mut wanted = Vec::from_slice(alloc, b"c::")?;
    wanted.extend_from_slice(text)?;
    is(rt, alloc, &decorated, false, Some(&wanted))
}

#[test]
fn special_names(rt: HostRuntime) -> Result<(), AllocError> {
    for (code, text) in [
        (b"2".as_slice(), b"operator new".as_slice()),
        (b"3", b"operator delete"),
        (b"4", b"operator="),
        (b"5", b"operator>>"),
        (b"6", b"operator<<"),
        (b"7", b"operator!"),
        (b"8", b"operator=="),
        (b"9", b"operator!="),
        (b"A", b"operator[]"),
        (b"C", b"operator->"),
        (b"D", b"operator*"),
        (b"E", b"operator++"),
        (b"F", b"operator--"),
        (b"G", b"operator-"),
        (b"H", b"operator+"),
        (b"I", b"operator&"),
        (b"J", b"operator->*"),
        (b"K", b"operator/"),
        (b"L", b"operator%"),
        (b"M", b"operator<"),
        (b"N", b"operator<="),
        (b"O", b"operator>"),
        (b"P", b"operator>="),
        (b"Q", b"operator,"),
        (b"R", b"operator()"),
        (b"S", b"operator~"),
        (b"T", b"operator^"),
        (b"U", b"operator|"),
        (b"V", b"operator&&"),
        (b"W", b"operator||"),
        (b"X", b"operator*="),
        (b"Y", b"operator+="),
        (b"Z", b"operator-="),
    ] {
        special(&rt, rt.alloc(), code, Some(text))?;
    }
    Ok(())
}

#[test]
fn special_names_of_two_bytes(rt: HostRuntime) -> Result<(), AllocError> {
    for (code, text) in [
        (b"_0".as_slice(), b"operator/=".as_slice()),
        (b"_1", b"operator%="),
        (b"_2", b"operator>>="),
        (b"_3", b"operator<<="),
        (b"_4", b"operator&="),
        (b"_5", b"operator|="),
        (b"_6", b"operator^="),
        (b"_U", b"operator new[]"),
        (b"_V", b"operator delete[]"),
        (b"_7", b"`vftable'"),
        (b"_8", b"`vbtable'"),
        (b"_D", b"`vbase destructor'"),
        (b"_E", b"`vector deleting destructor'"),
        (b"_G", b"`scalar deleting destructor'"),
        (b"_R2", b"`RTTI Base Class Array'"),
        (b"_R3", b"`RTTI Class Hierarchy Descriptor'"),
        (b"_R4", b"`RTTI Complete Object Locator'"),
    ] {
        special(&rt, rt.alloc(), code, Some(text))?;
    }
    is(
        &rt,
        rt.alloc(),
        b"??_7square@tour@@6Bnamed@1@@",
        false,
        Some(b"tour::square::`vftable'"),
    )
}

#[test]
fn names_that_are_not_special(rt: HostRuntime) -> Result<(), AllocError> {
    for code in [
        b"B".as_slice(),
        b"a",
        b"@",
        b"?",
        b"_9",
        b"_A",
        b"_B",
        b"_C",
        b"_F",
        b"_H",
        b"_I",
        b"_L",
        b"_M",
        b"_S",
        b"_T",
        b"_X",
        b"__E",
        b"_R",
        b"_R0",
        b"_R1",
        b"_R5",
        b"_P",
    ] {
        special(&rt, rt.alloc(), code, None)?;
    }
    Ok(())
}
