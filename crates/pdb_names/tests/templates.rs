//! Names of templates as Microsoft's C++ decorates them, with what `undname` prints for them without types and access.

use super::names::{are, is, stay};
use std::alloc::{AllocError, Global};
use std::process::Abort;

#[test]
fn names_of_templates(rt: HostRuntime) -> Result<(), AllocError> {
    are(
        &rt,
        rt.alloc(),
        [
            (
                b"??1?$vec@H@lib@@QEAA@XZ".as_slice(),
                b"lib::vec<int>::~vec<int>".as_slice(),
            ),
            (
                b"??$?0$00@DName@@QEAA@PEBDU?$StringLifeSelector@$00@@@Z",
                b"DName::DName<1>",
            ),
            (
                b"??A?$array@H$05@tour@@QEAAAEAHH@Z",
                b"tour::array<int,6>::operator[]",
            ),
            (
                b"?f@?$A@U?$B@H@n@@U12@@@QEAAXXZ",
                b"A<n::B<int>,n::B<int> >::f",
            ),
            (
                b"??$f@$$CBUNothing@@@@YAXUNothing@@@Z",
                b"f<Nothing const >",
            ),
            (b"??$f@W4Enum@@@@YAXW4Enum@@@Z", b"f<enum Enum>"),
            (
                b"?push_back@?$vector@HV?$allocator@H@std@@@std@@QEAAX$$QEAH@Z",
                b"std::vector<int,std::allocator<int> >::push_back",
            ),
            (b"??$f@H@n@@YAXXZ", b"n::f<int>"),
            (b"??$?4H@c@@QEAAXXZ", b"c::operator=<int>"),
            (b"??$?RH@c@@QEAAXXZ", b"c::operator()<int>"),
            (b"??$?_0H@c@@QEAAXXZ", b"c::operator/=<int>"),
            (b"??$?1H@c@@QEAAXXZ", b"c::~c<int>"),
            (b"??$f@@@YAXXZ", b"f<>"),
            (b"??_7?$c@H@@6B@", b"c<int>::`vftable'"),
            (b"__imp_?f@?$c@H@@QEAAXXZ", b"__imp_c<int>::f"),
        ]
        .as_slice(),
    )
}

#[test]
fn names_that_stay(rt: HostRuntime) -> Result<(), AllocError> {
    stay(
        &rt,
        rt.alloc(),
        [
            b"?f@?$A@PEBQEBD$0?A@@@@YAXXZ".as_slice(),
            b"??$f@",
            b"??$f@H",
            b"??$f@H@",
            b"??$f@H@@",
            b"??$@H@@YAXXZ",
            b"??$1f@H@@YAXXZ",
            b"??$f?g@H@@YAXXZ",
            b"?f@?$@H@@@YAXXZ",
            b"??$?BH@c@@QEAAXXZ",
            b"??$?0H@@QEAAXXZ",
            b"??$f@V@@@YAXXZ",
            b"??$f@U?A0x1@@@@YAXXZ",
            b"??$f@W3Enum@@@@YAXXZ",
            b"??$f@W4@@@YAXXZ",
            b"??$f@P6AXXZ@@YAXXZ",
            b"??$f@PEAY02H@@YAXXZ",
            b"??$f@PEQc@@H@@YAXXZ",
            b"??$f@PEIAH@@YAXXZ",
            b"??$f@PEFAH@@YAXXZ",
            b"??$f@PEEAH@@YAXXZ",
            b"??$f@$$CEAH@@YAXXZ",
            b"??$f@$$A6AXXZ@@YAXXZ",
            b"??$f@$$BY02H@@YAXXZ",
            b"??$f@$1?x@@3HA@@YAXXZ",
            b"??$f@$H1@@YAXXZ",
            b"??$f@0@@YAXXZ",
        ]
        .as_slice(),
    )
}

/// The text of an argument, or none where no rule answers it.
fn argument(
    rt: &impl Abort,
    alloc: Global,
    code: &[u8],
    text: Option<&[u8]>,
) -> Result<(), AllocError> {
    let mut decorated = Vec::from_slice(alloc, b"??$f@")?;
    decorated.extend_from_slice(code)?;
    decorated.extend_from_slice(b"@n@@YAXXZ")?;
    let Some(text) = text else {
        return is(rt, alloc, &decorated, false, None);
    };
    let mut wanted = Vec::from_slice(alloc, b"n::f<")?;
    wanted.extend_from_slice(text)?;
    wanted.extend_from_slice(b">")?;
    is(rt, alloc, &decorated, false, Some(&wanted))
}

#[test]
fn simple_types(rt: HostRuntime) -> Result<(), AllocError> {
    for (code, text) in [
        (b"X".as_slice(), b"void".as_slice()),
        (b"D", b"char"),
        (b"C", b"signed char"),
        (b"E", b"unsigned char"),
        (b"F", b"short"),
        (b"G", b"unsigned short"),
        (b"H", b"int"),
        (b"I", b"unsigned int"),
        (b"J", b"long"),
        (b"K", b"unsigned long"),
        (b"M", b"float"),
        (b"N", b"double"),
        (b"O", b"long double"),
        (b"_J", b"__int64"),
        (b"_K", b"unsigned __int64"),
        (b"_N", b"bool"),
        (b"_W", b"wchar_t"),
        (b"_S", b"char16_t"),
        (b"_U", b"char32_t"),
        (b"_Q", b"char8_t"),
        (b"$$T", b"std::nullptr_t"),
        (b"HDN", b"int,char,double"),
    ] {
        argument(&rt, rt.alloc(), code, Some(text))?;
    }
    for code in [
        b"L".as_slice(),
        b"B",
        b"Y",
        b"Z",
        b"h",
        b"_D",
        b"_E",
        b"_L",
        b"_M",
        b"_R",
        b"_X",
        b"_",
        b"$$U",
        b"$T",
        b"$",
        b"W",
    ] {
        argument(&rt, rt.alloc(), code, None)?;
    }
    Ok(())
}

#[test]
fn numbers(rt: HostRuntime) -> Result<(), AllocError> {
    for (code, text) in [
        (b"$00".as_slice(), b"1".as_slice()),
        (b"$09", b"10"),
        (b"$0?0", b"-1"),
        (b"$0?9", b"-10"),
        (b"$0A@", b"0"),
        (b"$0?A@", b"-0"),
        (b"$0L@", b"11"),
        (b"$0BA@", b"16"),
        (b"$0?BA@", b"-16"),
        (b"$0BCDEFG@", b"1193046"),
        (b"$0PPPPPPPP@", b"4294967295"),
        (b"$0HPPPPPPPPPPPPPPP@", b"9223372036854775807"),
        (b"$0PPPPPPPPPPPPPPPP@", b"18446744073709551615"),
        (b"$0AAAAAAAAAAAAAAAB@", b"1"),
        (b"$00$01H", b"1,2,int"),
    ] {
        argument(&rt, rt.alloc(), code, Some(text))?;
    }
    for code in [
        b"$0".as_slice(),
        b"$0@",
        b"$0?",
        b"$0??0",
        b"$0Q@",
        b"$0AQ@",
        b"$0a@",
        b"$0A",
        b"$0AAAAAAAAAAAAAAAAB@",
    ] {
        argument(&rt, rt.alloc(), code, None)?;
    }
    Ok(())
}

#[test]
fn packs(rt: HostRuntime) -> Result<(), AllocError> {
    for (code, text) in [
        (b"$$V".as_slice(), b"".as_slice()),
        (b"$$Z", b""),
        (b"$S", b""),
        (b"H$$V", b"int"),
        (b"H$$ZD", b"int,char"),
        (b"$SH", b"int"),
    ] {
        argument(&rt, rt.alloc(), code, Some(text))?;
    }
    for code in [b"$V".as_slice(), b"$Z", b"$R", b"$$S", b"$$W"] {
        argument(&rt, rt.alloc(), code, None)?;
    }
    Ok(())
}

#[test]
fn classes(rt: HostRuntime) -> Result<(), AllocError> {
    for (code, text) in [
        (b"Tu@@".as_slice(), b"u".as_slice()),
        (b"Us@m@@", b"m::s"),
        (b"Vc@m@l@@", b"l::m::c"),
        (b"W4e@m@@", b"enum m::e"),
        (b"V?$c@H@@", b"c<int> "),
        (b"V?$c@V?$d@H@@@@", b"c<d<int> > "),
        (b"V?$c@H@m@@", b"m::c<int> "),
        (b"Uc@?A0x1@@", b"`anonymous namespace'::c"),
        (b"UcX@@U1@", b"cX,cX"),
        (b"Us@m@@U12@", b"m::s,m::s"),
        (b"U0@", b"f"),
        (b"Us@0@", b"f::s"),
        (b"V?$c@Us@@U1@@@U1@", b"c<s,s>,c<s,s> "),
    ] {
        argument(&rt, rt.alloc(), code, Some(text))?;
    }
    for code in [
        b"T@".as_slice(),
        b"U?A0x1@@",
        b"V??0c@@",
        b"Wc@@",
        b"W5e@@",
        b"U1@",
        b"Us@m@@U13@",
        b"Uc",
        b"V?$c@H@",
    ] {
        argument(&rt, rt.alloc(), code, None)?;
    }
    Ok(())
}

#[test]
fn pointers(rt: HostRuntime) -> Result<(), AllocError> {
    for (code, text) in [
        (b"PAH".as_slice(), b"int *".as_slice()),
        (b"PEAH", b"int *"),
        (b"PEBH", b"int const *"),
        (b"PECH", b"int volatile *"),
        (b"PEDH", b"int const volatile *"),
        (b"QEAH", b"int * const"),
        (b"REAH", b"int * volatile"),
        (b"SEAH", b"int * const volatile"),
        (b"AEAH", b"int &"),
        (b"AEBH", b"int const &"),
        (b"ABH", b"int const &"),
        (b"$$QEAH", b"int &&"),
        (b"$$QBH", b"int const &&"),
        (b"PEAPEAH", b"int * *"),
        (b"PEBQEBD", b"char const * const *"),
        (b"PEAQEAH", b"int * const *"),
        (b"PECQEAH", b"int * const volatile *"),
        (b"AEAPEBUs@m@@", b"m::s const * &"),
        (b"PEAV?$c@H@@", b"c<int> *"),
        (b"$$CAH", b"int "),
        (b"$$CBH", b"int const "),
        (b"$$CCH", b"int volatile "),
        (b"$$CDH", b"int const volatile "),
        (b"$$CBQEAH", b"int * const "),
        (b"$$CBPEAH", b"int * const "),
        (b"HPEBDPEAX", b"int,char const *,void *"),
    ] {
        argument(&rt, rt.alloc(), code, Some(text))?;
    }
    for code in [
        b"P".as_slice(),
        b"PE",
        b"PEA",
        b"PEEAH",
        b"PH",
        b"PEHH",
        b"BEAH",
        b"TEAH",
        b"$$QEA",
        b"$$C",
        b"$$CEH",
        b"$$CEAH",
        b"$QEAH",
    ] {
        argument(&rt, rt.alloc(), code, None)?;
    }
    Ok(())
}

/// Types stand in one another at most 16 deep.
#[test]
fn deep_types(rt: HostRuntime) -> Result<(), AllocError> {
    let mut code = Vec::new(rt.alloc());
    let mut text = Vec::from_slice(rt.alloc(), b"int")?;
    for _ in 0..15 {
        code.extend_from_slice(b"PEA")?;
        text.extend_from_slice(b" *")?;
    }
    code.push(b'H')?;
    argument(&rt, rt.alloc(), &code, Some(&text))?;
    let mut deeper = Vec::from_slice(rt.alloc(), b"PEA")?;
    deeper.extend_from_slice(&code)?;
    argument(&rt, rt.alloc(), &deeper, None)
}

/// Templates stand in one another at most 16 deep.
#[test]
fn deep_templates(rt: HostRuntime) -> Result<(), AllocError> {
    for (depth, is_answered) in [(15, true), (16, false)] {
        let mut code = Vec::new(rt.alloc());
        let mut text = Vec::new(rt.alloc());
        for _ in 0..depth {
            code.extend_from_slice(b"V?$c@")?;
            text.extend_from_slice(b"c<")?;
        }
        code.push(b'H')?;
        text.extend_from_slice(b"int> ")?;
        for k in 0..depth {
            code.extend_from_slice(b"@@")?;
            if k > 0 {
                text.extend_from_slice(b"> ")?;
            }
        }
        argument(
            &rt,
            rt.alloc(),
            &code,
            is_answered.then_some(text.as_slice()),
        )?;
    }
    Ok(())
}

/// A template has a table of its own, and is kept in that outside of it.
#[test]
fn tables_of_templates(rt: HostRuntime) -> Result<(), AllocError> {
    are(
        &rt,
        rt.alloc(),
        [
            (b"?f@?$A@U0@@@YAXXZ".as_slice(), b"A<A>::f".as_slice()),
            (b"?f@?$A@H@1@YAXXZ", b"A<int>::A<int>::f"),
            (b"?f@?$A@H@?$A@H@n@2@YAXXZ", b"n::n::A<int>::A<int>::f"),
            (
                b"?f@?$A@H@?$A@D@n@2@YAXXZ",
                b"A<char>::n::A<char>::A<int>::f",
            ),
            (b"??$A@H@n@0@YAXXZ", b"n::n::A<int>"),
            (b"??$?0H@n@0@YAXXZ", b"n::n::n<int>"),
            (b"??$f@Us@m@@@n@0@YAXXZ", b"n::n::f<m::s>"),
        ]
        .as_slice(),
    )?;
    stay(
        &rt,
        rt.alloc(),
        [
            b"?f@?$A@U1@@@YAXXZ".as_slice(),
            b"?f@?$A@Us@@@2@YAXXZ",
            b"??$A@H@1@YAXXZ",
        ]
        .as_slice(),
    )
}

/// Back-references that double a text at each step stop at 4,096 bytes.
#[test]
fn hostile_names(rt: HostRuntime) -> Result<(), AllocError> {
    let mut decorated = Vec::from_slice(rt.alloc(), b"?f@")?;
    for _ in 0..14 {
        decorated.extend_from_slice(b"?$A@U")?;
    }
    decorated.extend_from_slice(b"?$A@HHHHHHHHHHHHHHHH@@")?;
    for _ in 0..14 {
        decorated.extend_from_slice(b"U1@U1@U1@U1@@@")?;
    }
    decorated.extend_from_slice(b"@YAXXZ")?;
    is(&rt, rt.alloc(), &decorated, false, None)?;
    let mut many = Vec::from_slice(rt.alloc(), b"?f@?$A@")?;
    for _ in 0..1000 {
        many.push(b'H')?;
    }
    many.push(b'@')?;
    for _ in 0..3000 {
        many.push(b'1')?;
    }
    many.extend_from_slice(b"@YAXXZ")?;
    is(&rt, rt.alloc(), &many, false, None)
}
