//! Names as the Itanium C++ ABI decorates them, with what `c++filt` prints for them.

use super::names::{are, is, stay};
use std::alloc::AllocError;

#[test]
fn names_of_several_parts(rt: HostRuntime) -> Result<(), AllocError> {
    are(
        &rt,
        rt.alloc(),
        [
            (
                b"_ZNSt9exceptionD1Ev".as_slice(),
                b"std::exception::~exception".as_slice(),
            ),
            (b"_ZN3tar5sniff4headEv", b"tar::sniff::head"),
            (b"_ZN3tar5sniffC1Ev", b"tar::sniff::sniff"),
            (b"_ZN3tar5sniffC2ERKS0_", b"tar::sniff::sniff"),
            (b"_ZN3tar5sniffD0Ev", b"tar::sniff::~sniff"),
            (b"_ZN3tar5sniffD2Ev", b"tar::sniff::~sniff"),
            (b"_ZNK3tar5sniff4sizeEv", b"tar::sniff::size"),
            (b"_ZNVK3tar4sizeEv", b"tar::size"),
            (b"_ZNrVK3tar4sizeEv", b"tar::size"),
            (b"_ZNKR3tar4sizeEv", b"tar::size"),
            (b"_ZNO3tar4sizeEv", b"tar::size"),
            (b"_ZN12_GLOBAL__N_14helpEv", b"(anonymous namespace)::help"),
            (b"_ZN10operations5deltaE", b"operations::delta"),
            (b"_ZN1fE", b"f"),
            (b"__imp__ZN3tar4sizeEv", b"__imp_tar::size"),
        ]
        .as_slice(),
    )
}

#[test]
fn names_of_rust(rt: HostRuntime) -> Result<(), AllocError> {
    are(
        &rt,
        rt.alloc(),
        [
            (
                b"_ZN4core3fmt9Formatter3pad17h0123456789abcdefE".as_slice(),
                b"core::fmt::Formatter::pad".as_slice(),
            ),
            (
                b"_ZN58_$LT$alloc..string..String$u20$as$u20$core..fmt..Debug$GT$3fmt17h0123456789abcdefE",
                b"<alloc::string::String as core::fmt::Debug>::fmt",
            ),
            (
                b"_ZN4core3ops8function6FnOnce40call_once$u7b$$u7b$vtable.shim$u7d$$u7d$17h0123456789abcdefE",
                b"core::ops::function::FnOnce::call_once{{vtable.shim}}",
            ),
            (
                b"_ZN1a45_$SP$$BP$$RF$$LT$$GT$$LP$$RP$$C$$u7e$$u20$b..17h0123456789abcdefE",
                b"a::@*&<>(),~ b::",
            ),
            (b"_ZN4a...17h0123456789abcdefE", b"a::."),
            (b"_ZN2_a17h0123456789abcdefE", b"_a"),
        ]
        .as_slice(),
    )
}

#[test]
fn names_that_are_not_of_rust(rt: HostRuntime) -> Result<(), AllocError> {
    are(
        &rt,
        rt.alloc(),
        [
            (
                b"_ZN17h0123456789abcdefE".as_slice(),
                b"h0123456789abcdef".as_slice(),
            ),
            (b"_ZN1f17h0123456789abcdefEv", b"f::h0123456789abcdef"),
            (b"_ZN1f17h0123456789abcdegE", b"f::h0123456789abcdeg"),
            (b"_ZN1f17h0123456789ABCDEFE", b"f::h0123456789ABCDEF"),
            (b"_ZN1f16h0123456789abcdeE", b"f::h0123456789abcde"),
            (b"_ZN1f17g0123456789abcdefE", b"f::g0123456789abcdef"),
            (b"_ZN4f$LTE", b"f$LT"),
        ]
        .as_slice(),
    )
}

#[test]
fn names_that_stay(rt: HostRuntime) -> Result<(), AllocError> {
    stay(
        &rt,
        rt.alloc(),
        [
            b"_ZNE".as_slice(),
            b"_ZN",
            b"_ZNK",
            b"_ZN1f",
            b"_ZN1fv",
            b"_ZNC1Ev",
            b"_ZND1Ev",
            b"_ZN3tarC3Ev",
            b"_ZN3tarD3Ev",
            b"_ZNKV3tarRE",
            b"_ZNR1fKE",
            b"_ZNRO1fE",
            b"_ZN1fE.cold",
            b"_ZN4core3fmt17h0123456789abcdefE.llvm.1",
            b"_ZN1fIiE1gEv",
            b"_ZN1fStE",
            b"_ZNSt1fB5cxx11Ev",
            b"_ZNSs4sizeEv",
            b"_ZNSaIcE1fEv",
            b"_ZN3tarpLERKS_",
            b"_ZN01fE",
            b"_ZN00001fE",
            b"_ZZN1f1gEvE1h",
            b"_ZTVN3tar5sniffE",
            b"_ZThn8_N3tar4sizeEv",
            b"_ZL3add",
            b"_ZStC1v",
            b"_ZN3a$b17h0123456789abcdefE",
            b"_ZN6a$XX$b17h0123456789abcdefE",
            b"_ZN6a$u1f$17h0123456789abcdefE",
            b"_ZN6a$u7f$17h0123456789abcdefE",
            b"_ZN6a$u2A$17h0123456789abcdefE",
            b"_ZN7a$u020$17h0123456789abcdefE",
            b"_ZN3$$$17h0123456789abcdefE",
        ]
        .as_slice(),
    )
}

/// An answer of more than 4,096 bytes isn't put.
#[test]
fn long_answers(rt: HostRuntime) -> Result<(), AllocError> {
    let mut decorated = Vec::from_slice(rt.alloc(), b"_ZN2046")?;
    let mut wanted = Vec::new(rt.alloc());
    for _ in 0..2046 {
        decorated.push(b'f')?;
        wanted.push(b'f')?;
    }
    decorated.extend_from_slice(b"C1E")?;
    let once = Vec::from_slice(rt.alloc(), &wanted)?;
    wanted.extend_from_slice(b"::")?;
    wanted.extend_from_slice(&once)?;
    is(&rt, rt.alloc(), &decorated, true, Some(&wanted))?;
    let mut longer = Vec::from_slice(rt.alloc(), b"_ZN2048f")?;
    longer.push(b'f')?;
    longer.extend_from_slice(decorated.get(7..).unwrap_or(b""))?;
    is(&rt, rt.alloc(), &longer, true, None)
}
