//! Names of modules.

use super::fakes::is;
use crate::same_module;
use std::test::Fail;

#[test]
fn names_of_one_module(rt: HostRuntime) -> Result<(), Fail> {
    let rows: [(&[u8], &[u8]); 12] = [
        (b"test_pdb", b"test-pdb.exe"),
        (b"KERNEL32.DLL", b"kernel32.pdb"),
        (b"cpp_lld", b"cpp-lld.pdb"),
        (b"ntdll", b"ntdll.dll"),
        (b"a.sys", b"A.OCX"),
        (b"a.drv", b"a"),
        (b"", b""),
        (b".exe", b".EXE"),
        (b".exe", b"_exe"),
        (b"a.exe.dll", b"a_exe"),
        (b"\xc3\xa9~1", b"\xc3\xa9_1.exe"),
        (b"a b", b"a_b"),
    ];
    for (a, b) in rows {
        is(&rt, "one module", &same_module(a, b), &true);
        is(&rt, "the other way round", &same_module(b, a), &true);
    }
    Ok(())
}

#[test]
fn names_of_two_modules(rt: HostRuntime) -> Result<(), Fail> {
    let rows: [(&[u8], &[u8]); 9] = [
        (b"a", b"b"),
        (b"a", b"aa"),
        (b"a.exe", b"a.exe.exe"),
        (b"a.com", b"a"),
        (b".exe", b""),
        (b"aexe", b"a"),
        (b"\xc3\xa9", b"__"),
        (b"\xc3\xa9", b"\xc3\x89"),
        (b"a1", b"a_"),
    ];
    for (a, b) in rows {
        is(&rt, "two modules", &same_module(a, b), &false);
        is(&rt, "the other way round", &same_module(b, a), &false);
    }
    Ok(())
}
