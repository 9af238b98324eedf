//! The names of processors and of languages.

use crate::tests::support::is;
use crate::{language_name, processor_name};

// The name of a number by rows of numbers and names.
fn name_of<'a>(rows: &[(u16, &'a str)], number: u16) -> Option<&'a str> {
    for (k, name) in rows {
        if *k == number {
            return Some(*name);
        }
    }
    None
}

#[test]
fn processors_of_today(rt: HostRuntime) {
    let rows: [(u16, &str); 12] = [
        (0x00, "Intel8080"),
        (0x03, "Intel80386"),
        (0x07, "Pentium3"),
        (0x68, "ARM7"),
        (0xd0, "X64"),
        (0xf4, "ARMNT"),
        (0xf6, "ARM64"),
        (0xf7, "HybridX86ARM64"),
        (0xf8, "ARM64EC"),
        (0xf9, "ARM64X"),
        (0xff, "Unknown"),
        (0x100, "D3D11_Shader"),
    ];
    for (number, name) in rows {
        is(&rt, "a processor", &processor_name(number), &Some(name));
    }
    for number in [
        0x08, 0x0f, 0x19, 0x4f, 0x69, 0xf1, 0xf5, 0xfa, 0xfe, 0x101, 0xffff,
    ] {
        is(&rt, "no name", &processor_name(number), &None);
    }
}

#[test]
fn languages(rt: HostRuntime) {
    let rows: [(u16, &str); 25] = [
        (0x00, "C"),
        (0x01, "Cpp"),
        (0x02, "Fortran"),
        (0x03, "Masm"),
        (0x04, "Pascal"),
        (0x05, "Basic"),
        (0x06, "Cobol"),
        (0x07, "Link"),
        (0x08, "Cvtres"),
        (0x09, "Cvtpgd"),
        (0x0a, "CSharp"),
        (0x0b, "VB"),
        (0x0c, "ILAsm"),
        (0x0d, "Java"),
        (0x0e, "JScript"),
        (0x0f, "MSIL"),
        (0x10, "HLSL"),
        (0x11, "ObjC"),
        (0x12, "ObjCpp"),
        (0x13, "Swift"),
        (0x14, "AliasObj"),
        (0x15, "Rust"),
        (0x16, "Go"),
        (0x44, "D"),
        (0x53, "OldSwift"),
    ];
    for number in 0..=255u8 {
        let wanted = name_of(&rows, u16::from(number));
        is(&rt, "a language", &language_name(number), &wanted);
    }
}
